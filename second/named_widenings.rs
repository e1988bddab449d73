// The widenings that the papers name, and those that a close reading of them settles.
// It leans on named, answer, case, room and outcome.

use crate::answer::Answer;
use crate::board::{Claim, Combination};
use crate::case::{hex, Known};
use crate::job::Form;
use crate::named::{in_form, with_excuses, EQUAL_AS_WIRES, J1, J2, J3, J4, J5, J6, J6_WIDENED, J7};
use crate::named::{EMPTY, FIRST_IS_0, FIRST_IS_1, FIRST_IS_BOTH, FIRST_IS_EITHER, NONE};
use crate::outcome::{Outcome, Refusal, ANSWER, JOB, JOB_Q, TABLES};
use crate::room::{no_room, MOST_ROOM, ROOM};

/// EQUAL_AS_WIRES with both cells seeing both wires, and its first two rules alone.
const EQUAL_WIDENED: &str = "02 04 07 02 00 01 02 00 01 02 00 04 00 02 04 07 04 00 02 05 06";
/// No wires, and a rule that always holds.
const ALWAYS: &str = "00 00 00 01 00 02 00 01";

/// P and Q, the answer sheet, the room, and what must come of them.
pub type Named = (Vec<u8>, Vec<u8>, Vec<u8>, usize, Known);

pub fn named(form: Form) -> Vec<Named> {
    let of = |sheet: &str| in_form(form, sheet);
    let mut named = named_successes(&of);
    named.extend(named_refusals(&of));
    named.extend(named_orders(&of));
    if form == Form::Two {
        named.extend(named_excused());
    }
    named
}

fn tables(a: &[u8], b: &[u8]) -> Vec<u8> {
    Answer::Tables([a.to_vec(), b.to_vec()]).sheet()
}

fn walk(entries: &[(usize, usize)]) -> Vec<u8> {
    Answer::Walk(entries.iter().map(|entry| (Claim(entry.0), Combination(entry.1))).collect()).sheet()
}

fn refused(code: u8, place: usize, sheet: u64) -> Known {
    Known::Outcome(Outcome::refused(Refusal { code, place }, sheet))
}

/// At this combination this rule of P is the lowest-numbered one that is broken.
fn broken(place: usize, rule: usize) -> Known {
    Known::Outcome(Outcome::rule_broken(place, rule))
}

fn more_asked() -> Known {
    refused(14, 0, JOB_Q)
}

fn fits(a: &[u8], b: &[u8]) -> Known {
    Known::Wrote(TABLES, tables(a, b))
}

/// The paper's widened job first, then jobs whose answers need not be the first pair.
fn named_successes(of: &dyn Fn(&str) -> Vec<u8>) -> Vec<Named> {
    vec![
        (of(J6), of(J6_WIDENED), tables(&[0], &[0, 1]), ROOM, fits(&[0, 0], &[0, 1])),
        (of(J6), of(J6_WIDENED), tables(&[1], &[0, 1]), MOST_ROOM, fits(&[1, 1], &[0, 1])),
        (of(J6), of(J6), tables(&[0], &[0, 1]), ROOM, fits(&[0], &[0, 1])),
        (of(J2), of(J2), tables(&[0, 0], &[1, 1]), ROOM + 1, fits(&[0, 0], &[1, 1])),
        (of(J1), of(J1), tables(&[1], &[0]), ROOM, fits(&[1], &[0])),
        (of(J5), of(J1), tables(&[1], &[0]), ROOM, fits(&[1], &[0])),
        (of(EQUAL_AS_WIRES), of(EQUAL_WIDENED), tables(&[0, 1], &[0, 1]), ROOM, fits(&[0, 1, 0, 1], &[0, 0, 1, 1])),
    ]
}

/// One cause each.
fn named_refusals(of: &dyn Fn(&str) -> Vec<u8>) -> Vec<Named> {
    let walk_given = || refused(15, 0, ANSWER);
    vec![
        (of(J6_WIDENED), of(J6), tables(&[0, 0], &[0, 1]), ROOM, more_asked()),
        (of(J6), of(J7), tables(&[0], &[0, 1]), ROOM, more_asked()),
        (of(J6), of(J1), tables(&[0], &[0, 1]), ROOM, more_asked()),
        (of(J1), of(J5), tables(&[0], &[1]), ROOM, more_asked()),
        (of(J1), of(J4), tables(&[0], &[0]), ROOM, more_asked()),
        (of(J1), of(ALWAYS), tables(&[0], &[0]), ROOM, more_asked()),
        (of(J5), of(ALWAYS), tables(&[0], &[1]), ROOM, more_asked()),
        (of(J7), of(J6), walk(&[(2, 1), (1, 1), (3, 0), (1, 0)]), ROOM, walk_given()),
        (of(J3), of(J3), walk(&[(0, 2), (7, 3), (3, 3), (6, 2), (1, 0), (5, 0)]), ROOM, walk_given()),
        (of(J4), of(J4), walk(&[(0, 0), (2, 0), (1, 0), (2, 0)]), ROOM, walk_given()),
        (of(J6), of(J6_WIDENED), tables(&[0], &[0, 1]), ROOM - 1, no_room()),
        (of(J1), of(J1), tables(&[0], &[0]), 8, no_room()),
        (of(J1), of(J1), tables(&[0], &[0]), 0, no_room()),
    ]
}

/// Several causes at once; further down there are fewer of them.
fn named_orders(of: &dyn Fn(&str) -> Vec<u8>) -> Vec<Named> {
    let stands = walk(&[(2, 1), (1, 1), (3, 0), (1, 0)]);
    let over = [of(J1), vec![0]].concat();
    let length = over.len();
    vec![
        (hex(""), hex(""), Vec::new(), 0, refused(1, 0, JOB)),
        (hex("0D"), hex("0D"), Vec::new(), 0, refused(2, 0, JOB)),
        (of(J7), hex("0D"), Vec::new(), 0, refused(2, 0, JOB_Q)),
        (of(J7), hex(""), Vec::new(), 0, refused(1, 0, JOB_Q)),
        (of(J7), over, Vec::new(), 0, refused(5, length - 1, JOB_Q)),
        (of(J7), of(J1), Vec::new(), 0, refused(7, 0, ANSWER)),
        (of(J7), of(J1), tables(&[0], &[1]), 0, broken(0, 0)),
        (of(J7), of(J1), walk(&[(2, 1), (1, 1), (3, 1), (1, 0)]), 0, refused(12, 2, ANSWER)),
        (of(J7), of(J1), stands, 0, refused(15, 0, ANSWER)),
        (of(J6), of(J1), tables(&[0], &[0, 1]), 0, more_asked()),
        (of(J6), of(J6_WIDENED), tables(&[0], &[0, 1]), 0, no_room()),
    ]
}

/// J7 with excuses, to J6 with others; and J6 with excuses, to J6 widened with others.
fn named_excused() -> Vec<Named> {
    let widened = || fits(&[0], &[0, 0]);
    let of_j7 = |excuses: &str, wider: &str, known: Known| {
        (with_excuses(J7, excuses), with_excuses(J6, wider), tables(&[0], &[0]), ROOM, known)
    };
    let of_j6 = |excuses: &str, wider: &str, known: Known| {
        (with_excuses(J6, excuses), with_excuses(J6_WIDENED, wider), tables(&[0], &[0, 1]), ROOM, known)
    };
    vec![
        of_j7(FIRST_IS_1, FIRST_IS_1, widened()),
        of_j7(FIRST_IS_1, FIRST_IS_EITHER, widened()),
        of_j7(FIRST_IS_1, EMPTY, widened()),
        of_j7(FIRST_IS_1, NONE, more_asked()),
        of_j7(FIRST_IS_1, FIRST_IS_0, more_asked()),
        of_j7(FIRST_IS_1, FIRST_IS_BOTH, more_asked()),
        of_j7(EMPTY, EMPTY, widened()),
        // Together they excuse the same as the empty one.
        of_j7(EMPTY, FIRST_IS_EITHER, more_asked()),
        of_j7(FIRST_IS_EITHER, EMPTY, widened()),
        of_j7(FIRST_IS_EITHER, FIRST_IS_1, more_asked()),
        of_j7(FIRST_IS_0, EMPTY, broken(1, 1)),
        // An excuse that never holds counts all the same.
        of_j6(FIRST_IS_BOTH, NONE, more_asked()),
        of_j6(FIRST_IS_BOTH, FIRST_IS_0, fits(&[0, 0], &[0, 1])),
        of_j6(NONE, EMPTY, fits(&[0, 0], &[0, 1])),
        of_j6(NONE, FIRST_IS_BOTH, fits(&[0, 0], &[0, 1])),
    ]
}
