// The cases of the checker: the answers that the papers name, then random boards with answers right and wrong.
// Each random board is expanded once, so that right answers are at hand, and then gets several answers.
// Boards with excuses also get the answers that would be right without them.
// It leans on make, ties, damage, given, spoil, moving and check.

use crate::answer::{Answer, Walk, LONGEST_WALK};
use crate::board::{Board, Claim, Combination};
use crate::case::{hex, Call, Case, Judgement, Known, LONGEST_SLICE, USUAL_COUNT};
use crate::check::check_outcome;
use crate::damage::damage;
use crate::expand::Expansion;
use crate::given::Given;
use crate::job::{Form, JobSheet, MOST_RULES, MOST_WIRES};
use crate::make::{fitting_job, job_of_size, random_job, tied_job};
use crate::moving::move_sheet;
use crate::named::{in_form, with_excuses, EQUAL_AS_WIRES, J1, J2, J3, J4, J5, J6, J6_WIDENED, J7};
use crate::named::{EMPTY, FIRST_IS_0, FIRST_IS_1, FIRST_IS_BOTH, FIRST_IS_EITHER, NONE, NOT_BOTH_HIGH, SPEED_WIRES};
use crate::outcome::{Outcome, Refusal, ANSWER, JOB};
use crate::random::Random;
use crate::spoil::{random_walk, spoil_sheet, spoil_tables, spoil_walk};
use crate::ties::ring_job;

const ANSWERS_EACH: usize = 12;

pub const CHECKER: Call = Call {
    op: b'c',
    name: "check",
    form: Form::One,
    writes: 0,
    count: USUAL_COUNT,
    codes: &[1, 2, 3, 4, 5, 7, 8, 9, 10, 11, 12, 13, 20, 21],
    foremost: &[],
    balanced: false,
    named: named_answers,
    make: random_answers,
    judge: |form, slices, _| Judgement::outcome(check_outcome(form, &slices[0], &slices[1])),
};

/// The checker in form two, on form one's cases whose job sheets can be moved, moved: with one seed those that it has
/// just checked in form one. The outcome must be the same.
pub const WITHOUT_EXCUSES: Call = Call {
    name: "check without excuses",
    count: 40_000,
    codes: &[7, 8, 9, 10, 11, 12, 13, 20, 21],
    named: |_, random| without_excuses(named_answers(Form::One, random)),
    make: |_, random| without_excuses(random_answers(Form::One, random)),
    ..CHECKER
};

/// The answers that the paper names, and walks at both sides of the longest.
fn named_answers(form: Form, _: &mut Random) -> Vec<Case> {
    let of = |sheet: &str| in_form(form, sheet);
    let round = [(0, 0), (2, 0), (1, 0), (3, 0)];
    let longest: Vec<(usize, usize)> = round.into_iter().cycle().take(LONGEST_WALK).collect();
    let beyond = [&longest[..], &[(0, 0)]].concat();
    let tables_20 = Outcome::success(20);
    let walk_21 = Outcome::success(21);
    let mut cases = vec![
        case(of(J1), hex("01 00 00 01 00 00 00 00"), Some(tables_20)),
        case(of(J2), tables(&[0, 0], &[1, 1]).sheet(), Some(tables_20)),
        case(of(J2), tables(&[0, 0], &[0, 0]).sheet(), Some(Outcome::rule_broken(0, 0))),
        case(of(J3), walk(&[(0, 2), (7, 3), (3, 3), (6, 2), (1, 0), (5, 0)]).sheet(), Some(walk_21)),
        case(of(J4), walk(&[(0, 0), (2, 0), (1, 0), (2, 0)]).sheet(), Some(walk_21)),
        case(of(J5), tables(&[0], &[1]).sheet(), Some(tables_20)),
        case(of(J5), walk(&[(0, 0), (3, 0)]).sheet(), Some(refused(13, 0))),
        case(of(J6), tables(&[0], &[0, 1]).sheet(), Some(tables_20)),
        case(of(J7), walk(&[(2, 1), (1, 1), (3, 0), (1, 0)]).sheet(), Some(walk_21)),
        case(of(J6_WIDENED), tables(&[0, 0], &[0, 1]).sheet(), Some(tables_20)),
        case(of(EQUAL_AS_WIRES), tables(&[0, 1], &[0, 1]).sheet(), Some(tables_20)),
        case(of(J1), walk(&[(0, 0)]).sheet(), Some(refused(12, 0))),
        case(of(J4), walk(&longest).sheet(), Some(walk_21)),
        case(of(J4), walk(&beyond).sheet(), Some(refused(8, 4))),
    ];
    if form == Form::Two {
        cases.extend(named_excused());
    }
    cases
}

/// Jobs of document 01 with excuses, and tables and walks that these let pass or take away.
fn named_excused() -> Vec<Case> {
    let tables_20 = Outcome::success(20);
    let stands = walk(&[(2, 1), (1, 1), (3, 0), (1, 0)]);
    let equal = tables(&[0, 0], &[0, 0]);
    let cases = [
        (J4, EMPTY, tables(&[0], &[0]), tables_20),
        (J4, EMPTY, walk(&[(0, 0), (2, 0), (1, 0), (2, 0)]), refused(12, 0)),
        (J2, FIRST_IS_0, equal.clone(), Outcome::rule_broken(1, 0)),
        (J2, FIRST_IS_1, equal.clone(), Outcome::rule_broken(0, 0)),
        (J2, FIRST_IS_BOTH, equal.clone(), Outcome::rule_broken(0, 0)),
        (J2, FIRST_IS_EITHER, equal, tables_20),
        (J7, FIRST_IS_1, tables(&[0], &[0]), tables_20),
        (J7, FIRST_IS_1, tables(&[0], &[1]), Outcome::rule_broken(0, 0)),
        (J7, FIRST_IS_0, tables(&[0], &[0]), Outcome::rule_broken(1, 1)),
        (J7, FIRST_IS_1, stands.clone(), refused(12, 0)),
        (J7, FIRST_IS_0, stands.clone(), refused(12, 2)),
        (J7, FIRST_IS_BOTH, stands, Outcome::success(21)),
        (SPEED_WIRES, NOT_BOTH_HIGH, tables(&[0, 1], &[0, 1]), tables_20),
        (SPEED_WIRES, NONE, tables(&[0, 1], &[0, 1]), Outcome::rule_broken(3, 2)),
    ];
    cases.map(|(job, excuses, answer, known)| case(with_excuses(job, excuses), answer.sheet(), Some(known))).into()
}

/// The cases of form one, moved, with what form one makes of them.
fn without_excuses(cases: Vec<Case>) -> Vec<Case> {
    let moved = |given: Case| {
        let (job, answer) = (&given.slices[0], &given.slices[1]);
        let sheet = move_sheet(Form::One, job, LONGEST_SLICE).ok()?;
        Some(case(sheet, answer.clone(), Some(check_outcome(Form::One, job, answer))))
    };
    cases.into_iter().filter_map(moved).collect()
}

fn tables(a: &[u8], b: &[u8]) -> Answer {
    Answer::Tables([a.to_vec(), b.to_vec()])
}

fn walk(entries: &[(usize, usize)]) -> Answer {
    Answer::Walk(entries.iter().map(|(claim, combination)| (Claim(*claim), Combination(*combination))).collect())
}

fn refused(code: u8, place: usize) -> Outcome {
    Outcome::refused(Refusal { code, place }, ANSWER)
}

fn random_answers(form: Form, random: &mut Random) -> Vec<Case> {
    let job = match random.below(2000) {
        0 => job_of_size(form, random, MOST_WIRES, MOST_RULES),
        1 => fitting_job(form, random, MOST_WIRES, MOST_RULES),
        2..=200 => {
            let (wires, rules) = (random.within(0, 8), random.within(0, 12));
            fitting_job(form, random, wires, rules)
        }
        201..=300 => ring_job(form, random),
        301..=800 => random_job(form, random),
        _ => tied_job(form, random),
    };
    let given = Given::of(job, random);
    (0..ANSWERS_EACH).map(|_| random_answer(&given, random)).collect()
}

fn random_answer(given: &Given, random: &mut Random) -> Case {
    let Given { board, sheet: job, expansion, unexcused, .. } = given;
    if let Some(unexcused) = unexcused.as_ref().filter(|_| random.once_in(8)) {
        let (answer, outcome) = unexcused_answer(given, unexcused, random);
        return case(job.bytes.clone(), answer.sheet(), Some(outcome));
    }
    let (right, code) = right_answer(board, expansion, random);
    let accepted = Some(Outcome::success(code));
    match random.below(16) {
        0..=3 => case(job.bytes.clone(), right.sheet(), accepted),
        4 | 5 => closed_case(job, expansion, random).unwrap_or(case(job.bytes.clone(), right.sheet(), accepted)),
        6..=8 => case(job.bytes.clone(), spoil(board, &right, random).sheet(), None),
        9..=12 => {
            let spoiled = spoil_sheet(board, &right, random);
            let known = spoiled.known.map(|Refusal { code, place }| refused(code, place));
            case(job.bytes.clone(), spoiled.bytes, known)
        }
        13 => twice_wrong(board, job, &right, random),
        14 => {
            let damaged = damage(job, random);
            let known = damaged.known.map(|refusal| Outcome::refused(refusal, JOB));
            case(damaged.bytes, right.sheet(), known)
        }
        _ => case(job.bytes.clone(), random_bytes(random), None),
    }
}

/// A fitting pair and 20, or a standing walk and 21.
pub fn right_answer(board: &Board, expansion: &Expansion, random: &mut Random) -> (Answer, u8) {
    let conflicts = expansion.in_conflict();
    if conflicts.is_empty() {
        let mut wishes: Vec<Claim> = (0..board.all_rows()).map(|row| Claim(2 * row)).collect();
        if random.once_in(2) {
            wishes = wishes.into_iter().map(|claim| Claim(claim.0 + random.below(2))).collect();
            random.shuffle(&mut wishes);
        }
        return (Answer::Tables(expansion.pair(&wishes)), 20);
    }
    let walk = expansion.steps.there_and_back(*random.choose(&conflicts));
    (Answer::Walk(vary(walk, random)), 21)
}

/// An answer that is right without the excuses, and what must come of it with them. Tables fit all the same.
/// A walk stands only if none of its steps is by an excused combination.
pub fn unexcused_answer(given: &Given, unexcused: &Expansion, random: &mut Random) -> (Answer, Outcome) {
    let (answer, code) = right_answer(&given.board, unexcused, random);
    let missing = match &answer {
        Answer::Walk(walk) => given.expansion.steps.first_missing(walk),
        Answer::Tables(_) => None,
    };
    (answer, missing.map_or(Outcome::success(code), |entry| refused(12, entry)))
}

/// A walk that stands as the given one does: itself, repeated, or backwards from opposite to opposite.
fn vary(walk: Walk, random: &mut Random) -> Walk {
    match random.below(12) {
        0 | 1 => walk.repeat(2),
        2 | 3 => mirrored(&walk),
        4 if random.once_in(8) => walk.repeat(LONGEST_WALK / walk.len()),
        _ => walk,
    }
}

/// A step from L to M is also one from the opposite of M to the opposite of L, by the same combination.
fn mirrored(walk: &Walk) -> Walk {
    let entries = walk.len();
    (0..entries).rev().map(|entry| (walk[(entry + 1) % entries].0.opposite(), walk[entry].1)).collect()
}

/// A walk that closes; it stands only if the opposite of its first claim is on the way.
pub fn closed_walk(expansion: &Expansion, random: &mut Random) -> Option<Walk> {
    let closing = expansion.on_closed_walks();
    if closing.is_empty() {
        return None;
    }
    let claim = *random.choose(&closing);
    Some(vary(expansion.steps.path(claim, claim), random))
}

fn closed_case(job: &JobSheet, expansion: &Expansion, random: &mut Random) -> Option<Case> {
    let walk = closed_walk(expansion, random)?;
    let first = walk[0].0;
    let known = match walk.iter().any(|(other, _)| *other == first.opposite()) {
        true => Outcome::success(21),
        false => refused(13, 0),
    };
    Some(case(job.bytes.clone(), Answer::Walk(walk).sheet(), Some(known)))
}

/// An answer of right form that may be wrong: the right one spoiled, or one of the other kind.
pub fn spoil(board: &Board, right: &Answer, random: &mut Random) -> Answer {
    match right {
        _ if random.once_in(8) => Answer::Walk(random_walk(board, random)),
        Answer::Tables(tables) => Answer::Tables(spoil_tables(tables, random)),
        Answer::Walk(_) if random.once_in(3) => {
            let zeros = [vec![0; board.rows(0)], vec![0; board.rows(1)]];
            Answer::Tables(spoil_tables(&zeros, random))
        }
        Answer::Walk(walk) => Answer::Walk(spoil_walk(board, walk, random)),
    }
}

/// Two faults at once: the order in which they are looked for decides.
fn twice_wrong(board: &Board, job: &JobSheet, right: &Answer, random: &mut Random) -> Case {
    let spoiled = spoil(board, right, random);
    let sheet = spoil_sheet(board, &spoiled, random).bytes;
    let job = if random.once_in(4) { damage(job, random).bytes } else { job.bytes.clone() };
    case(job, sheet, None)
}

fn random_bytes(random: &mut Random) -> Vec<u8> {
    let length = random.below(30);
    let limit = *random.choose(&[2, 3, 6, 256]);
    (0..length).map(|_| random.below(limit) as u8).collect()
}

fn case(job: Vec<u8>, answer: Vec<u8>, known: Option<Outcome>) -> Case {
    Case { slices: vec![job, answer], known: known.map(Known::Outcome) }
}
