// Hand-made cases of all other codes, which have no rule to tell, even where a rule is broken; then form bytes that are
// no form's, and the longest sheets.
// Each case's comment says what it shows.
// It leans on settled, named, case, answer, board, book, job, make and outcome.

use crate::answer::{Answer, LONGEST_WALK};
use crate::board::{Claim, Combination};
use crate::book::BookCase;
use crate::case::hex;
use crate::job::{term_limit, wire_term_limit, Form, Job, JobSheet, MOST_EXCUSES, MOST_RULES, MOST_SEEN, MOST_WIRES};
use crate::make::every_below;
use crate::named::{in_form, J1, J4, J5, J6, J6_WIDENED, J7};
use crate::outcome::{Outcome, Refusal, ANSWER, JOB, JOB_Q, TABLES, WALK};
use crate::settled::{blind_job, cell_terms, tables_sheet, Settled};

/// One wire that A sees and must copy. Rule 0 is broken where A is 1 and the wire 0, rule 1 where it is the other way.
const COPY: &str = "01 04 01 00 00 02 00 02 00 03 02 01 02";
/// Tables for it: they fit; they break rule 1.
const FITTING: [&[u8]; 2] = [&[0, 1], &[0]];
const BREAKING: [&[u8]; 2] = [&[0, 0], &[0]];
/// A walk that stands for J4, and one for J7.
const STANDS_FOR_J4: [(usize, usize); 4] = [(0, 0), (2, 0), (1, 0), (2, 0)];
const STANDS_FOR_J7: [(usize, usize); 4] = [(2, 1), (1, 1), (3, 0), (1, 0)];

pub fn named_others(form: Form) -> Vec<Settled> {
    let mut cases = successes(form);
    cases.extend(refused_jobs(form));
    cases.extend(refused_answers(form));
    cases.extend(refused_widenings(form));
    cases
}

fn refusal(code: u8, place: usize, sheet: u64) -> Outcome {
    Outcome::refused(Refusal { code, place }, sheet)
}

fn walk_sheet(entries: &[(usize, usize)]) -> Vec<u8> {
    Answer::Walk(entries.iter().map(|entry| (Claim(entry.0), Combination(entry.1))).collect()).sheet()
}

fn successes(form: Form) -> Vec<Settled> {
    let of = |sheet: &str| in_form(form, sheet);
    let tables = |p: &str, q: &str, tables, written| Settled {
        case: BookCase::of(form, of(p), of(q), tables_sheet(tables)),
        check: Outcome::success(TABLES),
        widen: Outcome::wrote(TABLES, written),
    };
    vec![
        // Two counts and a byte for each row, and the last count.
        tables(COPY, COPY, FITTING, 9),
        // Widened, A has two rows.
        tables(J6, J6_WIDENED, [&[0], &[0, 1]], 10),
        tables(J5, J1, [&[1], &[0]], 8),
        // A walk stands, and there is no Q.
        Settled::without_q(form, of(J7), walk_sheet(&STANDS_FOR_J7), Outcome::success(WALK)),
    ]
}

/// The answer is not looked at where a job is refused, though it breaks rule 1 of COPY.
fn refused_jobs(form: Form) -> Vec<Settled> {
    let copy = in_form(form, COPY);
    let over = [&copy[..], &[0]].concat();
    let faulty = [
        (hex(""), 1, 0),
        (copy[..copy.len() - 1].to_vec(), 1, copy.len() - 1),
        // Faults of the head, then of a rule, whose terms are 0 to 5.
        (hex("0D"), 2, 0),
        (hex("02 04 04"), 3, 2),
        (hex("01 04 01 01"), 4, 3),
        (hex("01 04 01 00 00 01 00 07"), 2, 7),
        (hex("01 04 01 00 00 01 00 02 03 03"), 3, 9),
        (hex("01 04 01 00 00 01 00 01 06"), 4, 8),
        (over, 5, copy.len()),
    ];
    let mut cases = Vec::new();
    for (sheet, code, place) in faulty {
        let answer = || tables_sheet(BREAKING);
        // As P, refused by both.
        cases.push(Settled::without_q(form, sheet.clone(), answer(), refusal(code, place, JOB)));
        // As Q: the checker tells the rule, the widener refuses Q and tells none.
        cases.push(Settled {
            case: BookCase::of(form, copy.clone(), sheet, answer()),
            check: Outcome::rule_broken(1, 1),
            widen: refusal(code, place, JOB_Q),
        });
    }
    cases
}

/// With Q as P, so that the widener refuses as the checker does.
fn refused_answers(form: Form) -> Vec<Settled> {
    let refused = |job: &str, answer: Vec<u8>, code, place| {
        let (job, outcome) = (in_form(form, job), refusal(code, place, ANSWER));
        Settled { case: BookCase::of(form, job.clone(), job, answer), check: outcome, widen: outcome }
    };
    let breaking = tables_sheet(BREAKING);
    let length = breaking.len();
    vec![
        // No answer.
        refused(COPY, Vec::new(), 7, 0),
        // The sheet's tables break rule 1, but it is cut, or has bytes over.
        refused(COPY, breaking[..length - 1].to_vec(), 7, length - 1),
        refused(COPY, [&breaking[..], &[0]].concat(), 7, length),
        // The rows of A are not those of the job; nor are those of B.
        refused(COPY, tables_sheet([&[0], &[0]]), 8, 0),
        refused(COPY, tables_sheet([&[0, 0], &[0, 0]]), 8, 4),
        // A byte above 1 in the first row of A, which would break rule 0.
        refused(COPY, tables_sheet([&[2, 0], &[0]]), 9, 2),
        // The table of A breaks rule 1, and B has a byte above 1.
        refused(COPY, tables_sheet([&[0, 0], &[2]]), 9, 6),
        // There are claims 0 to 5 and combinations 0 and 1.
        refused(COPY, walk_sheet(&[(6, 0)]), 11, 6),
        refused(COPY, walk_sheet(&[(0, 2)]), 11, 8),
        // A walk of one entry; its claim breaks rule 1.
        refused(COPY, walk_sheet(&[(2, 1)]), 12, 0),
        // The walk of J7 with another combination in its third entry.
        refused(J7, walk_sheet(&[(2, 1), (1, 1), (3, 1), (1, 0)]), 12, 2),
        // A closed walk without the opposite of its first claim.
        refused(J5, walk_sheet(&[(0, 0), (3, 0)]), 13, 0),
        // The same, twice round.
        refused(J5, walk_sheet(&[(0, 0), (3, 0), (0, 0), (3, 0)]), 13, 0),
    ]
}

fn refused_widenings(form: Form) -> Vec<Settled> {
    let of = |sheet: &str| in_form(form, sheet);
    let asking_more = |p: &str, q: &str, tables| Settled {
        case: BookCase::of(form, of(p), of(q), tables_sheet(tables)),
        check: Outcome::success(TABLES),
        widen: refusal(14, 0, JOB_Q),
    };
    let walk_given = |p: &str, q: &str, walk| Settled {
        case: BookCase::of(form, of(p), of(q), walk_sheet(walk)),
        check: Outcome::success(WALK),
        widen: refusal(15, 0, ANSWER),
    };
    vec![
        // Other pins; a rule that is not P's, which the tables break.
        asking_more(COPY, J1, FITTING),
        asking_more(J1, J5, [&[0], &[0]]),
        // A walk that stands, for a Q that asks no more and for one that asks more.
        walk_given(J4, J4, &STANDS_FOR_J4),
        walk_given(J7, J1, &STANDS_FOR_J7),
    ]
}

/// Any form byte but 1 and 2 is taken as 1.
pub fn odd_forms() -> Vec<Settled> {
    let [_, not_a, b, _] = cell_terms(0);
    let job = blind_job(Form::One, 0, &[&[not_a], &[b]]);
    let with_byte = |settled: Settled, form_byte| Settled { case: BookCase { form_byte, ..settled.case }, ..settled };
    // A sheet of form two has bytes over in form one.
    let two = JobSheet::of(&Job { form: Form::Two, ..job.clone() }).bytes;
    let over = refusal(5, two.len() - 2, JOB);
    let mut cases: Vec<Settled> =
        [0, 3, 255].map(|byte| with_byte(Settled::broken_with_q(&job, &job, [&[0], &[0]], 0, 1), byte)).into();
    cases.push(with_byte(Settled::without_q(Form::One, two, tables_sheet([&[0], &[0]]), over), 3));
    cases
}

/// The longest job sheet, one almost as long, and one a byte longer.
pub fn longest_jobs() -> Vec<Settled> {
    let [a, ..] = cell_terms(MOST_WIRES as u8);
    let every_term = every_below(term_limit(MOST_WIRES));
    let seen: Vec<u8> = (0..MOST_SEEN as u8).collect();
    let job = Job {
        sees: [seen.clone(), seen],
        excuses: vec![every_below(wire_term_limit(MOST_WIRES)); MOST_EXCUSES],
        ..blind_job(Form::Two, MOST_WIRES as u8, &vec![&every_term[..]; MOST_RULES])
    };
    let longest = JobSheet::of(&job).bytes;
    let mut rules = job.rules.clone();
    rules[MOST_RULES - 1] = vec![a];
    let last_broken = JobSheet::of(&Job { rules, ..job }).bytes;
    let (length, beyond) = (longest.len(), [&longest[..], &[0]].concat());
    let zeros = vec![0; 1 << MOST_SEEN];
    let settled = |p, check| Settled::without_q(Form::Two, p, tables_sheet([&zeros, &zeros]), check);
    vec![
        // All rules always hold, and no excuse ever does.
        settled(longest, Outcome::success(TABLES)),
        // The last rule alone can be broken.
        settled(last_broken, Outcome::rule_broken(0, MOST_RULES - 1)),
        settled(beyond, refusal(5, length, JOB)),
    ]
}

/// The longest walk, and one an entry longer. The empty rule of J4 makes every step between the cells hold.
pub fn longest_walks() -> Vec<Settled> {
    let j4 = hex(J4);
    let round = [(0, 0), (2, 0), (1, 0), (3, 0)];
    let walk: Vec<(usize, usize)> = round.into_iter().cycle().take(LONGEST_WALK + 1).collect();
    vec![
        Settled {
            case: BookCase::of(Form::One, j4.clone(), j4.clone(), walk_sheet(&walk[..LONGEST_WALK])),
            check: Outcome::success(WALK),
            widen: refusal(15, 0, ANSWER),
        },
        Settled::without_q(Form::One, j4, walk_sheet(&walk), refusal(8, 4, ANSWER)),
    ]
}
