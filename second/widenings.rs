// The cases of the widener: what the papers name, then random jobs P, each with several Q, answers and rooms.
// In each case every part is right, or one is wrong, or several are, so that the order of the causes decides.
// Where the first wrong part alone settles the outcome, it is told along, and so are the widened tables.
// It leans on named_widenings, make, ties, wider, answers, given, damage, spoil, room and widen.

use crate::answer::Answer;
use crate::answers::{closed_walk, right_answer, spoil, unexcused_answer};
use crate::case::{Call, Case, Judgement, Known, Response};
use crate::damage::damage;
use crate::excuses::random_excuse;
use crate::given::Given;
use crate::job::{Form, Job, JobSheet, MOST_EXCUSES, MOST_RULES, MOST_WIRES};
use crate::make::{fitting_job, random_job, tied_job};
use crate::named_widenings::{named, Named};
use crate::outcome::{Outcome, Refusal, ANSWER, JOB, JOB_Q, TABLES, WALK};
use crate::random::Random;
use crate::room::{enough_room, too_little_room, ROOM};
use crate::spoil::spoil_sheet;
use crate::ties::{chain_job, ring_job};
use crate::widen::{asks_more, walk_given, widen};
use crate::wider::{asking_no_more, grown_table, near_miss};

const CASES_EACH: usize = 5;

pub const WIDENER: Call = Call {
    op: b'w',
    name: "widen",
    form: Form::One,
    writes: 1,
    count: 50_000,
    codes: &[1, 2, 3, 4, 5, 6, 7, 8, 9, 10, 11, 12, 13, 14, 15, 20],
    foremost: &[6, 14, 15, 20],
    balanced: false,
    named: named_cases,
    make: random_widenings,
    judge,
};

fn judge(form: Form, slices: &[Vec<u8>], _: &Response) -> Judgement {
    let before = &slices[3];
    Judgement::sheet(TABLES, widen(form, &slices[0], &slices[1], &slices[2], before.len()), before)
}

fn named_cases(form: Form, random: &mut Random) -> Vec<Case> {
    let made = |(p, q, answer, room, known): Named| case([p, q, answer], room, Some(known), random);
    named(form).into_iter().map(made).collect()
}

fn case(sheets: [Vec<u8>; 3], room: usize, known: Option<Known>, random: &mut Random) -> Case {
    let [p, q, answer] = sheets;
    Case { slices: vec![p, q, answer, random.bytes(room)], known }
}

fn random_widenings(form: Form, random: &mut Random) -> Vec<Case> {
    let given = Given::of(given_job(form, random), random);
    (0..CASES_EACH).map(|_| random_widening(&given, random)).collect()
}

/// A job of any family. Large boards and long lists of rules take long, so there are few of them.
fn given_job(form: Form, random: &mut Random) -> Job {
    let (wires, rules) = match random.below(1000) {
        0 => (MOST_WIRES, MOST_RULES),
        1..=9 => (random.within(9, MOST_WIRES), random.within(0, 8)),
        10..=24 => (random.within(0, 5), random.within(60, MOST_RULES)),
        25..=39 => return last_unlike(form, random),
        40..=299 => (random.within(0, 8), random.within(0, 12)),
        300..=349 => return ring_job(form, random),
        350..=399 => return chain_job(form, random),
        400..=649 => return random_job(form, random),
        _ => return tied_job(form, random),
    };
    fitting_job(form, random, wires, rules)
}

/// A job with as many rules as there may be, all equal but the last. In form two it has as many excuses as there may
/// be, all equal but the last.
fn last_unlike(form: Form, random: &mut Random) -> Job {
    let wires = random.within(1, 6);
    let mut job = fitting_job(form, random, wires, 2);
    let repeated = job.rules[0].clone();
    job.rules.splice(1..1, vec![repeated; MOST_RULES - 2]);
    if form == Form::Two {
        let [repeated, last] = [0, 1].map(|_| random_excuse(random, wires, wires));
        job.excuses = vec![repeated; MOST_EXCUSES];
        job.excuses[MOST_EXCUSES - 1] = last;
    }
    job
}

/// What the making of one part settles.
enum Part {
    Right,
    Wrong(Outcome),
    Open,
}

impl Part {
    fn wrong(known: Option<Refusal>, sheet: u64) -> Part {
        known.map_or(Part::Open, |refusal| Part::Wrong(Outcome::refused(refusal, sheet)))
    }
}

/// Which parts are made wrong.
struct Plan {
    p: bool,
    q: bool,
    answer: bool,
    asking: bool,
    room: bool,
}

impl Plan {
    fn of(random: &mut Random) -> Plan {
        let mut plan = Plan { p: false, q: false, answer: false, asking: false, room: false };
        match random.below(24) {
            0..=6 => {}
            7..=10 => plan.asking = true,
            11 | 12 => plan.room = true,
            13..=18 => plan.answer = true,
            19 => plan.q = true,
            20 => plan.p = true,
            _ => {
                let [answer, asking, room] = [2; 3].map(|times| random.once_in(times));
                plan = Plan { p: random.once_in(6), q: random.once_in(4), answer, asking, room };
            }
        }
        plan
    }
}

fn random_widening(given: &Given, random: &mut Random) -> Case {
    let plan = Plan::of(random);
    let (p, p_part) = job_sheet(&given.sheet, JOB, plan.p, random);
    let (wider, certain) = match plan.asking {
        true => near_miss(&given.job, random),
        false => (asking_no_more(&given.job, random), true),
    };
    let (q, q_part) = job_sheet(&JobSheet::of(&wider), JOB_Q, plan.q, random);
    let (right, _) = right_answer(&given.board, &given.expansion, random);
    let (answer, answer_part) = answer_sheet(given, &right, plan.answer, random);
    let room = if plan.room { too_little_room(ROOM, random) } else { enough_room(ROOM, random) };

    let kind_part = if let Answer::Walk(_) = right { Part::Wrong(walk_given()) } else { Part::Right };
    let asking_part = match (plan.asking, certain) {
        (false, _) => Part::Right,
        (true, true) => Part::Wrong(asks_more()),
        (true, false) => Part::Open,
    };
    let room_part = if plan.room { Part::Wrong(Outcome::no_room()) } else { Part::Right };
    let parts = [p_part, q_part, answer_part, kind_part, asking_part, room_part];
    let known = match parts.into_iter().find(|part| !matches!(part, Part::Right)) {
        Some(Part::Wrong(outcome)) => Some(Known::Outcome(outcome)),
        Some(_) => None,
        None => Some(Known::Wrote(TABLES, grown_sheet(&given.job, &wider, &right))),
    };
    case([p, q, answer], room, known, random)
}

fn job_sheet(sheet: &JobSheet, number: u64, wrong: bool, random: &mut Random) -> (Vec<u8>, Part) {
    if !wrong {
        return (sheet.bytes.clone(), Part::Right);
    }
    let damaged = damage(sheet, random);
    (damaged.bytes, Part::wrong(damaged.known, number))
}

/// A wrong answer is of right form, or not, or both its form and what it says are spoiled.
fn answer_sheet(given: &Given, right: &Answer, wrong: bool, random: &mut Random) -> (Vec<u8>, Part) {
    if !wrong {
        return (right.sheet(), Part::Right);
    }
    let board = &given.board;
    if let Some(unexcused) = given.unexcused.as_ref().filter(|_| random.once_in(4)) {
        let (answer, outcome) = unexcused_answer(given, unexcused, random);
        let accepted = outcome == Outcome::success(TABLES) || outcome == Outcome::success(WALK);
        return (answer.sheet(), if accepted { Part::Open } else { Part::Wrong(outcome) });
    }
    match random.below(14) {
        0..=3 => (spoil(board, right, random).sheet(), Part::Open),
        4 | 5 => {
            let walk = closed_walk(&given.expansion, random).map(Answer::Walk);
            (walk.unwrap_or_else(|| spoil(board, right, random)).sheet(), Part::Open)
        }
        6 => {
            let spoiled = spoil(board, right, random);
            (spoil_sheet(board, &spoiled, random).bytes, Part::Open)
        }
        _ => {
            let spoiled = spoil_sheet(board, right, random);
            (spoiled.bytes, Part::wrong(spoiled.known, ANSWER))
        }
    }
}

/// The widened sheet, with both tables grown wire by wire.
fn grown_sheet(p: &Job, q: &Job, right: &Answer) -> Vec<u8> {
    let Answer::Tables(tables) = right else { unreachable!("a walk is not widened") };
    Answer::Tables([0, 1].map(|cell| grown_table(p, q, cell, &tables[cell]))).sheet()
}
