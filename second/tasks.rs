// The cases of the solver: the jobs that the papers name, then random boards of every shape.
// Most of these lie near the line between tables and walk, where one rule decides.
// Answer buffers are full of random bytes, with room enough or too little.
// Small boards are settled by trying every pair in order, so that this program's own solver is tested too.
// It leans on make, shapes, ties, damage, room, moving, solve and check.

use crate::answer::Answer;
use crate::board::Board;
use crate::case::{hex, Call, Case, Judgement, Known, Response, LONGEST_SLICE};
use crate::check::check;
use crate::damage::damage;
use crate::job::{Form, Job, JobSheet, MOST_RULES, MOST_WIRES};
use crate::make::{fitting_job, job_of_size, longest_job, random_job, tied_job};
use crate::moving::move_sheet;
use crate::named::{in_form, with_excuses, EQUAL_AS_WIRES, J1, J2, J3, J4, J5, J6, J6_WIDENED, J7};
use crate::named::{EMPTY, FIRST_IS_0, FIRST_IS_1, FIRST_IS_BOTH, FIRST_IS_EITHER, NONE, NOT_BOTH_HIGH, SPEED_WIRES};
use crate::outcome::{Outcome, Refusal, JOB, TABLES, WALK};
use crate::random::Random;
use crate::read::read_job;
use crate::room::{enough_room, no_room, too_little_room, MOST_ROOM, ROOM};
use crate::shapes::{job_near_line, largest_near_line};
use crate::solve::solve;
use crate::ties::{chain_job, ring_job};

/// Every pair is tried on boards with so many rows and wires or fewer.
const FEW_ROWS: usize = 8;
const FEW_WIRES: usize = 5;

pub const SOLVER: Call = Call {
    op: b's',
    name: "solve",
    form: Form::One,
    writes: 1,
    count: 23_000,
    codes: &[1, 2, 3, 4, 5, 6, 20, 21],
    foremost: &[],
    balanced: true,
    named: named_tasks,
    make: random_tasks,
    judge,
};

/// The solver in form two, on the accepted sheets of form one's cases, each with an empty section of excuses: with one
/// seed those that it has just solved in form one. The tables must be the same, or a walk must come both times.
pub const WITHOUT_EXCUSES: Call = Call {
    name: "solve without excuses",
    count: 6_000,
    codes: &[6, 20, 21],
    named: |_, random| without_excuses(named_tasks(Form::One, random)),
    make: |_, random| without_excuses(random_tasks(Form::One, random)),
    ..SOLVER
};

/// The paper's jobs with its answers. Several walks may stand, so a walk is only known to be one.
fn named_tasks(form: Form, random: &mut Random) -> Vec<Case> {
    let jobs = [
        (J1, ROOM, Known::Wrote(TABLES, hex("01 00 00 01 00 00 00 00"))),
        (J2, ROOM, tables(&[0, 0], &[1, 1])),
        (J3, ROOM, Known::Walk),
        (J4, ROOM, Known::Walk),
        (J5, ROOM, tables(&[0], &[1])),
        (J6, ROOM, tables(&[0], &[0, 1])),
        (J7, ROOM, Known::Walk),
        (J6_WIDENED, ROOM, tables(&[0, 0], &[0, 1])),
        (EQUAL_AS_WIRES, ROOM, tables(&[0, 1], &[0, 1])),
        (J2, ROOM + 1, tables(&[0, 0], &[1, 1])),
        (J3, MOST_ROOM, Known::Walk),
        (J1, ROOM - 1, no_room()),
        (J3, ROOM - 1, no_room()),
        (J1, 8, no_room()),
        (J1, 0, no_room()),
        (J4, 0, no_room()),
    ];
    let mut cases: Vec<Case> =
        jobs.map(|(job, room, known)| case(in_form(form, job), room, Some(known), random)).into();

    // A fault of the job comes before the want of room.
    let of_job = |code, place| Some(Known::Outcome(Outcome::refused(Refusal { code, place }, JOB)));
    let over = [in_form(form, J1), vec![0]].concat();
    let length = over.len();
    cases.push(case(hex(""), 0, of_job(1, 0), random));
    cases.push(case(hex(""), ROOM, of_job(1, 0), random));
    cases.push(case(hex("0D"), ROOM - 1, of_job(2, 0), random));
    cases.push(case(over, 0, of_job(5, length - 1), random));
    if form == Form::Two {
        cases.extend(named_excused(random));
    }
    cases
}

/// Jobs of document 01 with excuses.
fn named_excused(random: &mut Random) -> Vec<Case> {
    let jobs = [
        (J4, EMPTY, tables(&[0], &[0])),
        (J3, EMPTY, tables(&[0, 0], &[0, 0])),
        (J2, FIRST_IS_0, tables(&[0, 0], &[0, 1])),
        (J2, FIRST_IS_1, tables(&[0, 0], &[1, 0])),
        (J2, FIRST_IS_BOTH, tables(&[0, 0], &[1, 1])),
        (J2, FIRST_IS_EITHER, tables(&[0, 0], &[0, 0])),
        (J7, FIRST_IS_0, tables(&[0], &[1])),
        (J7, FIRST_IS_1, tables(&[0], &[0])),
        (J7, FIRST_IS_BOTH, Known::Walk),
        (SPEED_WIRES, NOT_BOTH_HIGH, tables(&[0, 1], &[0, 1])),
        (SPEED_WIRES, NONE, Known::Walk),
    ];
    jobs.map(|(job, excuses, known)| case(with_excuses(job, excuses), ROOM, Some(known), random)).into()
}

fn tables(a: &[u8], b: &[u8]) -> Known {
    Known::Wrote(TABLES, Answer::Tables([a.to_vec(), b.to_vec()]).sheet())
}

/// The cases of form one whose jobs are accepted, moved, with what form one makes of them.
fn without_excuses(cases: Vec<Case>) -> Vec<Case> {
    let moved = |case: Case| {
        let job = read_job(Form::One, &case.slices[0]).ok()?;
        let sheet = move_sheet(Form::One, &case.slices[0], LONGEST_SLICE).ok()?;
        let room = case.slices[1].clone();
        let known = if room.len() < ROOM { no_room() } else { by_solving(&Board::of(job)) };
        Some(Case { slices: vec![sheet, room], known: Some(known) })
    };
    cases.into_iter().filter_map(moved).collect()
}

fn by_solving(board: &Board) -> Known {
    match solve(board) {
        Answer::Walk(_) => Known::Walk,
        answer => Known::Wrote(TABLES, answer.sheet()),
    }
}

fn random_tasks(form: Form, random: &mut Random) -> Vec<Case> {
    if random.once_in(9) {
        return vec![refused_task(form, random)];
    }
    let job = task_job(form, random);
    let sheet = JobSheet::of(&job).bytes;
    let board = Board::of(job);
    let few = board.all_rows() <= FEW_ROWS && board.wires() <= FEW_WIRES;
    let known = few.then(|| by_trying(&board));
    let room = enough_room(ROOM, random);
    vec![case(sheet, room, known, random)]
}

/// A job of any family. Large boards take long, so there are few of them.
fn task_job(form: Form, random: &mut Random) -> Job {
    match random.below(1000) {
        0..=13 => largest_near_line(form, random),
        14 => job_of_size(form, random, MOST_WIRES, MOST_RULES),
        15 => fitting_job(form, random, MOST_WIRES, MOST_RULES),
        16 => longest_job(form, random),
        17..=80 => ring_job(form, random),
        81..=160 => chain_job(form, random),
        161..=220 => random_job(form, random),
        221..=350 => tied_job(form, random),
        351..=380 => {
            let (wires, rules) = (random.within(0, 7), random.within(0, 20));
            fitting_job(form, random, wires, rules)
        }
        _ => job_near_line(form, random),
    }
}

/// A job with a fault and any room, or one without a fault and too little room.
fn refused_task(form: Form, random: &mut Random) -> Case {
    let job = if random.once_in(2) { random_job(form, random) } else { tied_job(form, random) };
    let sheet = JobSheet::of(&job);
    let room = too_little_room(ROOM, random);
    if random.once_in(4) {
        return case(sheet.bytes, room, Some(no_room()), random);
    }
    let damaged = damage(&sheet, random);
    let known = damaged.known.map(|refusal| Known::Outcome(Outcome::refused(refusal, JOB)));
    let room = if random.once_in(2) { ROOM } else { room };
    case(damaged.bytes, room, known, random)
}

fn case(job: Vec<u8>, room: usize, known: Option<Known>, random: &mut Random) -> Case {
    Case { slices: vec![job, random.bytes(room)], known }
}

/// The first of all pairs that this program's checker accepts. A's rows come first, and row 0 weighs most.
fn by_trying(board: &Board) -> Known {
    let rows = board.all_rows();
    for pair in 0..1 << rows {
        let values: Vec<u8> = (0..rows).rev().map(|weight| (pair >> weight & 1) as u8).collect();
        let (table_a, table_b) = values.split_at(board.rows(0));
        let sheet = Answer::Tables([table_a.to_vec(), table_b.to_vec()]).sheet();
        if check(board, &sheet) == Ok(TABLES) {
            return Known::Wrote(TABLES, sheet);
        }
    }
    Known::Walk
}

fn judge(form: Form, slices: &[Vec<u8>], got: &Response) -> Judgement {
    let (job, before) = (&slices[0], &slices[1]);
    let job = match read_job(form, job) {
        Ok(job) => job,
        Err(refusal) => return Judgement::writing(Outcome::refused(refusal, JOB), &[], before),
    };
    if before.len() < ROOM {
        return Judgement::writing(Outcome::no_room(), &[], before);
    }
    let board = Board::of(job);
    let answer = solve(&board);
    let (sheet, code) = (answer.sheet(), if let Answer::Tables(_) = answer { TABLES } else { WALK });
    assert!(check(&board, &sheet) == Ok(code), "an answer of this program is not accepted by its own checker");
    if code == WALK && got.outcome.code == WALK as u64 {
        return judge_walk(&board, before, got);
    }
    Judgement::writing(Outcome::wrote(code, sheet.len()), &sheet, before)
}

/// Any walk is right that stands and is short enough.
fn judge_walk(board: &Board, before: &[u8], got: &Response) -> Judgement {
    let sheet = got.written();
    let (written, most) = (sheet.len(), 4 * board.all_rows() - 2);
    let fault = match check(board, sheet) {
        Ok(WALK) if (written - 6) / 4 <= most => None,
        Ok(WALK) => Some(format!("the walk has {} entries, and {most} are the most", (written - 6) / 4)),
        Ok(_) => Some("the sheet holds no walk".into()),
        Err(refusal) => Some(format!("the sheet is refused with {} at {}", refusal.code, refusal.place)),
    };
    Judgement { fault, ..Judgement::writing(Outcome::wrote(WALK, written), sheet, before) }
}
