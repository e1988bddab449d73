// The cases of the mover: the papers' jobs, each refusal, then random jobs of every family, and the reader's own cases.
// What must come of a right sheet is known from its bytes, two more or two fewer; the definition goes by the job.
// What the command writes is moved back here, and the command is asked to move it back too.
// The form of a call is the one that its sheets come in.
// It leans on jobs, make, ties, shapes, named, room and moving.

use crate::case::{Call, Case, Judgement, Known, Response, USUAL_COUNT};
use crate::job::{Form, Job, JobSheet};
use crate::jobs::{EXCUSES, READER};
use crate::make::{longest_job, random_job, tied_job};
use crate::moving::{move_sheet, EXCUSES_LOST};
use crate::named::{right_sheets, with_excuses, EMPTY, FIRST_IS_0, FIRST_IS_1, FIRST_IS_BOTH, FIRST_IS_EITHER};
use crate::named::{J1, J2, J3, J4, J7, NOT_BOTH_HIGH, SPEED_WIRES};
use crate::outcome::{Outcome, Refusal, ACCEPTED, JOB};
use crate::random::Random;
use crate::room::{enough_room, no_room, rooms_for, too_little_room, MOST_ROOM};
use crate::shapes::job_near_line;
use crate::ties::{chain_job, ring_job};

/// From form one to form two.
pub const TO_TWO: Call = Call {
    op: b'm',
    name: "move",
    form: Form::One,
    writes: 1,
    count: USUAL_COUNT / 2,
    codes: &[0, 1, 2, 3, 4, 5, 6],
    foremost: &[0, 6],
    balanced: false,
    named: named_moves,
    make: random_moves,
    judge,
};

/// From form two to form one, as often: excuses would be lost.
pub const TO_ONE: Call = Call {
    count: TO_TWO.count,
    codes: &[0, 1, 2, 3, 4, 5, 6, EXCUSES_LOST as u64],
    foremost: &[0, 6, EXCUSES_LOST as u64],
    ..TO_TWO.in_form_two()
};

/// The mover, on the sheets that the move from the other form gives: with one seed those that the command has just
/// written. The sheets from before must come back.
pub const BACK: Call = Call {
    name: "move back",
    count: 20_000,
    codes: &[0],
    foremost: &[0],
    named: |form, random| moved_back(form, named_moves(form.other(), random)),
    make: |form, random| moved_back(form, random_moves(form.other(), random)),
    ..TO_TWO
};

fn judge(form: Form, slices: &[Vec<u8>], got: &Response) -> Judgement {
    let (sheet, before) = (&slices[0], &slices[1]);
    let judgement = Judgement::sheet(ACCEPTED, move_sheet(form, sheet, before.len()), before);
    Judgement { fault: astray(form, sheet, got), ..judgement }
}

/// What is wrong if the sheet that the command wrote does not come back as the one that it was given.
fn astray(form: Form, sheet: &[u8], got: &Response) -> Option<String> {
    if got.outcome.code != ACCEPTED as u64 {
        return None;
    }
    match move_sheet(form.other(), got.written(), sheet.len()) {
        Ok(back) if back == sheet => None,
        Ok(_) => Some("the sheet comes back as another".into()),
        Err(outcome) => Some(format!("the sheet does not come back: {outcome}")),
    }
}

/// The buffer holds no byte that the way back has to write.
fn moved_back(form: Form, cases: Vec<Case>) -> Vec<Case> {
    let back = |case: Case| {
        let (sheet, room) = (&case.slices[0], case.slices[1].len());
        let moved = move_sheet(form.other(), sheet, room).ok()?;
        let buffer = sheet.iter().map(|byte| !byte).collect();
        Some(Case { slices: vec![moved, buffer], known: Some(Known::Wrote(ACCEPTED, sheet.clone())) })
    };
    cases.into_iter().filter_map(back).collect()
}

fn case(sheet: Vec<u8>, room: usize, known: Option<Known>, random: &mut Random) -> Case {
    Case { slices: vec![sheet, random.bytes(room)], known }
}

fn refused(code: u8, place: usize) -> Known {
    Known::Outcome(Outcome::refused(Refusal { code, place }, JOB))
}

fn named_moves(form: Form, random: &mut Random) -> Vec<Case> {
    let mut cases = read_first((READER.named)(form, random), random);
    for one in right_sheets(random) {
        let two = [&one[..], &[0, 0]].concat();
        let (sheet, moved) = if form == Form::One { (one, two) } else { (two, one) };
        for (room, known) in rooms_for(&moved) {
            cases.push(case(sheet.clone(), room, Some(known), random));
        }
    }
    if form == Form::Two {
        cases.extend(read_first((EXCUSES.named)(form, random), random));
        cases.extend(named_losses(random));
    }
    cases
}

/// Excuses would be lost, whatever they excuse. A fault of the sheet comes before that, and the want of room after it.
fn named_losses(random: &mut Random) -> Vec<Case> {
    let named = [
        (J1, EMPTY, refused(16, 5)),
        (J3, EMPTY, refused(16, 35)),
        (J4, EMPTY, refused(16, 6)),
        (J2, FIRST_IS_0, refused(16, 14)),
        (J2, FIRST_IS_1, refused(16, 14)),
        (J2, FIRST_IS_EITHER, refused(16, 14)),
        (J2, FIRST_IS_BOTH, refused(16, 14)),
        (J7, FIRST_IS_BOTH, refused(16, 12)),
        (SPEED_WIRES, NOT_BOTH_HIGH, refused(16, 18)),
        (SPEED_WIRES, "02 00 02 00 02", refused(1, 23)),
        (SPEED_WIRES, "41 00", refused(2, 18)),
        (SPEED_WIRES, "01 00 05", refused(2, 20)),
        (SPEED_WIRES, "01 00 02 02 02", refused(3, 22)),
        (SPEED_WIRES, "01 00 02 00 04", refused(4, 22)),
        (SPEED_WIRES, "01 00 02 00 02 00", refused(5, 23)),
        (J1, "01 00 00 00", refused(5, 8)),
    ];
    let mut sheets = named.map(|(job, excuses, known)| (with_excuses(job, excuses), known)).to_vec();
    let longest = JobSheet::of(&longest_job(Form::Two, random)).bytes;
    sheets.push((longest, refused(16, 7457)));
    let mut cases = Vec::new();
    for (sheet, known) in sheets {
        for room in [0, 4, sheet.len(), MOST_ROOM] {
            cases.push(case(sheet.clone(), room, Some(known.clone()), random));
        }
    }
    cases
}

/// The reader's cases, each without room and with enough. What it refuses must be refused alike; the rest is open.
fn read_first(cases: Vec<Case>, random: &mut Random) -> Vec<Case> {
    let mut lent = Vec::new();
    for Case { slices, known } in cases {
        let refusal = known.filter(|known| matches!(known, Known::Outcome(outcome) if outcome.code != ACCEPTED as u64));
        let enough = MOST_ROOM.min(slices[0].len() + 2);
        for room in [0, enough] {
            lent.push(case(slices[0].clone(), room, refusal.clone(), random));
        }
    }
    lent
}

fn random_moves(form: Form, random: &mut Random) -> Vec<Case> {
    if random.once_in(3) {
        let reader = if form == Form::Two && random.once_in(2) { EXCUSES } else { READER };
        return read_first((reader.make)(form, random), random);
    }
    let mut job = any_job(form, random);
    if !random.once_in(3) {
        job.excuses.clear();
    }
    vec![right_case(&job, random)]
}

/// A job of any family.
fn any_job(form: Form, random: &mut Random) -> Job {
    match random.below(200) {
        0 => job_near_line(form, random),
        1..=9 => ring_job(form, random),
        10..=19 => chain_job(form, random),
        20..=59 => tied_job(form, random),
        _ => random_job(form, random),
    }
}

/// The job's sheet. In form two the section of excuses is taken off for the move.
fn right_case(job: &Job, random: &mut Random) -> Case {
    let sheet = JobSheet::of(job).bytes;
    let moved = match job.form {
        Form::One => [&sheet[..], &[0, 0]].concat(),
        Form::Two => sheet[..sheet.len() - JobSheet::of_excuses(job).bytes.len()].to_vec(),
    };
    let fits = !random.once_in(3);
    let room = if fits { enough_room(moved.len(), random) } else { too_little_room(moved.len(), random) };
    let known = match fits {
        _ if !job.excuses.is_empty() => refused(EXCUSES_LOST, moved.len()),
        true => Known::Wrote(ACCEPTED, moved),
        false => no_room(),
    };
    case(sheet, room, Some(known), random)
}
