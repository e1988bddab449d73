// The cases of the writer: the papers' jobs and each refusal, then random descriptions, right and wrong.
// A right description is read from a sheet, and the writer must give that sheet back to the byte.
// What the command writes is read again and must be what was described; and its reader is asked for the same sheets.
// The writer and what it writes are of form one.
// It leans on make, read, description, distort, room and write.

use crate::case::{Call, Case, Judgement, Known, Response, USUAL_COUNT};
use crate::description::{mask, Description, PINS, RULES, SEES};
use crate::distort::distort;
use crate::job::{term_limit, Form, JobSheet, MOST_RULES, MOST_WIRES};
use crate::jobs::READER;
use crate::make::{random_job, tied_job, to_bytes};
use crate::named::right_sheets;
use crate::outcome::{Outcome, Refusal, ACCEPTED};
use crate::random::Random;
use crate::read::read_job;
use crate::room::{enough_room, no_room, rooms_for, too_little_room};
use crate::write::write;

pub const WRITER: Call = Call {
    op: b'j',
    name: "write",
    form: Form::One,
    writes: 1,
    count: USUAL_COUNT,
    codes: &[0, 2, 3, 4, 6],
    foremost: &[0, 6],
    balanced: false,
    named: named_descriptions,
    make: random_descriptions,
    judge,
};

/// The reader, on the sheets of the writer's cases: with one seed those that the command has just written.
pub const WRITTEN: Call = Call {
    name: "read what is written",
    count: 50_000,
    codes: &[0],
    named: |form, random| written_sheets(named_descriptions(form, random)),
    make: |form, random| written_sheets(random_descriptions(form, random)),
    ..READER
};

fn judge(_: Form, slices: &[Vec<u8>], got: &Response) -> Judgement {
    let (described, before) = (Description::from_slices(slices), &slices[3]);
    let judgement = Judgement::sheet(ACCEPTED, write(&described, before.len()), before);
    Judgement { fault: misread(&described, got), ..judgement }
}

/// What is wrong if the sheet that the command wrote is not read as what was described.
fn misread(described: &Description, got: &Response) -> Option<String> {
    if got.outcome.code != ACCEPTED as u64 {
        return None;
    }
    match read_job(Form::One, got.written()) {
        Ok(job) if Description::of(&job) == *described => None,
        Ok(_) => Some("the sheet is read as another description".into()),
        Err(refusal) => Some(format!("the sheet is refused with {} at {}", refusal.code, refusal.place)),
    }
}

fn written_sheets(cases: Vec<Case>) -> Vec<Case> {
    let sheet = |case: Case| write(&Description::from_slices(&case.slices), case.slices[3].len()).ok();
    let accepted = || Some(Known::Outcome(Outcome::success(ACCEPTED)));
    cases.into_iter().filter_map(sheet).map(|sheet| Case { slices: vec![sheet], known: accepted() }).collect()
}

fn case(described: &Description, room: usize, known: Option<Known>, random: &mut Random) -> Case {
    Case { slices: [&described.slices()[..], &[random.bytes(room)]].concat(), known }
}

fn named_descriptions(form: Form, random: &mut Random) -> Vec<Case> {
    let mut cases = Vec::new();
    for sheet in right_sheets(random) {
        let described = described_by(&sheet);
        for (room, known) in rooms_for(&sheet) {
            cases.push(case(&described, room, Some(known), random));
        }
    }
    for (room, named) in [(form.longest(), named_refusals()), (0, named_orders())] {
        let made = |(described, known): Named| case(&described, room, Some(known), random);
        cases.extend(named.into_iter().map(made));
    }
    cases
}

/// What a right sheet describes.
fn described_by(sheet: &[u8]) -> Description {
    Description::of(&read_job(Form::One, sheet).expect("a right sheet"))
}

/// A description and what must come of it.
type Named = (Description, Known);

/// Pins, what A and B see, the rules; then code, section and place.
fn refused(pins: &[u8], sees: [u32; 2], rules: &[u32], code: u8, section: u64, place: usize) -> Named {
    let described = Description { pins: pins.to_vec(), sees, rules: rules.to_vec() };
    (described, Known::Outcome(Outcome::refused(Refusal { code, place }, section)))
}

/// One cause each.
fn named_refusals() -> Vec<Named> {
    let thirteen: Vec<u8> = (0..=MOST_WIRES as u8).collect();
    let twelve = &thirteen[..MOST_WIRES];
    let [a, b] = SEES;
    let none = [0, 0];
    vec![
        refused(&thirteen, none, &[], 2, PINS, 0),
        refused(&[4, 4], none, &[], 3, PINS, 1),
        refused(&[4, 7, 6], none, &[], 3, PINS, 2),
        refused(&[255, 0], none, &[], 3, PINS, 1),
        refused(twelve, [0x1FF, 0], &[], 2, a, 0),
        refused(twelve, [0, 0x1FF], &[], 2, b, 0),
        refused(twelve, [u32::MAX, 0], &[], 2, a, 0),
        refused(&[4, 7], [mask(&[0, 5, 9]), 0], &[], 4, a, 1),
        refused(&[4, 7], [0, mask(&[0, 1, 2])], &[], 4, b, 2),
        refused(&[], [1, 0], &[], 4, a, 0),
        refused(twelve, [1 << 12, 0], &[], 4, a, 0),
        refused(twelve, [1 << 31, 0], &[], 4, a, 0),
        refused(twelve, [0, 0x7F | 1 << 31], &[], 4, b, 7),
        refused(&[], none, &[0; MOST_RULES + 1], 2, RULES, 0),
        refused(&[], none, &[0, 0x1F], 2, RULES, 1),
        refused(&[], none, &[0x0F, 0x10], 4, RULES, 1),
        refused(twelve, none, &[(1 << 28) - 1, (1 << 29) - 1], 2, RULES, 1),
        refused(twelve, none, &[u32::MAX], 2, RULES, 0),
        refused(twelve, none, &[0, 0, 1 << 28], 4, RULES, 2),
        refused(twelve, none, &[1 << 31], 4, RULES, 0),
    ]
}

/// Several causes at once; further down there are fewer of them.
fn named_orders() -> Vec<Named> {
    const EVERY: u32 = u32::MAX;
    let (pins, falling) = (&[4, 7], &[7, 4]);
    let rules = &[1 << 31; MOST_RULES + 1];
    let [a, b] = SEES;
    vec![
        refused(&[0; MOST_WIRES + 1], [EVERY, EVERY], rules, 2, PINS, 0),
        refused(falling, [EVERY, EVERY], rules, 3, PINS, 1),
        refused(pins, [EVERY, EVERY], rules, 2, a, 0),
        refused(pins, [4, EVERY], rules, 4, a, 0),
        refused(pins, [3, EVERY], rules, 2, b, 0),
        refused(pins, [3, 5], rules, 4, b, 1),
        refused(pins, [3, 3], rules, 2, RULES, 0),
        refused(pins, [3, 3], &[0xFF, EVERY, 1 << 8], 2, RULES, 1),
        refused(pins, [3, 3], &[0xFF, 1 << 8, EVERY], 4, RULES, 1),
    ]
}

fn random_descriptions(form: Form, random: &mut Random) -> Vec<Case> {
    if random.once_in(12) {
        let (described, room) = (any_description(random), random.within(0, 60));
        return vec![case(&described, room, None, random)];
    }
    let job = if random.once_in(4) { tied_job(form, random) } else { random_job(form, random) };
    let sheet = JobSheet::of(&job).bytes;
    let described = described_by(&sheet);
    let (enough, too_little) = (enough_room(sheet.len(), random), too_little_room(sheet.len(), random));
    vec![match random.below(11) {
        0..=4 => case(&described, enough, Some(Known::Wrote(ACCEPTED, sheet)), random),
        5 | 6 => case(&described, too_little, Some(no_room()), random),
        7 | 8 => distorted(described, enough, random),
        _ => distorted(described, too_little, random),
    }]
}

/// One section is wrong, or two; of two the first decides. The last goes first, while the pins are right.
fn distorted(mut described: Description, room: usize, random: &mut Random) -> Case {
    let count = random.within(1, 2);
    let sections = random.rising(count, RULES as usize).into_iter().map(|section| PINS + section as u64);
    let outcomes = sections.rev().map(|section| distort(&mut described, section, random));
    let outcome = outcomes.last().expect("a section is wrong");
    case(&described, room, Some(Known::Outcome(outcome)), random)
}

/// A short description, drawn without regard to the limits but near them.
fn any_description(random: &mut Random) -> Description {
    let wires = random.within(0, MOST_WIRES + 1);
    let rules = random.within(0, 5);
    let pins = if random.once_in(8) { random.bytes(wires) } else { to_bytes(random.rising(wires, 256)) };
    let sees = [wires; 2].map(|limit| any_set(limit, random));
    Description { pins, sees, rules: (0..rules).map(|_| any_set(term_limit(wires), random)).collect() }
}

fn any_set(limit: usize, random: &mut Random) -> u32 {
    let reach = if random.once_in(8) { limit + 1 } else { limit };
    let count = random.within(0, 9);
    mask(&to_bytes(random.rising(count, reach)))
}
