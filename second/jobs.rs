// The cases of the reader: the sheets that the papers name, then random ones on both sides of the line.
// About a third is accepted, a half is damaged in one place, the rest is random bytes and sheets beyond all lengths.
// In form two there are more whose faults all lie among the excuses.
// It leans on make, damage and read.

use crate::case::{hex, Call, Case, Judgement, Known, LONGEST_SLICE, USUAL_COUNT};
use crate::damage::{damage, damage_excuses, Damaged};
use crate::job::{Form, JobSheet, MOST_EXCUSES};
use crate::make::{longest_job, random_job};
use crate::named::{in_form, with_excuses, ALL, EMPTY, J1, NONE, NOT_BOTH_HIGH, SPEED_WIRES};
use crate::outcome::{Outcome, Refusal, ACCEPTED, JOB};
use crate::random::Random;
use crate::read::{read_job, read_outcome};

pub const READER: Call = Call {
    op: b'r',
    name: "read",
    form: Form::One,
    writes: 0,
    count: USUAL_COUNT,
    codes: &[0, 1, 2, 3, 4, 5],
    foremost: &[],
    balanced: false,
    named: named_sheets,
    make: random_sheets,
    judge: |form, slices, _| Judgement::outcome(read_outcome(form, &slices[0])),
};

/// The reader, on sheets of form two of which all but the section of excuses is right.
pub const EXCUSES: Call =
    Call { name: "read excuses", count: 100_000, named: |_, _| named_excuses(), make: random_excuses, ..READER };

/// Sheets whose outcome the paper or a close reading of it settles.
fn named_sheets(form: Form, random: &mut Random) -> Vec<Case> {
    let mut cases: Vec<Case> = ALL.iter().map(|sheet| accepted(in_form(form, sheet))).collect();

    let sheet_of = |count: &str, rules: usize| in_form(form, &format!("00 00 00 {count}{}", " 00".repeat(rules)));
    cases.push(accepted(sheet_of("00 01", 256)));
    cases.push(refused(sheet_of("01 01", 257), 2, 3));
    cases.push(refused(hex(""), 1, 0));
    cases.push(refused(hex("0D"), 2, 0));
    let shortest = in_form(form, J1);
    cases.push(refused([&shortest[..], &[0]].concat(), 5, shortest.len()));
    // Half a rule count is not judged. A cell's count is limited by 8 and not by the number of wires.
    cases.push(refused(hex("00 00 00 FF"), 1, 4));
    cases.push(refused(hex("02 04 07 03 00 01 02"), 4, 6));
    cases.push(refused(hex("01 04 08 00"), 1, 4));

    // A sheet of the other form.
    cases.push(match form {
        Form::One => refused(with_excuses(J1, NONE), 5, 5),
        Form::Two => refused(hex(J1), 1, 5),
    });

    let longest = JobSheet::of(&longest_job(form, random)).bytes;
    let length = form.longest();
    assert!(longest.len() == length, "the longest sheet has {} bytes", longest.len());
    cases.push(refused(longest[..length - 1].to_vec(), 1, length - 1));
    cases.push(refused([&longest[..], &[0]].concat(), 5, length));
    cases.push(accepted(longest));
    cases
}

/// Sections of excuses behind J1, which has no wires and 5 bytes, and behind a job with one wire and 6 bytes.
fn named_excuses() -> Vec<Case> {
    const ONE_WIRE: &str = "01 04 00 00 00 00";
    let accepted = |sheet: &str, excuses: &str| accepted(with_excuses(sheet, excuses));
    let refused = |sheet: &str, excuses: &str, code, place| refused(with_excuses(sheet, excuses), code, place);
    let empty = |count: usize| format!("{count:02X} 00{}", " 00".repeat(count));
    vec![
        accepted(J1, NONE),
        accepted(J1, EMPTY),
        accepted(SPEED_WIRES, NOT_BOTH_HIGH),
        accepted(J1, &empty(MOST_EXCUSES)),
        refused(J1, &empty(MOST_EXCUSES + 1), 2, 5),
        refused(J1, "00 01", 2, 5),
        // Half a count is not judged.
        refused(J1, "", 1, 5),
        refused(J1, "FF", 1, 6),
        refused(J1, "01 00", 1, 7),
        refused(J1, "02 00 00", 1, 8),
        refused(J1, "00 00 00", 5, 7),
        refused(J1, "01 00 00 00", 5, 8),
        // A rule without wires may have four terms, an excuse none.
        refused(J1, "01 00 01 00", 2, 7),
        accepted(ONE_WIRE, "01 00 02 00 01"),
        refused(ONE_WIRE, "01 00 03 00 01 02", 2, 8),
        refused(ONE_WIRE, "01 00 02 00", 1, 10),
        accepted(ONE_WIRE, "01 00 01 01"),
        refused(ONE_WIRE, "01 00 01 02", 4, 9),
        refused(ONE_WIRE, "01 00 01 05", 4, 9),
        refused(ONE_WIRE, "01 00 02 00 02", 4, 10),
        refused(ONE_WIRE, "01 00 02 00 00", 3, 10),
        refused(ONE_WIRE, "01 00 02 01 00", 3, 10),
        accepted(ONE_WIRE, "02 00 01 01 01 00"),
        accepted(ONE_WIRE, "02 00 01 01 01 01"),
    ]
}

/// Two thirds of the sheets are damaged, all of them behind the rules.
fn random_excuses(form: Form, random: &mut Random) -> Vec<Case> {
    let job = random_job(form, random);
    vec![match random.once_in(3) {
        true => accepted(JobSheet::of(&job).bytes),
        false => damaged_case(damage_excuses(&job, random)),
    }]
}

fn random_sheets(form: Form, random: &mut Random) -> Vec<Case> {
    if random.once_in(800) {
        return beyond_all_lengths(form, random);
    }
    if random.once_in(8) {
        return vec![case(random_bytes(random), None)];
    }
    let sheet = valid_sheet(form, random);
    if random.below(7) < 3 {
        return vec![accepted(sheet.bytes)];
    }
    vec![damaged_case(damage(&sheet, random))]
}

/// The sheet of a random job. Reading it must give that job back.
fn valid_sheet(form: Form, random: &mut Random) -> JobSheet {
    let job = random_job(form, random);
    let sheet = JobSheet::of(&job);
    assert!(read_job(form, &sheet.bytes) == Ok(job), "a sheet is not read as it was written");
    sheet
}

/// Bytes of any size rarely get past the first counts, so most are small.
fn random_bytes(random: &mut Random) -> Vec<u8> {
    let length = random.below(40);
    let limit = [2, 4, 8, 14, 30, 256][random.below(6)];
    (0..length).map(|_| random.below(limit) as u8).collect()
}

/// A sheet of more bytes than decide, one more than the longest sheet has, and those that decide: the outcome must be
/// the same.
fn beyond_all_lengths(form: Form, random: &mut Random) -> Vec<Case> {
    let longest = JobSheet::of(&longest_job(form, random));
    let mut bytes = match random.below(4) {
        0 => longest.bytes,
        1 | 2 => damage(&longest, random).bytes,
        _ => valid_sheet(form, random).bytes,
    };
    let decide = form.longest() + 1;
    let most = if random.once_in(8) { LONGEST_SLICE } else { decide + 500 };
    // Damage may have left bytes over, more than this length has.
    let length = random.within(decide + 1, most);
    let more = random.bytes(length.saturating_sub(bytes.len()));
    bytes.extend(more);
    let deciding = bytes[..decide].to_vec();
    let outcome = read_outcome(form, &bytes);
    vec![case(bytes, None), case(deciding, Some(outcome))]
}

fn case(bytes: Vec<u8>, known: Option<Outcome>) -> Case {
    Case { slices: vec![bytes], known: known.map(Known::Outcome) }
}

fn accepted(bytes: Vec<u8>) -> Case {
    case(bytes, Some(Outcome::success(ACCEPTED)))
}

fn refused(bytes: Vec<u8>, code: u8, place: usize) -> Case {
    case(bytes, Some(Outcome::refused(Refusal { code, place }, JOB)))
}

fn damaged_case(damaged: Damaged) -> Case {
    let known = damaged.known.map(|refusal| Outcome::refused(refusal, JOB));
    case(damaged.bytes, known)
}
