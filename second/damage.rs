// Damages job sheets in the ways a copied or cut sheet goes wrong.
// Where the damage alone settles the outcome, it is told along, so that this program's own reader is tested too.
// It leans on random, job and outcome.

use crate::job::{Job, JobSheet, Mark};
use crate::outcome::Refusal;
use crate::random::Random;

pub struct Damaged {
    pub bytes: Vec<u8>,
    pub known: Option<Refusal>,
}

/// The accepted sheet with one damage.
pub fn damage(sheet: &JobSheet, random: &mut Random) -> Damaged {
    let bytes = &sheet.bytes;
    match random.below(13) {
        0 => unknown(one_byte_changed(bytes, random)),
        1 => unknown(two_bytes_exchanged(bytes, random)),
        2 => unknown(byte_put_in_or_taken_out(bytes, random)),
        3 => unknown(count_at_its_limit(sheet, random)),
        4 => cut(bytes, random.below(bytes.len())),
        5 => cut_at_a_mark(sheet, random),
        6 | 7 => bytes_over(bytes, random),
        8 | 9 => count_above_its_limit(sheet, random),
        10 | 11 => entry_too_high(sheet, random),
        _ => entry_not_rising(sheet, random),
    }
}

/// The job's sheet of form two with one damage to its last section, the excuses.
pub fn damage_excuses(job: &Job, random: &mut Random) -> Damaged {
    let (mut bytes, section) = (JobSheet::of(job).bytes, JobSheet::of_excuses(job));
    let begin = bytes.len() - section.bytes.len();
    let damaged = damage(&section, random);
    bytes.splice(begin.., damaged.bytes);
    Damaged { bytes, known: damaged.known.map(|refusal| Refusal { place: begin + refusal.place, ..refusal }) }
}

fn unknown(bytes: Vec<u8>) -> Damaged {
    Damaged { bytes, known: None }
}

fn known(bytes: Vec<u8>, code: u8, place: usize) -> Damaged {
    Damaged { bytes, known: Some(Refusal { code, place }) }
}

pub fn one_byte_changed(bytes: &[u8], random: &mut Random) -> Vec<u8> {
    let mut changed = bytes.to_vec();
    let place = random.below(bytes.len());
    changed[place] = match random.below(3) {
        0 => changed[place].wrapping_add(1),
        1 => changed[place].wrapping_sub(1),
        _ => changed[place] ^ random.within(1, 255) as u8,
    };
    changed
}

pub fn two_bytes_exchanged(bytes: &[u8], random: &mut Random) -> Vec<u8> {
    let mut changed = bytes.to_vec();
    let first = random.below(bytes.len() - 1);
    let second = if random.once_in(2) { first + 1 } else { random.below(bytes.len()) };
    changed.swap(first, second);
    changed
}

fn byte_put_in_or_taken_out(bytes: &[u8], random: &mut Random) -> Vec<u8> {
    let mut changed = bytes.to_vec();
    let place = random.below(bytes.len());
    if random.once_in(2) {
        changed.remove(place);
    } else {
        changed.insert(place, random.below(16) as u8);
    }
    changed
}

/// Every proper prefix of an accepted sheet ends where a byte is called for.
fn cut(bytes: &[u8], length: usize) -> Damaged {
    known(bytes[..length].to_vec(), 1, length)
}

/// Cut before a count or an entry, or between a count's two bytes.
fn cut_at_a_mark(sheet: &JobSheet, random: &mut Random) -> Damaged {
    match sheet.marks[random.below(sheet.marks.len())] {
        Mark::Count { offset, width, .. } => cut(&sheet.bytes, offset + random.below(width)),
        Mark::Entry { offset, .. } => cut(&sheet.bytes, offset),
    }
}

fn bytes_over(bytes: &[u8], random: &mut Random) -> Damaged {
    let mut longer = bytes.to_vec();
    let count = random.within(1, 5);
    longer.extend(random.bytes(count));
    known(longer, 5, bytes.len())
}

fn count_at_its_limit(sheet: &JobSheet, random: &mut Random) -> Vec<u8> {
    let (offset, width, limit) = some_count(sheet, random);
    with_number(&sheet.bytes, offset, width, limit)
}

fn count_above_its_limit(sheet: &JobSheet, random: &mut Random) -> Damaged {
    let (offset, width, limit) = some_count(sheet, random);
    let highest = (1 << (8 * width)) - 1;
    let count = match random.below(4) {
        0 => random.within(limit + 1, highest),
        // A count whose low byte alone would pass.
        1 if width == 2 => 256 * random.within(limit / 256 + 1, 255),
        // Often a count that another section permits.
        2 => limit + random.within(1, 4),
        _ => limit + 1,
    };
    known(with_number(&sheet.bytes, offset, width, count), 2, offset)
}

/// An entry made equal to its limit or higher. A sheet without limited entries is cut instead.
fn entry_too_high(sheet: &JobSheet, random: &mut Random) -> Damaged {
    let limited = |mark: &Mark| match mark {
        Mark::Entry { offset, limit: Some(limit), .. } => Some((*offset, *limit)),
        _ => None,
    };
    let Some((offset, limit)) = some_mark(sheet, random, limited) else {
        return cut_at_a_mark(sheet, random);
    };
    let entry = match random.below(4) {
        0 => random.within(limit, 255),
        // Often an entry that another section permits.
        1 => limit + random.below(4),
        _ => limit,
    };
    known(with_number(&sheet.bytes, offset, 1, entry), 4, offset)
}

/// An entry made equal to the one before it or lower. A sheet of short lists is cut instead.
fn entry_not_rising(sheet: &JobSheet, random: &mut Random) -> Damaged {
    let later = |mark: &Mark| match mark {
        Mark::Entry { offset, first: false, .. } => Some(*offset),
        _ => None,
    };
    let Some(offset) = some_mark(sheet, random, later) else {
        return cut_at_a_mark(sheet, random);
    };
    let before = sheet.bytes[offset - 1] as usize;
    let entry = if random.once_in(4) { random.within(0, before) } else { before };
    known(with_number(&sheet.bytes, offset, 1, entry), 3, offset)
}

fn some_count(sheet: &JobSheet, random: &mut Random) -> (usize, usize, usize) {
    let count = |mark: &Mark| match mark {
        Mark::Count { offset, width, limit } => Some((*offset, *width, *limit)),
        _ => None,
    };
    some_mark(sheet, random, count).expect("every section has a count")
}

/// One of the marks that the choice accepts, if there is any.
fn some_mark<T: Copy>(sheet: &JobSheet, random: &mut Random, choice: impl Fn(&Mark) -> Option<T>) -> Option<T> {
    let chosen: Vec<T> = sheet.marks.iter().filter_map(choice).collect();
    if chosen.is_empty() {
        return None;
    }
    Some(chosen[random.below(chosen.len())])
}

/// The bytes with a number of one or two bytes, low byte first, written over them.
pub fn with_number(bytes: &[u8], offset: usize, width: usize, number: usize) -> Vec<u8> {
    let mut changed = bytes.to_vec();
    changed[offset..offset + width].copy_from_slice(&number.to_le_bytes()[..width]);
    changed
}
