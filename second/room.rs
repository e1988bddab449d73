// The room that a call has for what it writes: enough, or too little.
// Just enough and one byte less are the most common.
// It leans on random, case and outcome.

use crate::case::{Known, LONGEST_SLICE};
use crate::outcome::{Outcome, ACCEPTED};
use crate::random::Random;

/// The longest answer sheet, and the room that is asked for one.
pub const ROOM: usize = 8190;
pub const MOST_ROOM: usize = LONGEST_SLICE;

/// Room where so many bytes are wanted.
pub fn enough_room(wanted: usize, random: &mut Random) -> usize {
    match random.below(400) {
        0 => random.within(wanted, MOST_ROOM),
        1..=100 => wanted + random.within(1, 40),
        _ => wanted,
    }
}

pub fn too_little_room(wanted: usize, random: &mut Random) -> usize {
    match random.below(6) {
        0 | 1 => wanted - 1,
        2 => 0,
        3 => random.below(wanted.min(16)),
        _ => random.below(wanted),
    }
}

/// Rooms for a sheet that must be written, just enough, more and too little, and what must come of each.
pub fn rooms_for(sheet: &[u8]) -> [(usize, Known); 5] {
    let (length, wrote) = (sheet.len(), || Known::Wrote(ACCEPTED, sheet.to_vec()));
    [(length, wrote()), (length + 1, wrote()), (MOST_ROOM, wrote()), (length - 1, no_room()), (0, no_room())]
}

pub fn no_room() -> Known {
    Known::Outcome(Outcome::no_room())
}
