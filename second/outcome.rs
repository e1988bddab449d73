// Outcomes as document 01 numbers them, code, sheet, place and bytes written, with the rule that request 4 of document
// 02 adds. The first four come in one 64-bit number; the rule is not handed over.
// A refusal knows its code and place; the sheet it names depends on which sheet was being read.
// It leans on nothing.

use std::fmt;

#[derive(Clone, Copy, PartialEq, Eq, Debug)]
pub struct Refusal {
    pub code: u8,
    pub place: usize,
}

#[derive(Clone, Copy, PartialEq, Eq, Debug)]
pub struct Outcome {
    pub code: u64,
    pub sheet: u64,
    pub place: u64,
    pub written: u64,
    /// For code 10 the lowest-numbered rule that is broken at the place; 0 elsewhere.
    pub rule: u64,
}

/// A sheet was read or written.
pub const ACCEPTED: u8 = 0;
pub const TABLES: u8 = 20;
pub const WALK: u8 = 21;

const NO_SHEET: u64 = 0;
pub const JOB: u64 = 1;
pub const ANSWER: u64 = 2;
pub const JOB_Q: u64 = 3;

const NO_ROOM: u8 = 6;
pub const RULE_BROKEN: u8 = 10;

impl Outcome {
    /// A success that writes nothing.
    pub fn success(code: u8) -> Outcome {
        Outcome { code: code as u64, sheet: 0, place: 0, written: 0, rule: 0 }
    }

    /// A success that writes a sheet of so many bytes.
    pub fn wrote(code: u8, bytes: usize) -> Outcome {
        Outcome { written: bytes as u64, ..Outcome::success(code) }
    }

    pub fn refused(refusal: Refusal, sheet: u64) -> Outcome {
        Outcome { code: refusal.code as u64, sheet, place: refusal.place as u64, written: 0, rule: 0 }
    }

    /// The tables break this rule at this combination.
    pub fn rule_broken(place: usize, rule: usize) -> Outcome {
        let refusal = Refusal { code: RULE_BROKEN, place };
        Outcome { rule: rule as u64, ..Outcome::refused(refusal, ANSWER) }
    }

    /// The lent buffer is too short.
    pub fn no_room() -> Outcome {
        Outcome::refused(Refusal { code: NO_ROOM, place: 0 }, NO_SHEET)
    }

    /// What the C face hands over of it: all but the rule.
    pub fn handed_over(self) -> Outcome {
        Outcome { rule: 0, ..self }
    }

    /// From the low bits up: code in 8, sheet in 8, place in 24, bytes written in 24.
    pub fn unpack(packed: u64) -> Outcome {
        Outcome {
            code: packed & 0xFF,
            sheet: packed >> 8 & 0xFF,
            place: packed >> 16 & 0xFF_FFFF,
            written: packed >> 40,
            rule: 0,
        }
    }
}

impl fmt::Display for Outcome {
    fn fmt(&self, out: &mut fmt::Formatter) -> fmt::Result {
        write!(out, "code {}, sheet {}, place {}, written {}", self.code, self.sheet, self.place, self.written)?;
        match self.rule {
            0 => Ok(()),
            rule => write!(out, ", rule {rule}"),
        }
    }
}
