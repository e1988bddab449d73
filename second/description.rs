// A job as the writer of job sheets takes it: pins, and masks for what the cells see and for the rules' terms.
// In a mask position p or term t has the weight 2 to the p or 2 to the t.
// It leans on job.

use crate::job::Job;

/// The sections of a description, as the writer's outcomes number them.
pub const PINS: u64 = 1;
pub const SEES: [u64; 2] = [2, 3];
pub const RULES: u64 = 4;

/// Numbers below this can stand in a mask.
pub const MASK_LIMIT: usize = 32;

#[derive(Clone, PartialEq, Eq)]
pub struct Description {
    pub pins: Vec<u8>,
    pub sees: [u32; 2],
    pub rules: Vec<u32>,
}

impl Description {
    pub fn of(job: &Job) -> Description {
        Description {
            pins: job.pins.clone(),
            sees: [0, 1].map(|cell| mask(&job.sees[cell])),
            rules: job.rules.iter().map(|rule| mask(rule)).collect(),
        }
    }

    /// The slices of a call: the pins, both cells' masks, the rules. A mask is four bytes, low byte first.
    pub fn slices(&self) -> [Vec<u8>; 3] {
        let bytes = |masks: &[u32]| masks.iter().flat_map(|mask| mask.to_le_bytes()).collect();
        [self.pins.clone(), bytes(&self.sees), bytes(&self.rules)]
    }

    /// The same back.
    pub fn from_slices(slices: &[Vec<u8>]) -> Description {
        let number = |bytes: &[u8]| u32::from_le_bytes(bytes.try_into().expect("four bytes"));
        let masks = |slice: &[u8]| slice.chunks(4).map(number).collect::<Vec<u32>>();
        let sees = masks(&slices[1]);
        Description { pins: slices[0].clone(), sees: [sees[0], sees[1]], rules: masks(&slices[2]) }
    }
}

/// The mask of different numbers.
pub fn mask(numbers: &[u8]) -> u32 {
    numbers.iter().map(|number| 1 << number).sum()
}

/// The numbers of a mask, rising.
pub fn members(mask: u32) -> Vec<u8> {
    (0..MASK_LIMIT as u8).filter(|number| mask >> number & 1 == 1).collect()
}
