// An answer as plain lists, and its answer sheet.
// It leans on board for claims and combinations.

use crate::board::{Claim, Combination};

pub const LONGEST_WALK: usize = 2046;

pub type Walk = Vec<(Claim, Combination)>;

#[derive(Clone)]
pub enum Answer {
    /// The values of A's rows, then of B's.
    Tables([Vec<u8>; 2]),
    Walk(Walk),
}

impl Answer {
    pub fn sheet(&self) -> Vec<u8> {
        let mut bytes = Vec::new();
        match self {
            Answer::Tables(tables) => {
                for table in tables {
                    put(&mut bytes, table.len());
                    bytes.extend_from_slice(table);
                }
                put(&mut bytes, 0);
            }
            Answer::Walk(walk) => {
                put(&mut bytes, 0);
                put(&mut bytes, 0);
                put(&mut bytes, walk.len());
                for (claim, combination) in walk {
                    put(&mut bytes, claim.0);
                    put(&mut bytes, combination.0);
                }
            }
        }
        bytes
    }
}

/// Two bytes, low byte first.
fn put(bytes: &mut Vec<u8>, number: usize) {
    bytes.extend_from_slice(&(number as u16).to_le_bytes());
}
