// The expansion of a job, written out: every step there is, and which claims reach which.
// It finds right answers to compare with: a fitting pair, a standing walk, a closed walk that does not stand.
// Reaching is the plain transitive closure, one claim in between after the other; boards here are small.
// It leans on board, steps and random.

use crate::board::{Board, Claim};
use crate::random::Random;
use crate::steps::Steps;

pub struct Expansion {
    claims: usize,
    rows_a: usize,
    pub steps: Steps,
    /// For each claim one bit for each claim that it reaches in one step or more.
    reached: Vec<Vec<u64>>,
}

impl Expansion {
    /// The steps of each claim come in random order, so that walks vary.
    pub fn of(board: &Board, random: &mut Random) -> Expansion {
        let mut steps = Steps::of(board);
        steps.shuffle(random);
        let reached = closure(&steps);
        Expansion { claims: steps.claims(), rows_a: board.rows(0), steps, reached }
    }

    fn reaches(&self, from: Claim, to: Claim) -> bool {
        self.reached[from.0][to.0 / 64] >> (to.0 % 64) & 1 == 1
    }

    /// The claims that reach their opposite and are reached by it. There are none exactly if a pair fits.
    pub fn in_conflict(&self) -> Vec<Claim> {
        let conflict = |claim: &Claim| {
            self.reaches(*claim, claim.opposite()) && self.reaches(claim.opposite(), *claim)
        };
        (0..self.claims).map(Claim).filter(conflict).collect()
    }

    /// The claims that reach themselves.
    pub fn on_closed_walks(&self) -> Vec<Claim> {
        (0..self.claims).map(Claim).filter(|claim| self.reaches(*claim, *claim)).collect()
    }

    /// A fitting pair, where no claim is in conflict. Wishes are granted in their order as far as that goes.
    pub fn pair(&self, wishes: &[Claim]) -> [Vec<u8>; 2] {
        let mut values: Vec<Option<u8>> = vec![None; self.claims / 2];
        for wish in wishes {
            if values[wish.row()].is_none() {
                let claim = if self.reaches(*wish, wish.opposite()) { wish.opposite() } else { *wish };
                self.settle(&mut values, claim);
            }
        }
        let all: Vec<u8> = values.into_iter().map(|value| value.expect("a wish for every row")).collect();
        [all[..self.rows_a].to_vec(), all[self.rows_a..].to_vec()]
    }

    /// Makes a claim true, and every claim that it reaches.
    fn settle(&self, values: &mut [Option<u8>], claim: Claim) {
        values[claim.row()] = Some(claim.value());
        for (index, word) in self.reached[claim.0].iter().enumerate() {
            let mut left = *word;
            while left != 0 {
                let other = Claim(64 * index + left.trailing_zeros() as usize);
                left &= left - 1;
                assert!(values[other.row()] != Some(1 - other.value()), "a claim is settled both ways");
                values[other.row()] = Some(other.value());
            }
        }
    }
}

fn closure(steps: &Steps) -> Vec<Vec<u64>> {
    let claims = steps.claims();
    let mut reached = vec![vec![0; claims.div_ceil(64)]; claims];
    for (claim, row) in reached.iter_mut().enumerate() {
        for (next, _) in steps.from(Claim(claim)) {
            row[next.0 / 64] |= 1 << (next.0 % 64);
        }
    }
    for between in 0..claims {
        let beyond = reached[between].clone();
        for row in reached.iter_mut().filter(|row| row[between / 64] >> (between % 64) & 1 == 1) {
            for (word, more) in row.iter_mut().zip(&beyond) {
                *word |= more;
            }
        }
    }
    reached
}
