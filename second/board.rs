// What a job means: the row that a combination shows, the rules that hold at it, whether it is excused, the steps
// between claims. Everything is taken from the definitions of document 01 and of requests 2 and 4 of document 02, term
// by term, without masks or tables.
// It leans on job.

use crate::job::Job;

/// Claim 2r says that row r holds 0, claim 2r+1 that it holds 1.
#[derive(Clone, Copy, PartialEq, Eq, Debug)]
pub struct Claim(pub usize);

/// A state of all wires; the wire at position p has weight 2 to the p.
#[derive(Clone, Copy, PartialEq, Eq, Debug)]
pub struct Combination(pub usize);

impl Claim {
    pub fn opposite(self) -> Claim {
        Claim(self.0 ^ 1)
    }

    pub fn row(self) -> usize {
        self.0 / 2
    }

    pub fn value(self) -> u8 {
        (self.0 % 2) as u8
    }
}

pub struct Board {
    job: Job,
}

impl Board {
    pub fn of(job: Job) -> Board {
        Board { job }
    }

    pub fn wires(&self) -> usize {
        self.job.wires()
    }

    pub fn rules(&self) -> &[Vec<u8>] {
        &self.job.rules
    }

    pub fn excuses(&self) -> &[Vec<u8>] {
        &self.job.excuses
    }

    /// The row count of a cell, 0 for A and 1 for B.
    pub fn rows(&self, cell: usize) -> usize {
        1 << self.job.sees[cell].len()
    }

    /// The rows of both cells.
    pub fn all_rows(&self) -> usize {
        self.rows(0) + self.rows(1)
    }

    pub fn combinations(&self) -> usize {
        1 << self.job.wires()
    }

    /// The row of the cell that the combination shows, counted within that cell.
    pub fn shown(&self, cell: usize, combination: Combination) -> usize {
        let mut row = 0;
        for (weight, position) in self.job.sees[cell].iter().enumerate() {
            row += (combination.0 >> position & 1) << weight;
        }
        row
    }

    /// The same row, with A's rows first and then B's.
    pub fn shown_of_all(&self, cell: usize, combination: Combination) -> usize {
        self.shown(cell, combination) + cell * self.rows(0)
    }

    /// What A and B are set to at the combination: the tables' values in the rows that it shows.
    pub fn values(&self, tables: &[Vec<u8>; 2], combination: Combination) -> [u8; 2] {
        [0, 1].map(|cell| tables[cell][self.shown(cell, combination)])
    }

    /// The cell that a claim's row belongs to.
    pub fn cell(&self, claim: Claim) -> usize {
        usize::from(claim.row() >= self.rows(0))
    }

    /// Whether some rule is broken at the combination with A and B set to these values.
    pub fn breaks(&self, combination: Combination, values: [u8; 2]) -> bool {
        self.job.rules.iter().any(|rule| !self.holds(rule, combination, values))
    }

    /// The lowest-numbered of the rules broken there, from 0, or that none is.
    pub fn broken_rule(&self, combination: Combination, values: [u8; 2]) -> Option<usize> {
        self.job.rules.iter().position(|rule| !self.holds(rule, combination, values))
    }

    pub fn holds(&self, rule: &[u8], combination: Combination, values: [u8; 2]) -> bool {
        rule.iter().any(|term| self.is_true(*term, combination, values))
    }

    fn is_true(&self, term: u8, combination: Combination, values: [u8; 2]) -> bool {
        match (term as usize / 2).checked_sub(self.job.wires()) {
            None => wire_term_is_true(term, combination),
            Some(cell) => agrees(term, values[cell]),
        }
    }

    /// Whether the tables need not keep the rules at the combination, and no step goes by it.
    pub fn is_excused(&self, combination: Combination) -> bool {
        self.job.excuses.iter().any(|excuse| excuse.iter().all(|term| wire_term_is_true(*term, combination)))
    }

    /// Whether a step goes from one claim to the other by the combination.
    pub fn step_holds(&self, from: Claim, to: Claim, combination: Combination) -> bool {
        let (cell, other) = (self.cell(from), self.cell(to));
        if cell == other
            || self.is_excused(combination)
            || self.shown_of_all(cell, combination) != from.row()
            || self.shown_of_all(other, combination) != to.row()
        {
            return false;
        }
        let mut values = [0; 2];
        values[cell] = from.value();
        values[other] = 1 - to.value();
        self.breaks(combination, values)
    }
}

fn wire_term_is_true(term: u8, combination: Combination) -> bool {
    agrees(term, (combination.0 >> (term / 2) & 1) as u8)
}

/// A plain term is true where its variable is 1, a negated one where it is 0.
fn agrees(term: u8, value: u8) -> bool {
    let negated = term % 2 == 1;
    (value == 1) != negated
}
