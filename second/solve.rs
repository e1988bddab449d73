// Solves a job by the expansion written out: is there a pair, which one is the first, or else which walk stands.
// Claims that reach each other form a knot. A pair exists exactly if no row has both its claims in one knot.
// The first pair comes by fixing the rows one by one, in row order; after each the whole question is put anew.
// It leans on board, steps and answer.

use crate::answer::Answer;
use crate::board::{Board, Claim};
use crate::steps::Steps;

/// The first of the pairs that fit, or a walk that stands.
pub fn solve(board: &Board) -> Answer {
    let steps = Steps::of(board);
    let mut calls = calls_of(&steps);
    match torn_row(&calls) {
        Some(row) => Answer::Walk(steps.there_and_back(Claim(2 * row))),
        None => {
            let values = first_values(&mut calls);
            let (table_a, table_b) = values.split_at(board.rows(0));
            Answer::Tables([table_a.to_vec(), table_b.to_vec()])
        }
    }
}

pub fn has_pair(board: &Board) -> bool {
    torn_row(&calls_of(&Steps::of(board))).is_none()
}

/// For each claim the numbers of the claims that it calls for, each once.
fn calls_of(steps: &Steps) -> Vec<Vec<usize>> {
    let mut calls = Vec::with_capacity(steps.claims());
    for claim in 0..steps.claims() {
        let mut called: Vec<usize> = steps.from(Claim(claim)).iter().map(|(next, _)| next.0).collect();
        called.sort();
        called.dedup();
        calls.push(called);
    }
    calls
}

/// The values of all rows in the first pair; there is one. A row is fixed to a claim by its opposite calling for it.
fn first_values(calls: &mut [Vec<usize>]) -> Vec<u8> {
    let mut values = Vec::with_capacity(calls.len() / 2);
    for row in 0..calls.len() / 2 {
        let (zero, one) = (2 * row, 2 * row + 1);
        calls[one].push(zero);
        if torn_row(calls).is_none() {
            values.push(0);
        } else {
            calls[one].pop();
            calls[zero].push(one);
            values.push(1);
        }
    }
    values
}

/// The lowest row with both its claims in one knot.
fn torn_row(calls: &[Vec<usize>]) -> Option<usize> {
    let knots = knots(calls);
    (0..calls.len() / 2).find(|row| knots[2 * row] == knots[2 * row + 1])
}

const NO_KNOT: usize = usize::MAX;

/// Tarjan's search: one pass through the claims, each knot closed when the search leaves its first claim.
struct Search<'a> {
    calls: &'a [Vec<usize>],
    met: usize,
    /// When each claim was met, from 1 on; 0 if it was not.
    when: Vec<usize>,
    /// The claims whose knot is not closed, in the order they were met.
    open: Vec<usize>,
    knots: Vec<usize>,
}

/// For each claim its knot, named by one of the knot's claims.
fn knots(calls: &[Vec<usize>]) -> Vec<usize> {
    let claims = calls.len();
    let mut search =
        Search { calls, met: 0, when: vec![0; claims], open: Vec::new(), knots: vec![NO_KNOT; claims] };
    for claim in 0..claims {
        if search.when[claim] == 0 {
            search.visit(claim);
        }
    }
    search.knots
}

impl Search<'_> {
    /// Answers the earliest meeting of an open claim that was seen from here on.
    fn visit(&mut self, claim: usize) -> usize {
        self.met += 1;
        self.when[claim] = self.met;
        self.open.push(claim);
        let mut earliest = self.met;
        for next in &self.calls[claim] {
            if self.when[*next] == 0 {
                earliest = earliest.min(self.visit(*next));
            } else if self.knots[*next] == NO_KNOT {
                earliest = earliest.min(self.when[*next]);
            }
        }
        if earliest == self.when[claim] {
            self.close(claim);
        }
        earliest
    }

    /// The claim and all that were opened after it are one knot.
    fn close(&mut self, claim: usize) {
        while self.knots[claim] == NO_KNOT {
            let member = self.open.pop().expect("the claim is open");
            self.knots[member] = claim;
        }
    }
}
