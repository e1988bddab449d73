// Every step of a board, found rule by rule.
// A rule is broken where all its terms are false: what it names is set by that, and the rest runs free.
// An excuse holds where all its terms are true, and what is broken there leads to no step.
// So no rule and no excuse is evaluated anywhere, which is what board does from the definitions.
// It leans on board, answer and random.

use crate::answer::Walk;
use crate::board::{Board, Claim, Combination};
use crate::random::Random;
use std::collections::VecDeque;

pub struct Steps {
    /// For each claim the claims that it calls for, with the combination of each step.
    from: Vec<Vec<(Claim, Combination)>>,
}

impl Steps {
    /// Values that break a rule forbid each other: either one calls for the opposite in the other cell.
    pub fn of(board: &Board) -> Steps {
        let mut from = vec![Vec::new(); 2 * board.all_rows()];
        for (state, broken) in broken_states(board).into_iter().enumerate() {
            if broken {
                let combination = Combination(state % board.combinations());
                let values = state / board.combinations();
                let claim = |cell: usize| Claim(2 * board.shown_of_all(cell, combination) + (values >> cell & 1));
                from[claim(0).0].push((claim(1).opposite(), combination));
                from[claim(1).0].push((claim(0).opposite(), combination));
            }
        }
        Steps { from }
    }

    pub fn claims(&self) -> usize {
        self.from.len()
    }

    pub fn from(&self, claim: Claim) -> &[(Claim, Combination)] {
        &self.from[claim.0]
    }

    /// The first entry of a walk whose step is not among these.
    pub fn first_missing(&self, walk: &Walk) -> Option<usize> {
        (0..walk.len()).find(|entry| {
            let (claim, combination) = walk[*entry];
            let (next, _) = walk[(entry + 1) % walk.len()];
            !self.from(claim).contains(&(next, combination))
        })
    }

    /// Puts the steps of each claim in random order, so that paths vary.
    pub fn shuffle(&mut self, random: &mut Random) {
        for list in &mut self.from {
            random.shuffle(list);
        }
    }

    /// The fewest steps, at least one, from a claim to one that it reaches.
    /// Each entry is a claim and the combination of the step from it; the last claim is left out.
    pub fn path(&self, from: Claim, to: Claim) -> Walk {
        let mut came: Vec<Option<(Claim, Combination)>> = vec![None; self.claims()];
        let mut queue = VecDeque::from([from]);
        while came[to.0].is_none() {
            let claim = queue.pop_front().expect("the claim is reached");
            for (next, combination) in self.from(claim) {
                if came[next.0].is_none() {
                    came[next.0] = Some((claim, *combination));
                    queue.push_back(*next);
                }
            }
        }
        let mut walk = Walk::new();
        let mut claim = to;
        while walk.is_empty() || claim != from {
            let entry = came[claim.0].expect("each claim on the way was reached");
            walk.push(entry);
            claim = entry.0;
        }
        walk.reverse();
        walk
    }

    /// From a claim to its opposite and back, where both paths are there.
    pub fn there_and_back(&self, claim: Claim) -> Walk {
        let mut walk = self.path(claim, claim.opposite());
        walk.extend(self.path(claim.opposite(), claim));
        walk
    }
}

/// Whether some rule is broken by a combination that is not excused, for every state: the combination, and above its
/// bits A's value and B's.
fn broken_states(board: &Board) -> Vec<bool> {
    let variables = board.wires() + 2;
    let mut broken = vec![false; 1 << variables];
    for rule in board.rules() {
        for state in states_without(rule, variables) {
            broken[state] = true;
        }
    }
    for excuse in board.excuses() {
        let opposite: Vec<u8> = excuse.iter().map(|term| term ^ 1).collect();
        for state in states_without(&opposite, variables) {
            broken[state] = false;
        }
    }
    broken
}

/// The states in which every term of the set is false. There are none if it holds a term and its negation.
fn states_without(set: &[u8], variables: usize) -> Vec<usize> {
    let mut states = vec![0];
    for variable in 0..variables {
        let (plain, negated) = (2 * variable as u8, 2 * variable as u8 + 1);
        let weight = 1 << variable;
        match (set.contains(&plain), set.contains(&negated)) {
            (true, true) => return Vec::new(),
            (true, false) => {}
            (false, true) => states.iter_mut().for_each(|state| *state += weight),
            (false, false) => {
                let with_one: Vec<usize> = states.iter().map(|state| state + weight).collect();
                states.extend(with_one);
            }
        }
    }
    states
}
