// Makes jobs whose rules tie rows of A and B one to the next, in a long ring or a long chain.
// Their walks are long, and what one row holds is settled far away.
// It leans on random, job and make.

use crate::job::{Form, Job, MOST_WIRES};
use crate::make::{job_of_size, to_bytes};
use crate::random::Random;

/// A board of which A sees one half of the wires and B the other, so that every two rows are shown together.
struct Halves {
    wires: usize,
    seen: [Vec<usize>; 2],
    /// The rows of A and of B in the order in which they are tied.
    rows: [Vec<usize>; 2],
}

impl Halves {
    fn of(random: &mut Random, half: usize) -> Halves {
        let wires = 2 * half;
        let seen_by_a = random.rising(half, wires);
        let seen_by_b = (0..wires).filter(|wire| !seen_by_a.contains(wire)).collect();
        Halves { wires, seen: [seen_by_a, seen_by_b], rows: [0, 1].map(|_| (0..1 << half).collect()) }
    }

    fn shuffle(&mut self, random: &mut Random) {
        self.rows.iter_mut().for_each(|list| random.shuffle(list));
    }

    /// The terms of all wires that are false where the tie's two rows are shown. Tie by tie A and B take turns.
    fn guard(&self, tie: usize, ties: usize) -> Vec<usize> {
        let row_a = self.rows[0][tie.div_ceil(2) % ties];
        let row_b = self.rows[1][tie / 2];
        let combination = spread_out(row_a, &self.seen[0]) + spread_out(row_b, &self.seen[1]);
        (0..self.wires).map(|wire| 2 * wire + (combination >> wire & 1)).collect()
    }

    /// The job with these rules.
    fn job(self, form: Form, random: &mut Random, rules: Vec<Vec<usize>>) -> Job {
        let mut job = job_of_size(form, random, self.wires, 0);
        job.sees = self.seen.map(to_bytes);
        job.rules = rules.into_iter().map(to_bytes).collect();
        job
    }

    fn term_a(&self) -> usize {
        2 * self.wires
    }

    fn term_b(&self) -> usize {
        2 * self.wires + 2
    }
}

/// The combination that shows the row, with all wires that are not seen at 0.
fn spread_out(row: usize, seen: &[usize]) -> usize {
    seen.iter().enumerate().map(|(weight, wire)| (row >> weight & 1) << wire).sum()
}

fn half_of_the_wires(random: &mut Random) -> usize {
    match random.below(40) {
        0 => MOST_WIRES / 2,
        1..=4 => random.within(4, MOST_WIRES / 2 - 1),
        _ => random.within(1, 3),
    }
}

/// A job whose rules tie rows of A and B in one long ring, each two equal or unequal.
pub fn ring_job(form: Form, random: &mut Random) -> Job {
    let half = half_of_the_wires(random);
    let mut halves = Halves::of(random, half);
    halves.shuffle(random);
    let ties_of_each = random.within(1, 1 << half);
    let mut rules = Vec::new();
    for tie in 0..2 * ties_of_each {
        let guard = halves.guard(tie, ties_of_each);
        let (a, b) = (halves.term_a(), halves.term_b() + random.below(2));
        rules.push([guard.clone(), vec![a, b]].concat());
        rules.push([guard, vec![a ^ 1, b ^ 1]].concat());
    }
    halves.job(form, random, rules)
}

/// A job whose rules tie rows in one long chain. At its end no value is right, or one, or any.
/// In half of them the chain begins with row 0 of A, so that the first row looked at is farthest from the end.
pub fn chain_job(form: Form, random: &mut Random) -> Job {
    let half = half_of_the_wires(random);
    let mut halves = Halves::of(random, half);
    if random.once_in(2) {
        halves.shuffle(random);
    }
    let ties_of_each = 1 << half;
    let last = if random.once_in(2) { 2 * ties_of_each - 2 } else { random.below(2 * ties_of_each - 1) };
    let one_way = random.once_in(4);
    let mut rules = Vec::new();
    for tie in 0..last {
        let guard = halves.guard(tie, ties_of_each);
        let (a, b) = (halves.term_a() + random.below(2), halves.term_b() + random.below(2));
        rules.push([guard.clone(), vec![a, b]].concat());
        if !one_way || random.once_in(3) {
            rules.push([guard, vec![a ^ 1, b ^ 1]].concat());
        }
    }
    rules.extend(end_of_chain(random, &halves, halves.guard(last, ties_of_each)));
    random.shuffle(&mut rules);
    halves.job(form, random, rules)
}

/// The rules at the combination of the last tie.
fn end_of_chain(random: &mut Random, halves: &Halves, guard: Vec<usize>) -> Vec<Vec<usize>> {
    let (a, b) = (halves.term_a() + random.below(2), halves.term_b() + random.below(2));
    match random.below(8) {
        0..=3 => vec![guard],
        4 => vec![[guard.clone(), vec![a]].concat(), [guard, vec![b]].concat()],
        5 => vec![[guard, vec![a]].concat()],
        6 => vec![[guard, vec![b]].concat()],
        _ => Vec::new(),
    }
}
