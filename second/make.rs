// Makes random jobs of either form and of every permitted shape: most short, some with every count at its limit.
// Short jobs keep the comparison quick; the long ones reach the far ends of the sheet.
// It leans on random, job and excuses.

use crate::excuses::random_excuses;
use crate::job::{term_limit, wire_term_limit, Form, Job, MOST_EXCUSES, MOST_RULES, MOST_SEEN, MOST_WIRES};
use crate::random::Random;

const HIGHEST_PIN: usize = 255;

/// A job of any shape.
pub fn random_job(form: Form, random: &mut Random) -> Job {
    if random.once_in(4000) {
        return longest_job(form, random);
    }
    let wires = if random.once_in(3) { random.within(0, MOST_WIRES) } else { random.within(0, 4) };
    let rules = match random.below(500) {
        0 => random.within(MOST_RULES - 2, MOST_RULES),
        1..=9 => random.within(9, 60),
        10..=200 => random.within(3, 8),
        _ => random.within(0, 2),
    };
    job_of_size(form, random, wires, rules)
}

/// A job with so many wires and rules. What the cells see, what the rules hold and what is excused is random.
pub fn job_of_size(form: Form, random: &mut Random, wires: usize, rules: usize) -> Job {
    let mut job = Job { form, pins: pins(random, wires), ..Job::default() };
    for cell in 0..2 {
        job.sees[cell] = seen(random, wires);
    }
    for _ in 0..rules {
        let rule = rule(random, &job);
        job.rules.push(rule);
    }
    job.excuses = random_excuses(form, random, wires);
    job
}

/// A job whose rules tie the cells to each other and to the wires, so that both kinds of answer are common.
pub fn tied_job(form: Form, random: &mut Random) -> Job {
    let wires = if random.once_in(12) { random.within(0, 9) } else { random.within(0, 4) };
    let mut job = job_of_size(form, random, wires, 0);
    for _ in 0..random.within(1, 4) {
        let named = random.within(0, 3);
        let guard = terms_of_wires(random, named, wires);
        // Where the guard's terms are all false: the cells are equal, or unequal, or one of them is fixed.
        let a = 2 * wires + random.below(2);
        let b = 2 * wires + 2 + random.below(2);
        match random.below(8) {
            0 => job.rules.push(to_bytes([guard, vec![a]].concat())),
            1 => job.rules.push(to_bytes([guard, vec![b]].concat())),
            2 => job.rules.push(to_bytes([guard, vec![a, b]].concat())),
            _ => {
                job.rules.push(to_bytes([guard.clone(), vec![a, b]].concat()));
                job.rules.push(to_bytes([guard, vec![a ^ 1, b ^ 1]].concat()));
            }
        }
    }
    job
}

/// A job that a pair fits, however many rules it has.
/// Each cell can copy the last wire it sees, or hold 1 if it sees none.
pub fn fitting_job(form: Form, random: &mut Random, wires: usize, rules: usize) -> Job {
    let mut job = job_of_size(form, random, wires, 0);
    for _ in 0..rules {
        let more = random.within(0, 4);
        let mut rule = random.rising(more, term_limit(wires));
        let cell = random.below(2);
        let plain = 2 * (wires + cell);
        match job.sees[cell].last() {
            Some(wire) if random.once_in(2) => rule.extend([2 * *wire as usize, plain + 1]),
            Some(wire) => rule.extend([2 * *wire as usize + 1, plain]),
            None => rule.push(plain),
        }
        rule.sort();
        rule.dedup();
        job.rules.push(to_bytes(rule));
    }
    job
}

/// So many terms of different wires, or as many as there are wires.
pub fn terms_of_wires(random: &mut Random, count: usize, wires: usize) -> Vec<usize> {
    let chosen = random.rising(count, wires);
    chosen.into_iter().map(|wire| 2 * wire + random.below(2)).collect()
}

/// A job whose sheet is the longest there is.
pub fn longest_job(form: Form, random: &mut Random) -> Job {
    let mut job = job_of_size(form, random, MOST_WIRES, 0);
    for cell in 0..2 {
        job.sees[cell] = to_bytes(random.rising(MOST_SEEN, MOST_WIRES));
    }
    job.rules = vec![every_below(term_limit(MOST_WIRES)); MOST_RULES];
    if form == Form::Two {
        job.excuses = vec![every_below(wire_term_limit(MOST_WIRES)); MOST_EXCUSES];
    }
    job
}

fn pins(random: &mut Random, wires: usize) -> Vec<u8> {
    match random.below(6) {
        0 => (0..wires).map(|pin| pin as u8).collect(),
        1 => (0..wires).map(|pin| (HIGHEST_PIN + 1 - wires + pin) as u8).collect(),
        _ => to_bytes(random.rising(wires, HIGHEST_PIN + 1)),
    }
}

fn seen(random: &mut Random, wires: usize) -> Vec<u8> {
    let most = wires.min(MOST_SEEN);
    let count = if random.once_in(4) { most } else { random.within(0, most) };
    to_bytes(random.rising(count, wires))
}

fn rule(random: &mut Random, job: &Job) -> Vec<u8> {
    let terms = term_limit(job.wires());
    match random.below(24) {
        0 | 1 => Vec::new(),
        2 => every_below(terms),
        3 => {
            let count = random.within(0, terms);
            to_bytes(random.rising(count, terms))
        }
        4 | 5 => with_negation(random, terms),
        6 | 7 if !job.rules.is_empty() => job.rules[random.below(job.rules.len())].clone(),
        _ => {
            let count = random.within(1, 4);
            to_bytes(random.rising(count, terms))
        }
    }
}

/// A set with some term below the limit and its negation: as a rule it always holds, as an excuse never.
pub fn with_negation(random: &mut Random, terms: usize) -> Vec<u8> {
    let plain = 2 * random.below(terms / 2);
    let count = random.within(0, 3);
    let mut set = random.rising(count, terms);
    set.extend([plain, plain + 1]);
    set.sort();
    set.dedup();
    to_bytes(set)
}

pub fn every_below(limit: usize) -> Vec<u8> {
    to_bytes((0..limit).collect())
}

pub fn to_bytes(numbers: Vec<usize>) -> Vec<u8> {
    numbers.into_iter().map(|number| number as u8).collect()
}
