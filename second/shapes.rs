// Makes jobs near the line between tables and walk, on boards of every shape.
// A long list of rules is cut where one rule more takes the last pair away; there an answer is hardest to find.
// In form two a long list of excuses may be cut where one more lets a first pair fit.
// How the wires that A sees lie to those that B sees is chosen, not left to chance.
// It leans on random, job, make, excuses, board and solve.

use crate::board::Board;
use crate::excuses::narrow_excuses;
use crate::job::{term_limit, Form, Job, MOST_RULES, MOST_SEEN, MOST_WIRES};
use crate::make::{job_of_size, to_bytes, with_negation};
use crate::random::Random;
use crate::solve::has_pair;

/// How many wires both cells see, and how many only one of them and only the other.
struct Shape {
    shared: usize,
    own: [usize; 2],
}

/// A job near the line, most often on few wires.
pub fn job_near_line(form: Form, random: &mut Random) -> Job {
    let wires = match random.below(100) {
        0..=9 => random.within(0, 1),
        10..=59 => random.within(2, 5),
        60..=96 => random.within(6, 8),
        _ => random.within(9, MOST_WIRES),
    };
    let shape = shape(random, wires);
    let guard = random.within(wires / 3, wires);
    let mut job = with_rules(form, random, wires, shape, guard);
    if form == Form::Two && random.once_in(3) {
        excuse_near_line(random, &mut job);
    } else {
        cut_near_line(random, &mut job);
    }
    if wires <= 8 && random.once_in(12) {
        pad(random, &mut job);
    }
    job
}

/// A job near the line on one of the largest boards: all wires, and each cell sees as many as it may.
pub fn largest_near_line(form: Form, random: &mut Random) -> Job {
    let shared = random.within(2 * MOST_SEEN - MOST_WIRES, MOST_SEEN);
    let shape = Shape { shared, own: [MOST_SEEN - shared; 2] };
    let guard = random.within(MOST_WIRES - 4, MOST_WIRES - 2);
    let mut job = with_rules(form, random, MOST_WIRES, shape, guard);
    cut_near_line(random, &mut job);
    job
}

/// Equal, nested, overlapping, disjoint, or at least one empty.
fn shape(random: &mut Random, wires: usize) -> Shape {
    let most = wires.min(MOST_SEEN);
    match random.below(6) {
        0 => Shape { shared: size(random, 0, most), own: [0, 0] },
        1 => {
            let outer = size(random, 0, most);
            let inner = random.within(0, outer);
            Shape { shared: inner, own: [outer - inner, 0] }
        }
        2 | 3 if wires >= 3 => {
            let shared = random.within(1, most.min(wires - 2).min(MOST_SEEN - 1));
            let first = size(random, 1, (MOST_SEEN - shared).min(wires - shared - 1));
            let second = size(random, 1, (MOST_SEEN - shared).min(wires - shared - first));
            Shape { shared, own: [first, second] }
        }
        4 => Shape { shared: 0, own: [size(random, 0, most), 0] },
        _ => {
            let first = random.within(0, most);
            let second = size(random, 0, MOST_SEEN.min(wires - first));
            Shape { shared: 0, own: [first, second] }
        }
    }
}

/// Often the most.
fn size(random: &mut Random, least: usize, most: usize) -> usize {
    if random.once_in(3) {
        most
    } else {
        random.within(least, most)
    }
}

/// A job of this shape with as many rules as there may be.
fn with_rules(form: Form, random: &mut Random, wires: usize, shape: Shape, guard: usize) -> Job {
    let mut job = job_of_size(form, random, wires, 0);
    job.sees = seen_sets(random, wires, shape);
    let often_one_cell = random.once_in(3);
    job.rules = (0..MOST_RULES).map(|_| guarded_rule(random, wires, guard, often_one_cell)).collect();
    job
}

fn seen_sets(random: &mut Random, wires: usize, shape: Shape) -> [Vec<u8>; 2] {
    let mut order: Vec<usize> = (0..wires).collect();
    random.shuffle(&mut order);
    let (shared, rest) = order.split_at(shape.shared);
    let (first, rest) = rest.split_at(shape.own[0]);
    let second = &rest[..shape.own[1]];
    let mut sets = [first, second].map(|own| {
        let mut seen = [shared, own].concat();
        seen.sort();
        to_bytes(seen)
    });
    random.shuffle(&mut sets);
    sets
}

/// A rule that names about so many wires, and then one cell or both. Once in a long while it names no cell.
fn guarded_rule(random: &mut Random, wires: usize, guard: usize, often_one_cell: bool) -> Vec<u8> {
    let fewer = random.below(2).min(guard);
    let named = random.rising(guard - fewer, wires);
    let mut rule: Vec<usize> = named.into_iter().map(|wire| 2 * wire + random.below(2)).collect();
    let (a, b) = (2 * wires + random.below(2), 2 * wires + 2 + random.below(2));
    match random.below(if often_one_cell { 20 } else { 200 }) {
        0..=3 => rule.push(a),
        4..=7 => rule.push(b),
        8 if random.once_in(8) => {}
        _ => rule.extend([a, b]),
    }
    to_bytes(rule)
}

/// Leaves only the first of the rules: so many that a pair fits and with one more none does, or about that.
/// The rule that decides is then the last, or anywhere.
fn cut_near_line(random: &mut Random, job: &mut Job) {
    let all = job.rules.len();
    let fewest = fewest_not(all, |count| fits(job, count, job.excuses.len()));
    let count = match random.below(10) {
        _ if fewest > all => random.within(all / 2, all),
        0 => random.within(fewest * 3 / 4, fewest - 1),
        1..=4 => fewest - 1,
        5..=8 => fewest,
        _ => random.within(fewest, all.min(fewest * 5 / 4)),
    };
    job.rules.truncate(count);
    if random.once_in(2) {
        random.shuffle(&mut job.rules);
    }
}

/// Leaves a few rules more than a pair fits, and then puts excuses: so few that no pair fits and with one more a pair
/// does, or just as many as that takes. Any number where that is out of reach.
fn excuse_near_line(random: &mut Random, job: &mut Job) {
    let all = job.rules.len();
    let fewest = fewest_not(all, |count| fits(job, count, 0));
    job.rules.truncate(random.within(fewest, fewest * 5 / 4));
    job.excuses = narrow_excuses(random, job.wires());
    let (rules, all) = (job.rules.len(), job.excuses.len());
    let count = match fewest_not(all, |count| !fits(job, rules, count)) {
        fewest if fewest > all => random.within(0, all),
        fewest => fewest - random.below(2),
    };
    job.excuses.truncate(count);
    if random.once_in(2) {
        random.shuffle(&mut job.excuses);
    }
}

/// Whether a pair fits the job with only so many of its rules and of its excuses, from the first on.
fn fits(job: &Job, rules: usize, excuses: usize) -> bool {
    let (form, pins, sees) = (job.form, job.pins.clone(), job.sees.clone());
    let (rules, excuses) = (job.rules[..rules].to_vec(), job.excuses[..excuses].to_vec());
    has_pair(&Board::of(Job { form, pins, sees, rules, excuses }))
}

/// The lowest number from 1 on of which it is not true; one more than the most if it is true of all.
/// It must be true of every number below one of which it is.
fn fewest_not(most: usize, is_true: impl Fn(usize) -> bool) -> usize {
    let (mut with, mut without) = (0, 1);
    while without <= most && is_true(without) {
        (with, without) = (without, (2 * without).min(most + 1));
    }
    while without - with > 1 {
        let middle = (with + without) / 2;
        if is_true(middle) {
            with = middle;
        } else {
            without = middle;
        }
    }
    without
}

/// Puts rules before the others that ask nothing more: some always hold, some contain another rule.
fn pad(random: &mut Random, job: &mut Job) {
    let terms = term_limit(job.wires());
    let asked = job.rules.len();
    let count = if random.once_in(3) { MOST_RULES } else { random.within(asked, MOST_RULES) };
    while job.rules.len() < count {
        let mut rule = match asked == 0 || random.once_in(2) {
            true => with_negation(random, terms),
            false => job.rules[random.below(asked)].clone(),
        };
        let absent: Vec<u8> = (0..terms as u8).filter(|term| !rule.contains(term)).collect();
        if !absent.is_empty() {
            rule.push(*random.choose(&absent));
            rule.sort();
        }
        job.rules.push(rule);
    }
    job.rules.rotate_left(asked);
    if random.once_in(2) {
        random.shuffle(&mut job.rules);
    }
}
