// Makes random jobs with many rules, and tables that break one of them.
// Where a job has a pair that fits, a value or two of it are turned, so that few rules are broken and any of them may
// be the lowest; where the tables are random, many are. In form two the lowest combinations may be excused.
// It leans on random, job, make, shapes, spoil, board, answer, check and outcome.

use crate::answer::Answer;
use crate::board::Board;
use crate::check::check;
use crate::job::{Form, Job, MOST_EXCUSES, MOST_RULES, MOST_WIRES};
use crate::make::{fitting_job, job_of_size, tied_job, to_bytes};
use crate::outcome::RULE_BROKEN;
use crate::random::Random;
use crate::shapes::job_near_line;
use crate::spoil::spoil_tables;

/// A job, and the sheet of tables that the checker refuses for a broken rule.
pub fn broken_tables(form: Form, random: &mut Random) -> (Job, Vec<u8>) {
    loop {
        let (mut job, tables) = job_and_tables(form, random);
        let sheet = Answer::Tables(tables).sheet();
        if form == Form::Two && random.once_in(2) {
            excuse_lowest(&mut job, &sheet, random);
        }
        if let Some((_, rule)) = told(&job, &sheet) {
            put_behind(&mut job.rules, rule, random);
            return (job, sheet);
        }
    }
}

/// The combination and the rule that the checker tells.
fn told(job: &Job, sheet: &[u8]) -> Option<(usize, usize)> {
    let refused = check(&Board::of(job.clone()), sheet).err()?;
    (refused.code == RULE_BROKEN as u64).then_some((refused.place as usize, refused.rule as usize))
}

/// Excuses some of the lowest combinations at which a rule is broken, each by an excuse of its own.
fn excuse_lowest(job: &mut Job, sheet: &[u8], random: &mut Random) {
    for _ in 0..random.within(1, 3) {
        match told(job, sheet) {
            Some((place, _)) if job.excuses.len() < MOST_EXCUSES => job.excuses.push(excuse_of(place, job.wires())),
            _ => return,
        }
    }
}

/// Often puts the rule further back, so that high numbers are told about as often as low ones.
fn put_behind(rules: &mut Vec<Vec<u8>>, rule: usize, random: &mut Random) {
    if random.once_in(2) {
        let moved = rules.remove(rule);
        rules.insert(random.within(rule, rules.len()), moved);
    }
}

/// The excuse for this combination alone.
fn excuse_of(place: usize, wires: usize) -> Vec<u8> {
    to_bytes((0..wires).map(|wire| 2 * wire + 1 - (place >> wire & 1)).collect())
}

fn job_and_tables(form: Form, random: &mut Random) -> (Job, [Vec<u8>; 2]) {
    let (wires, rules) = size(random);
    let job = match random.below(12) {
        0..=6 => {
            let job = fitting_job(form, random, wires, rules);
            let tables = turned(copying_pair(&job), random);
            return (job, tables);
        }
        7 | 8 => job_of_size(form, random, wires, rules),
        9 | 10 => job_near_line(form, random),
        _ => tied_job(form, random),
    };
    let tables = [0, 1].map(|cell| (0..1 << job.sees[cell].len()).map(|_| random.below(2) as u8).collect());
    (job, tables)
}

/// So many wires and rules; most often few wires and some dozens of rules.
fn size(random: &mut Random) -> (usize, usize) {
    let wires = if random.once_in(6) { random.within(0, MOST_WIRES) } else { random.within(0, 6) };
    let rules = match random.below(20) {
        0 => MOST_RULES,
        1 | 2 => random.within(60, MOST_RULES),
        3..=6 => random.within(2, 12),
        _ => random.within(12, 50),
    };
    (wires, rules)
}

/// The pair that a job made to be fitted has: each cell copies the last wire it sees, or holds 1 if it sees none.
fn copying_pair(job: &Job) -> [Vec<u8>; 2] {
    [0, 1].map(|cell| match job.sees[cell].len() {
        0 => vec![1],
        seen => (0..1 << seen).map(|row| (row >> (seen - 1)) as u8).collect(),
    })
}

/// Tables with one value turned, or a few.
fn turned(tables: [Vec<u8>; 2], random: &mut Random) -> [Vec<u8>; 2] {
    let times = if random.once_in(2) { 1 } else { random.within(2, 5) };
    (0..times).fold(tables, |tables, _| spoil_tables(&tables, random))
}
