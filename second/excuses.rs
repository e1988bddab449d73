// Makes the excuses of random jobs: none, few or as many as there may be; with few terms, with many, with none at all,
// and ones that can never hold. Jobs of form one get none, and nothing is drawn for them.
// The more excuses there are, the more terms they have, so that seldom every combination is excused.
// Then the excuses of a job that asks no more than a given one, and of one that just fails to.
// It leans on random, job and make.

use crate::job::{wire_term_limit, Form, Job, MOST_EXCUSES};
use crate::make::{every_below, terms_of_wires, to_bytes, with_negation};
use crate::random::Random;

/// The excuses of a random job of this form with so many wires.
pub fn random_excuses(form: Form, random: &mut Random, wires: usize) -> Vec<Vec<u8>> {
    if form == Form::One {
        return Vec::new();
    }
    let count = match random.below(500) {
        0 => random.within(MOST_EXCUSES - 2, MOST_EXCUSES),
        1..=9 => random.within(9, MOST_EXCUSES),
        10..=79 => random.within(3, 8),
        80..=179 => 0,
        _ if wires == 0 => 0,
        _ => random.within(1, 2),
    };
    let fewest = (wires.div_ceil(2) + count / 3).min(wires);
    (0..count).map(|_| random_excuse(random, wires, fewest)).collect()
}

/// Most often it names so many wires or more, each once.
pub fn random_excuse(random: &mut Random, wires: usize, fewest: usize) -> Vec<u8> {
    let terms = wire_term_limit(wires);
    match random.below(40) {
        0 => Vec::new(),
        1 => every_below(terms),
        2 | 3 => {
            let count = random.within(0, terms);
            to_bytes(random.rising(count, terms))
        }
        4..=6 if wires > 0 => with_negation(random, terms),
        7..=9 => terms_of_some_wires(random, wires, wires.min(1)),
        _ => terms_of_some_wires(random, wires, fewest),
    }
}

/// As many excuses as there may be, each for few combinations.
pub fn narrow_excuses(random: &mut Random, wires: usize) -> Vec<Vec<u8>> {
    let fewest = wires - random.below(3).min(wires);
    (0..MOST_EXCUSES).map(|_| terms_of_some_wires(random, wires, fewest)).collect()
}

fn terms_of_some_wires(random: &mut Random, wires: usize, fewest: usize) -> Vec<u8> {
    let count = random.within(fewest, wires);
    to_bytes(terms_of_wires(random, count, wires))
}

/// Excuses for a job that asks no more than P: each of P's has one of them within it. They are P's, as they are or with
/// fewer terms, without some that another stands in for, and others before or among them.
pub fn covering_excuses(p: &Job, random: &mut Random) -> Vec<Vec<u8>> {
    let (fewer_terms, fewer) = (random.once_in(2), random.once_in(2));
    let mut excuses: Vec<Vec<u8>> = Vec::new();
    for excuse in &p.excuses {
        if fewer && excuses.iter().any(|other| is_within(other, excuse)) {
            continue;
        }
        let least = if fewer_terms { excuse.len() / 2 } else { excuse.len() };
        let count = random.within(least, excuse.len());
        excuses.push(random.rising(count, excuse.len()).into_iter().map(|index| excuse[index]).collect());
    }
    let own = excuses.len();
    let free = MOST_EXCUSES - own;
    let more = if random.once_in(12) { free } else { random.within(0, free.min(2)) };
    excuses.extend((0..more).map(|_| random_excuse(random, p.wires(), p.wires())));
    excuses.rotate_left(own);
    if random.once_in(2) {
        random.shuffle(&mut excuses);
    }
    excuses
}

/// Changes Q's excuses, so that some excuse of P, often the last, has none of them within it. Those that were within it
/// are gone, or get a term that it lacks; or each becomes two, one with such a term and one with the negation, which
/// together excuse the same.
pub fn uncover_excuse(p: &Job, q: &mut Job, random: &mut Random) {
    let last = p.excuses.len() - 1;
    let uncovered = &p.excuses[if random.once_in(2) { last } else { random.within(0, last) }];
    let lacks = |term: &u8| !uncovered.contains(term);
    let lacked: Vec<u8> = (0..wire_term_limit(p.wires()) as u8).filter(lacks).collect();
    let (within, others) = q.excuses.drain(..).partition(|excuse| is_within(excuse, uncovered));
    q.excuses = others;
    if !lacked.is_empty() && !random.once_in(3) {
        let term = *random.choose(&lacked);
        let terms: Vec<u8> = [term, term ^ 1].into_iter().filter(lacks).collect();
        let with_each = |excuse: Vec<u8>| terms.iter().map(move |term| with_term(&excuse, *term)).collect::<Vec<_>>();
        q.excuses.extend(Vec::into_iter(within).flat_map(with_each));
        q.excuses.truncate(MOST_EXCUSES);
    }
    random.shuffle(&mut q.excuses);
}

/// Whether the second set contains all terms of the first.
pub fn is_within(inner: &[u8], outer: &[u8]) -> bool {
    let mask = |set: &[u8]| set.iter().map(|term| 1 << term).sum::<u32>();
    mask(inner) & !mask(outer) == 0
}

/// The set with one term more.
fn with_term(set: &[u8], term: u8) -> Vec<u8> {
    let mut more = [set, &[term]].concat();
    more.sort();
    more
}
