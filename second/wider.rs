// Makes jobs that ask no more than a given one, in every way there is, and jobs that just fail to.
// It says what a widener must come to in its own way: tables grow wire by wire, sets of terms are compared as masks.
// It leans on random, job, make and excuses.

use crate::excuses::{covering_excuses, is_within, uncover_excuse};
use crate::job::{term_limit, Form, Job, MOST_RULES, MOST_SEEN, MOST_WIRES};
use crate::make::{to_bytes, with_negation};
use crate::random::Random;

/// A job that asks no more than P: its cells may see more, each of its rules has one of P's within it, and each of P's
/// excuses has one of its own within it.
pub fn asking_no_more(p: &Job, random: &mut Random) -> Job {
    let mut q = p.clone();
    let seeing_more: &[usize] = *random.choose(&[&[][..], &[0], &[1], &[0, 1], &[0, 1]]);
    for cell in seeing_more {
        see_more(&mut q, *cell, random);
    }
    q.rules = chosen_rules(p, random);
    if p.form == Form::Two {
        q.excuses = covering_excuses(p, random);
    }
    if random.once_in(3) {
        return q;
    }
    for rule in &mut q.rules {
        let more = if random.once_in(40) { term_limit(p.wires()) } else { random.within(0, 3) };
        add_terms(rule, p.wires(), more, random);
    }
    q
}

fn see_more(q: &mut Job, cell: usize, random: &mut Random) {
    let mut unseen = unseen(q, cell);
    random.shuffle(&mut unseen);
    let most = unseen.len().min(MOST_SEEN - q.sees[cell].len());
    let count = if random.once_in(3) { most } else { random.within(most.min(1), most) };
    q.sees[cell].extend(&unseen[..count]);
    q.sees[cell].sort();
}

fn unseen(job: &Job, cell: usize) -> Vec<u8> {
    (0..job.wires() as u8).filter(|wire| !job.sees[cell].contains(wire)).collect()
}

/// P's rules: all of them, in another order, some, none, or some of them several times.
fn chosen_rules(p: &Job, random: &mut Random) -> Vec<Vec<u8>> {
    let all = p.rules.len();
    if all == 0 {
        return Vec::new();
    }
    let mut rules = p.rules.clone();
    match random.below(8) {
        0 => rules.clear(),
        1 => random.shuffle(&mut rules),
        2 | 3 => {
            let count = random.within(0, all);
            rules = random.rising(count, all).into_iter().map(|rule| p.rules[rule].clone()).collect();
        }
        4 | 5 => {
            let most = if random.once_in(8) { MOST_RULES } else { MOST_RULES.min(2 * all) };
            let count = if random.once_in(2) { most } else { random.within(most / 2, most) };
            rules = (0..count).map(|_| random.choose(&p.rules).clone()).collect();
        }
        _ => {}
    }
    rules
}

/// Adds so many terms that the rule does not have, or as many as there are.
fn add_terms(rule: &mut Vec<u8>, wires: usize, count: usize, random: &mut Random) {
    let absent: Vec<u8> = (0..term_limit(wires) as u8).filter(|term| !rule.contains(term)).collect();
    let chosen = random.rising(count, absent.len());
    rule.extend(chosen.into_iter().map(|index| absent[index]));
    rule.sort();
}

/// The widened table of a cell. Each wire that only Q's cell sees doubles the rows, at its own weight.
pub fn grown_table(p: &Job, q: &Job, cell: usize, table: &[u8]) -> Vec<u8> {
    let mut grown = table.to_vec();
    for (weight, wire) in q.sees[cell].iter().enumerate() {
        if !p.sees[cell].contains(wire) {
            let below = (1 << weight) - 1;
            grown = (0..2 * grown.len()).map(|row| grown[row >> 1 & !below | row & below]).collect();
        }
    }
    grown
}

/// A job that misses one of the conditions, and whether that is certain.
/// An odd rule may hold some rule of P after all.
pub fn near_miss(p: &Job, random: &mut Random) -> (Job, bool) {
    let mut q = if random.once_in(3) { p.clone() } else { asking_no_more(p, random) };
    let wires = p.wires();
    match random.below(14) {
        _ if !p.excuses.is_empty() && random.once_in(3) => uncover_excuse(p, &mut q, random),
        0 | 1 if wires > 0 => exchange_pin(&mut q, random),
        2 if wires < MOST_WIRES => add_wire(&mut q, random),
        3 if wires > 0 => remove_wire(&mut q, random),
        4..=6 if p.sees.iter().any(|seen| !seen.is_empty()) => hide_wire(p, &mut q, random),
        7 if p.sees[0] != p.sees[1] => q.sees = [p.sees[1].clone(), p.sees[0].clone()],
        _ => {
            let rule = odd_rule(p, random);
            let certain = !p.rules.iter().any(|asked| is_within(asked, &rule));
            put_rule(&mut q, rule, random);
            return (q, certain);
        }
    }
    (q, true)
}

fn exchange_pin(q: &mut Job, random: &mut Random) {
    let free = free_pins(q);
    let exchanged = random.below(q.wires());
    let old = q.pins[exchanged];
    let beside: Vec<u8> = free.iter().copied().filter(|pin| pin.abs_diff(old) == 1).collect();
    q.pins[exchanged] = *random.choose(if beside.is_empty() { &free } else { &beside });
    q.pins.sort();
}

fn free_pins(q: &Job) -> Vec<u8> {
    (0..=u8::MAX).filter(|pin| !q.pins.contains(pin)).collect()
}

/// One wire more, after all others if there is a pin for it. The cells' terms move with it, or stay as bytes.
fn add_wire(q: &mut Job, random: &mut Random) {
    let free = free_pins(q);
    let after: Vec<u8> = free.iter().copied().filter(|pin| q.pins.last() < Some(pin)).collect();
    let cells = 2 * q.wires() as u8;
    q.pins.push(*random.choose(if after.is_empty() { &free } else { &after }));
    q.pins.sort();
    if random.once_in(2) {
        for term in q.rules.iter_mut().flatten().filter(|term| **term >= cells) {
            *term += 2;
        }
    }
}

/// The last wire gone, from the cells, the rules and the excuses too.
fn remove_wire(q: &mut Job, random: &mut Random) {
    q.pins.pop();
    let wires = q.wires() as u8;
    for seen in &mut q.sees {
        seen.retain(|wire| *wire < wires);
    }
    if random.once_in(4) {
        q.rules.clear();
    }
    for excuse in &mut q.excuses {
        excuse.retain(|term| term / 2 != wires);
    }
    for rule in &mut q.rules {
        rule.retain(|term| term / 2 != wires);
        for term in rule.iter_mut().filter(|term| **term / 2 > wires) {
            *term -= 2;
        }
    }
}

/// One wire that a cell of P sees is not seen by Q's; another one may be seen in its place.
fn hide_wire(p: &Job, q: &mut Job, random: &mut Random) {
    let cell = if p.sees[0].is_empty() || (!p.sees[1].is_empty() && random.once_in(2)) { 1 } else { 0 };
    let hidden = *random.choose(&p.sees[cell]);
    let others = unseen(q, cell);
    q.sees[cell].retain(|wire| *wire != hidden);
    if !others.is_empty() && random.once_in(2) {
        q.sees[cell].push(*random.choose(&others));
        q.sees[cell].sort();
    }
}

/// A rule that most often has none of P's within it: one that lacks a term of one, one that always holds,
/// one that follows from two of P's without containing either, the empty one, or any.
fn odd_rule(p: &Job, random: &mut Random) -> Vec<u8> {
    let terms = term_limit(p.wires());
    let lacking = p.rules.iter().any(|rule| !rule.is_empty());
    match random.below(10) {
        0..=3 if lacking => lacking_a_term(p, random),
        4 | 5 => with_negation(random, terms),
        6 | 7 => following(p, random).unwrap_or_default(),
        8 => Vec::new(),
        _ => {
            let count = random.within(0, 4);
            to_bytes(random.rising(count, terms))
        }
    }
}

fn lacking_a_term(p: &Job, random: &mut Random) -> Vec<u8> {
    let longer: Vec<&Vec<u8>> = p.rules.iter().filter(|rule| !rule.is_empty()).collect();
    let mut rule = (*random.choose(&longer)).clone();
    let lacked = *random.choose(&rule);
    let more = random.within(0, 2);
    add_terms(&mut rule, p.wires(), more, random);
    rule.retain(|term| *term != lacked);
    rule
}

/// Where one rule has a term and another its negation, the rest of both follows.
fn following(p: &Job, random: &mut Random) -> Option<Vec<u8>> {
    let first = (!p.rules.is_empty()).then(|| random.choose(&p.rules).clone())?;
    let term = (!first.is_empty()).then(|| *random.choose(&first))?;
    let second = p.rules.iter().find(|rule| rule.contains(&(term ^ 1)))?;
    let mut rule = [&first[..], &second[..]].concat();
    rule.retain(|other| other / 2 != term / 2);
    rule.sort();
    rule.dedup();
    Some(rule)
}

/// The rule comes first, last or anywhere. Where there is no room for one more it takes another's place.
fn put_rule(q: &mut Job, rule: Vec<u8>, random: &mut Random) {
    if q.rules.len() == MOST_RULES {
        q.rules.remove(random.below(MOST_RULES));
    }
    let place = match random.below(4) {
        0 => 0,
        1 => random.within(0, q.rules.len()),
        _ => q.rules.len(),
    };
    q.rules.insert(place, rule);
}
