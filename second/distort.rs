// Distorts one section of a right description, so that the manner of it settles the outcome.
// Faults just beyond a limit are the most common.
// It leans on random, case, job, description, make, read and outcome.

use crate::case::LONGEST_SLICE;
use crate::description::{mask, Description, MASK_LIMIT, PINS, RULES, SEES};
use crate::job::{term_limit, MOST_RULES, MOST_SEEN, MOST_WIRES};
use crate::make::to_bytes;
use crate::outcome::{Outcome, Refusal};
use crate::random::Random;
use crate::read::{COUNT_TOO_HIGH, ENTRY_TOO_HIGH, NOT_RISING};

/// Makes this section wrong, while the pins are right. The outcome, if the sections before it are right too.
pub fn distort(described: &mut Description, section: u64, random: &mut Random) -> Outcome {
    let wires = described.pins.len();
    let refusal = match section {
        PINS => distort_pins(&mut described.pins, random),
        RULES => distort_rules(&mut described.rules, wires, random),
        _ => {
            let (mask, refusal) = wrong_set(MOST_SEEN, wires, random);
            described.sees[usize::from(section == SEES[1])] = mask;
            refusal
        }
    };
    Outcome::refused(refusal, section)
}

fn distort_pins(pins: &mut Vec<u8>, random: &mut Random) -> Refusal {
    if pins.len() < 2 || random.once_in(3) {
        *pins = too_many_pins(random);
        return Refusal { code: COUNT_TOO_HIGH, place: 0 };
    }
    let place = random.within(1, pins.len() - 1);
    let before = pins[place - 1];
    pins[place] = if random.once_in(4) { random.within(0, before as usize) as u8 } else { before };
    Refusal { code: NOT_RISING, place }
}

fn too_many_pins(random: &mut Random) -> Vec<u8> {
    let count = match random.below(200) {
        0 => LONGEST_SLICE,
        1 => random.within(MOST_WIRES + 1, LONGEST_SLICE),
        // A count whose low byte alone would pass.
        2..=29 => 256 + random.within(0, MOST_WIRES),
        30..=59 => random.within(MOST_WIRES + 1, 256),
        _ => MOST_WIRES + 1,
    };
    if count > 256 || random.once_in(4) {
        return random.bytes(count);
    }
    to_bytes(random.rising(count, 256))
}

/// Too many rules, or a wrong one, behind which another may be wrong too.
fn distort_rules(rules: &mut Vec<u32>, wires: usize, random: &mut Random) -> Refusal {
    let most = term_limit(wires);
    if random.once_in(5) {
        let more = if random.once_in(2) { 0 } else { wrong_set(most, most, random).0 };
        rules.resize(too_many_rules(random), more);
        return Refusal { code: COUNT_TOO_HIGH, place: 0 };
    }
    if rules.is_empty() {
        rules.push(0);
    }
    let last = rules.len() - 1;
    let number = random.within(0, last);
    if number < last && random.once_in(3) {
        let later = random.within(number + 1, last);
        rules[later] = wrong_set(most, most, random).0;
    }
    let (rule, refusal) = wrong_set(most, most, random);
    rules[number] = rule;
    Refusal { place: number, ..refusal }
}

fn too_many_rules(random: &mut Random) -> usize {
    match random.below(200) {
        0 => random.within(MOST_RULES + 1, LONGEST_SLICE / 4),
        1..=9 => 256 * random.within(2, 4),
        10..=29 => random.within(MOST_RULES + 1, 2 * MOST_RULES),
        _ => MOST_RULES + 1,
    }
}

/// A set of more than `most` numbers, or one with numbers that are not below the limit.
fn wrong_set(most: usize, limit: usize, random: &mut Random) -> (u32, Refusal) {
    if random.once_in(2) {
        let count = if random.once_in(3) { random.within(most + 1, MASK_LIMIT) } else { most + 1 };
        let reach = *random.choose(&[count, count.max(limit), MASK_LIMIT]);
        return (mask(&to_bytes(random.rising(count, reach))), Refusal { code: COUNT_TOO_HIGH, place: 0 });
    }
    let right = random.within(0, limit.min(most - 1));
    let wrong = random.within(1, (most - right).min(MASK_LIMIT - limit));
    let reach = if random.once_in(2) { wrong } else { MASK_LIMIT - limit };
    let mut numbers = random.rising(right, limit);
    numbers.extend(random.rising(wrong, reach).iter().map(|number| limit + number));
    (mask(&to_bytes(numbers)), Refusal { code: ENTRY_TOO_HIGH, place: right })
}
