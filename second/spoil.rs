// Spoils answers: as sheets, byte by byte, and as tables and walks whose form stays right.
// Where the damage to a right sheet alone settles the outcome, it is told along.
// It leans on random, board, answer and damage.

use crate::answer::{Answer, Walk, LONGEST_WALK};
use crate::board::{Board, Claim, Combination};
use crate::damage::{one_byte_changed, two_bytes_exchanged, with_number, Damaged};
use crate::outcome::Refusal;
use crate::random::Random;

/// The sheet of an answer of right form, with one damage to its bytes.
pub fn spoil_sheet(board: &Board, answer: &Answer, random: &mut Random) -> Damaged {
    let sheet = answer.sheet();
    match random.below(10) {
        0 => Damaged { bytes: one_byte_changed(&sheet, random), known: None },
        1 => Damaged { bytes: two_bytes_exchanged(&sheet, random), known: None },
        2 | 3 => cut(&sheet, random),
        4 => bytes_over(sheet, random),
        5 | 6 => wrong_count(board, answer, random),
        _ => match answer {
            Answer::Tables(tables) => wrong_table_byte(&sheet, tables[0].len(), random),
            Answer::Walk(walk) => number_too_high(board, &sheet, walk.len(), random),
        },
    }
}

fn known(bytes: Vec<u8>, code: u8, place: usize) -> Damaged {
    Damaged { bytes, known: Some(Refusal { code, place }) }
}

fn cut(sheet: &[u8], random: &mut Random) -> Damaged {
    let length = if random.once_in(3) { random.below(8) } else { random.below(sheet.len()) };
    let length = length.min(sheet.len() - 1);
    known(sheet[..length].to_vec(), 7, length)
}

fn bytes_over(mut sheet: Vec<u8>, random: &mut Random) -> Damaged {
    let length = sheet.len();
    let more = random.within(1, 5);
    sheet.extend(random.bytes(more));
    known(sheet, 7, length)
}

/// One of the three counts made neither of those permitted where it stands.
fn wrong_count(board: &Board, answer: &Answer, random: &mut Random) -> Damaged {
    let (rows_a, rows_b) = (board.rows(0), board.rows(1));
    let section = random.below(3);
    let (place, permitted): (usize, Box<dyn Fn(usize) -> bool>) = match (section, answer) {
        (0, _) => (0, Box::new(move |count| count == 0 || count == rows_a)),
        (1, Answer::Tables(_)) => (2 + rows_a, Box::new(move |count| count == rows_b)),
        (2, Answer::Tables(_)) => (4 + rows_a + rows_b, Box::new(|count| count == 0)),
        (1, Answer::Walk(_)) => (2, Box::new(|count| count == 0)),
        (_, Answer::Walk(_)) => (4, Box::new(|count| (1..=LONGEST_WALK).contains(&count))),
        _ => unreachable!("three sections"),
    };
    let near = [0, 1, rows_a, rows_b, 2 * rows_a, 2 * rows_b, rows_a + 1, rows_b - 1, 256, LONGEST_WALK + 1];
    let mut count = *random.choose(&near);
    while permitted(count) {
        count = random.below(1 << 16);
    }
    known(with_number(&answer.sheet(), place, 2, count), 8, place)
}

fn wrong_table_byte(sheet: &[u8], rows_a: usize, random: &mut Random) -> Damaged {
    let rows = sheet.len() - 6;
    let row = random.below(rows);
    let place = if row < rows_a { 2 + row } else { 4 + row };
    let byte = if random.once_in(2) { 2 } else { random.within(2, 255) };
    known(with_number(sheet, place, 1, byte), 9, place)
}

/// A claim or a combination made equal to its limit or higher.
fn number_too_high(board: &Board, sheet: &[u8], entries: usize, random: &mut Random) -> Damaged {
    let entry = random.below(entries);
    let (place, limit) = match random.below(2) {
        0 => (6 + 4 * entry, 2 * board.all_rows()),
        _ => (8 + 4 * entry, board.combinations()),
    };
    let number = if random.once_in(2) { limit } else { random.within(limit, (1 << 16) - 1) };
    known(with_number(sheet, place, 2, number), 11, place)
}

/// Tables of the right size with one value turned, or with random values.
pub fn spoil_tables(tables: &[Vec<u8>; 2], random: &mut Random) -> [Vec<u8>; 2] {
    let mut spoiled = tables.clone();
    if random.once_in(5) {
        return spoiled.map(|table| table.iter().map(|_| random.below(2) as u8).collect());
    }
    let table = &mut spoiled[random.below(2)];
    let row = random.below(table.len());
    table[row] = 1 - table[row];
    spoiled
}

/// A walk with one entry changed, taken out or put in twice, or begun elsewhere.
pub fn spoil_walk(board: &Board, walk: &Walk, random: &mut Random) -> Walk {
    let mut spoiled = walk.clone();
    let entry = random.below(walk.len());
    match random.below(7) {
        0 => spoiled[entry].0 = spoiled[entry].0.opposite(),
        1 => spoiled[entry].0 = random_claim(board, random),
        2 => spoiled[entry].1 = random_combination(board, random),
        3 if walk.len() > 1 => {
            spoiled.remove(entry);
        }
        4 if walk.len() < LONGEST_WALK => spoiled.insert(entry, walk[entry]),
        5 => {
            let other = random.below(walk.len());
            spoiled.swap(entry, other);
        }
        _ => spoiled.rotate_left(entry),
    }
    spoiled
}

pub fn random_walk(board: &Board, random: &mut Random) -> Walk {
    let entries = random.within(1, 6);
    (0..entries).map(|_| (random_claim(board, random), random_combination(board, random))).collect()
}

fn random_claim(board: &Board, random: &mut Random) -> Claim {
    Claim(random.below(2 * board.all_rows()))
}

fn random_combination(board: &Board, random: &mut Random) -> Combination {
    Combination(random.below(board.combinations()))
}
