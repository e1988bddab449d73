// Makes case books: the hand-made cases first, whatever the seed, then random ones. Most of these break a rule; the
// others are those of the checker's and the widener's comparison.
// The hand-made cases must have the outcomes that their making settles.
// It leans on named_broken, named_others, settled, broken, answers, widenings, wider, case, job, book, outcomes and
// random.

use crate::answers::CHECKER;
use crate::book::{BookCase, MOST};
use crate::broken::broken_tables;
use crate::case::Case;
use crate::job::{Form, Job, JobSheet};
use crate::named_broken::named_broken;
use crate::named_others::{longest_jobs, longest_walks, named_others, odd_forms};
use crate::outcomes::Outcomes;
use crate::random::Random;
use crate::settled::Settled;
use crate::widenings::WIDENER;
use crate::wider::{asking_no_more, near_miss};

/// A random case has no more bytes in its sheets, so that a book stays short.
const MOST_BYTES: usize = 4000;

/// A book of so many cases.
pub fn make_book(seed: u64, count: usize) -> Result<Vec<BookCase>, String> {
    let mut cases = hand_made()?;
    if !(cases.len()..=MOST).contains(&count) {
        return Err(format!("a book has {} to {MOST} cases", cases.len()));
    }
    let mut random = Random::new(seed);
    while cases.len() < count {
        let case = random_case(&mut random);
        if case.sheets().iter().map(|sheet| sheet.len()).sum::<usize>() <= MOST_BYTES {
            cases.push(case);
        }
    }
    Ok(cases)
}

fn hand_made() -> Result<Vec<BookCase>, String> {
    let mut settled = Vec::new();
    for form in [Form::One, Form::Two] {
        settled.extend(named_broken(form));
        settled.extend(named_others(form));
    }
    settled.extend(odd_forms());
    settled.extend(longest_jobs());
    settled.extend(longest_walks());
    settled.into_iter().enumerate().map(|(index, settled)| as_settled(index, settled)).collect()
}

/// The case, if this program comes to the outcomes that are settled.
fn as_settled(index: usize, settled: Settled) -> Result<BookCase, String> {
    let Settled { case, check, widen } = settled;
    let (wanted, found) = (Outcomes { check, widen }.lines(), Outcomes::of(&case).lines());
    if wanted != found {
        return Err(format!(
            "hand-made case {index}, from 0, is settled as\n{wanted}and this program comes to\n{found}"
        ));
    }
    Ok(case)
}

fn random_case(random: &mut Random) -> BookCase {
    let form = *random.choose(&[Form::One, Form::Two]);
    match random.below(10) {
        0..=5 => {
            let (job, answer) = broken_tables(form, random);
            let q = some_q(&job, random);
            BookCase::of(form, JobSheet::of(&job).bytes, q, answer)
        }
        6 | 7 => {
            let [p, answer] = first_slices((CHECKER.make)(form, random), random);
            let q = if random.once_in(2) { p.clone() } else { Vec::new() };
            BookCase::of(form, p, q, answer)
        }
        _ => {
            let [p, q, answer] = first_slices((WIDENER.make)(form, random), random);
            BookCase::of(form, p, q, answer)
        }
    }
}

/// A job Q for P: most often with P's rules in another order.
fn some_q(p: &Job, random: &mut Random) -> Vec<u8> {
    let q = match random.below(8) {
        0 | 1 => return Vec::new(),
        2 => asking_no_more(p, random),
        3 => near_miss(p, random).0,
        _ => {
            let mut q = p.clone();
            random.shuffle(&mut q.rules);
            q
        }
    };
    JobSheet::of(&q).bytes
}

/// The first slices of one of the cases: its sheets, without the room lent.
fn first_slices<const SHEETS: usize>(mut cases: Vec<Case>, random: &mut Random) -> [Vec<u8>; SHEETS] {
    let mut slices = cases.swap_remove(random.below(cases.len())).slices;
    slices.truncate(SHEETS);
    slices.try_into().expect("the case has so many slices")
}
