// Widens an answer by the papers: from a job P and tables for it to tables for a job Q that asks no more.
// The widened table comes from the combinations: each shows one row of P's cell and one of Q's, with one value.
// It leans on read, check, board, answer, room and outcome.

use crate::answer::Answer;
use crate::board::{Board, Combination};
use crate::check::{check, read_answer};
use crate::job::{Form, Job};
use crate::outcome::{Outcome, Refusal, ANSWER, JOB, JOB_Q, TABLES};
use crate::read::read_job;
use crate::room::ROOM;

const ASKS_MORE: u8 = 14;
const WALK_GIVEN: u8 = 15;

/// The tables sheet for Q that a call of the widener must write, or the refusal.
pub fn widen(form: Form, p: &[u8], q: &[u8], answer: &[u8], room: usize) -> Result<Vec<u8>, Outcome> {
    let p = read_job(form, p).map_err(|refusal| Outcome::refused(refusal, JOB))?;
    let q = read_job(form, q).map_err(|refusal| Outcome::refused(refusal, JOB_Q))?;
    let board = Board::of(p.clone());
    check(&board, answer)?;
    let read = read_answer(&board, answer).expect("the checker has read it");
    let Answer::Tables(tables) = read else {
        return Err(walk_given());
    };
    if !asks_no_more(&q, &p) {
        return Err(asks_more());
    }
    if room < ROOM {
        return Err(Outcome::no_room());
    }
    let wider = Board::of(q);
    let widened = [0, 1].map(|cell| widened_table(&board, &wider, cell, &tables[cell]));
    let sheet = Answer::Tables(widened).sheet();
    assert!(check(&wider, &sheet) == Ok(TABLES), "a widened sheet is not accepted by this program's own checker");
    Ok(sheet)
}

/// Q does not ask no more than P.
pub fn asks_more() -> Outcome {
    Outcome::refused(Refusal { code: ASKS_MORE, place: 0 }, JOB_Q)
}

/// The answer is a standing walk.
pub fn walk_given() -> Outcome {
    Outcome::refused(Refusal { code: WALK_GIVEN, place: 0 }, ANSWER)
}

fn asks_no_more(q: &Job, p: &Job) -> bool {
    let contains_all = |list: &[u8], wanted: &[u8]| wanted.iter().all(|entry| list.contains(entry));
    q.pins == p.pins
        && (0..2).all(|cell| contains_all(&q.sees[cell], &p.sees[cell]))
        && q.rules.iter().all(|rule| p.rules.iter().any(|asked| contains_all(rule, asked)))
        && p.excuses.iter().all(|excuse| q.excuses.iter().any(|wider| contains_all(excuse, wider)))
}

/// The values of the wider board's rows. Combinations that show the same row of it must agree on its value.
fn widened_table(board: &Board, wider: &Board, cell: usize, table: &[u8]) -> Vec<u8> {
    let mut values: Vec<Option<u8>> = vec![None; wider.rows(cell)];
    for combination in (0..wider.combinations()).map(Combination) {
        let value = table[board.shown(cell, combination)];
        let known = values[wider.shown(cell, combination)].replace(value);
        assert!(known.is_none_or(|before| before == value), "a row of Q has two values");
    }
    values.into_iter().map(|value| value.expect("a combination shows each row")).collect()
}
