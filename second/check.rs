// Checks an answer sheet against a job of either form by the papers: reads it from left to right, then tests tables or
// walk.
// Tables are tested at every combination that is not excused and walks at every step, straight from the definitions.
// It leans on read, board, answer and outcome.

use crate::answer::{Answer, Walk, LONGEST_WALK};
use crate::board::{Board, Claim, Combination};
use crate::job::Form;
use crate::outcome::{Outcome, Refusal, ANSWER, JOB, TABLES, WALK};
use crate::read::read_job;

const WRONG_LENGTH: u8 = 7;
const WRONG_COUNT: u8 = 8;
const NO_TABLE_BYTE: u8 = 9;
const NUMBER_TOO_HIGH: u8 = 11;
const NO_STEP: u8 = 12;
const NO_OPPOSITE: u8 = 13;

/// What a call of the checker must answer.
pub fn check_outcome(form: Form, job: &[u8], answer: &[u8]) -> Outcome {
    let job = match read_job(form, job) {
        Ok(job) => job,
        Err(refusal) => return Outcome::refused(refusal, JOB),
    };
    match check(&Board::of(job), answer) {
        Ok(code) => Outcome::success(code),
        Err(outcome) => outcome,
    }
}

/// The code of an accepted answer, or the refusal by the fault that decides.
pub fn check(board: &Board, sheet: &[u8]) -> Result<u8, Outcome> {
    let of_answer = |refusal| Outcome::refused(refusal, ANSWER);
    match read_answer(board, sheet).map_err(of_answer)? {
        Answer::Tables(tables) => test_tables(board, &tables),
        Answer::Walk(walk) => test_walk(board, &walk).map_err(of_answer),
    }
}

/// The lowest combination that is not excused and at which a rule is broken decides, and there the lowest rule.
fn test_tables(board: &Board, tables: &[Vec<u8>; 2]) -> Result<u8, Outcome> {
    for combination in (0..board.combinations()).map(Combination) {
        let broken = board.broken_rule(combination, board.values(tables, combination));
        if let Some(rule) = broken.filter(|_| !board.is_excused(combination)) {
            return Err(Outcome::rule_broken(combination.0, rule));
        }
    }
    Ok(TABLES)
}

fn test_walk(board: &Board, walk: &Walk) -> Result<u8, Refusal> {
    for (place, (claim, combination)) in walk.iter().enumerate() {
        let (next, _) = walk[(place + 1) % walk.len()];
        if !board.step_holds(*claim, next, *combination) {
            return Err(Refusal { code: NO_STEP, place });
        }
    }
    let wanted = walk[0].0.opposite();
    if walk.iter().any(|(claim, _)| *claim == wanted) {
        return Ok(WALK);
    }
    Err(Refusal { code: NO_OPPOSITE, place: 0 })
}

/// The answer of a sheet, or the first fault from the left.
pub fn read_answer(board: &Board, sheet: &[u8]) -> Result<Answer, Refusal> {
    let mut rest = Rest { sheet, place: 0 };
    let rows = [board.rows(0), board.rows(1)];
    // Row counts are at least 1, so a first count of 0 can only be a walk's.
    let answer = if rest.count(&|count| count == 0 || count == rows[0])? == 0 {
        rest.count(&|count| count == 0)?;
        let entries = rest.count(&|count| (1..=LONGEST_WALK).contains(&count))?;
        Answer::Walk(rest.walk(entries, 2 * board.all_rows(), board.combinations())?)
    } else {
        let table_a = rest.table(rows[0])?;
        rest.count(&|count| count == rows[1])?;
        let table_b = rest.table(rows[1])?;
        rest.count(&|count| count == 0)?;
        Answer::Tables([table_a, table_b])
    };
    if rest.place < sheet.len() {
        return Err(Refusal { code: WRONG_LENGTH, place: rest.place });
    }
    Ok(answer)
}

/// The sheet and the place reached.
struct Rest<'a> {
    sheet: &'a [u8],
    place: usize,
}

impl Rest<'_> {
    fn byte(&mut self) -> Result<u8, Refusal> {
        let byte = self.sheet.get(self.place).copied();
        self.place += 1;
        byte.ok_or(Refusal { code: WRONG_LENGTH, place: self.sheet.len() })
    }

    /// A two-byte number, judged once both bytes are there and named by its first.
    fn number(&mut self, code: u8, permitted: &dyn Fn(usize) -> bool) -> Result<usize, Refusal> {
        let place = self.place;
        let number = self.byte()? as usize + 256 * self.byte()? as usize;
        if !permitted(number) {
            return Err(Refusal { code, place });
        }
        Ok(number)
    }

    fn count(&mut self, permitted: &dyn Fn(usize) -> bool) -> Result<usize, Refusal> {
        self.number(WRONG_COUNT, permitted)
    }

    fn table(&mut self, rows: usize) -> Result<Vec<u8>, Refusal> {
        let mut table = Vec::with_capacity(rows);
        for _ in 0..rows {
            let place = self.place;
            let byte = self.byte()?;
            if byte > 1 {
                return Err(Refusal { code: NO_TABLE_BYTE, place });
            }
            table.push(byte);
        }
        Ok(table)
    }

    fn walk(&mut self, entries: usize, claims: usize, combinations: usize) -> Result<Walk, Refusal> {
        let mut walk = Walk::with_capacity(entries);
        for _ in 0..entries {
            let claim = self.number(NUMBER_TOO_HIGH, &|claim| claim < claims)?;
            let combination = self.number(NUMBER_TOO_HIGH, &|combination| combination < combinations)?;
            walk.push((Claim(claim), Combination(combination)));
        }
        Ok(walk)
    }
}
