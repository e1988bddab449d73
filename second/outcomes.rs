// The outcomes of a case book: for each case a line with the checker's five numbers and one with the widener's.
// What another program prints for a book is compared with them line by line.
// It leans on book, case, check, widen, room and outcome.

use crate::book::BookCase;
use crate::case::to_hex;
use crate::check::check_outcome;
use crate::outcome::{Outcome, TABLES};
use crate::room::ROOM;
use crate::widen::widen;

/// The outcomes of one case. The widener has room.
pub struct Outcomes {
    pub check: Outcome,
    pub widen: Outcome,
}

impl Outcomes {
    pub fn of(case: &BookCase) -> Outcomes {
        let form = case.form();
        let widen = match widen(form, &case.p, &case.q, &case.answer, ROOM) {
            Ok(sheet) => Outcome::wrote(TABLES, sheet.len()),
            Err(refusal) => refusal,
        };
        Outcomes { check: check_outcome(form, &case.p, &case.answer), widen }
    }

    pub fn lines(&self) -> String {
        line("check", &self.check) + &line("widen", &self.widen)
    }
}

fn line(call: &str, outcome: &Outcome) -> String {
    let Outcome { code, sheet, place, written, rule } = outcome;
    format!("{call} {code} {sheet} {place} {written} {rule}\n")
}

/// The lines of all cases.
pub fn lines(cases: &[BookCase]) -> String {
    cases.iter().map(|case| Outcomes::of(case).lines()).collect()
}

/// The first case whose lines are not these, with its sheets and both programs' lines; nothing if all are equal.
pub fn first_difference(cases: &[BookCase], printed: &str) -> Option<String> {
    let mut rest = printed;
    for (index, case) in cases.iter().enumerate() {
        let expected = Outcomes::of(case).lines();
        match rest.strip_prefix(&expected) {
            Some(after) => rest = after,
            None => return Some(shown(index, case, &expected, rest)),
        }
    }
    (!rest.is_empty()).then(|| format!("lines after those of the last case:\n{rest}"))
}

fn shown(index: usize, case: &BookCase, expected: &str, rest: &str) -> String {
    let [p, q, answer] = case.sheets().map(|sheet| format!("of {} bytes: {}", sheet.len(), to_hex(sheet)));
    let printed: String = rest.split_inclusive('\n').take(2).collect();
    format!(
        "case {index}, from 0, differs; its form byte is {}\n  job P {p}\n  job Q {q}\n  answer {answer}\n\
         the second program's lines:\n{expected}the lines given:\n{printed}",
        case.form_byte
    )
}
