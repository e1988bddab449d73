// A hand-made case of a case book, with the outcomes that a close reading of the papers settles, and what such cases
// are made of.
// It leans on book, job, answer and outcome.

use crate::answer::Answer;
use crate::book::BookCase;
use crate::job::{Form, Job, JobSheet};
use crate::outcome::{Outcome, Refusal, JOB, JOB_Q};

pub struct Settled {
    pub case: BookCase,
    pub check: Outcome,
    pub widen: Outcome,
}

impl Settled {
    /// A case without a job Q, which the widener refuses unless it refuses job P.
    pub fn without_q(form: Form, p: Vec<u8>, answer: Vec<u8>, check: Outcome) -> Settled {
        let no_q = Outcome::refused(Refusal { code: 1, place: 0 }, JOB_Q);
        let widen = if check.sheet == JOB { check } else { no_q };
        Settled { case: BookCase::of(form, p, Vec::new(), answer), check, widen }
    }

    /// Tables that break this rule of P at this combination, whatever Q is.
    pub fn broken_with_q(p: &Job, q: &Job, tables: [&[u8]; 2], place: usize, rule: usize) -> Settled {
        let broken = Outcome::rule_broken(place, rule);
        let case = BookCase::of(p.form, JobSheet::of(p).bytes, JobSheet::of(q).bytes, tables_sheet(tables));
        Settled { case, check: broken, widen: broken }
    }

    /// The same with a Q that has P's rules backwards.
    pub fn broken(p: &Job, tables: [&[u8]; 2], place: usize, rule: usize) -> Settled {
        let mut q = p.clone();
        q.rules.reverse();
        Settled::broken_with_q(p, &q, tables, place, rule)
    }
}

pub fn tables_sheet(tables: [&[u8]; 2]) -> Vec<u8> {
    Answer::Tables(tables.map(|table| table.to_vec())).sheet()
}

/// A job with so many wires, of which no cell sees any, without excuses.
pub fn blind_job(form: Form, wires: u8, rules: &[&[u8]]) -> Job {
    let rules = rules.iter().map(|rule| rule.to_vec()).collect();
    Job { form, pins: (0..wires).collect(), rules, ..Job::default() }
}

/// The terms A, not A, B and not B on a board of so many wires.
pub fn cell_terms(wires: u8) -> [u8; 4] {
    [0, 1, 2, 3].map(|term| 2 * wires + term)
}
