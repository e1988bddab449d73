// Reads a job sheet by document 01, and one of form two by request 2 of document 02, in its own way: a machine that is
// fed one byte after the other.
// The machine knows what the next byte is for. So a sheet that ends early is simply a machine not yet at its end,
// and the place of a fault is the number of the byte being fed.
// It leans on job and outcome.

use crate::job::{term_limit, wire_term_limit, Form, Job, MOST_EXCUSES, MOST_RULES, MOST_SEEN, MOST_WIRES};
use crate::outcome::{Outcome, Refusal, ACCEPTED, JOB};

const ENDS_EARLY: u8 = 1;
pub const COUNT_TOO_HIGH: u8 = 2;
pub const NOT_RISING: u8 = 3;
pub const ENTRY_TOO_HIGH: u8 = 4;
const BYTES_OVER: u8 = 5;

/// Every byte is below this, so it limits the pins no further.
const BYTE_LIMIT: usize = 256;

/// A section of sets of terms.
#[derive(Clone, Copy)]
enum Sets {
    Rules,
    Excuses,
}

#[derive(Clone, Copy)]
enum List {
    Pins,
    Seen(usize),
    Terms(Sets),
}

/// What the next byte is for.
enum Next {
    Count(List),
    Entry(List),
    SetCountLow(Sets),
    SetCountHigh(Sets, u8),
    Nothing,
}

struct Machine {
    next: Next,
    entries_left: usize,
    sets_left: usize,
    job: Job,
}

/// The job of a sheet of this form, or the first fault from the left.
pub fn read_job(form: Form, sheet: &[u8]) -> Result<Job, Refusal> {
    let job = Job { form, ..Job::default() };
    let mut machine = Machine { next: Next::Count(List::Pins), entries_left: 0, sets_left: 0, job };
    for (place, byte) in sheet.iter().enumerate() {
        if let Err(code) = machine.feed(*byte) {
            // A two-byte count is judged at its second byte and named by its first.
            let back = usize::from(matches!(machine.next, Next::SetCountHigh(..)));
            return Err(Refusal { code, place: place - back });
        }
    }
    match machine.next {
        Next::Nothing => Ok(machine.job),
        _ => Err(Refusal { code: ENDS_EARLY, place: sheet.len() }),
    }
}

/// What a call of the reader must answer.
pub fn read_outcome(form: Form, sheet: &[u8]) -> Outcome {
    match read_job(form, sheet) {
        Ok(_) => Outcome::success(ACCEPTED),
        Err(refusal) => Outcome::refused(refusal, JOB),
    }
}

impl Machine {
    /// Takes one byte, or answers the code of its fault and stays where it is.
    fn feed(&mut self, byte: u8) -> Result<(), u8> {
        match self.next {
            Next::Count(list) => self.begin_list(list, byte as usize),
            Next::Entry(list) => self.add_entry(list, byte),
            Next::SetCountLow(sets) => {
                self.next = Next::SetCountHigh(sets, byte);
                Ok(())
            }
            Next::SetCountHigh(sets, low) => self.begin_sets(sets, low as usize + 256 * byte as usize),
            Next::Nothing => Err(BYTES_OVER),
        }
    }

    fn begin_list(&mut self, list: List, count: usize) -> Result<(), u8> {
        let most = match list {
            List::Pins => MOST_WIRES,
            List::Seen(_) => MOST_SEEN,
            List::Terms(sets) => self.terms_of(sets).1,
        };
        if count > most {
            return Err(COUNT_TOO_HIGH);
        }
        if let List::Terms(sets) = list {
            self.terms_of(sets).0.push(Vec::new());
        }
        self.entries_left = count;
        self.go_on(list);
        Ok(())
    }

    fn begin_sets(&mut self, sets: Sets, count: usize) -> Result<(), u8> {
        let most = match sets {
            Sets::Rules => MOST_RULES,
            Sets::Excuses => MOST_EXCUSES,
        };
        if count > most {
            return Err(COUNT_TOO_HIGH);
        }
        self.sets_left = count;
        self.go_on(List::Terms(sets));
        Ok(())
    }

    /// The sets read so far, and the number that their terms are below; no set has more terms than that.
    fn terms_of(&mut self, sets: Sets) -> (&mut Vec<Vec<u8>>, usize) {
        let wires = self.job.wires();
        match sets {
            Sets::Rules => (&mut self.job.rules, term_limit(wires)),
            Sets::Excuses => (&mut self.job.excuses, wire_term_limit(wires)),
        }
    }

    fn add_entry(&mut self, list: List, entry: u8) -> Result<(), u8> {
        let wires = self.job.wires();
        let (entries, limit) = match list {
            List::Pins => (&mut self.job.pins, BYTE_LIMIT),
            List::Seen(cell) => (&mut self.job.sees[cell], wires),
            List::Terms(sets) => {
                let (begun, limit) = self.terms_of(sets);
                (begun.last_mut().expect("a set is begun"), limit)
            }
        };
        if entry as usize >= limit {
            return Err(ENTRY_TOO_HIGH);
        }
        if entries.last().is_some_and(|before| entry <= *before) {
            return Err(NOT_RISING);
        }
        entries.push(entry);
        self.entries_left -= 1;
        self.go_on(list);
        Ok(())
    }

    /// The list goes on with an entry, or else the sheet with what follows that list.
    fn go_on(&mut self, list: List) {
        self.next = match list {
            _ if self.entries_left > 0 => Next::Entry(list),
            List::Pins => Next::Count(List::Seen(0)),
            List::Seen(0) => Next::Count(List::Seen(1)),
            List::Seen(_) => Next::SetCountLow(Sets::Rules),
            List::Terms(_) if self.sets_left > 0 => {
                self.sets_left -= 1;
                Next::Count(list)
            }
            List::Terms(Sets::Rules) if self.job.form == Form::Two => Next::SetCountLow(Sets::Excuses),
            List::Terms(_) => Next::Nothing,
        };
    }
}
