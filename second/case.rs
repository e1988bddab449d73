// What the comparison is made of: a call of the C face, the cases it is given, and the responses that come back.
// A call brings its own cases and its own judgement of them; the comparison itself knows neither sheets nor rules.
// It leans on job, random and outcome.

use crate::job::Form;
use crate::outcome::{Outcome, WALK};
use crate::random::Random;
use std::fmt;

/// The longest slice that the command takes.
pub const LONGEST_SLICE: usize = 65536;

/// The count of cases for a call whose cases are quick.
pub const USUAL_COUNT: usize = 200_000;

/// The slices of one call, and what the making of the case settles of the response.
pub struct Case {
    pub slices: Vec<Vec<u8>>,
    pub known: Option<Known>,
}

#[derive(Clone)]
pub enum Known {
    Outcome(Outcome),
    /// Success with this code, writing exactly this sheet.
    Wrote(u8, Vec<u8>),
    /// Success with a walk, whichever.
    Walk,
}

impl Known {
    pub fn agrees(&self, response: &Response) -> bool {
        match self {
            Known::Outcome(outcome) => response.outcome == *outcome,
            Known::Wrote(code, sheet) => {
                response.outcome == Outcome::wrote(*code, sheet.len()) && response.after[0].starts_with(sheet)
            }
            Known::Walk => response.outcome.code == WALK as u64,
        }
    }
}

impl fmt::Display for Known {
    fn fmt(&self, out: &mut fmt::Formatter) -> fmt::Result {
        match self {
            Known::Outcome(outcome) => write!(out, "{outcome}"),
            Known::Wrote(code, sheet) => write!(out, "code {code} with the sheet {}", to_hex(sheet)),
            Known::Walk => write!(out, "a walk"),
        }
    }
}

pub struct Response {
    pub outcome: Outcome,
    /// The slices that the call may write, as it left them.
    pub after: Vec<Vec<u8>>,
}

impl Response {
    /// Whether the two are equal in all that the C face hands over: the four packed numbers and the written slices.
    pub fn equals_as_handed_over(&self, other: &Response) -> bool {
        self.outcome.handed_over() == other.outcome.handed_over() && self.after == other.after
    }

    /// What the call wrote by its own account, in its first slice and no longer than that.
    pub fn written(&self) -> &[u8] {
        let length = (self.outcome.written as usize).min(self.after[0].len());
        &self.after[0][..length]
    }
}

/// The response that this program comes to.
pub struct Judgement {
    pub expected: Response,
    /// What is wrong with what the command wrote: an answer of which several are right, or a sheet read back.
    pub fault: Option<String>,
}

impl Judgement {
    /// For a call that writes nothing.
    pub fn outcome(outcome: Outcome) -> Judgement {
        Judgement { expected: Response { outcome, after: Vec::new() }, fault: None }
    }

    /// This outcome, with this sheet at the buffer's front and all bytes behind it as before.
    pub fn writing(outcome: Outcome, sheet: &[u8], before: &[u8]) -> Judgement {
        let after = [sheet, &before[sheet.len()..]].concat();
        Judgement { expected: Response { outcome, after: vec![after] }, fault: None }
    }

    /// Success with this code and the sheet that must be written, or a refusal that changes no byte.
    pub fn sheet(code: u8, sheet: Result<Vec<u8>, Outcome>, before: &[u8]) -> Judgement {
        match sheet {
            Ok(sheet) => Judgement::writing(Outcome::wrote(code, sheet.len()), &sheet, before),
            Err(outcome) => Judgement::writing(outcome, &[], before),
        }
    }
}

pub struct Call {
    /// The byte that asks for this call over the pipe.
    pub op: u8,
    pub name: &'static str,
    /// The form of its job sheets.
    pub form: Form,
    /// How many of its slices it may write; they are the last ones.
    pub writes: usize,
    /// How many cases are made where the command line does not say.
    pub count: usize,
    /// The codes it can answer; each must be met often.
    pub codes: &'static [u64],
    /// Those among them that the call is there for; they must be met more often.
    pub foremost: &'static [u64],
    /// Whether tables and walks must both make up a good part of the answers.
    pub balanced: bool,
    /// Cases that come first, whatever the seed.
    pub named: fn(Form, &mut Random) -> Vec<Case>,
    /// One random case, or some that belong together.
    pub make: fn(Form, &mut Random) -> Vec<Case>,
    /// What this program makes of the slices. The command's own response counts where several answers are right,
    /// and where what it wrote is read back.
    pub judge: fn(Form, &[Vec<u8>], &Response) -> Judgement,
}

impl Call {
    /// The same call with job sheets of form two, half as often. Its op is the upper-case letter.
    pub const fn in_form_two(self) -> Call {
        Call { op: self.op.to_ascii_uppercase(), form: Form::Two, count: self.count / 2, ..self }
    }
}

impl fmt::Display for Call {
    fn fmt(&self, out: &mut fmt::Formatter) -> fmt::Result {
        match self.form {
            Form::One => write!(out, "{}", self.name),
            Form::Two => write!(out, "{} in form two", self.name),
        }
    }
}

/// Bytes from hexadecimal with spaces between.
pub fn hex(text: &str) -> Vec<u8> {
    text.split_whitespace().map(|pair| u8::from_str_radix(pair, 16).expect("two hexadecimal digits")).collect()
}

/// The same form back.
pub fn to_hex(bytes: &[u8]) -> String {
    bytes.iter().map(|byte| format!("{byte:02X}")).collect::<Vec<String>>().join(" ")
}
