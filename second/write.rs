// Writes the job sheet of a description by request 1 of document 02, or refuses the description.
// The sheet is drafted as if nothing could be wrong, and this program's own reader finds the draft's first fault.
// Each byte of the draft knows its section, and the place there that is named for a fault at it.
// It leans on description, job, read and outcome.

use crate::description::{members, Description, PINS, RULES, SEES};
use crate::job::Form;
use crate::outcome::{Outcome, Refusal};
use crate::read::read_job;

/// The sheet that a call of the writer must write, or the refusal.
pub fn write(described: &Description, room: usize) -> Result<Vec<u8>, Outcome> {
    let draft = Draft::of(described);
    if let Err(Refusal { code, place: offset }) = read_job(Form::One, &draft.bytes) {
        let (section, place) = draft.homes[offset];
        return Err(Outcome::refused(Refusal { code, place }, section));
    }
    if room < draft.bytes.len() {
        return Err(Outcome::no_room());
    }
    Ok(draft.bytes)
}

/// A sheet not judged yet.
#[derive(Default)]
struct Draft {
    bytes: Vec<u8>,
    /// For each byte its section and place.
    homes: Vec<(u64, usize)>,
}

impl Draft {
    /// A count too high for its bytes becomes the highest that they hold, which is too high for any section.
    fn of(described: &Description) -> Draft {
        let mut draft = Draft::default();
        draft.put_list(PINS, &described.pins);
        for cell in 0..2 {
            draft.put_list(SEES[cell], &members(described.sees[cell]));
        }
        let rules = described.rules.len().min(u16::MAX as usize) as u16;
        draft.put(RULES, 0, &rules.to_le_bytes());
        for (number, rule) in described.rules.iter().enumerate() {
            let terms = members(*rule);
            draft.put(RULES, number, &[terms.len() as u8]);
            draft.put(RULES, number, &terms);
        }
        draft
    }

    /// The count's place is 0, and an entry's is its number.
    fn put_list(&mut self, section: u64, entries: &[u8]) {
        let count = entries.len().min(u8::MAX as usize) as u8;
        self.put(section, 0, &[count]);
        for (number, entry) in entries.iter().enumerate() {
            self.put(section, number, &[*entry]);
        }
    }

    fn put(&mut self, section: u64, place: usize, bytes: &[u8]) {
        self.bytes.extend_from_slice(bytes);
        self.homes.resize(self.bytes.len(), (section, place));
    }
}
