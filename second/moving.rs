// Moves a job sheet to the other form by request 3 of document 02, or refuses it.
// The sheet is read, and the job is laid out anew in the other form; no byte is copied from the sheet.
// It leans on job, read and outcome.

use crate::job::{Form, Job, JobSheet};
use crate::outcome::{Outcome, Refusal, JOB};
use crate::read::read_job;

/// Excuses have no place in form one.
pub const EXCUSES_LOST: u8 = 16;

/// The sheet that a call of the mover must write, or the refusal. The form is that of the sheet handed in.
pub fn move_sheet(form: Form, sheet: &[u8], room: usize) -> Result<Vec<u8>, Outcome> {
    let refused = |refusal| Outcome::refused(refusal, JOB);
    let job = read_job(form, sheet).map_err(refused)?;
    let excuses = job.excuses.len();
    let moved = JobSheet::of(&Job { form: form.other(), excuses: Vec::new(), ..job }).bytes;
    if excuses > 0 {
        // The excuse count stands where the sheet of form one ends.
        return Err(refused(Refusal { code: EXCUSES_LOST, place: moved.len() }));
    }
    if room < moved.len() {
        return Err(Outcome::no_room());
    }
    Ok(moved)
}
