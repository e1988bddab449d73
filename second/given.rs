// A random job, expanded once, from which right and wrong answers for several cases are made.
// It leans on job, board, expand and random.

use crate::board::Board;
use crate::expand::Expansion;
use crate::job::{Job, JobSheet};
use crate::random::Random;

pub struct Given {
    pub job: Job,
    pub sheet: JobSheet,
    pub board: Board,
    pub expansion: Expansion,
    /// The expansion of the job without its excuses, if it has any.
    pub unexcused: Option<Expansion>,
}

impl Given {
    pub fn of(job: Job, random: &mut Random) -> Given {
        let (sheet, board) = (JobSheet::of(&job), Board::of(job.clone()));
        let expansion = Expansion::of(&board, random);
        let unexcused = (!job.excuses.is_empty()).then(|| {
            let all = Job { excuses: Vec::new(), ..job.clone() };
            Expansion::of(&Board::of(all), random)
        });
        Given { job, sheet, board, expansion, unexcused }
    }
}
