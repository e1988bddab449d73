// A job as plain lists, and its job sheet of either form with a mark at every count and entry.
// The marks say where a sheet can be damaged and what a reader must answer to that.
// It leans on nothing.

pub const MOST_WIRES: usize = 12;
pub const MOST_SEEN: usize = 8;
pub const MOST_RULES: usize = 256;
pub const MOST_EXCUSES: usize = 64;

/// The form of a job sheet. Form two has a section more, the excuses.
#[derive(Clone, Copy, Default, PartialEq, Eq, Debug)]
pub enum Form {
    #[default]
    One,
    Two,
}

impl Form {
    /// The length of the longest sheet.
    pub fn longest(self) -> usize {
        match self {
            Form::One => 7457,
            Form::Two => 9059,
        }
    }

    pub fn other(self) -> Form {
        match self {
            Form::One => Form::Two,
            Form::Two => Form::One,
        }
    }
}

/// Terms below this number exist on a board of so many wires.
pub fn term_limit(wires: usize) -> usize {
    2 * wires + 4
}

/// Those below this number are of wires, not of cells. Excuses have no others.
pub fn wire_term_limit(wires: usize) -> usize {
    2 * wires
}

#[derive(Clone, Default, PartialEq, Eq, Debug)]
pub struct Job {
    pub form: Form,
    pub pins: Vec<u8>,
    /// The wire positions that cells A and B see.
    pub sees: [Vec<u8>; 2],
    pub rules: Vec<Vec<u8>>,
    /// There are none in form one.
    pub excuses: Vec<Vec<u8>>,
}

impl Job {
    pub fn wires(&self) -> usize {
        self.pins.len()
    }
}

#[derive(Clone, Copy)]
pub enum Mark {
    /// A count of one or two bytes, and the highest it may be.
    Count { offset: usize, width: usize, limit: usize },
    /// An entry, whether one stands before it in its list, and the number it must be below (pins have none).
    Entry { offset: usize, first: bool, limit: Option<usize> },
}

#[derive(Clone, Default)]
pub struct JobSheet {
    pub bytes: Vec<u8>,
    pub marks: Vec<Mark>,
}

impl JobSheet {
    pub fn of(job: &Job) -> JobSheet {
        let mut sheet = JobSheet::default();
        let wires = job.wires();
        sheet.put_list(&job.pins, MOST_WIRES, None);
        for seen in &job.sees {
            sheet.put_list(seen, MOST_SEEN, Some(wires));
        }
        sheet.put_sets(&job.rules, MOST_RULES, term_limit(wires));
        if job.form == Form::Two {
            sheet.put_excuses(job);
        }
        sheet
    }

    /// The section of excuses alone, which is the last of a sheet of form two.
    pub fn of_excuses(job: &Job) -> JobSheet {
        let mut section = JobSheet::default();
        section.put_excuses(job);
        section
    }

    fn put_excuses(&mut self, job: &Job) {
        self.put_sets(&job.excuses, MOST_EXCUSES, wire_term_limit(job.wires()));
    }

    /// Rules or excuses: sets of terms below the limit.
    fn put_sets(&mut self, sets: &[Vec<u8>], most: usize, limit: usize) {
        self.put_count(sets.len(), 2, most);
        for set in sets {
            self.put_list(set, limit, Some(limit));
        }
    }

    fn put_count(&mut self, count: usize, width: usize, limit: usize) {
        self.marks.push(Mark::Count { offset: self.bytes.len(), width, limit });
        self.bytes.extend_from_slice(&count.to_le_bytes()[..width]);
    }

    fn put_list(&mut self, entries: &[u8], most: usize, limit: Option<usize>) {
        self.put_count(entries.len(), 1, most);
        for (index, entry) in entries.iter().enumerate() {
            self.marks.push(Mark::Entry { offset: self.bytes.len(), first: index == 0, limit });
            self.bytes.push(*entry);
        }
    }
}
