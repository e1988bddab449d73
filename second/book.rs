// The case book of the program `outcomes`: cases for the checker and the widener, each with the form of its job sheets.
// All numbers are low byte first: two bytes, how many cases; then each case as one byte, the form, and three sheets,
// job P, job Q and the answer, each as two bytes of length and then so many bytes. Nothing follows.
// It leans on job.

use crate::job::Form;

/// A book has no more cases, and a sheet in it no more bytes.
pub const MOST: usize = 65535;

pub struct BookCase {
    /// As the book has it; it may be no form's.
    pub form_byte: u8,
    pub p: Vec<u8>,
    pub q: Vec<u8>,
    pub answer: Vec<u8>,
}

impl BookCase {
    pub fn of(form: Form, p: Vec<u8>, q: Vec<u8>, answer: Vec<u8>) -> BookCase {
        let form_byte = match form {
            Form::One => 1,
            Form::Two => 2,
        };
        BookCase { form_byte, p, q, answer }
    }

    /// Any byte but 2 stands for form one.
    pub fn form(&self) -> Form {
        match self.form_byte {
            2 => Form::Two,
            _ => Form::One,
        }
    }

    pub fn sheets(&self) -> [&Vec<u8>; 3] {
        [&self.p, &self.q, &self.answer]
    }
}

pub fn write_book(cases: &[BookCase]) -> Vec<u8> {
    let mut book = Vec::new();
    put_number(&mut book, cases.len());
    for case in cases {
        book.push(case.form_byte);
        for sheet in case.sheets() {
            put_number(&mut book, sheet.len());
            book.extend_from_slice(sheet);
        }
    }
    book
}

fn put_number(book: &mut Vec<u8>, number: usize) {
    let bytes = u16::try_from(number).expect("a book's numbers have two bytes").to_le_bytes();
    book.extend_from_slice(&bytes);
}

/// The cases of a book, or what is wrong with it.
pub fn read_book(book: &[u8]) -> Result<Vec<BookCase>, String> {
    let mut rest = book;
    let count = number(&mut rest).ok_or("the book ends in its count of cases")?;
    let mut cases = Vec::with_capacity(count);
    for index in 0..count {
        cases.push(case(&mut rest).ok_or(format!("the book has {count} cases and ends in case {index}, from 0"))?);
    }
    match rest.len() {
        0 => Ok(cases),
        over => Err(format!("the book has {over} bytes after its last case")),
    }
}

fn case(rest: &mut &[u8]) -> Option<BookCase> {
    let form_byte = taken(rest, 1)?[0];
    Some(BookCase { form_byte, p: sheet(rest)?, q: sheet(rest)?, answer: sheet(rest)? })
}

fn sheet(rest: &mut &[u8]) -> Option<Vec<u8>> {
    let length = number(rest)?;
    Some(taken(rest, length)?.to_vec())
}

fn number(rest: &mut &[u8]) -> Option<usize> {
    let bytes = taken(rest, 2)?;
    Some(bytes[0] as usize + 256 * bytes[1] as usize)
}

/// The next so many bytes, if there are so many.
fn taken<'a>(rest: &mut &'a [u8], length: usize) -> Option<&'a [u8]> {
    let (bytes, after) = rest.split_at_checked(length)?;
    *rest = after;
    Some(bytes)
}
