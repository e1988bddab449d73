// The jobs that the papers name, as job sheets of form one in hexadecimal, and excuses to put behind them.
// It leans on case, job and make.

use crate::case::hex;
use crate::job::{Form, JobSheet, MOST_RULES};
use crate::make::longest_job;
use crate::random::Random;

pub const J1: &str = "00 00 00 00 00";
pub const J2: &str = "01 04 01 00 01 00 02 00 02 02 04 02 03 05";
pub const J3: &str = "02 04 07 01 00 01 01 06 00 04 00 03 04 06 04 01 02 04 06 \
                      03 00 02 05 03 00 02 07 03 01 03 05 03 01 03 07";
pub const J4: &str = "00 00 00 01 00 00";
pub const J5: &str = "00 00 00 02 00 02 00 02 02 01 03";
pub const J6: &str = "01 04 00 01 00 02 00 02 00 05 02 01 04";
pub const J7: &str = "01 04 00 00 02 00 02 00 05 02 01 04";
/// J6 with A seeing the wire too.
pub const J6_WIDENED: &str = "01 04 01 00 01 00 02 00 02 00 05 02 01 04";
/// Two wires, A sees the first and B the second; A equals B exactly when the wires are equal.
pub const EQUAL_AS_WIRES: &str = "02 04 07 01 00 01 01 08 00 04 00 02 04 07 04 00 02 05 06 04 01 03 04 07 \
                                  04 01 03 05 06 04 00 03 04 06 04 00 03 05 07 04 01 02 04 06 04 01 02 05 07";

pub const ALL: [&str; 10] = [J1, J2, J3, J4, J5, J6, J7, J6_WIDENED, EQUAL_AS_WIRES, SPEED_WIRES];

/// Sections of excuses, for any job: none, and the empty one, which excuses everything.
pub const NONE: &str = "00 00";
pub const EMPTY: &str = "01 00 00";
/// For jobs with a wire: the first is 1; it is 0; it is either, in two excuses; it is both, which never holds.
pub const FIRST_IS_1: &str = "01 00 01 00";
pub const FIRST_IS_0: &str = "01 00 01 01";
pub const FIRST_IS_EITHER: &str = "02 00 01 00 01 01";
pub const FIRST_IS_BOTH: &str = "01 00 02 00 01";

/// Two wires, A sees the first and B the second; a cell is 1 where its wire is, and not both cells are 1.
pub const SPEED_WIRES: &str = "02 02 03 01 00 01 01 03 00 02 01 04 02 03 06 02 05 07";
/// The wires are never both 1.
pub const NOT_BOTH_HIGH: &str = "01 00 02 00 02";

/// All of them, one with as many rules as there may be, and the longest sheet, in form one.
pub fn right_sheets(random: &mut Random) -> Vec<Vec<u8>> {
    let mut sheets: Vec<Vec<u8>> = ALL.iter().map(|sheet| hex(sheet)).collect();
    sheets.push(hex(&format!("00 00 00 00 01{}", " 00".repeat(MOST_RULES))));
    sheets.push(JobSheet::of(&longest_job(Form::One, random)).bytes);
    sheets
}

/// The sheet in this form. In form two an empty section of excuses is the last.
pub fn in_form(form: Form, sheet: &str) -> Vec<u8> {
    match form {
        Form::One => hex(sheet),
        Form::Two => with_excuses(sheet, NONE),
    }
}

/// The sheet of form two.
pub fn with_excuses(sheet: &str, excuses: &str) -> Vec<u8> {
    hex(&format!("{sheet} {excuses}"))
}
