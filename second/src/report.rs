//! The text of a report and of a refusal.

use crate::refusal::Ground;
use crate::rows::{CALLS, COLUMNS};

/// The characters of a report line: row (4 digits), seven numbers (16 digits each), a line feed: "117 characters in both reports".
pub const ROW_CHARS: usize = 4 + 16 * COLUMNS + 1;

/// The characters of a printed refusal: `ff`, number (2 digits), line (8 digits), a line feed.
pub const REFUSAL_CHARS: usize = 13;

/// The report of `count` sites from lent row numbers into `room` characters: "row 0 and the rows with calls above zero".
pub fn report(numbers: &[u64], count: u64, room: usize) -> Result<String, Ground> {
    printed(numbers, count, room, |row, numbers| row == 0 || numbers[CALLS] > 0)
}

/// The same under the name of "the old full report": "each row, 0 first".
pub fn full_report(numbers: &[u64], count: u64, room: usize) -> Result<String, Ground> {
    printed(numbers, count, room, |_, _| true)
}

/// The lines of the rows that are printed: "refusal 1 for a count above 255, then 4 where rows are shorter than" seven for each
/// of count+1 rows or "output shorter than" 117 "characters for each row printed".
fn printed(numbers: &[u64], count: u64, room: usize, prints: fn(usize, &[u64]) -> bool) -> Result<String, Ground> {
    if count > 255 {
        return Err(Ground::Limits);
    }
    let rows = count as usize + 1;
    if numbers.len() < COLUMNS * rows {
        return Err(Ground::Room);
    }
    let rows = numbers.chunks(COLUMNS).take(rows).enumerate().filter(|(row, numbers)| prints(*row, numbers));
    let lines: Vec<String> = rows.map(|(row, numbers)| line(row, numbers)).collect();
    if room < ROW_CHARS * lines.len() {
        return Err(Ground::Room);
    }
    Ok(lines.concat())
}

/// "`ff`, number (2 digits), line (8 digits), line feed, also in hexadecimal", into `room` characters.
pub fn refusal(number: u64, line: u64, room: usize) -> Result<String, Ground> {
    if number > 0xff || line > 0xffff_ffff {
        return Err(Ground::Limits);
    }
    if room < REFUSAL_CHARS {
        return Err(Ground::Room);
    }
    Ok(format!("ff{number:02x}{line:08x}\n"))
}

/// "row (4 digits), the" seven "numbers (16 digits each), a line feed, all in hexadecimal with small letters"
fn line(row: usize, numbers: &[u64]) -> String {
    let numbers: String = numbers.iter().map(|number| format!("{number:016x}")).collect();
    format!("{row:04x}{numbers}\n")
}

#[cfg(test)]
mod tests {
    use super::*;

    #[test]
    fn a_row_is_its_number_and_seven_numbers() {
        let text = report(&[1, 0xabc, 3, u64::MAX, 5, 6, 0x70], 0, 117);
        let digits = "00000000000000000001000000000000\
                      0abc0000000000000003ffffffffffffffff0000000000000005\
                      00000000000000060000000000000070";
        assert_eq!(text, Ok(format!("{digits}\n")));
    }

    #[test]
    fn the_count_comes_before_the_room() {
        for (of, idle) in [(report as fn(&[u64], u64, usize) -> Result<String, Ground>, 1), (full_report, 0)] {
            assert_eq!(of(&[], 256, 0), Err(Ground::Limits));
            assert_eq!(of(&[idle; 13], 1, 234), Err(Ground::Room));
            assert_eq!(of(&[idle; 14], 1, 233), Err(Ground::Room));
            assert_eq!(of(&[idle; 15], 1, 235).map(|text| text.len()), Ok(234));
        }
    }

    #[test]
    fn a_row_without_calls_is_left_off_and_asks_for_no_room() {
        let rows = [1, 9, 9, 9, 9, 9, 9, 0, 8, 8, 8, 8, 8, 8, 2, 7, 7, 7, 7, 7, 7];
        let full = full_report(&rows, 2, 351).expect("room enough");
        assert_eq!(report(&rows, 2, 234), Ok([&full[..117], &full[234..]].concat()));
        assert_eq!(report(&rows, 2, 233), Err(Ground::Room));
        assert_eq!(full_report(&rows, 2, 350), Err(Ground::Room));
    }

    #[test]
    fn row_0_is_always_printed() {
        assert_eq!(report(&[0; 21], 2, 117), full_report(&[0; 7], 0, 117));
        assert_eq!(report(&[0; 21], 2, 116), Err(Ground::Room));
    }

    #[test]
    fn fourteen_is_0e() {
        assert_eq!(refusal(14, 65_536, 13).as_deref(), Ok("ff0e00010000\n"));
        assert_eq!(refusal(255, 0xffff_ffff, 20).as_deref(), Ok("ffffffffffff\n"));
    }

    #[test]
    fn a_refusal_that_has_no_digits_is_refused() {
        assert_eq!(refusal(256, 0, 0), Err(Ground::Limits));
        assert_eq!(refusal(14, 0x1_0000_0000, 0), Err(Ground::Limits));
        assert_eq!(refusal(14, 0, 12), Err(Ground::Room));
    }
}
