//! Rows as comma-separated text, and back: request a's sentences one by one, over whole records.

use crate::refusal::{Ground, Refusal};
use crate::rows::COLUMNS;

/// "a header record `row,calls,work,span,local,onspan`"; "Spreadsheets gain `ilocal,ionspan`."
const HEADER: [&str; 1 + COLUMNS] = ["row", "calls", "work", "span", "local", "onspan", "ilocal", "ionspan"];

/// "1 to 256 records"
const MOST_RECORDS: usize = 256;

/// The text of `count` sites from lent row numbers into `room` characters: "the report writer's 1 and 4 for its input, then
/// 16 output shorter than the text". Lending no room for the count of characters is 4 too.
pub fn write(numbers: &[u64], count: u64, room: usize, written: usize) -> Result<String, Ground> {
    if count > 255 {
        return Err(Ground::Limits);
    }
    let rows = count as usize + 1;
    if numbers.len() < COLUMNS * rows || written < 1 {
        return Err(Ground::Room);
    }
    let mut text = HEADER.join(",") + "\r\n";
    for (row, numbers) in numbers.chunks(COLUMNS).take(rows).enumerate() {
        let numbers: String = numbers.iter().map(|number| format!(",{number}")).collect();
        text += &format!("{row}{numbers}\r\n");
    }
    if room < text.len() {
        return Err(Ground::SheetRoom);
    }
    Ok(text)
}

/// The numbers of the rows that a text holds: "15 with the number of the first record (the header is 0) that isn't good or is
/// missing, then 16 room below" seven "numbers a row, line 0".
pub fn read(text: &[u8], room: usize) -> Result<Vec<u64>, Refusal> {
    let mut rest = text;
    let header = record(&mut rest).filter(|fields| fields.iter().eq(HEADER.map(str::as_bytes).iter()));
    header.ok_or(Ground::Record.at(0))?;
    let mut rows = vec![];
    let mut number = 0;
    while number == 0 || !rest.is_empty() {
        number += 1;
        let good = record(&mut rest).and_then(|fields| row(&fields, number - 1));
        let good = good.filter(|_| number <= MOST_RECORDS);
        rows.extend(good.ok_or(Ground::Record.at(number))?);
    }
    if room < rows.len() {
        return Err(Ground::SheetRoom.at(0));
    }
    Ok(rows)
}

/// Records of eight "decimal fields, rows 0, 1, 2 and on": the seven numbers of a row.
fn row(fields: &[&[u8]], row: usize) -> Option<Vec<u64>> {
    let numbers: Vec<u64> = fields.iter().map(|field| number(field)).collect::<Option<_>>()?;
    (numbers.len() == HEADER.len() && numbers[0] == row as u64).then(|| numbers[1..].to_vec())
}

/// "no number with a leading zero (other than 0) or past 64 bits"
fn number(field: &[u8]) -> Option<u64> {
    let digits = !field.is_empty() && field.iter().all(u8::is_ascii_digit);
    let leading_zero = field.len() > 1 && field[0] == b'0';
    let text = std::str::from_utf8(field).ok().filter(|_| digits && !leading_zero)?;
    text.parse().ok()
}

/// The fields of the record that a text begins with, which is then taken off. "each record ended by CR LF", but "the last
/// record may lack its line end"; a record that is not ended otherwise is none.
fn record<'a>(text: &mut &'a [u8]) -> Option<Vec<&'a [u8]>> {
    let mut fields = vec![];
    loop {
        fields.push(field(text)?);
        match *text {
            [] => return Some(fields),
            [b',', rest @ ..] => *text = rest,
            [b'\r', b'\n', rest @ ..] => {
                *text = rest;
                return Some(fields);
            }
            _ => return None,
        }
    }
}

/// The field that a text begins with, which is then taken off: "any field, the header's too, may be in double quotes".
fn field<'a>(text: &mut &'a [u8]) -> Option<&'a [u8]> {
    let quoted = text.strip_prefix(b"\"");
    let (inside, end): (&[u8], fn(&u8) -> bool) = match quoted {
        Some(inside) => (inside, |c| *c == b'"'),
        None => (text, |c| *c == b',' || *c == b'\r'),
    };
    let length = inside.iter().position(end).or_else(|| quoted.is_none().then_some(inside.len()))?;
    let (content, rest) = inside.split_at(length);
    *text = if quoted.is_some() { &rest[1..] } else { rest };
    Some(content)
}

#[cfg(test)]
mod tests {
    use super::*;

    const TOP: &str = "row,calls,work,span,local,onspan,ilocal,ionspan\r\n";

    fn read_below(records: &str, room: usize) -> Result<Vec<u64>, Refusal> {
        read((TOP.to_owned() + records).as_bytes(), room)
    }

    #[test]
    fn case_i_is_written_and_read() {
        let rows = [1, 10, 9, 2, 2, 0, 0, 1, 8, 7, 1, 0, 0, 0, 1, 7, 7, 7, 7, 0, 0];
        let text = TOP.to_owned() + "0,1,10,9,2,2,0,0\r\n1,1,8,7,1,0,0,0\r\n2,1,7,7,7,7,0,0\r\n";
        assert_eq!(write(&rows, 2, 101, 1), Ok(text.clone()));
        assert_eq!(read(text.as_bytes(), 21), Ok(rows.to_vec()));
    }

    #[test]
    fn the_refusals_of_writing_come_in_their_order() {
        assert_eq!(write(&[], 256, 0, 0), Err(Ground::Limits));
        assert_eq!(write(&[0; 6], 0, 0, 1), Err(Ground::Room));
        assert_eq!(write(&[0; 7], 0, 0, 0), Err(Ground::Room));
        assert_eq!(write(&[0; 7], 0, 65, 1), Err(Ground::SheetRoom));
        assert_eq!(write(&[0; 7], 0, 66, 1).map(|text| text.len()), Ok(66));
    }

    #[test]
    fn quotes_and_the_last_line_end_are_free() {
        let good = Ok(vec![1, 2, 3, 4, 5, 6, 7]);
        for record in ["0,1,2,3,4,5,6,7\r\n", "0,1,2,3,4,5,6,7", "\"0\",1,2,3,4,5,6,\"7\"\r\n", "0,1,2,3,4,5,6,\"7\""] {
            assert_eq!(read_below(record, 7), good);
        }
    }

    #[test]
    fn anything_else_is_a_record_that_is_not_good() {
        let wrong = [
            "",
            "0,1,2,3,4,5,6,7\n",
            "0,1,2,3,4,5,6,7\r",
            "0,1,2,3,4,5,6, 7\r\n",
            "0,1,2,3,4,5,6,+7\r\n",
            "0,1,2,3,4,5,6,07\r\n",
            "0,1,2,3,4,5,6,00\r\n",
            "0,1,2,3,4,5,6,\r\n",
            "0,1,2,3,4,5,6,18446744073709551616\r\n",
            "0,1,2,3,4,5,6,1\"5\r\n",
            "0,1,2,3,4,5,6,\"1\"\"5\"\r\n",
            "0,1,2,3,4,5,6,\"7\r\n",
            "1,1,2,3,4,5,6,7\r\n",
            "0,1,2,3,4,5,6,7,8\r\n",
            "0,1,2,3,4,5\r\n",
            "0,1,2,3,4,5,6\r\n",
            "0,1,2,3,4,5,6,7\0\r\n",
        ];
        for record in wrong {
            assert_eq!(read_below(record, 7), Err(Ground::Record.at(1)), "{record:?}");
        }
        for text in ["", "\r\n", "\u{feff}row,calls,work,span,local,onspan,ilocal,ionspan\r\n0,1,2,3,4,5,6,7\r\n"] {
            assert_eq!(read(text.as_bytes(), 7), Err(Ground::Record.at(0)), "{text:?}");
        }
        assert_eq!(read_below("0,1,2,3,4,5,6,7\r\n\r\n", 7), Err(Ground::Record.at(2)));
        assert_eq!(read_below("0,1,2,3,4,5,6,7\r\n2,1,2,3,4,5,6,7\r\n", 14), Err(Ground::Record.at(2)));
    }

    #[test]
    fn there_are_1_to_256_records() {
        let records =
            |count| (0..count).map(|row| format!("{row},0,0,0,0,0,0,18446744073709551615\r\n")).collect::<String>();
        assert_eq!(read_below(&records(256), 1792).map(|rows| rows.len()), Ok(1792));
        assert_eq!(read_below(&records(256), 1791), Err(Ground::SheetRoom.at(0)));
        assert_eq!(read_below(&records(257), 0), Err(Ground::Record.at(257)));
    }
}
