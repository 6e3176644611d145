//! Cases for the writer and the reader of comma-separated text: texts that tell good from not good, and generated ones.

use super::case::{Case, Question};
use super::generate::near;
use super::rng::Rng;
use crate::rows::COLUMNS;
use crate::sheet;

/// Whole texts; the last but one is a sheet as it was before there were instructions.
const WHOLE: [&str; 15] = [
    "",
    "\r\n",
    "row,calls,work,span,local,onspan,ilocal,ionspan",
    "row,calls,work,span,local,onspan,ilocal,ionspan\r\n",
    "row,calls,work,span,local,onspan,ilocal,ionspan\n0,1,2,3,4,5,6,7\r\n",
    "row,calls,work,span,onspan,local,ilocal,ionspan\r\n0,1,2,3,4,5,6,7\r\n",
    "row,calls,work,span,local,onspan,ionspan,ilocal\r\n0,1,2,3,4,5,6,7\r\n",
    "row,calls,work,span,local,onspan,ilocal\r\n0,1,2,3,4,5,6\r\n",
    "row,calls,work,span,local,onspan,ilocal,ionspan,more\r\n0,1,2,3,4,5,6,7,8\r\n",
    "Row,calls,work,span,local,onspan,ilocal,ionspan\r\n0,1,2,3,4,5,6,7\r\n",
    "row, calls,work,span,local,onspan,ilocal,ionspan\r\n0,1,2,3,4,5,6,7\r\n",
    "\"row\",calls,\"work\",span,local,\"onspan\",ilocal,\"ionspan\"\r\n0,1,2,3,4,5,6,7\r\n",
    "\u{feff}row,calls,work,span,local,onspan,ilocal,ionspan\r\n0,1,2,3,4,5,6,7\r\n",
    "row,calls,work,span,local,onspan\r\n0,1,2,3,4,5\r\n",
    "row,calls,work,span,local,onspan\r\n0,1,2,3,4,5,6,7\r\n",
];

/// Records below the header.
const BELOW: [&str; 34] = [
    "0,1,2,3,4,5,6,7\r\n",
    "0,1,2,3,4,5,6,7",
    "0,1,2,3,4,5,6,7\n",
    "0,1,2,3,4,5,6,7\r",
    "0,1,2,3,4,5,6,7\r1,1,2,3,4,5,6,7\r\n",
    "0,1,2,3,4,5,6,7\r\n\r\n",
    "0,1,2,3,4,5,6, 7\r\n",
    "0,1,2,3,4,5,6,+7\r\n",
    "0,1,2,3,4,5,6,07\r\n",
    "0,0,0,0,0,0,0,0\r\n",
    "0,1,2,3,4,5,6,00\r\n",
    "00,1,2,3,4,5,6,7\r\n",
    "0,1,2,3,4,5,6,\r\n",
    "0,1,2,3,4,5,6,\"\"\r\n",
    "0,1,2,3,4,5,6,18446744073709551615\r\n",
    "0,1,2,3,4,5,6,18446744073709551616\r\n",
    "0,1,2,3,4,5,6,1.84E+019\r\n",
    "0,1,2,3,4,5,6,1\"5\r\n",
    "0,1,2,3,4,5,6,\"1\"\"5\"\r\n",
    "0,1,2,3,4,5,6,\"1\"5\r\n",
    "0,1,2,3,4,5,6,\"7\r\n",
    "0,1,2,3,4,5,6,\"7\r\n1,1,2,3,4,5,6,7\"\r\n",
    "\"0\",\"1\",2,3,4,\"5\"\r\n",
    "0,1,2,3,4,5,6,\"7\"",
    "0,1,2,3,4,5,6,7\r\n2,1,2,3,4,5,6,7\r\n",
    "0,1,2,3,4,5,6,7\r\n0,1,2,3,4,5,6,7\r\n",
    "1,1,2,3,4,5,6,7\r\n0,1,2,3,4,5,6,7\r\n",
    "0,1,2,3,4,5,6,7\r\n1,6,7,8,9,10,11,12",
    "0,1,2,3,4,5,6,7,8\r\n",
    "0,1,2,3,4,5\r\n",
    "0,1,2,3,4,5,6\r\n",
    "0,1,2,3,4,5,6,7\0\r\n",
    "\"\",1,2,3,4,5,6,7\r\n",
    "\"0,1,2,3,4,5,6,7\"\r\n",
];

/// Every text above with room for its rows, one number less, and none for the count; 256 records and 257; and writers with
/// each slice just long enough and one short.
pub fn cases() -> Vec<Case> {
    let top = |records: &str| WHOLE[3].to_owned() + records;
    let many = |count| top(&(0..count).map(|row| format!("{row},1,2,3,4,5,6,7\r\n")).collect::<String>());
    let texts = WHOLE.map(String::from).into_iter().chain(BELOW.map(top)).chain([many(256), many(257)]);
    let reads = texts.flat_map(|text| {
        let need = COLUMNS * (text.matches('\n').count() + 1);
        let rooms = (0..=need + 1).filter(move |room| *room < 16 || *room + 16 > need);
        let of = move |(rows, count)| Question::ReadSheet { text: text.clone().into_bytes(), rows, count };
        rooms.map(|rows| (rows, 1)).chain([(need, 0), (need, 2)]).map(of).collect::<Vec<_>>()
    });
    let writes = [0, 2, 255].into_iter().flat_map(|count| {
        let rows: Vec<u64> = (0..COLUMNS as u64 * (count + 1)).map(|n| u64::MAX >> (n % 64)).collect();
        let length = length(&rows, count);
        let of = move |(less, out, written)| {
            let rows = rows[..rows.len() - less].to_vec();
            Question::WriteSheet { rows, count, out, written }
        };
        [(0, length, 1), (0, length + 1, 2), (1, length, 1), (0, length - 1, 1), (0, length, 0), (1, 0, 0), (0, 0, 0)]
            .map(of)
    });
    reads.chain(writes).map(|question| Case { question, rubbish: 1 }).collect()
}

/// How long the text of some rows is.
fn length(rows: &[u64], count: u64) -> usize {
    sheet::write(rows, count, usize::MAX, 1).map_or(0, |text| text.len())
}

/// Rows for the writer.
pub fn write(rng: &mut Rng) -> Question {
    let sites = sites(rng);
    let count = if rng.once_in(8) { rng.pick(&[256, 257, 1 << 32, 1 << 60, u64::MAX]) } else { sites };
    let all: Vec<u64> = (0..COLUMNS as u64 * (sites + 1)).map(|_| number(rng)).collect();
    let out = near(rng, length(&all, sites));
    let mut rows = all;
    rows.resize(near(rng, rows.len()), 7);
    Question::WriteSheet { rows, count, out, written: near(rng, 1) }
}

/// Characters for the reader: as often good as damaged in some way.
pub fn read(rng: &mut Rng) -> Question {
    let rows = 1 + sites(rng) as usize;
    let header = ["row", "calls", "work", "span", "local", "onspan", "ilocal", "ionspan"];
    let mut records = vec![header.map(String::from).to_vec()];
    for row in 0..rows {
        let numbers = (0..COLUMNS).map(|_| number(rng).to_string());
        records.push([row.to_string()].into_iter().chain(numbers).collect());
    }
    let damaged = rng.once_in(2);
    if damaged && rng.once_in(2) {
        wrong_record(rng, &mut records);
    }
    let mut text = spelled(rng, &records);
    if damaged {
        (0..rng.pick(&[0, 1, 1, 2])).for_each(|_| wrong_character(rng, &mut text));
    }
    Question::ReadSheet { text, rows: near(rng, COLUMNS * rows), count: near(rng, 1) }
}

fn sites(rng: &mut Rng) -> u64 {
    if rng.once_in(20) {
        rng.below(256)
    } else {
        rng.below(6)
    }
}

/// A number of any length, often at an edge.
fn number(rng: &mut Rng) -> u64 {
    let ten = 10_u64.pow(rng.below(20) as u32);
    match rng.below(4) {
        0 => rng.pick(&[0, 1, 9, 10, ten - 1, ten, u64::MAX - 1, u64::MAX]),
        _ => rng.number() >> rng.below(64),
    }
}

/// Records as text, some fields in quotes, now and then without the last line end.
fn spelled(rng: &mut Rng, records: &[Vec<String>]) -> Vec<u8> {
    let once_in = rng.pick(&[1, 4, 1_000_000]);
    let mut field = |field: &String| if rng.once_in(once_in) { format!("\"{field}\"") } else { field.clone() };
    let lines: Vec<String> =
        records.iter().map(|fields| fields.iter().map(&mut field).collect::<Vec<_>>().join(",")).collect();
    let end = if rng.once_in(3) { "" } else { "\r\n" };
    (lines.join("\r\n") + end).into_bytes()
}

/// A record doubled, dropped or moved, a field more or less, or a field that is no number as it should be.
fn wrong_record(rng: &mut Rng, records: &mut Vec<Vec<String>>) {
    let place = rng.index(records.len());
    match rng.below(6) {
        0 => records.insert(place, records[place].clone()),
        1 => drop(records.remove(place)),
        2 => records.swap(place, 0),
        3 => records[place].push("1".into()),
        4 => drop(records[place].pop()),
        _ => {
            let wrong =
                ["", "00", "01", " 1", "1 ", "+1", "-1", "1e3", "0x1", "18446744073709551616", "99999999999999999999"];
            let field = rng.index(records[place].len());
            records[place][field] = rng.pick(&wrong).into();
        }
    }
}

/// A character changed, put in or left out, the end cut off, or something added.
fn wrong_character(rng: &mut Rng, text: &mut Vec<u8>) {
    let place = rng.index(text.len() + 1);
    let character = rng.pick(b"\",\r\n0123456789 +-.;\0r");
    match rng.below(5) {
        0 if place < text.len() => text[place] = character,
        1 if place < text.len() => drop(text.remove(place)),
        2 => text.truncate(place),
        3 => text.extend(rng.pick(&[&b"\r\n"[..], b"\n", b"\r", b"0", b"\"", b","])),
        _ => text.insert(place, character),
    }
}
