//! Cases for the two report writers: rows with and without calls, in rooms of each length near what they need, and generated
//! ones; and what holds of every report.

use super::case::{Case, Question};
use super::generate::near;
use super::rng::Rng;
use crate::library::Library;
use crate::report::ROW_CHARS;
use crate::rows::{CALLS, COLUMNS};

/// The calls of row 0 and of each site, and the rows that the report without idle rows prints, by hand.
pub struct Calls {
    pub name: &'static str,
    pub calls: &'static [u64],
    pub printed: &'static [usize],
}

const fn of(name: &'static str, calls: &'static [u64], printed: &'static [usize]) -> Calls {
    Calls { name, calls, printed }
}

pub const BY_HAND: [Calls; 12] = [
    of("the root alone", &[1], &[0]),
    of("the root alone, with no calls", &[0], &[0]),
    of("every site called", &[1, 2, 3], &[0, 1, 2]),
    of("the first site idle", &[1, 0, 3], &[0, 2]),
    of("the last site idle", &[1, 2, 0], &[0, 1]),
    of("every site idle", &[1, 0, 0, 0], &[0]),
    of("row 0 with no calls, the others called", &[0, 2, 3], &[0, 1, 2]),
    of("row 0 with no calls, some of the others idle", &[0, 0, 3, 0, 5, 0], &[0, 2, 4]),
    of("no calls at all", &[0, 0, 0], &[0]),
    of("calls in the highest bits alone", &[1, 1 << 63, 0, 1 << 32, 256], &[0, 1, 3, 4]),
    of("as many calls as there can be", &[u64::MAX, u64::MAX, 0, u64::MAX], &[0, 1, 3]),
    of("one of many", &[1, 0, 0, 0, 0, 0, 0, 0, 0, 7, 0, 0, 0, 0, 0, 0, 0], &[0, 9]),
];

impl Calls {
    /// Seven numbers a row: its calls, and six that no other row has, an idle one's too.
    pub fn numbers(&self) -> Vec<u64> {
        let row = |(row, &calls): (usize, &u64)| {
            let of = 10 * row as u64;
            [calls, of + 1, of + 2, of + 3, of + 4, of + 5, of + 6]
        };
        self.calls.iter().enumerate().flat_map(row).collect()
    }
}

/// Every row above for both writers, with each of the rooms, 255 sites of which every 20th was called, and counts that are
/// too large.
pub fn cases() -> Vec<Case> {
    let by_hand = BY_HAND.iter().map(|calls| (calls.numbers(), calls.printed.len()));
    let many = (0..256 * COLUMNS).map(|n| u64::from(n % COLUMNS != CALLS || n % (20 * COLUMNS) == CALLS)).collect();
    let rooms = by_hand.chain([(many, 13)]).flat_map(|(numbers, printed)| {
        let count = (numbers.len() / COLUMNS - 1) as u64;
        [(false, printed), (true, count as usize + 1)].into_iter().flat_map(move |(full, lines)| {
            rooms(&numbers, ROW_CHARS * lines).map(|(rows, out, written)| Question::Report {
                rows,
                count,
                full,
                out,
                written,
            })
        })
    });
    let too_large = [256, 257, 1 << 32, u64::MAX].into_iter().flat_map(|count| {
        let of = move |full| Question::Report { rows: vec![1; 4], count, full, out: 0, written: 0 };
        [false, true].map(of)
    });
    rooms.chain(too_large).map(|question| Case { question, rubbish: 1 }).collect()
}

/// Rows, output and count just enough, longer, and each of them too short: by one, by a line, with another too short too.
fn rooms(numbers: &[u64], need: usize) -> [(Vec<u64>, usize, usize); 12] {
    let longer = [numbers, &[7; 9]].concat();
    let short = numbers[..numbers.len() - 1].to_vec();
    let just = numbers.to_vec();
    [
        (just.clone(), need, 1),
        (longer.clone(), need + 100, 3),
        (longer, need, 1),
        (just.clone(), need - 1, 1),
        (just.clone(), need - ROW_CHARS, 1),
        (just.clone(), 0, 1),
        (just.clone(), need, 0),
        (just, need - 1, 0),
        (short.clone(), need, 1),
        (short.clone(), need - 1, 1),
        (short, 0, 0),
        (vec![], need, 1),
    ]
}

/// Rows for one of the two writers, some of them idle, with rooms that are mostly enough.
pub fn write(rng: &mut Rng) -> Question {
    let sites = if rng.once_in(10) { rng.below(256) } else { rng.below(6) };
    let count = if rng.once_in(8) { rng.pick(&[256, 257, 1 << 32, 1 << 60, u64::MAX]) } else { sites };
    let (full, idle) = (rng.once_in(3), rng.pick(&[1, 2, 1_000_000]));
    let mut rows: Vec<u64> = (0..COLUMNS * (sites as usize + 1)).map(|_| rng.number() >> rng.below(64)).collect();
    rows.iter_mut().step_by(COLUMNS).filter(|_| rng.once_in(idle)).for_each(|calls| *calls = 0);
    let lines = if full { sites as usize + 1 } else { 1 + called(&rows[COLUMNS..]) };
    rows.resize(near(rng, rows.len()), 7);
    Question::Report { rows, count, full, out: near(rng, ROW_CHARS * lines), written: near(rng, 1) }
}

/// How many rows have calls above zero.
fn called(rows: &[u64]) -> usize {
    rows.iter().step_by(COLUMNS).filter(|&&calls| calls > 0).count()
}

/// The laws that a program does not keep on a case; none where the case has no rows.
pub fn broken(case: &Case, library: &dyn Library) -> Vec<&'static str> {
    let Some((numbers, traced)) = rows_of(case, library) else { return vec![] };
    let rows = || numbers.chunks(COLUMNS).enumerate();
    let count = rows().len() as u64 - 1;
    let full = lines(|out, written| library.full_report(&numbers, count, out, written));
    let brief = lines(|out, written| library.report(&numbers, count, out, written));
    let left_off = |(row, numbers): &(usize, &[u64])| *row > 0 && numbers[CALLS] == 0;
    let printed = rows().filter(|row| !left_off(row)).map(|(row, _)| full.get(row));
    let laws = [
        ("the full report has a line for every row", full.len() == rows().len()),
        ("the report has the full one's lines of row 0 and of rows with calls", printed.eq(brief.iter().map(Some))),
        (
            "a row of a trace that is left off has nothing but zeros",
            !traced || rows().filter(left_off).all(|(_, numbers)| numbers.iter().all(|&number| number == 0)),
        ),
    ];
    laws.into_iter().filter(|(_, holds)| !holds).map(|(law, _)| law).collect()
}

/// The rows to report: those that are lent, or those that a program's table engine gives of an accepted trace; and whether
/// they are a trace's.
fn rows_of(case: &Case, library: &dyn Library) -> Option<(Vec<u64>, bool)> {
    let (rows, count, traced) = match &case.question {
        Question::Report { rows, count, .. } => (rows.clone(), *count, false),
        Question::Engines { .. } => {
            let outcome = case.ask(library);
            let sites = *outcome.numbers_of("table engine's answer")?.get(2).filter(|_| outcome.codes[0].1 == 0)?;
            (outcome.numbers_of("table engine's rows")?.to_vec(), sites, true)
        }
        _ => return None,
    };
    let numbers = rows.get(..COLUMNS * (count.min(256) as usize + 1)).filter(|_| count < 256)?;
    Some((numbers.to_vec(), traced))
}

/// The lines that a writer gives in room for any report; none where it refuses.
fn lines(writer: impl Fn(&mut [u8], &mut [u64]) -> u64) -> Vec<Vec<u8>> {
    let (mut out, mut written) = (vec![0; 256 * ROW_CHARS], [0]);
    let code = writer(&mut out, &mut written);
    out.truncate(if code == 0 { written[0] as usize } else { 0 });
    out.chunks(ROW_CHARS).map(<[u8]>::to_vec).collect()
}
