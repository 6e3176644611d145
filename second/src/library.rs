//! The functions of the C interface, and the second program behind them.
//!
//! Each answers 0 for accepted and otherwise number + 256 · line, and a refusal leaves everything lent as it was. The
//! interface lends some slices that the rules do not speak of: the answer, the frame, the count of characters written
//! or of sites read. One that is too short is refusal 4, in the order of the numbers: after 1, 2 and 3, before 5 and above.

use crate::chain::{self, Chains};
use crate::check::{self, Lent, Limits};
use crate::compact;
use crate::folded;
use crate::forecast::{self, Entry};
use crate::graph;
use crate::heaviest::PAIRS_LINES;
use crate::line::{Family, CHARS, WIDTHS};
use crate::refusal::{Ground, Refusal};
use crate::report;
use crate::rows::{marks, profile, Profile, COLUMNS};
use crate::shape::Shape;
use crate::sheet;
use crate::why::{self, Why};

/// What both programs can be asked. Slices are lent; an answer is total work, total span, sites and lines, a frame is
/// kind, site, value, file and column.
pub trait Library {
    /// Whether it can be asked of a family.
    fn knows(&self, _family: Family) -> bool {
        true
    }
    /// The table engine of a family.
    fn tables(
        &self,
        family: Family,
        trace: &[u8],
        limits: Limits,
        scratch: &mut [u64],
        rows: &mut [u64],
        answer: &mut [u64],
    ) -> u64;
    /// The marks engine of a family.
    #[allow(clippy::too_many_arguments)]
    fn marks(
        &self,
        family: Family,
        trace: &[u8],
        limits: Limits,
        scratch: &mut [u64],
        marks: &mut [u8],
        rows: &mut [u64],
        answer: &mut [u64],
    ) -> u64;
    /// The table engine with forecast entries.
    fn forecast_tables(
        &self,
        trace: &[u8],
        limits: Limits,
        entries: &[Entry],
        scratch: &mut [u64],
        rows: &mut [u64],
        answer: &mut [u64],
    ) -> u64;
    /// The marks engine with forecast entries.
    #[allow(clippy::too_many_arguments)]
    fn forecast_marks(
        &self,
        trace: &[u8],
        limits: Limits,
        entries: &[Entry],
        scratch: &mut [u64],
        marks: &mut [u8],
        rows: &mut [u64],
        answer: &mut [u64],
    ) -> u64;
    /// The line reader of a family.
    fn read_line(&self, family: Family, line: &[u8], frame: &mut [u64]) -> u64;
    /// The line writer of a family.
    fn write_line(&self, family: Family, frame: &[u64], out: &mut [u8], written: &mut [u64]) -> u64;
    /// The report writer, which leaves idle rows off.
    fn report(&self, rows: &[u64], count: u64, out: &mut [u8], written: &mut [u64]) -> u64;
    /// The writer of the full report.
    fn full_report(&self, rows: &[u64], count: u64, out: &mut [u8], written: &mut [u64]) -> u64;
    /// The writer of a refusal.
    fn refusal(&self, number: u64, line: u64, out: &mut [u8], written: &mut [u64]) -> u64;
    /// The writer of comma-separated text.
    fn csv_write(&self, rows: &[u64], count: u64, out: &mut [u8], written: &mut [u64]) -> u64;
    /// The reader of comma-separated text.
    fn csv_read(&self, text: &[u8], rows: &mut [u64], count: &mut [u64]) -> u64;
    /// The writer of folded stacks, with the project's list of names and the stock list.
    fn folded(
        &self,
        trace: &[u8],
        limits: Limits,
        lists: [&[u8]; 2],
        scratch: &mut [u64],
        out: &mut [u8],
        written: &mut [u64],
    ) -> u64;
    /// The compactor.
    fn compact(&self, trace: &[u8], limits: Limits, out: &mut [u8], written: &mut [u64]) -> u64;
    /// Why a line is not on the span.
    fn why(
        &self,
        trace: &[u8],
        limits: Limits,
        line: u32,
        scratch: &mut [u64],
        marks: &mut [u8],
        answer: &mut [u64],
    ) -> u64;
}

/// Which engines are asked: those of a family, or those with forecast entries.
#[derive(Clone, Copy)]
pub enum Asked<'a> {
    Family(Family),
    Forecast(&'a [Entry]),
}

impl<'a> Asked<'a> {
    /// The forecast entries, where it is a forecast.
    pub fn entries(self) -> Option<&'a [Entry]> {
        match self {
            Asked::Family(_) => None,
            Asked::Forecast(entries) => Some(entries),
        }
    }

    /// The table engine.
    pub fn tables(
        self,
        library: &dyn Library,
        trace: &[u8],
        limits: Limits,
        scratch: &mut [u64],
        rows: &mut [u64],
        answer: &mut [u64],
    ) -> u64 {
        match self {
            Asked::Family(family) => library.tables(family, trace, limits, scratch, rows, answer),
            Asked::Forecast(entries) => library.forecast_tables(trace, limits, entries, scratch, rows, answer),
        }
    }

    /// The marks engine.
    #[allow(clippy::too_many_arguments)]
    pub fn marks(
        self,
        library: &dyn Library,
        trace: &[u8],
        limits: Limits,
        scratch: &mut [u64],
        marks: &mut [u8],
        rows: &mut [u64],
        answer: &mut [u64],
    ) -> u64 {
        match self {
            Asked::Family(family) => library.marks(family, trace, limits, scratch, marks, rows, answer),
            Asked::Forecast(entries) => library.forecast_marks(trace, limits, entries, scratch, marks, rows, answer),
        }
    }
}

/// The second program, with the way in which it looks for chains.
#[derive(Clone, Copy)]
pub struct Second {
    pub search: fn(&Shape) -> Chains,
}

impl Second {
    /// By pairs of lines where the trace is short enough for it, otherwise by paths.
    pub fn new() -> Second {
        Second {
            search: |shape| if shape.lines.len() <= PAIRS_LINES { chain::search(shape) } else { graph::search(shape) },
        }
    }

    /// By paths always.
    pub fn by_paths() -> Second {
        Second { search: graph::search }
    }

    /// The profile of a trace of the base family, or its refusal.
    pub fn profile(&self, trace: &[u8], limits: Limits, lent: &Lent) -> Result<Profile, Refusal> {
        self.profile_of(Family::Base, trace, limits, lent)
    }

    /// The profile of a trace, or its refusal.
    pub fn profile_of(&self, family: Family, trace: &[u8], limits: Limits, lent: &Lent) -> Result<Profile, Refusal> {
        let shape = check::trace_of(family, trace, limits, lent)?;
        Ok(profile(&shape, &(self.search)(&shape)))
    }

    /// The profile of a trace rewritten by forecast entries, or the refusal: "The answer, rows and marks are proved equal to
    /// those of the trace rewritten so."
    pub fn forecast(&self, trace: &[u8], limits: Limits, entries: &[Entry], lent: &Lent) -> Result<Profile, Refusal> {
        self.profile(&forecast::rewritten(trace, limits, entries, lent)?, limits, lent)
    }

    /// Why a line of a trace is not on the span, with the marks, or the refusal.
    pub fn why(&self, trace: &[u8], limits: Limits, line: u32, lent: &why::Lent) -> Result<(Why, Vec<u8>), Refusal> {
        let shape = why::asked(trace, limits, line, lent)?;
        let (why, chain) = why::why(&shape, line as usize, self.search);
        Ok((why, marks(&shape, &chain)))
    }
}

impl Default for Second {
    fn default() -> Second {
        Second::new()
    }
}

impl Library for Second {
    fn tables(
        &self,
        family: Family,
        trace: &[u8],
        limits: Limits,
        scratch: &mut [u64],
        rows: &mut [u64],
        answer: &mut [u64],
    ) -> u64 {
        let lent = Lent { scratch: scratch.len(), rows: rows.len(), answer: answer.len(), marks: None };
        code(self.profile_of(family, trace, limits, &lent).map(|profile| fill(&profile, scratch, rows, answer)))
    }

    fn marks(
        &self,
        family: Family,
        trace: &[u8],
        limits: Limits,
        scratch: &mut [u64],
        marks: &mut [u8],
        rows: &mut [u64],
        answer: &mut [u64],
    ) -> u64 {
        let lent = Lent { scratch: scratch.len(), rows: rows.len(), answer: answer.len(), marks: Some(marks.len()) };
        code(self.profile_of(family, trace, limits, &lent).map(|profile| {
            fill(&profile, scratch, rows, answer);
            put(marks, &profile.marks);
        }))
    }

    fn forecast_tables(
        &self,
        trace: &[u8],
        limits: Limits,
        entries: &[Entry],
        scratch: &mut [u64],
        rows: &mut [u64],
        answer: &mut [u64],
    ) -> u64 {
        let lent = Lent { scratch: scratch.len(), rows: rows.len(), answer: answer.len(), marks: None };
        code(self.forecast(trace, limits, entries, &lent).map(|profile| fill(&profile, scratch, rows, answer)))
    }

    fn forecast_marks(
        &self,
        trace: &[u8],
        limits: Limits,
        entries: &[Entry],
        scratch: &mut [u64],
        marks: &mut [u8],
        rows: &mut [u64],
        answer: &mut [u64],
    ) -> u64 {
        let lent = Lent { scratch: scratch.len(), rows: rows.len(), answer: answer.len(), marks: Some(marks.len()) };
        code(self.forecast(trace, limits, entries, &lent).map(|profile| {
            fill(&profile, scratch, rows, answer);
            put(marks, &profile.marks);
        }))
    }

    fn read_line(&self, family: Family, line: &[u8], frame: &mut [u64]) -> u64 {
        if line.len() == CHARS && frame.len() < WIDTHS.len() {
            return code(Err(Ground::Room.at(0)));
        }
        at_0(family.read(line).map(|line| put(frame, &line.fields())))
    }

    fn write_line(&self, family: Family, frame: &[u64], out: &mut [u8], written: &mut [u64]) -> u64 {
        let (Some(fields), true, Some(count)) = (frame.first_chunk(), out.len() >= CHARS, written.first_mut()) else {
            return code(Err(Ground::Room.at(0)));
        };
        at_0(family.write(fields).map(|chars| {
            put(out, &chars);
            *count = chars.len() as u64;
        }))
    }

    fn report(&self, rows: &[u64], count: u64, out: &mut [u8], written: &mut [u64]) -> u64 {
        at_0(report::report(rows, count, out.len()).and_then(|text| put_text(&text, out, written)))
    }

    fn full_report(&self, rows: &[u64], count: u64, out: &mut [u8], written: &mut [u64]) -> u64 {
        at_0(report::full_report(rows, count, out.len()).and_then(|text| put_text(&text, out, written)))
    }

    fn refusal(&self, number: u64, line: u64, out: &mut [u8], written: &mut [u64]) -> u64 {
        at_0(report::refusal(number, line, out.len()).and_then(|text| put_text(&text, out, written)))
    }

    fn csv_write(&self, rows: &[u64], count: u64, out: &mut [u8], written: &mut [u64]) -> u64 {
        let text = sheet::write(rows, count, out.len(), written.len());
        at_0(text.and_then(|text| put_text(&text, out, written)))
    }

    fn csv_read(&self, text: &[u8], rows: &mut [u64], count: &mut [u64]) -> u64 {
        let Some(sites) = count.first_mut() else {
            return code(Err(Ground::Room.at(0)));
        };
        code(sheet::read(text, rows.len()).map(|numbers| {
            *sites = (numbers.len() / COLUMNS) as u64 - 1;
            put(rows, &numbers);
        }))
    }

    fn folded(
        &self,
        trace: &[u8],
        limits: Limits,
        lists: [&[u8]; 2],
        scratch: &mut [u64],
        out: &mut [u8],
        written: &mut [u64],
    ) -> u64 {
        let lent = folded::Lent { scratch: scratch.len(), out: out.len(), written: written.len() };
        code(folded::write(trace, limits, lists, lent).map(|text| {
            scratch.fill(0);
            put(out, text.as_bytes());
            written[0] = text.len() as u64;
        }))
    }

    fn compact(&self, trace: &[u8], limits: Limits, out: &mut [u8], written: &mut [u64]) -> u64 {
        let lent = compact::Lent { out: out.len(), written: written.len() };
        code(compact::write(trace, limits, lent).map(|text| {
            put(out, &text);
            written[0] = text.len() as u64;
        }))
    }

    fn why(
        &self,
        trace: &[u8],
        limits: Limits,
        line: u32,
        scratch: &mut [u64],
        marks: &mut [u8],
        answer: &mut [u64],
    ) -> u64 {
        let lent = why::Lent { scratch: scratch.len(), marks: marks.len(), answer: answer.len() };
        code(self.why(trace, limits, line, &lent).map(|(why, marked)| {
            scratch.fill(0);
            put(marks, &marked);
            put(answer, &why.numbers());
        }))
    }
}

/// The first seven numbers for each of sites+1 rows "hold the rows and the rest are unchanged. The whole scratch is zero."
fn fill(profile: &Profile, scratch: &mut [u64], rows: &mut [u64], answer: &mut [u64]) {
    scratch.fill(0);
    put(rows, profile.rows.as_flattened());
    put(answer, &profile.answer);
}

/// Text into lent room, and how many characters it has: "output beyond them is unchanged".
fn put_text(text: &str, out: &mut [u8], written: &mut [u64]) -> Result<(), Ground> {
    let count = written.first_mut().ok_or(Ground::Room)?;
    *count = text.len() as u64;
    put(out, text.as_bytes());
    Ok(())
}

/// Copies to the beginning of lent room.
fn put<T: Copy>(room: &mut [T], values: &[T]) {
    room[..values.len()].copy_from_slice(values);
}

/// 0 for accepted, otherwise number + 256 · line.
fn code(result: Result<(), Refusal>) -> u64 {
    result.map_or_else(|refusal| refusal.number() + 256 * refusal.line, |()| 0)
}

/// The code of what is refused with line 0.
fn at_0(result: Result<(), Ground>) -> u64 {
    code(result.map_err(|ground| ground.at(0)))
}

/// The proved library, if it is linked.
pub fn proved() -> Option<&'static dyn Library> {
    #[cfg(nyolifuwe)]
    return Some(&crate::sys::Proved);
    #[cfg(not(nyolifuwe))]
    None
}
