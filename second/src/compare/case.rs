//! A case: what is asked, the room that is lent for it, and all that there is to see afterwards.

use super::rng::Rng;
use super::{compacts, moves};
use crate::check::{Lent, Limits};
use crate::compact;
use crate::folded;
use crate::forecast::Entry;
use crate::library::{Asked, Library};
use crate::line::{Family, CHARS};

/// Something to ask a program, and the seed of the rubbish that fills the lent room before.
#[derive(Clone, Debug, PartialEq, Eq)]
pub struct Case {
    pub question: Question,
    pub rubbish: u64,
}

/// What is asked, and how long the lent room is.
#[derive(Clone, Debug, PartialEq, Eq)]
pub enum Question {
    /// A trace of a family, for both engines.
    Engines { family: Family, trace: Vec<u8>, limits: Limits, spare: Spare },
    /// A trace and forecast entries, for both engines.
    Forecast { trace: Vec<u8>, limits: Limits, entries: Vec<Entry>, spare: Spare },
    /// A trace, one of whose costs, counted from 0, has another value, for both engines.
    Moved { trace: Vec<u8>, limits: Limits, cost: usize, value: u64, spare: Spare },
    /// Characters, for the line reader of a family.
    ReadLine { family: Family, line: Vec<u8>, frame: usize },
    /// A frame, for the line writer of a family.
    WriteLine { family: Family, frame: Vec<u64>, out: usize, written: usize },
    /// Rows, for the report writer, or for the writer of the full report.
    Report { rows: Vec<u64>, count: u64, full: bool, out: usize, written: usize },
    /// A number and a line, for the writer of a refusal.
    Refusal { number: u64, line: u64, out: usize, written: usize },
    /// Rows, for the writer of comma-separated text.
    WriteSheet { rows: Vec<u64>, count: u64, out: usize, written: usize },
    /// Characters, for the reader of comma-separated text.
    ReadSheet { text: Vec<u8>, rows: usize, count: usize },
    /// A trace, the project's list of names and the stock list, for the writer of folded stacks.
    Folded { trace: Vec<u8>, limits: Limits, lists: [Vec<u8>; 2], spare: FoldedSpare },
    /// A trace, for the compactor.
    Compact { trace: Vec<u8>, limits: Limits, spare: CompactSpare },
    /// A trace and line numbers, each asked by itself why it is not on the span; no rows are lent.
    Why { trace: Vec<u8>, limits: Limits, lines: Vec<u32>, spare: Spare },
}

/// How much more than needed is lent to the engines; less than needed where it is negative.
#[derive(Clone, Copy, Debug, Default, PartialEq, Eq)]
pub struct Spare {
    pub scratch: isize,
    pub rows: isize,
    pub answer: isize,
    pub marks: isize,
}

/// How much more than needed is lent to the writer of folded stacks; less than needed where it is negative.
#[derive(Clone, Copy, Debug, Default, PartialEq, Eq)]
pub struct FoldedSpare {
    pub scratch: isize,
    pub out: isize,
    pub written: isize,
}

/// How much more than needed is lent to the compactor; less than needed where it is negative.
#[derive(Clone, Copy, Debug, Default, PartialEq, Eq)]
pub struct CompactSpare {
    pub out: isize,
    pub written: isize,
}

/// All that there is to see after a case: every answer, and everything lent with what lies around it.
#[derive(Clone, Debug, Default, PartialEq, Eq)]
pub struct Outcome {
    pub codes: Vec<(&'static str, u64)>,
    pub bytes: Vec<Room<u8>>,
    pub numbers: Vec<Room<u64>>,
}

/// Lent room between two strips that are not lent.
#[derive(Clone, Debug, PartialEq, Eq)]
pub struct Room<T> {
    pub name: &'static str,
    pub all: Vec<T>,
}

/// The length of the strip on each side of lent room.
pub const STRIP: usize = 4;

impl Case {
    /// The family of what is asked.
    pub fn family(&self) -> Family {
        match self.question {
            Question::Engines { family, .. }
            | Question::ReadLine { family, .. }
            | Question::WriteLine { family, .. } => family,
            _ => Family::Base,
        }
    }

    /// What a program makes of this case.
    pub fn ask(&self, library: &dyn Library) -> Outcome {
        let mut lender = Lender(Rng::new(self.rubbish));
        match &self.question {
            Question::Engines { family, trace, limits, spare } => {
                lender.engines(library, Asked::Family(*family), trace, *limits, *spare)
            }
            Question::Forecast { trace, limits, entries, spare } => {
                lender.engines(library, Asked::Forecast(entries), trace, *limits, *spare)
            }
            Question::Moved { trace, limits, cost, value, spare } => {
                let trace = moves::rewritten(library, trace, *cost, *value);
                lender.engines(library, Asked::Family(Family::Base), &trace, *limits, *spare)
            }
            Question::ReadLine { family, line, frame } => lender.read_line(library, *family, line, *frame),
            Question::WriteLine { family, frame, out, written } => {
                lender.write_line(library, *family, frame, [*out, *written])
            }
            Question::Report { rows, count, full, out, written } => {
                lender.report(library, rows, *count, *full, [*out, *written])
            }
            Question::Refusal { number, line, out, written } => {
                lender.refusal(library, [*number, *line], [*out, *written])
            }
            Question::WriteSheet { rows, count, out, written } => {
                lender.write_sheet(library, rows, *count, [*out, *written])
            }
            Question::ReadSheet { text, rows, count } => lender.read_sheet(library, text, [*rows, *count]),
            Question::Folded { trace, limits, lists, spare } => lender.folded(library, trace, *limits, lists, *spare),
            Question::Compact { trace, limits, spare } => lender.compact(library, trace, *limits, *spare),
            Question::Why { trace, limits, lines, spare } => lender.why(library, trace, *limits, lines, *spare),
        }
    }
}

impl Outcome {
    /// The numbers that were lent under a name.
    pub fn numbers_of(&self, name: &str) -> Option<&[u64]> {
        self.numbers.iter().find(|room| room.name == name).map(Room::inside)
    }

    /// The bytes that were lent under a name.
    pub fn bytes_of(&self, name: &str) -> Option<&[u8]> {
        self.bytes.iter().find(|room| room.name == name).map(Room::inside)
    }
}

/// Lends room full of rubbish, the same for the same seed.
struct Lender(Rng);

impl Lender {
    /// Both engines on a trace.
    fn engines(&mut self, library: &dyn Library, asked: Asked, trace: &[u8], limits: Limits, spare: Spare) -> Outcome {
        let near = limits.nearest();
        let mut outcome = self.tables(library, asked, trace, limits, spare.over(near.for_tables()));
        let marks = self.marks(library, asked, trace, limits, spare.over(near.for_marks(trace.len() / CHARS)));
        outcome.codes.extend(marks.codes);
        outcome.bytes.extend(marks.bytes);
        outcome.numbers.extend(marks.numbers);
        outcome
    }

    fn tables(&mut self, library: &dyn Library, asked: Asked, trace: &[u8], limits: Limits, lent: Lent) -> Outcome {
        let mut trace = self.bytes("table engine's trace", trace.len()).holding(trace);
        let mut scratch = self.numbers("table engine's scratch", lent.scratch);
        let mut rows = self.numbers("table engine's rows", lent.rows);
        let mut answer = self.numbers("table engine's answer", lent.answer);
        let listed = asked.entries().map(|entries| Listed::holding("table engine's entries", entries));
        let asked = listed.as_ref().map_or(asked, |listed| Asked::Forecast(listed.lent()));
        let code = asked.tables(library, trace.lent(), limits, scratch.lent(), rows.lent(), answer.lent());
        let numbers = [answer, rows, scratch].into_iter().chain(listed.map(Listed::seen)).collect();
        Outcome { codes: vec![("table engine", code)], bytes: vec![trace], numbers }
    }

    fn marks(&mut self, library: &dyn Library, asked: Asked, trace: &[u8], limits: Limits, lent: Lent) -> Outcome {
        let mut trace = self.bytes("marks engine's trace", trace.len()).holding(trace);
        let mut scratch = self.numbers("marks engine's scratch", lent.scratch);
        let mut marks = self.bytes("marks engine's marks", lent.marks.unwrap_or(0));
        let mut rows = self.numbers("marks engine's rows", lent.rows);
        let mut answer = self.numbers("marks engine's answer", lent.answer);
        let listed = asked.entries().map(|entries| Listed::holding("marks engine's entries", entries));
        let asked = listed.as_ref().map_or(asked, |listed| Asked::Forecast(listed.lent()));
        let (scratch_lent, marks_lent) = (scratch.lent(), marks.lent());
        let code = asked.marks(library, trace.lent(), limits, scratch_lent, marks_lent, rows.lent(), answer.lent());
        let numbers = [answer, rows, scratch].into_iter().chain(listed.map(Listed::seen)).collect();
        Outcome { codes: vec![("marks engine", code)], bytes: vec![trace, marks], numbers }
    }

    fn read_line(&mut self, library: &dyn Library, family: Family, line: &[u8], frame: usize) -> Outcome {
        let mut line = self.bytes("line", line.len()).holding(line);
        let mut frame = self.numbers("frame", frame);
        let code = library.read_line(family, line.lent(), frame.lent());
        Outcome { codes: vec![("line reader", code)], bytes: vec![line], numbers: vec![frame] }
    }

    fn write_line(
        &mut self,
        library: &dyn Library,
        family: Family,
        frame: &[u64],
        [out, written]: [usize; 2],
    ) -> Outcome {
        let mut frame = self.numbers("frame", frame.len()).holding(frame);
        let mut out = self.bytes("output", out);
        let mut written = self.numbers("count of characters", written);
        let code = library.write_line(family, frame.lent(), out.lent(), written.lent());
        Outcome { codes: vec![("line writer", code)], bytes: vec![out], numbers: vec![frame, written] }
    }

    fn report(
        &mut self,
        library: &dyn Library,
        rows: &[u64],
        count: u64,
        full: bool,
        [out, written]: [usize; 2],
    ) -> Outcome {
        let mut rows = self.numbers("rows", rows.len()).holding(rows);
        let mut out = self.bytes("output", out);
        let mut written = self.numbers("count of characters", written);
        let (name, code) = if full {
            ("writer of the full report", library.full_report(rows.lent(), count, out.lent(), written.lent()))
        } else {
            ("report writer", library.report(rows.lent(), count, out.lent(), written.lent()))
        };
        Outcome { codes: vec![(name, code)], bytes: vec![out], numbers: vec![rows, written] }
    }

    fn refusal(&mut self, library: &dyn Library, [number, line]: [u64; 2], [out, written]: [usize; 2]) -> Outcome {
        let mut out = self.bytes("output", out);
        let mut written = self.numbers("count of characters", written);
        let code = library.refusal(number, line, out.lent(), written.lent());
        Outcome { codes: vec![("writer of a refusal", code)], bytes: vec![out], numbers: vec![written] }
    }

    fn write_sheet(&mut self, library: &dyn Library, rows: &[u64], count: u64, [out, written]: [usize; 2]) -> Outcome {
        let mut rows = self.numbers("rows", rows.len()).holding(rows);
        let mut out = self.bytes("output", out);
        let mut written = self.numbers("count of characters", written);
        let code = library.csv_write(rows.lent(), count, out.lent(), written.lent());
        Outcome { codes: vec![("sheet writer", code)], bytes: vec![out], numbers: vec![rows, written] }
    }

    fn read_sheet(&mut self, library: &dyn Library, text: &[u8], [rows, count]: [usize; 2]) -> Outcome {
        let mut text = self.bytes("text", text.len()).holding(text);
        let mut rows = self.numbers("rows", rows);
        let mut count = self.numbers("count of sites", count);
        let code = library.csv_read(text.lent(), rows.lent(), count.lent());
        Outcome { codes: vec![("sheet reader", code)], bytes: vec![text], numbers: vec![rows, count] }
    }

    fn folded(
        &mut self,
        library: &dyn Library,
        trace: &[u8],
        limits: Limits,
        [project, stock]: &[Vec<u8>; 2],
        spare: FoldedSpare,
    ) -> Outcome {
        let lent = spare.over(trace, limits, [project, stock]);
        let mut trace = self.bytes("trace", trace.len()).holding(trace);
        let mut project = self.bytes("project's list", project.len()).holding(project);
        let mut stock = self.bytes("stock list", stock.len()).holding(stock);
        let mut scratch = self.numbers("scratch", lent.scratch);
        let mut out = self.bytes("output", lent.out);
        let mut written = self.numbers("count of characters", lent.written);
        let lists: [&[u8]; 2] = [project.lent(), stock.lent()];
        let code = library.folded(trace.lent(), limits, lists, scratch.lent(), out.lent(), written.lent());
        let bytes = vec![out, trace, project, stock];
        Outcome { codes: vec![("writer of folded stacks", code)], bytes, numbers: vec![scratch, written] }
    }

    /// What the compactor makes of a trace, and of what is accepted which laws hold.
    fn compact(&mut self, library: &dyn Library, trace: &[u8], limits: Limits, spare: CompactSpare) -> Outcome {
        let lent = spare.over(trace, limits);
        let mut lines = self.bytes("trace", trace.len()).holding(trace);
        let mut out = self.bytes("output", lent.out);
        let mut written = self.numbers("count of characters", lent.written);
        let code = library.compact(lines.lent(), limits, out.lent(), written.lent());
        let mut numbers = vec![];
        if let (0, [count, ..]) = (code, &*written.lent()) {
            let text = out.lent().get(..*count as usize).unwrap_or_default();
            numbers = compacts::laws(library, trace, limits, text);
        }
        numbers.push(written);
        Outcome { codes: vec![("compactor", code)], bytes: vec![out, lines], numbers }
    }

    /// What is said of each of some lines, in rooms of its own.
    fn why(&mut self, library: &dyn Library, trace: &[u8], limits: Limits, lines: &[u32], spare: Spare) -> Outcome {
        let need = limits.nearest().for_why(trace.len() / CHARS);
        let mut outcome = Outcome::default();
        for &line in lines {
            let mut trace = self.bytes("trace", trace.len()).holding(trace);
            let mut scratch = self.numbers("scratch", need.scratch.saturating_add_signed(spare.scratch));
            let mut marks = self.bytes("marks", need.marks.saturating_add_signed(spare.marks));
            let mut answer = self.numbers("answer", need.answer.saturating_add_signed(spare.answer));
            let code = library.why(trace.lent(), limits, line, scratch.lent(), marks.lent(), answer.lent());
            outcome.codes.push(("why", code));
            outcome.bytes.extend([marks, trace]);
            outcome.numbers.extend([answer, scratch]);
        }
        outcome
    }

    fn bytes(&mut self, name: &'static str, length: usize) -> Room<u8> {
        Room { name, all: (0..length + 2 * STRIP).map(|_| self.0.number() as u8).collect() }
    }

    fn numbers(&mut self, name: &'static str, length: usize) -> Room<u64> {
        Room { name, all: (0..length + 2 * STRIP).map(|_| self.0.number()).collect() }
    }
}

impl<T: Copy> Room<T> {
    /// The part between the strips.
    fn lent(&mut self) -> &mut [T] {
        let end = self.all.len() - STRIP;
        &mut self.all[STRIP..end]
    }

    /// The same, to be looked at.
    fn inside(&self) -> &[T] {
        &self.all[STRIP..self.all.len() - STRIP]
    }

    /// This room with something in place of the rubbish.
    fn holding(mut self, contents: &[T]) -> Room<T> {
        self.lent().copy_from_slice(contents);
        self
    }
}

/// Forecast entries between two strips of rubbish that is always the same, so that it moves no other.
struct Listed {
    name: &'static str,
    all: Vec<Entry>,
}

impl Listed {
    fn holding(name: &'static str, entries: &[Entry]) -> Listed {
        let mut rng = Rng::new(0);
        let mut strip = || (0..STRIP).map(|_| Entry { row: rng.number(), factor: rng.number() }).collect::<Vec<_>>();
        Listed { name, all: [&strip(), entries, &strip()].concat() }
    }

    fn lent(&self) -> &[Entry] {
        &self.all[STRIP..self.all.len() - STRIP]
    }

    /// The entries as numbers, row and factor in turn.
    fn seen(self) -> Room<u64> {
        Room { name: self.name, all: self.all.iter().flat_map(|entry| [entry.row, entry.factor]).collect() }
    }
}

impl Limits {
    /// The nearest limits that are in range: room is lent for these where a limit is refused.
    fn nearest(self) -> Limits {
        Limits { depth: self.depth.clamp(1, 64), sites: self.sites.min(255) }
    }
}

impl Spare {
    /// The lengths to lend where these are needed.
    fn over(self, need: Lent) -> Lent {
        Lent {
            scratch: need.scratch.saturating_add_signed(self.scratch),
            rows: need.rows.saturating_add_signed(self.rows),
            answer: need.answer.saturating_add_signed(self.answer),
            marks: need.marks.map(|marks| marks.saturating_add_signed(self.marks)),
        }
    }
}

impl FoldedSpare {
    /// The lengths to lend for a trace with two lists; where it is refused no text is needed.
    fn over(self, trace: &[u8], limits: Limits, lists: [&[u8]; 2]) -> folded::Lent {
        let text = folded::write(trace, limits, lists, folded::Lent::ALL).map_or(0, |text| text.len());
        folded::Lent {
            scratch: (limits.nearest().depth as usize).saturating_add_signed(self.scratch),
            out: text.saturating_add_signed(self.out),
            written: 1_usize.saturating_add_signed(self.written),
        }
    }
}

impl CompactSpare {
    /// The lengths to lend for a trace; where it is refused no text is needed.
    fn over(self, trace: &[u8], limits: Limits) -> compact::Lent {
        let text = compact::write(trace, limits, compact::Lent::ALL).map_or(0, |text| text.len());
        compact::Lent {
            out: text.saturating_add_signed(self.out),
            written: 1_usize.saturating_add_signed(self.written),
        }
    }
}
