//! 07 lines in traces: put in behind costs and left out again, what can be wrong with them, and what holds of the instructions
//! of every accepted trace: asked of one program alone.

use super::case::{Case, Outcome, Question};
use super::damage::any_line;
use super::rng::Rng;
use crate::check::{self, MOST_LINES};
use crate::library::Library;
use crate::line::{chars, Kind, CHARS};
use crate::rows::{COLUMNS, ILOCAL, ION_SPAN, LOCAL, ON_SPAN};
use crate::shape::Shape;

/// A trace with 07 lines put in: behind each cost line for whose number a value is given, a line that carries it.
pub fn put_in(trace: &[u8], mut carried: impl FnMut(usize) -> Option<u64>) -> Vec<u8> {
    let mut with = Vec::with_capacity(2 * trace.len());
    for (number, line) in trace.chunks(CHARS).enumerate() {
        with.extend(line);
        let value = if line.starts_with(b"06") { carried(number) } else { None };
        with.extend(value.into_iter().flat_map(|value| chars(&[Kind::Instructions.number(), 0, value, 0, 0])));
    }
    with
}

/// A trace without its 07 lines.
pub fn left_out(trace: &[u8]) -> Vec<u8> {
    trace.chunks(CHARS).filter(|line| !carries(line)).collect::<Vec<_>>().concat()
}

fn carries(line: &[u8]) -> bool {
    line.starts_with(b"07")
}

/// Damages the 07 lines of a trace, or puts one in where none may stand.
pub fn damage(rng: &mut Rng, trace: &mut Vec<u8>) {
    let lines = trace.chunks_exact(CHARS).enumerate();
    let own: Vec<usize> = lines.filter(|(_, line)| carries(line)).map(|(number, _)| number).collect();
    let line = if own.is_empty() { any_line(rng, trace).map(|line| line.start / CHARS) } else { Some(rng.pick(&own)) };
    let Some(start) = line.map(|line| line * CHARS) else { return };
    let another = chars(&[Kind::Instructions.number(), 0, rng.between(0, 3), 0, 0]);
    match rng.below(6) {
        0 => trace[start..start + 2].copy_from_slice(b"07"),
        1 => trace[start..][..CHARS].copy_from_slice(&another),
        2 if start > 0 => trace[start - CHARS..start + CHARS].rotate_left(CHARS),
        3 => trace.splice(start..start, *b"0400000000000000000000\n").for_each(drop),
        4 => trace.extend(another),
        _ => trace.splice(start + CHARS..start + CHARS, another).for_each(drop),
    }
}

/// The laws that a program does not keep on a case; none where the case is no trace for the engines, or is refused.
pub fn broken(case: &Case, library: &dyn Library) -> Vec<&'static str> {
    let Question::Engines { family, trace, limits, .. } = &case.question else { return vec![] };
    let outcome = case.ask(library);
    let shape = check::trace_of(*family, trace, *limits, &limits.for_tables()).ok();
    let Some(shape) = shape.filter(|_| outcome.codes.iter().all(|(_, code)| *code == 0)) else { return vec![] };
    let mut laws = sums(&shape, &outcome).unwrap_or(vec![("rows and marks are there", false)]);
    laws.extend(beside(case, library, &outcome).unwrap_or_default());
    laws.into_iter().filter(|(_, holds)| !holds).map(|(law, _)| law).collect()
}

/// "Demand 3's sums hold for instructions by row": what the marks say of each measure, row by row.
fn sums(shape: &Shape, outcome: &Outcome) -> Option<Vec<(&'static str, bool)>> {
    let marks = outcome.bytes_of("marks engine's marks")?.get(..shape.lines.len())?;
    let written = COLUMNS * (shape.sites + 1);
    let rows = ["table engine's rows", "marks engine's rows"].map(|name| outcome.numbers_of(name)?.get(..written));
    let [tables, marked] = [rows[0]?, rows[1]?];
    let adds_up = |column: usize, of: &dyn Fn(usize) -> u64| {
        let mut sums = vec![0; shape.sites + 1];
        (0..shape.lines.len()).for_each(|line| sums[shape.invocation_of(line).row] += of(line));
        [tables, marked].iter().all(|rows| rows.iter().skip(column).step_by(COLUMNS).eq(&sums))
    };
    let (cycles, instructions) = (|line: usize| shape.lines[line].cost(), |line: usize| shape.instructions(line));
    let on = |line: usize| u64::from(marks[line]);
    Some(vec![
        ("the costs directly in a row add up to column 4", adds_up(LOCAL, &cycles)),
        ("the costs of its marked lines add up to column 5", adds_up(ON_SPAN, &|line| on(line) * cycles(line))),
        ("the instructions directly in a row add up to column 6", adds_up(ILOCAL, &instructions)),
        (
            "the instructions of its marked lines add up to column 7",
            adds_up(ION_SPAN, &|line| on(line) * instructions(line)),
        ),
        ("no line but a cost is marked", (0..marks.len()).all(|line| marks[line] == 0 || cycles(line) > 0)),
    ])
}

/// The trace beside the same without its 07 lines; where it has none, beside the same with one behind each cost, unless that
/// is too long.
fn beside(case: &Case, library: &dyn Library, outcome: &Outcome) -> Option<Vec<(&'static str, bool)>> {
    let Question::Engines { family, trace, limits, spare } = &case.question else { return None };
    let without = left_out(trace);
    let other = if without == *trace { put_in(trace, |line| Some(line as u64 + 1)) } else { without };
    if other.len() > MOST_LINES * CHARS {
        return None;
    }
    let question = Question::Engines { family: *family, trace: other.clone(), limits: *limits, spare: *spare };
    let found = Case { question, rubbish: case.rubbish }.ask(library);
    let (own, others) = (Seen::all(trace, outcome), Seen::all(&other, &found));
    let bare = if other.len() < trace.len() { &others } else { &own };
    let idle = bare.iter().flatten().all(|seen| seen.instructions.iter().all(|number| *number == 0));
    Some(vec![
        ("07 lines change no cycles, no answer but the number of lines, and no other line's mark", own == others),
        ("without 07 lines there are no instructions", idle),
    ])
}

/// What an engine says of a trace without a word on 07 lines, and apart from it the instructions of each row.
struct Seen {
    totals: [u64; 3],
    cycles: Vec<u64>,
    marks: Vec<u8>,
    instructions: Vec<u64>,
}

impl PartialEq for Seen {
    fn eq(&self, other: &Seen) -> bool {
        self.totals == other.totals && self.cycles == other.cycles && self.marks == other.marks
    }
}

impl Seen {
    /// What both engines say; nothing of one that refuses, or whose answer tells of more than there is.
    fn all(trace: &[u8], outcome: &Outcome) -> [Option<Seen>; 2] {
        let tables = Seen::of("table engine's answer", "table engine's rows", vec![], outcome);
        let lines = trace.chunks(CHARS).zip(outcome.bytes_of("marks engine's marks").unwrap_or_default());
        let marks = lines.filter(|(line, _)| !carries(line)).map(|(_, mark)| *mark).collect();
        let marked = Seen::of("marks engine's answer", "marks engine's rows", marks, outcome);
        let accepted = outcome.codes.iter().all(|(_, code)| *code == 0);
        [tables, marked].map(|seen| seen.filter(|_| accepted))
    }

    fn of(answer: &str, rows: &str, marks: Vec<u8>, outcome: &Outcome) -> Option<Seen> {
        let totals: [u64; 3] = *outcome.numbers_of(answer)?.first_chunk()?;
        let rows = outcome.numbers_of(rows)?.get(..COLUMNS * (totals[2].min(255) as usize + 1))?;
        let (cycles, instructions): (Vec<_>, Vec<_>) =
            rows.chunks(COLUMNS).map(|row| (row[..ILOCAL].to_vec(), row[ILOCAL..].to_vec())).unzip();
        Some(Seen { totals, cycles: cycles.concat(), marks, instructions: instructions.concat() })
    }
}

#[cfg(test)]
mod tests {
    use super::*;
    use crate::trace::{events, Trace};

    #[test]
    fn a_07_line_stands_directly_behind_its_cost() {
        let text = "5, spawn 1 {3}, sync, 4";
        let trace = Trace::from_events(1, text).chars;
        let with = put_in(&trace, |line| (line != 3).then_some(line as u64));
        assert_eq!(events(&with).as_deref(), Some("5 with 1, spawn 1 {3}, sync, 4 with 6"));
        assert_eq!(left_out(&with), trace);
    }
}
