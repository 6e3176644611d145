//! The answer, the rows and the marks of an accepted trace.

use crate::chain::Chains;
use crate::shape::Shape;

/// "Five numbers a row, in this order": calls, work, span, local, on span; and "two numbers at the end, instructions local and
/// on span, so rows are seven long".
pub type Row = [u64; COLUMNS];

/// How many they are.
pub const COLUMNS: usize = 7;

/// Which number of its row each is.
pub const CALLS: usize = 0;
pub const WORK: usize = 1;
pub const SPAN: usize = 2;
pub const LOCAL: usize = 3;
pub const ON_SPAN: usize = 4;
pub const ILOCAL: usize = 5;
pub const ION_SPAN: usize = 6;

/// The numbers of a row that speak of calls and cycles.
pub type Cycles = [u64; ILOCAL];

/// The row of a trace in which no 07 line stands: its instructions are zero.
pub const fn cycles_alone([calls, work, span, local, on_span]: Cycles) -> Row {
    [calls, work, span, local, on_span, 0, 0]
}

/// The same of all rows.
pub fn all_cycles_alone(rows: &[Cycles]) -> Vec<Row> {
    rows.iter().copied().map(cycles_alone).collect()
}

/// All that is said of an accepted trace.
#[derive(Clone, Debug, PartialEq, Eq)]
pub struct Profile {
    /// "total work, total span, number of sites, number of lines"
    pub answer: [u64; 4],
    /// "Row 0 is the root, row s is site s."
    pub rows: Vec<Row>,
    /// "A mark is 1 for a line on the chosen chain, 0 for any other."
    pub marks: Vec<u8>,
}

/// The profile of a trace whose chains are known.
pub fn profile(shape: &Shape, chains: &Chains) -> Profile {
    let marks = marks(shape, &chains.chosen);
    let work = shape.work(0..shape.lines.len());
    let answer = [work, chains.spans[0], shape.sites as u64, shape.lines.len() as u64];
    Profile { answer, rows: rows(shape, &chains.spans, &marks), marks }
}

/// The marks of a trace where these lines are marked.
pub fn marks(shape: &Shape, marked: &[usize]) -> Vec<u8> {
    let mut marks = vec![0; shape.lines.len()];
    marked.iter().for_each(|&line| marks[line] = 1);
    marks
}

/// "Columns 2 and 3 from now on count only invocations with no enclosing invocation from the same site. Calls, local and on
/// span still count all." "Cycles and instructions are separate measures": each has its own local and its own on span, over the
/// same cost lines, "The chain is still chosen by cycles."
fn rows(shape: &Shape, spans: &[u64], marks: &[u8]) -> Vec<Row> {
    let mut rows = vec![[0; COLUMNS]; shape.sites + 1];
    for (invocation, span) in shape.invocations.iter().zip(spans) {
        let row = &mut rows[invocation.row];
        row[CALLS] += 1;
        if shape.outermost(invocation) {
            row[WORK] += shape.work(invocation.range());
            row[SPAN] += span;
        }
    }
    for line in 0..shape.lines.len() {
        let row = &mut rows[shape.invocation_of(line).row];
        row[LOCAL] += shape.lines[line].cost();
        row[ON_SPAN] += u64::from(marks[line]) * shape.lines[line].cost();
        row[ILOCAL] += shape.instructions(line);
        row[ION_SPAN] += u64::from(marks[line]) * shape.instructions(line);
    }
    rows
}
