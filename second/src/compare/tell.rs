//! A case and a difference in words.

use super::case::{Case, CompactSpare, FoldedSpare, Outcome, Question, Room, Spare, STRIP};
use super::{moves, Difference};
use crate::forecast::Entry;
use crate::line::{Family, CHARS};
use crate::trace::events;
use std::fmt::{Display, Formatter, Result};

/// The most places of one lent slice that are told.
const MOST_PLACES: usize = 6;

impl Display for Difference {
    fn fmt(&self, f: &mut Formatter) -> Result {
        writeln!(f, "{}", self.case)?;
        writeln!(f, "the second program and {} differ:", self.name)?;
        differing(f, self.name, &self.expected, &self.found)?;
        self.broken.iter().try_for_each(|law| writeln!(f, "  {} does not keep to: {law}", self.name))
    }
}

impl Display for Case {
    fn fmt(&self, f: &mut Formatter) -> Result {
        match &self.question {
            Question::Engines { family, trace, limits, spare } => {
                writeln!(f, "{family}D = {}, M = {}{spare}", limits.depth, limits.sites)?;
                told_trace(f, trace)
            }
            Question::Forecast { trace, limits, entries, spare } => {
                writeln!(f, "forecast, D = {}, M = {}{spare}", limits.depth, limits.sites)?;
                writeln!(f, "entries, row/factor: {}", told_entries(entries))?;
                told_trace(f, trace)
            }
            Question::Moved { trace, limits, cost, value, spare } => {
                writeln!(f, "{}, D = {}, M = {}{spare}", told_move(trace, *cost, *value), limits.depth, limits.sites)?;
                told_trace(f, trace)
            }
            Question::ReadLine { family, line, frame } => {
                writeln!(f, "{family}read {}; frame of {frame}", shown(line))
            }
            Question::WriteLine { family, frame, out, written } => {
                writeln!(f, "{family}write {frame:x?}; output of {out}, count of {written}")
            }
            Question::Report { rows, count, full, out, written } => {
                let (given, room) = (rows.len(), format!("output of {out}, count of {written}"));
                let full = if *full { "full " } else { "" };
                writeln!(f, "{full}report of {count} sites from {given} row numbers; {room}\nrows: {rows:x?}")
            }
            Question::Refusal { number, line, out, written } => {
                writeln!(f, "print refusal {number} with line {line}; output of {out}, count of {written}")
            }
            Question::WriteSheet { rows, count, out, written } => {
                let (given, room) = (rows.len(), format!("output of {out}, count of {written}"));
                writeln!(f, "sheet of {count} sites from {given} row numbers; {room}\nrows: {rows:?}")
            }
            Question::ReadSheet { text, rows, count } => {
                writeln!(f, "read a sheet into {rows} row numbers, count of {count}:\n{}", text.escape_ascii())
            }
            Question::Folded { trace, limits, lists: [project, stock], spare } => {
                writeln!(f, "folded stacks, D = {}, M = {}{spare}", limits.depth, limits.sites)?;
                writeln!(f, "project's list: {}\nstock list: {}", project.escape_ascii(), stock.escape_ascii())?;
                told_trace(f, trace)
            }
            Question::Compact { trace, limits, spare } => {
                writeln!(f, "compact, D = {}, M = {}{spare}", limits.depth, limits.sites)?;
                told_trace(f, trace)
            }
            Question::Why { trace, limits, lines, spare } => {
                writeln!(f, "why, of lines {lines:?}, D = {}, M = {}{spare}", limits.depth, limits.sites)?;
                told_trace(f, trace)
            }
        }
    }
}

/// What comes before a question of the family.
impl Display for Family {
    fn fmt(&self, f: &mut Formatter) -> Result {
        f.write_str(match self {
            Family::Base => "",
            Family::Finishes => "asyncs and finishes: ",
        })
    }
}

impl Display for Spare {
    fn fmt(&self, f: &mut Formatter) -> Result {
        let Spare { scratch, rows, answer, marks } = *self;
        told_spares(f, &[("scratch", scratch), ("rows", rows), ("answer", answer), ("marks", marks)])
    }
}

impl Display for FoldedSpare {
    fn fmt(&self, f: &mut Formatter) -> Result {
        let FoldedSpare { scratch, out, written } = *self;
        told_spares(f, &[("scratch", scratch), ("output", out), ("count", written)])
    }
}

impl Display for CompactSpare {
    fn fmt(&self, f: &mut Formatter) -> Result {
        let CompactSpare { out, written } = *self;
        told_spares(f, &[("output", out), ("count", written)])
    }
}

/// What is lent beyond or below what is needed, each slice after a comma.
fn told_spares(f: &mut Formatter, spares: &[(&str, isize)]) -> Result {
    let mut told = spares.iter().filter(|(_, spare)| *spare != 0);
    told.try_for_each(|(name, spare)| write!(f, ", {name} {spare:+}"))
}

/// Which line is rewritten, and how.
fn told_move(trace: &[u8], cost: usize, value: u64) -> String {
    let moved = moves::costs(trace).get(cost).map(|(line, old)| format!("line {line} with {value} for {old}"));
    moved.unwrap_or("no line rewritten".into())
}

/// Forecast entries, one behind the other.
fn told_entries(entries: &[Entry]) -> String {
    let told: Vec<String> = entries.iter().map(|entry| format!("{}/{}", entry.row, entry.factor)).collect();
    if told.is_empty() {
        "none".into()
    } else {
        told.join(" ")
    }
}

/// A trace, line by line.
fn told_trace(f: &mut Formatter, trace: &[u8]) -> Result {
    writeln!(f, "a trace of {} characters{}:", trace.len(), told_events(trace))?;
    trace.chunks(CHARS).enumerate().try_for_each(|(n, line)| writeln!(f, "{n:6}  {}", shown(line)))
}

/// The events of a trace that is good and not too long to read.
fn told_events(trace: &[u8]) -> String {
    let short = events(trace).filter(|text| (1..200).contains(&text.len()));
    short.map_or(String::new(), |text| format!(" ({text})"))
}

/// Characters with the line feed at the end left out, and any other that cannot be seen escaped.
fn shown(chars: &[u8]) -> String {
    let line = chars.strip_suffix(b"\n").unwrap_or(chars);
    let missing = if line.len() == chars.len() { " (no line feed)" } else { "" };
    format!("{}{missing}", line.escape_ascii())
}

/// Everything in which two outcomes of one case differ.
fn differing(f: &mut Formatter, name: &str, expected: &Outcome, found: &Outcome) -> Result {
    for ((of, right), (_, other)) in expected.codes.iter().zip(&found.codes).filter(|(right, other)| right != other) {
        writeln!(f, "  {of}: second {}, {name} {}", verdict(*right), verdict(*other))?;
    }
    let mut bytes = expected.bytes.iter().zip(&found.bytes);
    bytes.try_for_each(|(right, other)| differing_room(f, name, right, other))?;
    let mut numbers = expected.numbers.iter().zip(&found.numbers);
    numbers.try_for_each(|(right, other)| differing_room(f, name, right, other))
}

/// The first places at which two rooms differ.
fn differing_room<T: PartialEq + Display>(f: &mut Formatter, name: &str, right: &Room<T>, other: &Room<T>) -> Result {
    let pairs = right.all.iter().zip(&other.all).enumerate();
    for (n, (right_value, other_value)) in pairs.filter(|(_, (a, b))| a != b).take(MOST_PLACES) {
        let place = n as isize - STRIP as isize;
        let outside = if n < STRIP || n >= right.all.len() - STRIP { " (not lent)" } else { "" };
        writeln!(f, "  {}, number {place}{outside}: second {right_value}, {name} {other_value}", right.name)?;
    }
    Ok(())
}

/// An answer code in words.
fn verdict(code: u64) -> String {
    match code {
        0 => "accepted".into(),
        _ => format!("refused {} at line {}", code % 256, code / 256),
    }
}
