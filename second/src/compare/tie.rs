//! The tie between the families: a trace of spawns and syncs in the words of asyncs and finishes, and that its profile
//! is the same: asked of one program alone.

use super::case::{Case, Outcome, Question};
use crate::check::{Limits, MOST_LINES};
use crate::library::Library;
use crate::line::{read, Family, Kind, CHARS};
use crate::rows::COLUMNS;
use crate::trace::Trace;
use std::fmt::{Display, Formatter, Result};

/// The most that may be open.
const MOST_DEPTH: usize = 64;

/// What becomes of a good trace of the base family.
#[derive(Clone, Debug, PartialEq, Eq)]
pub enum Tied {
    Text(Vec<u8>),
    TooDeep,
    TooLong,
}

/// A good trace of the base family in the words of the other: an async for each spawn and a finish around every stretch
/// of a body between its syncs; what a return joins is joined by the end of the last.
pub fn tied(trace: &[u8]) -> Tied {
    let mut text = Trace::default();
    text.finish();
    let (mut open, mut depth) = (1_usize, 1);
    for chars in trace.chunks(CHARS) {
        let line = read(chars).expect("a good line");
        match line.kind {
            Kind::Call => _ = text.call(line.site).finish(),
            Kind::Spawn => _ = text.begin(line.site).finish(),
            Kind::Sync => _ = text.leave().finish(),
            Kind::Return => _ = text.leave().leave(),
            _ => text.chars.extend(chars),
        }
        open += usize::from(line.kind.opens());
        depth = depth.max(open);
        open -= usize::from(line.kind == Kind::Return);
    }
    // Each open invocation has one of its finishes open.
    match text.lines() {
        _ if 2 * depth > MOST_DEPTH => Tied::TooDeep,
        lines if lines > MOST_LINES => Tied::TooLong,
        _ => Tied::Text(text.chars),
    }
}

/// How many accepted traces of the base family were tied to the other one, and how many did not fit.
#[derive(Clone, Copy, Debug, Default, PartialEq, Eq)]
pub struct Tally {
    pub tied: u64,
    pub too_deep: u64,
    pub too_long: u64,
}

impl Display for Tally {
    fn fmt(&self, f: &mut Formatter) -> Result {
        let Tally { tied, too_deep, too_long } = self;
        write!(f, "{tied} traces in the words of the other family, {too_deep} too deep for it, {too_long} too long")
    }
}

impl Tally {
    /// Counts a case, where it is such a trace.
    pub fn count(&mut self, case: &Case, library: &dyn Library) {
        match of(case, &case.ask(library)) {
            Some(Tied::Text(_)) => self.tied += 1,
            Some(Tied::TooDeep) => self.too_deep += 1,
            Some(Tied::TooLong) => self.too_long += 1,
            None => (),
        }
    }
}

/// What becomes of the trace of a case, where both engines accept it.
fn of(case: &Case, outcome: &Outcome) -> Option<Tied> {
    let Question::Engines { family: Family::Base, trace, .. } = &case.question else { return None };
    outcome.codes.iter().all(|(_, code)| *code == 0).then(|| tied(trace))
}

/// The laws that a program does not keep on a case; none where the case is no trace of the base family, or is refused,
/// or does not fit, or where the program does not know the other family.
pub fn broken(case: &Case, library: &dyn Library) -> Vec<&'static str> {
    let Question::Engines { family: Family::Base, trace, limits, spare } = &case.question else { return vec![] };
    let outcome = case.ask(library);
    let Some(Tied::Text(text)) = of(case, &outcome).filter(|_| library.knows(Family::Finishes)) else { return vec![] };
    let deep = Limits { depth: MOST_DEPTH as u64, ..*limits };
    let question = Question::Engines { family: Family::Finishes, trace: text.clone(), limits: deep, spare: *spare };
    let other = Case { question, rubbish: case.rubbish }.ask(library);
    let same = Seen::of(trace, &outcome).zip(Seen::of(&text, &other)).is_some_and(|(own, other)| own == other);
    if same {
        vec![]
    } else {
        vec!["in the words of the other family rows, work, span and the marks of costs are the same"]
    }
}

/// What both engines say of an accepted trace: total work, total span and sites, the rows, and the marks of its costs.
#[derive(PartialEq)]
struct Seen {
    totals: [[u64; 3]; 2],
    rows: [Vec<u64>; 2],
    marks: Vec<u8>,
}

impl Seen {
    fn of(trace: &[u8], outcome: &Outcome) -> Option<Seen> {
        let engine = |answer: &str, rows: &str| {
            let totals: [u64; 3] = *outcome.numbers_of(answer)?.first_chunk()?;
            let written = COLUMNS * (totals[2].min(255) as usize + 1);
            Some((totals, outcome.numbers_of(rows)?.get(..written)?.to_vec()))
        };
        let tables = engine("table engine's answer", "table engine's rows")?;
        let marked = engine("marks engine's answer", "marks engine's rows")?;
        let marks = trace.chunks(CHARS).zip(outcome.bytes_of("marks engine's marks")?);
        let marks = marks.filter(|(line, _)| line.starts_with(b"06")).map(|(_, mark)| *mark).collect();
        let accepted = outcome.codes.iter().all(|(_, code)| *code == 0);
        accepted.then_some(Seen { totals: [tables.0, marked.0], rows: [tables.1, marked.1], marks })
    }
}

#[cfg(test)]
mod tests {
    use super::*;
    use crate::trace::events;

    /// The events of a trace of two sites in the words of the other family.
    fn of(text: &str) -> String {
        match tied(&Trace::from_events(2, text).chars) {
            Tied::Text(chars) => events(&chars).expect("good lines").replace("site 1, site 2, ", ""),
            other => panic!("{other:?}"),
        }
    }

    #[test]
    fn every_stretch_is_a_finish() {
        assert_eq!(of("1, sync"), "finish {1}, finish {}");
        assert_eq!(of("spawn 1 {4}, sync, 4"), "finish {async 1 {finish {4}}}, finish {4}");
        assert_eq!(of("call 1 {sync, 3 with 2}, 1"), "finish {call 1 {finish {}, finish {3 with 2}}, 1}");
    }

    #[test]
    fn what_does_not_fit_is_told() {
        let deep = |depth: usize| "call 1 {".repeat(depth - 1) + &"}".repeat(depth - 1);
        assert!(matches!(tied(&Trace::from_events(1, &deep(32)).chars), Tied::Text(_)));
        assert_eq!(tied(&Trace::from_events(1, &deep(33)).chars), Tied::TooDeep);
        assert!(matches!(tied(&Trace::from_events(0, &"1, ".repeat(MOST_LINES - 3)).chars), Tied::Text(_)));
        assert_eq!(tied(&Trace::from_events(0, &"1, ".repeat(MOST_LINES - 2)).chars), Tied::TooLong);
    }
}
