//! Why a line is not on the span: request m's sentences one by one.

use crate::chain::Chains;
use crate::check::{self, Limits};
use crate::heaviest::through;
use crate::line::Kind;
use crate::refusal::{Ground, Refusal};
use crate::shape::Shape;

/// "Given a line number, answer one of four".
#[derive(Clone, Copy, Debug, PartialEq, Eq)]
pub enum Why {
    /// "not a cost line"
    NotCost,
    /// "on the chosen chain"
    OnChain,
    /// "slack n, where the heaviest chain through it weighs n less than the span, n at least 1"
    Slack(u64),
    /// "tied, with the smallest line that is on the chosen chain and not on the first of the heaviest chains through the asked
    /// line"
    Tied(usize),
}

/// How many numbers an answer is in the C interface: the case from 0 on in that order, and n or the line, otherwise 0.
pub const ANSWER: usize = 2;

/// The lengths of what the caller lends beside the trace: "The room is the marks engine's, without rows."
#[derive(Clone, Copy, Debug, PartialEq, Eq)]
pub struct Lent {
    pub scratch: usize,
    pub marks: usize,
    pub answer: usize,
}

impl Limits {
    /// What is needed for a number of lines.
    pub fn for_why(self, lines: usize) -> Lent {
        Lent { scratch: self.marks_scratch(), marks: lines, answer: ANSWER }
    }
}

impl Lent {
    /// "any lent slice shorter than stated"
    pub fn is_short(&self, limits: Limits, lines: usize) -> bool {
        let need = limits.for_why(lines);
        self.scratch < need.scratch || self.marks < need.marks || self.answer < need.answer
    }
}

impl Why {
    /// The answer as the C interface has it.
    pub fn numbers(self) -> [u64; ANSWER] {
        match self {
            Why::NotCost => [0, 0],
            Why::OnChain => [1, 0],
            Why::Slack(less) => [2, less],
            Why::Tied(line) => [3, line as u64],
        }
    }
}

/// The shape of a trace of which a line is asked, or the refusal: "those of 01, then 23 a line number at or past the end, with
/// that number".
pub fn asked(trace: &[u8], limits: Limits, line: u32, lent: &Lent) -> Result<Shape, Refusal> {
    let shape = check::read(trace, limits, |lines| lent.is_short(limits, lines))?;
    let line = line as usize;
    (line < shape.lines.len()).then_some(shape).ok_or(Ground::PastEnd.at(line))
}

/// The answer for a line of an accepted trace, and the lines that are marked: "For the last two the marks show that first chain
/// through the asked line, for the second the chosen chain, and for a line that is no cost all zeros."
pub fn why(shape: &Shape, line: usize, search: fn(&Shape) -> Chains) -> (Why, Vec<usize>) {
    if shape.lines[line].kind != Kind::Cost {
        return (Why::NotCost, vec![]);
    }
    let Chains { spans, chosen } = search(shape);
    if chosen.contains(&line) {
        return (Why::OnChain, chosen);
    }
    let through = through(shape, line, search);
    let less = spans[0] - through.weight;
    let elsewhere = chosen.into_iter().find(|other| !through.first.contains(other));
    let why = elsewhere.filter(|_| less == 0).map_or(Why::Slack(less), Why::Tied);
    (why, through.first)
}
