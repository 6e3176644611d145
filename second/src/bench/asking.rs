//! Lines that are asked why they are not on the span, to time: one that is no cost, one on the chosen chain, one in the middle
//! off it, by the proved library and in plain Rust, beside the proved marks engine.

use super::timing::{medians, Run};
use super::traces::{DEPTH, SHAPES};
use crate::check::Limits;
use crate::library::Library;
use crate::line::{Family::Base, CHARS};
use crate::plain;
use crate::why::{Why, ANSWER};
use std::hint::black_box;

const LINES: [usize; 2] = [1_000, 65_536];
const LIMITS: Limits = Limits { depth: DEPTH, sites: 31 };

/// What was measured of one line of a trace: the median seconds of the marks engine, of the proved answer and of the plain one.
#[derive(Clone, Debug)]
pub struct Answered {
    pub shape: &'static str,
    pub lines: usize,
    pub asked: &'static str,
    pub marks: f64,
    pub proved: f64,
    pub plain: f64,
}

/// What stands above the table.
pub fn head() -> String {
    format!(
        "why a line is not on the span, D = {DEPTH}, M = {}: nanoseconds a line of the trace\n\
         \x20lines shape     the line asked     marks      why    plain  plain/why  why/marks",
        LIMITS.sites
    )
}

impl Answered {
    /// How many times as long the plain answer takes as the proved one.
    fn ahead(&self) -> f64 {
        self.plain / self.proved
    }

    /// How many times as long the proved answer takes as the marks engine.
    fn cost(&self) -> f64 {
        self.proved / self.marks
    }

    /// A line of the table.
    pub fn line(&self) -> String {
        let Answered { shape, lines, asked, .. } = self;
        let [marks, proved, plain] = [self.marks, self.proved, self.plain].map(|seconds| seconds * 1e9 / *lines as f64);
        let (ahead, cost) = (self.ahead(), self.cost());
        format!("{lines:>6} {shape:<9} {asked:<14} {marks:>9.2}{proved:>9.2}{plain:>9.2} {ahead:>10.2} {cost:>10.2}")
    }
}

/// The goal, with what was measured.
pub fn goal(all: &[Answered]) -> String {
    let least = all.iter().map(Answered::ahead).fold(f64::INFINITY, f64::min);
    let most = all.iter().map(Answered::ahead).fold(0.0, f64::max);
    let cost = all.iter().map(Answered::cost).fold(0.0, f64::max);
    format!(
        "plain/why: {least:.2} to {most:.2} (goal: at least 1.0)\n\
         why/marks: at most {cost:.2}"
    )
}

/// Times both answers on the four shapes, and holds one against the other.
pub fn measure(library: &dyn Library, samples: usize) -> Vec<Answered> {
    let shapes = LINES.iter().flat_map(|lines| SHAPES[..4].iter().map(move |shape| (*lines, shape)));
    shapes.flat_map(|(lines, shape)| time(library, shape.name, &shape.trace(lines, LIMITS.sites), samples)).collect()
}

/// A line that is no cost, and from the middle on one on the chosen chain and one off it, where there are some.
fn asked(trace: &[u8]) -> Vec<(&'static str, u32)> {
    let lines = trace.len() / CHARS;
    let profile = plain::profile(trace, LIMITS, &LIMITS.for_marks(lines)).expect("a good trace");
    let is_cost = |line: usize| trace[line * CHARS..].starts_with(b"06");
    let from_middle = |holds: &dyn Fn(usize) -> bool| (lines / 2..lines).chain(0..lines / 2).find(|&line| holds(line));
    let found = [
        ("no cost", from_middle(&|line| !is_cost(line))),
        ("on the chain", from_middle(&|line| profile.marks[line] == 1)),
        ("off the chain", from_middle(&|line| is_cost(line) && profile.marks[line] == 0)),
    ];
    found.into_iter().filter_map(|(name, line)| Some((name, line? as u32))).collect()
}

/// What is lent.
struct Room {
    scratch: Vec<u64>,
    marks: Vec<u8>,
    rows: Vec<u64>,
    totals: [u64; 4],
    answer: [u64; ANSWER],
}

impl Room {
    fn new(lines: usize) -> Room {
        let (scratch, rows) = (vec![0; LIMITS.marks_scratch()], vec![0; LIMITS.rows()]);
        Room { scratch, marks: vec![0; lines], rows, totals: [0; 4], answer: [0; ANSWER] }
    }
}

fn time(library: &dyn Library, shape: &'static str, trace: &[u8], samples: usize) -> Vec<Answered> {
    let lines = trace.len() / CHARS;
    asked(trace)
        .into_iter()
        .map(|(name, line)| time_line(library, shape, trace, lines, (name, line), samples))
        .collect()
}

fn time_line(
    library: &dyn Library,
    shape: &'static str,
    trace: &[u8],
    lines: usize,
    (asked, line): (&'static str, u32),
    samples: usize,
) -> Answered {
    let lent = LIMITS.for_why(lines);
    let (mut plain_room, mut room) = (Room::new(lines), Room::new(lines));
    let mut runs: [Run; 3] = [
        Box::new(|| {
            let Room { scratch, marks, rows, totals, .. } = &mut plain_room;
            assert_eq!(library.marks(Base, black_box(trace), LIMITS, scratch, marks, rows, totals), 0, "accepted");
        }),
        Box::new(|| {
            let Room { scratch, marks, answer, .. } = &mut room;
            assert_eq!(library.why(black_box(trace), LIMITS, line, scratch, marks, answer), 0, "accepted");
        }),
        Box::new(|| _ = black_box(plain::why::why(black_box(trace), LIMITS, line, &lent))),
    ];
    let seconds = medians(&mut runs, samples, |_| ());
    drop(runs);
    let (why, marks) = plain::why::why(trace, LIMITS, line, &lent).expect("a good trace");
    assert!((room.answer, &room.marks) == (why.numbers(), &marks), "line {line} of {shape}");
    assert_eq!(asked == "on the chain", why == Why::OnChain, "line {line} of {shape}");
    Answered { shape, lines, asked, marks: seconds[0], proved: seconds[1], plain: seconds[2] }
}

#[cfg(test)]
mod tests {
    use super::*;
    use crate::library::Second;

    #[test]
    fn each_shape_has_its_lines_and_is_held_against_the_plain_one() {
        for shape in &SHAPES[..4] {
            let all = time(&Second::by_paths(), shape.name, &shape.trace(1_000, LIMITS.sites), 1);
            assert_eq!(all.len(), 3, "{}", shape.name);
        }
    }

    #[test]
    fn the_goal_says_the_ratios() {
        let all =
            [Answered { shape: "wide", lines: 1_000, asked: "off the chain", marks: 1e-5, proved: 2e-5, plain: 3e-5 }];
        println!("{}\n{}", head(), all[0].line());
        assert_eq!(all[0].line(), "  1000 wide      off the chain      10.00    20.00    30.00       1.50       2.00");
        assert!(goal(&all).starts_with("plain/why: 1.50 to 1.50 (goal: at least 1.0)"), "{}", goal(&all));
    }
}
