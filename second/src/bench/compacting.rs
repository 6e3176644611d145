//! Traces to compact: how much smaller they become, and how long the proved compactor and the plain one take.

use super::timing::{medians, Run};
use super::traces::{wordy, DEPTH, SHAPES};
use crate::check::Limits;
use crate::compare::instructions::put_in;
use crate::library::Library;
use crate::line::CHARS;
use crate::plain;
use std::hint::black_box;

const LINES: usize = 65_536;
const LIMITS: Limits = Limits { depth: DEPTH, sites: 31 };

/// The example that is compacted beside the shapes.
const PROXY: &[u8] = include_bytes!("../../../examples/proxy.trace");

/// What was measured of one trace: its lines, those that are left, and the median seconds of both compactors.
#[derive(Clone, Debug)]
pub struct Compacted {
    pub shape: &'static str,
    pub lines: usize,
    pub left: usize,
    pub proved: f64,
    pub plain: f64,
}

/// What stands above the table.
pub fn head() -> String {
    format!(
        "compacted traces, D = {DEPTH}, M = {}: lines, those that are left, nanoseconds a line\n\
         shape      lines     left  left/lines  compact    plain  plain/compact",
        LIMITS.sites
    )
}

impl Compacted {
    /// How many times as long the plain compactor takes as the proved one.
    fn ratio(&self) -> f64 {
        self.plain / self.proved
    }

    /// A line of the table.
    pub fn line(&self) -> String {
        let Compacted { shape, lines, left, proved, plain } = self;
        let (share, a_line) = (*left as f64 / *lines as f64, |seconds: &f64| seconds * 1e9 / *lines as f64);
        let (proved, plain) = (a_line(proved), a_line(plain));
        format!("{shape:<9} {lines:>6} {left:>8} {share:>11.2} {proved:>8.2} {plain:>8.2} {:>14.2}", self.ratio())
    }
}

/// The goal, with what was measured.
pub fn goal(all: &[Compacted]) -> String {
    let least = all.iter().map(Compacted::ratio).fold(f64::INFINITY, f64::min);
    let most = all.iter().map(Compacted::ratio).fold(0.0, f64::max);
    format!("plain/compact: {least:.2} to {most:.2} (goal: at least 1.0)")
}

/// Times both compactors on the four shapes, on the proxy, on a trace with instructions behind every cost and on a trace that
/// says little, in room as long as the trace; and on the last in room just enough, where the result has to be measured first. Holds one result against the
/// other.
pub fn measure(library: &dyn Library, samples: usize) -> Vec<Compacted> {
    let shapes = SHAPES[..4].iter().map(|shape| (shape.name, shape.trace(LINES, LIMITS.sites)));
    let wordy = wordy(LINES, LIMITS.sites);
    let others = [("proxy", PROXY.to_vec()), ("carried", carried(LINES)), ("wordy", wordy.clone())];
    let mut all: Vec<Compacted> =
        shapes.chain(others).map(|(shape, trace)| time(library, shape, &trace, trace.len(), samples)).collect();
    let just = all.last().map_or(0, |wordy| wordy.left * CHARS);
    all.push(time(library, "tight", &wordy, just, samples));
    all
}

/// A trace of at most so many lines that says little, with instructions behind every cost.
fn carried(lines: usize) -> Vec<u8> {
    put_in(&wordy(lines / 2, LIMITS.sites), |line| Some(line as u64 + 1))
}

fn time(library: &dyn Library, shape: &'static str, trace: &[u8], room: usize, samples: usize) -> Compacted {
    let (mut proved, mut plain) = (vec![0; room], vec![0; room]);
    let (mut written, mut length) = ([0], 0);
    let mut runs: [Run; 2] = [
        Box::new(|| {
            let given = library.compact(black_box(trace), LIMITS, &mut proved, &mut written);
            assert_eq!(given, 0, "accepted");
        }),
        Box::new(|| length = plain::compact::write(black_box(trace), LIMITS, &mut plain).expect("accepted")),
    ];
    let seconds = medians(&mut runs, samples, |_| ());
    drop(runs);
    assert!(written == [length as u64] && proved == plain, "the compacted trace of {shape}");
    let (lines, left) = (trace.len() / CHARS, length / CHARS);
    Compacted { shape, lines, left, proved: seconds[0], plain: seconds[1] }
}

#[cfg(test)]
mod tests {
    use super::*;
    use crate::library::Second;

    #[test]
    fn of_the_proxy_every_line_is_left_and_of_a_wordy_trace_six_of_ten() {
        let proxy = time(&Second::by_paths(), "proxy", PROXY, PROXY.len(), 1);
        assert_eq!((proxy.lines, proxy.left), (85, 85));
        // Of each ten lines are left: the spawn, its cost and return, one sum of the three costs, the first sync, the
        // last cost.
        let left = 31 + 6 * 6 + 1;
        let wordy = time(&Second::by_paths(), "wordy", &wordy(31 + 10 * 6 + 1, 31), left * CHARS, 1);
        assert_eq!((wordy.lines, wordy.left), (31 + 10 * 6 + 1, left));
    }

    #[test]
    fn with_instructions_nine_of_fifteen_lines_are_left() {
        // Three of the costs are one, each with its 07 line: to the six lines that are left of ten come three of the five.
        let lines = 31 + 15 * 6 + 1;
        let trace = carried(2 * (31 + 10 * 6 + 1));
        let carried = time(&Second::by_paths(), "carried", &trace, trace.len(), 1);
        assert_eq!((carried.lines, carried.left), (lines, 31 + 9 * 6 + 1));
    }

    #[test]
    fn the_goal_says_the_ratios() {
        let compacted = Compacted { shape: "deep", lines: 1_000, left: 250, proved: 2e-5, plain: 3e-5 };
        assert_eq!(compacted.line(), "deep        1000      250        0.25    20.00    30.00           1.50");
        assert_eq!(goal(&[compacted]), "plain/compact: 1.50 to 1.50 (goal: at least 1.0)");
    }
}
