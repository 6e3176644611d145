//! Traces of asyncs and finishes, by the proved engines of their family and the plain one: the shapes of the other
//! family, in the words of this one.

use super::engines::{check, rooms, runs};
use super::timing::{medians, Run};
use super::traces::{DEPTH, SHAPES};
use crate::check::Limits;
use crate::compare::tie::{tied, Tied};
use crate::library::{Asked, Library};
use crate::line::{Family::Finishes, CHARS};
use crate::plain;
use std::fmt::Write;
use std::hint::black_box;

/// The lines in the words of the other family; in those of this one they are at most twice as many.
const LINES: [usize; 2] = [1_000, 32_768];
const SITES: [u64; 2] = [31, 255];

/// Each open invocation has one of its finishes open.
const FINISH_DEPTH: u64 = 2 * DEPTH;

/// Those that are timed, in the order of the columns.
const ENGINES: [&str; 3] = ["tables", "marks", "plain"];
const PLAIN: usize = 2;

/// What was measured of one trace: the median seconds of each engine.
#[derive(Clone, Debug)]
pub struct Finished {
    pub shape: &'static str,
    pub lines: usize,
    pub sites: u64,
    pub seconds: [f64; ENGINES.len()],
}

/// What stands above the table.
pub fn head() -> String {
    let three: String = ENGINES.iter().map(|engine| format!("{engine:>8}")).collect();
    format!(
        "asyncs and finishes, D = {FINISH_DEPTH}: nanoseconds a line, plain over proved\n\
         {:>61}\n lines    M shape    {three}  tables   marks",
        "plain/proved"
    )
}

impl Finished {
    /// How many times as long the plain engine takes as a proved one.
    fn ahead(&self, engine: usize) -> f64 {
        self.seconds[PLAIN] / self.seconds[engine]
    }

    /// A line of the table.
    pub fn line(&self) -> String {
        let mut text = format!("{:>6} {:>4} {:<9}", self.lines, self.sites, self.shape);
        self.seconds.iter().for_each(|seconds| _ = write!(text, "{:>8.2}", seconds * 1e9 / self.lines as f64));
        (0..PLAIN).for_each(|engine| _ = write!(text, "{:>8.2}", self.ahead(engine)));
        text
    }
}

/// The goal, with what was measured.
pub fn goal(all: &[Finished]) -> String {
    let told = |engine: usize| {
        let ratios = || all.iter().filter(|finished| finished.sites == 31).map(|finished| finished.ahead(engine));
        let (least, most) = (ratios().fold(f64::INFINITY, f64::min), ratios().fold(0.0, f64::max));
        format!(
            "plain/{} of asyncs and finishes at M = 31: {least:.2} to {most:.2} (goal: at least 1.0)",
            ENGINES[engine]
        )
    };
    (0..PLAIN).map(told).collect::<Vec<_>>().join("\n")
}

/// Times the engines on the four shapes, and holds what they give against the plain one.
pub fn measure(library: &dyn Library, samples: usize) -> Vec<Finished> {
    let each = LINES.iter().flat_map(|lines| SITES.iter().map(move |sites| (*lines, *sites)));
    let all = each.flat_map(|(lines, sites)| SHAPES[..4].iter().map(move |shape| (shape, lines, sites)));
    all.map(|(shape, lines, sites)| time(library, shape.name, &shape.trace(lines, sites), sites, samples)).collect()
}

fn time(library: &dyn Library, shape: &'static str, base: &[u8], sites: u64, samples: usize) -> Finished {
    let Tied::Text(trace) = tied(base) else { unreachable!("half of the depth and of the lines that there may be") };
    let (trace, limits) = (&trace[..], Limits { depth: FINISH_DEPTH, sites });
    let lines = trace.len() / CHARS;
    let (mut room, lent) = (rooms(limits, lines), limits.for_marks(lines));
    let mut all: Vec<Run> = runs(library, trace, limits, Asked::Family(Finishes), &mut room).into();
    all.push(Box::new(|| _ = black_box(plain::profile_of(Finishes, black_box(trace), limits, &lent))));
    let seconds = medians(&mut all, samples, |_| ());
    drop(all);
    check(Finishes, trace, limits, &room, shape);
    Finished { shape, lines, sites, seconds: std::array::from_fn(|engine| seconds[engine]) }
}

#[cfg(test)]
mod tests {
    use super::*;
    use crate::library::Second;

    #[test]
    fn each_is_held_against_the_plain_one() {
        for shape in &SHAPES[..4] {
            let finished = time(&Second::by_paths(), shape.name, &shape.trace(1_000, 31), 31, 1);
            assert!((1_001..=2_000).contains(&finished.lines), "{}: {}", shape.name, finished.lines);
        }
    }

    #[test]
    fn the_goal_says_the_ratios() {
        let all = [Finished { shape: "wide", lines: 1_500, sites: 31, seconds: [1.5e-5, 3e-5, 6e-5] }];
        println!("{}\n{}", head(), all[0].line());
        assert_eq!(all[0].line(), "  1500   31 wide        10.00   20.00   40.00    4.00    2.00");
        assert!(
            goal(&all).starts_with("plain/tables of asyncs and finishes at M = 31: 4.00 to 4.00"),
            "{}",
            goal(&all)
        );
    }
}
