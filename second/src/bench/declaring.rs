//! Traces whose sites are declared on the way, each directly before its first call, beside the same traces with all of them
//! at the start: by the proved engines and the plain one.

use super::engines::{check, rooms, runs};
use super::timing::{medians, Run};
use super::traces::{DEPTH, SHAPES};
use crate::check::Limits;
use crate::compare::sites::moved;
use crate::library::{Asked, Library};
use crate::line::{Family::Base, CHARS};
use crate::plain;
use std::fmt::Write;
use std::hint::black_box;

const LINES: [usize; 2] = [1_000, 65_536];
const SITES: [u64; 2] = [31, 255];

/// Those that are timed, in the order of the columns.
const ENGINES: [&str; 3] = ["tables", "marks", "plain"];

/// What was measured of one trace: the median seconds of each engine with the sites at the start, and on the way.
#[derive(Clone, Debug)]
pub struct Declared {
    pub shape: &'static str,
    pub lines: usize,
    pub sites: u64,
    pub first: [f64; ENGINES.len()],
    pub met: [f64; ENGINES.len()],
}

/// What stands above the table.
pub fn head() -> String {
    let three: String = ENGINES.iter().map(|engine| format!("{engine:>8}")).collect();
    format!(
        "sites declared at the start and on the way, D = {DEPTH}: nanoseconds a line\n\
         {:>45}{:>24}{:>24}\n lines    M shape    {three}{three}{three}",
        "at the start", "on the way", "on the way/at the start"
    )
}

impl Declared {
    /// How many times as long an engine takes with the sites on the way as with the sites at the start.
    fn ratio(&self, engine: usize) -> f64 {
        self.met[engine] / self.first[engine]
    }

    /// A line of the table.
    pub fn line(&self) -> String {
        let mut text = format!("{:>6} {:>4} {:<9}", self.lines, self.sites, self.shape);
        let seconds = self.first.iter().chain(&self.met);
        seconds.for_each(|seconds| _ = write!(text, "{:>8.2}", seconds * 1e9 / self.lines as f64));
        (0..ENGINES.len()).for_each(|engine| _ = write!(text, "{:>8.2}", self.ratio(engine)));
        text
    }
}

/// The goal, with what was measured.
pub fn goal(all: &[Declared]) -> String {
    let told = |(engine, name): (usize, &&str)| {
        let ratios = || all.iter().map(|declared| declared.ratio(engine));
        let (least, most) = (ratios().fold(f64::INFINITY, f64::min), ratios().fold(0.0, f64::max));
        format!("{name}, on the way over at the start: {least:.2} to {most:.2} (goal: not slower)")
    };
    ENGINES.iter().enumerate().map(told).collect::<Vec<_>>().join("\n")
}

/// Times the engines on the four shapes, and holds what they give of both traces against the plain one.
pub fn measure(library: &dyn Library, samples: usize) -> Vec<Declared> {
    let each = LINES.iter().flat_map(|lines| SITES.iter().map(move |sites| (*lines, *sites)));
    let all = each.flat_map(|(lines, sites)| SHAPES[..4].iter().map(move |shape| (shape, lines, sites)));
    all.map(|(shape, lines, sites)| {
        time(library, shape.name, &shape.trace(lines, sites), Limits { depth: DEPTH, sites }, samples)
    })
    .collect()
}

fn time(library: &dyn Library, shape: &'static str, first: &[u8], limits: Limits, samples: usize) -> Declared {
    let lines = first.len() / CHARS;
    let met = moved(first, |_, last| last);
    let (lent, mut at_first, mut on_the_way) = (limits.for_marks(lines), rooms(limits, lines), rooms(limits, lines));
    let plainly = |trace| -> Run { Box::new(move || _ = black_box(plain::profile(black_box(trace), limits, &lent))) };
    let mut all: Vec<Run> = vec![];
    for (trace, rooms) in [(first, &mut at_first), (&met, &mut on_the_way)] {
        all.extend(runs(library, trace, limits, Asked::Family(Base), rooms));
        all.push(plainly(trace));
    }
    let seconds = medians(&mut all, samples, |_| ());
    drop(all);
    for (trace, rooms) in [(first, &at_first), (&met, &on_the_way)] {
        check(Base, trace, limits, rooms, shape);
    }
    let [first, met] = [0, ENGINES.len()].map(|from| std::array::from_fn(|engine| seconds[from + engine]));
    Declared { shape, lines, sites: limits.sites, first, met }
}

#[cfg(test)]
mod tests {
    use super::*;
    use crate::library::Second;

    #[test]
    fn each_is_held_against_the_plain_one() {
        let limits = Limits { depth: DEPTH, sites: 255 };
        for shape in &SHAPES[..4] {
            let declared = time(&Second::by_paths(), shape.name, &shape.trace(1_000, 255), limits, 1);
            assert_eq!((declared.lines, declared.sites), (1_000, 255));
        }
    }

    #[test]
    fn the_goal_says_the_ratios() {
        let (first, met) = ([1e-5, 2e-5, 4e-5], [1.5e-5, 1e-5, 4e-5]);
        let all = [Declared { shape: "wide", lines: 1_000, sites: 31, first, met }];
        println!("{}\n{}", head(), all[0].line());
        assert_eq!(
            all[0].line(),
            "  1000   31 wide        10.00   20.00   40.00   15.00   10.00   40.00    1.50    0.50    1.00"
        );
        assert!(goal(&all).starts_with("tables, on the way over at the start: 1.50 to 1.50 (goal: not slower)\nmarks"));
    }
}
