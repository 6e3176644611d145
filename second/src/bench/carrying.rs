//! Traces with instructions behind every cost, beside the same traces without: by the proved engines and the plain one.

use super::engines::{check, rooms, runs};
use super::timing::{medians, Run};
use super::traces::{DEPTH, SHAPES};
use crate::check::Limits;
use crate::compare::instructions::put_in;
use crate::library::{Asked, Library};
use crate::line::{Family::Base, CHARS};
use crate::plain;
use std::fmt::Write;
use std::hint::black_box;

/// The lines without instructions; with them they are at most twice as many.
const LINES: [usize; 2] = [1_000, 32_768];
const SITES: [u64; 2] = [31, 255];

/// Those that are timed, in the order of the columns.
const ENGINES: [&str; 3] = ["tables", "marks", "plain"];
const PLAIN: usize = 2;

/// What was measured of one trace: its lines with instructions behind every cost, and the median seconds of each engine
/// without them and with them.
#[derive(Clone, Debug)]
pub struct Carried {
    pub shape: &'static str,
    pub lines: usize,
    pub sites: u64,
    pub without: [f64; ENGINES.len()],
    pub with: [f64; ENGINES.len()],
}

/// What stands above the table.
pub fn head() -> String {
    let three: String = ENGINES.iter().map(|engine| format!("{engine:>8}")).collect();
    format!(
        "instructions behind every cost, D = {DEPTH}: nanoseconds a line, the time over that without them, plain over proved\n\
         {:>45}{:>24}{:>16}\n lines    M shape    {three}{three}  tables   marks",
        "with instructions", "with/without", "plain/proved"
    )
}

impl Carried {
    /// How many times as long an engine takes with instructions as without.
    fn cost(&self, engine: usize) -> f64 {
        self.with[engine] / self.without[engine]
    }

    /// How many times as long the plain engine takes with instructions as a proved one.
    fn ahead(&self, engine: usize) -> f64 {
        self.with[PLAIN] / self.with[engine]
    }

    /// A line of the table.
    pub fn line(&self) -> String {
        let mut text = format!("{:>6} {:>4} {:<9}", self.lines, self.sites, self.shape);
        self.with.iter().for_each(|seconds| _ = write!(text, "{:>8.2}", seconds * 1e9 / self.lines as f64));
        (0..ENGINES.len()).for_each(|engine| _ = write!(text, "{:>8.2}", self.cost(engine)));
        (0..PLAIN).for_each(|engine| _ = write!(text, "{:>8.2}", self.ahead(engine)));
        text
    }
}

/// The goal, with what was measured.
pub fn goal(all: &[Carried]) -> String {
    let told = |engine: usize| {
        let ratios = || all.iter().filter(|carried| carried.sites == 31).map(|carried| carried.ahead(engine));
        let (least, most) = (ratios().fold(f64::INFINITY, f64::min), ratios().fold(0.0, f64::max));
        format!("plain/{} with instructions at M = 31: {least:.2} to {most:.2} (goal: at least 1.0)", ENGINES[engine])
    };
    (0..PLAIN).map(told).collect::<Vec<_>>().join("\n")
}

/// Times the engines on the four shapes, and holds what they give of both traces against the plain one.
pub fn measure(library: &dyn Library, samples: usize) -> Vec<Carried> {
    let each = LINES.iter().flat_map(|lines| SITES.iter().map(move |sites| (*lines, *sites)));
    let all = each.flat_map(|(lines, sites)| SHAPES[..4].iter().map(move |shape| (shape, lines, sites)));
    all.map(|(shape, lines, sites)| {
        time(library, shape.name, &shape.trace(lines, sites), Limits { depth: DEPTH, sites }, samples)
    })
    .collect()
}

fn time(library: &dyn Library, shape: &'static str, bare: &[u8], limits: Limits, samples: usize) -> Carried {
    let carried = put_in(bare, |line| Some(3 * line as u64 + 1));
    let [bare_lines, lines] = [bare, &carried].map(|trace| trace.len() / CHARS);
    let (mut without, mut with) = (rooms(limits, bare_lines), rooms(limits, lines));
    let lent = limits.for_marks(lines);
    let plainly = |trace| -> Run { Box::new(move || _ = black_box(plain::profile(black_box(trace), limits, &lent))) };
    let mut all: Vec<Run> = vec![];
    for (trace, rooms) in [(bare, &mut without), (&carried, &mut with)] {
        all.extend(runs(library, trace, limits, Asked::Family(Base), rooms));
        all.push(plainly(trace));
    }
    let seconds = medians(&mut all, samples, |_| ());
    drop(all);
    for (trace, rooms) in [(bare, &without), (&carried, &with)] {
        check(Base, trace, limits, rooms, shape);
    }
    let [without, with] = [0, ENGINES.len()].map(|from| std::array::from_fn(|engine| seconds[from + engine]));
    Carried { shape, lines, sites: limits.sites, without, with }
}

#[cfg(test)]
mod tests {
    use super::*;
    use crate::library::Second;

    #[test]
    fn each_is_held_against_the_plain_one() {
        let limits = Limits { depth: DEPTH, sites: 31 };
        for shape in &SHAPES[..4] {
            let carried = time(&Second::by_paths(), shape.name, &shape.trace(1_000, 31), limits, 1);
            assert!((1_001..=2_000).contains(&carried.lines), "{}: {}", shape.name, carried.lines);
        }
    }

    #[test]
    fn the_goal_says_the_ratios() {
        let (without, with) = ([1e-5, 2e-5, 4e-5], [1.5e-5, 3e-5, 6e-5]);
        let all = [Carried { shape: "wide", lines: 1_500, sites: 31, without, with }];
        println!("{}\n{}", head(), all[0].line());
        assert_eq!(
            all[0].line(),
            "  1500   31 wide        10.00   20.00   40.00    1.50    1.50    1.50    4.00    2.00"
        );
        assert!(goal(&all).starts_with("plain/tables with instructions at M = 31: 4.00 to 4.00"), "{}", goal(&all));
    }
}
