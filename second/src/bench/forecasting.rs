//! Forecasts to time: with no entry, one and as many as there may be, by the proved engines and the plain one, beside the plain
//! profile by the same engines.

use super::engines::{self, rooms};
use super::timing::{medians, Run};
use super::traces::{DEPTH, SHAPES};
use crate::check::Limits;
use crate::forecast::{Entry, MOST_ENTRIES};
use crate::library::{Asked, Library};
use crate::line::Family::Base;
use crate::plain;
use std::hint::black_box;

const LINES: usize = 65_536;
const LIMITS: Limits = Limits { depth: DEPTH, sites: 31 };

/// How many entries are lent.
const COUNTS: [usize; 3] = [0, 1, MOST_ENTRIES];

/// What was measured of one trace with so many entries: the median seconds of both engines' profiles and forecasts, and of the
/// plain forecast.
#[derive(Clone, Debug)]
pub struct Forecast {
    pub shape: &'static str,
    pub entries: usize,
    pub profiles: [f64; 2],
    pub forecasts: [f64; 2],
    pub plain: f64,
}

/// What stands above the table.
pub fn head() -> String {
    format!(
        "forecasts of {LINES} lines, M = {}, D = {DEPTH}: nanoseconds a line\n\
         \x20                         profile         forecast            plain/forecast forecast/profile\n\
         shape     entries  tables   marks   tables   marks   plain   tables   marks   tables   marks",
        LIMITS.sites
    )
}

impl Forecast {
    /// For each engine how many times as long the plain forecast takes as the proved one.
    fn ahead(&self) -> [f64; 2] {
        self.forecasts.map(|seconds| self.plain / seconds)
    }

    /// For each engine how many times as long the forecast takes as the profile.
    fn cost(&self) -> [f64; 2] {
        [0, 1].map(|engine| self.forecasts[engine] / self.profiles[engine])
    }

    /// A line of the table.
    pub fn line(&self) -> String {
        let a_line = |seconds: f64| seconds * 1e9 / LINES as f64;
        let pair = |[tables, marks]: [f64; 2]| format!("{tables:>8.2}{marks:>8.2} ");
        let (profiles, forecasts) = (pair(self.profiles.map(a_line)), pair(self.forecasts.map(a_line)));
        let (ahead, cost) = (pair(self.ahead()), pair(self.cost()));
        let Forecast { shape, entries, plain, .. } = self;
        format!("{shape:<9} {entries:>7}{profiles}{forecasts}{:>7.2} {ahead}{cost}", a_line(*plain))
    }
}

/// The goals, with what was measured.
pub fn goals(all: &[Forecast]) -> String {
    let least = all.iter().flat_map(Forecast::ahead).fold(f64::INFINITY, f64::min);
    let most = all.iter().flat_map(Forecast::cost).fold(0.0, f64::max);
    format!(
        "plain/forecast: at least {least:.2} (goal: at least 1.0)\n\
         forecast/profile: at most {most:.2} (goal: at most 1.2)"
    )
}

/// Times both engines on the four shapes, and holds every forecast against the plain one.
pub fn measure(library: &dyn Library, samples: usize) -> Vec<Forecast> {
    let shapes = SHAPES[..4].iter().map(|shape| (shape.name, shape.trace(LINES, LIMITS.sites)));
    shapes.flat_map(|(shape, trace)| time(library, shape, &trace, samples)).collect()
}

/// So many entries over the rows, the root's first, with factors from 2 on.
fn entries(count: usize) -> Vec<Entry> {
    (0..count as u64).map(|n| Entry { row: 2 * n, factor: 2 + n }).collect()
}

fn time(library: &dyn Library, shape: &'static str, trace: &[u8], samples: usize) -> Vec<Forecast> {
    let rooms = || rooms(LIMITS, LINES);
    let (lists, lent) = (COUNTS.map(entries), LIMITS.for_marks(LINES));
    let (mut plain_rooms, mut all_rooms) = (rooms(), [rooms(), rooms(), rooms()]);
    let mut runs: Vec<Run> = engines::runs(library, trace, LIMITS, Asked::Family(Base), &mut plain_rooms).into();
    for (list, rooms) in lists.iter().zip(&mut all_rooms) {
        runs.extend(engines::runs(library, trace, LIMITS, Asked::Forecast(list), rooms));
        runs.push(Box::new(|| _ = black_box(plain::forecast(black_box(trace), LIMITS, list, &lent))));
    }
    let seconds = medians(&mut runs, samples, |_| ());
    drop(runs);
    for (list, [tables, marked]) in lists.iter().zip(&all_rooms) {
        let right = plain::forecast(trace, LIMITS, list, &lent).expect("a good trace and good entries");
        let rows = right.rows.concat();
        assert!(tables.rows == rows && tables.answer == right.answer, "the table engine's forecast of {shape}");
        assert!(marked.rows == rows && marked.answer == right.answer, "the marks engine's forecast of {shape}");
        assert_eq!(marked.marks, right.marks, "the marks of the forecast of {shape}");
    }
    let profiles = [seconds[0], seconds[1]];
    let of = |(entries, timed): (usize, &[f64])| Forecast {
        shape,
        entries,
        profiles,
        forecasts: [timed[0], timed[1]],
        plain: timed[2],
    };
    COUNTS.into_iter().zip(seconds[2..].chunks_exact(3)).map(of).collect()
}

#[cfg(test)]
mod tests {
    use super::*;
    use crate::library::Second;

    #[test]
    fn each_count_has_its_row_and_is_held_against_the_plain_one() {
        let trace = SHAPES[1].trace(LINES, LIMITS.sites);
        let all = time(&Second::by_paths(), "wide", &trace, 1);
        assert_eq!(all.iter().map(|forecast| forecast.entries).collect::<Vec<_>>(), [0, 1, 16]);
    }

    #[test]
    fn the_goals_say_the_ratios() {
        let (profiles, forecasts) = ([1e-3, 2e-3], [1.5e-3, 2e-3]);
        let all = [Forecast { shape: "wide", entries: 1, profiles, forecasts, plain: 3e-3 }];
        let text = goals(&all);
        println!("{}\n{}\n{text}", head(), all[0].line());
        assert!(text.contains("plain/forecast: at least 1.50"), "{text}");
        assert!(text.contains("forecast/profile: at most 1.50"), "{text}");
    }
}
