//! Folded stacks to time: long names, many lines, and stacks of every depth, by the proved writer and the plain one.

use super::timing::{medians, Run};
use super::traces::{deepest, DEPTH, SHAPES};
use crate::check::Limits;
use crate::library::Library;
use crate::plain;
use std::hint::black_box;

const LINES: usize = 65_536;
const LIMITS: Limits = Limits { depth: DEPTH, sites: 255 };

/// The characters of each name.
const NAME: usize = 40;

/// What was measured of one trace: the length of the text, and the median seconds of both writers.
#[derive(Clone, Debug)]
pub struct Folded {
    pub shape: &'static str,
    pub characters: usize,
    pub proved: f64,
    pub plain: f64,
}

/// What stands above the table.
pub fn head() -> String {
    format!(
        "folded stacks of {LINES} lines, {} names of {NAME} characters, D = {DEPTH}: milliseconds\n\
         shape     characters   folded    plain  plain/folded",
        LIMITS.sites
    )
}

impl Folded {
    /// How many times as long the plain writer takes as the proved one.
    fn ratio(&self) -> f64 {
        self.plain / self.proved
    }

    /// A line of the table.
    pub fn line(&self) -> String {
        let Folded { shape, characters, proved, plain } = self;
        format!("{shape:<9} {characters:>10} {:>8.3} {:>8.3} {:>13.2}", proved * 1e3, plain * 1e3, self.ratio())
    }
}

/// The goal, with what was measured.
pub fn goal(all: &[Folded]) -> String {
    let least = all.iter().map(Folded::ratio).fold(f64::INFINITY, f64::min);
    let most = all.iter().map(Folded::ratio).fold(0.0, f64::max);
    format!("plain/folded: {least:.2} to {most:.2} (goal: at least 1.0)")
}

/// Times both writers on the four shapes and on costs at the greatest depth, and holds one text against the other.
pub fn measure(library: &dyn Library, samples: usize) -> Vec<Folded> {
    let shapes = SHAPES[..4].iter().map(|shape| (shape.name, shape.trace(LINES, LIMITS.sites)));
    shapes
        .chain([("deepest", deepest(LINES, LIMITS.sites))])
        .map(|(shape, trace)| time(library, shape, &trace, samples))
        .collect()
}

/// Lists of which each has every other name.
fn lists() -> [Vec<u8>; 2] {
    let list = |which: u64| {
        let line =
            |row| if row % 2 == which { format!("{:-<NAME$}\n", format!("name-of-row-{row}")) } else { "\n".into() };
        (0..=LIMITS.sites).map(line).collect::<String>().into_bytes()
    };
    [list(0), list(1)]
}

fn time(library: &dyn Library, shape: &'static str, trace: &[u8], samples: usize) -> Folded {
    let lists = lists();
    let lists: [&[u8]; 2] = [&lists[0], &lists[1]];
    let characters = crate::folded::write(trace, LIMITS, lists, crate::folded::Lent::ALL).expect("a good trace").len();
    let (mut proved, mut plain) = (vec![0; characters], vec![1; characters]);
    let (mut scratch, mut written) = (vec![0; DEPTH as usize], [0]);
    let mut runs: [Run; 2] = [
        Box::new(|| {
            let given = library.folded(black_box(trace), LIMITS, lists, &mut scratch, &mut proved, &mut written);
            assert_eq!(given, 0, "accepted");
        }),
        Box::new(|| {
            let length = plain::folded::write(black_box(trace), LIMITS, lists, DEPTH as usize, &mut plain);
            assert_eq!(length, Ok(characters), "accepted");
        }),
    ];
    let seconds = medians(&mut runs, samples, |_| ());
    drop(runs);
    assert!(written == [characters as u64] && proved == plain, "the folded stacks of {shape}");
    Folded { shape, characters, proved: seconds[0], plain: seconds[1] }
}

#[cfg(test)]
mod tests {
    use super::*;
    use crate::library::Second;

    #[test]
    fn names_have_their_length_and_each_list_every_other() {
        let [project, stock] = lists();
        for (row, (own, other)) in
            project.split(|c| *c == b'\n').zip(stock.split(|c| *c == b'\n')).take(256).enumerate()
        {
            assert_eq!((own.len(), other.len()), if row % 2 == 0 { (NAME, 0) } else { (0, NAME) });
        }
    }

    #[test]
    fn costs_at_the_greatest_depth_have_32_names_each() {
        // 255 site lines, 31 calls, 32 returns: 65,218 costs of one figure, 32 names of 40 characters with one behind each.
        let trace = deepest(LINES, LIMITS.sites);
        let folded = time(&Second::by_paths(), "deepest", &trace, 1);
        assert_eq!(folded.characters, 65_218 * (32 * 41 + 2));
    }

    #[test]
    fn the_goal_says_the_ratios() {
        let folded = Folded { shape: "deep", characters: 7, proved: 0.002, plain: 0.003 };
        assert_eq!(folded.line(), "deep               7    2.000    3.000          1.50");
        assert_eq!(goal(&[folded]), "plain/folded: 1.50 to 1.50 (goal: at least 1.0)");
    }
}
