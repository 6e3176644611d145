//! `compare [CASES [SEED]] [--every LINES]`: holds the proved library against the second program.
//!
//! Compares the traces that the rules name, every trace of up to LINES lines of eight kinds after a site line (6 if not
//! said), with both engines, the compactor and every line asked, and of the other family with both engines, then CASES
//! generated cases (10,000 if not said) of SEED (1 if not said), and tells its progress and how many traces were tied
//! to the other family. At the first difference it prints the smallest case that shows it and ends with status 1. With
//! `--stand-in` it needs no library: it holds the second program's own way for long traces against its way by pairs.

use second::compare::case::Case;
use second::compare::generate::{KINDS, QUESTIONS};
use second::compare::tie::Tally;
use second::compare::{compare, fixed, generate};
use second::library::{proved, Library, Second};
use std::env::args;
use std::process::ExitCode;
use std::time::{Duration, Instant};

/// How often progress is told.
const EVERY: Duration = Duration::from_secs(2);

/// A program under a name.
type Named<'a> = (&'static str, &'a dyn Library);

fn main() -> ExitCode {
    let asked = match Asked::read(args().skip(1)) {
        Ok(asked) => asked,
        Err(word) => {
            eprintln!("compare: not understood: {word}\nusage: compare [CASES [SEED]] [--every LINES] [--stand-in]");
            return ExitCode::from(2);
        }
    };
    let by_paths = Second::by_paths();
    let stand_in: Named = ("the way by paths", &by_paths);
    match proved() {
        _ if asked.stand_in => asked.compare(&[stand_in]),
        Some(library) => asked.compare(&[stand_in, ("the proved library", library)]),
        None => {
            eprintln!(
                "the proved library is not linked: make ../target/native/libnyolifuwe.a, or set NYO_LIB_DIR to its"
            );
            eprintln!("folder, and build again; or try `compare --stand-in`, the second program against itself");
            ExitCode::from(2)
        }
    }
}

/// What the command line asks for.
struct Asked {
    cases: u64,
    seed: u64,
    every: u32,
    stand_in: bool,
}

impl Asked {
    /// The first word that is not understood, otherwise.
    fn read(mut words: impl Iterator<Item = String>) -> Result<Asked, String> {
        let (mut numbers, mut every, mut stand_in) = (vec![], 6, false);
        while let Some(word) = words.next() {
            match word.as_str() {
                "--stand-in" => stand_in = true,
                "--every" => every = words.next().and_then(|lines| lines.parse().ok()).ok_or(word)?,
                number if numbers.len() < 2 => numbers.push(number.replace(['_', ','], "").parse().map_err(|_| word)?),
                _ => return Err(word),
            }
        }
        let (cases, seed) = (*numbers.first().unwrap_or(&10_000), *numbers.get(1).unwrap_or(&1));
        Ok(Asked { cases, seed, every, stand_in })
    }

    /// Compares case after case up to the first difference.
    fn compare(&self, others: &[Named]) -> ExitCode {
        let fixed = fixed::cases();
        let all =
            fixed.len() as u64 + (0..=self.every).map(|lines| QUESTIONS * KINDS.pow(lines)).sum::<u64>() + self.cases;
        let every = (0..=self.every).flat_map(generate::every);
        let generated = (0..self.cases).map(|number| generate::case(self.seed, number));
        let (mut progress, mut tally) = (Progress::new(), Tally::default());
        for (passed, case) in (0..).zip(fixed.into_iter().chain(every).chain(generated)) {
            progress.tell(passed, all);
            if differs(&case, others) {
                println!("{passed} passed, 1 failed");
                return ExitCode::FAILURE;
            }
            tally.count(&case, &Second::by_paths());
        }
        println!("{tally}");
        println!("{all} passed, 0 failed");
        ExitCode::SUCCESS
    }
}

/// Compares one case, and prints the difference if there is one.
fn differs(case: &Case, others: &[Named]) -> bool {
    let difference = compare(case, &Second::new(), others);
    if let Some(difference) = &difference {
        println!("{difference}");
    }
    difference.is_some()
}

/// Tells on standard error how far the comparison has come.
struct Progress {
    begun: Instant,
    told: Instant,
}

impl Progress {
    fn new() -> Progress {
        Progress { begun: Instant::now(), told: Instant::now() }
    }

    fn tell(&mut self, passed: u64, all: u64) {
        if self.told.elapsed() >= EVERY {
            self.told = Instant::now();
            eprintln!("{passed} of {all} cases alike after {} s", self.begun.elapsed().as_secs());
        }
    }
}
