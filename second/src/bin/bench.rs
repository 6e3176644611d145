//! `bench DIR [SAMPLES]`: times the proved engines against the plain one, the script and a pass that only sums the
//! bytes; the proved writer of folded stacks, the proved forecasts and the proved compactor against plain ones; sites
//! declared on the way against sites at the start; traces with instructions behind every cost against the same without;
//! why lines are not on the span against plain Rust; and the proved engines of asyncs and finishes against a plain one.
//!
//! Writes the traces and `bench.csv` to DIR, tells its progress, and prints the table and the goals. The numbers are
//! medians of SAMPLES samples (101 if not said; the script's, of 3) of processor time. Each sample goes over all traces and
//! all engines, so that a machine that is slow for a while is slow for all of them. Every engine's answer is held against
//! the plain one's.

use second::bench::table::{csv, goals, head, Measured};
use second::bench::timing::{medians, Run};
use second::bench::traces::{Shape, DEPTH, SHAPES};
use second::bench::{asking, carrying, compacting, declaring, finishing, folding, forecasting};
use second::check::{Lent, Limits};
use second::library::{proved, Library};
use second::line::Family::Base;
use second::plain;
use second::rows::Profile;
use std::env::args;
use std::error::Error;
use std::fs;
use std::hint::black_box;
use std::path::Path;
use std::process::{Command, ExitCode};

const LINES: [usize; 3] = [1_000, 8_000, 65_536];
const SITES: [u64; 3] = [2, 31, 255];

/// Those that are timed in turn; the script is timed by itself.
const TIMED: usize = 4;

fn main() -> ExitCode {
    let words: Vec<String> = args().skip(1).collect();
    let asked = match &words[..] {
        [folder] => Some((folder, 101)),
        [folder, samples] => samples.parse().ok().filter(|samples| *samples > 0).map(|samples| (folder, samples)),
        _ => None,
    };
    let Some((folder, samples)) = asked else {
        eprintln!("usage: bench DIR [SAMPLES], where SAMPLES is a number from 1 on");
        return ExitCode::from(2);
    };
    match measure(Path::new(folder), samples) {
        Ok(()) => ExitCode::SUCCESS,
        Err(error) => {
            eprintln!("bench: {error}");
            ExitCode::FAILURE
        }
    }
}

/// Times everything, prints the table and the goals, and writes the file.
fn measure(folder: &Path, samples: usize) -> Result<(), Box<dyn Error>> {
    let library = proved().ok_or("the proved library is not linked: run tools/native-lib.sh and build again")?;
    let mut cases = cases();
    let seconds = seconds(library, &mut cases, samples);
    println!("{}", head());
    let mut all = vec![];
    for (case, timed) in cases.iter().zip(seconds.chunks_exact(TIMED)) {
        case.check();
        let measured = case.measured(timed, time_script(folder, case)?);
        println!("{}", measured.line());
        all.push(measured);
    }
    fs::write(folder.join("bench.csv"), csv(&all))?;
    print!("{}", goals(&all));
    let folded = folding::measure(library, samples);
    println!("{}", folding::head());
    folded.iter().for_each(|measured| println!("{}", measured.line()));
    println!("{}", folding::goal(&folded));
    let forecasts = forecasting::measure(library, samples);
    println!("{}", forecasting::head());
    forecasts.iter().for_each(|measured| println!("{}", measured.line()));
    println!("{}", forecasting::goals(&forecasts));
    let compacted = compacting::measure(library, samples);
    println!("{}", compacting::head());
    compacted.iter().for_each(|measured| println!("{}", measured.line()));
    println!("{}", compacting::goal(&compacted));
    let declared = declaring::measure(library, samples);
    println!("{}", declaring::head());
    declared.iter().for_each(|measured| println!("{}", measured.line()));
    println!("{}", declaring::goal(&declared));
    let carried = carrying::measure(library, samples);
    println!("{}", carrying::head());
    carried.iter().for_each(|measured| println!("{}", measured.line()));
    println!("{}", carrying::goal(&carried));
    let answered = asking::measure(library, samples);
    println!("{}", asking::head());
    answered.iter().for_each(|measured| println!("{}", measured.line()));
    println!("{}", asking::goal(&answered));
    let finished = finishing::measure(library, samples);
    println!("{}", finishing::head());
    finished.iter().for_each(|measured| println!("{}", measured.line()));
    println!("{}", finishing::goal(&finished));
    Ok(())
}

/// A trace, what is lent to each engine for it, and what they are to give.
struct Case {
    shape: Shape,
    limits: Limits,
    trace: Vec<u8>,
    lent: Lent,
    right: Profile,
    tables: Room,
    marked: Room,
    marks: Vec<u8>,
}

/// What both engines are lent.
struct Room {
    scratch: Vec<u64>,
    rows: Vec<u64>,
    answer: [u64; 4],
}

/// Every number of lines with every limit and every shape.
fn cases() -> Vec<Case> {
    let limits = LINES.iter().flat_map(|lines| SITES.iter().map(move |sites| (*lines, *sites)));
    limits.flat_map(|(lines, sites)| SHAPES.iter().map(move |shape| Case::new(*shape, lines, sites))).collect()
}

/// The median seconds of each engine on each trace.
fn seconds(library: &dyn Library, cases: &mut [Case], samples: usize) -> Vec<f64> {
    let mut runs: Vec<Run> = cases.iter_mut().flat_map(|case| case.runs(library)).collect();
    medians(&mut runs, samples, |taken| {
        if taken % 10 == 0 || taken == samples {
            eprintln!("{taken} of {samples} samples");
        }
    })
}

impl Case {
    fn new(shape: Shape, lines: usize, sites: u64) -> Case {
        let limits = Limits { depth: DEPTH, sites };
        let trace = shape.trace(lines, sites);
        let lent = limits.for_marks(lines);
        let right = plain::profile(&trace, limits, &lent).expect("a good trace");
        let room = |scratch| Room { scratch: vec![0; scratch], rows: vec![0; limits.rows()], answer: [0; 4] };
        let (tables, marked) = (room(limits.table_scratch()), room(limits.marks_scratch()));
        Case { shape, limits, trace, lent, right, tables, marked, marks: vec![0; lines] }
    }

    /// The pass over the bytes, the two proved engines and the plain one.
    fn runs<'a>(&'a mut self, library: &'a dyn Library) -> [Run<'a>; TIMED] {
        let Case { limits, trace, lent, tables, marked, marks, .. } = self;
        let (limits, trace, lent) = (*limits, &trace[..], &*lent);
        [
            Box::new(move || _ = black_box(black_box(trace).iter().map(|&byte| u64::from(byte)).sum::<u64>())),
            Box::new(move || {
                let Room { scratch, rows, answer } = &mut *tables;
                assert_eq!(library.tables(Base, black_box(trace), limits, scratch, rows, answer), 0, "accepted");
            }),
            Box::new(move || {
                let Room { scratch, rows, answer } = &mut *marked;
                assert_eq!(library.marks(Base, black_box(trace), limits, scratch, marks, rows, answer), 0, "accepted");
            }),
            Box::new(move || _ = black_box(plain::profile(black_box(trace), limits, lent))),
        ]
    }

    /// Holds what the engines have left against what is right.
    fn check(&self) {
        let (rows, name) = (self.right.rows.concat(), self.shape.name);
        assert_eq!((&self.tables.rows, self.tables.answer), (&rows, self.right.answer), "the table engine on {name}");
        assert_eq!((&self.marked.rows, self.marked.answer), (&rows, self.right.answer), "the marks engine on {name}");
        assert_eq!(self.marks, self.right.marks, "the marks on {name}");
    }

    fn measured(&self, timed: &[f64], script: f64) -> Measured {
        let [bytes, tables, marks, plain] = timed[..] else { unreachable!("as many as are timed") };
        let seconds = [bytes, tables, marks, plain, script];
        Measured { shape: self.shape.name, lines: self.marks.len(), sites: self.limits.sites, seconds }
    }
}

/// The median seconds that the script takes, its start not counted.
fn time_script(folder: &Path, case: &Case) -> Result<f64, Box<dyn Error>> {
    let Case { shape, limits, trace, marks, .. } = case;
    let file = folder.join(format!("{}-{}-{}.trace", shape.name, marks.len(), limits.sites));
    fs::write(&file, trace)?;
    let own = Path::new(env!("CARGO_MANIFEST_DIR")).join("script");
    let told = Command::new("python3")
        .arg(own.join("time_profile.py"))
        .args([limits.depth.to_string(), limits.sites.to_string()])
        .arg(&file)
        .output()
        .map_err(|error| format!("python3: {error}"))?;
    if !told.status.success() {
        return Err(String::from_utf8_lossy(&told.stderr).into());
    }
    Ok(String::from_utf8(told.stdout)?.trim().parse()?)
}
