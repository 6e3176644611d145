//! Generated cases: traces, good and damaged, and questions to the readers and writers.

use super::case::{Case, CompactSpare, Question, Spare};
use super::rng::Rng;
use super::{compacts, damage, forecasts, moves, reports, shapes, sheets, sites, stacks, whys};
use crate::check::Limits;
use crate::line::{chars, read_any, Family, Fields, Kind, CHARS, WIDTHS};
use crate::report::REFUSAL_CHARS;
use crate::trace::Trace;

/// The case with a number, of a seed.
pub fn case(seed: u64, number: u64) -> Case {
    let mut rng = Rng::of_case(seed, number);
    let question = match rng.below(40) {
        0 => read_line(&mut rng),
        1 => write_line(&mut rng),
        2 => reports::write(&mut rng),
        3 => refusal(&mut rng),
        4 => sheets::write(&mut rng),
        5 | 6 => sheets::read(&mut rng),
        7..=11 => stacks::write(&mut rng),
        12..=17 => forecasts::forecast(&mut rng),
        18..=22 => compacts::write(&mut rng),
        23..=26 => moves::write(&mut rng),
        27..=29 => whys::write(&mut rng),
        30..=32 => engines(&mut rng, Family::Finishes),
        _ => engines(&mut rng, Family::Base),
    };
    Case { question, rubbish: rng.number() }
}

/// How many lines `every` tries in each place of a trace.
pub const KINDS: u64 = 8;

/// How many questions it asks of each trace.
pub const QUESTIONS: u64 = 4;

/// Every trace that begins with a site line and has so many lines after it, each one of eight: costs of 1 and 2, a
/// sync, a call, a spawn, a return, the next site line and a 07 line of 3; for the engines, for the compactor, and with
/// every line and the one past the end asked; and, with an async for the spawn and a finish for the sync, for the
/// engines of that family.
pub fn every(lines: u32) -> impl Iterator<Item = Case> {
    let of = move |number: u64| {
        let [trace, finishes] = Family::BOTH.map(|family| {
            let mut trace = Trace::with_sites(1);
            (0..lines).for_each(|place| one_of_eight(family, &mut trace, number / KINDS.pow(place) % KINDS));
            trace.chars
        });
        let compact = Question::Compact { trace: trace.clone(), limits: SMALL, spare: CompactSpare::default() };
        let (asked, spare) = (whys::every_line(&trace), Spare::default());
        let why = Question::Why { trace: trace.clone(), limits: SMALL, lines: asked, spare };
        let engines = |family, trace| Question::Engines { family, trace, limits: SMALL, spare };
        let (base, other) = (engines(Family::Base, trace), engines(Family::Finishes, finishes));
        [base, compact, why, other].map(|question| Case { question, rubbish: number })
    };
    (0..KINDS.pow(lines)).flat_map(of)
}

/// Limits that some of those traces break.
const SMALL: Limits = Limits { depth: 3, sites: 2 };

fn one_of_eight(family: Family, trace: &mut Trace, which: u64) {
    match (which, family) {
        (0 | 1, _) => trace.cost(which + 1),
        (2, Family::Base) => trace.sync(),
        (2, Family::Finishes) => trace.finish(),
        (3, _) => trace.call(1),
        (4, Family::Base) => trace.spawn(1),
        (4, Family::Finishes) => trace.begin(1),
        (5, _) => trace.leave(),
        (6, _) => trace.carry(3),
        _ => trace.declare(sites::declared(&trace.chars) + 1),
    };
}

/// A trace for the engines of a family.
fn engines(rng: &mut Rng, family: Family) -> Question {
    let (trace, limits, spare) = trace_of(family, rng);
    Question::Engines { family, trace, limits, spare }
}

/// A trace of the base family with its limits and what is lent for it: as often good with enough room as damaged in
/// some way.
pub fn trace(rng: &mut Rng) -> (Vec<u8>, Limits, Spare) {
    trace_of(Family::Base, rng)
}

/// The same of either family.
fn trace_of(family: Family, rng: &mut Rng) -> (Vec<u8>, Limits, Spare) {
    let mut trace = shapes::trace_of(family, rng);
    let mut limits = limits(rng, &trace);
    let mut spare = spare(rng);
    if rng.once_in(4) {
        damage::capitals(rng, &mut trace.chars);
    }
    if rng.once_in(2) {
        damage::some(rng, &mut trace.chars, &mut limits, &mut spare);
    }
    (trace.chars, limits, spare)
}

/// Limits that the trace keeps, often just so.
fn limits(rng: &mut Rng, trace: &Trace) -> Limits {
    if rng.once_in(50) {
        return Limits { depth: 64, sites: 255 };
    }
    let (depth, sites) = used(trace);
    Limits { depth: (depth + rng.below(3)).min(64), sites: (sites + rng.below(3)).min(255) }
}

/// The open depth and the sites of a good trace.
fn used(trace: &Trace) -> (u64, u64) {
    let kinds = trace.chars.chunks(CHARS).map(|line| read_any(line).expect("a good line").kind);
    let (mut open, mut depth, mut sites) = (1, 1, 0);
    for kind in kinds {
        open += u64::from(kind.opens());
        open -= u64::from(kind == Kind::Return);
        sites += u64::from(kind == Kind::Site);
        depth = depth.max(open);
    }
    (depth, sites)
}

/// As much room as is needed, or a little more.
fn spare(rng: &mut Rng) -> Spare {
    let mut more = || if rng.once_in(3) { rng.below(9) as isize } else { 0 };
    Spare { scratch: more(), rows: more(), answer: more(), marks: more() }
}

/// Characters for a line reader: a good line, a damaged one, or nothing like one.
fn read_line(rng: &mut Rng) -> Question {
    let family = rng.pick(&Family::BOTH);
    let mut line = chars(&fields(rng));
    if rng.once_in(3) {
        damage::capitals(rng, &mut line);
    }
    match rng.below(4) {
        0 => (0..rng.between(1, 2)).for_each(|_| damage::character(rng, &mut line)),
        1 => line.resize(rng.index(2 * CHARS), b'0'),
        _ => (),
    }
    Question::ReadLine { family, line, frame: near(rng, WIDTHS.len()) }
}

/// A frame for a line writer, its fields often at an edge of the table or past it.
fn write_line(rng: &mut Rng) -> Question {
    let family = rng.pick(&Family::BOTH);
    let mut frame = fields(rng).to_vec();
    if rng.once_in(3) {
        let field = rng.index(WIDTHS.len());
        frame[field] = rng.pick(&[0, 1, 0xff, 0x100, 0xffff, 0x1_0000, 0xffff_ffff, 0x1_0000_0000, u64::MAX]);
    }
    frame.resize(near(rng, WIDTHS.len()), 0);
    Question::WriteLine { family, frame, out: near(rng, CHARS), written: near(rng, 1) }
}

/// Fields that mostly keep to the table of some family.
fn fields(rng: &mut Rng) -> Fields {
    let site = rng.pick(&[0, 1, 2, 0xff, 0x100, 0xffff]);
    let value = rng.pick(&[1, 9, 0x1234_5678, 0xffff_ffff]);
    let (file, column) = (rng.pick(&[1, 2, 0xabcd, 0xffff]), rng.pick(&[1, 0x10, 0xffff]));
    let good = [
        [1, site, value, file, column],
        [2, site, 0, 0, 0],
        [3, site, 0, 0, 0],
        [4, 0, 0, 0, 0],
        [5, 0, 0, 0, 0],
        [6, 0, value, 0, 0],
        [7, 0, value, 0, 0],
        [0x12, site, 0, 0, 0],
        [0x13, 0, 0, 0, 0],
    ];
    let mut fields = rng.pick(&good);
    if rng.once_in(4) {
        let field = rng.index(WIDTHS.len());
        fields[field] = rng.below(9);
    }
    fields
}

/// A number and a line for the writer of a refusal.
fn refusal(rng: &mut Rng) -> Question {
    let number = if rng.once_in(4) { rng.pick(&[0, 255, 256, 1 << 32, u64::MAX]) } else { rng.between(1, 24) };
    let most = [0xffff_ffff, 0x1_0000_0000, u64::MAX];
    let line = if rng.once_in(4) { rng.pick(&most) } else { rng.below(65_537) };
    Question::Refusal { number, line, out: near(rng, REFUSAL_CHARS), written: near(rng, 1) }
}

/// A length that is mostly enough, sometimes one short or none at all.
pub fn near(rng: &mut Rng, need: usize) -> usize {
    match rng.below(12) {
        0 => need - 1,
        1 => rng.index(need),
        2..=4 => need + rng.index(9),
        _ => need,
    }
}
