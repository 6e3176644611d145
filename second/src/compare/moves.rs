//! Cases in which one cost line of a trace weighs more or less than it did, and how far that may move the span: asked of one
//! program alone, which profiles the trace as it stands and with the one line rewritten.

use super::case::{Case, Outcome, Question, Spare};
use super::generate;
use super::rng::Rng;
use crate::check::{self, Limits};
use crate::heaviest;
use crate::library::{Library, Second};
use crate::line::{chars, read, Family, Fields, Kind, CHARS};
use crate::trace::Trace;

/// The greatest value of a cost line.
pub const MOST: u64 = 4_294_967_295;

/// A trace of two sites in the notation of the twelve, one of its costs, counted from 0, with another value, and the span
/// before and after by hand.
pub struct Moved {
    pub name: &'static str,
    pub events: &'static str,
    pub cost: usize,
    pub value: u64,
    pub spans: [u64; 2],
}

const fn of(name: &'static str, events: &'static str, cost: usize, value: u64, spans: [u64; 2]) -> Moved {
    Moved { name, events, cost, value, spans }
}

/// The rules' C and G. G's heaviest chains are 1, 10 and 1, 2, 8, and the first of them is chosen; through its last 1 the
/// heaviest is 1, 2, 1.
const C: &str = "spawn 1 {4}, 4";
const G: &str = "1, spawn 1 {10}, 2, spawn 2 {8}, 1";

pub const BY_HAND: [Moved; 24] = [
    of("a cost alone", "5", 0, 6, [5, 6]),
    of("a cost alone to the greatest value", "5", 0, MOST, [5, MOST]),
    of("the greatest value but one", "4294967294, 4294967294", 1, MOST, [2 * MOST - 2, 2 * MOST - 1]),
    of("C, on the chosen chain", C, 0, 7, [4, 7]),
    of("C, on the equal chain", C, 1, 7, [4, 7]),
    of("C, the chosen one lowered", C, 0, 1, [4, 4]),
    of("C, the equal one lowered", C, 1, 1, [4, 4]),
    of("G, on both of the heaviest", G, 0, 2, [11, 12]),
    of("G, on the chosen one", G, 1, 11, [11, 12]),
    of("G, on the equal one", G, 2, 5, [11, 14]),
    // This is H.
    of("G, on the equal one's last", G, 3, 9, [11, 12]),
    of("G, off both", G, 4, 2, [11, 11]),
    // 1, 2, 8 is as heavy as 1, 10 still.
    of("G, off both by all that it lacks", G, 4, 8, [11, 11]),
    of("G, off both by one more", G, 4, 9, [11, 12]),
    of("G, off both by far more", G, 4, 101, [11, 104]),
    of("G, the chosen one lowered", G, 1, 1, [11, 11]),
    of("G, the equal one lowered", G, 2, 1, [11, 11]),
    of("G, the equal one's last lowered", G, 3, 1, [11, 11]),
    // H as it becomes G: 12 falls to 11 by as much as the cost.
    of("H, the chosen one lowered", "1, spawn 1 {10}, 2, spawn 2 {9}, 1", 3, 8, [12, 11]),
    // 12 falls to 11, where the other chain holds it, and not to 5.
    of("H, the chosen one lowered further", "1, spawn 1 {10}, 2, spawn 2 {9}, 1", 3, 2, [12, 11]),
    of("I, beside the heavier child", "call 1 {spawn 2 {7}, 1}, 2", 1, 7, [9, 9]),
    of("I, beside the lighter child", "call 1 {spawn 2 {7}, 1}, 2", 1, 9, [9, 11]),
    of("J, a called function's sync joins nothing", "spawn 1 {3}, call 2 {1, sync, 1}", 2, 3, [3, 4]),
    of("K, an inner cost", "call 1 {1, call 1 {2}}", 1, 3, [3, 4]),
];

/// Which costs of each of the twelve stand on some heaviest chain, by hand.
pub const STANDING: [(&str, &[bool]); 12] = [
    ("A", &[]),
    ("B", &[true, true]),
    ("C", &[true, true]),
    ("D", &[false, true]),
    ("E", &[true, true]),
    ("F", &[true, true]),
    ("G", &[true, true, true, true, false]),
    ("H", &[true, false, true, true, false]),
    ("I", &[true, false, true]),
    ("J", &[true, false, false]),
    ("K", &[true, true]),
    ("L", &[true, false, false, true]),
];

/// The limits of every trace here that is written in events.
pub const LIMITS: Limits = Limits { depth: 4, sites: 2 };

/// Just enough room, and one short of what each engine is lent.
const ROOMS: [Spare; 3] = [
    Spare { scratch: 0, rows: 0, answer: 0, marks: 0 },
    Spare { scratch: -1, rows: 0, answer: 0, marks: 0 },
    Spare { scratch: 0, rows: 0, answer: 0, marks: -1 },
];

/// Every move above, each in every room.
pub fn cases() -> Vec<Case> {
    let of = |moved: &Moved| {
        let (trace, cost, value) = (Trace::from_events(2, moved.events).chars, moved.cost, moved.value);
        ROOMS.map(move |spare| Question::Moved { trace: trace.clone(), limits: LIMITS, cost, value, spare })
    };
    BY_HAND.iter().flat_map(of).map(|question| Case { question, rubbish: 1 }).collect()
}

/// A trace as often good as damaged, and one of its costs with another value; half of them with all costs alike, so that
/// chains tie, and half with a cost off the chosen chain, if there is one.
pub fn write(rng: &mut Rng) -> Question {
    let (mut trace, limits, spare) = generate::trace(rng);
    if rng.once_in(2) {
        level(rng, &mut trace);
    }
    let costs = costs(&trace);
    let off = off_the_chosen_chain(&trace, &costs);
    let cost = if rng.once_in(2) && !off.is_empty() { rng.pick(&off) } else { rng.index(costs.len().max(1)) };
    let value = costs.get(cost).map_or(1, |&(_, old)| another(rng, old));
    Question::Moved { trace, limits, cost, value, spare }
}

/// Gives all costs one small value.
pub fn level(rng: &mut Rng, trace: &mut [u8]) {
    let same = chars(&cost_fields(rng.between(1, 3)));
    for (line, _) in costs(trace) {
        trace[line * CHARS..][..CHARS].copy_from_slice(&same);
    }
}

/// The numbers of a good trace's costs that are not on its chosen chain.
pub fn off_the_chosen_chain(trace: &[u8], costs: &[(usize, u64)]) -> Vec<usize> {
    let wide = Limits { depth: 64, sites: 255 };
    let profile = Second::by_paths().profile(trace, wide, &wide.for_tables());
    profile.map_or(vec![], |profile| (0..costs.len()).filter(|&cost| profile.marks[costs[cost].0] == 0).collect())
}

/// A value for a cost that has an old one: mostly a little more, sometimes less, seldom anything.
fn another(rng: &mut Rng, old: u64) -> u64 {
    match rng.below(10) {
        0 => rng.pick(&[1, MOST]),
        1 => rng.between(1, MOST),
        2 | 3 => rng.between(1, old),
        _ => (old + rng.between(1, 9)).min(MOST),
    }
}

fn cost_fields(value: u64) -> Fields {
    [Kind::Cost.number(), 0, value, 0, 0]
}

/// The good cost lines of a text, each with its line number and its value.
pub fn costs(trace: &[u8]) -> Vec<(usize, u64)> {
    let value = |chars: &[u8]| read(chars).ok().filter(|line| line.kind == Kind::Cost).map(|line| line.value);
    let lines = trace.chunks(CHARS).enumerate();
    lines.filter_map(|(number, chars)| value(chars).map(|value| (number, value))).collect()
}

/// A trace whose cost with this number has another value: that line as a program's line writer gives it, and every other
/// character as it was.
pub fn rewritten(library: &dyn Library, trace: &[u8], cost: usize, value: u64) -> Vec<u8> {
    let mut text = trace.to_vec();
    if let Some(&(line, _)) = costs(trace).get(cost) {
        library.write_line(Family::Base, &cost_fields(value), &mut text[line * CHARS..][..CHARS], &mut [0]);
    }
    text
}

/// The laws that a program does not keep on a case; none where the case moves no cost.
pub fn broken(case: &Case, library: &dyn Library) -> Vec<&'static str> {
    let Question::Moved { trace, limits, cost, value, spare } = &case.question else { return vec![] };
    let Some(&(line, old)) = costs(trace).get(*cost).filter(|(_, old)| old != value) else { return vec![] };
    let plain = Question::Engines { family: Family::Base, trace: trace.clone(), limits: *limits, spare: *spare };
    let before = Case { question: plain, rubbish: case.rubbish }.ask(library);
    let after = case.ask(library);
    let mut laws = vec![("what is refused is refused alike", before.codes == after.codes)];
    let text = rewritten(library, trace, *cost, *value);
    // A cost that is lowered was raised before: what holds of the lighter trace and the heavier one holds of both.
    let lighter = if old < *value { (&before, &trace[..]) } else { (&after, &text[..]) };
    let heavier = if old < *value { &after } else { &before };
    if before.codes.iter().chain(&after.codes).all(|(_, code)| *code == 0) {
        let raised = Raised::of(lighter, heavier, *limits, line, old.abs_diff(*value));
        laws.extend(raised.map_or(vec![("answers and marks are there", false)], |raised| raised.laws()));
    }
    laws.into_iter().filter(|(_, holds)| !holds).map(|(law, _)| law).collect()
}

/// What both engines answer of a trace and of the same with one cost line raised.
struct Raised<'a> {
    by: u64,
    lighter: [&'a [u64]; 2],
    heavier: [&'a [u64]; 2],
    /// Whether the line is on the chosen chain of the lighter one, by its marks.
    chosen: bool,
    /// Whether it stands on some heaviest chain of the lighter one, by the second program.
    stands: bool,
}

impl Raised<'_> {
    fn of<'a>(
        (lighter, text): (&'a Outcome, &[u8]),
        heavier: &'a Outcome,
        limits: Limits,
        line: usize,
        by: u64,
    ) -> Option<Raised<'a>> {
        let shape = check::trace(text, limits, &limits.for_tables()).ok()?;
        Some(Raised {
            by,
            lighter: answers(lighter)?,
            heavier: answers(heavier)?,
            chosen: *lighter.bytes_of("marks engine's marks")?.get(line)? == 1,
            stands: heaviest::stands_on_some(&shape, line, Second::new().search),
        })
    }

    /// "The span then grows by at most d and never falls, and it grows by exactly d if and only if that line stands on some
    /// heaviest chain."
    fn laws(&self) -> Vec<(&'static str, bool)> {
        let Raised { by, chosen, stands, .. } = *self;
        vec![
            (
                "sites and lines stay, and the work grows by as much",
                self.all(|a, b| a[0] + by == b[0] && a[2..] == b[2..]),
            ),
            ("the span never falls where a cost is raised", self.all(|a, b| a[1] <= b[1])),
            ("the span grows by at most as much as a cost", self.all(|a, b| b[1] <= a[1] + by)),
            (
                "the span grows by as much as a cost if and only if that stands on some heaviest chain",
                self.all(|a, b| (b[1] == a[1] + by) == stands),
            ),
            ("a cost on the chosen chain moves the span by as much", self.all(|a, b| !chosen || b[1] == a[1] + by)),
        ]
    }

    /// Whether something holds of the lighter and the heavier answer, whichever engine gave each.
    fn all(&self, holds: impl Fn(&[u64], &[u64]) -> bool) -> bool {
        self.lighter.iter().all(|lighter| self.heavier.iter().all(|heavier| holds(lighter, heavier)))
    }
}

/// Total work, total span, sites and lines by both engines.
fn answers(outcome: &Outcome) -> Option<[&[u64]; 2]> {
    let answer = |name| outcome.numbers_of(name)?.get(..4);
    Some([answer("table engine's answer")?, answer("marks engine's answer")?])
}
