//! Traces with 07 lines, with what comes of them worked out by hand: answer, rows and chosen chain, or the refusal; what a
//! forecast makes of such a trace, and what the compactor leaves of it.

use super::case::{Case, Question, Spare};
use super::compacts::{self, of, same, Compacted, Long};
use super::forecasts;
use super::on_the_way::{met, names, Given, Met};
use crate::check::{Limits, MOST_LINES};
use crate::forecast::Entry;
use crate::line::Family;
use crate::rows::Row;
use crate::trace::Trace;

/// The limits of every trace here that is written in events.
pub const LIMITS: Limits = Limits { depth: 4, sites: 3 };

/// The greatest value of a 07 line.
const MOST: u64 = 4_294_967_295;

/// Every trace of this page.
pub fn traces() -> Vec<Met> {
    let accepted = ACCEPTED.iter().map(|(name, events, answer, rows, chosen)| {
        let given = Given { answer: *answer, rows: rows.to_vec(), chosen: chosen.to_vec() };
        met((name, Trace::from_events(2, events), LIMITS), Ok(given))
    });
    let refused = REFUSED
        .iter()
        .map(|(name, sites, events, given)| met((name, Trace::from_events(*sites, events), LIMITS), Err(*given)));
    let written = WRITTEN.iter().map(|(name, line, given)| {
        let given = given.map(|carried| Given {
            answer: [5, 5, 0, 3],
            rows: vec![[1, 5, 5, 5, 5, carried, carried]],
            chosen: vec![0],
        });
        met((name, with_line(line), LIMITS), given)
    });
    accepted
        .chain(refused)
        .chain(written)
        .chain([least(), each_called(), each_spawned(), deepest(), most(), too_many()])
        .collect()
}

/// A name, events behind two site lines, and what is given: the answer, the rows and the lines of the chosen chain.
type Accepted = (&'static str, &'static str, [u64; 4], &'static [Row], &'static [usize]);

const NOTHING: Row = [0; 7];

const ACCEPTED: [Accepted; 18] = [
    // 2 cost 5, 3 its instructions, 4 return.
    ("behind a cost", "5 with 9", [5, 5, 2, 5], &[[1, 5, 5, 5, 5, 9, 9], NOTHING, NOTHING], &[2]),
    // 3 cost 5, 4 its instructions, 5 the return, 6 cost 3.
    (
        "behind the last cost before a return",
        "call 1 {5 with 9}, 3",
        [8, 8, 2, 8],
        &[[1, 8, 8, 3, 3, 0, 0], [1, 5, 5, 5, 5, 9, 9], NOTHING],
        &[3, 6],
    ),
    ("behind the first of two", "5 with 9, 3", [8, 8, 2, 6], &[[1, 8, 8, 8, 8, 9, 9], NOTHING, NOTHING], &[2, 4]),
    ("behind the second of two", "5, 3 with 9", [8, 8, 2, 6], &[[1, 8, 8, 8, 8, 9, 9], NOTHING, NOTHING], &[2, 3]),
    // 3 cost 4, 6 cost 5: the heavier one in cycles is chosen, whatever the other's instructions.
    (
        "the chain is chosen by cycles",
        "spawn 1 {4 with 1000}, 5 with 1",
        [9, 5, 2, 9],
        &[[1, 9, 5, 5, 5, 1, 1], [1, 4, 4, 4, 0, 1000, 0], NOTHING],
        &[6],
    ),
    // 3 cost 4, 6 cost 4: of equal cycles the smaller line, whatever the other's instructions.
    (
        "a tie, more instructions on the later chain",
        "spawn 1 {4 with 1}, 4 with 1000",
        [8, 4, 2, 9],
        &[[1, 8, 4, 4, 0, 1000, 0], [1, 4, 4, 4, 4, 1, 1], NOTHING],
        &[3],
    ),
    (
        "a tie, instructions on the later chain alone",
        "spawn 1 {4}, 4 with 7",
        [8, 4, 2, 8],
        &[[1, 8, 4, 4, 0, 7, 0], [1, 4, 4, 4, 4, 0, 0], NOTHING],
        &[3],
    ),
    (
        "a tie, instructions on the chosen chain alone",
        "spawn 1 {4 with 7}, 4",
        [8, 4, 2, 8],
        &[[1, 8, 4, 4, 0, 0, 0], [1, 4, 4, 4, 4, 7, 7], NOTHING],
        &[3],
    ),
    // The costs are lines 2, 5, 8, 11 and 14. G's chain is 1, 10; the root's instructions are 1, 4 and 16.
    (
        "G",
        "1 with 1, spawn 1 {10 with 2}, 2 with 4, spawn 2 {8 with 8}, 1 with 16",
        [22, 11, 2, 17],
        &[[1, 22, 11, 4, 1, 21, 1], [1, 10, 10, 10, 10, 2, 2], [1, 8, 8, 8, 0, 8, 0]],
        &[2, 5],
    ),
    // H's chain is 1, 2, 9: of the root's instructions 1 and 4 are on it.
    (
        "H",
        "1 with 1, spawn 1 {10 with 2}, 2 with 4, spawn 2 {9 with 8}, 1 with 16",
        [23, 12, 2, 17],
        &[[1, 23, 12, 4, 3, 21, 5], [1, 10, 10, 10, 0, 2, 0], [1, 9, 9, 9, 9, 8, 8]],
        &[2, 8, 11],
    ),
    // The costs are lines 4, 7 and 10.
    (
        "I",
        "call 1 {spawn 2 {7 with 1}, 1 with 2}, 2 with 4",
        [10, 9, 2, 13],
        &[[1, 10, 9, 2, 2, 4, 4], [1, 8, 7, 1, 0, 2, 0], [1, 7, 7, 7, 7, 1, 1]],
        &[4, 10],
    ),
    // Columns 6 and 7 count both invocations of site 1.
    (
        "K",
        "call 1 {1 with 10, call 1 {2 with 20}}",
        [3, 3, 2, 11],
        &[[1, 3, 3, 0, 0, 0, 0], [2, 3, 3, 3, 3, 30, 30], NOTHING],
        &[3, 6],
    ),
    // 3 beside 1 and 1: the called function's sync joins nothing of its caller's.
    (
        "J",
        "spawn 1 {3 with 6}, call 2 {1 with 2, sync, 1 with 2}",
        [5, 3, 2, 14],
        &[[1, 5, 3, 0, 0, 0, 0], [1, 3, 3, 3, 3, 6, 6], [1, 2, 2, 2, 0, 4, 0]],
        &[3],
    ),
    // 3 cost 4, 6 sync, 7 cost 4.
    (
        "E",
        "spawn 1 {4 with 3}, sync, 4 with 5",
        [8, 8, 2, 10],
        &[[1, 8, 8, 4, 4, 5, 5], [1, 4, 4, 4, 4, 3, 3], NOTHING],
        &[3, 7],
    ),
    // 3 cost 4, 5 cost 2, 7 cost 1: 4 beside 2 and 1.
    (
        "it joins nothing",
        "spawn 1 {4}, 2 with 9, 1",
        [7, 4, 2, 9],
        &[[1, 7, 4, 3, 0, 9, 0], [1, 4, 4, 4, 4, 0, 0], NOTHING],
        &[3],
    ),
    // 2 cost, 4 cost 1: 2^32 cycles, and twice the most of instructions.
    (
        "the greatest values",
        "4294967295 with 4294967295, 1 with 4294967295",
        [4_294_967_296, 4_294_967_296, 2, 7],
        &[
            [1, 4_294_967_296, 4_294_967_296, 4_294_967_296, 4_294_967_296, 8_589_934_590, 8_589_934_590],
            NOTHING,
            NOTHING,
        ],
        &[2, 4],
    ),
    // 2 cost 5, 4 site line, 5 cost 3.
    (
        "a site line behind it",
        "5 with 9, site 3, 3 with 1",
        [8, 8, 3, 8],
        &[[1, 8, 8, 8, 8, 10, 10], NOTHING, NOTHING, NOTHING],
        &[2, 5],
    ),
    // 2 cost 1, 4 spawn, 5 return, 6 sync, 7 cost 1.
    (
        "a spawn behind it",
        "1 with 1, spawn 1 {}, sync, 1",
        [2, 2, 2, 9],
        &[[1, 2, 2, 2, 2, 1, 1], [1, 0, 0, 0, 0, 0, 0], NOTHING],
        &[2, 7],
    ),
];

/// A name, the sites declared before the first event, events, and the number and the line of the refusal.
const REFUSED: [(&str, u64, &str, (u64, u64)); 20] = [
    ("the first line", 0, "with 9", (22, 0)),
    ("behind a site line", 2, "with 9", (22, 2)),
    ("behind a site line on the way", 0, "5, site 1 with 9", (22, 2)),
    ("behind a sync", 2, "5, sync with 9", (22, 4)),
    ("behind a call", 2, "call 1 {with 9}", (22, 3)),
    ("behind a spawn", 2, "spawn 1 {with 9}", (22, 3)),
    ("behind a return", 2, "call 1 {5} with 9", (22, 5)),
    ("a second one", 2, "5 with 9 with 9", (22, 4)),
    ("a second one behind the last cost before a return", 2, "call 1 {5 with 9 with 1}", (22, 5)),
    ("behind the root's return", 2, "5} with 9", (7, 4)),
    ("behind the root's return and another", 2, "5 with 9} with 9", (7, 5)),
    ("of 0", 2, "5 with 0", (6, 3)),
    ("of 0 behind a sync", 2, "sync with 0", (6, 3)),
    ("of 0 behind the root's return", 2, "5} with 0", (6, 4)),
    // The root's return is taken for the call's: 2 call, 3 cost, 4 its instructions, 5 return.
    ("no return of the root behind it", 2, "call 1 {5 with 9", (14, 6)),
    ("before another fault", 2, "sync with 9, call 3 {}", (22, 3)),
    ("behind another fault", 2, "call 3 {} with 9", (11, 2)),
    ("in depth D, then a call", 2, "call 1 {call 1 {call 1 {5 with 9, call 1 {}}}}", (12, 7)),
    ("a site line above the limit behind it", 2, "5 with 9, site 3, site 4", (9, 5)),
    ("a site line with a number skipped behind it", 2, "5 with 9, site 4", (8, 4)),
];

/// A name, a line behind a cost of 5, and the instructions that it carries or the refusal.
type Written = (&'static str, &'static str, Result<u64, (u64, u64)>);

const WRITTEN: [Written; 13] = [
    ("of 1", "0700000000000100000000", Ok(1)),
    ("of the greatest value", "070000ffffffff00000000", Ok(MOST)),
    ("with capital digits", "070000FFFFFFFF00000000", Ok(MOST)),
    ("with digits of both cases", "070000aBcDeF0100000000", Ok(2_882_400_001)),
    ("of 0, written", "0700000000000000000000", Err((6, 1))),
    ("with a site", "0700010000000900000000", Err((6, 1))),
    ("with a file", "0700000000000900010000", Err((6, 1))),
    ("with a column", "0700000000000900000001", Err((6, 1))),
    ("kind 08", "0800000000000900000000", Err((6, 1))),
    ("kind 17", "1700000000000900000000", Err((6, 1))),
    ("kind 70", "7000000000000900000000", Err((6, 1))),
    ("a g among its digits", "0700000000000g00000000", Err((5, 1))),
    ("a capital G among its digits", "0700000000000G00000000", Err((5, 1))),
];

/// A cost of 5, a line, and the root's return.
fn with_line(line: &str) -> Trace {
    let mut trace = Trace::default();
    trace.cost(5);
    trace.chars.extend(line.bytes().chain([b'\n']));
    trace.leave();
    trace
}

/// The least limits there are.
fn least() -> Met {
    let given = Given { answer: [5, 5, 0, 3], rows: vec![[1, 5, 5, 5, 5, 9, 9]], chosen: vec![0] };
    met(("D = 1 and M = 0", Trace::from_events(0, "5 with 9"), Limits { depth: 1, sites: 0 }), Ok(given))
}

/// 255 sites called, each of cost 1 and with its own number of instructions: four lines each, of which the second is the cost.
fn each_called() -> Met {
    let mut trace = Trace::with_sites(255);
    (1..=255).for_each(|site| _ = trace.call(site).cost(1).carry(site).leave());
    trace.leave();
    let mut rows: Vec<Row> = (0..=255).map(|site| [1, 1, 1, 1, 1, site, site]).collect();
    rows[0] = [1, 255, 255, 0, 0, 0, 0];
    let chosen = (0..255).map(|site| 255 + 4 * site + 1).collect();
    let given = Given { answer: [255, 255, 255, 1276], rows, chosen };
    met(("255 sites called", trace, Limits { depth: 2, sites: 255 }), Ok(given))
}

/// The same spawned, of costs 1, 2, 3 and on, and of instructions 255, 254, 253 and on: the last, with 1 instruction, is the
/// heaviest.
fn each_spawned() -> Met {
    let mut trace = Trace::with_sites(255);
    (1..=255).for_each(|site| _ = trace.spawn(site).cost(site).carry(256 - site).leave());
    trace.leave();
    let mut rows: Vec<Row> = (0..=255).map(|site| [1, site, site, site, 0, 256 - site, 0]).collect();
    rows[0] = [1, 32_640, 255, 0, 0, 0, 0];
    rows[255] = [1, 255, 255, 255, 255, 1, 1];
    let given = Given { answer: [32_640, 255, 255, 1276], rows, chosen: vec![1272] };
    met(("255 sites spawned", trace, Limits { depth: 2, sites: 255 }), Ok(given))
}

/// As many open as there may be, each with a cost of 1 and 2 instructions before its call: the costs are every third line
/// behind the site line.
fn deepest() -> Met {
    let mut trace = Trace::with_sites(1);
    (0..63).for_each(|_| _ = trace.cost(1).carry(2).call(1));
    trace.cost(1).carry(2);
    (0..64).for_each(|_| _ = trace.leave());
    let rows = vec![[1, 64, 64, 1, 1, 2, 2], [63, 63, 63, 63, 63, 126, 126]];
    let given = Given { answer: [64, 64, 1, 256], rows, chosen: (0..64).map(|n| 1 + 3 * n).collect() };
    met(("64 open", trace, Limits { depth: 64, sites: 1 }), Ok(given))
}

/// 32,767 costs of 1 with the most of instructions, and one without.
fn pairs() -> Trace {
    let mut trace = Trace::default();
    (0..32_767).for_each(|_| _ = trace.cost(1).carry(MOST));
    trace.cost(1).leave();
    trace
}

/// As many lines as there may be: 32,767 times 4,294,967,295 is 2^47 - 2^32 - 2^15 + 1.
fn most() -> Met {
    let carried = 140_733_193_355_265;
    let rows = vec![[1, 32_768, 32_768, 32_768, 32_768, carried, carried]];
    let given = Given { answer: [32_768, 32_768, 0, 65_536], rows, chosen: (0..32_768).map(|n| 2 * n).collect() };
    met(("65,536 lines", pairs(), LIMITS), Ok(given))
}

/// One line more.
fn too_many() -> Met {
    let mut trace = pairs();
    trace.carry(1);
    assert_eq!(trace.lines(), MOST_LINES + 1);
    met(("65,537 lines", trace, LIMITS), Err((3, 0)))
}

/// A name, events behind two site lines, forecast entries, and the rows by hand: "Forecasts leave instructions as they are."
type Forecast = (&'static str, &'static str, &'static [(u64, u64)], [Row; 3]);

pub const FORECASTS: [Forecast; 4] = [
    // 7 by 2 is 4; the instructions are those of I.
    (
        "I, the spawned site halved",
        "call 1 {spawn 2 {7 with 1}, 1 with 2}, 2 with 4",
        &[(2, 2)],
        [[1, 7, 6, 2, 2, 4, 4], [1, 5, 4, 1, 0, 2, 0], [1, 4, 4, 4, 4, 1, 1]],
    ),
    // 10 by 2 is 5: the chain goes over to 1, 2, 8, and its instructions with it.
    (
        "G, the chain goes over to the next",
        "1 with 1, spawn 1 {10 with 2}, 2 with 4, spawn 2 {8 with 8}, 1 with 16",
        &[(1, 2)],
        [[1, 17, 11, 4, 3, 21, 5], [1, 5, 5, 5, 0, 2, 0], [1, 8, 8, 8, 8, 8, 8]],
    ),
    // 1,000 by 1,000 is 1, beside 1: the spawned one's line comes first.
    (
        "instructions are not divided",
        "spawn 1 {1000 with 1000}, 1 with 3",
        &[(1, 1000)],
        [[1, 2, 1, 1, 0, 3, 0], [1, 1, 1, 1, 1, 1000, 1000], NOTHING],
    ),
    ("an empty list", "5 with 9", &[], [[1, 5, 5, 5, 5, 9, 9], NOTHING, NOTHING]),
];

/// Traces of two sites, and what the compactor leaves of them by hand.
pub const COMPACTED: [Compacted; 26] = [
    same("a cost with its instructions", "1 with 2"),
    of("two of them", "1 with 2, 3 with 4", "4 with 6"),
    of("three of them", "1 with 2, 3 with 4, 5 with 6", "9 with 12"),
    of("with, then without", "1 with 2, 3", "4 with 2"),
    of("without, then with", "1, 3 with 4", "4 with 4"),
    of("with between without", "1, 2 with 5, 3", "6 with 5"),
    of("without between with", "1 with 5, 2, 3 with 7", "6 with 12"),
    of("instructions that just fit", "1 with 4294967294, 2 with 1", "3 with 4294967295"),
    same("instructions that do not fit, though the cycles do", "1 with 4294967295, 2 with 1"),
    same("cycles that do not fit, though the instructions do", "4294967295 with 1, 1 with 2"),
    same("neither fits", "4294967295 with 4294967295, 1 with 1"),
    of("both just fit", "4294967294 with 4294967294, 1 with 1", "4294967295 with 4294967295"),
    of(
        "the instructions do not fit, and the next has none",
        "1 with 4294967295, 2 with 1, 3",
        "1 with 4294967295, 5 with 1",
    ),
    of("one without goes to the left", "1 with 4294967295, 2, 3 with 1", "3 with 4294967295, 3 with 1"),
    // From the left: the last two would fit as well as the first two.
    of(
        "the first two fit, and the last two would",
        "1 with 2147483647, 1 with 2147483648, 1 with 2147483647",
        "2 with 4294967295, 1 with 2147483647",
    ),
    same("one measure does not fit, then the other", "4294967295 with 1, 1 with 4294967295, 1 with 1"),
    of("a dropped sync between them", "1 with 2, sync, 3 with 4", "4 with 6"),
    of("a dropped sync, and nothing carried behind it", "1 with 2, sync, 3", "4 with 2"),
    same("a kept sync between them", "spawn 1 {4 with 1}, 1 with 2, sync, 3 with 4"),
    of("a sync before the return", "spawn 1 {4}, 1 with 2, sync", "spawn 1 {4}, 1 with 2"),
    of(
        "a sync with nothing to join between them",
        "spawn 1 {4}, sync, 1 with 2, sync, 3 with 4",
        "spawn 1 {4}, sync, 4 with 6",
    ),
    same("a site line between them", "1 with 2, site 3, 3 with 4"),
    same("a call with an empty body between them", "1 with 2, call 1 {}, 3 with 4"),
    same("a spawn with an empty body between them", "1 with 2, spawn 1 {}, 3 with 4"),
    of(
        "before, in and behind a call",
        "1 with 1, 1 with 1, call 1 {2 with 2, 2 with 2}, 3 with 3, 3",
        "2 with 2, call 1 {4 with 4}, 6 with 3",
    ),
    of("the last cost before a return", "call 1 {1, 2 with 7}, 3", "call 1 {3 with 7}, 3"),
];

/// As many lines as there may be: no two that carry the most merge, and the last cost, which carries nothing, goes to the one
/// before it.
pub fn long() -> Long {
    let mut left = Trace::default();
    (0..32_766).for_each(|_| _ = left.cost(1).carry(MOST));
    left.cost(2).carry(MOST).leave();
    Long { name: "pairs that do not merge", trace: pairs(), left }
}

/// Every trace above for the engines in each room, with forecast entries, as folded stacks and for the compactor; and those
/// that are forecast and compacted by hand, in each of their rooms.
pub fn cases() -> Vec<Case> {
    let names = names();
    let rooms = |met: &Met| {
        let (trace, limits) = (met.trace.chars.clone(), met.limits);
        let of = move |spare: &Spare| {
            let (family, trace) = (Family::Base, trace.clone());
            Question::Engines { family, trace, limits, spare: *spare }
        };
        forecasts::ROOMS[1..].iter().map(of)
    };
    let asked = traces().into_iter().flat_map(|met| rooms(&met).chain(met.questions(&names)).collect::<Vec<_>>());
    let forecast = FORECASTS.iter().flat_map(|(_, events, entries, _)| {
        let entries: Vec<Entry> = entries.iter().map(|&(row, factor)| Entry { row, factor }).collect();
        let (trace, limits) = (Trace::from_events(2, events).chars, LIMITS);
        forecasts::ROOMS.map(|spare| Question::Forecast {
            trace: trace.clone(),
            limits,
            entries: entries.clone(),
            spare,
        })
    });
    let by_hand = COMPACTED.iter().map(|compacted| Trace::from_events(2, compacted.events));
    let left = by_hand.chain([long().trace]).flat_map(|trace| {
        compacts::ROOMS.map(|spare| Question::Compact { trace: trace.chars.clone(), limits: LIMITS, spare })
    });
    asked.chain(forecast).chain(left).map(|question| Case { question, rubbish: 1 }).collect()
}
