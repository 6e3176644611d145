//! Traces with site lines on the way, with what comes of them worked out by hand: answer, rows and chosen chain, or the
//! refusal; and what the compactor leaves of such a trace.

use super::case::{Case, CompactSpare, FoldedSpare, Question, Spare};
use super::compacts::{of, same, Compacted, ROOMS};
use crate::check::{Limits, MOST_LINES};
use crate::forecast::Entry;
use crate::library::Second;
use crate::line::Family;
use crate::rows::{all_cycles_alone, Cycles, Row};
use crate::trace::Trace;

/// A trace with its limits, and what comes of it by hand.
pub struct Met {
    pub name: &'static str,
    pub trace: Trace,
    pub limits: Limits,
    /// The number and the line, where it is refused.
    pub given: Result<Given, (u64, u64)>,
}

/// Total work, total span, sites and lines; the rows; and the lines of the chosen chain.
#[derive(Debug, PartialEq, Eq)]
pub struct Given {
    pub answer: [u64; 4],
    pub rows: Vec<Row>,
    pub chosen: Vec<usize>,
}

impl Met {
    /// What the second program gives of the trace.
    pub fn by(&self, second: &Second) -> Result<Given, (u64, u64)> {
        let found = second.profile(&self.trace.chars, self.limits, &self.limits.for_marks(self.trace.lines()));
        let found = found.map_err(|refusal| (refusal.number(), refusal.line))?;
        let chosen = (0..found.marks.len()).filter(|&line| found.marks[line] == 1).collect();
        Ok(Given { answer: found.answer, rows: found.rows, chosen })
    }
}

/// The limits of every trace here that is written in events.
pub const LIMITS: Limits = Limits { depth: 4, sites: 3 };

/// Every trace of this page.
pub fn traces() -> Vec<Met> {
    let events = |(name, events): (_, &str)| (name, Trace::from_events(0, events), LIMITS);
    let accepted = ACCEPTED.iter().map(|(name, text, answer, rows, chosen)| {
        let given = Given { answer: *answer, rows: all_cycles_alone(rows), chosen: chosen.to_vec() };
        met(events((*name, text)), Ok(given))
    });
    let refused = REFUSED.iter().map(|(name, text, given)| met(events((*name, text)), Err(*given)));
    accepted.chain(refused).chain([each_called(), each_spawned(), last_but_one()]).chain(larger_refused()).collect()
}

pub fn met((name, trace, limits): (&'static str, Trace, Limits), given: Result<Given, (u64, u64)>) -> Met {
    Met { name, trace, limits, given }
}

/// A name, events, and what is given: the answer, the rows without their instructions, which are zero, and the lines of the
/// chosen chain.
type Accepted = (&'static str, &'static str, [u64; 4], &'static [Cycles], &'static [usize]);

const NOTHING: Cycles = [0; 5];

const ACCEPTED: [Accepted; 11] = [
    // 0 site, 1 spawn, 2 site, 3 cost 4, 4 return, 5 cost 3, 6 return: 4 beside 3.
    (
        "between a spawn and its first cost",
        "site 1, spawn 1 {site 2, 4}, 3",
        [7, 4, 2, 7],
        &[[1, 7, 4, 3, 0], [1, 4, 4, 4, 4], NOTHING],
        &[3],
    ),
    ("directly before the root's return", "5, site 1", [5, 5, 1, 3], &[[1, 5, 5, 5, 5], NOTHING], &[0]),
    // 0 cost 2, 1 sync, 2 site, 3 call, 4 cost 3: the root is open before its first site line.
    (
        "behind a cost and a sync",
        "2, sync, site 1, call 1 {3}",
        [5, 5, 1, 7],
        &[[1, 5, 5, 2, 2], [1, 3, 3, 3, 3]],
        &[0, 4],
    ),
    // 0 site, 1 to 3 calls, 4 site, 5 cost 1; four are open. Work and span are the outermost one's.
    (
        "inside depth D",
        "site 1, call 1 {call 1 {call 1 {site 2, 1}}}",
        [1, 1, 2, 10],
        &[[1, 1, 1, 0, 0], [3, 1, 1, 1, 1], NOTHING],
        &[5],
    ),
    // 2 cost 4, 5 cost 3, 6 sync, 7 cost 2: 4 beside 3, then 2.
    (
        "it joins nothing",
        "site 1, spawn 1 {4}, site 2, 3, sync, 2",
        [9, 6, 2, 9],
        &[[1, 9, 6, 5, 2], [1, 4, 4, 4, 4], NOTHING],
        &[2, 7],
    ),
    // 2 cost 3, 5 cost 3: of equal chains the one with the smaller line.
    (
        "between two equal chains",
        "site 1, spawn 1 {3}, site 2, 3",
        [6, 3, 2, 7],
        &[[1, 6, 3, 3, 0], [1, 3, 3, 3, 3], NOTHING],
        &[2],
    ),
    // 3 cost 6, 5 cost 5, 6 sync, 7 site, 8 return, 10 cost 1, 12 cost 2: 6 beside 5, then 1 beside 2.
    (
        "between a sync and its return",
        "site 1, call 1 {spawn 1 {6}, 5, sync, site 2}, spawn 2 {1}, 2",
        [14, 8, 2, 14],
        &[[1, 14, 8, 2, 2], [2, 11, 6, 11, 6], [1, 1, 1, 1, 0]],
        &[3, 12],
    ),
    // 3 cost 3, 6 cost 4: what a spawned body declares is declared behind it.
    (
        "declared in one body, called from another",
        "site 1, spawn 1 {site 2, 3}, call 2 {4}",
        [7, 4, 2, 9],
        &[[1, 7, 4, 0, 0], [1, 3, 3, 3, 0], [1, 4, 4, 4, 4]],
        &[6],
    ),
    // 0 cost 1, 2 cost 2, 4 cost 3: in series.
    ("between costs", "1, site 1, 2, site 2, 3", [6, 6, 2, 6], &[[1, 6, 6, 6, 6], NOTHING, NOTHING], &[0, 2, 4]),
    (
        "a body of site lines",
        "site 1, call 1 {site 2, site 3}",
        [0, 0, 3, 6],
        &[[1, 0, 0, 0, 0], [1, 0, 0, 0, 0], NOTHING, NOTHING],
        &[],
    ),
    // 0 cost 1, 5 cost 5, 8 cost 2, 9 sync, 12 cost 4: 1, then 5 beside 2, then 4.
    (
        "each directly before its first call",
        "1, site 1, spawn 1 {site 2, call 2 {5}}, 2, sync, site 3, call 3 {4}",
        [12, 10, 3, 15],
        &[[1, 12, 10, 3, 1], [1, 5, 5, 0, 0], [1, 5, 5, 5, 5], [1, 4, 4, 4, 4]],
        &[0, 5, 12],
    ),
];

/// A name, events, and the number and the line of the refusal.
const REFUSED: [(&str, &str, (u64, u64)); 13] = [
    ("a call of a site that is declared on the next line", "site 1, call 2 {site 2}", (11, 1)),
    ("a spawn of one, in the first line", "spawn 1 {site 1}", (11, 0)),
    ("a call of one that is declared behind its return", "1, call 1 {}, site 1", (11, 1)),
    ("a number skipped", "site 1, 5, site 3", (8, 2)),
    ("a number skipped, the one in between behind it", "site 1, 5, site 3, site 2", (8, 2)),
    ("a number repeated", "site 1, call 1 {site 1}", (8, 2)),
    ("the first is not 1", "5, site 2", (8, 1)),
    ("numbers in falling order", "5, site 2, site 1", (8, 1)),
    // Its number is not the next, and it is above M = 3 as well.
    ("skipped and above the limit", "site 1, 5, site 4", (8, 2)),
    // 0 site, 1 call, 2 site, 3 call, 4 call, 5 site, 6 site: the fourth of M = 3, in four invocations.
    ("above the limit deep inside", "site 1, call 1 {site 2, call 2 {call 1 {site 3, site 4}}}", (9, 6)),
    // 4 site, 5 call: five would be open.
    ("a call of it inside depth D", "site 1, call 1 {call 1 {call 1 {site 2, call 2 {}}}}", (12, 5)),
    ("behind the root's return", "5}, site 1", (7, 2)),
    // The root's return is taken for the call's: 0 site, 1 call, 2 site, 3 return.
    ("no return of the root behind it", "site 1, call 1 {site 2", (14, 4)),
];

/// 255 sites, each declared directly before its first call, of cost 1: four lines each, of which the third is the cost.
fn each_called() -> Met {
    let mut trace = Trace::default();
    (1..=255).for_each(|site| _ = trace.declare(site).call(site).cost(1).leave());
    trace.leave();
    let mut rows = vec![[1; 5]; 256];
    rows[0] = [1, 255, 255, 0, 0];
    let chosen = (0..255).map(|site| 4 * site + 2).collect();
    let given = Given { answer: [255, 255, 255, 1021], rows: all_cycles_alone(&rows), chosen };
    met(("255 sites called", trace, Limits { depth: 2, sites: 255 }), Ok(given))
}

/// The same spawned, of costs 1, 2, 3 and on: the last is the heaviest, and 255 times 128 are all together.
fn each_spawned() -> Met {
    let mut trace = Trace::default();
    (1..=255).for_each(|site| _ = trace.declare(site).spawn(site).cost(site).leave());
    trace.leave();
    let mut rows: Vec<Cycles> = (0..=255).map(|site| [1, site, site, site, 0]).collect();
    rows[0] = [1, 32_640, 255, 0, 0];
    rows[255] = [1, 255, 255, 255, 255];
    let given = Given { answer: [32_640, 255, 255, 1021], rows: all_cycles_alone(&rows), chosen: vec![1018] };
    met(("255 sites spawned", trace, Limits { depth: 2, sites: 255 }), Ok(given))
}

/// As many lines as there may be: costs of 1, a site line, the return.
fn last_but_one() -> Met {
    let mut trace = Trace::default();
    (0..MOST_LINES - 2).for_each(|_| _ = trace.cost(1));
    trace.declare(1).leave();
    let rows = all_cycles_alone(&[[1, 65_534, 65_534, 65_534, 65_534], NOTHING]);
    let given = Given { answer: [65_534, 65_534, 1, 65_536], rows, chosen: (0..65_534).collect() };
    met(("last but one of 65,536 lines", trace, LIMITS), Ok(given))
}

/// Too many sites, and a place declared before, both far from the first.
fn larger_refused() -> Vec<Met> {
    let mut many = Trace::with_sites(254);
    many.call(1).call(2).declare(255).call(255).cost(1).declare(256);
    let mut far = Trace::default();
    far.site(1, [3, 5, 7]);
    (0..1000).for_each(|_| _ = far.cost(1));
    far.site(2, [3, 5, 7]).leave();
    let none = Trace::from_events(0, "5, site 1");
    vec![
        // 254 site lines, 254 call, 255 call, 256 site, 257 call, 258 cost, 259 site.
        met(("256 sites, the last one deep inside", many, Limits { depth: 4, sites: 255 }), Err((9, 259))),
        met(("the same place far apart", far, LIMITS), Err((10, 1001))),
        met(("a site line where M is 0", none, Limits { depth: 4, sites: 0 }), Err((9, 1))),
    ]
}

/// Traces without sites before the first event, and what the compactor leaves of them by hand.
pub const COMPACTED: [Compacted; 16] = [
    same("two costs with a site line between them", "1, site 1, 2"),
    of("costs on both sides of one", "1, 2, site 1, 3, 4", "3, site 1, 7"),
    of("a dropped sync before it", "1, sync, site 1, 2", "1, site 1, 2"),
    of("a dropped sync behind it", "1, site 1, sync, 2", "1, site 1, 2"),
    of("sums that would fit over it", "4294967290, site 1, 3, 3", "4294967290, site 1, 6"),
    same("sync, site line, return", "site 1, spawn 1 {4}, sync, site 2"),
    same("the same in a called body", "site 1, call 1 {spawn 1 {4}, sync, site 2}, 1"),
    of("site line, sync, return", "site 1, spawn 1 {4}, site 2, sync", "site 1, spawn 1 {4}, site 2"),
    of("sync, site line, sync, return", "site 1, spawn 1 {4}, sync, site 2, sync", "site 1, spawn 1 {4}, sync, site 2"),
    of("a sync with nothing to join before it", "5, sync, site 1", "5, site 1"),
    of("a sync behind it, first in a body", "site 1, call 1 {site 2, sync, 5}", "site 1, call 1 {site 2, 5}"),
    same("between a spawn and the sync that joins it", "site 1, spawn 1 {4}, site 2, sync, 3"),
    of(
        "syncs on both sides of it",
        "site 1, spawn 1 {4}, sync, sync, site 2, sync, sync, 3",
        "site 1, spawn 1 {4}, sync, site 2, 3",
    ),
    of(
        "a body of a site line and a sync",
        "site 1, spawn 1 {4}, call 1 {site 2, sync}, sync, 3",
        "site 1, spawn 1 {4}, call 1 {site 2}, sync, 3",
    ),
    same("costs on both sides of the sync and it", "site 1, spawn 1 {4}, 1, sync, site 2, 2"),
    of(
        "a site line before each return",
        "site 1, call 1 {1, 2, site 2}, 3, sync, 4, site 3",
        "site 1, call 1 {3, site 2}, 7, site 3",
    ),
];

/// Every trace above for the engines, with forecast entries, as folded stacks and for the compactor; and those that the
/// compactor is shown by hand, in each of its rooms.
pub fn cases() -> Vec<Case> {
    let names = names();
    let asked = |met: Met| met.questions(&names);
    let left = |compacted: &Compacted| {
        let trace = Trace::from_events(0, compacted.events).chars;
        ROOMS.map(|spare| Question::Compact { trace: trace.clone(), limits: LIMITS, spare })
    };
    let questions = traces().into_iter().flat_map(asked).chain(COMPACTED.iter().flat_map(left));
    questions.map(|question| Case { question, rubbish: 1 }).collect()
}

impl Met {
    /// The trace for the engines, with forecast entries (the root's costs halved and those of site 1 by 3), as folded stacks
    /// and for the compactor.
    pub fn questions(self, names: &[u8]) -> [Question; 4] {
        let (limits, trace) = (self.limits, || self.trace.chars.clone());
        let entries = vec![Entry { row: 0, factor: 2 }, Entry { row: 1, factor: 3 }];
        [
            Question::Engines { family: Family::Base, trace: trace(), limits, spare: Spare::default() },
            Question::Forecast { trace: trace(), limits, entries, spare: Spare::default() },
            Question::Folded { trace: trace(), limits, lists: [names.to_vec(), vec![]], spare: FoldedSpare::default() },
            Question::Compact { trace: trace(), limits, spare: CompactSpare::default() },
        ]
    }
}

/// A name for each row that there may be.
pub fn names() -> Vec<u8> {
    (0..256).flat_map(|row| format!("name-{row}\n").into_bytes()).collect()
}
