//! Traces of asyncs and finishes: twelve by hand, those that are refused, and the lines of the family.

use super::case::{Case, Question, Spare};
use super::forecasts::ROOMS;
use crate::check::{Limits, MOST_LINES};
use crate::line::{chars, Family, Fields, CHARS, WIDTHS};
use crate::refusal::{Ground, Refusal};
use crate::rows::{cycles_alone, Row};
use crate::trace::Trace;

/// One of the family's twelve: the events before the root's return, the depth limit, and the rows of the root and of
/// sites 1 and 2 by hand.
pub struct Named {
    pub name: &'static str,
    pub events: String,
    pub depth: u64,
    pub rows: [Row; 3],
}

impl Named {
    /// The trace of this case: sites 1 and 2 are declared first.
    pub fn trace(&self) -> Trace {
        Trace::from_events(2, &self.events)
    }

    /// M = 2.
    pub fn limits(&self) -> Limits {
        Limits { depth: self.depth, sites: 2 }
    }
}

fn named(name: &'static str, events: &str, rows: [[u64; 5]; 3]) -> Named {
    Named { name, events: events.into(), depth: 4, rows: rows.map(cycles_alone) }
}

const IDLE: [u64; 5] = [0; 5];

/// The twelve, D = 4 but for the last.
pub fn twelve() -> [Named; 12] {
    let mut k = named("K", "finish {2 with 9}, 1", [[1, 3, 3, 3, 3], IDLE, IDLE]);
    k.rows[0] = [1, 3, 3, 3, 3, 9, 9];
    let mut l = named("L", &deepest(), [[1, 1, 1, 1, 1], IDLE, IDLE]);
    l.depth = 64;
    [
        // 3, then 5 beside 4.
        named("A", "3, async 1 {4}, 5", [[1, 12, 8, 8, 8], [1, 4, 4, 4, 0], IDLE]),
        // Each beside each other: of the two 4 the first is chosen.
        named("B", "async 1 {4}, async 2 {4}, 1", [[1, 9, 4, 1, 0], [1, 4, 4, 4, 4], [1, 4, 4, 4, 0]]),
        // A call joins nothing: 7 is beside 1 and beside 2.
        named("C", "call 1 {async 2 {7}, 1}, 2", [[1, 10, 7, 2, 0], [1, 8, 7, 1, 0], [1, 7, 7, 7, 7]]),
        // The finish joins 7 before 2.
        named("D", "finish {call 1 {async 2 {7}, 1}}, 2", [[1, 10, 9, 2, 2], [1, 8, 7, 1, 0], [1, 7, 7, 7, 7]]),
        // 6 is beside 1, and both are beside 2.
        named("E", "async 1 {async 2 {6}, 1}, 2", [[1, 9, 6, 2, 0], [1, 7, 6, 1, 0], [1, 6, 6, 6, 6]]),
        // In site 1 3 beside 1, then 4; beside that 5. The 1 is site 1's own, and so local there is 5.
        named("F", "async 1 {finish {async 2 {3}, 1}, 4}, 5", [[1, 13, 7, 5, 0], [1, 8, 7, 5, 4], [1, 3, 3, 3, 3]]),
        named("G", "finish {}, 2", [[1, 2, 2, 2, 2], IDLE, IDLE]),
        // 1, then 5 beside 3.
        named("H", "1, finish {async 1 {5}, 3}", [[1, 9, 6, 4, 1], [1, 5, 5, 5, 5], IDLE]),
        // Both weigh 4, and the first by line number is chosen.
        named("I", "async 1 {4}, 4", [[1, 8, 4, 4, 0], [1, 4, 4, 4, 4], IDLE]),
        // The finish between them does not make the inner one an outermost one.
        named("J", "call 1 {1, finish {call 1 {2}}}", [[1, 3, 3, 0, 0], [2, 3, 3, 3, 3], IDLE]),
        k,
        l,
    ]
}

/// 63 finishes inside one another with a cost of 1 in the innermost.
fn deepest() -> String {
    "finish {".repeat(63) + "1" + &"}".repeat(63)
}

/// A trace with the refusal that it gets.
pub struct Refused {
    pub name: &'static str,
    pub trace: Trace,
    pub limits: Limits,
    pub refusal: Refusal,
}

/// "Refusals: those of 01 and 22, in their order."
pub fn refused() -> Vec<Refused> {
    let limits = Limits { depth: 4, sites: 2 };
    let of = |name, events: &str, ground: Ground, line| {
        let trace = Trace::from_events(2, events);
        Refused { name, trace, limits, refusal: ground.at(line) }
    };
    let mut all = vec![
        of("a spawn", "spawn 1 {}", Ground::Table, 2),
        of("a sync", "1, sync", Ground::Table, 3),
        of("an async of site 0", "async 0 {}", Ground::Undeclared, 2),
        of("an async of a site that is not declared", "finish {async 3 {}}", Ground::Undeclared, 3),
        of("an async of a site that is declared behind it", "async 3 {}, site 3", Ground::Undeclared, 2),
        of("finishes too deep", "finish {finish {finish {finish {}}}}", Ground::Depth, 5),
        of("an async too deep", "finish {call 1 {finish {async 2 {}}}}", Ground::Depth, 5),
        of("an async of no site too deep", "finish {call 1 {finish {async 9 {}}}}", Ground::Undeclared, 5),
        of("instructions behind a finish", "1, finish {with 2}", Ground::Stray, 4),
        of("instructions behind an async", "1, async 1 {with 2}", Ground::Stray, 4),
        of("instructions behind the end of a finish", "finish {1}, with 2", Ground::Stray, 5),
        of("a finish after the end", "}, finish {", Ground::AfterEnd, 3),
        of("a spawn after the end", "}, spawn 1 {", Ground::Table, 3),
        of("a finish that does not end", "finish {1", Ground::Unfinished, 5),
        of("an async that does not end", "async 1 {1", Ground::Unfinished, 5),
        of("a third site in a finish", "finish {site 3}", Ground::SiteLimit, 3),
    ];
    let (trace, limits) = (Trace::from_events(2, &deepest()), Limits { depth: 63, sites: 2 });
    all.push(Refused { name: "63 finishes and D = 63", trace, limits, refusal: Ground::Depth.at(64) });
    let mut long = Trace::default();
    (0..MOST_LINES / 2).for_each(|_| _ = long.finish().leave());
    let limits = Limits { depth: 2, sites: 0 };
    all.push(Refused { name: "65,537 lines", trace: long.leave().clone(), limits, refusal: Ground::Lines.at(0) });
    all
}

/// Every trace above in each room, the empty file and the longest trace of the family; and its lines.
pub fn cases() -> Vec<Case> {
    let twelve = twelve().map(|named| (named.trace(), named.limits()));
    let refused = refused().into_iter().map(|refused| (refused.trace, refused.limits));
    let plain = Limits { depth: 4, sites: 2 };
    let more = [(Trace::default(), plain), (longest(), plain)];
    let asked = |(trace, limits): (Trace, Limits)| {
        let of = move |spare: Spare| {
            let (family, trace) = (Family::Finishes, trace.chars.clone());
            Question::Engines { family, trace, limits, spare }
        };
        ROOMS.into_iter().map(of)
    };
    let traces = twelve.into_iter().chain(refused).chain(more).flat_map(asked);
    traces.chain(lines()).map(|question| Case { question, rubbish: 1 }).collect()
}

/// 65,536 lines: finishes with an async each and a cost beside it, and costs up to the return.
pub fn longest() -> Trace {
    let mut trace = Trace::with_sites(2);
    while trace.lines() + 8 <= MOST_LINES {
        let turn = trace.lines() as u64;
        trace.finish().begin(1 + turn % 2).cost(1 + turn % 7).leave().cost(1 + turn % 5).leave();
    }
    while trace.lines() + 1 < MOST_LINES {
        trace.cost(3);
    }
    trace.leave();
    trace
}

/// What stands in site, value, file and column: nothing, one of them, or all.
const USED: [[u64; 4]; 6] = [[0; 4], [1, 0, 0, 0], [0, 1, 0, 0], [0, 0, 1, 0], [0, 0, 0, 1], [1; 4]];

/// Of each family: every kind from 00 to ff with used and unused fields, for the reader and the writer, good lines with
/// a wrong character in every place, and rooms of each length near what is needed.
fn lines() -> Vec<Question> {
    Family::BOTH.into_iter().flat_map(lines_of).collect()
}

fn lines_of(family: Family) -> Vec<Question> {
    let reads = |line: Vec<u8>| Question::ReadLine { family, line, frame: WIDTHS.len() };
    let writes = |fields: Fields| Question::WriteLine { family, frame: fields.to_vec(), out: CHARS, written: 1 };
    let all = (0..=0x100).flat_map(|kind| USED.map(|[a, b, c, d]| [kind, a, b, c, d]));
    let mut asked: Vec<Question> = all.clone().map(writes).collect();
    asked.extend(all.filter(|fields| fields[0] < 0x100).map(|fields| reads(chars(&fields))));
    for good in [[0x12, 0xabcd, 0, 0, 0], [0x13, 0, 0, 0, 0], [6, 0, 0xabcd_ef12, 0, 0], [3, 1, 0, 0, 0]] {
        for place in 0..CHARS {
            asked.extend(b"/:@AFG[`afg \n0".map(|c| {
                let mut line = chars(&good);
                line[place] = c;
                reads(line)
            }));
        }
        asked.extend((0..CHARS + 2).map(|length| {
            let mut line = chars(&good);
            line.resize(length, b'0');
            reads(line)
        }));
        for (frame, out, written) in [(4, CHARS, 1), (5, CHARS - 1, 1), (5, CHARS, 0), (6, CHARS + 1, 2)] {
            let (line, mut fields) = (chars(&good), good.to_vec());
            fields.resize(frame, 0);
            asked.push(Question::ReadLine { family, line, frame });
            asked.push(Question::WriteLine { family, frame: fields, out, written });
        }
    }
    asked
}
