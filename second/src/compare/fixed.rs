//! The traces that the rules name: the twelve, and the further ones that are to be run and compared; traces whose sites
//! call themselves; the texts that tell good comma-separated text from any other; the lists that tell a name from none;
//! the forecast entries that tell a good list from any other; traces whose lines say nothing; costs that move the span;
//! traces with site lines on the way; traces with 07 lines; rows with and without calls; lines on the span and off it;
//! and traces of asyncs and finishes, and their lines.

use super::case::{Case, Question, Spare};
use super::{carried, compacts, finishes, forecasts, moves, on_the_way, reports, sheets, stacks, whys};
use crate::check::{Limits, MOST_LINES};
use crate::line::Family;
use crate::refusal::{Ground, Refusal};
use crate::rows::Cycles;
use crate::trace::Trace;

/// One of the twelve: "events before the root's return", work, span, and on span for rows 0, 1 and 2.
pub struct Named {
    pub name: &'static str,
    pub events: &'static str,
    pub work: u64,
    pub span: u64,
    pub on_span: [u64; 3],
}

/// "Twelve traces, to be proved", number by number as the rules print them.
pub const TWELVE: [Named; 12] = [
    Named { name: "A", events: "none", work: 0, span: 0, on_span: [0, 0, 0] },
    Named { name: "B", events: "cost 5, cost 3", work: 8, span: 8, on_span: [8, 0, 0] },
    Named { name: "C", events: "spawn 1 {4}, cost 4", work: 8, span: 4, on_span: [0, 4, 0] },
    Named { name: "D", events: "spawn 1 {4}, cost 5", work: 9, span: 5, on_span: [5, 0, 0] },
    Named { name: "E", events: "spawn 1 {4}, sync, cost 4", work: 8, span: 8, on_span: [4, 4, 0] },
    Named { name: "F", events: "call 1 {4}, cost 4", work: 8, span: 8, on_span: [4, 4, 0] },
    Named { name: "G", events: "1, spawn 1 {10}, 2, spawn 2 {8}, 1", work: 22, span: 11, on_span: [1, 10, 0] },
    Named { name: "H", events: "1, spawn 1 {10}, 2, spawn 2 {9}, 1", work: 23, span: 12, on_span: [3, 0, 9] },
    Named { name: "I", events: "call 1 {spawn 2 {7}, 1}, 2", work: 10, span: 9, on_span: [2, 0, 7] },
    Named { name: "J", events: "spawn 1 {3}, call 2 {1, sync, 1}", work: 5, span: 3, on_span: [0, 3, 0] },
    Named { name: "K", events: "call 1 {1, call 1 {2}}", work: 3, span: 3, on_span: [0, 3, 0] },
    Named { name: "L", events: "spawn 1 {spawn 2 {6}, 1}, 2, sync, 1", work: 10, span: 7, on_span: [1, 0, 6] },
];

/// "Sites 1 and 2 declared, D = 4, M = 2."
pub const TWELVE_LIMITS: Limits = Limits { depth: 4, sites: 2 };

impl Named {
    /// The trace of this case.
    pub fn trace(&self) -> Trace {
        Trace::from_events(2, self.events)
    }
}

/// A further trace with what the rules say of it.
pub struct Further {
    pub name: String,
    pub trace: Trace,
    pub limits: Limits,
    /// Nothing if it is accepted.
    pub refusal: Option<Refusal>,
}

/// "the empty file (14, line 0), a lone return (accepted), a well-formed line after it (7), call 2 with one site (11),
/// D = 1 and a call (12), M and M+1 sites, 65,536 and 65,537 lines, cost 0 (6)"; the heaviest trace; and the neighbours of
/// the capital digits
pub fn further() -> Vec<Further> {
    let plain = Limits { depth: 4, sites: 2 };
    let mut all = vec![
        Further::new("the empty file", Trace::default(), plain, Some(Ground::Unfinished.at(0))),
        Further::new("a lone return", lone_return(), plain, None),
        Further::new("a sync after it", lone_return().sync().clone(), plain, Some(Ground::AfterEnd.at(1))),
        Further::new("a return after it", lone_return().leave().clone(), plain, Some(Ground::AfterEnd.at(1))),
        Further::new("a site after it", lone_return().site(1, [1, 1, 1]).clone(), plain, Some(Ground::AfterEnd.at(1))),
        Further::new("call 2 with one site", Trace::from_events(1, "call 2 {}"), plain, Some(Ground::Undeclared.at(1))),
        Further::new("call 0", Trace::from_events(1, "call 0 {}"), plain, Some(Ground::Undeclared.at(1))),
        Further::new("cost 0", Trace::from_events(0, "0"), plain, Some(Ground::Table.at(0))),
        Further::new("65,536 lines", lines(MOST_LINES), plain, None),
        Further::new("65,537 lines", lines(MOST_LINES + 1), plain, Some(Ground::Lines.at(0))),
        Further::new("the heaviest", heaviest(), plain, None),
    ];
    for (name, c, refusal) in [
        ("a capital A", b'A', None),
        ("a capital F", b'F', None),
        ("a capital G", b'G', Some(Ground::Character.at(0))),
        ("@, before A", b'@', Some(Ground::Character.at(0))),
        ("[, behind Z", b'[', Some(Ground::Character.at(0))),
        ("a backquote, before a", b'`', Some(Ground::Character.at(0))),
    ] {
        let mut trace = Trace::from_events(0, "10");
        trace.chars[13] = c;
        all.push(Further::new(name, trace, plain, refusal));
    }
    let shallow = Limits { depth: 1, sites: 1 };
    all.push(Further::new("D = 1 and a call", Trace::from_events(1, "call 1 {}"), shallow, Some(Ground::Depth.at(1))));
    for sites in [0, 1, 2, 31, 255] {
        let limits = Limits { depth: 1, sites };
        let above = Some(Ground::SiteLimit.at(sites as usize));
        all.push(Further::new(format!("M = {sites} sites"), Trace::from_events(sites, ""), limits, None));
        all.push(Further::new(format!("M+1 = {} sites", sites + 1), Trace::from_events(sites + 1, ""), limits, above));
    }
    all
}

impl Further {
    fn new(name: impl Into<String>, trace: Trace, limits: Limits, refusal: Option<Refusal>) -> Further {
        Further { name: name.into(), trace, limits, refusal }
    }
}

/// A trace in which sites call themselves, with its rows worked out by hand, but for their instructions, which are zero.
pub struct Recursive {
    pub name: &'static str,
    pub trace: Trace,
    pub limits: Limits,
    pub rows: Vec<Cycles>,
}

/// Recursion in every form. "Columns 2 and 3 from now on count only invocations with no enclosing invocation from the same
/// site. Calls, local and on span still count all."
pub fn recursive() -> Vec<Recursive> {
    let mut all: Vec<Recursive> = BY_HAND.iter().map(|(name, events, rows)| deep(name, events, rows)).collect();
    // Each level costs 1, and a called one's body is in series: from the outermost on 63, from the second on 62.
    let calls = "call 1 {1, ".repeat(63) + &"}".repeat(63);
    all.push(deep("called 63 deep", &calls, &[[1, 63, 63, 0, 0], [63, 63, 63, 63, 63], [0; 5]]));
    let turns = "call 1 {1, call 2 {1, ".repeat(31) + "call 1 {1" + &"}".repeat(63);
    all.push(deep("in turn, 63 deep", &turns, &[[1, 63, 63, 0, 0], [32, 63, 63, 32, 32], [31, 62, 62, 31, 31]]));
    // Each level costs 1 before its child and 1 beside it; the innermost costs 2, and each level around it adds 1 to the span.
    let spawns = "spawn 1 {1, ".repeat(63) + &"1}, ".repeat(63);
    all.push(deep("spawned 63 deep", &spawns, &[[1, 126, 64, 0, 0], [63, 126, 64, 126, 64], [0; 5]]));
    all.push(every_site());
    all.push(sites_apart());
    all
}

/// Each with the rows of the root and of sites 1 and 2.
const BY_HAND: [(&str, &str, [Cycles; 3]); 13] = [
    // The rules' K: 1 and 2 in the outer one, 2 again in the inner one, which does not count.
    ("called", "call 1 {1, call 1 {2}}", [[1, 3, 3, 0, 0], [2, 3, 3, 3, 3], [0; 5]]),
    // 1, then 4 beside 2: work 7, span 5. In the root 3 beside it.
    ("spawned", "spawn 1 {1, spawn 1 {4}, 2}, 3", [[1, 10, 5, 3, 0], [2, 7, 5, 7, 5], [0; 5]]),
    // The outer one's 2 and 1 in series, and the root's 4 beside them.
    ("called in spawned", "spawn 1 {call 1 {2}, 1}, 4", [[1, 7, 4, 4, 4], [2, 3, 3, 3, 0], [0; 5]]),
    // The outer one's 2 beside its 1, and the root's 4 after them.
    ("spawned in called", "call 1 {spawn 1 {2}, 1}, 4", [[1, 7, 6, 4, 4], [2, 3, 2, 3, 2], [0; 5]]),
    // The outer 1 holds 15, the outer 2 all but its 1; the inner ones do not count.
    (
        "through another, called",
        "call 1 {1, call 2 {2, call 1 {4, call 2 {8}}}}",
        [[1, 15, 15, 0, 0], [2, 15, 15, 5, 5], [2, 14, 14, 10, 10]],
    ),
    // In 2: 2, then 4 beside 3, work 9, span 6; around it 1, then 6 beside 5, work 15, span 7; in the root 7 beside 6.
    (
        "through another, spawned",
        "spawn 1 {1, spawn 2 {2, spawn 1 {4}, 3}, 5}, 6",
        [[1, 21, 7, 6, 0], [2, 15, 7, 10, 5], [1, 9, 6, 5, 2]],
    ),
    // Neither encloses the other, so 3 and 5 add up, past the span of the whole; 5 is on the chain.
    ("in parallel branches", "spawn 1 {3}, spawn 1 {5}, 4", [[1, 12, 5, 4, 0], [2, 8, 8, 8, 5], [0; 5]]),
    // 3 and 7 of the two outer ones; the inner ones do not count.
    (
        "in parallel branches, each in itself",
        "spawn 1 {1, call 1 {2}}, spawn 1 {3, call 1 {4}}",
        [[1, 10, 7, 0, 0], [4, 10, 10, 10, 7], [0; 5]],
    ),
    // The one around both counts alone: 3 beside 5.
    ("in parallel branches of itself", "call 1 {spawn 1 {3}, spawn 1 {5}}", [[1, 8, 5, 0, 0], [3, 8, 5, 8, 5], [0; 5]]),
    // Both of 2 count, 3 and 7, and in each of them one of 1, 3 and 5.
    (
        "in parallel branches of another",
        "spawn 2 {call 1 {3}}, call 2 {call 1 {5}, 2}",
        [[1, 10, 7, 0, 0], [2, 8, 8, 8, 5], [2, 10, 10, 2, 2]],
    ),
    // 3 of the first and 4 of the last.
    ("one behind the other", "call 1 {1, call 1 {2}}, call 1 {4}", [[1, 7, 7, 0, 0], [3, 7, 7, 7, 7], [0; 5]]),
    // Behind the return of an inner one the outer one is open still: 7; behind its own it is not: 8.
    (
        "again behind an inner return",
        "call 1 {call 1 {1}, 2, call 1 {4}}, call 2 {call 1 {8}}",
        [[1, 15, 15, 0, 0], [4, 15, 15, 15, 15], [1, 8, 8, 0, 0]],
    ),
    // An outer one without a cost of its own has what its children cost.
    ("with nothing of its own", "call 1 {call 1 {call 1 {3}}}", [[1, 3, 3, 0, 0], [3, 3, 3, 3, 3], [0; 5]]),
];

/// A recursive trace of two sites, with the greatest depth there may be.
fn deep(name: &'static str, events: &str, rows: &[Cycles]) -> Recursive {
    let limits = Limits { depth: 64, sites: 2 };
    Recursive { name, trace: Trace::from_events(2, events), limits, rows: rows.to_vec() }
}

/// Each of 255 sites calls itself once: 1 and 2 in the outer one, 255 times 3 in all.
fn every_site() -> Recursive {
    let mut trace = Trace::with_sites(255);
    for site in 1..=255 {
        trace.call(site).cost(1).call(site).cost(2).leave().leave();
    }
    trace.leave();
    let mut rows = vec![[2, 3, 3, 3, 3]; 256];
    rows[0] = [1, 765, 765, 0, 0];
    Recursive { name: "each of 255 sites", trace, limits: Limits { depth: 64, sites: 255 }, rows }
}

/// 63 sites in one another, many of them apart by 64, each once, around a cost of 5: no site is enclosed by itself.
fn sites_apart() -> Recursive {
    let sites = (1..=255).filter(|site| site % 64 < 15 || site % 64 == 63);
    let mut trace = Trace::with_sites(255);
    let mut rows = vec![[0; 5]; 256];
    rows[0] = [1, 5, 5, 0, 0];
    for site in sites {
        trace.call(site);
        rows[site as usize] = [1, 5, 5, 0, 0];
    }
    rows[255] = [1, 5, 5, 5, 5];
    trace.cost(5);
    (0..64).for_each(|_| _ = trace.leave());
    Recursive { name: "sites apart by 64", trace, limits: Limits { depth: 64, sites: 255 }, rows }
}

/// Every trace of this page, with just the room that it needs, and every text and list with rooms of each length near that.
pub fn cases() -> Vec<Case> {
    let twelve = TWELVE.iter().map(|named| (named.trace(), TWELVE_LIMITS));
    let further = further().into_iter().map(|further| (further.trace, further.limits));
    let recursive = recursive().into_iter().map(|recursive| (recursive.trace, recursive.limits));
    let question = |(trace, limits): (Trace, Limits)| {
        let (family, trace) = (Family::Base, trace.chars);
        Question::Engines { family, trace, limits, spare: Spare::default() }
    };
    let traces = twelve.chain(further).chain(recursive).map(|pair| Case { question: question(pair), rubbish: 1 });
    let asked = [
        sheets::cases(),
        stacks::cases(),
        forecasts::cases(),
        compacts::cases(),
        moves::cases(),
        on_the_way::cases(),
        carried::cases(),
        reports::cases(),
        whys::cases(),
        finishes::cases(),
    ];
    traces.chain(asked.into_iter().flatten()).collect()
}

fn lone_return() -> Trace {
    Trace::from_events(0, "none")
}

/// The heaviest trace that there is: as many costs of 4,294,967,295 as lines, but for the root's return.
pub fn heaviest() -> Trace {
    let mut trace = Trace::default();
    for _ in 1..MOST_LINES {
        trace.cost(4_294_967_295);
    }
    trace.leave();
    trace
}

/// A trace of so many lines: two sites, spawned in turn with a cost each and a sync now and then, costs up to the return.
pub fn lines(count: usize) -> Trace {
    let mut trace = Trace::with_sites(2);
    while trace.lines() + 5 <= count {
        let turn = trace.lines() as u64;
        trace.spawn(1 + turn % 2).cost(1 + turn % 7).leave();
        if trace.lines() % 11 == 0 {
            trace.sync();
        }
    }
    while trace.lines() + 1 < count {
        trace.cost(3);
    }
    trace.leave();
    trace
}
