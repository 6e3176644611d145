//! Cases for the compactor: traces with what is left of them worked out by hand, and generated ones; and the laws to
//! which every compacted trace is held.

use super::case::{Case, CompactSpare, Question, Room, STRIP};
use super::rng::Rng;
use super::{fixed, generate, stacks};
use crate::check::{Limits, MOST_LINES};
use crate::library::Library;
use crate::line::{Family, CHARS, WIDTHS};
use crate::trace::Trace;

/// A trace of two sites in the notation of the twelve, and what is left of it by hand.
pub struct Compacted {
    pub name: &'static str,
    pub events: &'static str,
    pub left: &'static str,
}

pub const fn of(name: &'static str, events: &'static str, left: &'static str) -> Compacted {
    Compacted { name, events, left }
}

pub const fn same(name: &'static str, events: &'static str) -> Compacted {
    of(name, events, events)
}

/// Each line of it says something, or too little to be left.
pub const BY_HAND: [Compacted; 44] = [
    same("nothing", ""),
    of("a sync alone", "sync", ""),
    of("syncs alone", "sync, sync, sync", ""),
    of("a sync first in the root", "sync, 5", "5"),
    of("a sync first in a called body", "call 1 {sync, 5}", "call 1 {5}"),
    of("a sync first in a spawned body", "spawn 1 {sync, 5}, 1", "spawn 1 {5}, 1"),
    of("a sync first, then a spawn and a sync", "sync, spawn 1 {2}, sync, 1", "spawn 1 {2}, sync, 1"),
    of("a sync last, with nothing to join", "5, sync", "5"),
    of("a sync after a sync", "spawn 1 {4}, sync, sync, 4", "spawn 1 {4}, sync, 4"),
    of("a sync after a sync, a cost before them", "spawn 1 {4}, 2, sync, sync, 4", "spawn 1 {4}, 2, sync, 4"),
    same("spawn, sync, cost, return", "spawn 1 {4}, sync, 4"),
    of("spawn, sync, return", "spawn 1 {4}, sync", "spawn 1 {4}"),
    of("spawn, sync, sync, return", "spawn 1 {4}, sync, sync", "spawn 1 {4}"),
    of("spawn, sync, sync, sync, return", "spawn 1 {4}, sync, sync, sync", "spawn 1 {4}"),
    of("spawn, sync, cost, sync, return", "spawn 1 {4}, sync, 4, sync", "spawn 1 {4}, sync, 4"),
    of("spawn, cost, sync, return", "spawn 1 {4}, 4, sync", "spawn 1 {4}, 4"),
    of("spawn, sync, spawn, sync, return", "spawn 1 {2}, sync, spawn 2 {3}, sync", "spawn 1 {2}, sync, spawn 2 {3}"),
    same("a spawn after each of two syncs", "spawn 1 {2}, sync, spawn 2 {3}, sync, 1"),
    same("a sync before a call", "spawn 1 {2}, sync, call 2 {}"),
    same("a sync before a spawn", "spawn 1 {2}, sync, spawn 2 {}"),
    same("a spawn with an empty body", "spawn 1 {}, sync, 1"),
    of("a sync last in a called body", "call 1 {spawn 2 {7}, 1, sync}, 2", "call 1 {spawn 2 {7}, 1}, 2"),
    of("a spawn in a called body is none of its caller's", "call 1 {spawn 2 {3}}, sync, 4", "call 1 {spawn 2 {3}}, 4"),
    of("a spawn in a spawned body", "spawn 1 {spawn 2 {6}, sync}, 2, sync, 1", "spawn 1 {spawn 2 {6}}, 2, sync, 1"),
    of("a caller's spawn is none of the body's", "spawn 1 {3}, call 2 {sync, 1}, 2", "spawn 1 {3}, call 2 {1}, 2"),
    // The caller's sync has the spawn since its start: the body's sync is not its last one.
    of("a sync in a called body", "spawn 1 {3}, call 2 {1, sync, 1}, sync, 4", "spawn 1 {3}, call 2 {2}, sync, 4"),
    same("a sync that is kept in a called body", "spawn 1 {3}, call 2 {spawn 1 {2}, sync, 1}, sync, 4"),
    of("equal costs", "1, 1, 1, 1, 1", "5"),
    of("costs with a dropped sync between them", "1, sync, 2", "3"),
    of("costs with dropped syncs between them", "1, sync, 2, sync, sync, 4", "7"),
    of("costs around a second sync", "spawn 1 {4}, 1, sync, 2, sync, 3", "spawn 1 {4}, 1, sync, 5"),
    same("costs with a kept sync between them", "spawn 1 {4}, 1, sync, 2"),
    same("costs around a call with an empty body", "1, call 1 {}, 2"),
    same("costs around a spawn with an empty body", "1, spawn 1 {}, 2"),
    same("costs before, in and behind a call", "1, call 1 {2}, 3"),
    of("costs in both bodies", "1, 2, call 1 {3, 4, call 2 {5, 6}, 7}, 8", "3, call 1 {7, call 2 {11}, 7}, 8"),
    of("a sum that just fits", "4294967294, 1", "4294967295"),
    same("a sum that is one too large", "4294967295, 1"),
    same("the same, the small one first", "1, 4294967295"),
    same("the largest twice", "4294967295, 4294967295"),
    of("the first two do not fit, the last two do", "4294967295, 1, 2", "4294967295, 3"),
    // From the left: the last two would fit as well as the first two.
    of("the first two fit, and the last two would", "2147483647, 2147483648, 2147483647", "4294967295, 2147483647"),
    // 4,294,967,290 and 3 fit, one 3 more is 4,294,967,296.
    of("a sum that fills up", "4294967290, 3, 3, 3", "4294967293, 6"),
    of(
        "a wordy trace",
        "sync, 3, 4, spawn 1 {5, 6, sync}, 2, sync, sync, 1, call 2 {sync, 7, sync}, spawn 2 {8}, 4294967295, 1, sync, sync",
        "7, spawn 1 {11}, 2, sync, 1, call 2 {7}, spawn 2 {8}, 4294967295, 1",
    ),
];

/// The limits of every trace here that is written in events.
pub const LIMITS: Limits = Limits { depth: 4, sites: 2 };

/// A trace as long as there may be, and what is left of it by hand.
pub struct Long {
    pub name: &'static str,
    pub trace: Trace,
    pub left: Trace,
}

/// Runs of syncs and of costs of 65,536 lines in all.
pub fn long() -> Vec<Long> {
    let filled = |before: &str, line: fn(&mut Trace), behind: &str| {
        let [mut trace, end] = [Trace::from_events(1, before), Trace::from_events(0, behind)];
        trace.chars.truncate(trace.chars.len() - CHARS);
        (trace.lines()..MOST_LINES - end.lines()).for_each(|_| line(&mut trace));
        trace.chars.extend(end.chars);
        trace
    };
    let sync = |trace: &mut Trace| _ = trace.sync();
    let left = |events| Trace::from_events(1, events);
    vec![
        Long { name: "syncs alone", trace: filled("", sync, ""), left: left("") },
        Long { name: "syncs before the return", trace: filled("spawn 1 {2}", sync, ""), left: left("spawn 1 {2}") },
        Long {
            name: "syncs before a cost",
            trace: filled("spawn 1 {2}", sync, "3"),
            left: left("spawn 1 {2}, sync, 3"),
        },
        // The site line and the return leave 65,534 costs.
        Long { name: "costs of 1", trace: filled("", |trace| _ = trace.cost(1), ""), left: left("65534") },
        Long { name: "the heaviest", trace: fixed::heaviest(), left: fixed::heaviest() },
    ]
}

/// Just enough, more, and too little in every way.
pub const ROOMS: [CompactSpare; 6] = [
    CompactSpare { out: 0, written: 0 },
    CompactSpare { out: 5, written: 2 },
    CompactSpare { out: -1, written: 0 },
    CompactSpare { out: 0, written: -1 },
    CompactSpare { out: -1, written: -1 },
    CompactSpare { out: isize::MIN, written: 0 },
];

/// Every trace above, each in every room; and those that are refused.
pub fn cases() -> Vec<Case> {
    let by_hand = BY_HAND.iter().map(|compacted| (Trace::from_events(2, compacted.events), LIMITS));
    let long = long().into_iter().map(|long| (long.trace, LIMITS));
    let further = fixed::further().into_iter().filter(|further| further.refusal.is_some());
    let refused = further.map(|further| (further.trace, further.limits));
    let of = |(trace, limits): (Trace, Limits)| {
        ROOMS.map(move |spare| Question::Compact { trace: trace.chars.clone(), limits, spare })
    };
    by_hand.chain(long).chain(refused).flat_map(of).map(|question| Case { question, rubbish: 1 }).collect()
}

/// A trace for the compactor, as often good as damaged.
pub fn write(rng: &mut Rng) -> Question {
    let (trace, limits, _) = generate::trace(rng);
    let spare = CompactSpare { out: stacks::more_or_less(rng), written: stacks::more_or_less(rng) };
    Question::Compact { trace, limits, spare }
}

/// Which laws hold of a trace that a program has accepted and of what it has made of it, by its own engines, line
/// reader and line writer: each as a number, 1 where it holds.
pub fn laws(library: &dyn Library, trace: &[u8], limits: Limits, text: &[u8]) -> Vec<Room<u64>> {
    let (before, after) = (Engines::ask(library, trace, limits), Engines::ask(library, text, limits));
    let [tables, marks] = &after.said;
    let lines = (text.len() / CHARS) as u64;
    let again = compacted(library, text, limits);
    [
        ("no longer than the trace", text.len() <= trace.len()),
        (
            "lines as the line writer gives them",
            text.chunks(CHARS).all(|line| rewritten(library, line).as_deref() == Some(line)),
        ),
        ("accepted with the same limits", after.said.iter().all(|said| said.code == 0 && said.lines == lines)),
        ("work, span, sites and rows unchanged", after.unchanged_from(&before)),
        ("both engines agree on it", tables == marks),
        ("compacting twice equals compacting once", again.as_deref() == Some(text)),
    ]
    .map(|(name, holds)| {
        let mut all = vec![0; 2 * STRIP + 1];
        all[STRIP] = u64::from(holds);
        Room { name, all }
    })
    .into()
}

/// What both engines of a program say of a trace.
struct Engines {
    said: [Said; 2],
}

/// An engine's verdict, work, span and sites, its number of lines, and the rows that it has written.
#[derive(PartialEq)]
struct Said {
    code: u64,
    totals: [u64; 3],
    lines: u64,
    rows: Vec<u64>,
}

impl Engines {
    fn ask(library: &dyn Library, trace: &[u8], limits: Limits) -> Engines {
        let lines = trace.len() / CHARS;
        let tables = Said::by(limits, limits.table_scratch(), |scratch, rows, answer| {
            library.tables(Family::Base, trace, limits, scratch, rows, answer)
        });
        let marks = Said::by(limits, limits.marks_scratch(), |scratch, rows, answer| {
            library.marks(Family::Base, trace, limits, scratch, &mut vec![0; lines], rows, answer)
        });
        Engines { said: [tables, marks] }
    }

    /// Whether each engine says the same as before, but for the number of lines.
    fn unchanged_from(&self, before: &Engines) -> bool {
        self.said
            .iter()
            .zip(&before.said)
            .all(|(now, then)| now.code == then.code && now.totals == then.totals && now.rows == then.rows)
    }
}

impl Said {
    fn by(limits: Limits, scratch: usize, engine: impl FnOnce(&mut [u64], &mut [u64], &mut [u64]) -> u64) -> Said {
        let (mut rows, mut answer) = (vec![0; limits.rows()], [0; 4]);
        let code = engine(&mut vec![0; scratch], &mut rows, &mut answer);
        let [work, span, sites, lines] = answer;
        Said { code, totals: [work, span, sites], lines, rows }
    }
}

/// What a program makes of a trace in room of the trace's own length.
fn compacted(library: &dyn Library, trace: &[u8], limits: Limits) -> Option<Vec<u8>> {
    let (mut out, mut written) = (vec![0; trace.len()], [0]);
    let code = library.compact(trace, limits, &mut out, &mut written);
    out.truncate(written[0] as usize);
    (code == 0).then_some(out)
}

/// A line as a program reads and writes it.
fn rewritten(library: &dyn Library, line: &[u8]) -> Option<Vec<u8>> {
    let (mut frame, mut out) = ([0; WIDTHS.len()], vec![0; CHARS]);
    let codes = [
        library.read_line(Family::Base, line, &mut frame),
        library.write_line(Family::Base, &frame, &mut out, &mut [0]),
    ];
    (codes == [0, 0]).then_some(out)
}
