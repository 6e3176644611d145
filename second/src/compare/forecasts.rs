//! Cases for the forecast: entries that tell a good list from any other, with what comes of them worked out by hand, and
//! generated ones.

use super::case::{Case, Question, Spare};
use super::rng::Rng;
use super::{generate, sites};
use crate::check::{Limits, MOST_LINES};
use crate::forecast::{Entry, MOST_ENTRIES};
use crate::line::CHARS;
use crate::rows::Cycles;
use crate::trace::Trace;

/// A trace of two sites in the notation of the twelve with entries, row and factor each, and what comes of them by hand: the
/// rows of the root and of both sites without their instructions, which are zero, or the number and the line of the refusal.
pub struct Asked {
    pub name: &'static str,
    pub events: &'static str,
    pub entries: &'static [(u64, u64)],
    pub given: Result<[Cycles; 3], (u64, u64)>,
}

/// "Sites 1 and 2 declared, D = 4", and room for one site more than is declared.
pub const LIMITS: Limits = Limits { depth: 4, sites: 3 };

impl Asked {
    pub fn trace(&self) -> Vec<u8> {
        Trace::from_events(2, self.events).chars
    }

    pub fn entries(&self) -> Vec<Entry> {
        self.entries.iter().map(|&(row, factor)| Entry { row, factor }).collect()
    }
}

/// The events of case I, and its rows as the rules print them.
const I: &str = "call 1 {spawn 2 {7}, 1}, 2";
const I_ROWS: [Cycles; 3] = [[1, 10, 9, 2, 2], [1, 8, 7, 1, 0], [1, 7, 7, 7, 7]];

/// Case I with entries.
const fn of_i(name: &'static str, entries: &'static [(u64, u64)], rows: [Cycles; 3]) -> Asked {
    Asked { name, events: I, entries, given: Ok(rows) }
}

/// Case I refused with a number and line 0.
const fn refused(name: &'static str, entries: &'static [(u64, u64)], number: u64) -> Asked {
    Asked { name, events: I, entries, given: Err((number, 0)) }
}

/// As many entries as there may be in a list, and one more; only the first three rows are declared.
const SIXTEEN: [(u64, u64); 16] = rows_from_0();
const SEVENTEEN: [(u64, u64); 17] = rows_from_0();

const fn rows_from_0<const N: usize>() -> [(u64, u64); N] {
    let mut entries = [(0, 2); N];
    let mut row = 0;
    while row < N {
        entries[row].0 = row as u64;
        row += 1;
    }
    entries
}

pub const BY_HAND: [Asked; 37] = [
    of_i("an empty list", &[], I_ROWS),
    // 7 by 2 is 4: 4 beside 1, then 2.
    of_i("the spawned site halved", &[(2, 2)], [[1, 7, 6, 2, 2], [1, 5, 4, 1, 0], [1, 4, 4, 4, 4]]),
    // 7 by 4 is 2, 7 by 6 is 2, 7 by 7 is 1: 1 beside 1, and the spawned one's line comes first.
    of_i("7 by 4", &[(2, 4)], [[1, 5, 4, 2, 2], [1, 3, 2, 1, 0], [1, 2, 2, 2, 2]]),
    of_i("7 by 6", &[(2, 6)], [[1, 5, 4, 2, 2], [1, 3, 2, 1, 0], [1, 2, 2, 2, 2]]),
    of_i("7 by 7", &[(2, 7)], [[1, 4, 3, 2, 2], [1, 2, 1, 1, 0], [1, 1, 1, 1, 1]]),
    of_i("7 by 1,000", &[(2, 1000)], [[1, 4, 3, 2, 2], [1, 2, 1, 1, 0], [1, 1, 1, 1, 1]]),
    // 1 by 1,000 is 1, and it is not on the span.
    of_i("a site off the span", &[(1, 1000)], I_ROWS),
    // 2 by 2 is 1.
    of_i("the root named", &[(0, 2)], [[1, 9, 8, 1, 1], [1, 8, 7, 1, 0], [1, 7, 7, 7, 7]]),
    of_i("root and site", &[(0, 2), (2, 2)], [[1, 6, 5, 1, 1], [1, 5, 4, 1, 0], [1, 4, 4, 4, 4]]),
    of_i("every row", &[(0, 1000), (1, 2), (2, 3)], [[1, 5, 4, 1, 1], [1, 4, 3, 1, 0], [1, 3, 3, 3, 3]]),
    refused("the same row twice", &[(1, 2), (1, 2)], 19),
    refused("the root twice", &[(0, 2), (0, 3)], 19),
    refused("unordered", &[(2, 2), (1, 2)], 19),
    refused("unordered at the end", &[(0, 2), (2, 2), (1, 2)], 19),
    refused("a row above the sites, though not above M", &[(3, 2)], 19),
    refused("a row above M", &[(1, 2), (4, 2)], 19),
    refused("row 256, which is not row 0", &[(256, 2)], 19),
    refused("row 2^32 + 1, which is not row 1", &[(4_294_967_297, 2)], 19),
    refused("the largest row", &[(0, 2), (u64::MAX, 2)], 19),
    refused("the largest row before a small one", &[(u64::MAX, 2), (0, 2)], 19),
    refused("16 entries, 13 of them not declared", &SIXTEEN, 19),
    refused("17 entries", &SEVENTEEN, 19),
    refused("factor 0", &[(0, 0)], 20),
    refused("factor 1", &[(0, 1)], 20),
    refused("factor 1,001", &[(0, 1001)], 20),
    refused("factor 2^32 + 2, which is not 2", &[(0, 4_294_967_298)], 20),
    refused("the largest factor", &[(0, u64::MAX)], 20),
    refused("the last factor", &[(0, 2), (1, 2), (2, 1)], 20),
    refused("both wrong, the factor first", &[(0, 1), (3, 2)], 19),
    refused("both wrong in one entry", &[(3, 1001)], 19),
    refused("every factor wrong, the order too", &[(2, 0), (1, 0)], 19),
    Asked { name: "a refusal of 01 first", events: "call 3 {1}", entries: &[(2, 0), (1, 0)], given: Err((11, 2)) },
    Asked { name: "14 first", events: "call 1 {1", entries: &[(3, 2)], given: Err((14, 5)) },
    // G with 10 halved: 1, then 5 beside 2 and 8 or 1: the chain goes over to the other child.
    Asked {
        name: "the span goes over to the next",
        events: "1, spawn 1 {10}, 2, spawn 2 {8}, 1",
        entries: &[(1, 2)],
        given: Ok([[1, 17, 11, 4, 3], [1, 5, 5, 5, 0], [1, 8, 8, 8, 8]]),
    },
    // K: both invocations are of the row, 3 by 2 is 2 and 5 by 2 is 3; work and span are the outer one's.
    Asked {
        name: "a site that calls itself",
        events: "call 1 {3, call 1 {5}}, 4",
        entries: &[(1, 2)],
        given: Ok([[1, 9, 9, 4, 4], [2, 5, 5, 5, 5], [0; 5]]),
    },
    // Each cost is rounded up by itself: three times 1 by 1,000 is 3, and not 1.
    Asked {
        name: "each cost by itself",
        events: "1, 1, 1, 1000, 1001, 4294967295",
        entries: &[(0, 1000)],
        given: Ok([[1, 4_294_974, 4_294_974, 4_294_974, 4_294_974], [0; 5], [0; 5]]),
    },
    // A child's costs are its own row's: those of 2 inside 1 stay, and 1's behind it do not.
    Asked {
        name: "costs directly in it",
        events: "call 1 {6, call 2 {6}, 6}, 6",
        entries: &[(1, 3)],
        given: Ok([[1, 16, 16, 6, 6], [1, 10, 10, 4, 4], [1, 6, 6, 6, 6]]),
    },
];

/// What is lent: just enough, more, and one short of each; none of the last.
pub const ROOMS: [Spare; 7] = [
    Spare { scratch: 0, rows: 0, answer: 0, marks: 0 },
    Spare { scratch: 3, rows: 2, answer: 1, marks: 5 },
    Spare { scratch: -1, rows: 0, answer: 0, marks: 0 },
    Spare { scratch: 0, rows: -1, answer: 0, marks: 0 },
    Spare { scratch: 0, rows: 0, answer: -1, marks: 0 },
    Spare { scratch: 0, rows: 0, answer: 0, marks: -1 },
    Spare { scratch: 0, rows: 0, answer: 0, marks: isize::MIN },
];

/// Every case above, 255 sites of which 16 are named, and as many lines as there may be, each in every room.
pub fn cases() -> Vec<Case> {
    let by_hand = BY_HAND.iter().map(|asked| (asked.trace(), LIMITS, asked.entries()));
    let mut each = Trace::with_sites(255);
    (1..=255).for_each(|site| _ = each.spawn(site).cost(site).leave().cost(site / 7 + 1));
    each.leave();
    let sixteen = (0..16).map(|n| Entry { row: 17 * n, factor: 2 + 60 * n }).collect();
    let wide = Limits { depth: 64, sites: 255 };
    let mut lines = Trace::with_sites(1);
    (0..MOST_LINES / 4).for_each(|n| _ = lines.spawn(1).cost(n as u64 + 1).leave().cost(3));
    lines.chars.truncate(CHARS * (MOST_LINES - 3));
    lines.cost(1).cost(2).leave();
    let halved = (0..2).map(|row| Entry { row, factor: 2 }).collect();
    let larger = [(each.chars, wide, sixteen), (lines.chars, LIMITS, halved)];
    let of = |(trace, limits, entries): (Vec<u8>, Limits, Vec<Entry>)| {
        let of = move |spare| Question::Forecast { trace: trace.clone(), limits, entries: entries.clone(), spare };
        ROOMS.map(of)
    };
    by_hand.chain(larger).flat_map(of).map(|question| Case { question, rubbish: 1 }).collect()
}

/// A trace with entries, both as often good as not.
pub fn forecast(rng: &mut Rng) -> Question {
    let (trace, limits, spare) = generate::trace(rng);
    let declared = sites::declared(&trace);
    let mut entries = entries(rng, declared);
    if rng.once_in(3) {
        (0..rng.between(1, 2)).for_each(|_| damage(rng, &mut entries, declared));
    }
    Question::Forecast { trace, limits, entries, spare }
}

/// A good list for so many declared sites: none, a few, or as many as there may be.
fn entries(rng: &mut Rng, declared: u64) -> Vec<Entry> {
    let most = rng.pick(&[0, 1, 1, 2, 3, MOST_ENTRIES]);
    let mut rows: Vec<u64> = (0..=declared).collect();
    while rows.len() > most {
        rows.remove(rng.index(rows.len()));
    }
    rows.into_iter().map(|row| Entry { row, factor: factor(rng) }).collect()
}

/// A factor that is often at an edge of its range, or small.
fn factor(rng: &mut Rng) -> u64 {
    match rng.below(4) {
        0 => rng.pick(&[2, 999, 1_000]),
        1 => rng.between(2, 1_000),
        _ => rng.between(2, 9),
    }
}

/// A list with a row that is not declared or stands twice, two entries in each other's place, a factor outside its range, or
/// entries too many.
fn damage(rng: &mut Rng, entries: &mut Vec<Entry>, declared: u64) {
    let place = rng.index(entries.len() + 1);
    let other = Entry { row: rng.below(declared + 1), factor: factor(rng) };
    match rng.below(6) {
        0 => {
            let row = rng.pick(&[declared + 1, declared + 2, 255, 256, 1 << 32, 1 << 62, u64::MAX]);
            entries.push(Entry { row, ..other });
        }
        1 => entries.insert(place, other),
        2 if place < entries.len() => entries.swap(0, place),
        3 | 4 if place < entries.len() => {
            entries[place].factor = rng.pick(&[0, 1, 1_001, 1 << 32, (1 << 32) + 2, u64::MAX]);
        }
        5 => {
            let more = rng.pick(&[MOST_ENTRIES, MOST_ENTRIES + 1, 40]) as u64;
            *entries = (0..more).map(|row| Entry { row, ..other }).collect();
        }
        _ => entries.push(other),
    }
}
