//! Cases for the writer of folded stacks: lists that tell a name from none, with what is written worked out by hand, and
//! generated ones.

use super::case::{Case, FoldedSpare, Question};
use super::generate;
use super::rng::Rng;
use crate::check::{Limits, MOST_LINES};
use crate::trace::Trace;

/// A trace in the notation of the twelve with the project's list and the stock list, and what is written of it by hand: the
/// text, or the number and the line of the refusal.
pub struct Listed {
    pub name: &'static str,
    pub sites: u64,
    pub events: &'static str,
    pub lists: [&'static [u8]; 2],
    pub written: Result<&'static str, (u64, u64)>,
}

/// "Sites 1 and 2 declared, D = 4"
pub fn limits(sites: u64) -> Limits {
    Limits { depth: 4, sites }
}

/// The events of case I.
const I: &str = "call 1 {spawn 2 {7}, 1}, 2";

const STOCK: &[u8] = b"root\none\ntwo\n";

/// Case I with two lists.
const fn of_i(name: &'static str, project: &'static [u8], stock: &'static [u8], text: &'static str) -> Listed {
    Listed { name, sites: 2, events: I, lists: [project, stock], written: Ok(text) }
}

/// Case I refused with 17 and a row.
const fn refused(name: &'static str, project: &'static [u8], stock: &'static [u8], row: u64) -> Listed {
    Listed { name, sites: 2, events: I, lists: [project, stock], written: Err((17, row)) }
}

/// Other events with names of the project alone.
const fn other(name: &'static str, sites: u64, events: &'static str, text: &'static str) -> Listed {
    Listed { name, sites, events, lists: [b"main\nload\ndecode\n", b""], written: Ok(text) }
}

pub const BY_HAND: [Listed; 42] = [
    of_i("the project's names", b"main\nload\ndecode\n", b"", "main;load;decode 7\nmain;load 1\nmain 2\n"),
    of_i("the last line feed lacks", b"main\nload\ndecode", b"", "main;load;decode 7\nmain;load 1\nmain 2\n"),
    of_i("the stock names", b"", STOCK, "root;one;two 7\nroot;one 1\nroot 2\n"),
    of_i("their last line feed lacks", b"", b"root\none\ntwo", "root;one;two 7\nroot;one 1\nroot 2\n"),
    of_i("an empty line of the project", b"main\n\ndecode\n", STOCK, "main;one;decode 7\nmain;one 1\nmain 2\n"),
    of_i("its first line empty", b"\nload\ndecode", STOCK, "root;load;decode 7\nroot;load 1\nroot 2\n"),
    of_i("empty lines alone", b"\n\n\n\n", STOCK, "root;one;two 7\nroot;one 1\nroot 2\n"),
    of_i("its last line missing", b"main\nload", STOCK, "main;load;two 7\nmain;load 1\nmain 2\n"),
    of_i("its last line empty", b"main\nload\n", STOCK, "main;load;two 7\nmain;load 1\nmain 2\n"),
    of_i("all but the root's missing", b"main", STOCK, "main;one;two 7\nmain;one 1\nmain 2\n"),
    of_i("stock lines only where needed", b"main\n\ndecode", b"\none", "main;one;decode 7\nmain;one 1\nmain 2\n"),
    of_i(
        "bad stock lines not shown",
        b"main\nload\ndecode",
        b";\n \n\x80",
        "main;load;decode 7\nmain;load 1\nmain 2\n",
    ),
    of_i("CR LF not shown", b"main\nload\ndecode", b"root\r\none\r\n", "main;load;decode 7\nmain;load 1\nmain 2\n"),
    of_i("more lines than rows", b"main\nload\ndecode\n;\n \n", b"", "main;load;decode 7\nmain;load 1\nmain 2\n"),
    of_i("characters at the edges", b"!\n~\n:<\n", b"", "!;~;:< 7\n!;~ 1\n! 2\n"),
    of_i("a name that ends in a figure", b"a0\nb1\n2\n", b"", "a0;b1;2 7\na0;b1 1\na0 2\n"),
    of_i("one name for all", b"a\na\na\n", b"", "a;a;a 7\na;a 1\na 2\n"),
    refused("both lists empty", b"", b"", 0),
    refused("a line feed alone", b"\n", b"\n", 0),
    refused("a bad line does not give way", b"main\nlo ad\ndecode", STOCK, 1),
    refused("a semicolon in a name", b"main\nload;\ndecode", STOCK, 1),
    refused("a semicolon alone", b"main\nload\n;", STOCK, 2),
    refused("a space alone", b" \nload\ndecode", STOCK, 0),
    refused("a space behind a name", b"main\nload \ndecode", STOCK, 1),
    refused("a tab", b"main\n\tload\ndecode", STOCK, 1),
    refused("CR LF", b"main\r\nload\r\ndecode\r\n", STOCK, 0),
    refused("CR LF on a line that would be empty", b"main\n\r\ndecode", STOCK, 1),
    refused("CR LF in the stock list", b"main", b"root\r\none\r\ntwo\r\n", 1),
    refused("character 127", b"main\nload\nde\x7fcode", STOCK, 2),
    refused("character 0", b"\0\nload\ndecode", STOCK, 0),
    refused("another alphabet", b"main\ncaf\xc3\xa9\ndecode", STOCK, 1),
    refused("character 255", b"main\nload\n\xff", STOCK, 2),
    refused("a byte-order mark", b"\xef\xbb\xbfmain\nload\ndecode", STOCK, 0),
    refused("behind the last line feed stands no name", b"", b"root\none\n", 2),
    refused("missing from both", b"main", b"root\none", 2),
    refused("the first of two bad rows", b"main\n;\n ", b"root", 1),
    refused("the first, though in the other list", b"\n;\n", b" \none\ntwo", 0),
    Listed {
        name: "a site that is never called",
        sites: 2,
        events: "5",
        lists: [b"main\nload\n", b""],
        written: Err((17, 2)),
    },
    other("no cost lines", 2, "call 1 {sync}", ""),
    other("no sites, equal stacks not merged", 0, "5, 3, 3", "main 5\nmain 3\nmain 3\n"),
    other(
        "in itself, then after a return",
        1,
        "call 1 {1, call 1 {2}, 3}",
        "main;load 1\nmain;load;load 2\nmain;load 3\n",
    ),
    other(
        "costs of 1 to 10 figures",
        0,
        "9, 10, 999999999, 4294967295",
        "main 9\nmain 10\nmain 999999999\nmain 4294967295\n",
    ),
];

/// What is lent: just enough, more, and one short of each; none of the last two.
const ROOMS: [FoldedSpare; 7] = [
    FoldedSpare { scratch: 0, out: 0, written: 0 },
    FoldedSpare { scratch: 3, out: 5, written: 1 },
    FoldedSpare { scratch: -1, out: 0, written: 0 },
    FoldedSpare { scratch: 0, out: -1, written: 0 },
    FoldedSpare { scratch: 0, out: 0, written: -1 },
    FoldedSpare { scratch: 0, out: -1, written: -1 },
    FoldedSpare { scratch: 0, out: isize::MIN, written: 0 },
];

/// Every case above, 255 sites with their names all good and the last one bad, 64 invocations in one another with a long
/// name, and as many lines as there may be, each in every room.
pub fn cases() -> Vec<Case> {
    let by_hand = BY_HAND.iter().map(|listed| {
        let trace = Trace::from_events(listed.sites, listed.events).chars;
        (trace, limits(listed.sites), listed.lists.map(<[u8]>::to_vec))
    });
    let many = (0..256).map(|row| format!("name-{row}\n")).collect::<String>().into_bytes();
    let mut bad = many.clone();
    bad.splice(many.len() - 1.., *b";\n");
    let mut each = Trace::with_sites(255);
    (1..=255).for_each(|site| _ = each.call(site).cost(site).leave());
    each.leave();
    let wide = Limits { depth: 64, sites: 255 };
    let deep = Trace::from_events(1, &("call 1 {1, ".repeat(63) + &"}".repeat(63))).chars;
    let long = ["x".repeat(300) + "\n" + &"y".repeat(299), String::new()].map(String::into_bytes);
    let mut lines = Trace::with_sites(1);
    (0..MOST_LINES - 2).for_each(|n| _ = lines.cost(n as u64 + 1));
    lines.leave();
    let larger = [
        (each.chars.clone(), wide, [many.clone(), vec![]]),
        (each.chars.clone(), wide, [vec![], many]),
        (each.chars, wide, [bad, b"root".to_vec()]),
        (deep, wide, long),
        (lines.chars, limits(1), [b"a".to_vec(), b"\nb".to_vec()]),
    ];
    let of = |(trace, limits, lists): (Vec<u8>, Limits, [Vec<u8>; 2])| {
        let of = move |spare| Question::Folded { trace: trace.clone(), limits, lists: lists.clone(), spare };
        ROOMS.map(of)
    };
    by_hand.chain(larger).flat_map(of).map(|question| Case { question, rubbish: 1 }).collect()
}

/// A trace with two lists for the writer, both as often good as not.
pub fn write(rng: &mut Rng) -> Question {
    let (trace, limits, spare) = generate::trace(rng);
    let rows = limits.sites.min(255) as usize + 1;
    let mut lists = lists(rng, rows);
    if rng.once_in(3) {
        (0..rng.between(1, 2)).for_each(|_| damage(rng, &mut lists));
    }
    let spare = FoldedSpare { scratch: spare.scratch, out: more_or_less(rng), written: more_or_less(rng) };
    Question::Folded { trace, limits, lists, spare }
}

/// How much more is lent than needed; seldom less.
pub fn more_or_less(rng: &mut Rng) -> isize {
    match rng.below(16) {
        0 => -1,
        1 => -(rng.below(60) as isize),
        2..=4 => rng.below(9) as isize,
        _ => 0,
    }
}

/// Two lists that show a name for each row: the project's alone, the stock list alone, or some lines of each, where what is
/// not shown is anything.
fn lists(rng: &mut Rng, rows: usize) -> [Vec<u8>; 2] {
    let names = |rng: &mut Rng| -> Vec<String> { (0..rows).map(|_| name(rng)).collect() };
    let (mut project, mut stock) = (names(rng), names(rng));
    match rng.below(4) {
        0 => stock.clear(),
        1 => project.clear(),
        2 => project.truncate(rng.index(rows + 1)),
        _ => (),
    }
    if !stock.is_empty() {
        let (often, junk) = (rng.pick(&[2, 5]), rng.once_in(3));
        for row in 0..project.len() {
            if rng.once_in(often) {
                project[row].clear();
            } else if junk {
                stock[row] = rng.pick(&["", ";", " ", "\r", "a b"]).to_owned();
            }
        }
    }
    [spelled(rng, &project), spelled(rng, &stock)]
}

/// A name, mostly a short one.
fn name(rng: &mut Rng) -> String {
    let length = rng.pick(&[1, 1, 2, 3, 5, 8, 40]);
    let character = |rng: &mut Rng| if rng.once_in(8) { rng.pick(b"!~:<,.\"'") } else { rng.between(33, 126) as u8 };
    let letters = (0..length).map(|_| Some(character(rng)).filter(|c| *c != b';').unwrap_or(b'a'));
    letters.map(char::from).collect()
}

/// Lines as text, now and then without the last line feed or with more behind.
fn spelled(rng: &mut Rng, lines: &[String]) -> Vec<u8> {
    let end = rng.pick(&["", "\n", "\n", "\n\n", "\nmore\n", "\n;\r\n"]);
    (lines.join("\n") + end).into_bytes()
}

/// One of the lists with a character changed, put in or left out, its end cut off, CR LF for each line feed, or a line twice.
fn damage(rng: &mut Rng, lists: &mut [Vec<u8>; 2]) {
    let which = rng.index(2);
    let list = &mut lists[which];
    let place = rng.index(list.len() + 1);
    let character = rng.pick(b"; \r\n\n\t\0\x1f\x7f\x80\xff!~:<");
    match rng.below(7) {
        0 | 1 if place < list.len() => list[place] = character,
        2 if place < list.len() => drop(list.remove(place)),
        3 => list.truncate(place),
        4 => *list = list.split(|c| *c == b'\n').collect::<Vec<_>>().join(&b"\r\n"[..]),
        5 => {
            let copy = list.split_inclusive(|c| *c == b'\n').next().unwrap_or_default().to_vec();
            list.splice(..0, copy);
        }
        _ => list.insert(place, character),
    }
}
