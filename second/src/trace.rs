//! Making traces: line by line, or from the notation in which the rules write their examples.

use crate::line::{chars, Family, Fields, Kind, Place, CHARS};

/// The events of a trace of either family in the notation of the twelve, if its lines are good and every brace has its
/// other. The sites before the first event and the root's return are left out; a site line on the way is told as `site
/// 3`, a cost of 5 with a 07 line of 9 behind it as `5 with 9`.
pub fn events(chars: &[u8]) -> Option<String> {
    Family::BOTH.into_iter().find_map(|family| events_of(family, chars))
}

fn events_of(family: Family, chars: &[u8]) -> Option<String> {
    let mut text = String::new();
    let mut open = 1_usize;
    for line in chars.chunks(CHARS) {
        let line = family.read(line).ok().filter(|_| open > 0)?;
        match line.kind {
            Kind::Site if text.is_empty() => (),
            Kind::Site => add(&mut text, &format!("site {}", line.site)),
            Kind::Call => add(&mut text, &format!("call {} {{", line.site)),
            Kind::Spawn => add(&mut text, &format!("spawn {} {{", line.site)),
            Kind::Async => add(&mut text, &format!("async {} {{", line.site)),
            Kind::Finish => add(&mut text, "finish {"),
            Kind::Sync => add(&mut text, "sync"),
            Kind::Cost => add(&mut text, &line.value.to_string()),
            Kind::Instructions => carry(&mut text, line.value),
            Kind::Return => text += "}",
        }
        open += usize::from(line.kind.opens());
        open -= usize::from(line.kind == Kind::Return);
    }
    text.strip_suffix('}').filter(|_| open == 0).map(str::to_owned)
}

/// Adds an item, after a comma unless it is the first of its body.
fn add(text: &mut String, item: &str) {
    if !text.is_empty() && !text.ends_with('{') {
        *text += ", ";
    }
    *text += item;
}

/// Adds what a 07 line carries, directly behind what stands before it in its body.
fn carry(text: &mut String, instructions: u64) {
    if !text.is_empty() && !text.ends_with('{') {
        *text += " ";
    }
    *text += &format!("with {instructions}");
}

/// The characters of a trace in the making.
#[derive(Clone, Debug, Default, PartialEq, Eq)]
pub struct Trace {
    pub chars: Vec<u8>,
}

impl Trace {
    /// A trace that declares this many sites, the first two at the places of case I.
    pub fn with_sites(sites: u64) -> Trace {
        let mut trace = Trace::default();
        (1..=sites).for_each(|site| _ = trace.declare(site));
        trace
    }

    /// A trace from the notation of the twelve: "Braces hold a body; the closing brace is its return. A bare number is
    /// a cost." `site 3` declares site 3 on the way, and `with 9` is a 07 line of 9; `async 1 {` and `finish {` are the
    /// other family's. The root's return is added.
    ///
    /// # Panics
    /// On a word that the notation does not have.
    pub fn from_events(sites: u64, events: &str) -> Trace {
        let spaced = events.replace(',', " ").replace('{', " { ").replace('}', " } ");
        let mut words = spaced.split_whitespace();
        let mut trace = Trace::with_sites(sites);
        while let Some(word) = words.next() {
            match word {
                "site" => trace.declare(number(words.next())),
                "call" => trace.call(number(words.next())),
                "spawn" => trace.spawn(number(words.next())),
                "async" => trace.begin(number(words.next())),
                "finish" => trace.finish(),
                "sync" => trace.sync(),
                "with" => trace.carry(number(words.next())),
                "}" => trace.leave(),
                "none" | "cost" | "{" => &mut trace,
                cost => trace.cost(number(Some(cost))),
            };
        }
        trace.leave();
        trace
    }

    /// How many whole lines there are.
    pub fn lines(&self) -> usize {
        self.chars.len() / CHARS
    }

    /// A site line with a place that no other site has here.
    pub fn declare(&mut self, site: u64) -> &mut Trace {
        self.site(site, [1, 10 * site, 4 * site + 1])
    }

    pub fn site(&mut self, site: u64, [file, line, column]: Place) -> &mut Trace {
        self.push(&[Kind::Site.number(), site, line, file, column])
    }

    pub fn call(&mut self, site: u64) -> &mut Trace {
        self.push(&[Kind::Call.number(), site, 0, 0, 0])
    }

    pub fn spawn(&mut self, site: u64) -> &mut Trace {
        self.push(&[Kind::Spawn.number(), site, 0, 0, 0])
    }

    /// An async line.
    pub fn begin(&mut self, site: u64) -> &mut Trace {
        self.push(&[Kind::Async.number(), site, 0, 0, 0])
    }

    pub fn finish(&mut self) -> &mut Trace {
        self.push(&[Kind::Finish.number(), 0, 0, 0, 0])
    }

    pub fn sync(&mut self) -> &mut Trace {
        self.push(&[Kind::Sync.number(), 0, 0, 0, 0])
    }

    pub fn leave(&mut self) -> &mut Trace {
        self.push(&[Kind::Return.number(), 0, 0, 0, 0])
    }

    pub fn cost(&mut self, value: u64) -> &mut Trace {
        self.push(&[Kind::Cost.number(), 0, value, 0, 0])
    }

    /// A 07 line.
    pub fn carry(&mut self, instructions: u64) -> &mut Trace {
        self.push(&[Kind::Instructions.number(), 0, instructions, 0, 0])
    }

    fn push(&mut self, fields: &Fields) -> &mut Trace {
        self.chars.extend(chars(fields));
        self
    }
}

fn number(word: Option<&str>) -> u64 {
    word.and_then(|word| word.parse().ok()).expect("a number in the events")
}

#[cfg(test)]
mod tests {
    use super::*;

    #[test]
    fn case_i_is_the_input_that_the_rules_print() {
        let lines = [
            "0100010000000a00010005",
            "0100020000001400010009",
            "0200010000000000000000",
            "0300020000000000000000",
            "0600000000000700000000",
            "0500000000000000000000",
            "0600000000000100000000",
            "0500000000000000000000",
            "0600000000000200000000",
            "0500000000000000000000",
            "",
        ];
        let trace = Trace::from_events(2, "call 1 {spawn 2 {7}, 1}, 2");
        assert_eq!(String::from_utf8(trace.chars), Ok(lines.join("\n")));
    }

    #[test]
    fn events_are_told_as_they_were_given() {
        for text in [
            "",
            "5, 3",
            "call 1 {spawn 2 {7}, 1}, 2",
            "spawn 1 {}, sync, call 2 {1, sync, 1}",
            "1, site 3, spawn 3 {site 4, 1, site 5}, site 6",
            "1 with 5, call 1 {with 2, 3 with 4 with 4}, sync with 6",
            "async 1 {finish {async 2 {3}, 1}, 4}, finish {}, call 2 {5}",
        ] {
            assert_eq!(events(&Trace::from_events(2, text).chars).as_deref(), Some(text));
        }
        assert_eq!(events(&Trace::from_events(0, "with 7").chars).as_deref(), Some("with 7"));
        assert_eq!(events(&Trace::from_events(0, "}").chars), None);
        assert_eq!(events(&Trace::from_events(1, "call 1").chars), None);
        assert_eq!(events(&Trace::from_events(1, "finish {sync}").chars), None);
        assert_eq!(events(b"05"), None);
    }
}
