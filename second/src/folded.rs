//! A trace as folded stacks: request d's sentences one by one, over whole names and whole stacks.

use crate::check::{self, Limits};
use crate::refusal::{Ground, Refusal};
use crate::shape::Shape;

/// The lengths of what the caller lends beside the trace and the lists.
#[derive(Clone, Copy, Debug, PartialEq, Eq)]
pub struct Lent {
    pub scratch: usize,
    pub out: usize,
    pub written: usize,
}

impl Lent {
    /// Without end: for whoever asks for the text itself.
    pub const ALL: Lent = Lent { scratch: usize::MAX, out: usize::MAX, written: usize::MAX };

    /// "D scratch numbers are lent"; lending no room for the count of characters is too little as well.
    fn is_short(&self, limits: Limits) -> bool {
        (self.scratch as u64) < limits.depth || self.written < 1
    }
}

/// The folded stacks of a trace: "those of 01, then 17 with the first row, among root and declared sites, whose shown name
/// is bad or missing from both lists, then 18 output shorter than the text, line 0".
pub fn write(trace: &[u8], limits: Limits, lists: [&[u8]; 2], lent: Lent) -> Result<String, Refusal> {
    let shape = check::read(trace, limits, |_| lent.is_short(limits))?;
    let names =
        (0..=shape.sites).map(|row| shown(lists, row).ok_or(Ground::Name.at(row))).collect::<Result<Vec<_>, _>>()?;
    let text: String = shape.cost_lines().into_iter().map(|line| folded(&shape, &names, line)).collect();
    if lent.out < text.len() {
        return Err(Ground::FoldedRoom.at(0));
    }
    Ok(text)
}

/// "for each cost line the names from root to innermost invocation joined by `;`, a space, the cost in decimal, a line feed"
fn folded(shape: &Shape, names: &[&str], line: usize) -> String {
    let innermost = shape.invocation_of(line);
    let mut stack = vec![names[innermost.row]];
    stack.extend(shape.around(innermost).map(|around| names[around.row]));
    stack.reverse();
    format!("{} {}\n", stack.join(";"), shape.lines[line].value)
}

/// "The name shown is a part of the project's list, or of the stock list where the project's line is empty or missing."
/// Nothing where that is no name.
fn shown([project, stock]: [&[u8]; 2], row: usize) -> Option<&str> {
    let own = line(project, row).filter(|line| !line.is_empty());
    own.or_else(|| line(stock, row)).and_then(name)
}

/// "one name a line, line 0 for the root"; "a line ends at a line feed or at the end of the text". Behind a line feed at the end
/// of the text stands one more line, which is empty: of the project's list it is passed over as a missing one is, and in the
/// stock list it is no name.
fn line(list: &[u8], row: usize) -> Option<&[u8]> {
    list.split(|c| *c == b'\n').nth(row)
}

/// "A name is one or more ASCII characters from 33 to 126 without the semicolon."
fn name(line: &[u8]) -> Option<&str> {
    let good = !line.is_empty() && line.iter().all(|c| (33..=126).contains(c) && *c != b';');
    std::str::from_utf8(line).ok().filter(|_| good)
}

#[cfg(test)]
mod tests {
    use super::*;
    use crate::trace::Trace;

    const LIMITS: Limits = Limits { depth: 3, sites: 2 };

    const CASE_I: &str = "call 1 {spawn 2 {7}, 1}, 2";

    const NAMES: [&[u8]; 2] = [b"main\nload\ndecode\n", b""];

    #[test]
    fn a_stack_goes_from_the_root_to_the_innermost() {
        let text = write(&Trace::from_events(2, CASE_I).chars, LIMITS, NAMES, Lent::ALL);
        assert_eq!(text.as_deref(), Ok("main;load;decode 7\nmain;load 1\nmain 2\n"));
    }

    #[test]
    fn a_name_has_characters_33_to_126_and_no_semicolon() {
        for c in 0..=255 {
            let good = (33..=126).contains(&c) && c != b';';
            assert_eq!(name(&[b'a', c, b'z']).is_some(), good, "{c}");
        }
        assert_eq!(name(b""), None);
    }

    #[test]
    fn the_refusals_come_in_their_order() {
        let good = Trace::from_events(2, CASE_I).chars;
        let refused = |trace: &[u8], lists, scratch, out, written| {
            write(trace, LIMITS, lists, Lent { scratch, out, written }).err().map(|r| (r.number(), r.line))
        };
        let none = [&b""[..]; 2];
        assert_eq!(refused(&good[1..], none, 0, 0, 0), Some((2, 0)));
        assert_eq!(refused(&good[23..], none, 2, 0, 1), Some((4, 0)));
        assert_eq!(refused(&good[23..], none, 3, 0, 0), Some((4, 0)));
        assert_eq!(refused(&good[23..], none, 3, 0, 1), Some((8, 0)));
        assert_eq!(refused(&good[..23 * 9], none, 3, 0, 1), Some((14, 9)));
        assert_eq!(refused(&good, none, 3, 0, 1), Some((17, 0)));
        assert_eq!(refused(&good, NAMES, 3, 37, 1), Some((18, 0)));
        assert_eq!(refused(&good, NAMES, 3, 38, 1), None);
    }
}
