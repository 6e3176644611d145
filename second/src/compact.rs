//! A trace without the lines that say nothing: request g's sentences one by one, over line numbers.

use crate::check::{self, Limits};
use crate::line::{self, Kind, Line};
use crate::refusal::{Ground, Refusal};
use crate::shape::Shape;

/// The greatest value of a cost line and of a 07 line.
const MOST: u64 = 4_294_967_295;

/// The lengths of what the caller lends beside the trace.
#[derive(Clone, Copy, Debug, PartialEq, Eq)]
pub struct Lent {
    pub out: usize,
    pub written: usize,
}

impl Lent {
    /// Without end: for whoever asks for the text itself.
    pub const ALL: Lent = Lent { out: usize::MAX, written: usize::MAX };
}

/// The compacted trace: "those of 01, then 21 output shorter than the result, line 0". "lent only the output beside
/// the trace", and no room for the count of characters is too little.
pub fn write(trace: &[u8], limits: Limits, lent: Lent) -> Result<Vec<u8>, Refusal> {
    let shape = check::read(trace, limits, |_| lent.written < 1)?;
    // "Its lines are as the line writer gives them."
    let text: Vec<u8> = merged(kept(&shape)).iter().flat_map(Left::written).collect();
    if lent.out < text.len() {
        return Err(Ground::CompactRoom.at(0));
    }
    Ok(text)
}

/// A line that is left; a cost line with its instructions, since "a cost with its 07 line counts as one".
#[derive(Clone, Copy)]
struct Left {
    line: Line,
    instructions: u64,
}

impl Left {
    /// The line, and a 07 line behind it where it carries instructions.
    fn written(&self) -> Vec<u8> {
        let carried = Line { kind: Kind::Instructions, value: self.instructions, ..self.line };
        let lines = [Some(self.line), (self.instructions > 0).then_some(carried)];
        lines.into_iter().flatten().flat_map(|line| line::write(&line.fields()).expect("by the table")).collect()
    }

    /// "merges only while both sums fit": the sum of two costs with their instructions.
    fn plus(&self, next: &Left) -> Option<Left> {
        let (value, instructions) = (self.line.value + next.line.value, self.instructions + next.instructions);
        let costs = self.line.kind == Kind::Cost && next.line.kind == Kind::Cost;
        let sum = Left { line: Line { value, ..self.line }, instructions };
        (costs && value <= MOST && instructions <= MOST).then_some(sum)
    }
}

/// "first drops each sync with no spawn directly in its invocation since that invocation's start or last sync, and
/// each with only syncs between it and its return"
fn kept(shape: &Shape) -> Vec<Left> {
    let kept = |line: &usize| match shape.lines[*line].kind {
        Kind::Sync => spawned_since(shape, *line) && !only_syncs_behind(shape, *line),
        kind => kind != Kind::Instructions,
    };
    let left = |line: usize| Left { line: shape.lines[line], instructions: shape.instructions(line) };
    (0..shape.lines.len()).filter(kept).map(left).collect()
}

/// Whether a spawn stands directly in a sync's invocation since "that invocation's start or last sync". The last sync
/// is the last one of the trace, dropped or not.
fn spawned_since(shape: &Shape, sync: usize) -> bool {
    let own = shape.directly_in[sync];
    let before = shape.invocation_of(sync).first..sync;
    let directly = before.rev().filter(|&line| shape.directly_in[line] == own).map(|line| shape.lines[line].kind);
    directly.take_while(|kind| *kind != Kind::Sync).any(|kind| kind == Kind::Spawn)
}

/// "only syncs between it and its return"; a site line is no sync.
fn only_syncs_behind(shape: &Shape, sync: usize) -> bool {
    let between = sync + 1..shape.invocation_of(sync).last;
    shape.lines[between].iter().all(|line| line.kind == Kind::Sync)
}

/// "Then adjacent cost lines merge from the left while the sum fits a value, and a sum that would not fit starts a
/// new line." Two costs with a site line between them "are not adjacent for the compactor".
fn merged(lines: Vec<Left>) -> Vec<Left> {
    let mut merged: Vec<Left> = vec![];
    for line in lines {
        match merged.last_mut().and_then(|last| last.plus(&line).map(|sum| (last, sum))) {
            Some((last, sum)) => *last = sum,
            None => merged.push(line),
        }
    }
    merged
}

#[cfg(test)]
mod tests {
    use super::*;
    use crate::trace::Trace;

    const LIMITS: Limits = Limits { depth: 3, sites: 2 };

    #[test]
    fn lines_are_written_with_small_letters() {
        let mut trace = Trace::from_events(2, "171 with 171, sync, 12");
        trace.chars.make_ascii_uppercase();
        let right = Trace::from_events(2, "183 with 171");
        assert_eq!(write(&trace.chars, LIMITS, Lent::ALL), Ok(right.chars));
    }

    #[test]
    fn the_refusals_come_in_their_order() {
        let good = Trace::from_events(2, "call 1 {sync, 7}, 1, 2 with 5").chars;
        let refused = |trace: &[u8], out, written| {
            write(trace, LIMITS, Lent { out, written }).err().map(|refusal| (refusal.number(), refusal.line))
        };
        assert_eq!(refused(&good[1..], 0, 0), Some((2, 0)));
        assert_eq!(refused(&good[23..], 0, 0), Some((4, 0)));
        assert_eq!(refused(&good[23..], 0, 1), Some((8, 0)));
        assert_eq!(refused(&good[..23 * 7], 0, 1), Some((14, 7)));
        // Two sites, the call, its cost and its return, one cost and its 07 line, the root's return: eight lines of ten.
        assert_eq!(refused(&good, 23 * 8 - 1, 1), Some((21, 0)));
        assert_eq!(refused(&good, 23 * 8, 0), Some((4, 0)));
        assert_eq!(refused(&good, 23 * 8, 1), None);
    }
}
