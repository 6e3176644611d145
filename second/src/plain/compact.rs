//! A compactor, written to be fast: what the proved one is timed against. It makes every check and writes every
//! character of the slow way, with which the tests hold it equal.
//!
//! One pass checks the lines and keeps those that are left; then they are written. A sync waits until a line that is
//! no sync stands behind it, and two sums, of cycles and of instructions, until a line that is no cost does.

use super::{checks, Fields, CALL, COST, INSTRUCTIONS, RETURN, SPAWN, SYNC};
use crate::check::Limits;
use crate::line::CHARS;
use crate::refusal::{Ground, Refusal};

/// Writes the compacted trace to the front of `out`, and gives how many characters it has, or the refusal.
pub fn write(trace: &[u8], limits: Limits, out: &mut [u8]) -> Result<usize, Refusal> {
    let mut left = Left::new(trace.len() / CHARS);
    checks::each_line(trace, limits, |_| false, |line| left.take(line))?;
    let length = CHARS * left.lines.len();
    if out.len() < length {
        return Err(Ground::CompactRoom.at(0));
    }
    out[..length].chunks_exact_mut(CHARS).zip(&left.lines).for_each(|(room, line)| put(room, line));
    Ok(length)
}

/// The lines that are left so far.
struct Left {
    lines: Vec<Fields>,
    /// Of each open invocation: whether it has spawned since its start or last sync.
    spawned: Vec<bool>,
    /// A sync that is left unless its return is next.
    waits: bool,
    /// The sum of the costs directly before; 0 for none.
    held: u32,
    /// The last of them.
    last: u32,
    /// The sum of their instructions.
    carried: u32,
}

impl Left {
    fn new(lines: usize) -> Left {
        Left { lines: Vec::with_capacity(lines), spawned: vec![false], waits: false, held: 0, last: 0, carried: 0 }
    }

    fn take(&mut self, line: &Fields) {
        match line.kind {
            SYNC => self.waits |= self.spawned.last_mut().is_some_and(std::mem::take),
            COST => self.spend(line.value),
            INSTRUCTIONS => self.carry(line.value),
            kind => {
                self.settle(kind != RETURN);
                self.lines.push(*line);
                self.open(kind);
            }
        }
    }

    /// Adds a cost to the sum, if no sync stands between them and it fits.
    fn spend(&mut self, value: u32) {
        self.last = value;
        match self.held.checked_add(value).filter(|_| !self.waits) {
            Some(sum) => self.held = sum,
            None => {
                self.settle(true);
                self.held = value;
            }
        }
    }

    /// Adds the last cost's instructions to their sum; where that does not fit, the last cost is taken out of its own again.
    fn carry(&mut self, value: u32) {
        match self.carried.checked_add(value) {
            Some(sum) => self.carried = sum,
            None => {
                self.held -= self.last;
                self.settle(true);
                (self.held, self.carried) = (self.last, value);
            }
        }
    }

    /// Leaves the sums and, where it says something, the sync that waits.
    fn settle(&mut self, says: bool) {
        if self.held > 0 {
            self.lines.push(Fields { value: std::mem::take(&mut self.held), ..Fields::of(COST) });
        }
        if self.carried > 0 {
            self.lines.push(Fields { value: std::mem::take(&mut self.carried), ..Fields::of(INSTRUCTIONS) });
        }
        if std::mem::take(&mut self.waits) && says {
            self.lines.push(Fields::of(SYNC));
        }
    }

    /// What a line behind the costs does to the open invocations.
    fn open(&mut self, kind: u8) {
        match (kind, self.spawned.last_mut()) {
            (SPAWN, Some(own)) => {
                *own = true;
                self.spawned.push(false);
            }
            (CALL, _) => self.spawned.push(false),
            (RETURN, _) => _ = self.spawned.pop(),
            _ => (),
        }
    }
}

/// A line's 23 characters.
fn put(room: &mut [u8], line: &Fields) {
    let head = u64::from(line.kind) << 16 | u64::from(line.site);
    let place = u64::from(line.file) << 16 | u64::from(line.column);
    put_digits(&mut room[..6], head);
    put_digits(&mut room[6..14], u64::from(line.value));
    put_digits(&mut room[14..22], place);
    room[22] = b'\n';
}

/// The last digits of a number fill the room.
fn put_digits(room: &mut [u8], mut number: u64) {
    for digit in room.iter_mut().rev() {
        *digit = b"0123456789abcdef"[(number & 15) as usize];
        number >>= 4;
    }
}
