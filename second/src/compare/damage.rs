//! What can be wrong with a trace, its limits and the room that is lent for it.

use super::case::Spare;
use super::rng::Rng;
use super::{instructions, sites};
use crate::check::Limits;
use crate::line::CHARS;
use std::ops::Range;

/// Damages a trace, its limits or its room in one way, now and then in two or three.
pub fn some(rng: &mut Rng, trace: &mut Vec<u8>, limits: &mut Limits, spare: &mut Spare) {
    let times = rng.pick(&[1, 1, 1, 2, 3]);
    for _ in 0..times {
        match rng.below(17) {
            0 => wrong_limits(rng, limits),
            1 => too_little_room(rng, spare),
            2 => cut(rng, trace),
            3 => swap(rng, trace),
            4 => double(rng, trace),
            5 => drop(rng, trace),
            6 => wrong_character(rng, trace),
            7 => wrong_kind(rng, trace),
            8 => wrong_field(rng, trace),
            9 => zero_field(rng, trace),
            10 => another_line(rng, trace),
            11 => line_after(rng, trace),
            12 => copy_place(rng, trace),
            13 | 14 => sites::damage(rng, trace, limits),
            _ => instructions::damage(rng, trace),
        }
    }
}

/// Another character than was there: a digit, or one of those that lie next to the digits, or any.
pub fn character(rng: &mut Rng, chars: &mut [u8]) {
    if chars.is_empty() {
        return;
    }
    let place = rng.index(chars.len());
    chars[place] = match rng.below(3) {
        0 => rng.pick(b"0123456789abcdefABCDEF"),
        1 => rng.pick(b"/:@AFG[`afg\x10\x19 \n\r\0\xff"),
        _ => rng.number() as u8,
    };
}

/// "D or M outside its range", or below what the trace needs.
fn wrong_limits(rng: &mut Rng, limits: &mut Limits) {
    match rng.below(4) {
        0 => limits.depth = rng.pick(&[0, 65, 128, 1 << 32, 1 << 62, u64::MAX]),
        1 => limits.sites = rng.pick(&[256, 257, 1 << 32, 1 << 62, u64::MAX]),
        2 => limits.depth = limits.depth.saturating_sub(rng.between(1, 3)).max(1),
        _ => limits.sites = limits.sites.saturating_sub(rng.between(1, 3)),
    }
}

/// "any lent slice shorter than stated": by one, or with nothing in it.
fn too_little_room(rng: &mut Rng, spare: &mut Spare) {
    let less = rng.pick(&[-1, -1, -1, -2, isize::MIN]);
    match rng.below(4) {
        0 => spare.scratch = less,
        1 => spare.rows = less,
        2 => spare.answer = less,
        _ => spare.marks = less,
    }
}

/// The end cut off, at a line's end or within a line.
fn cut(rng: &mut Rng, trace: &mut Vec<u8>) {
    let kept = rng.index(trace.len() + 1);
    let kept = if rng.once_in(2) { kept } else { kept / CHARS * CHARS };
    trace.truncate(kept);
}

/// The characters of some line, if there is one.
pub fn any_line(rng: &mut Rng, trace: &[u8]) -> Option<Range<usize>> {
    let lines = trace.len() / CHARS;
    (lines > 0).then(|| rng.index(lines) * CHARS).map(|start| start..start + CHARS)
}

/// Two lines in each other's place.
fn swap(rng: &mut Rng, trace: &mut [u8]) {
    if let (Some(one), Some(other)) = (any_line(rng, trace), any_line(rng, trace)) {
        (0..CHARS).for_each(|n| trace.swap(one.start + n, other.start + n));
    }
}

/// A line twice.
fn double(rng: &mut Rng, trace: &mut Vec<u8>) {
    if let Some(line) = any_line(rng, trace) {
        let copy = trace[line.clone()].to_vec();
        trace.splice(line.end..line.end, copy);
    }
}

/// A line less.
fn drop(rng: &mut Rng, trace: &mut Vec<u8>) {
    if let Some(line) = any_line(rng, trace) {
        trace.drain(line);
    }
}

/// A wrong character in a line.
fn wrong_character(rng: &mut Rng, trace: &mut [u8]) {
    if let Some(line) = any_line(rng, trace) {
        character(rng, &mut trace[line]);
    }
}

/// Another kind for a line, known or not.
fn wrong_kind(rng: &mut Rng, trace: &mut [u8]) {
    if let Some(line) = any_line(rng, trace) {
        let kind = rng.pick(&[b"00", b"01", b"02", b"03", b"04", b"05", b"06", b"07", b"08", b"12", b"13", b"ff"]);
        trace[line][..2].copy_from_slice(kind);
    }
}

/// Another digit in a line.
fn wrong_field(rng: &mut Rng, trace: &mut [u8]) {
    if let Some(line) = any_line(rng, trace) {
        let place = line.start + rng.index(CHARS - 1);
        trace[place] = rng.pick(b"0123456789abcdefABCDEF");
    }
}

/// Capital letters for small ones: for all of them, or here and there.
pub fn capitals(rng: &mut Rng, chars: &mut [u8]) {
    let mixed = rng.once_in(2);
    chars.iter_mut().filter(|_| !mixed || rng.once_in(2)).for_each(|c| c.make_ascii_uppercase());
}

/// Zero for the site, the value, the file or the column of a line.
fn zero_field(rng: &mut Rng, trace: &mut [u8]) {
    if let Some(line) = any_line(rng, trace) {
        let field = rng.pick(&[(2, 6), (6, 14), (14, 18), (18, 22)]);
        trace[line][field.0..field.1].fill(b'0');
    }
}

/// A good line of some kind put in somewhere.
fn another_line(rng: &mut Rng, trace: &mut Vec<u8>) {
    let place = rng.index(trace.len() / CHARS + 1) * CHARS;
    let line = good_line(rng);
    trace.splice(place..place, line.bytes());
}

/// A good line of some kind at the end.
fn line_after(rng: &mut Rng, trace: &mut Vec<u8>) {
    trace.extend(good_line(rng).bytes());
}

/// The place of one line for another.
fn copy_place(rng: &mut Rng, trace: &mut [u8]) {
    if let (Some(one), Some(other)) = (any_line(rng, trace), any_line(rng, trace)) {
        trace.copy_within(one.start + 6..one.end, other.start + 6);
    }
}

fn good_line(rng: &mut Rng) -> &'static str {
    rng.pick(&[
        "0100010000000a00010005\n",
        "0200010000000000000000\n",
        "0300010000000000000000\n",
        "0400000000000000000000\n",
        "0500000000000000000000\n",
        "0600000000000100000000\n",
        "0700000000000100000000\n",
        "1200010000000000000000\n",
        "1300000000000000000000\n",
    ])
}
