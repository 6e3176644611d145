//! Site lines on the way: those of a good trace moved to where they may stand, and what can be wrong with them there.

use super::rng::Rng;
use crate::check::Limits;
use crate::line::{chars, read, read_any, Kind, Line, CHARS};
use crate::trace::Trace;

/// Leaves the site lines of a good trace as they stand, puts each directly before its first call, or puts them anywhere.
pub fn scatter(rng: &mut Rng, trace: &mut Trace) {
    match rng.below(4) {
        0 => (),
        1 => trace.chars = moved(&trace.chars, |_, last| last),
        _ => trace.chars = moved(&trace.chars, |first, last| first + rng.index(last - first + 1)),
    }
}

/// A good trace with its site lines elsewhere. Each in turn goes before one of the other lines, which are counted from 0:
/// `before` chooses it from the first to the last that there may be; where that is a 07 line, it goes before its cost.
pub fn moved(trace: &[u8], mut before: impl FnMut(usize, usize) -> usize) -> Vec<u8> {
    let (sites, others): (Vec<&[u8]>, Vec<&[u8]>) = trace.chunks(CHARS).partition(|line| line.starts_with(b"01"));
    let mut moved = Vec::with_capacity(trace.len());
    let mut next = 0;
    for (site, last) in sites.iter().zip(last(&others, sites.len())) {
        let chosen = before(next, last);
        let chosen = chosen - usize::from(others[chosen].starts_with(b"07"));
        moved.extend(others[next..chosen].concat());
        moved.extend(*site);
        next = chosen;
    }
    moved.extend(others[next..].concat());
    moved
}

/// For each site line the last of the other lines before which it may stand: the first call, spawn or async of its site
/// or of a later one, or the root's return.
fn last(others: &[&[u8]], sites: usize) -> Vec<usize> {
    let mut last = vec![others.len() - 1; sites];
    for (number, line) in others.iter().enumerate().rev() {
        if let Some(maker) = read_any(line).ok().filter(|line| line.kind.makes()) {
            last[maker.site as usize - 1] = number;
        }
    }
    for site in (1..sites).rev() {
        last[site - 1] = last[site - 1].min(last[site]);
    }
    last
}

/// Damages the site lines of a trace, wherever they stand.
pub fn damage(rng: &mut Rng, trace: &mut Vec<u8>, limits: &mut Limits) {
    match rng.below(5) {
        0 => behind_its_call(rng, trace),
        1 => number_skipped(rng, trace),
        2 => place_repeated(rng, trace),
        3 => one_too_many(rng, trace, limits),
        _ => trace.extend(another(trace)),
    }
}

/// The whole lines of a trace that are site lines.
fn site_lines(trace: &[u8]) -> Vec<usize> {
    let lines = trace.chunks_exact(CHARS).enumerate();
    lines.filter(|(_, line)| line.starts_with(b"01")).map(|(number, _)| number).collect()
}

/// How many site lines a trace has.
pub fn declared(trace: &[u8]) -> u64 {
    site_lines(trace).len() as u64
}

/// Some site line, if there is one.
fn any_site_line(rng: &mut Rng, trace: &[u8]) -> Option<usize> {
    Some(site_lines(trace)).filter(|lines| !lines.is_empty()).map(|lines| rng.pick(&lines))
}

/// A site line behind the first call or spawn of its site.
fn behind_its_call(rng: &mut Rng, trace: &mut [u8]) {
    let Some(line) = any_site_line(rng, trace) else { return };
    let site = trace[line * CHARS + 2..line * CHARS + 6].to_vec();
    let calls = |line: &[u8]| [b"02", b"03", b"12"].contains(&&[line[0], line[1]]) && line[2..6] == site;
    if let Some(later) = trace.chunks_exact(CHARS).skip(line).position(calls) {
        trace[line * CHARS..(line + later + 1) * CHARS].rotate_left(CHARS);
    }
}

/// A site line with the number after its own.
fn number_skipped(rng: &mut Rng, trace: &mut [u8]) {
    let Some(line) = any_site_line(rng, trace) else { return };
    let own = &mut trace[line * CHARS..(line + 1) * CHARS];
    if let Ok(site) = read(own) {
        own.copy_from_slice(&chars(&Line { site: (site.site + 1) % 0x1_0000, ..site }.fields()));
    }
}

/// The place of one site line for another, near or far.
fn place_repeated(rng: &mut Rng, trace: &mut [u8]) {
    if let (Some(one), Some(other)) = (any_site_line(rng, trace), any_site_line(rng, trace)) {
        trace.copy_within(one * CHARS + 6..(one + 1) * CHARS, other * CHARS + 6);
    }
}

/// One more site than the limit has, declared somewhere behind the others and before the last line.
fn one_too_many(rng: &mut Rng, trace: &mut Vec<u8>, limits: &mut Limits) {
    let (lines, sites) = (trace.len() / CHARS, site_lines(trace));
    let first = sites.last().map_or(0, |line| line + 1);
    if first < lines {
        let place = rng.between(first as u64, lines as u64 - 1) as usize * CHARS;
        limits.sites = sites.len().min(255) as u64;
        let site = another(trace);
        trace.splice(place..place, site);
    }
}

/// A site line with the next number and a place of its own.
fn another(trace: &[u8]) -> Vec<u8> {
    let number = declared(trace) + 1;
    chars(&[Kind::Site.number(), number % 0x1_0000, number, 0xfffe, 3])
}

#[cfg(test)]
mod tests {
    use super::*;
    use crate::trace::events;

    /// The events of a trace whose three sites are moved.
    fn of(text: &str, before: fn(usize, usize) -> usize) -> String {
        events(&moved(&Trace::from_events(3, text).chars, before)).expect("good lines")
    }

    #[test]
    fn each_site_line_goes_directly_before_its_first_call() {
        let text = "1, call 1 {2, spawn 2 {3}, call 1 {}}, call 2 {}, 4";
        let right = "1, site 1, call 1 {2, site 2, spawn 2 {3}, call 1 {}}, call 2 {}, 4, site 3";
        assert_eq!(of(text, |_, last| last), right);
        assert_eq!(of(text, |first, _| first), text);
    }

    #[test]
    fn a_site_line_stands_before_those_of_later_sites() {
        let right = "1, site 1, site 2, call 2 {}, call 1 {}, site 3";
        assert_eq!(of("1, call 2 {}, call 1 {}", |_, last| last), right);
    }
}
