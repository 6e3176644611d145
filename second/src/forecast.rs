//! A forecast by site: request f's sentences one by one. The trace is written again with other costs, and that trace is what
//! is profiled.

use crate::check::{self, Lent, Limits};
use crate::line::{chars, Kind, Line};
use crate::refusal::{Ground, Refusal};
use crate::shape::Shape;

/// "each a row number and a factor", as the C interface has it.
#[derive(Clone, Copy, Debug, PartialEq, Eq)]
#[repr(C)]
pub struct Entry {
    pub row: u64,
    pub factor: u64,
}

/// "up to 16 forecast entries"
pub const MOST_ENTRIES: usize = 16;

/// "a factor from 2 to 1,000"
pub const LEAST_FACTOR: u64 = 2;
pub const MOST_FACTOR: u64 = 1_000;

/// The trace rewritten by forecast entries: "those of 01, then 19 ..., 20 ...; both with line 0".
pub fn rewritten(trace: &[u8], limits: Limits, entries: &[Entry], lent: &Lent) -> Result<Vec<u8>, Refusal> {
    let shape = check::trace(trace, limits, lent)?;
    asked(entries, shape.sites as u64).map_err(|ground| ground.at(0))?;
    let lines = (0..shape.lines.len()).map(|line| chars(&rewritten_line(&shape, entries, line).fields()));
    Ok(lines.collect::<Vec<_>>().concat())
}

/// "19 list too long, unordered or naming an undeclared row, 20 factor outside its range"; "list order first". Row 0 is the
/// root's, and the declared sites are 1 to their number.
fn asked(entries: &[Entry], sites: u64) -> Result<(), Ground> {
    let ascending = entries.windows(2).all(|pair| pair[0].row < pair[1].row);
    let declared = entries.iter().all(|entry| entry.row <= sites);
    if entries.len() > MOST_ENTRIES || !ascending || !declared {
        return Err(Ground::Entries);
    }
    let in_range = entries.iter().all(|entry| (LEAST_FACTOR..=MOST_FACTOR).contains(&entry.factor));
    in_range.then_some(()).ok_or(Ground::Factor)
}

/// "Each cost directly in an invocation of a named row is divided by its factor and rounded up."
fn rewritten_line(shape: &Shape, entries: &[Entry], number: usize) -> Line {
    let line = shape.lines[number];
    let row = shape.invocation_of(number).row as u64;
    match entries.iter().find(|entry| entry.row == row) {
        Some(entry) if line.kind == Kind::Cost => Line { value: line.value.div_ceil(entry.factor), ..line },
        _ => line,
    }
}

#[cfg(test)]
mod tests {
    use super::*;
    use crate::trace::{events, Trace};

    const LIMITS: Limits = Limits { depth: 4, sites: 3 };

    /// What a trace of two sites becomes, or its refusal.
    fn of(text: &str, entries: &[(u64, u64)]) -> Result<String, (u64, u64)> {
        let entries: Vec<Entry> = entries.iter().map(|&(row, factor)| Entry { row, factor }).collect();
        let rewritten = rewritten(&Trace::from_events(2, text).chars, LIMITS, &entries, &LIMITS.for_tables());
        rewritten.map(|trace| events(&trace).expect("good lines")).map_err(|refusal| (refusal.number(), refusal.line))
    }

    #[test]
    fn costs_are_divided_and_rounded_up() {
        assert_eq!(of("7, 8, 1", &[(0, 2)]).as_deref(), Ok("4, 4, 1"));
        assert_eq!(of("1, 1000, 1001", &[(0, 1000)]).as_deref(), Ok("1, 1, 2"));
        assert_eq!(of("4294967295", &[(0, 2)]).as_deref(), Ok("2147483648"));
    }

    #[test]
    fn only_those_directly_in_the_named_row() {
        let text = "9, call 1 {9, spawn 2 {9, call 1 {9}}, 9}, spawn 2 {9}, 9";
        assert_eq!(of(text, &[]).as_deref(), Ok(text));
        assert_eq!(of(text, &[(1, 3)]).as_deref(), Ok("9, call 1 {3, spawn 2 {9, call 1 {3}}, 3}, spawn 2 {9}, 9"));
        assert_eq!(
            of(text, &[(0, 9), (2, 2)]).as_deref(),
            Ok("1, call 1 {9, spawn 2 {5, call 1 {9}}, 9}, spawn 2 {5}, 1")
        );
    }

    #[test]
    fn the_refusals_come_in_their_order() {
        let long: Vec<(u64, u64)> = (0..17).map(|row| (row, 2)).collect();
        assert_eq!(of("}", &long), Err((7, 3)));
        assert_eq!(of("1", &long), Err((19, 0)));
        assert_eq!(of("1", &[(1, 2), (1, 2)]), Err((19, 0)));
        assert_eq!(of("1", &[(2, 2), (1, 2)]), Err((19, 0)));
        assert_eq!(of("1", &[(3, 2)]), Err((19, 0)));
        assert_eq!(of("1", &[(0, 1), (2, 0), (1, 2)]), Err((19, 0)));
        for factor in [0, 1, 1001, u64::MAX] {
            assert_eq!(of("1", &[(0, 2), (2, factor)]), Err((20, 0)), "{factor}");
        }
        assert_eq!(of("1", &[(0, 2), (1, 1000), (2, 3)]).as_deref(), Ok("1"));
    }
}
