//! The heaviest chains through a cost line, and which lines stand on some heaviest chain.

use crate::chain::Chains;
use crate::graph::Graph;
use crate::line::{Kind, Line};
use crate::shape::Shape;

/// The most lines for which pairs of lines are looked at.
pub const PAIRS_LINES: usize = 300;

/// The heaviest chains with a cost line on them: what they weigh, and the first of them, ascending.
#[derive(Clone, Debug, PartialEq, Eq)]
pub struct Through {
    pub weight: u64,
    pub first: Vec<usize>,
}

/// The others of a chain with a cost line on it are each in series with that line, and with those alone left each of the
/// heaviest chains has the line on it: so they are the heaviest chains where each cost that is parallel to the line is none. A
/// site line stands in its place, which weighs nothing and joins nothing.
pub fn through(shape: &Shape, line: usize, search: fn(&Shape) -> Chains) -> Through {
    let in_series = in_series_with(shape, line);
    let mut left = shape.clone();
    for other in shape.cost_lines().into_iter().filter(|&other| !in_series[other]) {
        left.lines[other] = Line { kind: Kind::Site, ..shape.lines[other] };
    }
    let chains = search(&left);
    Through { weight: chains.spans[0], first: chains.chosen }
}

/// For each line whether it is in series with a cost line or is that line, of the lines that are costs: by the definition of
/// parallel where the trace is short enough for it, otherwise by paths.
fn in_series_with(shape: &Shape, line: usize) -> Vec<bool> {
    if shape.lines.len() > PAIRS_LINES {
        return Graph::new(shape).in_series_with(line);
    }
    (0..shape.lines.len()).map(|other| shape.series(line.min(other), line.max(other))).collect()
}

/// Whether a cost line "stands on some heaviest chain": whether one with the line on it weighs as much as any.
pub fn stands_on_some(shape: &Shape, line: usize, search: fn(&Shape) -> Chains) -> bool {
    through(shape, line, search).weight == search(shape).spans[0]
}
