//! The heaviest chains by search over pairs of cost lines: the way that follows the definitions.
//!
//! Series is transitive (the tests try it on many traces), so lines that each come after the one before in series are a
//! chain, and the search may grow a chain from its last line to its first. It takes time in the square of the cost
//! lines for each invocation.

use crate::shape::Shape;
use std::ops::Range;

/// What the rows need to know of the chains of a trace.
#[derive(Clone, Debug, PartialEq, Eq)]
pub struct Chains {
    /// For each invocation "the greatest weight of a chain of lines inside it, its children's included".
    pub spans: Vec<u64>,
    /// The lines of the chosen chain, ascending.
    pub chosen: Vec<usize>,
}

/// The spans and the chosen chain of a trace.
pub fn search(shape: &Shape) -> Chains {
    let pairs = Pairs::new(shape);
    let spans = shape.invocations.iter().map(|invocation| pairs.span(invocation.range())).collect();
    Chains { spans, chosen: pairs.chosen() }
}

/// The cost lines of a trace and which of them come before which in series.
struct Pairs {
    /// Line numbers, ascending; the other parts go by their index here.
    lines: Vec<usize>,
    values: Vec<u64>,
    /// For each cost line the later ones that it comes before in series, ascending.
    after: Vec<Vec<usize>>,
}

impl Pairs {
    fn new(shape: &Shape) -> Pairs {
        let lines = shape.cost_lines();
        let later = |i: usize| (i + 1..lines.len()).filter(|&j| shape.series(lines[i], lines[j])).collect();
        let after = (0..lines.len()).map(later).collect();
        let values = lines.iter().map(|&line| shape.lines[line].value).collect();
        Pairs { lines, values, after }
    }

    /// The greatest weight of a chain among some lines; the empty chain weighs nothing.
    fn span(&self, lines: Range<usize>) -> u64 {
        let from = self.lines.partition_point(|&line| line < lines.start);
        let to = self.lines.partition_point(|&line| line < lines.end);
        self.weights(from..to).into_iter().max().unwrap_or(0)
    }

    /// For each cost line of a part the greatest weight of a chain in that part that begins with it.
    fn weights(&self, part: Range<usize>) -> Vec<u64> {
        let mut weights = vec![0; part.len()];
        for i in part.clone().rev() {
            let later = self.after[i].iter().take_while(|&&j| j < part.end);
            let rest = later.map(|&j| weights[j - part.start]).max().unwrap_or(0);
            weights[i - part.start] = self.values[i] + rest;
        }
        weights
    }

    /// "among the root's heaviest, the one whose ascending list of line numbers comes first: at the first place of
    /// difference the smaller number wins": the smallest line that begins a heaviest chain, and so on with what is left.
    fn chosen(&self) -> Vec<usize> {
        let weights = self.weights(0..self.lines.len());
        let mut left = weights.iter().copied().max().unwrap_or(0);
        let mut candidates: Vec<usize> = (0..self.lines.len()).collect();
        let mut chosen = vec![];
        while let Some(&i) = candidates.iter().find(|&&i| left > 0 && weights[i] == left) {
            chosen.push(self.lines[i]);
            left -= self.values[i];
            candidates.clone_from(&self.after[i]);
        }
        chosen
    }
}
