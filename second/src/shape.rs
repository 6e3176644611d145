//! The shape of an accepted trace: invocations and finishes as intervals of lines, and which cost lines are parallel.

use crate::line::{Family, Kind, Line};
use std::iter::successors;
use std::ops::Range;

/// How an invocation came about.
#[derive(Clone, Copy, Debug, PartialEq, Eq)]
pub enum Start {
    Root,
    /// Called from the invocation with this index.
    Called(usize),
    /// Spawned by the invocation with this index; "take async as spawn".
    Spawned(usize),
}

/// An invocation: the lines from the first of its body to its return.
#[derive(Clone, Debug, PartialEq, Eq)]
pub struct Invocation {
    /// "Row 0 is the root, row s is site s."
    pub row: usize,
    pub start: Start,
    /// Its first line: 0 for the root, for any other the one after the call or spawn.
    pub first: usize,
    /// The line of its return.
    pub last: usize,
}

/// A finish: the lines from the first of its body to its return.
#[derive(Clone, Debug, PartialEq, Eq)]
pub struct Finish {
    pub first: usize,
    pub last: usize,
}

/// A trace that passed every check.
#[derive(Clone, Debug, PartialEq, Eq)]
pub struct Shape {
    pub family: Family,
    pub lines: Vec<Line>,
    pub sites: usize,
    /// In the order in which they open, the root first.
    pub invocations: Vec<Invocation>,
    /// Those that a line opens, in the order in which they open.
    pub finishes: Vec<Finish>,
    /// For each line the invocation that it is directly in; a call or spawn line is the caller's.
    pub directly_in: Vec<usize>,
}

impl Invocation {
    /// Whether a line lies inside, "its children's included".
    pub fn contains(&self, line: usize) -> bool {
        self.first <= line && line <= self.last
    }

    /// Its lines.
    pub fn range(&self) -> Range<usize> {
        self.first..self.last + 1
    }
}

impl Finish {
    /// Whether it is open at a line.
    pub fn contains(&self, line: usize) -> bool {
        self.first <= line && line <= self.last
    }
}

impl Shape {
    /// The cost lines, ascending.
    pub fn cost_lines(&self) -> Vec<usize> {
        (0..self.lines.len()).filter(|&n| self.lines[n].kind == Kind::Cost).collect()
    }

    /// The sum of the costs on some lines.
    pub fn work(&self, lines: Range<usize>) -> u64 {
        self.lines[lines].iter().map(Line::cost).sum()
    }

    /// The instructions of a cost line: "A kind 07 line directly after a cost line carries its instructions in the value";
    /// "without one they are zero." Nothing for a line that is no cost.
    pub fn instructions(&self, line: usize) -> u64 {
        match (self.lines[line].kind, self.lines.get(line + 1)) {
            (Kind::Cost, Some(behind)) if behind.kind == Kind::Instructions => behind.value,
            _ => 0,
        }
    }

    /// The invocation that a line is directly in.
    pub fn invocation_of(&self, line: usize) -> &Invocation {
        &self.invocations[self.directly_in[line]]
    }

    /// The invocations that enclose one, from the one that made it out to the root.
    pub fn around<'a>(&'a self, own: &Invocation) -> impl Iterator<Item = &'a Invocation> {
        successors(self.maker(own), |around| self.maker(around))
    }

    /// The invocation that called or spawned one.
    fn maker(&self, own: &Invocation) -> Option<&Invocation> {
        match own.start {
            Start::Root => None,
            Start::Called(f) | Start::Spawned(f) => Some(&self.invocations[f]),
        }
    }

    /// Whether one has "no enclosing invocation from the same site".
    pub fn outermost(&self, own: &Invocation) -> bool {
        self.around(own).all(|around| around.row != own.row)
    }

    /// For cost lines i < j: "They are parallel exactly when some spawned invocation G contains i and not j", and G is
    /// not joined before j; in the other family "when some async contains i and not j", and the same.
    pub fn parallel(&self, i: usize, j: usize) -> bool {
        self.invocations.iter().any(|g| match g.start {
            Start::Spawned(f) => g.contains(i) && !g.contains(j) && self.beside(g, f, j),
            Start::Root | Start::Called(_) => false,
        })
    }

    /// Whether nothing joins an invocation G of F up to a line behind it: "the invocation F that spawned G is still
    /// open at line j, and no sync line directly in F lies between G's return and j"; in the other family "the nearest
    /// finish around that async is open at j; a call joins nothing".
    fn beside(&self, g: &Invocation, f: usize, j: usize) -> bool {
        match self.family {
            Family::Base => self.invocations[f].contains(j) && !(g.last + 1..j).any(|line| self.syncs(f, line)),
            Family::Finishes => self.nearest_finish(g).contains(j),
        }
    }

    /// The nearest finish around an invocation, which is the last to open of those around it. "The root is a finish."
    fn nearest_finish(&self, own: &Invocation) -> Finish {
        let nearest = self.finishes.iter().rfind(|finish| finish.contains(own.first));
        nearest.cloned().unwrap_or(Finish { first: 0, last: self.lines.len() - 1 })
    }

    /// "Otherwise i comes before j in series."
    pub fn series(&self, i: usize, j: usize) -> bool {
        !self.parallel(i, j)
    }

    /// Whether a line is a sync line directly in an invocation. "'Directly in F' excludes lines of F's children."
    fn syncs(&self, invocation: usize, line: usize) -> bool {
        self.lines[line].kind == Kind::Sync && self.directly_in[line] == invocation
    }
}
