//! The heaviest chains as heaviest paths of a graph: the way for long traces, in time linear in the lines and in the
//! depth.
//!
//! The graph has a point before each line. An edge says which point comes next: after most lines the one before the
//! next line; after a spawn both the one before the child's first line and the one after the child's return; after a
//! spawned child's return the one before the line that joins it, which is the next sync directly in its spawner or the
//! spawner's return. An async is as a spawn, and what joins it is the return of the nearest finish around it. A cost
//! line's edge weighs its value, any other nothing. One cost line comes before another in series exactly when a path
//! leads from the end of its edge to the other's start (the tests try it on many traces), so the heaviest chains are
//! the costs of the heaviest paths. Every edge leads to a later line, so one pass from the last line to the first
//! weighs every path to the end. A path between two lines of an invocation stays among its lines.

use crate::chain::Chains;
use crate::line::{Family, Kind};
use crate::shape::{Finish, Shape, Start};
use std::ops::Range;

/// The spans and the chosen chain of a trace.
pub fn search(shape: &Shape) -> Chains {
    let graph = Graph::new(shape);
    let spans = shape.invocations.iter().map(|own| graph.rest(shape, own.range())[0]).collect();
    Chains { spans, chosen: graph.chosen(shape) }
}

/// Where the edges of each point lead: one after the line, and for a spawn one past the child.
#[derive(Clone, Debug)]
pub struct Graph {
    next: Vec<usize>,
    past: Vec<Option<usize>>,
}

impl Graph {
    /// The graph of a trace; the root's return leads to one point more, the end.
    pub fn new(shape: &Shape) -> Graph {
        let mut next: Vec<usize> = (1..=shape.lines.len()).collect();
        let mut past = vec![None; shape.lines.len()];
        let joins = match shape.family {
            Family::Base => joined_by_syncs(shape),
            Family::Finishes => joined_by_finishes(shape),
        };
        for (own, join) in shape.invocations.iter().zip(joins) {
            if let Some(join) = join {
                next[own.last] = join;
                past[own.first - 1] = Some(own.last + 1);
            }
        }
        Graph { next, past }
    }

    /// The points that follow a point.
    pub fn following(&self, point: usize) -> impl Iterator<Item = usize> {
        [Some(self.next[point]), self.past[point]].into_iter().flatten()
    }

    /// For each line whether it comes before a cost line in series, or that before it, or it is the line itself: whether a path
    /// goes over both.
    pub fn in_series_with(&self, line: usize) -> Vec<bool> {
        let mut met = vec![false; self.next.len() + 1];
        met[line] = true;
        for point in line..self.next.len() {
            if met[point] {
                self.following(point).for_each(|to| met[to] = true);
            }
        }
        for point in (0..line).rev() {
            met[point] = self.following(point).any(|to| to <= line && met[to]);
        }
        met.truncate(self.next.len());
        met
    }

    /// For each point before some lines the weight of the heaviest path from it over these lines alone.
    fn rest(&self, shape: &Shape, lines: Range<usize>) -> Vec<u64> {
        let mut rest = vec![0; lines.len() + 1];
        for point in lines.clone().rev() {
            let within = self.following(point).map(|to| rest[to.min(lines.end) - lines.start]);
            rest[point - lines.start] = shape.lines[point].cost() + within.max().unwrap_or(0);
        }
        rest
    }

    /// The cost lines of the first of the heaviest paths. At a spawn the child's lines come before those past it, so the
    /// path goes past the child only where that is heavier.
    fn chosen(&self, shape: &Shape) -> Vec<usize> {
        let rest = self.rest(shape, 0..shape.lines.len());
        let mut chosen = vec![];
        let mut point = 0;
        while point < shape.lines.len() {
            if shape.lines[point].kind == Kind::Cost {
                chosen.push(point);
            }
            let next = self.next[point];
            point = self.past[point].filter(|&past| rest[past] > rest[next]).unwrap_or(next);
        }
        chosen
    }
}

/// For each spawned invocation the line that joins it: the next sync directly in its spawner, or the spawner's return.
fn joined_by_syncs(shape: &Shape) -> Vec<Option<usize>> {
    let mut joins = vec![None; shape.invocations.len()];
    let mut waiting = vec![vec![]; shape.invocations.len()];
    for (line, &own) in shape.directly_in.iter().enumerate() {
        let kind = shape.lines[line].kind;
        if kind == Kind::Sync || kind == Kind::Return {
            waiting[own].drain(..).for_each(|child: usize| joins[child] = Some(line));
        }
        if let (Kind::Return, Start::Spawned(spawner)) = (kind, shape.invocations[own].start) {
            waiting[spawner].push(own);
        }
    }
    joins
}

/// For each async the line that joins it: the return of the innermost finish that is open there, or the root's return.
fn joined_by_finishes(shape: &Shape) -> Vec<Option<usize>> {
    let mut later = shape.finishes.iter().peekable();
    let mut open: Vec<&Finish> = vec![];
    let mut join = |first: usize| {
        while let Some(finish) = later.next_if(|finish| finish.first <= first) {
            open.push(finish);
        }
        while open.last().is_some_and(|finish| finish.last < first) {
            open.pop();
        }
        open.last().map_or(shape.lines.len() - 1, |finish| finish.last)
    };
    let all = shape.invocations.iter();
    all.map(|own| Some(join(own.first)).filter(|_| matches!(own.start, Start::Spawned(_)))).collect()
}
