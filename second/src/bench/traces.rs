//! Traces to time: four shapes, one of them with capital digits as well, each with exactly so many lines and sites.

use crate::compare::rng::Rng;
use crate::trace::Trace;

/// The depth limit of every trace here, that of the report program.
pub const DEPTH: u64 = 32;

/// A shape by its name, how some more of it is made, and how its letters are written.
#[derive(Clone, Copy)]
pub struct Shape {
    pub name: &'static str,
    more: fn(&mut Maker),
    letters: fn(&mut [u8]),
}

pub const SHAPES: [Shape; 6] = [
    Shape { name: "deep", more: deep, letters: small },
    Shape { name: "wide", more: wide, letters: small },
    Shape { name: "fib", more: fib_24, letters: small },
    Shape { name: "pipeline", more: pipeline, letters: small },
    Shape { name: "capitals", more: fib_24, letters: <[u8]>::make_ascii_uppercase },
    Shape { name: "mixed", more: fib_24, letters: mixed },
];

impl Shape {
    /// A good trace of this shape, the same each time. The lines are more than the sites.
    pub fn trace(&self, lines: usize, sites: u64) -> Vec<u8> {
        let mut maker = Maker { trace: Trace::with_sites(sites), rng: Rng::new(1), lines, sites, site: 0, open: 1 };
        let mut before = 0;
        while before < maker.trace.lines() {
            before = maker.trace.lines();
            (self.more)(&mut maker);
        }
        let mut trace = maker.finish();
        (self.letters)(&mut trace);
        trace
    }
}

/// A trace whose invocations are in one another down to the depth limit, with a cost of 1 on every line in the innermost.
pub fn deepest(lines: usize, sites: u64) -> Vec<u8> {
    let mut trace = Trace::with_sites(sites);
    (1..DEPTH).for_each(|site| _ = trace.call(site));
    while trace.lines() + (DEPTH as usize) < lines {
        trace.cost(1);
    }
    (0..DEPTH).for_each(|_| _ = trace.leave());
    trace.chars
}

/// A trace that says little, in tens of lines: a spawned child with one cost, three costs, three syncs and a cost.
/// Costs fill it up to the root's return.
pub fn wordy(lines: usize, sites: u64) -> Vec<u8> {
    let mut trace = Trace::with_sites(sites);
    while trace.lines() + 10 < lines {
        trace.spawn(1).cost(4).leave().cost(1).cost(2).cost(3).sync().sync().sync().cost(1);
    }
    while trace.lines() + 1 < lines {
        trace.cost(1);
    }
    trace.leave();
    trace.chars
}

/// A trace in the making that never grows past a number of lines. Sites take turns.
struct Maker {
    trace: Trace,
    rng: Rng,
    lines: usize,
    sites: u64,
    site: u64,
    open: usize,
}

impl Maker {
    /// Whether so many lines more, and a return for each open invocation, still fit.
    fn fits(&self, more: usize) -> bool {
        self.trace.lines() + more + self.open <= self.lines
    }

    fn cost(&mut self) {
        if self.fits(1) {
            self.trace.cost(self.rng.between(1, 100_000));
        }
    }

    fn sync(&mut self) {
        if self.fits(1) {
            self.trace.sync();
        }
    }

    /// Calls or spawns the next site, does something there, and returns.
    fn child(&mut self, spawn: bool, body: impl FnOnce(&mut Maker)) {
        if !self.fits(2) || self.open as u64 >= DEPTH {
            return;
        }
        self.site = self.site % self.sites + 1;
        if spawn {
            self.trace.spawn(self.site);
        } else {
            self.trace.call(self.site);
        }
        self.open += 1;
        body(self);
        self.trace.leave();
        self.open -= 1;
    }

    /// Costs up to the last line, and the root's return.
    fn finish(mut self) -> Vec<u8> {
        while self.fits(1) {
            self.cost();
        }
        self.trace.leave();
        self.trace.chars
    }
}

/// Down to the depth limit and up again, every other child spawned, with a cost on each side.
fn deep(maker: &mut Maker) {
    maker.cost();
    maker.child(maker.open % 2 == 1, deep);
    maker.cost();
}

/// A spawned child with one cost, and a cost beside it; a sync now and then.
fn wide(maker: &mut Maker) {
    maker.child(true, Maker::cost);
    maker.cost();
    if maker.rng.once_in(32) {
        maker.sync();
    }
}

/// Letters as the writers have them.
fn small(_: &mut [u8]) {}

/// Every other letter a capital one.
fn mixed(trace: &mut [u8]) {
    trace.iter_mut().filter(|c| c.is_ascii_alphabetic()).step_by(2).for_each(|c| c.make_ascii_uppercase());
}

fn fib_24(maker: &mut Maker) {
    fib(maker, 24);
}

/// Fibonacci as Cilk writes it: spawn one, call the other, sync, add.
fn fib(maker: &mut Maker, n: u32) {
    maker.cost();
    if n >= 2 {
        maker.child(true, |maker| fib(maker, n - 1));
        maker.child(false, |maker| fib(maker, n - 2));
        maker.sync();
        maker.cost();
    }
}

/// A segment: a spawned worker that calls its five stages in turn; a sync now and then.
fn pipeline(maker: &mut Maker) {
    maker.cost();
    maker.child(true, |maker| (0..5).for_each(|_| maker.child(false, Maker::cost)));
    if maker.rng.once_in(8) {
        maker.sync();
    }
}

#[cfg(test)]
mod tests {
    use super::*;
    use crate::check::Limits;
    use crate::library::Second;
    use crate::line::CHARS;

    #[test]
    fn each_is_accepted_and_has_its_lines_and_sites() {
        for shape in SHAPES {
            for (lines, sites) in [(1_000, 2), (1_000, 255), (8_000, 31)] {
                let trace = shape.trace(lines, sites);
                let limits = Limits { depth: DEPTH, sites };
                assert_eq!(trace.len(), CHARS * lines, "{}", shape.name);
                let profile = Second::by_paths().profile(&trace, limits, &limits.for_tables());
                assert_eq!(profile.expect("accepted").answer[2..], [sites, lines as u64], "{}", shape.name);
            }
        }
    }
}
