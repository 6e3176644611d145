//! Good traces of many shapes.

use super::rng::Rng;
use super::tie::{self, Tied};
use super::{instructions, sites};
use crate::check::MOST_LINES;
use crate::line::Family;
use crate::trace::Trace;

/// A good trace of the base family of some shape and length, its site lines at the start or on the way, half of them
/// without 07 lines.
pub fn trace(rng: &mut Rng) -> Trace {
    trace_of(Family::Base, rng)
}

/// The same of either family; one in four of asyncs and finishes is a base trace in that family's words, if it fits.
pub fn trace_of(family: Family, rng: &mut Rng) -> Trace {
    if family == Family::Finishes && rng.once_in(4) {
        if let Tied::Text(chars) = tie::tied(&shaped(Family::Base, rng).chars) {
            return Trace { chars };
        }
    }
    shaped(family, rng)
}

fn shaped(family: Family, rng: &mut Rng) -> Trace {
    let lines = length(rng);
    let shape = rng.pick(&SHAPES);
    let mut trace = shape(rng, family, lines);
    carry(rng, &mut trace);
    sites::scatter(rng, &mut trace);
    trace
}

/// Puts 07 lines behind the costs of a good trace: behind none, all, or some of them, as long as there are lines left.
fn carry(rng: &mut Rng, trace: &mut Trace) {
    let once_in = rng.pick(&[0, 0, 1, 1, 2, 5]);
    if once_in > 0 {
        let (values, mut left) = (Costs::any(rng), MOST_LINES - trace.lines());
        trace.chars = instructions::put_in(&trace.chars, |_| {
            let carries = left > 0 && rng.once_in(once_in);
            left -= usize::from(carries);
            carries.then(|| values.draw(rng))
        });
    }
}

/// A length in lines: mostly short, now and then long, seldom the most there may be.
fn length(rng: &mut Rng) -> usize {
    let most = match rng.below(10_000) {
        0 => return MOST_LINES,
        1..=10 => 5_000,
        11..=500 => 200,
        501..=3_000 => 60,
        _ => 20,
    };
    rng.index(most) + 1
}

/// A way to make a good trace of a family of at most so many lines, give or take what its sites and returns need.
type Make = fn(&mut Rng, Family, usize) -> Trace;

const SHAPES: [Make; 10] = [mixed, mixed, deep, wide, recursive, idle, empty, fib, pipeline, wordy];

/// How costs and instructions are drawn.
#[derive(Clone, Copy)]
enum Costs {
    /// All alike, so that chains tie.
    Ones,
    Few,
    Any,
    /// Next to half of the most that a line can hold: some sums of two fit.
    Halves,
    /// Next to the most that a line can hold.
    Most,
}

impl Costs {
    fn any(rng: &mut Rng) -> Costs {
        rng.pick(&[Costs::Ones, Costs::Few, Costs::Few, Costs::Any, Costs::Halves, Costs::Most])
    }

    fn draw(self, rng: &mut Rng) -> u64 {
        match self {
            Costs::Ones => 1,
            Costs::Few => rng.between(1, 4),
            Costs::Any => rng.between(1, 0xffff_ffff),
            Costs::Halves => rng.between(0x7fff_fffe, 0x8000_0001),
            Costs::Most => rng.between(0xffff_fffe, 0xffff_ffff),
        }
    }
}

/// A trace in the making that never grows past a number of lines, its open invocations and finishes counted.
struct Maker {
    family: Family,
    trace: Trace,
    open: usize,
    /// How many are open with each open finish.
    finishes: Vec<usize>,
    lines: usize,
    sites: u64,
    costs: Costs,
}

impl Maker {
    fn new(rng: &mut Rng, family: Family, sites: u64, lines: usize) -> Maker {
        let mut trace = Trace::default();
        let odd = rng.below(1000);
        for site in 1..=sites {
            let place = rng.pick(&[[1, site + odd, 1], [site, 1 + odd, 9], [999, 7, site]]);
            trace.site(site, place);
        }
        Maker { family, trace, open: 1, finishes: vec![], lines, sites, costs: Costs::any(rng) }
    }

    /// Whether so many lines more, and a return for each open thing, still fit.
    fn fits(&self, more: usize) -> bool {
        self.trace.lines() + more + self.open <= self.lines
    }

    fn cost(&mut self, rng: &mut Rng) {
        if self.fits(1) {
            self.trace.cost(self.costs.draw(rng));
        }
    }

    /// A sync; in the other family a finish begins, or the one that nothing else is open in ends.
    fn sync(&mut self) {
        match self.family {
            Family::Base if self.fits(1) => _ = self.trace.sync(),
            Family::Base => (),
            Family::Finishes if self.finishes.last() == Some(&self.open) => self.leave(),
            Family::Finishes => self.finish(),
        }
    }

    fn finish(&mut self) {
        if self.fits(2) && self.open < 64 {
            self.trace.finish();
            self.open += 1;
            self.finishes.push(self.open);
        }
    }

    /// Calls or spawns a site, and tells whether it did; the most that may be open is 64.
    fn enter(&mut self, spawn: bool, site: u64) -> bool {
        let enters = self.fits(2) && self.open < 64 && self.sites > 0;
        match (spawn, self.family) {
            _ if !enters => return false,
            (false, _) => self.trace.call(site),
            (true, Family::Base) => self.trace.spawn(site),
            (true, Family::Finishes) => self.trace.begin(site),
        };
        self.open += 1;
        true
    }

    /// Returns from what was entered last.
    fn leave(&mut self) {
        if self.open > 1 {
            self.finishes.retain(|open| *open < self.open);
            self.open -= 1;
            self.trace.leave();
        }
    }

    /// Calls or spawns some site, and tells whether it did.
    fn enter_any(&mut self, rng: &mut Rng, spawn: bool) -> bool {
        self.enter(spawn, rng.between(1, self.sites.max(1)))
    }

    /// Returns from everything, the root last.
    fn whole(mut self) -> Trace {
        for _ in 0..self.open {
            self.trace.leave();
        }
        self.trace
    }
}

/// Any items in any order, some kinds likelier than others from trace to trace.
fn mixed(rng: &mut Rng, family: Family, lines: usize) -> Trace {
    let sites = rng.between(0, 4);
    let mut maker = Maker::new(rng, family, sites, lines);
    let odds: Vec<u64> = (0..5).map(|_| rng.between(1, 6)).collect();
    let deepest = rng.pick(&[2, 3, 5, 64]);
    while maker.fits(1) {
        match weighted(rng, &odds) {
            0 => maker.sync(),
            1 => maker.leave(),
            2 if maker.open < deepest => _ = maker.enter_any(rng, false),
            3 if maker.open < deepest => _ = maker.enter_any(rng, true),
            _ => maker.cost(rng),
        }
    }
    maker.whole()
}

/// An index, each as likely as its share of the odds.
fn weighted(rng: &mut Rng, odds: &[u64]) -> usize {
    let mut left = rng.below(odds.iter().sum());
    let fits = |share: &u64| {
        let found = left < *share;
        left = left.saturating_sub(*share);
        found
    };
    odds.iter().position(fits).unwrap_or(0)
}

/// Invocation in invocation, down to the deepest there may be, with costs and syncs on the way down and up.
fn deep(rng: &mut Rng, family: Family, lines: usize) -> Trace {
    let sites = rng.between(1, 3);
    let mut maker = Maker::new(rng, family, sites, lines);
    around(rng, &mut maker);
    let mut spawn = rng.once_in(2);
    while maker.enter_any(rng, spawn) {
        around(rng, &mut maker);
        spawn = rng.once_in(2);
    }
    while maker.open > 1 {
        around(rng, &mut maker);
        maker.leave();
    }
    around(rng, &mut maker);
    maker.whole()
}

/// A cost, a sync, both or neither.
fn around(rng: &mut Rng, maker: &mut Maker) {
    if rng.once_in(2) {
        maker.cost(rng);
    }
    if rng.once_in(4) {
        maker.sync();
    }
}

/// The root spawns one short child after another.
fn wide(rng: &mut Rng, family: Family, lines: usize) -> Trace {
    let sites = rng.between(1, 40);
    let mut maker = Maker::new(rng, family, sites, lines.max(sites as usize + 4));
    let syncs = rng.between(2, 50);
    while maker.fits(3) {
        let spawn = !rng.once_in(20);
        maker.enter_any(rng, spawn);
        maker.cost(rng);
        maker.leave();
        if rng.once_in(3) {
            maker.cost(rng);
        }
        if rng.once_in(syncs) {
            maker.sync();
        }
    }
    maker.whole()
}

/// Up to three sites that call and spawn themselves and one another.
fn recursive(rng: &mut Rng, family: Family, lines: usize) -> Trace {
    let sites = rng.between(1, 3);
    let mut maker = Maker::new(rng, family, sites, lines);
    while maker.fits(2) {
        match rng.below(5) {
            which @ (0 | 1) => _ = maker.enter_any(rng, which == 0),
            2 => maker.leave(),
            3 => around(rng, &mut maker),
            _ => maker.cost(rng),
        }
    }
    maker.whole()
}

/// Many sites and none of them called.
fn idle(rng: &mut Rng, family: Family, lines: usize) -> Trace {
    let sites = rng.below(lines.min(255) as u64 + 1);
    let mut maker = Maker::new(rng, family, sites, (lines + sites as usize).min(MOST_LINES));
    while maker.fits(1) {
        maker.cost(rng);
    }
    maker.whole()
}

/// No cost at all.
fn empty(rng: &mut Rng, family: Family, lines: usize) -> Trace {
    let sites = rng.below(4);
    let mut maker = Maker::new(rng, family, sites, lines);
    while maker.fits(2) {
        match rng.below(4) {
            0 => maker.sync(),
            1 => maker.leave(),
            which => _ = maker.enter_any(rng, which == 2),
        }
    }
    maker.whole()
}

/// Fibonacci as Cilk writes it: spawn one, call the other, sync, add.
fn fib(rng: &mut Rng, family: Family, lines: usize) -> Trace {
    let mut maker = Maker::new(rng, family, 2, lines);
    fib_of(rng, &mut maker, 20);
    maker.whole()
}

fn fib_of(rng: &mut Rng, maker: &mut Maker, n: u64) {
    maker.cost(rng);
    if n < 2 || !maker.fits(8) {
        return;
    }
    for (spawn, site) in [(true, 1), (false, 2)] {
        if maker.enter(spawn, site) {
            fib_of(rng, maker, n - site);
            maker.leave();
        }
    }
    maker.sync();
    maker.cost(rng);
}

/// Segment after segment: a spawned worker that calls its stages in turn, and a stage of the root between them.
fn pipeline(rng: &mut Rng, family: Family, lines: usize) -> Trace {
    let stages = rng.between(1, 5);
    let mut maker = Maker::new(rng, family, stages + 1, lines.max(16));
    while maker.fits(3 * stages as usize + 4) {
        maker.cost(rng);
        maker.enter(true, stages + 1);
        for stage in 1..=stages {
            if maker.enter(false, stage) {
                maker.cost(rng);
                maker.leave();
            }
        }
        maker.leave();
        if rng.once_in(6) {
            maker.sync();
        }
    }
    maker.whole()
}

/// Runs of syncs and of costs, in the root and in short children.
fn wordy(rng: &mut Rng, family: Family, lines: usize) -> Trace {
    let sites = rng.between(1, 3);
    let mut maker = Maker::new(rng, family, sites, lines);
    while maker.fits(1) {
        match rng.below(8) {
            0 | 1 => (0..rng.between(1, 4)).for_each(|_| maker.sync()),
            2 | 3 => (0..rng.between(1, 4)).for_each(|_| maker.cost(rng)),
            which @ (4 | 5) if maker.open < 4 => _ = maker.enter_any(rng, which == 4),
            _ => maker.leave(),
        }
    }
    maker.whole()
}
