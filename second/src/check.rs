//! The checks: every refusal in its order, and the shape of what is accepted.

use crate::line::{Family, Kind, Line, Place, CHARS};
use crate::refusal::{Ground, Refusal};
use crate::rows::COLUMNS;
use crate::shape::{Finish, Invocation, Shape, Start};
use std::collections::HashSet;

/// "At most 65,536 lines."
pub const MOST_LINES: usize = 65_536;

/// "The caller gives a depth limit D, 1 to 64, counting the root, and a site limit M, 0 to 255."
#[derive(Clone, Copy, Debug, PartialEq, Eq)]
pub struct Limits {
    pub depth: u64,
    pub sites: u64,
}

/// The lengths of what the caller lends beside the trace; the table engine is lent no marks.
#[derive(Clone, Copy, Debug, PartialEq, Eq)]
pub struct Lent {
    pub scratch: usize,
    pub rows: usize,
    pub answer: usize,
    pub marks: Option<usize>,
}

impl Limits {
    fn in_range(self) -> bool {
        (1..=64).contains(&self.depth) && self.sites <= 255
    }

    /// "the table engine's scratch becomes 7·D·(M+3)"
    pub fn table_scratch(self) -> usize {
        (7 * self.depth * (self.sites + 3)) as usize
    }

    /// "The marks engine needs 8·D."
    pub fn marks_scratch(self) -> usize {
        (8 * self.depth) as usize
    }

    /// "Both need" seven for each of M+1 rows: "every row room with five reads seven".
    pub fn rows(self) -> usize {
        COLUMNS * (self.sites as usize + 1)
    }

    /// What the table engine needs.
    pub fn for_tables(self) -> Lent {
        Lent { scratch: self.table_scratch(), rows: self.rows(), answer: 4, marks: None }
    }

    /// What the marks engine needs for a number of lines: "one byte of marks a line".
    pub fn for_marks(self, lines: usize) -> Lent {
        Lent { scratch: self.marks_scratch(), rows: self.rows(), answer: 4, marks: Some(lines) }
    }
}

impl Lent {
    /// "any lent slice shorter than stated"
    pub fn is_short(&self, limits: Limits, lines: usize) -> bool {
        let need = match self.marks {
            None => limits.for_tables(),
            Some(_) => limits.for_marks(lines),
        };
        self.scratch < need.scratch || self.rows < need.rows || self.answer < need.answer || self.marks < need.marks
    }
}

/// The shape of a trace of the base family that an engine is lent, or the refusal.
pub fn trace(chars: &[u8], limits: Limits, lent: &Lent) -> Result<Shape, Refusal> {
    trace_of(Family::Base, chars, limits, lent)
}

/// The same of either family.
pub fn trace_of(family: Family, chars: &[u8], limits: Limits, lent: &Lent) -> Result<Shape, Refusal> {
    read_of(family, chars, limits, |lines| lent.is_short(limits, lines))
}

/// The shape of a trace of the base family, or the refusal.
pub fn read(chars: &[u8], limits: Limits, short: impl Fn(usize) -> bool) -> Result<Shape, Refusal> {
    read_of(Family::Base, chars, limits, short)
}

/// The shape of a trace, or the refusal: "Checks 1 to 4 run in that order. Then the first faulty line decides, and
/// within it the smallest number. 14 comes last." Whether too little is lent for a number of lines, `short` says.
pub fn read_of(family: Family, chars: &[u8], limits: Limits, short: impl Fn(usize) -> bool) -> Result<Shape, Refusal> {
    let lines = before_lines(chars, limits, short).map_err(|ground| ground.at(0))?;
    let mut walk = Walk::new(family, limits);
    for (number, chars) in chars.chunks(CHARS).enumerate() {
        walk.step(chars).map_err(|ground| ground.at(number))?;
    }
    walk.whole().ok_or(Ground::Unfinished.at(lines))
}

/// Checks 1 to 4, and how many lines there are.
pub fn before_lines(chars: &[u8], limits: Limits, short: impl Fn(usize) -> bool) -> Result<usize, Ground> {
    let lines = chars.len() / CHARS;
    if !limits.in_range() {
        return Err(Ground::Limits);
    }
    if chars.len() % CHARS != 0 {
        return Err(Ground::Length);
    }
    if lines > MOST_LINES {
        return Err(Ground::Lines);
    }
    if short(lines) {
        return Err(Ground::Room);
    }
    Ok(lines)
}

/// What stands after some lines, each of them good.
struct Walk {
    limits: Limits,
    shape: Shape,
    places: HashSet<Place>,
    /// The open things, the root first; none after the root's return.
    open: Vec<Open>,
}

/// An open thing, by its index in the shape.
#[derive(Clone, Copy)]
enum Open {
    Invocation(usize),
    Finish(usize),
}

impl Walk {
    /// "the root is open from the start"
    fn new(family: Family, limits: Limits) -> Walk {
        let root = Invocation { row: 0, start: Start::Root, first: 0, last: 0 };
        let (invocations, finishes) = (vec![root], vec![]);
        Walk {
            limits,
            shape: Shape { family, lines: vec![], sites: 0, invocations, finishes, directly_in: vec![] },
            places: HashSet::new(),
            open: vec![Open::Invocation(0)],
        }
    }

    /// Takes one more line, or gives the smallest number that it is refused with.
    fn step(&mut self, chars: &[u8]) -> Result<(), Ground> {
        let line = self.shape.family.read(chars)?;
        let inside = self.innermost().ok_or(Ground::AfterEnd)?;
        match line.kind {
            Kind::Instructions => self.instructions()?,
            Kind::Site => self.site(&line)?,
            Kind::Call => self.enter(&line, Start::Called(inside))?,
            Kind::Spawn | Kind::Async => self.enter(&line, Start::Spawned(inside))?,
            Kind::Finish => self.finish()?,
            Kind::Sync | Kind::Cost => (),
            Kind::Return => self.leave(),
        }
        self.shape.directly_in.push(inside);
        self.shape.lines.push(line);
        Ok(())
    }

    /// The innermost open invocation: "Costs directly in a finish belong to the row around it".
    fn innermost(&self) -> Option<usize> {
        self.open.iter().rev().find_map(|open| match open {
            Open::Invocation(own) => Some(*own),
            Open::Finish(_) => None,
        })
    }

    /// "22 a 07 line not directly after a cost, checked after 7"
    fn instructions(&self) -> Result<(), Ground> {
        let carries = self.shape.lines.last().is_some_and(|before| before.kind == Kind::Cost);
        carries.then_some(()).ok_or(Ground::Stray)
    }

    /// "A site line may stand anywhere before the root's return"; "Its number still follows the last declared"; "No two
    /// have the same place."
    fn site(&mut self, line: &Line) -> Result<(), Ground> {
        if line.site != self.shape.sites as u64 + 1 {
            return Err(Ground::SiteOrder);
        }
        if line.site > self.limits.sites {
            return Err(Ground::SiteLimit);
        }
        if !self.places.insert(line.place()) {
            return Err(Ground::Place);
        }
        self.shape.sites += 1;
        Ok(())
    }

    /// Opens the invocation that a call or spawn line begins: "a call or spawn needs its site declared on an earlier
    /// line"; "Refusal 11 and column 1 take async as spawn".
    fn enter(&mut self, line: &Line, start: Start) -> Result<(), Ground> {
        if line.site == 0 || line.site > self.shape.sites as u64 {
            return Err(Ground::Undeclared);
        }
        let first = self.open(Open::Invocation(self.shape.invocations.len()))?;
        self.shape.invocations.push(Invocation { row: line.site as usize, start, first, last: first });
        Ok(())
    }

    /// Opens a finish.
    fn finish(&mut self) -> Result<(), Ground> {
        let first = self.open(Open::Finish(self.shape.finishes.len()))?;
        self.shape.finishes.push(Finish { first, last: first });
        Ok(())
    }

    /// One more open thing, with its first line: "more than D invocations open"; "a finish counts towards D".
    fn open(&mut self, thing: Open) -> Result<usize, Ground> {
        if self.open.len() as u64 >= self.limits.depth {
            return Err(Ground::Depth);
        }
        self.open.push(thing);
        Ok(self.shape.lines.len() + 1)
    }

    /// "05 closes the innermost open thing."
    fn leave(&mut self) {
        match self.open.pop() {
            Some(Open::Invocation(own)) => self.shape.invocations[own].last = self.shape.lines.len(),
            Some(Open::Finish(own)) => self.shape.finishes[own].last = self.shape.lines.len(),
            None => (),
        }
    }

    /// The shape, if the root has returned.
    fn whole(self) -> Option<Shape> {
        self.open.is_empty().then_some(self.shape)
    }
}
