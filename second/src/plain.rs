//! A plain engine, written to be fast: what the proved engines are timed against. It makes every check and gives every
//! number of the slow ways, with which the tests hold it equal.
//!
//! One pass over the lines checks them and keeps three weights for each open invocation: of the blocks that a sync has
//! ended, along the present block, and of the block's heaviest branch that ends in a spawned child. Where a block ends,
//! the lines that lead into the heaviest branch and out of it are told so; then a walk along those that are left is the
//! chosen chain. What a cost line weighs is a parameter that the compiler fills in: its value, or by forecast entries.

mod checks;
pub mod compact;
mod finishes;
pub mod folded;
pub mod why;

use crate::check::{before_lines, Lent, Limits};
use crate::forecast::{Entry, LEAST_FACTOR, MOST_ENTRIES, MOST_FACTOR};
use crate::line::{Family, CHARS};
use crate::refusal::{Ground, Refusal};
use crate::rows::{Profile, Row, CALLS, COLUMNS, ILOCAL, ION_SPAN, LOCAL, ON_SPAN, SPAN, WORK};

/// The profile of a trace of the base family, or its refusal.
pub fn profile(trace: &[u8], limits: Limits, lent: &Lent) -> Result<Profile, Refusal> {
    weighed(trace, limits, lent, |_, value| value)
}

/// The profile of a trace of either family, or its refusal.
pub fn profile_of(family: Family, trace: &[u8], limits: Limits, lent: &Lent) -> Result<Profile, Refusal> {
    match family {
        Family::Base => profile(trace, limits, lent),
        Family::Finishes => finishes::profile(trace, limits, lent),
    }
}

/// The profile of a trace by forecast entries, or its refusal. The list is judged behind the trace; until then an entry that is
/// not good counts as none.
pub fn forecast(trace: &[u8], limits: Limits, entries: &[Entry], lent: &Lent) -> Result<Profile, Refusal> {
    let mut factors = [1_u32; 256];
    let mut bad_factor = false;
    for entry in entries {
        let good = (LEAST_FACTOR..=MOST_FACTOR).contains(&entry.factor);
        bad_factor |= !good;
        if let (true, Some(factor)) = (good, factors.get_mut(entry.row as usize)) {
            *factor = entry.factor as u32;
        }
    }
    let profile = weighed(trace, limits, lent, |row, value| value.div_ceil(factors[usize::from(row)]))?;
    let ascending = entries.windows(2).all(|pair| pair[0].row < pair[1].row);
    let declared = entries.last().is_none_or(|entry| entry.row <= profile.answer[2]);
    if entries.len() > MOST_ENTRIES || !ascending || !declared {
        return Err(Ground::Entries.at(0));
    }
    if bad_factor {
        return Err(Ground::Factor.at(0));
    }
    Ok(profile)
}

/// The profile of a trace whose cost lines weigh what is said of their rows and values. Two callers share the steps below: those
/// that the compiler puts in place by itself where there is one caller are marked, so that the plain profile stays as fast.
#[inline(always)]
fn weighed(trace: &[u8], limits: Limits, lent: &Lent, weigh: impl Fn(u8, u32) -> u32) -> Result<Profile, Refusal> {
    let short = |lines| lent.is_short(limits, lines);
    let lines = before_lines(trace, limits, short).map_err(|ground| ground.at(0))?;
    let mut engine = Engine::new(limits, lines);
    for (number, chars) in trace.chunks_exact(CHARS).enumerate() {
        let chars = chars.try_into().expect("a whole line");
        engine.line(number as u32, chars, &weigh).map_err(|ground| ground.at(number))?;
    }
    engine.finish().ok_or(Ground::Unfinished.at(lines))
}

const SITE: u8 = 1;
const CALL: u8 = 2;
const SPAWN: u8 = 3;
const SYNC: u8 = 4;
const RETURN: u8 = 5;
const COST: u8 = 6;
const INSTRUCTIONS: u8 = 7;
const ASYNC: u8 = 0x12;
const FINISH: u8 = 0x13;

/// What a character is worth as a digit; above 15 if it is none.
const WORTH: [u8; 256] = {
    let mut worth = [0xff; 256];
    let mut digit = 0;
    while digit < 16 {
        worth[b"0123456789abcdef"[digit] as usize] = digit as u8;
        worth[b"0123456789ABCDEF"[digit] as usize] = digit as u8;
        digit += 1;
    }
    worth
};

/// The fields of a line.
#[derive(Clone, Copy)]
struct Fields {
    kind: u8,
    site: u16,
    value: u32,
    file: u16,
    column: u16,
}

impl Fields {
    /// A line of a kind with nothing in it.
    fn of(kind: u8) -> Fields {
        Fields { kind, site: 0, value: 0, file: 0, column: 0 }
    }

    /// Refusals 5 and 6 of the base family.
    fn read(chars: &[u8; CHARS]) -> Result<Fields, Ground> {
        Fields::read_of(Family::Base, chars)
    }

    /// Refusals 5 and 6.
    #[inline(always)]
    fn read_of(family: Family, chars: &[u8; CHARS]) -> Result<Fields, Ground> {
        let mut all = 0;
        let mut field = |digits: &[u8]| number(digits, &mut all);
        let fields = Fields {
            kind: field(&chars[..2]) as u8,
            site: field(&chars[2..6]) as u16,
            value: field(&chars[6..14]),
            file: field(&chars[14..18]) as u16,
            column: field(&chars[18..22]) as u16,
        };
        if all > 15 || chars[22] != b'\n' {
            return Err(Ground::Character);
        }
        if !fields.keep_to_the_table(family) {
            return Err(Ground::Table);
        }
        Ok(fields)
    }

    #[inline(always)]
    fn keep_to_the_table(&self, family: Family) -> bool {
        let Fields { kind, site, value, file, column } = *self;
        let base = family == Family::Base;
        match kind {
            SITE => value > 0 && file > 0 && column > 0,
            CALL => value == 0 && file == 0 && column == 0,
            SPAWN if base => value == 0 && file == 0 && column == 0,
            ASYNC if !base => value == 0 && file == 0 && column == 0,
            RETURN => site == 0 && value == 0 && file == 0 && column == 0,
            SYNC if base => site == 0 && value == 0 && file == 0 && column == 0,
            FINISH if !base => site == 0 && value == 0 && file == 0 && column == 0,
            COST | INSTRUCTIONS => site == 0 && value > 0 && file == 0 && column == 0,
            _ => false,
        }
    }

    /// File, line and column in 64 bits.
    fn place(&self) -> u64 {
        u64::from(self.value) << 32 | u64::from(self.file) << 16 | u64::from(self.column)
    }
}

/// The number that at most eight digits show; `all` gathers the bits of their worths.
fn number(digits: &[u8], all: &mut u8) -> u32 {
    digits.iter().fold(0, |number, &c| {
        let worth = WORTH[usize::from(c)];
        *all |= worth;
        number << 4 | u32::from(worth & 15)
    })
}

/// An open invocation.
struct Open {
    row: u8,
    /// The line that spawned it; 0, which is never a spawn, if it was called or is the root.
    spawn: u32,
    /// The total work when it opened.
    work_before: u64,
    /// The span of the blocks that a sync has ended.
    done: u64,
    /// The weight along the present block, past every spawned child.
    along: u64,
    /// The heaviest branch of the present block that ends in a spawned child, the first of equal ones.
    branch: Branch,
}

/// The way along a block up to a spawn and through the child.
#[derive(Default)]
struct Branch {
    weight: u64,
    spawn: u32,
    last: u32,
}

/// A line as the walk along the chosen chain needs it.
#[derive(Clone, Copy, Default)]
struct Step {
    /// The line that comes next on the chain's way.
    next: u32,
    cost: u32,
    instructions: u32,
    row: u8,
}

struct Engine {
    limits: Limits,
    places: Vec<u64>,
    open: Vec<Open>,
    /// How many of the open invocations are of each row.
    open_of: [u8; 256],
    steps: Vec<Step>,
    rows: Vec<Row>,
    work: u64,
    span: u64,
}

/// A row in which nothing but calls is counted.
fn row(calls: u64) -> Row {
    let mut row = [0; COLUMNS];
    row[CALLS] = calls;
    row
}

impl Engine {
    fn new(limits: Limits, lines: usize) -> Engine {
        Engine {
            limits,
            places: Vec::new(),
            open: vec![Open::new(0, 0, 0)],
            open_of: std::array::from_fn(|row| u8::from(row == 0)),
            steps: Vec::with_capacity(lines),
            rows: vec![row(1)],
            work: 0,
            span: 0,
        }
    }

    /// Takes one line, or gives the smallest number that it is refused with. No sum wraps: 65,536 values below 2^32,
    /// each counted at most once in a column of a row, stay below 2^48.
    fn line(&mut self, line: u32, chars: &[u8; CHARS], weigh: impl Fn(u8, u32) -> u32) -> Result<(), Ground> {
        let fields = Fields::read(chars)?;
        let own = self.open.last_mut().ok_or(Ground::AfterEnd)?;
        let mut step = Step { next: line + 1, cost: 0, instructions: 0, row: own.row };
        match fields.kind {
            COST => {
                step.cost = weigh(own.row, fields.value);
                own.along += u64::from(step.cost);
                self.work += u64::from(step.cost);
                self.rows[usize::from(own.row)][LOCAL] += u64::from(step.cost);
            }
            INSTRUCTIONS => self.carry(step.row, fields.value)?,
            SYNC => own.end_block(line, &mut self.steps),
            CALL => self.enter(fields.site, 0)?,
            SPAWN => self.enter(fields.site, line)?,
            RETURN => self.leave(line),
            _ => self.site(&fields)?,
        }
        self.steps.push(step);
        Ok(())
    }

    /// Refusal 22: only a cost line's step has a cost.
    fn carry(&mut self, row: u8, instructions: u32) -> Result<(), Ground> {
        let cost = self.steps.last_mut().filter(|step| step.cost > 0).ok_or(Ground::Stray)?;
        cost.instructions = instructions;
        self.rows[usize::from(row)][ILOCAL] += u64::from(instructions);
        Ok(())
    }

    /// Refusals 8, 9 and 10.
    fn site(&mut self, fields: &Fields) -> Result<(), Ground> {
        let sites = self.places.len();
        if usize::from(fields.site) != sites + 1 {
            return Err(Ground::SiteOrder);
        }
        if u64::from(fields.site) > self.limits.sites {
            return Err(Ground::SiteLimit);
        }
        if self.places.contains(&fields.place()) {
            return Err(Ground::Place);
        }
        self.places.push(fields.place());
        self.rows.push(row(0));
        Ok(())
    }

    /// Refusals 11 and 12.
    #[inline(always)]
    fn enter(&mut self, site: u16, spawn: u32) -> Result<(), Ground> {
        if site == 0 || usize::from(site) > self.places.len() {
            return Err(Ground::Undeclared);
        }
        if self.open.len() as u64 >= self.limits.depth {
            return Err(Ground::Depth);
        }
        self.rows[usize::from(site)][CALLS] += 1;
        self.open_of[usize::from(site)] += 1;
        self.open.push(Open::new(site as u8, spawn, self.work));
        Ok(())
    }

    /// Closes the innermost invocation and gives its span to the one around it. Columns 2 and 3 take it where none of its
    /// row is open around it.
    #[inline(always)]
    fn leave(&mut self, line: u32) {
        let Some(mut own) = self.open.pop() else { return };
        own.end_block(line, &mut self.steps);
        let row = usize::from(own.row);
        self.open_of[row] -= 1;
        if self.open_of[row] == 0 {
            self.rows[row][WORK] += self.work - own.work_before;
            self.rows[row][SPAN] += own.done;
        }
        match self.open.last_mut() {
            None => self.span = own.done,
            Some(around) if own.spawn == 0 => around.along += own.done,
            Some(around) => {
                self.steps[own.spawn as usize].next = line + 1;
                around.offer(Branch { weight: around.along + own.done, spawn: own.spawn, last: line });
            }
        }
    }

    /// The profile, if the root has returned.
    fn finish(mut self) -> Option<Profile> {
        if !self.open.is_empty() {
            return None;
        }
        let mut marks = vec![0; self.steps.len()];
        let mut line = 0;
        while let Some(step) = self.steps.get(line) {
            if step.cost > 0 {
                marks[line] = 1;
                let row = &mut self.rows[usize::from(step.row)];
                row[ON_SPAN] += u64::from(step.cost);
                row[ION_SPAN] += u64::from(step.instructions);
            }
            line = step.next as usize;
        }
        let answer = [self.work, self.span, self.places.len() as u64, self.steps.len() as u64];
        Some(Profile { answer, rows: self.rows, marks })
    }
}

impl Open {
    fn new(row: u8, spawn: u32, work_before: u64) -> Open {
        Open { row, spawn, work_before, done: 0, along: 0, branch: Branch::default() }
    }

    /// Takes a branch that is heavier than those before it.
    fn offer(&mut self, branch: Branch) {
        if branch.weight > self.branch.weight {
            self.branch = branch;
        }
    }

    /// Ends the block at a sync or return. The branch's lines come before those past it, so it wins when they are equal;
    /// then its spawn leads into the child and the child's return to the end of the block.
    fn end_block(&mut self, line: u32, steps: &mut [Step]) {
        let branch = std::mem::take(&mut self.branch);
        if branch.weight > 0 && branch.weight >= self.along {
            steps[branch.spawn as usize].next = branch.spawn + 1;
            steps[branch.last as usize].next = line;
        }
        self.done += branch.weight.max(self.along);
        self.along = 0;
    }
}
