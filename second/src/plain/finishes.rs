//! The engine of asyncs and finishes, written to be fast.
//!
//! One pass over the lines keeps for each open thing the weight along its nearest finish, past every async, and the
//! heaviest branch that ends with an async inside it. What is called or begun starts with the weight along the one
//! around it, so a branch weighs the same wherever it is looked at up to that finish; its end tells the lines that lead
//! into the heaviest branch and out of it. Then a walk along the lines that are left is the chosen chain.

use super::{checks, row, Fields, ASYNC, CALL, COST, FINISH, INSTRUCTIONS, RETURN, SITE};
use crate::check::{Lent, Limits};
use crate::line::{Family, CHARS};
use crate::refusal::Refusal;
use crate::rows::{Profile, Row, CALLS, ILOCAL, ION_SPAN, LOCAL, ON_SPAN, SPAN, WORK};

/// The profile of a trace, or its refusal.
pub fn profile(trace: &[u8], limits: Limits, lent: &Lent) -> Result<Profile, Refusal> {
    let mut engine = Engine::new(trace.len() / CHARS);
    let short = |lines| lent.is_short(limits, lines);
    checks::each_line_of(Family::Finishes, trace, limits, short, |fields| engine.line(fields))?;
    Ok(engine.whole())
}

/// How something was opened.
#[derive(Clone, Copy, PartialEq)]
enum Way {
    Call,
    Async,
    Finish,
    Root,
}

/// An open invocation or finish.
struct Open {
    way: Way,
    /// The row of the costs directly in it.
    row: u8,
    /// The line that opened it.
    line: u32,
    /// The innermost async around it or itself, up to the nearest finish, by its line; 0, which is never one, if there
    /// is none.
    inside: u32,
    /// The total work when it opened.
    work_before: u64,
    /// The weight along its nearest finish when it opened, and at present.
    before: u64,
    along: u64,
    /// The heaviest branch that ends inside it, the first of equal ones.
    branch: Branch,
}

/// The way along a finish into an async and to its end.
#[derive(Clone, Copy, Default)]
struct Branch {
    weight: u64,
    begun: u32,
    last: u32,
}

/// A line as the walk along the chosen chain needs it.
#[derive(Clone, Copy)]
struct Step {
    /// The line that comes next on the chain's way.
    next: u32,
    cost: u32,
    instructions: u32,
    /// Of an async the innermost one around it, as above.
    around: u32,
    row: u8,
}

struct Engine {
    open: Vec<Open>,
    /// How many of the open invocations are of each row.
    open_of: [u8; 256],
    steps: Vec<Step>,
    rows: Vec<Row>,
    work: u64,
    span: u64,
}

impl Engine {
    fn new(lines: usize) -> Engine {
        let (way, branch) = (Way::Root, Branch::default());
        let root = Open { way, row: 0, line: 0, inside: 0, work_before: 0, before: 0, along: 0, branch };
        Engine {
            open: vec![root],
            open_of: std::array::from_fn(|row| u8::from(row == 0)),
            steps: Vec::with_capacity(lines),
            rows: vec![row(1)],
            work: 0,
            span: 0,
        }
    }

    /// Takes one line, which is good.
    #[inline(always)]
    fn line(&mut self, fields: &Fields) {
        let line = self.steps.len() as u32;
        let Some(own) = self.open.last_mut() else { return };
        let mut step = Step { next: line + 1, cost: 0, instructions: 0, around: own.inside, row: own.row };
        match fields.kind {
            COST => {
                step.cost = fields.value;
                own.along += u64::from(fields.value);
                self.work += u64::from(fields.value);
                self.rows[usize::from(own.row)][LOCAL] += u64::from(fields.value);
            }
            INSTRUCTIONS => {
                self.rows[usize::from(own.row)][ILOCAL] += u64::from(fields.value);
                if let Some(cost) = self.steps.last_mut() {
                    cost.instructions = fields.value;
                }
            }
            CALL => self.enter(Way::Call, fields.site as u8, line),
            ASYNC => self.enter(Way::Async, fields.site as u8, line),
            FINISH => self.finish(line),
            RETURN => self.leave(line),
            SITE => self.rows.push(row(0)),
            _ => (),
        }
        self.steps.push(step);
    }

    /// Opens an invocation, which goes on where the one around it is.
    #[inline(always)]
    fn enter(&mut self, way: Way, row: u8, line: u32) {
        let Some(around) = self.open.last() else { return };
        self.rows[usize::from(row)][CALLS] += 1;
        self.open_of[usize::from(row)] += 1;
        let inside = if way == Way::Async { line } else { around.inside };
        let (before, along) = (around.along, around.along);
        let branch = Branch::default();
        self.open.push(Open { way, row, line, inside, work_before: self.work, before, along, branch });
    }

    /// Opens a finish, in which nothing has a weight yet.
    #[inline(always)]
    fn finish(&mut self, line: u32) {
        let Some(around) = self.open.last() else { return };
        let (way, branch) = (Way::Finish, Branch::default());
        let own = Open { way, row: around.row, line, inside: 0, work_before: self.work, before: 0, along: 0, branch };
        self.open.push(own);
    }

    /// Closes the innermost open thing and gives what it weighs to the one around it. Columns 2 and 3 take an
    /// invocation where none of its row is open around it.
    #[inline(always)]
    fn leave(&mut self, line: u32) {
        let Some(mut own) = self.open.pop() else { return };
        if own.way == Way::Async {
            own.offer(Branch { weight: own.along, begun: own.line, last: line });
            self.steps[own.line as usize].next = line + 1;
        }
        let heaviest = own.branch.weight.max(own.along);
        if own.way != Way::Finish {
            let row = usize::from(own.row);
            self.open_of[row] -= 1;
            if self.open_of[row] == 0 {
                self.rows[row][WORK] += self.work - own.work_before;
                self.rows[row][SPAN] += heaviest - own.before;
            }
        }
        if own.way == Way::Finish || own.way == Way::Root {
            self.join(&own, line);
        }
        let Some(around) = self.open.last_mut() else {
            self.span = heaviest;
            return;
        };
        match own.way {
            Way::Finish | Way::Root => around.along += heaviest,
            Way::Call => {
                around.along = own.along;
                around.offer(own.branch);
            }
            Way::Async => around.offer(own.branch),
        }
    }

    /// Ends a finish at a line. The branch's lines come before those past it, so it wins when they are equal; then each
    /// async on its way leads into itself, and the end of the last to the end of the finish.
    #[inline(always)]
    fn join(&mut self, own: &Open, line: u32) {
        let branch = own.branch;
        if branch.weight == 0 || branch.weight < own.along {
            return;
        }
        self.steps[branch.last as usize].next = line;
        let mut begun = branch.begun;
        while begun > 0 {
            let step = &mut self.steps[begun as usize];
            step.next = begun + 1;
            begun = step.around;
        }
    }

    /// The profile of a whole trace.
    fn whole(mut self) -> Profile {
        let mut marks = vec![0; self.steps.len()];
        let mut line = 0;
        while let Some(step) = self.steps.get(line) {
            if step.cost > 0 {
                marks[line] = 1;
                let row = &mut self.rows[usize::from(step.row)];
                row[ON_SPAN] += u64::from(step.cost);
                row[ION_SPAN] += u64::from(step.instructions);
            }
            line = step.next as usize;
        }
        let answer = [self.work, self.span, self.rows.len() as u64 - 1, self.steps.len() as u64];
        Profile { answer, rows: self.rows, marks }
    }
}

impl Open {
    /// Takes a branch that is heavier than those before it.
    #[inline(always)]
    fn offer(&mut self, branch: Branch) {
        if branch.weight > self.branch.weight {
            self.branch = branch;
        }
    }
}
