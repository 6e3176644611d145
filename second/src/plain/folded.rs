//! Folded stacks, written to be fast: what the proved writer is timed against. It makes every check and writes every
//! character of the slow way, with which the tests hold it equal.
//!
//! One pass checks the lines and keeps what each does to the stack; each row's name is found once; a second pass adds up the
//! length. The last one writes, with the text of the stack at hand, which a call makes longer and a return cuts.

use super::{checks, Fields, CALL, COST, RETURN, SPAWN};
use crate::check::Limits;
use crate::line::CHARS;
use crate::refusal::{Ground, Refusal};

/// Writes the folded stacks of a trace to the front of `out`, and gives how many characters they are, or the refusal.
pub fn write(trace: &[u8], limits: Limits, lists: [&[u8]; 2], room: usize, out: &mut [u8]) -> Result<usize, Refusal> {
    let mut steps = Vec::with_capacity(trace.len() / CHARS);
    let short = |_| (room as u64) < limits.depth;
    let sites = checks::each_line(trace, limits, short, |line| steps.extend(Step::of(line)))?;
    let names = names(lists, sites)?;
    let length = length(&names, &steps);
    if out.len() < length {
        return Err(Ground::FoldedRoom.at(0));
    }
    fill(&names, &steps, &mut out[..length]);
    Ok(length)
}

/// What a line does to the stack; a site line and a sync do nothing.
#[derive(Clone, Copy)]
enum Step {
    Enter(u8),
    Leave,
    Spend(u32),
}

impl Step {
    fn of(line: &Fields) -> Option<Step> {
        match line.kind {
            COST => Some(Step::Spend(line.value)),
            CALL | SPAWN => Some(Step::Enter(line.site as u8)),
            RETURN => Some(Step::Leave),
            _ => None,
        }
    }
}

/// The name shown for each row, or refusal 17.
fn names([project, stock]: [&[u8]; 2], sites: usize) -> Result<Vec<&[u8]>, Refusal> {
    let mut project = project.split(|c| *c == b'\n');
    let mut stock = stock.split(|c| *c == b'\n');
    let mut names = Vec::with_capacity(sites + 1);
    for row in 0..=sites {
        let (own, other) = (project.next().unwrap_or_default(), stock.next().unwrap_or_default());
        let name = if own.is_empty() { other } else { own };
        if name.is_empty() || !name.iter().all(|c| c.is_ascii_graphic() && *c != b';') {
            return Err(Ground::Name.at(row));
        }
        names.push(name);
    }
    Ok(names)
}

/// How many characters the stacks have.
fn length(names: &[&[u8]], steps: &[Step]) -> usize {
    let (mut stack, mut around, mut length) = (names[0].len(), vec![], 0_usize);
    for step in steps {
        match *step {
            Step::Spend(cost) => length = length.saturating_add(stack + figures(cost) + 2),
            Step::Enter(row) => {
                around.push(stack);
                stack += 1 + names[usize::from(row)].len();
            }
            Step::Leave => stack = around.pop().unwrap_or_default(),
        }
    }
    length
}

/// How many figures a cost has.
fn figures(cost: u32) -> usize {
    cost.ilog10() as usize + 1
}

/// Writes the stacks into room that they fill.
fn fill(names: &[&[u8]], steps: &[Step], mut out: &mut [u8]) {
    let (mut stack, mut around) = (names[0].to_vec(), vec![]);
    for step in steps {
        match *step {
            Step::Spend(cost) => {
                let (line, rest) = out.split_at_mut(stack.len() + figures(cost) + 2);
                line[..stack.len()].copy_from_slice(&stack);
                line[stack.len()] = b' ';
                put_decimal(&mut line[stack.len() + 1..], cost);
                out = rest;
            }
            Step::Enter(row) => {
                around.push(stack.len());
                stack.push(b';');
                stack.extend_from_slice(names[usize::from(row)]);
            }
            Step::Leave => stack.truncate(around.pop().unwrap_or_default()),
        }
    }
}

/// A cost in decimal and a line feed, which fill the room.
fn put_decimal(room: &mut [u8], mut cost: u32) {
    let Some((feed, figures)) = room.split_last_mut() else { return };
    *feed = b'\n';
    for figure in figures.iter_mut().rev() {
        *figure = b'0' + (cost % 10) as u8;
        cost /= 10;
    }
}
