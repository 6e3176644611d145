//! Why a line is not on the span, written to be fast: what the proved answer is timed against. It makes every check and gives
//! every answer and mark of the slow way, with which the tests hold it equal.
//!
//! One pass over the text checks the lines and keeps their kinds and costs. The recurrence over these gives the chosen chain;
//! where the line is not on it, the recurrence again, with the line heavier than all costs together, gives the first of the
//! heaviest chains through it.

use super::{checks, Branch, Open, Step, CALL, COST, RETURN, SPAWN, SYNC};
use crate::check::Limits;
use crate::line::CHARS;
use crate::refusal::{Ground, Refusal};
use crate::why::{Lent, Why};

/// The answer for a line and the marks, or the refusal.
pub fn why(trace: &[u8], limits: Limits, line: u32, lent: &Lent) -> Result<(Why, Vec<u8>), Refusal> {
    let mut kept = Vec::with_capacity(trace.len() / CHARS);
    let short = |lines| lent.is_short(limits, lines);
    checks::each_line(trace, limits, short, |fields| {
        let cost = if fields.kind == COST { fields.value } else { 0 };
        kept.push(Kept { kind: fields.kind, cost });
    })?;
    let line = line as usize;
    let asked = *kept.get(line).ok_or(Ground::PastEnd.at(line))?;
    if asked.kind != COST {
        return Ok((Why::NotCost, vec![0; kept.len()]));
    }
    let chosen = chain(&kept, line, 0);
    if chosen.marks[line] == 1 {
        return Ok((Why::OnChain, chosen.marks));
    }
    let heavy = kept.iter().map(|kept| u64::from(kept.cost)).sum::<u64>() + 1;
    let through = chain(&kept, line, heavy);
    let less = chosen.weight - (through.weight - heavy);
    if less > 0 {
        return Ok((Why::Slack(less), through.marks));
    }
    let left = chosen.marks.iter().zip(&through.marks).position(|(chosen, mark)| chosen > mark);
    Ok((Why::Tied(left.unwrap_or(line)), through.marks))
}

/// A line as the recurrence needs it.
#[derive(Clone, Copy)]
struct Kept {
    kind: u8,
    cost: u32,
}

/// The first of the heaviest chains, and its weight.
struct Chain {
    weight: u64,
    marks: Vec<u8>,
}

/// The first of the heaviest chains where one line weighs so much more.
fn chain(kept: &[Kept], heavier: usize, by: u64) -> Chain {
    let mut steps: Vec<Step> = (1..=kept.len()).map(|next| Step { next: next as u32, ..Step::default() }).collect();
    let (mut open, mut weight) = (vec![Open::new(0, 0, 0)], 0);
    for (number, line) in kept.iter().enumerate() {
        let Some(own) = open.last_mut() else { break };
        match line.kind {
            COST => own.along += u64::from(line.cost) + if number == heavier { by } else { 0 },
            SYNC => own.end_block(number as u32, &mut steps),
            CALL => open.push(Open::new(0, 0, 0)),
            SPAWN => open.push(Open::new(0, number as u32, 0)),
            RETURN => weight = leave(&mut open, number as u32, &mut steps),
            _ => (),
        }
    }
    Chain { weight, marks: marks(kept, &steps) }
}

/// Closes the innermost invocation, gives its span to the one around it, and tells it.
fn leave(open: &mut Vec<Open>, line: u32, steps: &mut [Step]) -> u64 {
    let Some(mut own) = open.pop() else { return 0 };
    own.end_block(line, steps);
    match open.last_mut() {
        None => (),
        Some(around) if own.spawn == 0 => around.along += own.done,
        Some(around) => {
            steps[own.spawn as usize].next = line + 1;
            around.offer(Branch { weight: around.along + own.done, spawn: own.spawn, last: line });
        }
    }
    own.done
}

/// The costs on the way from the first line.
fn marks(kept: &[Kept], steps: &[Step]) -> Vec<u8> {
    let mut marks = vec![0; kept.len()];
    let mut line = 0;
    while let Some(step) = steps.get(line) {
        marks[line] = u8::from(kept[line].kind == COST);
        line = step.next as usize;
    }
    marks
}
