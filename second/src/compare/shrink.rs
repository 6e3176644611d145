//! From a case in which two programs differ to the smallest such case that can be found by leaving parts out.

use super::case::{Case, CompactSpare, FoldedSpare, Question, Spare};
use super::moves::costs;
use crate::check::Limits;
use crate::forecast::Entry;
use crate::line::{chars, read_any, Fields, Kind, Line, CHARS};
use std::ops::Range;

/// How much is tried for one case, counted in lines of all smaller cases together; a case counts as no less than 100.
const MOST_TRIED: usize = 40_000_000;

/// The most costs of which two at a time are lowered.
const MOST_PAIRED: usize = 12;

/// How many items in a row are left out at once, the most first.
const RUNS: [usize; 7] = [4096, 1024, 256, 64, 16, 4, 1];

/// The smallest case that was found to differ still; the case itself if nothing can be left out.
pub fn smallest(case: &Case, differs: impl Fn(&Case) -> bool) -> Case {
    let mut shrinker = Shrinker { case: case.clone(), differs, tried: 0 };
    while shrinker.pass() {}
    shrinker.case
}

struct Shrinker<D> {
    case: Case,
    differs: D,
    tried: usize,
}

impl<D: Fn(&Case) -> bool> Shrinker<D> {
    /// Tries every way to make the case smaller once, and tells whether any worked.
    fn pass(&mut self) -> bool {
        let mut smaller = self.one_line();
        for run in RUNS {
            smaller |= self.leave_out_runs(run);
        }
        smaller |= self.leave_out_sites();
        smaller |= self.unwrap_invocations();
        smaller |= self.smaller_values();
        smaller |= self.smaller_pairs();
        smaller | self.smaller_room()
    }

    /// Keeps a smaller case if it still differs.
    fn keep(&mut self, question: Question) -> bool {
        let case = Case { question, rubbish: self.case.rubbish };
        self.tried += self.trace().map_or(0, |trace| trace.len() / CHARS).max(100);
        let kept = self.tried <= MOST_TRIED && case != self.case && (self.differs)(&case);
        if kept {
            self.case = case;
        }
        kept
    }

    /// The trace, if the case has one.
    fn trace(&self) -> Option<&[u8]> {
        match &self.case.question {
            Question::Engines { trace, .. }
            | Question::Forecast { trace, .. }
            | Question::Moved { trace, .. }
            | Question::Folded { trace, .. }
            | Question::Compact { trace, .. }
            | Question::Why { trace, .. } => Some(trace),
            _ => None,
        }
    }

    /// Asks for one line alone where several are asked and that keeps the difference.
    fn one_line(&mut self) -> bool {
        let Question::Why { trace, limits, lines, spare } = self.case.question.clone() else { return false };
        let of = |line| Question::Why { trace: trace.clone(), limits, lines: vec![line], spare };
        lines.len() > 1 && lines.iter().any(|&line| self.keep(of(line)))
    }

    /// Keeps the case with another trace if it still differs.
    fn keep_trace(&mut self, changed: Vec<u8>) -> bool {
        with_trace(&self.case.question, &changed).into_iter().any(|question| self.keep(question))
    }

    /// Leaves out runs of whole items wherever that keeps the difference.
    fn leave_out_runs(&mut self, run: usize) -> bool {
        let mut smaller = false;
        let mut line = 0;
        while let Some(lines) = self.trace().and_then(|trace| items(trace, line, run)) {
            let end = lines.end;
            let rest = self.trace().map(|trace| without(trace, lines));
            if rest.is_some_and(|rest| self.keep_trace(rest)) {
                smaller = true;
            } else {
                line = if run == 1 { line + 1 } else { end };
            }
        }
        smaller
    }

    /// Leaves out sites, with those of higher numbers one lower, wherever that keeps the difference.
    fn leave_out_sites(&mut self) -> bool {
        let mut smaller = false;
        let mut line = 0;
        while self.trace().is_some_and(|trace| line < trace.len() / CHARS) {
            let rest = self.trace().and_then(|trace| without_site(trace, line));
            if rest.is_some_and(|rest| self.keep_trace(rest)) {
                smaller = true;
            } else {
                line += 1;
            }
        }
        smaller
    }

    /// Puts the body of an invocation in place of the invocation wherever that keeps the difference.
    fn unwrap_invocations(&mut self) -> bool {
        let mut smaller = false;
        let mut line = 0;
        while let Some(lines) = self.trace().and_then(|trace| items(trace, line, 1)) {
            let rest = self.trace().map(|trace| without(&without(trace, lines.end - 1..lines.end), line..line + 1));
            let whole = lines.len() > 1;
            if whole && rest.is_some_and(|rest| self.keep_trace(rest)) {
                smaller = true;
            } else {
                line += 1;
            }
        }
        smaller
    }

    /// Lowers the fields of good lines wherever that keeps the difference.
    fn smaller_values(&mut self) -> bool {
        let mut smaller = false;
        let lines = self.trace().map_or(0, |trace| trace.len() / CHARS);
        for line in 0..lines {
            let lower = self.trace().map_or(vec![], |trace| lower_lines(trace, line));
            smaller |= lower.into_iter().any(|trace| self.keep_trace(trace));
        }
        smaller
    }

    /// Takes the lesser of two costs off both wherever that keeps the difference: equal chains stay equal. Of many costs that
    /// would be too much to try.
    fn smaller_pairs(&mut self) -> bool {
        let costs = self.trace().map(costs).filter(|costs| costs.len() <= MOST_PAIRED).unwrap_or_default();
        let pairs = (0..costs.len()).flat_map(|j| (0..j).map(move |i| (i, j)));
        let lower: Vec<Vec<u8>> =
            pairs.filter_map(|(i, j)| self.trace().map(|trace| lower_pair(trace, costs[i], costs[j]))).collect();
        lower.into_iter().any(|trace| self.keep_trace(trace))
    }

    /// Lowers limits and lends no more than is needed wherever that keeps the difference.
    fn smaller_room(&mut self) -> bool {
        lower_questions(&self.case.question).into_iter().any(|question| self.keep(question))
    }
}

/// The question with another trace, if it has one. Costs may have been left out before the one that is moved, or lines before
/// the one that is asked, and it has as much smaller a number then; or behind it, and it has its own still.
fn with_trace(question: &Question, changed: &[u8]) -> Vec<Question> {
    let (mut with, changed) = (question.clone(), changed.to_vec());
    match &mut with {
        Question::Engines { trace, .. }
        | Question::Forecast { trace, .. }
        | Question::Folded { trace, .. }
        | Question::Compact { trace, .. } => *trace = changed,
        Question::Moved { trace, limits, cost, value, spare } => {
            let fewer = costs(trace).len().saturating_sub(costs(&changed).len());
            let mut numbers = vec![cost.saturating_sub(fewer), *cost];
            numbers.dedup();
            let (limits, value, spare) = (*limits, *value, *spare);
            let of = |cost| Question::Moved { trace: changed.clone(), limits, cost, value, spare };
            return numbers.into_iter().map(of).collect();
        }
        Question::Why { trace, limits, lines, spare } => {
            let fewer = (trace.len().saturating_sub(changed.len()) / CHARS) as u32;
            let mut asked: Vec<Vec<u32>> =
                (0..=fewer.min(2)).map(|n| lines.iter().map(|line| line.saturating_sub(n)).collect()).collect();
            asked.push(lines.iter().map(|line| line.saturating_sub(fewer)).collect());
            asked.dedup();
            let (limits, spare) = (*limits, *spare);
            let of = |lines| Question::Why { trace: changed.clone(), limits, lines, spare };
            return asked.into_iter().map(of).collect();
        }
        _ => return vec![],
    }
    vec![with]
}

/// The lines of `run` items that follow each other from a line on, if there are so many.
fn items(trace: &[u8], line: usize, run: usize) -> Option<Range<usize>> {
    let lines = trace.len().div_ceil(CHARS);
    let mut end = line;
    for _ in 0..run {
        end = (end < lines).then(|| item_end(trace, end))?;
    }
    Some(line..end)
}

/// The line after an item: after its own return for what opens something and has one, otherwise the next.
fn item_end(trace: &[u8], line: usize) -> usize {
    let mut open = 0_usize;
    for (number, chars) in trace.chunks(CHARS).enumerate().skip(line) {
        match read_any(chars).map(|line| line.kind) {
            Ok(kind) if kind.opens() => open += 1,
            Ok(Kind::Return) => open = open.saturating_sub(1),
            _ => (),
        }
        if open == 0 {
            return number + 1;
        }
    }
    line + 1
}

/// A trace without some of its lines.
fn without(trace: &[u8], lines: Range<usize>) -> Vec<u8> {
    let end = (lines.end * CHARS).min(trace.len());
    [&trace[..lines.start * CHARS], &trace[end..]].concat()
}

/// A trace without a site line, the higher sites of its good lines one lower.
fn without_site(trace: &[u8], line: usize) -> Option<Vec<u8>> {
    let own = read_any(&trace[line * CHARS..(line + 1) * CHARS]).ok().filter(|own| own.kind == Kind::Site)?;
    let lower = |chars_of: &[u8]| match read_any(chars_of) {
        Ok(line) if line.site > own.site => chars(&Line { site: line.site - 1, ..line }.fields()),
        _ => chars_of.to_vec(),
    };
    Some(without(trace, line..line + 1).chunks(CHARS).flat_map(lower).collect())
}

/// The trace with one field of one line lower, or of every line like it, in each way that is tried.
fn lower_lines(trace: &[u8], line: usize) -> Vec<Vec<u8>> {
    let range = line * CHARS..(line + 1) * CHARS;
    let old = &trace[range.clone()];
    let Ok(read) = read_any(old) else { return vec![] };
    let mut lower = vec![];
    for fields in lower_fields(read.fields()) {
        let (mut one, mut all) = (trace.to_vec(), trace.to_vec());
        one[range.clone()].copy_from_slice(&chars(&fields));
        all.chunks_mut(CHARS).filter(|line| *line == old).for_each(|line| line.copy_from_slice(&chars(&fields)));
        lower.extend([one, all]);
    }
    lower
}

/// A trace with two of its costs, each a line and its value, lower by the lesser of them; one of which nothing is left is left
/// out, with its 07 line.
fn lower_pair(trace: &[u8], one: (usize, u64), other: (usize, u64)) -> Vec<u8> {
    let less = one.1.min(other.1);
    let lines: Vec<&[u8]> = trace.chunks(CHARS).collect();
    let lower = |number: usize| match [one, other].iter().find(|(line, _)| *line == number) {
        Some((_, value)) if *value > less => chars(&[Kind::Cost.number(), 0, value - less, 0, 0]),
        Some(_) => vec![],
        None => lines[number].to_vec(),
    };
    let carries = |number: usize| lines[number].starts_with(b"07") && number > 0 && lower(number - 1).is_empty();
    (0..lines.len()).filter(|&number| !carries(number)).flat_map(lower).collect()
}

/// Fields with one of them lower and not zero; of kinds only a spawn or an async becomes a call.
fn lower_fields(fields: Fields) -> Vec<Fields> {
    let mut lower = vec![];
    if [Kind::Spawn, Kind::Async].map(Kind::number).contains(&fields[0]) {
        lower.push([Kind::Call.number(), fields[1], fields[2], fields[3], fields[4]]);
    }
    for (field, &old) in fields.iter().enumerate().skip(1) {
        for new in [1, old / 2, old / 2 + 1, old.saturating_sub(1)].into_iter().filter(|&new| 0 < new && new < old) {
            let mut changed = fields;
            changed[field] = new;
            lower.push(changed);
        }
    }
    lower
}

/// The question with lower limits, less room or fewer numbers, in each way that is tried.
fn lower_questions(question: &Question) -> Vec<Question> {
    match question {
        Question::Engines { family, trace, limits, spare } => {
            let of = |limits, spare| Question::Engines { family: *family, trace: trace.clone(), limits, spare };
            let lower = lower_limits(*limits).map(|limits| of(limits, *spare));
            lower.chain(lower_spares(*spare).map(|spare| of(*limits, spare))).collect()
        }
        Question::Forecast { trace, limits, entries, spare } => {
            let of = |limits, entries: &[Entry], spare| Question::Forecast {
                trace: trace.clone(),
                limits,
                entries: entries.to_vec(),
                spare,
            };
            let lower = lower_limits(*limits).map(|limits| of(limits, entries, *spare));
            let lists = lower_entries(entries).map(|entries| of(*limits, &entries, *spare));
            lower.chain(lists).chain(lower_spares(*spare).map(|spare| of(*limits, entries, spare))).collect()
        }
        Question::Moved { trace, limits, cost, value, spare } => {
            let of = |limits, value, spare| Question::Moved { trace: trace.clone(), limits, cost: *cost, value, spare };
            let lower = lower_limits(*limits).map(|limits| of(limits, *value, *spare));
            let old = costs(trace).get(*cost).map_or(1, |(_, old)| *old);
            let nearer = nearer_values(old, *value).map(|value| of(*limits, value, *spare));
            lower.chain(nearer).chain(lower_spares(*spare).map(|spare| of(*limits, *value, spare))).collect()
        }
        Question::ReadLine { .. } | Question::WriteLine { .. } | Question::Refusal { .. } => vec![],
        Question::Report { rows, count, full, out, written } => {
            let (full, out, written) = (*full, *out, *written);
            let of = |rows: &[u64], count| Question::Report { rows: rows.to_vec(), count, full, out, written };
            vec![of(&rows[..rows.len() / 2], count / 2), of(rows, count / 2), of(&vec![0; rows.len()], *count)]
        }
        Question::WriteSheet { rows, count, out, written } => {
            let (out, written) = (*out, *written);
            let of = |rows: &[u64], count| Question::WriteSheet { rows: rows.to_vec(), count, out, written };
            vec![of(&rows[..rows.len() / 2], count / 2), of(rows, count / 2), of(&vec![0; rows.len()], *count)]
        }
        Question::ReadSheet { text, rows, count } => {
            let of = |text| Question::ReadSheet { text, rows: *rows, count: *count };
            shorter_texts(text).map(of).collect()
        }
        Question::Folded { trace, limits, lists: [project, stock], spare } => {
            let of = |limits, project: &[u8], stock: &[u8], spare| {
                let lists = [project.to_vec(), stock.to_vec()];
                Question::Folded { trace: trace.clone(), limits, lists, spare }
            };
            let lower = lower_limits(*limits).map(|limits| of(limits, project, stock, *spare));
            let projects = shorter_texts(project).map(|project| of(*limits, &project, stock, *spare));
            let stocks = shorter_texts(stock).map(|stock| of(*limits, project, &stock, *spare));
            let rooms = lower_folded_spares(*spare).map(|spare| of(*limits, project, stock, spare));
            lower.chain(projects).chain(stocks).chain(rooms).collect()
        }
        Question::Compact { trace, limits, spare } => {
            let of = |limits, spare| Question::Compact { trace: trace.clone(), limits, spare };
            let lower = lower_limits(*limits).map(|limits| of(limits, *spare));
            let rooms = [CompactSpare { out: 0, ..*spare }, CompactSpare { written: 0, ..*spare }];
            lower.chain(rooms.into_iter().filter(|new| new != spare).map(|spare| of(*limits, spare))).collect()
        }
        Question::Why { trace, limits, lines, spare } => {
            let of = |limits, spare| Question::Why { trace: trace.clone(), limits, lines: lines.clone(), spare };
            let lower = lower_limits(*limits).map(|limits| of(limits, *spare));
            lower.chain(lower_spares(*spare).map(|spare| of(*limits, spare))).collect()
        }
    }
}

/// A list without one of its entries, each in turn, and with the row or the factor of one lower.
fn lower_entries(entries: &[Entry]) -> impl Iterator<Item = Vec<Entry>> + '_ {
    let without = (0..entries.len()).map(|n| [&entries[..n], &entries[n + 1..]].concat());
    let with = |n: usize, entry: Entry| [&entries[..n], &[entry], &entries[n + 1..]].concat();
    let lower = (0..entries.len()).flat_map(move |n| {
        let Entry { row, factor } = entries[n];
        let rows = [0, row / 2, row.saturating_sub(1)].into_iter().filter(move |&new| new < row);
        let factors = [2, factor / 2, factor.saturating_sub(1)].into_iter().filter(move |&new| new < factor);
        let rows = rows.map(move |row| with(n, Entry { row, factor }));
        rows.chain(factors.map(move |factor| with(n, Entry { row, factor })))
    });
    without.chain(lower)
}

/// Values between the old one of a cost and the one it is to have.
fn nearer_values(old: u64, value: u64) -> impl Iterator<Item = u64> {
    let half = old.abs_diff(value) / 2;
    let nearer = if old < value { [old + 1, old + half, value - 1] } else { [old - 1, old - half, value + 1] };
    nearer.into_iter().filter(move |new| old.abs_diff(*new) < old.abs_diff(value) && *new != old)
}

/// A text without one of its lines, each in turn, and without its last character.
fn shorter_texts(text: &[u8]) -> impl Iterator<Item = Vec<u8>> + '_ {
    let lines: Vec<&[u8]> = text.split_inclusive(|c| *c == b'\n').collect();
    let last = text.split_last().map(|(_, rest)| rest.to_vec());
    (0..lines.len()).map(move |n| [&lines[..n], &lines[n + 1..]].concat().concat()).chain(last)
}

/// Limits with one of the two lower.
fn lower_limits(limits: Limits) -> impl Iterator<Item = Limits> {
    let depths = [1, limits.depth / 2, limits.depth.saturating_sub(1)].map(|depth| Limits { depth, ..limits });
    let sites = [0, limits.sites / 2, limits.sites.saturating_sub(1)].map(|sites| Limits { sites, ..limits });
    let lower = move |new: &Limits| new.depth < limits.depth || new.sites < limits.sites;
    depths.into_iter().chain(sites).filter(lower)
}

/// Room with one of the slices as long as needed and no longer.
fn lower_spares(spare: Spare) -> impl Iterator<Item = Spare> {
    let just = [
        Spare { scratch: 0, ..spare },
        Spare { rows: 0, ..spare },
        Spare { answer: 0, ..spare },
        Spare { marks: 0, ..spare },
    ];
    just.into_iter().filter(move |new| *new != spare)
}

/// The same for the writer of folded stacks.
fn lower_folded_spares(spare: FoldedSpare) -> impl Iterator<Item = FoldedSpare> {
    let just =
        [FoldedSpare { scratch: 0, ..spare }, FoldedSpare { out: 0, ..spare }, FoldedSpare { written: 0, ..spare }];
    just.into_iter().filter(move |new| *new != spare)
}
