//! The comparison finds what it is made to find: wrong stand-ins are told apart, and the case shrinks.

use second::chain::Chains;
use second::check::{self, Limits};
use second::compact;
use second::compare::case::{Case, Question};
use second::compare::fixed::{self, TWELVE, TWELVE_LIMITS};
use second::compare::instructions::left_out;
use second::compare::{broken, compare, generate, Difference};
use second::forecast::Entry;
use second::graph;
use second::library::{Library, Second};
use second::line::{chars, read, Family, Kind, Line, CHARS};
use second::refusal::{Ground, Refusal};
use second::report;
use second::rows::{self, CALLS, COLUMNS, ILOCAL, LOCAL, WORK};
use second::shape::{Invocation, Shape, Start};
use second::trace::events;
use second::why::{self, Why};
use std::cmp::Ordering;

/// The first difference among generated cases that do not ask why a line is not on the span.
fn first_difference(wrong: &dyn Library) -> Difference {
    first_difference_where(wrong, |question| !matches!(question, Question::Why { .. }))
}

/// The first difference among the generated cases of the base family that ask such a question.
fn first_difference_where(wrong: &dyn Library, asks: fn(&Question) -> bool) -> Difference {
    let asks = |case: &Case| case.family() == Family::Base && asks(&case.question);
    let mut cases = (0..30_000).map(|number| generate::case(1, number)).filter(asks);
    let found = cases.find_map(|case| compare(&case, &Second::new(), &[("the stand-in", wrong)]));
    *found.expect("a difference")
}

/// The events of the trace that the first difference shrank to.
fn smallest_events(wrong: &dyn Library) -> String {
    match first_difference(wrong).case.question {
        Question::Engines { trace, .. }
        | Question::Forecast { trace, .. }
        | Question::Moved { trace, .. }
        | Question::Compact { trace, .. } => events(&trace).expect("good lines"),
        other => panic!("a difference on a trace, not on {other:?}"),
    }
}

/// What a wrong rule makes of one of the twelve: its span.
fn span_of(name: &str, wrong: Second) -> u64 {
    let case = TWELVE.iter().find(|case| case.name == name).expect("one of the twelve");
    let lent = TWELVE_LIMITS.for_tables();
    wrong.profile(&case.trace().chars, TWELVE_LIMITS, &lent).expect("accepted").answer[1]
}

/// A weight and the ascending lines that it comes from.
type Weighed = (u64, Vec<usize>);

/// Chains under a rule of what is parallel in the base family and a rule of which is chosen, grown from the first line
/// to the last.
fn chains(
    shape: &Shape,
    parallel: fn(&Shape, usize, usize) -> bool,
    order: fn(&&Weighed, &&Weighed) -> Ordering,
) -> Chains {
    let parallel = if shape.family == Family::Base { parallel } else { Shape::parallel };
    let heaviest = |own: &Invocation| {
        let mut best: Vec<Weighed> = vec![(0, vec![])];
        for line in shape.cost_lines().into_iter().filter(|&line| own.contains(line)) {
            let before = best.iter().filter(|(_, chain)| chain.iter().all(|&i| !parallel(shape, i, line)));
            let (weight, chain) = before.max_by(order).expect("the empty chain");
            best.push((weight + shape.lines[line].value, [&chain[..], &[line]].concat()));
        }
        best.iter().max_by(order).cloned().expect("the empty chain")
    };
    let spans = shape.invocations.iter().map(|own| heaviest(own).0).collect();
    Chains { spans, chosen: heaviest(&shape.invocations[0]).1 }
}

/// The heaviest is chosen, and of equals the one that comes first.
fn first(a: &&Weighed, b: &&Weighed) -> Ordering {
    a.0.cmp(&b.0).then(b.1.cmp(&a.1))
}

/// The heaviest is chosen, and of equals the one that comes last.
fn later(a: &&Weighed, b: &&Weighed) -> Ordering {
    a.cmp(b)
}

/// The spawned invocations that hold a line and not another, each with its spawner.
fn between(shape: &Shape, i: usize, j: usize) -> impl Iterator<Item = (&Invocation, &Invocation)> {
    shape.invocations.iter().filter_map(move |g| match g.start {
        Start::Spawned(f) if g.contains(i) && !g.contains(j) => Some((g, &shape.invocations[f])),
        _ => None,
    })
}

fn is_sync(shape: &Shape, line: usize) -> bool {
    shape.lines[line].kind == Kind::Sync
}

fn is_site(shape: &Shape, line: usize) -> bool {
    shape.lines[line].kind == Kind::Site
}

#[test]
fn the_stand_in_with_the_right_rules_is_right() {
    let right = Second { search: |shape| chains(shape, Shape::parallel, first) };
    let short = |case: &Case| match &case.question {
        Question::Engines { trace, .. }
        | Question::Forecast { trace, .. }
        | Question::Moved { trace, .. }
        | Question::Compact { trace, .. }
        | Question::Why { trace, .. } => trace.len() <= 300 * CHARS,
        _ => true,
    };
    let cases = (0..2_000).map(|number| generate::case(1, number)).filter(short);
    let alike = |case| compare(&case, &Second::new(), &[("the stand-in", &right)]).is_none();
    assert!(cases.into_iter().all(alike));
}

#[test]
fn adding_up_spawned_children_as_if_each_were_called() {
    let wrong = Second { search: |shape| chains(shape, |_, _, _| false, first) };
    assert_eq!(span_of("G", wrong), 22);
    assert_eq!(smallest_events(&wrong), "spawn 1 {1}, 1");
}

/// Parallel, but for any sync after G's return.
fn joined_by_any_sync(shape: &Shape, i: usize, j: usize) -> bool {
    between(shape, i, j).any(|(g, f)| f.contains(j) && !(g.last..j).any(|line| is_sync(shape, line)))
}

#[test]
fn letting_a_called_functions_sync_join_its_callers_children() {
    let wrong = Second { search: |shape| chains(shape, joined_by_any_sync, first) };
    assert_eq!(span_of("J", wrong), 4);
    let smallest = ["spawn 1 {1}, call 1 {sync}, 1", "spawn 1 {1}, call 1 {sync, 1}"];
    assert!(smallest.contains(&smallest_events(&wrong).as_str()));
}

/// Parallel, whether or not F is still open.
fn never_joined_by_a_return(shape: &Shape, i: usize, j: usize) -> bool {
    between(shape, i, j).any(|(g, f)| !(g.last..j).any(|line| is_sync(shape, line) && shape.invocation_of(line) == f))
}

#[test]
fn leaving_a_spawned_child_unjoined_past_its_spawners_return() {
    let wrong = Second { search: |shape| chains(shape, never_joined_by_a_return, first) };
    assert_eq!(span_of("I", wrong), 7);
    assert_eq!(smallest_events(&wrong), "call 1 {spawn 1 {1}}, 1");
}

/// Parallel, but for a site line directly in F as for a sync.
fn joined_by_a_site_line(shape: &Shape, i: usize, j: usize) -> bool {
    let joins = |line: usize| is_sync(shape, line) || is_site(shape, line);
    between(shape, i, j)
        .any(|(g, f)| f.contains(j) && !(g.last..j).any(|line| joins(line) && shape.invocation_of(line) == f))
}

#[test]
fn letting_a_site_line_join_what_is_spawned() {
    let wrong = Second { search: |shape| chains(shape, joined_by_a_site_line, first) };
    assert_eq!(smallest_events(&wrong), "spawn 1 {1}, site 2, 1");
}

#[test]
fn taking_the_later_of_two_equal_chains() {
    let wrong = Second { search: |shape| chains(shape, Shape::parallel, later) };
    let told = first_difference(&wrong).to_string();
    assert!(told.contains("marks engine's marks, number 2: second 1, the stand-in 0"), "{told}");
    assert_eq!(smallest_events(&wrong), "spawn 1 {1}, 1");
}

/// The chosen chain is the one with more instructions among those that weigh the same.
fn more_instructions(shape: &Shape) -> Chains {
    let mut heavier = shape.clone();
    for line in shape.cost_lines() {
        heavier.lines[line].value = (shape.lines[line].value << 24) + shape.instructions(line).min(9);
    }
    Chains { chosen: graph::search(&heavier).chosen, ..graph::search(shape) }
}

#[test]
fn taking_the_one_with_more_instructions_of_two_equal_chains() {
    // The law says it of a trace without 07 lines, which it puts in.
    assert_eq!(smallest_events(&Second { search: more_instructions }), "spawn 1 {1}, 1");
}

#[test]
fn a_long_trace_shrinks_as_far() {
    let wrong = Second { search: |shape| Chains { chosen: vec![], ..graph::search(shape) } };
    let cases = fixed::cases();
    let long =
        |case: &&Case| matches!(&case.question, Question::Engines { trace, .. } if trace.len() == 65_536 * CHARS);
    let case = cases.iter().find(long).expect("a case of 65,536 lines");
    let found = compare(case, &Second::new(), &[("the stand-in", &wrong)]).expect("a difference");
    assert!(found.to_string().contains("a trace of 46 characters (1):"), "{found}");
}

/// What is done to a trace's outcome: its code, scratch, rows and answer.
type After = fn(trace: &[u8], code: u64, scratch: &mut [u64], rows: &mut [u64], answer: &mut [u64]);

/// What a forecast is made of instead of a trace and entries.
type Asked = fn(trace: &[u8], entries: &[Entry]) -> (Vec<u8>, Vec<Entry>);

/// The second program with something done wrong before or after it.
struct Wrong {
    before: fn(&mut Vec<u8>),
    after: After,
    report: Report,
    sheet: fn(&mut Vec<u8>),
    lists: fn([&[u8]; 2]) -> [Vec<u8>; 2],
    asked: Asked,
    compactor: Compactor,
    answers: Answers,
}

/// The report of some rows of so many sites in some room, or the ground of refusal.
type Report = fn(&[u64], u64, usize) -> Result<String, Ground>;

/// What is left of a trace in some room, or the refusal.
type Compactor = fn(&[u8], Limits, compact::Lent) -> Result<Vec<u8>, Refusal>;

/// Why a line of an accepted trace is not on the span, with the lines that are marked.
type Answers = fn(&Shape, usize) -> (Why, Vec<usize>);

impl Default for Wrong {
    fn default() -> Wrong {
        Wrong {
            before: |_| (),
            after: |_, _, _, _, _| (),
            report: report::report,
            sheet: |_| (),
            lists: |lists| lists.map(<[u8]>::to_vec),
            asked: |trace, entries| (trace.to_vec(), entries.to_vec()),
            compactor: compact::write,
            answers: |shape, line| why::why(shape, line, graph::search),
        }
    }
}

impl Library for Wrong {
    fn knows(&self, family: Family) -> bool {
        family == Family::Base
    }

    fn tables(
        &self,
        family: Family,
        trace: &[u8],
        limits: Limits,
        scratch: &mut [u64],
        rows: &mut [u64],
        answer: &mut [u64],
    ) -> u64 {
        let mut trace = trace.to_vec();
        (self.before)(&mut trace);
        let code = Second::by_paths().tables(family, &trace, limits, scratch, rows, answer);
        (self.after)(&trace, code, scratch, rows, answer);
        code
    }

    fn marks(
        &self,
        family: Family,
        trace: &[u8],
        limits: Limits,
        scratch: &mut [u64],
        marks: &mut [u8],
        rows: &mut [u64],
        answer: &mut [u64],
    ) -> u64 {
        Second::by_paths().marks(family, trace, limits, scratch, marks, rows, answer)
    }

    fn forecast_tables(
        &self,
        trace: &[u8],
        limits: Limits,
        entries: &[Entry],
        scratch: &mut [u64],
        rows: &mut [u64],
        answer: &mut [u64],
    ) -> u64 {
        let (mut trace, entries) = (self.asked)(trace, entries);
        (self.before)(&mut trace);
        Second::by_paths().forecast_tables(&trace, limits, &entries, scratch, rows, answer)
    }

    fn forecast_marks(
        &self,
        trace: &[u8],
        limits: Limits,
        entries: &[Entry],
        scratch: &mut [u64],
        marks: &mut [u8],
        rows: &mut [u64],
        answer: &mut [u64],
    ) -> u64 {
        let (trace, entries) = (self.asked)(trace, entries);
        Second::by_paths().forecast_marks(&trace, limits, &entries, scratch, marks, rows, answer)
    }

    fn read_line(&self, family: Family, line: &[u8], frame: &mut [u64]) -> u64 {
        Second::by_paths().read_line(family, line, frame)
    }

    fn write_line(&self, family: Family, frame: &[u64], out: &mut [u8], written: &mut [u64]) -> u64 {
        Second::by_paths().write_line(family, frame, out, written)
    }

    fn report(&self, rows: &[u64], count: u64, out: &mut [u8], written: &mut [u64]) -> u64 {
        match (self.report)(rows, count, out.len()) {
            Ok(text) if !written.is_empty() => {
                out[..text.len()].copy_from_slice(text.as_bytes());
                written[0] = text.len() as u64;
                0
            }
            refused => refused.err().unwrap_or(Ground::Room) as u64,
        }
    }

    fn full_report(&self, rows: &[u64], count: u64, out: &mut [u8], written: &mut [u64]) -> u64 {
        Second::by_paths().full_report(rows, count, out, written)
    }

    fn refusal(&self, number: u64, line: u64, out: &mut [u8], written: &mut [u64]) -> u64 {
        Second::by_paths().refusal(number, line, out, written)
    }

    fn csv_write(&self, rows: &[u64], count: u64, out: &mut [u8], written: &mut [u64]) -> u64 {
        Second::by_paths().csv_write(rows, count, out, written)
    }

    fn csv_read(&self, text: &[u8], rows: &mut [u64], count: &mut [u64]) -> u64 {
        let mut text = text.to_vec();
        (self.sheet)(&mut text);
        Second::by_paths().csv_read(&text, rows, count)
    }

    fn folded(
        &self,
        trace: &[u8],
        limits: Limits,
        lists: [&[u8]; 2],
        scratch: &mut [u64],
        out: &mut [u8],
        written: &mut [u64],
    ) -> u64 {
        let [project, stock] = (self.lists)(lists);
        Second::by_paths().folded(trace, limits, [&project, &stock], scratch, out, written)
    }

    fn compact(&self, trace: &[u8], limits: Limits, out: &mut [u8], written: &mut [u64]) -> u64 {
        let lent = compact::Lent { out: out.len(), written: written.len() };
        match (self.compactor)(trace, limits, lent) {
            Err(refusal) => refusal.number() + 256 * refusal.line,
            Ok(text) => {
                out[..text.len()].copy_from_slice(&text);
                written[0] = text.len() as u64;
                0
            }
        }
    }

    fn why(
        &self,
        trace: &[u8],
        limits: Limits,
        line: u32,
        scratch: &mut [u64],
        marks: &mut [u8],
        answer: &mut [u64],
    ) -> u64 {
        let lent = why::Lent { scratch: scratch.len(), marks: marks.len(), answer: answer.len() };
        match why::asked(trace, limits, line, &lent) {
            Err(refusal) => refusal.number() + 256 * refusal.line,
            Ok(shape) => {
                let (why, marked) = (self.answers)(&shape, line as usize);
                scratch.fill(0);
                answer[..2].copy_from_slice(&why.numbers());
                marks[..shape.lines.len()].copy_from_slice(&rows::marks(&shape, &marked));
                0
            }
        }
    }
}

/// What the first difference on a plain profile says, where the stand-in does something wrong before or after it.
fn engines_difference(wrong: &Wrong) -> String {
    first_difference_where(wrong, |question| matches!(question, Question::Engines { .. })).to_string()
}

#[test]
fn keying_a_site_by_part_of_its_place() {
    let before = |trace: &mut Vec<u8>| {
        for line in trace.chunks_mut(CHARS).filter(|line| line.starts_with(b"01") && line.len() == CHARS) {
            line[18..22].copy_from_slice(b"0001");
        }
    };
    let told = engines_difference(&Wrong { before, ..Wrong::default() });
    assert!(told.contains("table engine: second"), "{told}");
}

#[test]
fn refusing_a_site_line_behind_another_kind() {
    let before = |trace: &mut Vec<u8>| {
        let lines = trace.chunks_exact_mut(CHARS).skip_while(|line| line.starts_with(b"01"));
        lines.filter(|line| line.starts_with(b"01")).for_each(|line| line[2..6].fill(b'0'));
    };
    let told = engines_difference(&Wrong { before, ..Wrong::default() });
    assert!(told.contains("table engine: second ") && told.contains("the stand-in refused 8 at line 1"), "{told}");
}

#[test]
fn taking_a_call_of_a_site_that_is_declared_on_the_next_line() {
    let before = |trace: &mut Vec<u8>| {
        for line in 1..trace.len() / CHARS {
            let pair = &mut trace[(line - 1) * CHARS..(line + 1) * CHARS];
            if pair.starts_with(b"02") && pair[CHARS..].starts_with(b"01") && pair[2..6] == pair[CHARS + 2..CHARS + 6] {
                pair.rotate_left(CHARS);
            }
        }
    };
    let told = engines_difference(&Wrong { before, ..Wrong::default() });
    assert!(told.contains("table engine: second refused 11 at line 0, the stand-in "), "{told}");
}

#[test]
fn refusing_capital_digits() {
    let before = |trace: &mut Vec<u8>| trace.iter_mut().filter(|c| c.is_ascii_uppercase()).for_each(|c| *c = b'G');
    let told = engines_difference(&Wrong { before, ..Wrong::default() });
    assert!(told.contains("table engine: second ") && told.contains("the stand-in refused 5 at line"), "{told}");
}

#[test]
fn a_scratch_number_left_over() {
    let after = |_: &[u8], code: u64, scratch: &mut [u64], _: &mut [u64], _: &mut [u64]| {
        if let (0, Some(last)) = (code, scratch.last_mut()) {
            *last = 1;
        }
    };
    let told = engines_difference(&Wrong { after, ..Wrong::default() });
    assert!(told.contains("table engine's scratch, number 20: second 0, the stand-in 1"), "{told}");
}

#[test]
fn a_row_cleared_that_no_site_has() {
    let after = |_: &[u8], code: u64, _: &mut [u64], rows: &mut [u64], answer: &mut [u64]| {
        if code == 0 {
            rows[COLUMNS * (answer[2] as usize + 1)..].fill(0);
        }
    };
    let told = engines_difference(&Wrong { after, ..Wrong::default() });
    assert!(told.contains("table engine's rows, number 7: second "), "{told}");
}

/// Adds to column 2 of an accepted trace's rows the work of the enclosed invocations that a rule counts nonetheless.
fn count_enclosed(trace: &[u8], code: u64, rows: &mut [u64], counts: fn(&Shape, &Invocation) -> bool) {
    let limits = Limits { depth: 64, sites: 255 };
    let Ok(shape) = check::trace(trace, limits, &limits.for_tables()) else { return };
    for own in shape.invocations.iter().filter(|own| code == 0 && !shape.outermost(own) && counts(&shape, own)) {
        rows[COLUMNS * own.row + WORK] += shape.work(own.range());
    }
}

#[test]
fn counting_enclosed_invocations() {
    let after = |trace: &[u8], code: u64, _: &mut [u64], rows: &mut [u64], _: &mut [u64]| {
        count_enclosed(trace, code, rows, |_, _| true);
    };
    let smallest = smallest_events(&Wrong { after, ..Wrong::default() });
    let mut of_each = (1..=4).map(|site| format!("call {site} {{call {site} {{1}}}}"));
    assert!(of_each.any(|right| right == smallest.replace("spawn", "call")), "{smallest}");
}

#[test]
fn counting_those_enclosed_through_another_site() {
    let after = |trace: &[u8], code: u64, _: &mut [u64], rows: &mut [u64], _: &mut [u64]| {
        count_enclosed(trace, code, rows, |shape, own| shape.around(own).next().is_some_and(|f| f.row != own.row));
    };
    let smallest = smallest_events(&Wrong { after, ..Wrong::default() });
    let through = |a: u64, b: u64| format!("call {a} {{call {b} {{call {a} {{1}}}}}}");
    let mut pairs = (1..=4).flat_map(|a| (1..=4).filter(move |&b| b != a).map(move |b| through(a, b)));
    assert!(pairs.any(|right| right == smallest.replace("spawn", "call")), "{smallest}");
}

#[test]
fn refusing_07_lines() {
    let before = |trace: &mut Vec<u8>| {
        trace.chunks_exact_mut(CHARS).filter(|line| line.starts_with(b"07")).for_each(|line| line[1] = b'8');
    };
    let told = engines_difference(&Wrong { before, ..Wrong::default() });
    assert!(told.contains("table engine: second ") && told.contains("the stand-in refused 6 at line"), "{told}");
}

#[test]
fn taking_a_07_line_wherever_it_stands() {
    let told = engines_difference(&Wrong { before: |trace| *trace = left_out(trace), ..Wrong::default() });
    assert!(told.contains("table engine"), "{told}");
    let before = |trace: &mut Vec<u8>| {
        let lines: Vec<Vec<u8>> = trace.chunks(CHARS).map(<[u8]>::to_vec).collect();
        let stays = |n: &usize| !lines[*n].starts_with(b"07") || (*n > 0 && lines[*n - 1].starts_with(b"06"));
        *trace = (0..lines.len()).filter(stays).flat_map(|n| lines[n].clone()).collect();
    };
    let told = engines_difference(&Wrong { before, ..Wrong::default() });
    assert!(told.contains("table engine: second refused 22 at line 0, the stand-in "), "{told}");
}

/// Does something with the row and the instructions of each cost line of an accepted trace.
fn each_carried(trace: &[u8], code: u64, mut of: impl FnMut(usize, u64)) {
    let limits = Limits { depth: 64, sites: 255 };
    let Ok(shape) = check::trace(trace, limits, &limits.for_tables()) else { return };
    for line in shape.cost_lines().into_iter().filter(|_| code == 0) {
        of(shape.invocation_of(line).row, shape.instructions(line));
    }
}

#[test]
fn adding_instructions_to_cycles() {
    let after = |trace: &[u8], code: u64, _: &mut [u64], rows: &mut [u64], _: &mut [u64]| {
        each_carried(trace, code, |row, carried| rows[COLUMNS * row + LOCAL] += carried);
    };
    let wrong = Wrong { after, ..Wrong::default() };
    // The law says it of a trace without 07 lines, which it puts in.
    assert_eq!(smallest_events(&wrong), "1");
    let broken = broken_by(&wrong);
    assert!(broken.contains(&"the costs directly in a row add up to column 4"), "{broken:?}");
    assert!(broken.iter().any(|law| law.starts_with("07 lines change no cycles")), "{broken:?}");
}

#[test]
fn counting_a_07_line_as_one_instruction() {
    let after = |trace: &[u8], code: u64, _: &mut [u64], rows: &mut [u64], _: &mut [u64]| {
        each_carried(trace, code, |row, carried| rows[COLUMNS * row + ILOCAL] -= carried.saturating_sub(1));
    };
    let wrong = Wrong { after, ..Wrong::default() };
    assert_eq!(smallest_events(&wrong), "1 with 2");
    let broken = broken_by(&wrong);
    assert!(broken.contains(&"the instructions directly in a row add up to column 6"), "{broken:?}");
}

#[test]
fn an_answer_written_with_a_refusal() {
    let after = |_: &[u8], code: u64, _: &mut [u64], _: &mut [u64], answer: &mut [u64]| {
        if let (1.., Some(work)) = (code, answer.first_mut()) {
            *work = 0;
        }
    };
    let told = engines_difference(&Wrong { after, ..Wrong::default() });
    assert!(told.contains("table engine's answer, number 0: second "), "{told}");
}

/// What the first difference on a report says, where the stand-in writes another without idle rows.
fn report_difference(report: Report) -> String {
    let told = first_difference_where(&Wrong { report, ..Wrong::default() }, |question| {
        matches!(question, Question::Report { .. })
    });
    assert!(told.to_string().contains("report of "), "{told}");
    told.to_string()
}

/// The full report's lines of the rows that are printed by some rule.
fn printed(numbers: &[u64], count: u64, room: usize, prints: fn(usize, &[u64]) -> bool) -> Result<String, Ground> {
    let full = report::full_report(numbers, count, usize::MAX)?;
    let rows = numbers.chunks(COLUMNS).enumerate().zip(full.split_inclusive('\n'));
    let text: String = rows.filter(|((row, numbers), _)| prints(*row, numbers)).map(|(_, line)| line).collect();
    Some(text).filter(|text| text.len() <= room).ok_or(Ground::Room)
}

#[test]
fn the_report_with_the_right_rule_is_right() {
    let report: Report =
        |numbers, count, room| printed(numbers, count, room, |row, numbers| row == 0 || numbers[CALLS] > 0);
    let right = Wrong { report, ..Wrong::default() };
    let cases = (0..5_000).map(|number| generate::case(1, number)).chain(fixed::cases());
    let is_report = |case: &Case| matches!(case.question, Question::Report { .. });
    let alike = |case| compare(&case, &Second::new(), &[("the stand-in", &right)]).is_none();
    assert!(cases.filter(is_report).all(alike));
}

#[test]
fn printing_idle_rows() {
    let told = report_difference(report::full_report);
    assert!(told.contains("the stand-in does not keep to: the report has the full one's lines of row 0"), "{told}");
}

#[test]
fn asking_for_room_for_idle_rows() {
    let told = report_difference(|numbers, count, room| {
        report::full_report(numbers, count, room).and_then(|_| report::report(numbers, count, room))
    });
    assert!(told.contains("report writer: second accepted, the stand-in refused 4 at line 0"), "{told}");
}

#[test]
fn leaving_row_0_off_where_it_has_no_calls() {
    report_difference(|numbers, count, room| printed(numbers, count, room, |_, numbers| numbers[CALLS] > 0));
}

#[test]
fn leaving_off_the_rows_without_work() {
    report_difference(|numbers, count, room| {
        printed(numbers, count, room, |row, numbers| row == 0 || numbers[WORK] > 0)
    });
}

#[test]
fn looking_at_calls_before_the_rows_are_long_enough() {
    let told = report_difference(|numbers, count, room| match numbers.len() / COLUMNS {
        whole @ 1..=255 if count < 256 => report::report(numbers, count.min(whole as u64 - 1), room),
        _ => report::report(numbers, count, room),
    });
    assert!(told.contains("report writer: second refused 4 at line 0, the stand-in accepted"), "{told}");
}

/// What the first difference on a sheet says, where the stand-in reads another text than was lent.
fn sheet_difference(sheet: fn(&mut Vec<u8>)) -> String {
    let told = first_difference(&Wrong { sheet, ..Wrong::default() }).to_string();
    assert!(told.contains("sheet reader: second") || told.contains("rows, number"), "{told}");
    told
}

#[test]
fn a_sheet_read_without_its_quotes() {
    let told = sheet_difference(|text| text.retain(|c| *c != b'"'));
    assert!(told.contains("the stand-in accepted"), "{told}");
}

#[test]
fn a_sheet_whose_last_line_is_not_looked_at() {
    sheet_difference(|text| text.truncate(text.len().saturating_sub(1)));
}

#[test]
fn a_number_with_a_leading_zero() {
    sheet_difference(|text| {
        let zero = (1..text.len().max(2) - 1)
            .find(|&n| text[n - 1] == b',' && text[n] == b'0' && text[n + 1].is_ascii_digit());
        zero.map(|n| text.remove(n));
    });
}

/// What the first difference on folded stacks says, where the stand-in reads other lists than were lent.
fn folded_difference(lists: fn([&[u8]; 2]) -> [Vec<u8>; 2]) -> String {
    let told = first_difference(&Wrong { lists, ..Wrong::default() }).to_string();
    assert!(told.contains("folded stacks, D = "), "{told}");
    told
}

/// The lines of a list, each as something else.
fn each_line(list: &[u8], change: impl Fn(&[u8]) -> &[u8]) -> Vec<u8> {
    list.split(|c| *c == b'\n').map(change).collect::<Vec<_>>().join(&b'\n')
}

#[test]
fn giving_way_where_the_projects_line_is_bad() {
    let told = folded_difference(|[project, stock]| {
        let good = |line: &[u8]| line.iter().all(|c| c.is_ascii_graphic() && *c != b';');
        [each_line(project, |line| if good(line) { line } else { b"" }), stock.to_vec()]
    });
    assert!(told.contains("writer of folded stacks: second refused 17 at line 0, the stand-in accepted"), "{told}");
}

#[test]
fn taking_cr_lf_for_a_line_end() {
    let told =
        folded_difference(|lists| lists.map(|list| each_line(list, |line| line.strip_suffix(b"\r").unwrap_or(line))));
    assert!(told.contains("writer of folded stacks: second refused 17"), "{told}");
}

#[test]
fn the_stock_list_first() {
    folded_difference(|[project, stock]| [stock.to_vec(), project.to_vec()]);
}

#[test]
fn no_line_without_its_line_feed() {
    folded_difference(|lists| {
        lists.map(|list| list[..list.iter().rposition(|c| *c == b'\n').map_or(0, |n| n + 1)].to_vec())
    });
}

/// What the first difference on a forecast says, where the stand-in takes something else for the trace and the entries.
fn forecast_difference(asked: Asked) -> String {
    let told = first_difference(&Wrong { asked, ..Wrong::default() }).to_string();
    assert!(told.contains("forecast, D = "), "{told}");
    told
}

/// A trace whose entries are good and whose costs are something else by a rule, where both are; the entries are then used up.
fn costs_by(trace: &[u8], entries: &[Entry], rule: fn(&Shape, &[Entry], usize) -> u64) -> (Vec<u8>, Vec<Entry>) {
    let limits = Limits { depth: 64, sites: 255 };
    let lent = limits.for_tables();
    let good = Second::by_paths().forecast(trace, limits, entries, &lent).is_ok();
    let shape = check::trace(trace, limits, &lent).ok().filter(|_| good);
    let Some(shape) = shape else { return (trace.to_vec(), entries.to_vec()) };
    let line = |n: usize| match shape.lines[n].kind {
        Kind::Cost => Line { value: rule(&shape, entries, n), ..shape.lines[n] },
        _ => shape.lines[n],
    };
    ((0..shape.lines.len()).flat_map(|n| chars(&line(n).fields())).collect(), vec![])
}

/// The factor of the row that a line is directly in; 1 where no entry names it.
fn factor(shape: &Shape, entries: &[Entry], line: usize) -> u64 {
    let row = shape.invocation_of(line).row as u64;
    entries.iter().find(|entry| entry.row == row).map_or(1, |entry| entry.factor)
}

#[test]
fn dividing_and_rounding_down() {
    let told = forecast_difference(|trace, entries| {
        costs_by(trace, entries, |shape, entries, n| (shape.lines[n].value / factor(shape, entries, n)).max(1))
    });
    let told = told.replace("spawn", "call");
    let of_site = |site| (format!("{site}/2\n"), format!(" (call {site} {{3}}):"));
    let mut smallest = (1..=4).map(of_site).chain([("0/2\n".into(), " (3):".into())]);
    assert!(smallest.any(|(entry, events)| told.contains(&entry) && told.contains(&events)), "{told}");
}

#[test]
fn dividing_the_costs_of_children_too() {
    let told = forecast_difference(|trace, entries| {
        costs_by(trace, entries, |shape, entries, n| {
            let own = shape.invocation_of(n);
            let named = |row: usize| entries.iter().find(|entry| entry.row == row as u64);
            let of = named(own.row).or_else(|| shape.around(own).find_map(|around| named(around.row)));
            shape.lines[n].value.div_ceil(of.map_or(1, |entry| entry.factor))
        })
    });
    assert!(told.contains("row/factor: 0/2\n"), "{told}");
    assert!(told.replace("spawn", "call").contains(" (call 1 {2}):"), "{told}");
}

#[test]
fn naming_a_row_by_its_last_8_bits() {
    let told = forecast_difference(|trace, entries| {
        let of = |entry: &Entry| Entry { row: entry.row % 256, ..*entry };
        (trace.to_vec(), entries.iter().map(of).collect())
    });
    assert!(told.contains("table engine: second refused 19 at line 0, the stand-in "), "{told}");
}

#[test]
fn taking_a_list_in_any_order() {
    let told = forecast_difference(|trace, entries| {
        let mut sorted = entries.to_vec();
        sorted.sort_by_key(|entry| entry.row);
        (trace.to_vec(), sorted)
    });
    assert!(told.contains("table engine: second refused 19 at line 0, the stand-in "), "{told}");
}

#[test]
fn factors_before_the_order() {
    let told = forecast_difference(|trace, entries| {
        let wrong = |entry: &&Entry| !(2..=1_000).contains(&entry.factor);
        let first = entries.iter().find(wrong).map(|entry| vec![Entry { row: 0, ..*entry }]);
        (trace.to_vec(), first.unwrap_or(entries.to_vec()))
    });
    assert!(told.contains("table engine: second refused 19 at line 0, the stand-in refused 20 at line 0"), "{told}");
}

/// The laws that a stand-in breaks on some generated case.
fn broken_by(wrong: &dyn Library) -> Vec<&'static str> {
    let mut broken: Vec<_> = (0..4_000).flat_map(|number| broken(&generate::case(1, number), wrong)).collect();
    broken.sort_unstable();
    broken.dedup();
    broken
}

#[test]
fn the_second_program_keeps_every_law() {
    assert_eq!(broken_by(&Second::new()), [""; 0]);
}

#[test]
fn a_forecast_that_forgets_its_entries() {
    let wrong = Wrong { asked: |trace, _| (trace.to_vec(), vec![]), ..Wrong::default() };
    assert_eq!(broken_by(&wrong), ["a forecast is the profile of the rewritten trace"]);
}

#[test]
fn a_forecast_of_heavier_costs() {
    let asked: Asked = |trace, entries| {
        costs_by(trace, entries, |shape, entries, n| {
            (shape.lines[n].value * factor(shape, entries, n)).min(4_294_967_295)
        })
    };
    let broken = broken_by(&Wrong { asked, ..Wrong::default() });
    for law in [
        "a forecast is the profile of the rewritten trace",
        "work and span are at most the plain ones",
        "no row's work is above the plain one",
        "no row's span is above the plain one",
        "no row's own costs are above the plain ones",
        "rows that are not on the span leave it as it is",
    ] {
        assert!(broken.contains(&law), "{broken:?}");
    }
}

#[test]
fn a_forecast_that_halves_every_cost() {
    let asked: Asked = |trace, entries| costs_by(trace, entries, |shape, _, n| shape.lines[n].value.div_ceil(2));
    let broken = broken_by(&Wrong { asked, ..Wrong::default() });
    for law in [
        "a forecast is the profile of the rewritten trace",
        "an empty list gives the plain profile",
        "rows that are not on the span leave it as it is",
        "the gain is at most what the chosen chain loses",
    ] {
        assert!(broken.contains(&law), "{broken:?}");
    }
}

/// A cost's cycles and instructions.
type Measures = [u64; 2];

/// A compactor by a rule of which syncs are dropped and a rule of which two costs merge.
fn compactor(
    trace: &[u8],
    limits: Limits,
    lent: compact::Lent,
    dropped: impl Fn(&Shape, usize) -> bool,
    merge: fn(Measures, Measures) -> bool,
) -> Result<Vec<u8>, Refusal> {
    let shape = check::read(trace, limits, |_| lent.written < 1)?;
    let mut left: Vec<(Line, u64)> = vec![];
    for (number, line) in shape.lines.iter().enumerate().filter(|(_, line)| line.kind != Kind::Instructions) {
        let (is_cost, carried) = (|line: &Line| line.kind == Kind::Cost, shape.instructions(number));
        match left.last_mut() {
            _ if is_sync(&shape, number) && dropped(&shape, number) => (),
            Some((last, sum)) if is_cost(last) && is_cost(line) && merge([last.value, *sum], [line.value, carried]) => {
                last.value += line.value;
                *sum += carried;
            }
            _ => left.push((*line, carried)),
        }
    }
    let text: Vec<u8> = left.iter().flat_map(spelled).collect();
    Some(text).filter(|text| text.len() <= lent.out).ok_or(Ground::CompactRoom.at(0))
}

/// A line and, where it carries instructions that fit, a 07 line behind it.
fn spelled((line, carried): &(Line, u64)) -> Vec<u8> {
    let behind = (1..=0xffff_ffff).contains(carried).then(|| chars(&[Kind::Instructions.number(), 0, *carried, 0, 0]));
    [chars(&line.fields()), behind.unwrap_or_default()].concat()
}

/// Whether a spawn stands before a sync, since the start of its invocation or the last sync, among the lines that
/// count.
fn spawned_since(shape: &Shape, sync: usize, counts: fn(&Shape, usize, usize) -> bool) -> bool {
    let first = shape.invocation_of(sync).first;
    let kinds = (first..sync).rev().filter(|&line| counts(shape, line, sync)).map(|line| shape.lines[line].kind);
    kinds.take_while(|kind| *kind != Kind::Sync).any(|kind| kind == Kind::Spawn)
}

fn directly_beside(shape: &Shape, line: usize, sync: usize) -> bool {
    shape.directly_in[line] == shape.directly_in[sync]
}

/// "only syncs between it and its return"
fn last_in_its_body(shape: &Shape, sync: usize) -> bool {
    (sync + 1..shape.invocation_of(sync).last).all(|line| is_sync(shape, line))
}

/// The rule of the request.
fn says_nothing(shape: &Shape, sync: usize) -> bool {
    !spawned_since(shape, sync, directly_beside) || last_in_its_body(shape, sync)
}

/// "merges only while both sums fit"
fn fits(a: Measures, b: Measures) -> bool {
    (0..2).all(|measure| a[measure] + b[measure] <= 0xffff_ffff)
}

/// The events of the trace that the first difference between compactors shrank to.
fn compacted_difference(compactor: Compactor) -> String {
    smallest_events(&Wrong { compactor, ..Wrong::default() })
}

#[test]
fn the_compactor_with_the_right_rules_is_right() {
    let right = Wrong {
        compactor: |trace, limits, lent| compactor(trace, limits, lent, says_nothing, fits),
        ..Wrong::default()
    };
    let cases = (0..5_000).map(|number| generate::case(1, number));
    let alike = |case| compare(&case, &Second::new(), &[("the stand-in", &right)]).is_none();
    assert!(cases.into_iter().all(alike));
}

#[test]
fn keeping_a_sync_before_a_return() {
    let smallest = compacted_difference(|trace, limits, lent| {
        compactor(trace, limits, lent, |shape, sync| !spawned_since(shape, sync, directly_beside), fits)
    });
    assert_eq!(smallest, "spawn 1 {}, sync");
}

#[test]
fn taking_a_childs_spawn_for_its_callers() {
    let smallest = compacted_difference(|trace, limits, lent| {
        let counts = |shape: &Shape, line: usize, sync: usize| {
            shape.lines[line].kind == Kind::Spawn || directly_beside(shape, line, sync)
        };
        let dropped = |shape: &Shape, sync: usize| !spawned_since(shape, sync, counts) || last_in_its_body(shape, sync);
        compactor(trace, limits, lent, dropped, fits)
    });
    assert!(smallest.starts_with("call 1 {spawn 1 {}}, sync, "), "{smallest}");
}

#[test]
fn taking_a_childs_sync_for_its_callers() {
    let smallest = compacted_difference(|trace, limits, lent| {
        let counts =
            |shape: &Shape, line: usize, sync: usize| is_sync(shape, line) || directly_beside(shape, line, sync);
        let dropped = |shape: &Shape, sync: usize| !spawned_since(shape, sync, counts) || last_in_its_body(shape, sync);
        compactor(trace, limits, lent, dropped, fits)
    });
    assert!(smallest.starts_with("spawn 1 {") && smallest.contains("sync}, sync, "), "{smallest}");
}

#[test]
fn dropping_a_sync_with_a_site_line_between_it_and_its_return() {
    let smallest = compacted_difference(|trace, limits, lent| {
        let last = |shape: &Shape, sync: usize| {
            (sync + 1..shape.invocation_of(sync).last).all(|line| is_sync(shape, line) || is_site(shape, line))
        };
        let dropped = |shape: &Shape, sync: usize| says_nothing(shape, sync) || last(shape, sync);
        compactor(trace, limits, lent, dropped, fits)
    });
    assert_eq!(smallest, "spawn 1 {}, sync, site 2");
}

/// What is left of a trace, with a cost added to the one before it where only site lines stand between them.
fn merged_over_site_lines(trace: &[u8], limits: Limits, lent: compact::Lent) -> Result<Vec<u8>, Refusal> {
    let mut left: Vec<Line> = vec![];
    for line in compact::write(trace, limits, lent)?.chunks(CHARS).map(|line| read(line).expect("a good line")) {
        match left.iter_mut().rfind(|before| before.kind != Kind::Site) {
            Some(last) if last.kind == Kind::Cost && line.kind == Kind::Cost && last.value + line.value < 1 << 32 => {
                last.value += line.value;
            }
            _ => left.push(line),
        }
    }
    Ok(left.iter().flat_map(|line| chars(&line.fields())).collect())
}

#[test]
fn merging_costs_over_a_site_line() {
    assert_eq!(compacted_difference(merged_over_site_lines), "1, site 1, 1");
}

#[test]
fn merging_while_the_cycles_alone_fit() {
    let smallest = compacted_difference(|trace, limits, lent| {
        compactor(trace, limits, lent, says_nothing, |a, b| a[0] + b[0] <= 0xffff_ffff)
    });
    let costs: Vec<Vec<u64>> = smallest
        .split(", ")
        .map(|cost| cost.split(" with ").filter_map(|number| number.parse().ok()).collect())
        .collect();
    assert!(costs.iter().all(|cost| cost[0] == 1 && cost.len() == 2), "{smallest}");
    assert_eq!(costs.iter().map(|cost| cost[1]).sum::<u64>(), 1 << 32, "{smallest}");
}

#[test]
fn merging_no_cost_with_one_that_carries_instructions() {
    let smallest = compacted_difference(|trace, limits, lent| {
        compactor(trace, limits, lent, says_nothing, |a, b| fits(a, b) && a[1] == 0)
    });
    assert_eq!(smallest, "1 with 1, 1");
}

#[test]
fn leaving_instructions_out() {
    let smallest =
        compacted_difference(|trace, limits, lent| compact::write(trace, limits, lent).map(|text| left_out(&text)));
    assert_eq!(smallest, "1 with 1");
}

#[test]
fn merging_no_costs() {
    let smallest =
        compacted_difference(|trace, limits, lent| compactor(trace, limits, lent, says_nothing, |_, _| false));
    assert_eq!(smallest, "1, 1");
}

#[test]
fn a_sum_of_the_greatest_value_taken_for_one_that_does_not_fit() {
    let smallest = compacted_difference(|trace, limits, lent| {
        compactor(trace, limits, lent, says_nothing, |a, b| fits(a, b) && a[0] + b[0] < 0xffff_ffff)
    });
    let costs: Vec<u64> = smallest.split(", ").map(|cost| cost.parse().expect("a cost")).collect();
    assert_eq!(costs.iter().sum::<u64>(), 0xffff_ffff, "{smallest}");
}

/// The events of the trace and the lines that the first difference in an answer shrank to, and the laws that the stand-in does
/// not keep there.
fn smallest_asked(answers: Answers) -> (String, Vec<u32>, Vec<&'static str>) {
    let wrong = Wrong { answers, ..Wrong::default() };
    let found = first_difference_where(&wrong, |question| matches!(question, Question::Why { .. }));
    let Question::Why { trace, lines, .. } = found.case.question else { unreachable!("a line is asked") };
    (events(&trace).expect("good lines"), lines, found.broken)
}

/// The right answer with its chain, by paths.
fn right_answer(shape: &Shape, line: usize) -> (Why, Vec<usize>) {
    why::why(shape, line, graph::search)
}

#[test]
fn telling_a_tied_line_as_one_on_the_chosen_chain() {
    let (events, ..) = smallest_asked(|shape, line| match right_answer(shape, line) {
        (Why::Tied(_), _) => (Why::OnChain, graph::search(shape).chosen),
        right => right,
    });
    assert_eq!(events, "spawn 1 {1}, 1");
}

#[test]
fn telling_a_tied_line_as_slack_of_nothing() {
    let (events, _, broken) = smallest_asked(|shape, line| match right_answer(shape, line) {
        (Why::Tied(_), chain) => (Why::Slack(0), chain),
        right => right,
    });
    assert_eq!((events.as_str(), broken.as_slice()), ("spawn 1 {1}, 1", ["slack is at least 1"].as_slice()));
}

#[test]
fn telling_the_first_line_of_the_chosen_chain_as_the_tied_one() {
    let (events, _, broken) = smallest_asked(|shape, line| match right_answer(shape, line) {
        (Why::Tied(_), chain) => (Why::Tied(graph::search(shape).chosen[0]), chain),
        right => right,
    });
    assert_eq!(events, "1, spawn 1 {1}, 1");
    assert_eq!(broken, ["the tied line is the first that is chosen and not marked"]);
}

#[test]
fn telling_slack_by_the_line_alone() {
    let (events, _, broken) = smallest_asked(|shape, line| match right_answer(shape, line) {
        (Why::Slack(_), chain) => (Why::Slack(graph::search(shape).spans[0] - shape.lines[line].value), chain),
        right => right,
    });
    assert_eq!(events, "spawn 1 {1, 1}, 3");
    assert!(broken.contains(&"what is marked weighs the span less the slack"), "{broken:?}");
}

/// The last of the heaviest chains through a line, as those of lines numbered from the end.
fn last_through(shape: &Shape, line: usize) -> Vec<usize> {
    chains(&only_in_series(shape, line), Shape::parallel, later).chosen
}

/// The shape in which the costs that are parallel to a line are none.
fn only_in_series(shape: &Shape, line: usize) -> Shape {
    let mut left = shape.clone();
    for other in shape.cost_lines().into_iter().filter(|&other| shape.parallel(line.min(other), line.max(other))) {
        left.lines[other].kind = Kind::Site;
    }
    left
}

#[test]
fn marking_the_last_of_the_heaviest_chains_through_a_line() {
    let (events, lines, broken) = smallest_asked(|shape, line| match right_answer(shape, line) {
        (why @ Why::Slack(_), _) if shape.lines.len() <= 60 => (why, last_through(shape, line)),
        right => right,
    });
    // It is as heavy, and a chain: the second program alone tells it apart.
    assert_eq!((events.as_str(), lines.len(), broken.len()), ("spawn 1 {1, spawn 1 {1}, 1}, 3", 1, 0));
}

#[test]
fn taking_a_07_line_for_its_cost() {
    let (events, ..) = smallest_asked(|shape, line| {
        let own = if shape.lines[line].kind == Kind::Instructions { line - 1 } else { line };
        right_answer(shape, own)
    });
    assert_eq!(events, "1 with 1");
}

#[test]
fn marking_the_chosen_chain_for_every_line() {
    let (events, ..) = smallest_asked(|shape, line| (right_answer(shape, line).0, graph::search(shape).chosen));
    assert_eq!(events, "1");
}

#[test]
fn leaving_the_marks_empty_where_there_is_slack() {
    let (events, ..) = smallest_asked(|shape, line| match right_answer(shape, line) {
        (why @ Why::Slack(_), _) => (why, vec![]),
        right => right,
    });
    assert!(["spawn 1 {1}, 2", "spawn 1 {2}, 1"].contains(&events.as_str()), "{events}");
}
