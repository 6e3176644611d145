//! The generated cases reach what they are meant to reach.

use second::check::{self, Lent, Limits};
use second::compact;
use second::compare::case::{Case, Question, STRIP};
use second::compare::generate;
use second::library::Second;
use second::line::{Kind, CHARS};
use second::rows::LOCAL;
use second::shape::{Invocation, Shape, Start};
use std::collections::BTreeMap;

/// How often each verdict on a trace is given, 0 for accepted.
fn verdicts(cases: impl Iterator<Item = Case>) -> BTreeMap<u64, u32> {
    let mut verdicts = BTreeMap::new();
    for case in cases {
        for (_, code) in case.ask(&Second::by_paths()).codes {
            *verdicts.entry(code % 256).or_default() += 1;
        }
    }
    verdicts
}

#[test]
fn every_verdict_is_reached() {
    let cases = (0..40_000).map(|number| generate::case(1, number));
    let verdicts = verdicts(cases.filter(|case| matches!(case.question, Question::Engines { .. })));
    println!("{verdicts:?}");
    for verdict in [0, 1, 2, 4, 5, 6, 7, 8, 9, 10, 11, 12, 14, 22] {
        assert!(verdicts.get(&verdict).is_some_and(|&times| times >= 30), "{verdict}: {verdicts:?}");
    }
}

#[test]
fn every_verdict_on_a_report_is_reached() {
    for full in [false, true] {
        let asks = |case: &Case| matches!(case.question, Question::Report { full: asked, .. } if asked == full);
        let verdicts = verdicts((0..40_000).map(|number| generate::case(1, number)).filter(asks));
        println!("{verdicts:?}");
        for verdict in [0, 1, 4] {
            assert!(verdicts.get(&verdict).is_some_and(|&times| times >= 30), "{verdict}: {verdicts:?}");
        }
    }
}

#[test]
fn every_verdict_on_a_sheet_is_reached() {
    let cases = || (0..40_000).map(|number| generate::case(1, number));
    let writes = verdicts(cases().filter(|case| matches!(case.question, Question::WriteSheet { .. })));
    let reads = verdicts(cases().filter(|case| matches!(case.question, Question::ReadSheet { .. })));
    println!("{writes:?} {reads:?}");
    for verdict in [0, 1, 4, 16] {
        assert!(writes.get(&verdict).is_some_and(|&times| times >= 30), "{verdict}: {writes:?}");
    }
    for verdict in [0, 4, 15, 16] {
        assert!(reads.get(&verdict).is_some_and(|&times| times >= 30), "{verdict}: {reads:?}");
    }
}

#[test]
fn every_verdict_on_folded_stacks_is_reached() {
    let cases = (0..40_000).map(|number| generate::case(1, number));
    let verdicts = verdicts(cases.filter(|case| matches!(case.question, Question::Folded { .. })));
    println!("{verdicts:?}");
    for verdict in [0, 1, 2, 4, 5, 6, 7, 8, 9, 10, 11, 12, 14, 17, 18, 22] {
        assert!(verdicts.get(&verdict).is_some_and(|&times| times >= 5), "{verdict}: {verdicts:?}");
    }
    assert!([0, 17, 18].iter().all(|verdict| verdicts[verdict] >= 100), "{verdicts:?}");
}

#[test]
fn every_verdict_on_a_forecast_is_reached() {
    let cases = (0..40_000).map(|number| generate::case(1, number));
    let verdicts = verdicts(cases.filter(|case| matches!(case.question, Question::Forecast { .. })));
    println!("{verdicts:?}");
    for verdict in [0, 1, 2, 4, 5, 6, 7, 8, 9, 10, 11, 12, 14, 19, 20, 22] {
        assert!(verdicts.get(&verdict).is_some_and(|&times| times >= 10), "{verdict}: {verdicts:?}");
    }
    assert!([0, 19, 20].iter().all(|verdict| verdicts[verdict] >= 100), "{verdicts:?}");
}

/// What the accepted forecasts among some cases have to show: an empty list, 16 entries, the root named; a span that falls,
/// one that stays though a named row costs something, and a chosen chain of other lines than before.
#[test]
fn forecasts_gain_and_do_not_gain() {
    let wide = Limits { depth: 64, sites: 255 };
    let mut times = [0; 6];
    for number in 0..40_000 {
        let Question::Forecast { trace, entries, .. } = generate::case(1, number).question else { continue };
        let lent = wide.for_marks(trace.len() / 23);
        let Ok(forecast) = Second::by_paths().forecast(&trace, wide, &entries, &lent) else { continue };
        let plain = Second::by_paths().profile(&trace, wide, &lent).expect("accepted");
        let costly = entries.iter().any(|entry| plain.rows[entry.row as usize][LOCAL] > 0);
        let shown = [
            entries.is_empty(),
            entries.len() == 16,
            entries.first().is_some_and(|entry| entry.row == 0),
            forecast.answer[1] < plain.answer[1],
            costly && forecast.answer[..2] < plain.answer[..2] && forecast.answer[1] == plain.answer[1],
            forecast.marks != plain.marks,
        ];
        times.iter_mut().zip(shown).for_each(|(times, shown)| *times += u32::from(shown));
    }
    println!("{times:?}");
    assert!(times.iter().all(|&times| times >= 20), "{times:?}");
}

#[test]
fn every_verdict_on_a_compaction_is_reached() {
    let cases = (0..40_000).map(|number| generate::case(1, number));
    let verdicts = verdicts(cases.filter(|case| matches!(case.question, Question::Compact { .. })));
    println!("{verdicts:?}");
    for verdict in [0, 1, 2, 4, 5, 6, 7, 8, 9, 10, 11, 12, 14, 21, 22] {
        assert!(verdicts.get(&verdict).is_some_and(|&times| times >= 5), "{verdict}: {verdicts:?}");
    }
    assert!([0, 21].iter().all(|verdict| verdicts[verdict] >= 100), "{verdicts:?}");
}

/// How often each verdict on an asked line is given, and of accepted traces each of the four answers.
#[test]
fn every_verdict_on_a_line_and_every_answer_is_reached() {
    let cases = (0..40_000).map(|number| generate::case(1, number));
    let (mut verdicts, mut answers, mut every) = (BTreeMap::new(), [0; 4], 0);
    for case in cases {
        let Question::Why { trace, lines, .. } = &case.question else { continue };
        let outcome = case.ask(&Second::by_paths());
        outcome.codes.iter().for_each(|(_, code)| *verdicts.entry(code % 256).or_default() += 1);
        let said = outcome.numbers.iter().filter(|room| room.name == "answer");
        for (room, _) in said.zip(&outcome.codes).filter(|(_, (_, code))| *code == 0) {
            answers[room.all[STRIP] as usize] += 1;
        }
        let whole = trace.len() / CHARS;
        assert!(whole > 60 || lines.len() > whole, "every line of a short trace is asked");
        every += u32::from(whole <= 60);
    }
    println!("{verdicts:?} {answers:?} {every}");
    for verdict in [0, 1, 2, 4, 5, 6, 7, 8, 9, 10, 11, 12, 14, 22, 23] {
        assert!(verdicts.get(&verdict).is_some_and(|&times: &u32| times >= 30), "{verdict}: {verdicts:?}");
    }
    assert!(answers.iter().all(|&times| times >= 500) && every >= 2_000, "{answers:?} {every}");
}

#[test]
fn good_traces_reach_the_limits() {
    let wide = Limits { depth: 64, sites: 255 };
    let room: Lent = wide.for_tables();
    let mut reached = [false; 3];
    for number in 0..400_000 {
        if reached == [true; 3] {
            break;
        }
        let trace = match generate::case(2, number).question {
            Question::Engines { trace, .. } | Question::Moved { trace, .. } | Question::Compact { trace, .. } => trace,
            _ => continue,
        };
        let Ok(profile) = Second::by_paths().profile(&trace, wide, &room) else { continue };
        let shallow = Limits { depth: 63, ..wide };
        reached[0] |= Second::by_paths().profile(&trace, shallow, &room).is_err();
        reached[1] |= profile.answer[2] >= 100;
        reached[2] |= profile.answer[3] >= 65_000;
    }
    assert_eq!(reached, [true; 3], "depth 64, many sites, many lines");
}

/// The ways in which a good trace's sites call themselves: enclosed directly and by call, directly and by spawn, through
/// another site and by call, through another and by spawn; and two of one row in parallel branches, both outermost.
fn recursion(shape: &Shape) -> [bool; 5] {
    let mut forms = [false; 5];
    for own in shape.invocations.iter().filter(|own| !shape.outermost(own)) {
        let through_another = shape.around(own).next().is_some_and(|f| f.row != own.row);
        let spawned = matches!(own.start, Start::Spawned(_));
        forms[2 * usize::from(through_another) + usize::from(spawned)] = true;
    }
    let costs = shape.cost_lines();
    let costly = |own: &&Invocation| shape.outermost(own) && costs.iter().any(|&line| own.contains(line));
    let outer: Vec<&Invocation> = shape.invocations.iter().filter(costly).collect();
    let first_cost = |own: &Invocation| *costs.iter().find(|&&line| own.contains(line)).expect("a cost");
    forms[4] = outer.windows(2).any(|pair| {
        let apart = pair[0].row == pair[1].row && pair[0].last < pair[1].first;
        apart && shape.parallel(first_cost(pair[0]), first_cost(pair[1]))
    });
    forms
}

#[test]
fn sites_call_themselves_in_every_form() {
    let wide = Limits { depth: 64, sites: 255 };
    let mut times = [0; 5];
    for number in 0..40_000 {
        let Question::Engines { trace, .. } = generate::case(1, number).question else { continue };
        let Ok(shape) = check::trace(&trace, wide, &wide.for_tables()) else { continue };
        let forms = recursion(&shape);
        times.iter_mut().zip(forms).for_each(|(times, form)| *times += u32::from(form));
    }
    println!("{times:?}");
    assert!(times.iter().all(|&times| times >= 100), "{times:?}");
}

/// Where the site lines of a good trace stand: between a spawn and its first cost, directly before the root's return,
/// directly before another, where eight are open, between two costs, and between a sync and its return.
fn on_the_way(shape: &Shape) -> [bool; 6] {
    let mut forms = [false; 6];
    let kind = |line: usize| shape.lines[line].kind;
    for line in (1..shape.lines.len()).filter(|&line| kind(line) == Kind::Site) {
        let own = shape.invocation_of(line);
        let shown = [
            kind(line - 1) == Kind::Spawn && kind(line + 1) == Kind::Cost,
            own.last == line + 1 && own.start == Start::Root,
            own.last == line + 1 && own.start != Start::Root,
            shape.around(own).count() >= 7,
            kind(line - 1) == Kind::Cost && kind(line + 1) == Kind::Cost,
            kind(line - 1) == Kind::Sync && own.last == line + 1,
        ];
        forms.iter_mut().zip(shown).for_each(|(form, shown)| *form |= shown);
    }
    forms
}

#[test]
fn site_lines_stand_in_every_form_on_the_way() {
    let wide = Limits { depth: 64, sites: 255 };
    let mut times = [0; 6];
    for number in 0..40_000 {
        let (Question::Engines { trace, .. } | Question::Compact { trace, .. }) = generate::case(1, number).question
        else {
            continue;
        };
        let Ok(shape) = check::trace(&trace, wide, &wide.for_tables()) else { continue };
        times.iter_mut().zip(on_the_way(&shape)).for_each(|(times, form)| *times += u32::from(form));
    }
    println!("{times:?}");
    assert!(times.iter().all(|&times| times >= 50), "{times:?}");
}

/// How often a refusal falls on a line behind the first that is no site line.
#[test]
fn each_refusal_of_a_site_is_given_on_the_way() {
    let mut times = BTreeMap::new();
    for number in 0..40_000 {
        let case = generate::case(1, number);
        let Question::Engines { trace, .. } = &case.question else { continue };
        let first = trace.chunks(CHARS).position(|line| !line.starts_with(b"01")).unwrap_or(usize::MAX);
        for (_, code) in case.ask(&Second::by_paths()).codes.iter().filter(|(_, code)| code / 256 > first as u64) {
            *times.entry(code % 256).or_default() += 1;
        }
    }
    println!("{times:?}");
    for number in [7, 8, 9, 10, 11] {
        assert!(times.get(&number).is_some_and(|&times: &u32| times >= 50), "{number}: {times:?}");
    }
}

/// Where the 07 lines of a good trace stand: directly before a return, a sync, a cost, a call, a spawn, a site line; on the
/// chosen chain's costs and on others; and whether all costs have one.
fn carried(shape: &Shape, marks: &[u8]) -> [bool; 9] {
    let mut forms = [false; 9];
    let kind = |line: usize| shape.lines[line].kind;
    for line in (1..shape.lines.len()).filter(|&line| kind(line) == Kind::Instructions) {
        let behind = [Kind::Return, Kind::Sync, Kind::Cost, Kind::Call, Kind::Spawn, Kind::Site];
        forms[..6].iter_mut().zip(behind).for_each(|(form, behind)| *form |= kind(line + 1) == behind);
        forms[6 + usize::from(marks[line - 1] == 0)] = true;
    }
    let costs = shape.cost_lines();
    forms[8] = costs.len() > 1 && costs.iter().all(|&line| shape.instructions(line) > 0);
    forms
}

#[test]
fn instructions_stand_in_every_form() {
    let wide = Limits { depth: 64, sites: 255 };
    let (mut times, mut none, mut all) = ([0; 9], 0, 0);
    for number in 0..40_000 {
        let (Question::Engines { trace, .. } | Question::Compact { trace, .. }) = generate::case(1, number).question
        else {
            continue;
        };
        let Ok(shape) = check::trace(&trace, wide, &wide.for_tables()) else { continue };
        let marks = Second::by_paths().profile(&trace, wide, &wide.for_tables()).expect("accepted").marks;
        times.iter_mut().zip(carried(&shape, &marks)).for_each(|(times, form)| *times += u32::from(form));
        none += u32::from(shape.lines.iter().all(|line| line.kind != Kind::Instructions));
        all += 1;
    }
    println!("{times:?}, {none} of {all} without");
    assert!(times.iter().all(|&times| times >= 50) && 2 * none > all, "{times:?}, {none} of {all} without");
}

/// What is left of generated traces has to show: costs that merge with instructions, and costs side by side that do not because
/// the sum of cycles does not fit, and because the sum of instructions does not.
#[test]
fn costs_with_instructions_merge_and_do_not_merge() {
    let mut times = [0; 3];
    for number in 0..40_000 {
        let Question::Compact { trace, limits, .. } = generate::case(1, number).question else { continue };
        let Ok(shape) = check::read(&trace, limits, |_| false) else { continue };
        let left = compact::write(&trace, limits, compact::Lent::ALL).expect("accepted");
        let after = check::read(&left, limits, |_| false).expect("accepted");
        let carried = |shape: &Shape| shape.lines.iter().filter(|line| line.kind == Kind::Instructions).count();
        let costs = after.cost_lines();
        let beside =
            costs.windows(2).filter(|pair| pair[1] - pair[0] == 1 + usize::from(after.instructions(pair[0]) > 0));
        let sums = |pair: &[usize]| {
            let value = |line: usize| after.lines[line].value;
            [value(pair[0]) + value(pair[1]), after.instructions(pair[0]) + after.instructions(pair[1])]
        };
        times[0] += u32::from(carried(&after) < carried(&shape));
        for [cycles, instructions] in beside.map(sums) {
            times[1] += u32::from(cycles > 0xffff_ffff);
            times[2] += u32::from(cycles <= 0xffff_ffff && instructions > 0xffff_ffff);
        }
    }
    println!("{times:?}");
    assert!(times.iter().all(|&times| times >= 50), "{times:?}");
}
