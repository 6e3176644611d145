//! Traces with 07 lines, each number worked out by hand, in both ways of the second program; and that cycles know nothing of
//! instructions.

use second::check::Limits;
use second::compact;
use second::compare::broken;
use second::compare::carried::{long, traces, COMPACTED, FORECASTS, LIMITS};
use second::compare::case::Question;
use second::compare::fixed;
use second::compare::generate;
use second::compare::instructions::{left_out, put_in};
use second::compare::rng::Rng;
use second::compare::shapes;
use second::folded;
use second::forecast::Entry;
use second::library::Second;
use second::rows::{ILOCAL, ION_SPAN};
use second::trace::{events, Trace};

/// Both ways, by pairs where the trace is short enough for it.
fn ways() -> [Second; 2] {
    [Second::new(), Second::by_paths()]
}

#[test]
fn answer_rows_and_marks_or_the_refusal_are_as_worked_out_by_hand() {
    for case in traces() {
        for second in ways() {
            assert_eq!(case.by(&second), case.given, "{}", case.name);
        }
    }
}

#[test]
fn forecasts_leave_instructions_as_they_are() {
    for (name, events, entries, rows) in &FORECASTS {
        let entries: Vec<Entry> = entries.iter().map(|&(row, factor)| Entry { row, factor }).collect();
        for second in ways() {
            let trace = Trace::from_events(2, events).chars;
            let found = second.forecast(&trace, LIMITS, &entries, &LIMITS.for_tables()).expect(name);
            assert_eq!(found.rows, rows, "{name}");
        }
    }
}

#[test]
fn what_the_compactor_leaves_is_as_worked_out_by_hand() {
    let left = |trace: &Trace| compact::write(&trace.chars, LIMITS, compact::Lent::ALL);
    for case in &COMPACTED {
        let right = Trace::from_events(2, case.left);
        let found = left(&Trace::from_events(2, case.events)).expect(case.name);
        assert_eq!(events(&found).as_deref(), Some(case.left), "{}", case.name);
        assert_eq!(left(&right), Ok(right.chars), "{}", case.name);
    }
    let long = long();
    assert!(
        left(&long.trace) == Ok(long.left.chars.clone()) && left(&long.left) == Ok(long.left.chars),
        "{}",
        long.name
    );
}

#[test]
fn folded_stacks_tell_cycles() {
    let trace = Trace::from_events(1, "1 with 9, call 1 {2 with 9, 3}").chars;
    let text = folded::write(&trace, LIMITS, [b"main\nload", b""], folded::Lent::ALL);
    assert_eq!(text.as_deref(), Ok("main 1\nmain;load 2\nmain;load 3\n"));
}

/// Without 07 lines, with those that a trace has, and with one behind each cost: the answer but for the lines, the first five
/// columns and the other lines' marks are the same, and without them the last two columns are zero.
#[test]
fn cycles_know_nothing_of_instructions() {
    let wide = Limits { depth: 64, sites: 255 };
    let mut carried = 0;
    for number in 0..3_000 {
        let trace = shapes::trace(&mut Rng::of_case(9, number)).chars;
        let bare = left_out(&trace);
        let full = put_in(&bare, |line| Some(line as u64 + 1));
        if full.len() > 23 * 65_536 {
            continue;
        }
        let of = |trace: &[u8]| {
            let profile = Second::by_paths().profile(trace, wide, &wide.for_tables()).expect("a good trace");
            let lines =
                trace.chunks(23).zip(&profile.marks).filter(|(line, mark)| !line.starts_with(b"07") || **mark > 0);
            let marks: Vec<u8> = lines.map(|(_, mark)| *mark).collect();
            let cycles: Vec<_> = profile.rows.iter().map(|row| row[..ILOCAL].to_vec()).collect();
            let instructions: u64 = profile.rows.iter().map(|row| row[ILOCAL] + row[ION_SPAN]).sum();
            ((profile.answer[..3].to_vec(), cycles, marks), instructions)
        };
        let (right, none) = of(&bare);
        assert_eq!(none, 0);
        assert_eq!((of(&trace).0, of(&full).0), (right.clone(), right));
        carried += u32::from(bare != trace);
    }
    assert!((1_000..2_000).contains(&carried), "{carried} of 3,000 traces carry instructions");
}

#[test]
fn every_law_holds_of_the_second_program() {
    let is_trace = |question: &Question| matches!(question, Question::Engines { .. } | Question::Forecast { .. });
    let cases = fixed::cases().into_iter().chain((0..10_000).map(|number| generate::case(6, number)));
    let broken = cases.filter(|case| is_trace(&case.question)).find_map(|case| {
        let laws = broken(&case, &Second::by_paths());
        (!laws.is_empty()).then_some((case, laws))
    });
    assert_eq!(broken, None);
}
