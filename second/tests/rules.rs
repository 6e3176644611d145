//! The traces that the rules name, each number typed from the rules, in both ways of the second program.

use second::check::{Lent, Limits};
use second::compare::fixed::{further, heaviest, recursive, TWELVE, TWELVE_LIMITS};
use second::compare::{forecasts, stacks};
use second::folded;
use second::library::Second;
use second::refusal::{Ground, Refusal};
use second::report;
use second::rows::{all_cycles_alone, cycles_alone, Profile, ON_SPAN};
use second::trace::Trace;
use second::{chain, graph};

/// The profile that both ways give.
fn profile(trace: &Trace, limits: Limits) -> Result<Profile, Refusal> {
    let lent = limits.for_tables();
    let by_paths = Second { search: graph::search }.profile(&trace.chars, limits, &lent);
    let short = trace.lines() < 1000;
    let by_pairs = short.then(|| Second { search: chain::search }.profile(&trace.chars, limits, &lent));
    assert_eq!(by_pairs.as_ref().unwrap_or(&by_paths), &by_paths);
    by_paths
}

/// The profile of events with sites 1 and 2, D = 4 and M = 2.
fn of(events: &str) -> Profile {
    profile(&Trace::from_events(2, events), TWELVE_LIMITS).expect("accepted")
}

#[test]
fn the_twelve() {
    for case in TWELVE {
        let profile = profile(&case.trace(), TWELVE_LIMITS).expect(case.name);
        let lines = case.trace().lines() as u64;
        assert_eq!(profile.answer, [case.work, case.span, 2, lines], "{}", case.name);
        let on_span: Vec<u64> = profile.rows.iter().map(|row| row[ON_SPAN]).collect();
        assert_eq!(on_span, case.on_span, "{}", case.name);
    }
}

#[test]
fn in_k_row_1_has_calls_2_work_3_span_3_local_3() {
    assert_eq!(of("call 1 {1, call 1 {2}}").rows[1], cycles_alone([2, 3, 3, 3, 3]));
}

#[test]
fn the_recursive_traces() {
    for case in recursive() {
        let rows = profile(&case.trace, case.limits).expect(case.name).rows;
        assert_eq!(rows, all_cycles_alone(&case.rows), "{}", case.name);
    }
}

#[test]
fn the_lists_of_names() {
    for listed in stacks::BY_HAND {
        let trace = Trace::from_events(listed.sites, listed.events);
        let found = folded::write(&trace.chars, stacks::limits(listed.sites), listed.lists, folded::Lent::ALL);
        let found = found.as_deref().map_err(|refusal| (refusal.number(), refusal.line));
        assert_eq!(found, listed.written, "{}", listed.name);
    }
}

#[test]
fn the_forecasts() {
    for asked in &forecasts::BY_HAND {
        let (trace, entries, limits) = (asked.trace(), asked.entries(), forecasts::LIMITS);
        for search in [chain::search, graph::search] {
            let found = Second { search }.forecast(&trace, limits, &entries, &limits.for_tables());
            let rows = found.map(|profile| profile.rows).map_err(|refusal| (refusal.number(), refusal.line));
            assert_eq!(rows, asked.given.map(|rows| all_cycles_alone(&rows)), "{}", asked.name);
        }
    }
}

#[test]
fn the_printed_costs_of_the_twelve_add_up_to_their_work() {
    for case in TWELVE {
        let names: [&[u8]; 2] = [b"main\nload\ndecode", b""];
        let text = folded::write(&case.trace().chars, TWELVE_LIMITS, names, folded::Lent::ALL).expect(case.name);
        let cost = |line: &str| line.rsplit(' ').next().and_then(|cost| cost.parse::<u64>().ok()).expect("a cost");
        assert_eq!(text.lines().map(cost).sum::<u64>(), case.work, "{}", case.name);
    }
}

#[test]
fn case_i_is_reported_as_the_rules_print_it() {
    let profile = of("call 1 {spawn 2 {7}, 1}, 2");
    // The rules print the first 84 characters of each line; behind them stand the two numbers of instructions, both zero.
    let printed = "\
00000000000000000001000000000000000a00000000000000090000000000000002000000000000000200000000000000000000000000000000
00010000000000000001000000000000000800000000000000070000000000000001000000000000000000000000000000000000000000000000
00020000000000000001000000000000000700000000000000070000000000000007000000000000000700000000000000000000000000000000
";
    assert_eq!(report::full_report(profile.rows.as_flattened(), 2, 351).as_deref(), Ok(printed));
    assert_eq!(profile.marks, [0, 0, 0, 0, 1, 0, 0, 0, 1, 0]);
}

#[test]
fn the_further_traces() {
    for case in further() {
        let found = profile(&case.trace, case.limits).err();
        assert_eq!(found, case.refusal, "{}", case.name);
    }
}

#[test]
fn the_heaviest_trace_stays_below_2_to_the_48() {
    // 65,535 times 4,294,967,295, which is 2^48 - 2^32 - 2^16 + 1
    let most = 281_470_681_677_825;
    let heaviest = profile(&heaviest(), Limits { depth: 1, sites: 0 }).expect("accepted");
    assert_eq!(heaviest.answer, [most, most, 0, 65_536]);
    assert_eq!(heaviest.rows, [cycles_alone([1, most, most, most, most])]);
}

#[test]
fn a_sync_with_nothing_to_join_does_nothing() {
    assert_eq!(of("sync, 1, sync, sync, 2, call 1 {sync, 3}, sync").answer[..2], [6, 6]);
}

#[test]
fn a_sync_joins_every_child_spawned_before_it_and_none_after() {
    assert_eq!(of("spawn 1 {5}, spawn 2 {6}, 1, sync, spawn 1 {2}, 3").answer[..2], [17, 9]);
}

#[test]
fn the_spans_of_a_row_add_up_over_its_outermost_invocations() {
    let profile = of("spawn 1 {5}, spawn 1 {6, spawn 1 {4}, 3}, sync, call 2 {}");
    let rows = [[1, 18, 10, 0, 0], [3, 18, 15, 18, 10], [1, 0, 0, 0, 0]];
    assert_eq!(profile.rows, all_cycles_alone(&rows));
}

#[test]
fn of_equal_chains_the_smaller_line_wins_at_the_first_difference() {
    // Lines 2 site lines, then: 2 spawn, 3 cost, 4 return, 5 cost, 6 spawn, 7 cost, 8 return, 9 cost.
    assert_eq!(of("spawn 1 {2}, 1, spawn 2 {1}, 1").marks[3..10], [1, 0, 0, 0, 0, 0, 0]);
    assert_eq!(of("spawn 1 {1}, 1, spawn 2 {1}, 1").marks[3..10], [0, 0, 1, 0, 1, 0, 0]);
}

/// The refusal of a trace whose lines are given, with D = 2 and M = 2.
fn refused(lines: &[&str]) -> Option<(u64, u64)> {
    let trace = Trace { chars: lines.iter().flat_map(|line| line.bytes().chain([b'\n'])).collect() };
    profile(&trace, Limits { depth: 2, sites: 2 }).err().map(|refusal| (refusal.number(), refusal.line))
}

const SITE_1: &str = "0100010000000a00010005";
const SITE_2: &str = "0100020000001400010009";
const CALL_1: &str = "0200010000000000000000";
const RETURN: &str = "0500000000000000000000";
const COST_1: &str = "0600000000000100000000";
const CARRY_1: &str = "0700000000000100000000";

#[test]
fn the_first_faulty_line_decides_and_within_it_the_smallest_number() {
    assert_eq!(refused(&[COST_1, "0600000000000000000000", "0g"]), Some((2, 0)));
    assert_eq!(refused(&[COST_1, "0600000000000000000000", "0g00000000000000000000"]), Some((6, 1)));
    assert_eq!(refused(&[COST_1, "0g00000000000000000000", "0600000000000000000000"]), Some((5, 1)));
    assert_eq!(refused(&[RETURN, "0600000000000000000000"]), Some((6, 1)));
    assert_eq!(refused(&[RETURN, SITE_1]), Some((7, 1)));
    assert_eq!(refused(&[RETURN, "0700000000000000000000"]), Some((6, 1)));
    assert_eq!(refused(&[RETURN, CARRY_1]), Some((7, 1)));
    assert_eq!(refused(&[SITE_1, CARRY_1, "0100040000000a00010005"]), Some((22, 1)));
    assert_eq!(refused(&[SITE_1, "0100030000000a00010005", CARRY_1]), Some((8, 1)));
    assert_eq!(refused(&[SITE_1, SITE_2, "0100040000000a00010005"]), Some((8, 2)));
    assert_eq!(refused(&[SITE_1, SITE_2, "0100030000000a00010005"]), Some((9, 2)));
    assert_eq!(refused(&[SITE_1, "0100020000000a00010005"]), Some((10, 1)));
    assert_eq!(refused(&[SITE_1, CALL_1, "0200020000000000000000"]), Some((11, 2)));
    assert_eq!(refused(&[SITE_1, CALL_1, CALL_1]), Some((12, 2)));
    assert_eq!(refused(&[SITE_1, CALL_1, RETURN]), Some((14, 3)));
}

#[test]
fn a_site_line_is_numbered_one_above_the_last_wherever_it_stands() {
    assert_eq!(refused(&["0100000000000a00010005"]), Some((8, 0)));
    assert_eq!(refused(&[SITE_2]), Some((8, 0)));
    assert_eq!(refused(&[SITE_1, SITE_1]), Some((8, 1)));
    assert_eq!(refused(&[SITE_1, COST_1, SITE_1]), Some((8, 2)));
    assert_eq!(refused(&[SITE_1, COST_1, SITE_2, RETURN]), None);
}

#[test]
fn a_place_is_file_line_and_column_together() {
    let others = ["0100020000000a00010006", "0100020000000a00020005", "0100020000000b00010005"];
    for other in others {
        assert_eq!(refused(&[SITE_1, other, RETURN]), None);
    }
}

#[test]
fn the_checks_before_the_lines_run_in_their_order() {
    let refused = |chars: &[u8], limits: Limits, lent: &Lent| Second::new().profile(chars, limits, lent).err();
    let (short, long) = (vec![b'z'; 22], vec![b'z'; 23 * 65_537]);
    let none = Lent { scratch: 0, rows: 0, answer: 0, marks: None };
    for limits in [Limits { depth: 0, sites: 0 }, Limits { depth: 65, sites: 0 }, Limits { depth: 1, sites: 256 }] {
        assert_eq!(refused(&short, limits, &none), Some(Ground::Limits.at(0)));
    }
    let limits = Limits { depth: 64, sites: 255 };
    assert_eq!(refused(&short, limits, &none), Some(Ground::Length.at(0)));
    assert_eq!(refused(&long, limits, &none), Some(Ground::Lines.at(0)));
    assert_eq!(refused(&long[..23], limits, &none), Some(Ground::Room.at(0)));
}

#[test]
fn room_may_be_just_enough_and_not_one_less() {
    let limits = Limits { depth: 3, sites: 2 };
    let trace = Trace::from_events(2, "call 1 {spawn 2 {7}, 1}, 2");
    let refused = |lent: Lent| Second::new().profile(&trace.chars, limits, &lent).err();
    let tables = Lent { scratch: 7 * 3 * 5, rows: 21, answer: 4, marks: None };
    let marks = Lent { scratch: 8 * 3, rows: 21, answer: 4, marks: Some(10) };
    for just in [tables, marks] {
        assert_eq!(refused(just), None);
        assert_eq!(refused(Lent { scratch: just.scratch - 1, ..just }), Some(Ground::Room.at(0)));
        assert_eq!(refused(Lent { rows: 20, ..just }), Some(Ground::Room.at(0)));
        assert_eq!(refused(Lent { answer: 3, ..just }), Some(Ground::Room.at(0)));
    }
    assert_eq!(refused(Lent { marks: Some(9), ..marks }), Some(Ground::Room.at(0)));
}
