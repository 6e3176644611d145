//! Traces with site lines on the way, each number worked out by hand, in both ways of the second program.

use second::check::Limits;
use second::compact;
use second::compare::on_the_way::{traces, COMPACTED, LIMITS};
use second::compare::rng::Rng;
use second::compare::{shapes, sites};
use second::folded;
use second::forecast::Entry;
use second::library::Second;
use second::rows::{all_cycles_alone, Row};
use second::trace::Trace;

/// Both ways, by pairs where the trace is short enough for it.
fn ways() -> [Second; 2] {
    [Second::new(), Second::by_paths()]
}

#[test]
fn answer_rows_and_marks_or_the_refusal_are_as_worked_out_by_hand() {
    for case in traces() {
        for second in ways() {
            assert_eq!(case.by(&second), case.given, "{}", case.name);
        }
    }
}

#[test]
fn what_the_compactor_leaves_is_as_worked_out_by_hand() {
    for case in COMPACTED {
        let left = |events| compact::write(&Trace::from_events(0, events).chars, LIMITS, compact::Lent::ALL);
        let right = Trace::from_events(0, case.left).chars;
        assert_eq!(left(case.events).as_ref(), Ok(&right), "{}", case.name);
        assert_eq!(left(case.left), Ok(right), "{}", case.name);
    }
}

/// Site 2 is declared in site 1's body and never called: 4 beside 3.
const TWO: &str = "site 1, spawn 1 {site 2, 4}, 3";

#[test]
fn a_site_declared_on_the_way_needs_a_name() {
    let of = |list: &[u8]| {
        folded::write(&Trace::from_events(0, TWO).chars, LIMITS, [list, b""], folded::Lent::ALL)
            .map_err(|refusal| (refusal.number(), refusal.line))
    };
    assert_eq!(of(b"main\nload\ndecode").as_deref(), Ok("main;load 4\nmain 3\n"));
    assert_eq!(of(b"main\nload"), Err((17, 2)));
}

#[test]
fn a_site_declared_on_the_way_may_be_forecast() {
    let of = |row| -> Result<Vec<Row>, (u64, u64)> {
        let (trace, lent) = (Trace::from_events(0, TWO).chars, LIMITS.for_tables());
        let given = Second::new().forecast(&trace, LIMITS, &[Entry { row, factor: 2 }], &lent);
        given.map(|profile| profile.rows).map_err(|refusal| (refusal.number(), refusal.line))
    };
    // 3 by 2 is 2, beside 4; 4 by 2 is 2, beside 3.
    assert_eq!(of(0), Ok(all_cycles_alone(&[[1, 6, 4, 2, 0], [1, 4, 4, 4, 4], [0; 5]])));
    assert_eq!(of(1), Ok(all_cycles_alone(&[[1, 5, 3, 3, 3], [1, 2, 2, 2, 0], [0; 5]])));
    assert_eq!(of(2), Ok(all_cycles_alone(&[[1, 7, 4, 3, 0], [1, 4, 4, 4, 4], [0; 5]])));
    assert_eq!(of(3), Err((19, 0)));
}

/// "Site lines weigh nothing and join nothing": wherever they stand, the answer, the rows and the other lines' marks are the
/// same.
#[test]
fn where_site_lines_stand_changes_no_number() {
    let wide = Limits { depth: 64, sites: 255 };
    for number in 0..3_000 {
        let trace = shapes::trace(&mut Rng::of_case(8, number)).chars;
        let first = sites::moved(&trace, |first, _| first);
        let of = |trace: &[u8]| {
            let profile = Second::by_paths().profile(trace, wide, &wide.for_tables()).expect("a good trace");
            let lines =
                trace.chunks(23).zip(profile.marks).filter(|(line, mark)| !line.starts_with(b"01") || *mark > 0);
            (profile.answer, profile.rows, lines.map(|(line, mark)| (line.to_vec(), mark)).collect::<Vec<_>>())
        };
        assert_eq!(of(&trace), of(&first));
    }
}
