//! The compactor of the second program: what is left of a trace, worked out by hand, and the laws of what is left.

use second::check::Limits;
use second::compact;
use second::compare::case::{Outcome, Question, STRIP};
use second::compare::{compacts, generate};
use second::library::Second;
use second::trace::{events, Trace};

fn left(trace: &Trace, limits: Limits) -> Trace {
    Trace { chars: compact::write(&trace.chars, limits, compact::Lent::ALL).expect("accepted") }
}

#[test]
fn what_is_left_is_as_worked_out_by_hand() {
    for case in compacts::BY_HAND {
        let found = left(&Trace::from_events(2, case.events), compacts::LIMITS);
        assert_eq!(events(&found.chars).as_deref(), Some(case.left), "{}", case.name);
        assert_eq!(found, Trace::from_events(2, case.left), "{}", case.name);
    }
}

#[test]
fn what_is_left_of_the_longest_traces() {
    for case in compacts::long() {
        assert_eq!(case.trace.lines(), 65_536, "{}", case.name);
        assert!(left(&case.trace, compacts::LIMITS) == case.left, "{}", case.name);
    }
}

/// The laws that an outcome says of a compacted trace, all of which hold.
fn laws_held(outcome: &Outcome) -> usize {
    let laws = outcome.numbers.iter().filter(|room| room.name != "count of characters");
    laws.map(|law| assert_eq!(law.all[STRIP], 1, "{}", law.name)).count()
}

#[test]
fn every_law_holds_of_the_traces_by_hand() {
    let held = compacts::cases().iter().map(|case| laws_held(&case.ask(&Second::by_paths()))).sum::<usize>();
    // Six laws in two of the six rooms.
    assert_eq!(held, 6 * 2 * (compacts::BY_HAND.len() + compacts::long().len()));
}

#[test]
fn every_law_holds_of_short_traces_and_of_generated_ones() {
    let short = (0..=5).flat_map(generate::every);
    let generated = (0..30_000).map(|number| generate::case(5, number));
    let compacts = short.chain(generated).filter(|case| matches!(case.question, Question::Compact { .. }));
    let held = compacts.map(|case| laws_held(&case.ask(&Second::by_paths()))).sum::<usize>();
    assert!(held > 6 * 2_000, "{held}");
}
