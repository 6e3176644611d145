//! Why a line is not on the span: what is said of each line by hand, the refusals in their order, and the laws of each answer.

use second::chain::{self, Chains};
use second::check::Limits;
use second::compare::case::{Case, Question};
use second::compare::fixed::TWELVE;
use second::compare::whys::{self, BY_HAND, LIMITS, REFUSED};
use second::compare::{broken, generate};
use second::graph;
use second::library::Second;
use second::line::CHARS;
use second::shape::Shape;
use second::trace::Trace;
use second::why::{Lent, Why};

/// Both ways to look for chains.
const WAYS: [fn(&Shape) -> Chains; 2] = [chain::search, graph::search];

/// What is said of a line in just the room that is needed: the answer and the marked lines, or the number and the line.
fn said(second: Second, trace: &[u8], line: u32) -> Result<(Why, Vec<usize>), (u64, u64)> {
    let told = second.why(trace, LIMITS, line, &LIMITS.for_why(trace.len() / CHARS));
    let (why, marks) = told.map_err(|refusal| (refusal.number(), refusal.line))?;
    assert_eq!(marks.len(), trace.len() / CHARS);
    Ok((why, (0..marks.len()).filter(|&line| marks[line] == 1).collect()))
}

#[test]
fn every_line_by_hand() {
    for asked in &BY_HAND {
        let trace = asked.trace();
        let lines = trace.len() / CHARS;
        for search in WAYS {
            for line in 0..lines {
                let by_hand = asked.costs.iter().find(|(number, ..)| *number == line);
                let right = by_hand.map_or((Why::NotCost, vec![]), |(_, why, marked)| (*why, marked.to_vec()));
                assert_eq!(said(Second { search }, &trace, line as u32), Ok(right), "{}, line {line}", asked.name);
            }
            for line in [lines as u32, lines as u32 + 1, 65_536, u32::MAX] {
                assert_eq!(said(Second { search }, &trace, line), Err((23, line.into())), "{}", asked.name);
            }
        }
    }
}

#[test]
fn the_first_twelve_are_those_of_the_rules() {
    for (asked, named) in BY_HAND.iter().zip(&TWELVE) {
        assert_eq!((asked.name, asked.trace()), (named.name, named.trace().chars));
    }
}

#[test]
fn the_refusals_of_01_come_first() {
    for (events, right) in REFUSED {
        let trace = Trace::from_events(2, events).chars;
        for line in [0, 2, 3, 100, u32::MAX] {
            assert_eq!(said(Second::new(), &trace, line), Err(right), "{events}, line {line}");
        }
    }
}

#[test]
fn short_room_is_refused_before_the_line() {
    let trace = BY_HAND[6].trace();
    let need = LIMITS.for_why(12);
    assert_eq!(need, Lent { scratch: 32, marks: 12, answer: 2 });
    let short = [
        Lent { scratch: 31, ..need },
        Lent { marks: 11, ..need },
        Lent { answer: 1, ..need },
        Lent { scratch: 0, marks: 0, answer: 0 },
    ];
    for lent in short {
        for line in [2, 12, u32::MAX] {
            let refused = Second::new().why(&trace, LIMITS, line, &lent).map_err(|refusal| refusal.number());
            assert_eq!(refused, Err(4), "{lent:?}");
            let limits = Limits { depth: 0, ..LIMITS };
            let refused = Second::new().why(&trace, limits, line, &lent).map_err(|refusal| refusal.number());
            assert_eq!(refused, Err(1), "{lent:?}");
        }
    }
}

#[test]
fn both_ways_keep_every_law() {
    let asks = |case: &Case| matches!(case.question, Question::Why { .. });
    let generated = || (0..10_000).map(|number| generate::case(1, number)).filter(asks);
    let short = || (0..=4).flat_map(generate::every).filter(asks);
    for second in [Second::by_paths(), Second::new()] {
        for case in whys::cases().into_iter().chain(short()).chain(generated()) {
            assert_eq!(broken(&case, &second), [""; 0], "{case}");
        }
    }
}
