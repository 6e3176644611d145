//! One cost raised or lowered: what it does to the span, worked out by hand, and the laws of it.

use second::chain::{self, Chains};
use second::check;
use second::compare::case::{Case, Question, Spare};
use second::compare::fixed::{TWELVE, TWELVE_LIMITS};
use second::compare::moves::{self, costs, rewritten, BY_HAND, LIMITS, STANDING};
use second::compare::{broken, generate};
use second::graph;
use second::heaviest::{stands_on_some, through};
use second::library::Second;
use second::shape::Shape;
use second::trace::Trace;

/// Both ways to look for chains.
const WAYS: [fn(&Shape) -> Chains; 2] = [chain::search, graph::search];

/// The shape of an accepted trace.
fn shape(trace: &[u8]) -> Shape {
    check::trace(trace, LIMITS, &LIMITS.for_tables()).expect("accepted")
}

#[test]
fn the_moves_by_hand() {
    for moved in &BY_HAND {
        let trace = Trace::from_events(2, moved.events).chars;
        let text = rewritten(&Second::new(), &trace, moved.cost, moved.value);
        for search in WAYS {
            let spans = [&trace, &text].map(|trace| search(&shape(trace)).spans[0]);
            assert_eq!(spans, moved.spans, "{}", moved.name);
        }
    }
}

#[test]
fn which_costs_of_the_twelve_stand_on_some_heaviest_chain() {
    for (case, (name, standing)) in TWELVE.iter().zip(STANDING) {
        assert_eq!((case.name, TWELVE_LIMITS), (name, LIMITS));
        let shape = shape(&case.trace().chars);
        for search in WAYS {
            let found: Vec<bool> =
                shape.cost_lines().iter().map(|&line| stands_on_some(&shape, line, search)).collect();
            assert_eq!(found, standing, "{name}");
        }
    }
}

#[test]
fn the_heaviest_chains_through_the_lines_of_g() {
    let g = shape(&Trace::from_events(2, "1, spawn 1 {10}, 2, spawn 2 {8}, 1").chars);
    let weights: Vec<u64> = g.cost_lines().iter().map(|&line| through(&g, line, chain::search).weight).collect();
    assert_eq!(weights, [11, 11, 11, 11, 4]);
}

#[test]
fn one_line_is_rewritten_and_capitals_elsewhere_stay() {
    let mut trace = Trace::from_events(2, "171, spawn 1 {172}, 173").chars;
    trace.make_ascii_uppercase();
    let text = rewritten(&Second::new(), &trace, 1, 174);
    let line = 23 * costs(&trace)[1].0;
    assert_eq!(&text[line..line + 23], b"060000000000ae00000000\n");
    assert_eq!((&text[..line], &text[line + 23..]), (&trace[..line], &trace[line + 23..]));
}

/// The cases that move a cost, of every trace with so many lines behind a site line: each cost to each of the values 1 to 4.
fn every_move(lines: u32) -> impl Iterator<Item = Case> {
    let engines = |case: Case| match case.question {
        Question::Engines { trace, limits, .. } => Some((trace, limits)),
        _ => None,
    };
    generate::every(lines).filter_map(engines).flat_map(|(trace, limits)| {
        let moves = (0..costs(&trace).len()).flat_map(|cost| (1..5).map(move |value| (cost, value)));
        let of =
            move |(cost, value)| Question::Moved { trace: trace.clone(), limits, cost, value, spare: Spare::default() };
        moves.map(of).map(|question| Case { question, rubbish: 1 }).collect::<Vec<_>>()
    })
}

/// The laws of moves that a stand-in breaks on some of the cases by hand, the short ones and the generated ones.
fn broken_by(search: fn(&Shape) -> Chains) -> Vec<&'static str> {
    let is_move = |case: &Case| matches!(case.question, Question::Moved { .. });
    let generated = (0..10_000).map(|number| generate::case(1, number)).filter(is_move);
    let cases = moves::cases().into_iter().chain((0..=4).flat_map(every_move)).chain(generated);
    let mut broken: Vec<_> = cases.flat_map(|case| broken(&case, &Second { search })).collect();
    broken.sort_unstable();
    broken.dedup();
    broken
}

#[test]
fn both_ways_keep_every_law() {
    assert_eq!(broken_by(graph::search), [""; 0]);
    assert_eq!(broken_by(Second::new().search), [""; 0]);
}

/// A search whose total span is something else.
fn with_span(shape: &Shape, span: fn(u64) -> u64) -> Chains {
    let mut chains = graph::search(shape);
    chains.spans[0] = span(chains.spans[0]);
    chains
}

const NEVER_FALLS: &str = "the span never falls where a cost is raised";
const AT_MOST: &str = "the span grows by at most as much as a cost";
const EXACTLY: &str = "the span grows by as much as a cost if and only if that stands on some heaviest chain";
const CHOSEN: &str = "a cost on the chosen chain moves the span by as much";

#[test]
fn a_span_that_falls() {
    let broken = broken_by(|shape| with_span(shape, |span| (1 << 60) - span));
    assert_eq!(broken, [CHOSEN, EXACTLY, NEVER_FALLS]);
}

#[test]
fn a_span_twice_as_long() {
    assert_eq!(broken_by(|shape| with_span(shape, |span| 2 * span)), [CHOSEN, EXACTLY, AT_MOST]);
}

#[test]
fn a_span_that_never_moves() {
    assert_eq!(broken_by(|shape| with_span(shape, |_| 1)), [CHOSEN, EXACTLY]);
}

#[test]
fn a_span_that_every_cost_moves() {
    let search = |shape: &Shape| {
        let mut chains = graph::search(shape);
        chains.spans[0] = shape.work(0..shape.lines.len());
        chains
    };
    assert_eq!(broken_by(search), [EXACTLY]);
}

/// What the generated moves of accepted traces have to show: a cost on the chosen chain raised; one on another heaviest chain;
/// one on none that moves the span by less than itself; one that does not move it; a lowered cost that lowers the span; one
/// that does not.
#[test]
fn costs_move_the_span_in_every_way() {
    let mut times = [0; 6];
    for number in 0..40_000 {
        let Question::Moved { trace, limits, cost, value, .. } = generate::case(1, number).question else { continue };
        let profile = |trace: &[u8]| {
            let profile = Second::by_paths().profile(trace, limits, &limits.for_tables()).ok()?;
            Some((profile.answer[1], profile.marks))
        };
        let Some(&(line, old)) = costs(&trace).get(cost) else { continue };
        let Some((span, marks)) = profile(&trace) else { continue };
        let (now, _) = profile(&rewritten(&Second::new(), &trace, cost, value)).expect("accepted");
        let (raised, grown) = (value > old, now.saturating_sub(span));
        let exactly = raised && grown == value - old;
        let shown = [
            exactly && marks[line] == 1,
            exactly && marks[line] == 0,
            raised && grown > 0 && !exactly,
            raised && grown == 0,
            value < old && now < span,
            value < old && now == span,
        ];
        times.iter_mut().zip(shown).for_each(|(times, shown)| *times += u32::from(shown));
    }
    println!("{times:?}");
    assert!(times.iter().all(|&times| times >= 20), "{times:?}");
}
