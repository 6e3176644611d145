//! Both ways of the second program against the definitions themselves, on generated traces that are short enough.

use second::chain::{self, Chains};
use second::check::{self, Limits};
use second::compare::rng::Rng;
use second::compare::{shapes, whys};
use second::graph::{self, Graph};
use second::heaviest::stands_on_some;
use second::line::Kind;
use second::rows::{profile, Row, CALLS, ILOCAL, ION_SPAN, LOCAL, ON_SPAN, SPAN, WORK};
use second::shape::{Invocation, Shape};
use second::why::{why, Why};
use std::cmp::Reverse;
use std::ops::Range;

const LIMITS: Limits = Limits { depth: 64, sites: 255 };

/// The shapes of generated traces with at most so many cost lines.
fn some(seed: u64, count: u64, costs: usize) -> impl Iterator<Item = Shape> {
    let shape = move |case| {
        let trace = shapes::trace(&mut Rng::of_case(seed, case));
        check::trace(&trace.chars, LIMITS, &LIMITS.for_tables()).expect("a good trace")
    };
    (0..count).map(shape).filter(move |shape| shape.cost_lines().len() <= costs)
}

/// "A chain is a set of cost lines, each two of them in series; the empty set is one."
fn is_chain(shape: &Shape, lines: &[usize]) -> bool {
    lines.iter().enumerate().all(|(n, &i)| lines[n + 1..].iter().all(|&j| shape.series(i, j)))
}

/// Every chain of lines in a range, each ascending.
fn all_chains(shape: &Shape, range: Range<usize>) -> Vec<Vec<usize>> {
    let costs: Vec<usize> = shape.cost_lines().into_iter().filter(|line| range.contains(line)).collect();
    let subset = |set: u32| (0..costs.len()).filter(|n| set >> n & 1 == 1).map(|n| costs[n]).collect::<Vec<_>>();
    (0..1 << costs.len()).map(subset).filter(|lines| is_chain(shape, lines)).collect()
}

/// "Its weight is the sum of its values."
fn weight(shape: &Shape, lines: &[usize]) -> u64 {
    lines.iter().map(|&line| shape.lines[line].value).sum()
}

/// The spans and the chosen chain by trying every set of cost lines.
fn by_sets(shape: &Shape) -> Chains {
    let span = |range| all_chains(shape, range).iter().map(|lines| weight(shape, lines)).max().unwrap_or(0);
    let spans = shape.invocations.iter().map(|invocation| span(invocation.range())).collect();
    let chains = all_chains(shape, 0..shape.lines.len());
    let chosen = chains.into_iter().min_by_key(|lines| (Reverse(weight(shape, lines)), lines.clone()));
    Chains { spans, chosen: chosen.unwrap_or_default() }
}

#[test]
fn both_ways_find_what_trying_every_set_finds() {
    let mut tried = 0;
    for shape in some(1, 3000, 8) {
        let right = by_sets(&shape);
        assert_eq!(chain::search(&shape), right);
        assert_eq!(graph::search(&shape), right);
        tried += 1;
    }
    assert!(tried > 1000, "only {tried} traces were short enough");
}

#[test]
fn a_line_stands_on_some_heaviest_chain_where_trying_every_set_finds_one() {
    let (mut tried, mut tied) = (0, 0);
    for shape in some(8, 3000, 8) {
        let span = chain::search(&shape).spans[0];
        let mut heaviest = all_chains(&shape, 0..shape.lines.len());
        heaviest.retain(|lines| weight(&shape, lines) == span);
        for line in shape.cost_lines() {
            let right = heaviest.iter().any(|lines| lines.contains(&line));
            assert_eq!(stands_on_some(&shape, line, chain::search), right);
            assert_eq!(stands_on_some(&shape, line, graph::search), right);
            tried += 1;
        }
        tied += u32::from(heaviest.len() > 1);
    }
    assert!(tried > 1000 && tied > 50, "only {tried} lines, and {tied} traces with more than one heaviest chain");
}

/// The shapes of generated traces with branches of the same weight that have at most so many cost lines.
fn some_balanced(seed: u64, count: u64, costs: usize) -> impl Iterator<Item = Shape> {
    let shape = move |case| {
        let (trace, limits, _) = whys::balanced(&mut Rng::of_case(seed, case));
        check::trace(&trace, limits, &limits.for_tables()).ok()
    };
    (0..count).filter_map(shape).filter(move |shape| shape.cost_lines().len() <= costs)
}

/// Why a line is not on the span, and the lines that are marked, by trying every set of cost lines.
fn why_by_sets(shape: &Shape, line: usize) -> (Why, Vec<usize>) {
    let all = all_chains(shape, 0..shape.lines.len());
    let first_of = |chains: Vec<&Vec<usize>>| {
        chains.into_iter().min_by_key(|lines| (Reverse(weight(shape, lines)), lines.to_vec())).cloned()
    };
    let chosen = first_of(all.iter().collect()).expect("the empty chain");
    let Some(through) = first_of(all.iter().filter(|lines| lines.contains(&line)).collect()) else {
        return (Why::NotCost, vec![]);
    };
    let less = weight(shape, &chosen) - weight(shape, &through);
    match chosen.iter().find(|other| !through.contains(other)) {
        _ if chosen.contains(&line) => (Why::OnChain, chosen),
        Some(&other) if less == 0 => (Why::Tied(other), through),
        _ => (Why::Slack(less), through),
    }
}

#[test]
fn every_line_is_answered_as_trying_every_set_answers() {
    let mut times = [0; 4];
    for shape in some(10, 3000, 8).chain(some_balanced(10, 3000, 8)) {
        for line in 0..shape.lines.len() {
            let right = why_by_sets(&shape, line);
            assert_eq!(why(&shape, line, chain::search), right);
            assert_eq!(why(&shape, line, graph::search), right);
            times[right.0.numbers()[0] as usize] += 1;
        }
    }
    assert!(times.iter().all(|&times| times > 200), "{times:?}");
}

#[test]
fn in_series_with_a_line_is_a_path_over_both() {
    for shape in some(11, 1000, 40) {
        let (graph, costs) = (Graph::new(&shape), shape.cost_lines());
        for &line in &costs {
            let found = graph.in_series_with(line);
            costs.iter().for_each(|&other| assert_eq!(found[other], shape.series(line.min(other), line.max(other))));
        }
    }
}

#[test]
fn the_two_ways_answer_alike_on_longer_traces() {
    for shape in some(12, 1000, 60).filter(|shape| shape.lines.len() <= 150) {
        for line in 0..shape.lines.len() {
            assert_eq!(why(&shape, line, chain::search), why(&shape, line, graph::search));
        }
    }
}

#[test]
fn the_two_ways_agree_on_longer_traces() {
    for shape in some(2, 3000, 150) {
        assert_eq!(chain::search(&shape), graph::search(&shape));
    }
}

#[test]
fn series_is_transitive() {
    for shape in some(3, 1000, 25) {
        let costs = shape.cost_lines();
        for (n, &i) in costs.iter().enumerate() {
            for (m, &j) in costs.iter().enumerate().skip(n + 1).filter(|(_, &j)| shape.series(i, j)) {
                assert!(costs[m + 1..].iter().all(|&k| !shape.series(j, k) || shape.series(i, k)));
            }
        }
    }
}

/// The points that can be reached from a point, itself included.
fn reached(graph: &Graph, from: usize, end: usize) -> Vec<bool> {
    let mut reached = vec![false; end + 1];
    reached[from] = true;
    for point in from..end {
        if reached[point] {
            graph.following(point).for_each(|to| reached[to] = true);
        }
    }
    reached
}

#[test]
fn series_is_a_path_in_the_graph() {
    for shape in some(4, 1000, 40) {
        let graph = Graph::new(&shape);
        let costs = shape.cost_lines();
        for (n, &i) in costs.iter().enumerate() {
            let reached = reached(&graph, i + 1, shape.lines.len());
            costs[n + 1..].iter().for_each(|&j| assert_eq!(shape.series(i, j), reached[j]));
        }
    }
}

#[test]
fn column_4_adds_up_to_the_total_work_and_column_5_to_the_total_span() {
    for shape in some(5, 1000, usize::MAX) {
        let profile = profile(&shape, &graph::search(&shape));
        let column = |n: usize| profile.rows.iter().map(|row| row[n]).sum::<u64>();
        assert_eq!([column(LOCAL), column(ON_SPAN)], profile.answer[..2]);
        assert_eq!(profile.rows[0][..3], [1, profile.answer[0], profile.answer[1]]);
    }
}

#[test]
fn column_6_adds_up_to_all_07_lines_and_column_7_to_those_behind_the_chosen_chain() {
    let mut carried = 0;
    for shape in some(9, 1000, usize::MAX) {
        let chains = graph::search(&shape);
        let profile = profile(&shape, &chains);
        let column = |n: usize| profile.rows.iter().map(|row| row[n]).sum::<u64>();
        let value = |line: &usize| {
            Some(shape.lines[*line]).filter(|line| line.kind == Kind::Instructions).map(|line| line.value)
        };
        let all: u64 = (0..shape.lines.len()).filter_map(|line| value(&line)).sum();
        let behind: u64 = chains.chosen.iter().filter_map(|line| value(&(line + 1))).sum();
        assert_eq!([column(ILOCAL), column(ION_SPAN)], [all, behind]);
        assert!(profile.rows.iter().all(|row| row[ION_SPAN] <= row[ILOCAL] && row[ILOCAL] < 1 << 54));
        carried += u32::from(behind > 0 && behind < all);
    }
    assert!(carried > 50, "only {carried} traces have instructions on the span and off it");
}

/// Whether the lines of one invocation stand among those of another.
fn encloses(around: &Invocation, own: &Invocation) -> bool {
    around.first < own.first && own.last <= around.last
}

/// How many invocations count, and the sums of their work and of their spans.
fn over(shape: &Shape, spans: &[u64], counts: impl Fn(&Invocation) -> bool) -> [u64; 3] {
    let mut sums = [0; 3];
    for (own, span) in shape.invocations.iter().zip(spans).filter(|(own, _)| counts(own)) {
        sums = [sums[0] + 1, sums[1] + shape.work(own.range()), sums[2] + span];
    }
    sums
}

#[test]
fn columns_2_and_3_are_over_those_that_no_other_of_the_row_encloses() {
    let mut enclosed = 0;
    for shape in some(6, 1000, usize::MAX).filter(|shape| shape.invocations.len() < 300) {
        let chains = graph::search(&shape);
        let all = &shape.invocations;
        for (number, row) in profile(&shape, &chains).rows.iter().enumerate() {
            let free = |own: &Invocation| !all.iter().any(|other| other.row == own.row && encloses(other, own));
            let of_row = over(&shape, &chains.spans, |own| own.row == number);
            let outer = over(&shape, &chains.spans, |own| own.row == number && free(own));
            assert_eq!([row[CALLS], row[WORK], row[SPAN]], [of_row[0], outer[1], outer[2]]);
            enclosed += u32::from(of_row != outer);
        }
    }
    assert!(enclosed > 100, "only {enclosed} rows have an enclosed invocation");
}

#[test]
fn no_row_is_above_the_total_work_and_on_span_is_not_above_local_nor_local_above_work() {
    for shape in some(7, 1000, usize::MAX) {
        let profile = profile(&shape, &graph::search(&shape));
        let holds = |row: &Row| row[WORK] <= profile.answer[0] && row[SPAN] <= row[WORK] && row[LOCAL] <= row[WORK];
        assert!(profile.rows.iter().all(|row| holds(row) && row[ON_SPAN] <= row[LOCAL]));
    }
}
