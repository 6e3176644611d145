//! Traces of asyncs and finishes: the twelve by hand, every short trace and generated ones against the definitions, the
//! tie to traces of spawns and syncs, and wrong rules that the comparison tells apart.

use second::chain::{self, Chains};
use second::check::{self, Limits};
use second::compare::case::{Case, Question, Spare};
use second::compare::fixed::{TWELVE, TWELVE_LIMITS};
use second::compare::rng::Rng;
use second::compare::tie::{self, tied, Tied};
use second::compare::{compare, finishes, generate, shapes};
use second::graph::{self, Graph};
use second::library::{Library, Second};
use second::line::{Family, Kind, CHARS};
use second::rows::{profile, CALLS, LOCAL, ON_SPAN, SPAN, WORK};
use second::shape::{Finish, Invocation, Shape, Start};
use second::trace::{events, Trace};
use std::cmp::{Ordering, Reverse};
use std::collections::BTreeMap;
use std::ops::Range;

const WIDE: Limits = Limits { depth: 64, sites: 255 };

/// The shape of a trace of the family, if it is accepted.
fn shape_of(trace: &[u8]) -> Option<Shape> {
    check::trace_of(Family::Finishes, trace, WIDE, &WIDE.for_tables()).ok()
}

#[test]
fn the_twelve() {
    for case in finishes::twelve() {
        let (trace, limits) = (case.trace().chars, case.limits());
        for search in [chain::search, graph::search] {
            let found = Second { search }.profile_of(Family::Finishes, &trace, limits, &limits.for_tables());
            let found = found.expect(case.name);
            let lines = (trace.len() / CHARS) as u64;
            assert_eq!(found.rows, case.rows, "{}", case.name);
            assert_eq!(found.answer, [case.rows[0][WORK], case.rows[0][SPAN], 2, lines], "{}", case.name);
        }
    }
}

#[test]
fn the_twelve_add_up() {
    for case in finishes::twelve() {
        let column = |n: usize| case.rows.iter().map(|row| row[n]).sum::<u64>();
        assert_eq!([column(LOCAL), column(ON_SPAN)], [case.rows[0][WORK], case.rows[0][SPAN]], "{}", case.name);
    }
}

#[test]
fn the_refused() {
    for case in finishes::refused() {
        let lent = case.limits.for_tables();
        let found = Second::new().profile_of(Family::Finishes, &case.trace.chars, case.limits, &lent);
        assert_eq!(found.err(), Some(case.refusal), "{}", case.name);
    }
}

#[test]
fn a_trace_of_one_family_is_none_of_the_other() {
    let limits = Limits { depth: 64, sites: 2 };
    let refused = |family, trace: &Trace| {
        let profile = Second::new().profile_of(family, &trace.chars, limits, &limits.for_tables());
        profile.err().map(|refusal| (refusal.number(), refusal.line))
    };
    for case in finishes::twelve().iter().filter(|case| case.events.contains(['a', 'f'])) {
        let first = case.trace().chars.chunks(CHARS).position(|line| line.starts_with(b"1")).map(|line| line as u64);
        let expected = first.map(|line| (6, line));
        assert_eq!(refused(Family::Base, &case.trace()), expected, "{}", case.name);
    }
    for case in TWELVE.iter().filter(|case| case.events.contains('s') && case.events.contains('{')) {
        let other = |line: &[u8]| line.starts_with(b"03") || line.starts_with(b"04");
        let first = case.trace().chars.chunks(CHARS).position(other).map(|line| (6, line as u64));
        assert_eq!(refused(Family::Finishes, &case.trace()), first, "{}", case.name);
    }
}

/// "A chain is a set of cost lines, each two of them in series; the empty set is one": every one of lines in a range.
fn all_chains(shape: &Shape, range: Range<usize>) -> Vec<Vec<usize>> {
    let costs: Vec<usize> = shape.cost_lines().into_iter().filter(|line| range.contains(line)).collect();
    let subset = |set: u32| (0..costs.len()).filter(|n| set >> n & 1 == 1).map(|n| costs[n]).collect::<Vec<_>>();
    let is_chain = |lines: &Vec<usize>| {
        let mut pairs = lines.iter().enumerate().flat_map(|(n, &i)| lines[n + 1..].iter().map(move |&j| (i, j)));
        pairs.all(|(i, j)| shape.series(i, j))
    };
    (0..1 << costs.len()).map(subset).filter(is_chain).collect()
}

/// The spans and the chosen chain by trying every set of cost lines.
fn by_sets(shape: &Shape) -> Chains {
    let weight = |lines: &Vec<usize>| lines.iter().map(|&line| shape.lines[line].value).sum::<u64>();
    let span = |own: &Invocation| all_chains(shape, own.range()).iter().map(weight).max().unwrap_or(0);
    let chains = all_chains(shape, 0..shape.lines.len());
    let chosen = chains.into_iter().min_by_key(|lines| (Reverse(weight(lines)), lines.clone()));
    Chains { spans: shape.invocations.iter().map(span).collect(), chosen: chosen.unwrap_or_default() }
}

/// The accepted traces of the family among all of so many lines after a site line.
fn every(lines: u32) -> impl Iterator<Item = Shape> {
    generate::every(lines).filter_map(|case| match case.question {
        Question::Engines { family: Family::Finishes, trace, .. } => shape_of(&trace),
        _ => None,
    })
}

#[test]
fn both_ways_find_what_trying_every_set_finds_on_every_short_trace() {
    let mut tried = 0;
    for shape in (0..=6).flat_map(every) {
        let right = by_sets(&shape);
        assert_eq!(chain::search(&shape), right);
        assert_eq!(graph::search(&shape), right);
        tried += 1;
    }
    assert!(tried > 1_000, "only {tried} traces are accepted");
}

/// The shapes of generated traces with at most so many cost lines.
fn some(seed: u64, count: u64, costs: usize) -> impl Iterator<Item = Shape> {
    let shape = move |case| {
        let trace = shapes::trace_of(Family::Finishes, &mut Rng::of_case(seed, case));
        shape_of(&trace.chars).expect("a good trace")
    };
    (0..count).map(shape).filter(move |shape| shape.cost_lines().len() <= costs)
}

#[test]
fn both_ways_find_what_trying_every_set_finds() {
    let (mut tried, mut deep) = (0, 0);
    for shape in some(1, 5_000, 8) {
        let right = by_sets(&shape);
        assert_eq!(chain::search(&shape), right);
        assert_eq!(graph::search(&shape), right);
        tried += 1;
        deep += u32::from(shape.finishes.len() > 1 && shape.invocations.len() > 3);
    }
    assert!(tried > 2_000 && deep > 500, "only {tried} traces, and {deep} with finishes and invocations");
}

#[test]
fn the_two_ways_agree_on_longer_traces() {
    for shape in some(2, 3_000, 150) {
        assert_eq!(chain::search(&shape), graph::search(&shape));
    }
}

#[test]
fn series_is_transitive_and_a_path_in_the_graph() {
    for shape in some(3, 1_500, 25) {
        let (graph, costs) = (Graph::new(&shape), shape.cost_lines());
        for (n, &i) in costs.iter().enumerate() {
            let found = graph.in_series_with(i);
            costs[n + 1..].iter().for_each(|&j| assert_eq!(found[j], shape.series(i, j)));
            for (m, &j) in costs.iter().enumerate().skip(n + 1).filter(|(_, &j)| shape.series(i, j)) {
                assert!(costs[m + 1..].iter().all(|&k| !shape.series(j, k) || shape.series(i, k)));
            }
        }
    }
}

#[test]
fn the_columns_add_up_and_a_finish_makes_no_row_and_no_call() {
    for shape in some(4, 1_500, usize::MAX) {
        let profile = profile(&shape, &graph::search(&shape));
        let column = |n: usize| profile.rows.iter().map(|row| row[n]).sum::<u64>();
        let makers = shape.lines.iter().filter(|line| line.kind.makes()).count() as u64;
        assert_eq!([column(LOCAL), column(ON_SPAN)], profile.answer[..2]);
        assert_eq!([column(CALLS), profile.rows.len() as u64], [makers + 1, shape.sites as u64 + 1]);
        assert!(profile.rows.iter().all(|row| row[SPAN] <= row[WORK] && row[WORK] <= profile.answer[0]));
    }
}

#[test]
fn the_nearest_finish_is_the_innermost_open_one() {
    for shape in some(5, 1_000, 40) {
        let mut open: Vec<(bool, usize)> = vec![(true, 0)];
        for (number, line) in shape.lines.iter().enumerate() {
            if line.kind == Kind::Async {
                let &(_, first) = open.iter().rfind(|(finish, _)| *finish).expect("the root");
                let own = shape.invocations.iter().find(|own| own.first == number + 1).expect("an invocation");
                let joined = Graph::new(&shape).following(own.last).next().expect("a join");
                let end = shape.finishes.iter().find(|finish| finish.first == first);
                assert_eq!(joined, end.map_or(shape.lines.len() - 1, |finish| finish.last));
            }
            if line.kind.opens() {
                open.push((line.kind == Kind::Finish, number + 1));
            } else if line.kind == Kind::Return {
                open.pop();
            }
        }
    }
}

/// A trace of the base family as a case.
fn base(trace: &Trace, limits: Limits) -> Case {
    let question =
        Question::Engines { family: Family::Base, trace: trace.chars.clone(), limits, spare: Spare::default() };
    Case { question, rubbish: 1 }
}

#[test]
fn the_rules_twelve_are_the_same_in_the_words_of_the_other_family() {
    for case in TWELVE {
        let Tied::Text(text) = tied(&case.trace().chars) else { panic!("{}", case.name) };
        let shape = shape_of(&text).expect(case.name);
        let found = profile(&shape, &chain::search(&shape));
        assert_eq!(found.answer[..2], [case.work, case.span], "{}", case.name);
        let on_span: Vec<u64> = found.rows.iter().map(|row| row[ON_SPAN]).collect();
        assert_eq!(on_span, case.on_span, "{}", case.name);
        assert_eq!(tie::broken(&base(&case.trace(), TWELVE_LIMITS), &Second::new()), [""; 0], "{}", case.name);
    }
}

#[test]
fn so_are_every_short_trace_and_generated_ones() {
    let mut tally = tie::Tally::default();
    let every = (0..=5).flat_map(generate::every);
    let generated = (0..3_000).map(|case| base(&shapes::trace(&mut Rng::of_case(6, case)), WIDE));
    for case in every.chain(generated).filter(|case| case.family() == Family::Base) {
        assert_eq!(tie::broken(&case, &Second::by_paths()), [""; 0], "{case}");
        tally.count(&case, &Second::by_paths());
    }
    println!("{tally}");
    assert!(tally.tied > 3_000 && tally.too_deep > 10 && tally.too_deep < tally.tied / 10, "{tally}");
}

/// Whether an async of an invocation is beside a later line.
type Rule = fn(&Shape, &Invocation, &Invocation, usize) -> bool;

/// A weight and the ascending lines that it comes from.
type Weighed = (u64, Vec<usize>);

/// Chains of the family under a rule of what is beside an async and a rule of which is chosen, grown from the first
/// line to the last; those of the base family as they are.
fn chains(shape: &Shape, rule: Rule, order: fn(&&Weighed, &&Weighed) -> Ordering) -> Chains {
    if shape.family == Family::Base {
        return graph::search(shape);
    }
    let parallel = |i: usize, j: usize| {
        let mut between = shape.invocations.iter().filter(|g| g.contains(i) && !g.contains(j));
        between.any(|g| matches!(g.start, Start::Spawned(f) if rule(shape, g, &shape.invocations[f], j)))
    };
    let heaviest = |own: &Invocation| {
        let mut best: Vec<Weighed> = vec![(0, vec![])];
        for line in shape.cost_lines().into_iter().filter(|&line| own.contains(line)) {
            let before = best.iter().filter(|(_, chain)| chain.iter().all(|&i| !parallel(i, line)));
            let (weight, chain) = before.max_by(order).expect("the empty chain");
            best.push((weight + shape.lines[line].value, [&chain[..], &[line]].concat()));
        }
        best.iter().max_by(order).cloned().expect("the empty chain")
    };
    let spans = shape.invocations.iter().map(|own| heaviest(own).0).collect();
    Chains { spans, chosen: heaviest(&shape.invocations[0]).1 }
}

/// The heaviest is chosen, and of equals the one that comes first.
fn first(a: &&Weighed, b: &&Weighed) -> Ordering {
    a.0.cmp(&b.0).then(b.1.cmp(&a.1))
}

/// The heaviest is chosen, and of equals the one that comes last.
fn later(a: &&Weighed, b: &&Weighed) -> Ordering {
    a.cmp(b)
}

/// The finishes around an async, the nearest first and the root last.
fn around<'a>(shape: &'a Shape, g: &'a Invocation) -> impl Iterator<Item = Finish> + 'a {
    let root = Finish { first: 0, last: shape.lines.len() - 1 };
    shape.finishes.iter().rev().filter(|finish| finish.contains(g.first)).cloned().chain([root])
}

fn by_the_nearest(shape: &Shape, g: &Invocation, _: &Invocation, j: usize) -> bool {
    around(shape, g).next().is_some_and(|finish| finish.contains(j))
}

fn by_the_next_but_one(shape: &Shape, g: &Invocation, _: &Invocation, j: usize) -> bool {
    around(shape, g).take(2).last().is_some_and(|finish| finish.contains(j))
}

fn by_the_maker_too(shape: &Shape, g: &Invocation, f: &Invocation, j: usize) -> bool {
    by_the_nearest(shape, g, f, j) && f.contains(j)
}

/// The span under a rule of one of the twelve.
fn span_of(name: &str, rule: Rule) -> u64 {
    let case = finishes::twelve().into_iter().find(|case| case.name == name).expect("one of the twelve");
    chains(&shape_of(&case.trace().chars).expect("accepted"), rule, first).spans[0]
}

/// The events that the first difference among generated cases of the family shrinks to.
fn smallest_events(wrong: &dyn Library) -> String {
    let short = |case: &Case| match &case.question {
        Question::Engines { family: Family::Finishes, trace, .. } => trace.len() <= 60 * CHARS,
        _ => false,
    };
    let mut cases = (0..30_000).map(|number| generate::case(1, number)).filter(short);
    let found = cases.find_map(|case| compare(&case, &Second::new(), &[("the stand-in", wrong)]));
    match found.expect("a difference").case.question {
        Question::Engines { trace, .. } => events(&trace).expect("good lines"),
        other => panic!("a difference on a trace, not on {other:?}"),
    }
}

#[test]
fn the_stand_in_with_the_right_rule_is_right() {
    let right = Second { search: |shape| chains(shape, by_the_nearest, first) };
    let short = |case: &Case| match &case.question {
        Question::Engines { family: Family::Finishes, trace, .. } => trace.len() <= 200 * CHARS,
        _ => false,
    };
    for case in (0..6_000).map(|number| generate::case(1, number)).filter(short) {
        assert!(compare(&case, &Second::new(), &[("the stand-in", &right)]).is_none(), "{case}");
    }
}

#[test]
fn letting_a_call_join() {
    assert_eq!(span_of("C", by_the_maker_too), 9);
    let wrong = Second { search: |shape| chains(shape, by_the_maker_too, first) };
    assert_eq!(smallest_events(&wrong), "call 1 {async 1 {1}}, 1");
}

#[test]
fn letting_a_finish_join_nothing() {
    assert_eq!(span_of("D", |_, _, _, _| true), 7);
    let wrong = Second { search: |shape| chains(shape, |_, _, _, _| true, first) };
    assert_eq!(smallest_events(&wrong), "finish {async 1 {1}}, 1");
}

#[test]
fn looking_past_the_nearest_finish() {
    assert_eq!(span_of("F", by_the_next_but_one), 5);
    let wrong = Second { search: |shape| chains(shape, by_the_next_but_one, first) };
    assert_eq!(smallest_events(&wrong), "finish {async 1 {1}}, 1");
}

#[test]
fn keeping_the_serial_path_on_equal_weight() {
    let wrong = Second { search: |shape| chains(shape, by_the_nearest, later) };
    assert_eq!(smallest_events(&wrong), "async 1 {1}, 1");
}

#[test]
fn every_verdict_is_reached() {
    let mut verdicts = BTreeMap::<u64, u32>::new();
    let cases = (0..40_000).map(|number| generate::case(1, number));
    for case in cases.filter(|case| matches!(case.question, Question::Engines { family: Family::Finishes, .. })) {
        for (_, code) in case.ask(&Second::by_paths()).codes {
            *verdicts.entry(code % 256).or_default() += 1;
        }
    }
    println!("{verdicts:?}");
    for verdict in [0, 1, 2, 4, 5, 6, 7, 8, 9, 10, 11, 12, 14, 22] {
        assert!(verdicts.get(&verdict).is_some_and(|&times| times >= 10), "{verdict}: {verdicts:?}");
    }
}

/// What accepted traces have to show: an async that a call does not join, one that a finish joins before something, a
/// cost directly in a finish of a row, a site inside itself through a finish, a tie that the serial path loses, and 32
/// open.
#[test]
fn generated_traces_show_what_the_family_has() {
    let mut times = [0; 6];
    for shape in some(7, 6_000, 60) {
        let costs = shape.cost_lines();
        let pairs = || costs.iter().enumerate().flat_map(|(n, &i)| costs[n + 1..].iter().map(move |&j| (i, j)));
        let asyncs = || shape.invocations.iter().filter(|own| matches!(own.start, Start::Spawned(_)));
        let called = |own: &Invocation| matches!(own.start, Start::Called(_));
        let escapes = |(i, j): (usize, usize)| {
            let left = |g: &Invocation| {
                shape.invocations.iter().any(|own| called(own) && own.contains(g.first) && !own.contains(j))
            };
            asyncs().any(|g| g.contains(i) && by_the_nearest(&shape, g, g, j) && left(g))
        };
        let joined =
            |(i, j): (usize, usize)| asyncs().any(|own| own.contains(i) && !own.contains(j)) && shape.series(i, j);
        let inside = |line: usize| {
            let own = shape.invocation_of(line);
            own.row > 0 && shape.finishes.iter().any(|finish| finish.contains(line) && finish.first > own.first)
        };
        let itself = |own: &Invocation| {
            let outer = shape.around(own).find(|outer| outer.row == own.row);
            outer.is_some_and(|outer| {
                shape.finishes.iter().any(|finish| finish.first > outer.first && finish.contains(own.first))
            })
        };
        let serial = Second { search: |shape| chains(shape, by_the_nearest, later) };
        let depth = (0..shape.lines.len()).map(|line| {
            let finishes = shape.finishes.iter().filter(|finish| finish.contains(line)).count();
            finishes + shape.invocations.iter().filter(|own| own.contains(line)).count()
        });
        let shown = [
            pairs().any(escapes),
            pairs().any(joined),
            costs.iter().any(|&line| inside(line)),
            shape.invocations.iter().any(itself),
            (serial.search)(&shape).chosen != graph::search(&shape).chosen,
            depth.max() >= Some(32),
        ];
        times.iter_mut().zip(shown).for_each(|(times, shown)| *times += u32::from(shown));
    }
    println!("{times:?}");
    assert!(times.iter().all(|&times| times >= 20), "{times:?}");
}

/// A node of document 000's tree as its Figure 4 leaves it: work, critical work, exclusive work, and the exclusive work
/// of each row that performs critical work.
#[derive(Clone)]
struct Node {
    kind: Kind,
    row: usize,
    work: u64,
    critical: u64,
    exclusive: u64,
    list: Vec<u64>,
    children: Vec<Node>,
}

impl Node {
    fn new(kind: Kind, row: usize, rows: usize) -> Node {
        Node { kind, row, work: 0, critical: 0, exclusive: 0, list: vec![0; rows], children: vec![] }
    }

    /// Figure 4 for one node whose children are done; a cost is a step, which is done from the start.
    fn done(self) -> Node {
        let serial = |nodes: &[Node]| -> (u64, u64, Vec<u64>) {
            let of = |sum: fn(&Node) -> u64| nodes.iter().filter(|node| node.kind != Kind::Async).map(sum).sum::<u64>();
            let list =
                |row: usize| nodes.iter().filter(|node| node.kind == Kind::Finish).map(|node| node.list[row]).sum();
            (of(|node| node.critical), of(|node| node.exclusive), (0..self.list.len()).map(list).collect())
        };
        let (mut critical, mut exclusive, mut list) = serial(&self.children);
        for (n, child) in self.children.iter().enumerate().filter(|(_, child)| child.kind == Kind::Async) {
            let left = serial(&self.children[..n]);
            if left.0 + child.critical > critical {
                critical = left.0 + child.critical;
                exclusive = left.1;
                list = left.2.iter().zip(&child.list).map(|(a, b)| a + b).collect();
            }
        }
        if self.kind == Kind::Async {
            list[self.row] += exclusive;
        }
        let work = self.children.iter().map(|child| child.work).sum();
        Node { work, critical, exclusive, list, ..self }
    }
}

/// Figure 4 over a trace of the family without calls: the root, which is a finish.
fn figure_4(shape: &Shape) -> Node {
    let rows = shape.sites + 1;
    let mut open = vec![Node::new(Kind::Finish, 0, rows)];
    for line in &shape.lines {
        match line.kind {
            Kind::Async | Kind::Finish => open.push(Node::new(line.kind, line.site as usize, rows)),
            Kind::Return => {
                let done = open.pop().expect("an open node").done();
                match open.last_mut() {
                    Some(around) => around.children.push(done),
                    None => return done,
                }
            }
            Kind::Cost => {
                let mut step = Node::new(Kind::Cost, 0, rows);
                (step.work, step.critical, step.exclusive) = (line.value, line.value, line.value);
                open.last_mut().expect("an open node").children.push(step);
            }
            _ => (),
        }
    }
    unreachable!("the root returns")
}

/// On span, row by row, as Figure 4 has it: the exclusive work of main and the list of spawn sites.
fn on_span(root: &Node) -> Vec<u64> {
    let mut rows = root.list.clone();
    rows[0] += root.exclusive;
    rows
}

#[test]
fn document_000s_figure_4_gives_the_same_work_and_span_and_keeps_the_serial_path_on_equal_weight() {
    let (mut tried, mut same, mut ties) = (0, 0, 0);
    for shape in some(8, 12_000, 40).filter(|shape| shape.lines.iter().all(|line| line.kind != Kind::Call)) {
        let (found, root) = (profile(&shape, &graph::search(&shape)), figure_4(&shape));
        assert_eq!([root.work, root.critical], found.answer[..2]);
        let ours: Vec<u64> = found.rows.iter().map(|row| row[ON_SPAN]).collect();
        let untied = chains(&shape, by_the_nearest, later) == chains(&shape, by_the_nearest, first);
        assert!(!untied || on_span(&root) == ours, "{ours:?}, and by Figure 4 {:?}", on_span(&root));
        tried += 1;
        same += u32::from(untied && shape.invocations.len() > 2);
        ties += u32::from(on_span(&root) != ours);
    }
    println!("{tried} {same} {ties}");
    assert!(tried > 1_000 && same > 100 && ties > 20, "{tried} traces, {same} without ties, {ties} that differ");
    let tree = std::fs::read(concat!(env!("CARGO_MANIFEST_DIR"), "/../examples/treesum.trace")).expect("the tree sum");
    let root = figure_4(&shape_of(&tree).expect("accepted"));
    assert_eq!((root.work, root.critical, on_span(&root)), (127, 93, vec![75, 4, 0, 14]));
    let tie = figure_4(&shape_of(&Trace::from_events(2, "async 1 {4}, 4").chars).expect("accepted"));
    assert_eq!((tie.work, tie.critical, on_span(&tie)), (8, 4, vec![4, 0, 0]));
}
