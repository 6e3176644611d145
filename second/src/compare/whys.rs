//! Lines that are asked why they are not on the span: with what is said of them worked out by hand, and generated ones; and what
//! holds of every such answer, asked of one program alone, whose engines profile the trace as well.

use super::case::{Case, Question, Spare};
use super::rng::Rng;
use super::{damage, fixed, generate, instructions, moves};
use crate::check::{self, Limits, MOST_LINES};
use crate::library::Library;
use crate::line::{Family, Line, CHARS};
use crate::shape::Shape;
use crate::trace::Trace;
use crate::why::Why::{self, OnChain, Slack, Tied};

/// A trace of two sites in the notation of the twelve, and of each of its cost lines what is said of it and which lines are
/// marked, by hand. Any other line is no cost, and none is marked for it.
pub struct Asked {
    pub name: &'static str,
    pub events: &'static str,
    pub costs: &'static [(usize, Why, &'static [usize])],
}

/// "Sites 1 and 2 declared, D = 4", and room for one site more on the way.
pub const LIMITS: Limits = Limits { depth: 4, sites: 3 };

impl Asked {
    pub fn trace(&self) -> Vec<u8> {
        Trace::from_events(2, self.events).chars
    }
}

const fn of(name: &'static str, events: &'static str, costs: &'static [(usize, Why, &'static [usize])]) -> Asked {
    Asked { name, events, costs }
}

/// The twelve first. Lines 0 and 1 declare the sites.
pub const BY_HAND: [Asked; 24] = [
    of("A", "", &[]),
    of("B", "5, 3", &[(2, OnChain, &[2, 3]), (3, OnChain, &[2, 3])]),
    of("C", "spawn 1 {4}, 4", &[(3, OnChain, &[3]), (5, Tied(3), &[5])]),
    of("D", "spawn 1 {4}, 5", &[(3, Slack(1), &[3]), (5, OnChain, &[5])]),
    of("E", "spawn 1 {4}, sync, 4", &[(3, OnChain, &[3, 6]), (6, OnChain, &[3, 6])]),
    of("F", "call 1 {4}, 4", &[(3, OnChain, &[3, 5]), (5, OnChain, &[3, 5])]),
    // 1 and 10 are 11, and so are 1, 2 and 8; through the last 1 it is 1, 2, 1.
    of(
        "G",
        "1, spawn 1 {10}, 2, spawn 2 {8}, 1",
        &[
            (2, OnChain, &[2, 4]),
            (4, OnChain, &[2, 4]),
            (6, Tied(4), &[2, 6, 8]),
            (8, Tied(4), &[2, 6, 8]),
            (10, Slack(7), &[2, 6, 10]),
        ],
    ),
    of(
        "H",
        "1, spawn 1 {10}, 2, spawn 2 {9}, 1",
        &[
            (2, OnChain, &[2, 6, 8]),
            (4, Slack(1), &[2, 4]),
            (6, OnChain, &[2, 6, 8]),
            (8, OnChain, &[2, 6, 8]),
            (10, Slack(8), &[2, 6, 10]),
        ],
    ),
    of("I", "call 1 {spawn 2 {7}, 1}, 2", &[(4, OnChain, &[4, 8]), (6, Slack(6), &[6, 8]), (8, OnChain, &[4, 8])]),
    of("J", "spawn 1 {3}, call 2 {1, sync, 1}", &[(3, OnChain, &[3]), (6, Slack(1), &[6, 8]), (8, Slack(1), &[6, 8])]),
    of("K", "call 1 {1, call 1 {2}}", &[(3, OnChain, &[3, 5]), (5, OnChain, &[3, 5])]),
    of(
        "L",
        "spawn 1 {spawn 2 {6}, 1}, 2, sync, 1",
        &[(4, OnChain, &[4, 10]), (6, Slack(5), &[6, 10]), (8, Slack(4), &[8, 10]), (10, OnChain, &[4, 10])],
    ),
    of("three alike", "spawn 1 {2}, spawn 1 {2}, 2", &[(3, OnChain, &[3]), (6, Tied(3), &[6]), (8, Tied(3), &[8])]),
    // Of 1, then 2 beside 2, then 3 beside 3: through the last line the first of two chains, and it leaves the chosen one late.
    of(
        "two ties, one behind the other",
        "1, spawn 1 {2}, 2, sync, spawn 2 {3}, 3",
        &[
            (2, OnChain, &[2, 4, 9]),
            (4, OnChain, &[2, 4, 9]),
            (6, Tied(4), &[2, 6, 9]),
            (9, OnChain, &[2, 4, 9]),
            (11, Tied(9), &[2, 4, 11]),
        ],
    ),
    // 2 and 5, whichever 2; through the 3 it is the first 2.
    of(
        "slack behind a tie",
        "spawn 1 {2}, 2, sync, spawn 2 {5}, 3",
        &[(3, OnChain, &[3, 8]), (5, Tied(3), &[5, 8]), (8, OnChain, &[3, 8]), (10, Slack(2), &[3, 10])],
    ),
    // The first 3 is beside 2 alone, and what is behind them is the same for both.
    of(
        "a tie behind slack",
        "spawn 1 {2}, 3, sync, spawn 2 {4}, 4",
        &[(3, Slack(1), &[3, 8]), (5, OnChain, &[5, 8]), (8, OnChain, &[5, 8]), (10, Tied(8), &[5, 10])],
    ),
    of(
        "joined by a return",
        "call 1 {spawn 2 {3}, 3}, spawn 1 {4}, 4",
        &[(4, OnChain, &[4, 9]), (6, Tied(4), &[6, 9]), (9, OnChain, &[4, 9]), (11, Tied(9), &[4, 11])],
    ),
    of(
        "two lines beside one",
        "spawn 1 {2}, 1, 1",
        &[(3, OnChain, &[3]), (5, Tied(3), &[5, 6]), (6, Tied(3), &[5, 6])],
    ),
    of("one line beside two", "spawn 1 {1, 1}, 2", &[(3, OnChain, &[3, 4]), (4, OnChain, &[3, 4]), (6, Tied(3), &[6])]),
    // The chosen chain and the one through the 1 have the middle alone together.
    of(
        "apart on both sides",
        "spawn 1 {2}, 1, sync, 9, spawn 2 {2}, 1",
        &[
            (3, OnChain, &[3, 7, 9]),
            (5, Slack(1), &[5, 7, 9]),
            (7, OnChain, &[3, 7, 9]),
            (9, OnChain, &[3, 7, 9]),
            (11, Slack(1), &[3, 7, 11]),
        ],
    ),
    of("slack of one", "spawn 1 {4294967294}, 4294967295", &[(3, Slack(1), &[3]), (5, OnChain, &[5])]),
    // Slack has 64 bits: twice the greatest value less 1.
    of(
        "slack beyond a value",
        "spawn 1 {4294967295, 4294967295}, 1",
        &[(3, OnChain, &[3, 4]), (4, OnChain, &[3, 4]), (6, Slack(8_589_934_589), &[6])],
    ),
    // Instructions neither weigh nor are costs: lines 3, 6 and 9 carry them.
    of(
        "with instructions",
        "1 with 5, spawn 1 {10 with 3}, 10 with 900",
        &[(2, OnChain, &[2, 5]), (5, OnChain, &[2, 5]), (8, Tied(5), &[2, 8])],
    ),
    // Line 3 declares site 3.
    of(
        "a site line on the way",
        "1, site 3, spawn 3 {4}, 3",
        &[(2, OnChain, &[2, 5]), (5, OnChain, &[2, 5]), (7, Slack(1), &[2, 7])],
    ),
];

/// Events of traces that are refused whatever line is asked, with the number and the line, by hand: "those of 01, then 23".
pub const REFUSED: [(&str, (u64, u64)); 5] =
    [("call 3 {1}", (11, 2)), ("call 1 {1", (14, 5)), ("1, sync with 9", (22, 4)), ("1}, 2", (7, 4)), ("0", (6, 2))];

/// What is lent: just enough, more, and one short of each; nothing of each. No rows are lent.
pub const ROOMS: [Spare; 8] = [
    Spare { scratch: 0, rows: 0, answer: 0, marks: 0 },
    Spare { scratch: 3, rows: 0, answer: 1, marks: 5 },
    Spare { scratch: -1, rows: 0, answer: 0, marks: 0 },
    Spare { scratch: 0, rows: 0, answer: -1, marks: 0 },
    Spare { scratch: 0, rows: 0, answer: 0, marks: -1 },
    Spare { scratch: isize::MIN, rows: 0, answer: 0, marks: 0 },
    Spare { scratch: 0, rows: 0, answer: isize::MIN, marks: 0 },
    Spare { scratch: 0, rows: 0, answer: 0, marks: isize::MIN },
];

/// Line numbers past the end of any trace.
const FAR: [u32; 3] = [MOST_LINES as u32, 1 << 31, u32::MAX];

/// Every line of a trace, and the one past the end.
pub fn every_line(trace: &[u8]) -> Vec<u32> {
    (0..=(trace.len() / CHARS) as u32).collect()
}

/// Every trace above with every line asked, and some far past the end, each in every room; limits that are outside their range
/// and lengths that are none; and long traces, some of whose lines are asked.
pub fn cases() -> Vec<Case> {
    let by_hand = BY_HAND.iter().map(|asked| asked.trace());
    let refused = REFUSED.iter().map(|(events, _)| Trace::from_events(2, events).chars);
    let cut = BY_HAND[6].trace().into_iter().take(100).collect();
    let each = |trace: Vec<u8>| {
        let lines = [every_line(&trace), FAR.to_vec()].concat();
        ROOMS.map(move |spare| (trace.clone(), LIMITS, lines.clone(), spare))
    };
    let outside = [[0, 3], [65, 3], [4, 256]]
        .map(|[depth, sites]| (BY_HAND[6].trace(), Limits { depth, sites }, vec![2, 12, u32::MAX], Spare::default()));
    let all = by_hand.chain(refused).chain([cut, vec![]]).flat_map(each).chain(outside).chain(long());
    let of = |(trace, limits, lines, spare)| Question::Why { trace, limits, lines, spare };
    all.map(of).map(|question| Case { question, rubbish: 1 }).collect()
}

/// As many lines as there may be and one more, with lines at both ends asked and some between.
fn long() -> impl Iterator<Item = (Vec<u8>, Limits, Vec<u32>, Spare)> {
    let asked = vec![0, 2, 3, 4, 5, 12_345, 12_346, 12_347, 40_000, 40_001, 65_530, 65_534, 65_535, 65_536, u32::MAX];
    let heaviest = (fixed::heaviest().chars, vec![0, 32_768, 65_535, 65_536]);
    let traces =
        [(fixed::lines(MOST_LINES).chars, asked), (fixed::lines(MOST_LINES + 1).chars, vec![3, 65_537]), heaviest];
    traces.into_iter().map(|(trace, lines)| (trace, LIMITS, lines, Spare::default()))
}

/// The most lines of a trace of which every line is asked.
const MOST_EVERY: usize = 60;

/// A trace with every line asked where it is short enough, otherwise with some, most of them off the chosen chain. Chains tie in
/// half of them, which have branches of the same weight; a quarter have all costs alike.
pub fn write(rng: &mut Rng) -> Question {
    let (mut trace, limits, spare) = if rng.once_in(2) { balanced(rng) } else { generate::trace(rng) };
    if rng.once_in(4) {
        moves::level(rng, &mut trace);
    }
    let mut lines = every_line(&trace);
    if lines.len() > MOST_EVERY + 1 {
        let costs = moves::costs(&trace);
        let off = moves::off_the_chosen_chain(&trace, &costs);
        let any = [rng.pick(&lines), rng.pick(&lines)];
        lines = off.first().map_or(vec![], |_| (0..4).map(|_| costs[rng.pick(&off)].0 as u32).collect());
        lines.extend(any);
    }
    if rng.once_in(4) {
        lines.push(rng.pick(&FAR));
    }
    Question::Why { trace, limits, lines, spare }
}

/// A trace whose branches mostly weigh the same, a few of them damaged, with its limits and what is lent for it.
pub fn balanced(rng: &mut Rng) -> (Vec<u8>, Limits, Spare) {
    let (weight, deep) = (rng.between(1, 9), rng.between(1, 4));
    let mut trace = Trace::with_sites(2);
    branch(rng, &mut trace, weight, deep);
    trace.leave();
    if rng.once_in(4) {
        trace.chars = instructions::put_in(&trace.chars, |line| rng.once_in(2).then_some(line as u64));
    }
    let (mut limits, mut spare) = (Limits { depth: 2 * deep + 1, sites: 2 }, Spare::default());
    if rng.once_in(8) {
        damage::some(rng, &mut trace.chars, &mut limits, &mut spare);
    }
    (trace.chars, limits, spare)
}

/// Lines of which the heaviest chain has a weight: a cost, two such parts one behind the other, or a spawned one beside a called
/// one and a sync behind them; one in four of those spawned is lighter by one.
fn branch(rng: &mut Rng, trace: &mut Trace, weight: u64, deep: u64) {
    match rng.below(5) {
        1 if weight > 1 => {
            let part = rng.between(1, weight - 1);
            branch(rng, trace, part, deep);
            branch(rng, trace, weight - part, deep);
        }
        2..=4 if deep > 0 => {
            let less = u64::from(weight > 1 && rng.once_in(4));
            trace.spawn(1);
            branch(rng, trace, weight - less, deep - 1);
            trace.leave().call(2);
            branch(rng, trace, weight, deep - 1);
            trace.leave().sync();
        }
        _ => _ = trace.cost(weight),
    }
}

/// The laws that a program does not keep on a case; none where no line is asked, or the trace is refused.
pub fn broken(case: &Case, library: &dyn Library) -> Vec<&'static str> {
    let Question::Why { trace, limits, lines, spare } = &case.question else { return vec![] };
    let Ok(shape) = check::read(trace, *limits, |_| false) else { return vec![] };
    let Some(profile) = Profiled::of(library, trace, *limits) else { return vec!["the engines accept as much"] };
    let mut broken = vec![];
    for &line in lines.iter().filter(|&&line| (line as usize) < shape.lines.len()) {
        let question = Question::Why { trace: trace.clone(), limits: *limits, lines: vec![line], spare: *spare };
        let outcome = Case { question, rubbish: case.rubbish }.ask(library);
        if outcome.codes[0].1 != 0 {
            continue;
        }
        let said = outcome.numbers_of("answer").and_then(|answer| answer.first_chunk().copied());
        let marks = outcome.bytes_of("marks").and_then(|marks| marks.get(..shape.lines.len()));
        let laws = match said.zip(marks) {
            Some((said, marks)) => Told { shape: &shape, profile: &profile, line: line as usize, said, marks }
                .laws(|raised| Profiled::of(library, &raised_by(library, trace, line, raised)?, *limits)),
            None => vec![("answer and marks are there", false)],
        };
        broken.extend(laws.into_iter().filter(|(_, holds)| !holds).map(|(law, _)| law));
    }
    broken.sort_unstable();
    broken.dedup();
    broken
}

/// A trace with a cost line raised, as a program's line writer gives it; nothing where the value does not fit.
fn raised_by(library: &dyn Library, trace: &[u8], line: u32, by: u64) -> Option<Vec<u8>> {
    let costs = moves::costs(trace);
    let cost = costs.iter().position(|&(number, _)| number == line as usize)?;
    let value = costs[cost].1.checked_add(by).filter(|&value| value <= moves::MOST)?;
    Some(moves::rewritten(library, trace, cost, value))
}

/// The span and the marks of a trace by the marks engine.
struct Profiled {
    span: u64,
    marks: Vec<u8>,
}

impl Profiled {
    fn of(library: &dyn Library, trace: &[u8], limits: Limits) -> Option<Profiled> {
        let (mut scratch, mut rows) = (vec![0; limits.marks_scratch()], vec![0; limits.rows()]);
        let (mut marks, mut answer) = (vec![0; trace.len() / CHARS], [0; 4]);
        let code = library.marks(Family::Base, trace, limits, &mut scratch, &mut marks, &mut rows, &mut answer);
        (code == 0).then_some(Profiled { span: answer[1], marks })
    }
}

/// What a program says of a line, beside what its marks engine says of the trace.
struct Told<'a> {
    shape: &'a Shape,
    profile: &'a Profiled,
    line: usize,
    said: [u64; 2],
    marks: &'a [u8],
}

impl Told<'_> {
    /// The laws of each answer; `raised` profiles the trace with the line raised by so much, if its value still fits.
    fn laws(&self, raised: impl Fn(u64) -> Option<Profiled>) -> Vec<(&'static str, bool)> {
        let Told { shape, profile, line, said: [case, number], marks } = *self;
        let cost = shape.lines[line].cost() > 0;
        let chosen = profile.marks[line] == 1;
        let mut laws = vec![
            ("a line is told as no cost exactly where it is none", (case == 0) != cost),
            ("a line is on the chosen chain where the marks engine marks it", (case == 1) == chosen),
            ("the answer is one of four", case < 4 && (case > 1 || number == 0)),
        ];
        if case == 0 {
            laws.push(("for a line that is no cost nothing is marked", marks.iter().all(|&mark| mark == 0)));
            return laws;
        }
        let less = if case == 2 { number } else { 0 };
        laws.push(("the line itself is marked", marks[line] == 1));
        laws.push(("what is marked is a chain", self.is_chain()));
        laws.push(("what is marked weighs the span less the slack", self.weight() + less == profile.span));
        laws.push(("for a line on the chosen chain that is marked", case != 1 || marks == profile.marks));
        laws.push(("slack is at least 1", case != 2 || number > 0));
        let left = profile.marks.iter().zip(marks).position(|(chosen, mark)| chosen > mark);
        laws.push((
            "the tied line is the first that is chosen and not marked",
            case != 3 || left == Some(number as usize),
        ));
        for by in [1, less, less + 1, less + 7].into_iter().filter(|&by| by > 0) {
            let holds = raised(by).is_none_or(|raised| raised.span == profile.span + by.saturating_sub(less));
            laws.push(("raised by d the span grows by d less the slack, and by nothing up to that", holds));
        }
        laws
    }

    fn marked(&self) -> impl Iterator<Item = usize> + '_ {
        (0..self.marks.len()).filter(|&line| self.marks[line] == 1)
    }

    fn weight(&self) -> u64 {
        self.marked().map(|line| Line::cost(&self.shape.lines[line])).sum()
    }

    /// Whether all that is marked are costs and each is in series with the one behind it, as series is transitive.
    fn is_chain(&self) -> bool {
        let lines: Vec<usize> = self.marked().collect();
        let costs = lines.iter().all(|&line| self.shape.lines[line].cost() > 0);
        costs && lines.windows(2).all(|pair| self.shape.series(pair[0], pair[1]))
    }
}
