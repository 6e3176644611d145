//! What holds of every forecast, whatever the second program says of it: asked of one program alone, which profiles the trace
//! as it stands and the trace rewritten as well.

use super::case::{Case, Outcome, Question};
use crate::check::{self, Limits};
use crate::forecast::{rewritten, Entry};
use crate::library::Library;
use crate::line::{Family, Line};
use crate::rows::{CALLS, COLUMNS, ILOCAL, LOCAL, ON_SPAN, SPAN, WORK};

/// The laws that a program does not keep on a case; none where the case is no forecast.
pub fn broken(case: &Case, library: &dyn Library) -> Vec<&'static str> {
    let Question::Forecast { trace, limits, entries, spare } = &case.question else { return vec![] };
    let profile = |trace: Vec<u8>| {
        let question = Question::Engines { family: Family::Base, trace, limits: *limits, spare: *spare };
        Case { question, rubbish: case.rubbish }.ask(library)
    };
    let (plain, forecast) = (profile(trace.clone()), case.ask(library));
    let mut laws = vec![("the refusals of 01 come first", refusals_first(&plain, &forecast))];
    if entries.is_empty() {
        laws.push(("an empty list gives the plain profile", same(&plain, &forecast)));
    }
    let costs = Costs::of(trace, entries).filter(|_| forecast.codes.iter().all(|(_, code)| *code == 0));
    if let Some(costs) = costs {
        laws.push(("a forecast is the profile of the rewritten trace", same(&profile(costs.text.clone()), &forecast)));
        let both = Seen::of(&plain).zip(Seen::of(&forecast));
        laws.extend(both.map_or(vec![("answer, rows and marks are there", false)], |both| costs.laws(both, entries)));
    }
    laws.into_iter().filter(|(_, holds)| !holds).map(|(law, _)| law).collect()
}

/// Whether each engine gives what it gives of the plain trace, or accepts that and refuses the list.
fn refusals_first(plain: &Outcome, forecast: &Outcome) -> bool {
    let mut pairs = plain.codes.iter().zip(&forecast.codes);
    pairs.all(|((_, plain), (_, asked))| asked == plain || (*plain == 0 && [19, 20].contains(asked)))
}

/// Whether two outcomes are the same but for what was lent to be read.
fn same(one: &Outcome, other: &Outcome) -> bool {
    let left = |name: &str| !name.ends_with("trace") && !name.ends_with("entries");
    let bytes = |outcome: &Outcome| outcome.bytes.iter().filter(|room| left(room.name)).cloned().collect::<Vec<_>>();
    let numbers =
        |outcome: &Outcome| outcome.numbers.iter().filter(|room| left(room.name)).cloned().collect::<Vec<_>>();
    one.codes == other.codes && bytes(one) == bytes(other) && numbers(one) == numbers(other)
}

/// What an accepted outcome says: the answer, the rows and the marks, of the marks engine.
struct Seen<'a> {
    answer: &'a [u64],
    rows: &'a [u64],
    marks: &'a [u8],
}

impl Seen<'_> {
    /// Nothing where the answer tells of more rows or marks than there are.
    fn of(outcome: &Outcome) -> Option<Seen<'_>> {
        let answer = outcome.numbers_of("marks engine's answer")?;
        let rows = outcome.numbers_of("marks engine's rows")?;
        let marks = outcome.bytes_of("marks engine's marks")?;
        let sites = *answer.get(2).filter(|&&sites| sites < 256)? as usize;
        let lines = usize::try_from(*answer.get(3)?).ok()?;
        Some(Seen { answer: &answer[..4], rows: rows.get(..COLUMNS * (sites + 1))?, marks: marks.get(..lines)? })
    }

    /// A column, row by row.
    fn column(&self, column: usize) -> impl Iterator<Item = u64> + '_ {
        self.rows.iter().skip(column).step_by(COLUMNS).copied()
    }

    /// Whether no row has more in a column than the other's.
    fn at_most(&self, other: &Seen, column: usize) -> bool {
        self.column(column).zip(other.column(column)).all(|(own, most)| own <= most)
    }
}

/// The costs of a good trace, line by line, before and after it is rewritten by good entries, and the text after.
struct Costs {
    before: Vec<u64>,
    after: Vec<u64>,
    text: Vec<u8>,
}

impl Costs {
    fn of(trace: &[u8], entries: &[Entry]) -> Option<Costs> {
        let wide = Limits { depth: 64, sites: 255 };
        let costs = |chars: &[u8]| -> Option<Vec<u64>> {
            let shape = check::trace(chars, wide, &wide.for_tables()).ok()?;
            Some(shape.lines.iter().map(Line::cost).collect())
        };
        let text = rewritten(trace, wide, entries, &wide.for_tables()).ok()?;
        Some(Costs { before: costs(trace)?, after: costs(&text)?, text })
    }

    /// What the lines of a chain lose together.
    fn lost(&self, marks: &[u8]) -> u64 {
        let lines = self.before.iter().zip(&self.after).zip(marks);
        lines.filter(|(_, &mark)| mark == 1).map(|((before, after), _)| before - after).sum()
    }

    /// The plain profile beside the forecast.
    fn laws(&self, (plain, forecast): (Seen, Seen), entries: &[Entry]) -> Vec<(&'static str, bool)> {
        let [work, span] = [0, 1].map(|n| (plain.answer[n], forecast.answer[n]));
        let on_span: Vec<u64> = plain.column(ON_SPAN).collect();
        let off_span = entries.iter().all(|entry| on_span.get(entry.row as usize) == Some(&0));
        let same_calls = plain.column(CALLS).eq(forecast.column(CALLS));
        vec![
            ("sites, lines and calls stay", plain.answer[2..] == forecast.answer[2..] && same_calls),
            ("work and span are at most the plain ones", work.1 <= work.0 && span.1 <= span.0),
            ("no row's work is above the plain one", forecast.at_most(&plain, WORK)),
            ("no row's span is above the plain one", forecast.at_most(&plain, SPAN)),
            ("no row's own costs are above the plain ones", forecast.at_most(&plain, LOCAL)),
            ("instructions stay as they are", plain.column(ILOCAL).eq(forecast.column(ILOCAL))),
            ("rows that are not on the span leave it as it is", !off_span || span.1 == span.0),
            ("the gain is at most what the chosen chain loses", span.0 <= span.1 + self.lost(plain.marks)),
        ]
    }
}
