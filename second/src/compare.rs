//! The comparison: cases, what each program makes of them, and the smallest case in which two programs differ.

pub mod carried;
pub mod case;
pub mod compacts;
pub mod damage;
pub mod finishes;
pub mod fixed;
pub mod forecasts;
pub mod gain;
pub mod generate;
pub mod instructions;
pub mod moves;
pub mod on_the_way;
pub mod reports;
pub mod rng;
pub mod shapes;
pub mod sheets;
pub mod shrink;
pub mod sites;
pub mod stacks;
pub mod tell;
pub mod tie;
pub mod whys;

use crate::library::Library;
use case::{Case, Outcome};

/// What one program made of a case that another made something else of.
pub struct Difference {
    pub case: Case,
    /// The program that is held against the expected one.
    pub name: &'static str,
    pub expected: Outcome,
    pub found: Outcome,
    /// The laws of the case that it does not keep.
    pub broken: Vec<&'static str>,
}

/// Asks every program the same, and gives the first that does not do as the expected one does, or does not keep a law of what
/// is asked, on the smallest case that shows it.
pub fn compare(
    case: &Case,
    expected: &dyn Library,
    others: &[(&'static str, &dyn Library)],
) -> Option<Box<Difference>> {
    let right = case.ask(expected);
    let keeps = |case: &Case, other: &dyn Library| broken(case, other).is_empty();
    let mut known = others.iter().filter(|(_, other)| other.knows(case.family()));
    let (name, other) = known.find(|(_, other)| case.ask(*other) != right || !keeps(case, *other))?;
    let case = shrink::smallest(case, |case| case.ask(expected) != case.ask(*other) || !keeps(case, *other));
    let (expected, found, broken) = (case.ask(expected), case.ask(*other), broken(&case, *other));
    Some(Box::new(Difference { case, name, expected, found, broken }))
}

/// The laws of what a case asks that a program does not keep.
pub fn broken(case: &Case, library: &dyn Library) -> Vec<&'static str> {
    let of = [gain::broken, moves::broken, reports::broken, instructions::broken, whys::broken, tie::broken];
    of.map(|broken| broken(case, library)).concat()
}
