//! Both proved engines as runs to time, what they are lent, and that they have left what is right.

use super::timing::Run;
use crate::check::Limits;
use crate::library::{Asked, Library};
use crate::line::Family;
use crate::plain;
use std::hint::black_box;

/// What an engine is lent; the table engine leaves the marks alone.
pub struct Room {
    pub scratch: Vec<u64>,
    pub marks: Vec<u8>,
    pub rows: Vec<u64>,
    pub answer: [u64; 4],
}

/// What the table engine and the marks engine are lent for so many lines.
pub fn rooms(limits: Limits, lines: usize) -> [Room; 2] {
    [limits.table_scratch(), limits.marks_scratch()].map(|scratch| Room {
        scratch: vec![0; scratch],
        marks: vec![0; lines],
        rows: vec![0; limits.rows()],
        answer: [0; 4],
    })
}

/// The runs of both engines that are asked, in their rooms.
pub fn runs<'a>(
    library: &'a dyn Library,
    trace: &'a [u8],
    limits: Limits,
    asked: Asked<'a>,
    [tables, marked]: &'a mut [Room; 2],
) -> [Run<'a>; 2] {
    [
        Box::new(move || {
            let Room { scratch, rows, answer, .. } = &mut *tables;
            let given = asked.tables(library, black_box(trace), limits, scratch, rows, answer);
            assert_eq!(given, 0, "accepted");
        }),
        Box::new(move || {
            let Room { scratch, marks, rows, answer } = &mut *marked;
            let given = asked.marks(library, black_box(trace), limits, scratch, marks, rows, answer);
            assert_eq!(given, 0, "accepted");
        }),
    ]
}

/// Holds what the engines have left of a trace of a family against what the plain one gives.
pub fn check(family: Family, trace: &[u8], limits: Limits, [tables, marked]: &[Room; 2], shape: &str) {
    let lent = limits.for_marks(marked.marks.len());
    let right = plain::profile_of(family, trace, limits, &lent).expect("a good trace");
    let rows = right.rows.concat();
    assert!(tables.rows == rows && tables.answer == right.answer, "the table engine on {shape}");
    assert!(marked.rows == rows && marked.answer == right.answer, "the marks engine on {shape}");
    assert_eq!(marked.marks, right.marks, "the marks on {shape}");
}
