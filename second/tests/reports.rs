//! The report without idle rows beside the full one: the rows that are printed, worked out by hand, and the laws of both.

use second::compare::case::Question;
use second::compare::reports::{self, BY_HAND};
use second::compare::{broken, fixed, generate};
use second::library::Second;
use second::report::{full_report, report, ROW_CHARS};

/// The row numbers that a report's lines begin with.
fn rows(text: &str) -> Vec<usize> {
    text.lines().map(|line| usize::from_str_radix(&line[..4], 16).expect("4 digits")).collect()
}

#[test]
fn the_rows_by_hand() {
    for case in &BY_HAND {
        let (numbers, count, lines) = (case.numbers(), case.calls.len() as u64 - 1, case.printed.len());
        let brief = report(&numbers, count, ROW_CHARS * lines).expect("room for each row printed");
        let full = full_report(&numbers, count, ROW_CHARS * case.calls.len()).expect("room for each row");
        assert_eq!(rows(&brief), case.printed, "{}", case.name);
        assert!(rows(&full).into_iter().eq(0..case.calls.len()), "{}", case.name);
        let all: Vec<&str> = full.lines().collect();
        assert!(brief.lines().eq(case.printed.iter().map(|&row| all[row])), "{}", case.name);
    }
}

#[test]
fn two_hundred_sites_of_which_twelve_ran() {
    let calls = |row: u64| u64::from(row % 16 == 0);
    let numbers: Vec<u64> = (0..=200).flat_map(|row| [calls(row), row, row, row, row, row, row]).collect();
    let printed: Vec<usize> = (0..13).map(|n| 16 * n).collect();
    assert_eq!(report(&numbers, 200, 13 * 117).map(|text| rows(&text)), Ok(printed));
    assert!(report(&numbers, 200, 13 * 117 - 1).is_err());
    assert!(full_report(&numbers, 200, 201 * 117).is_ok());
}

#[test]
fn every_law_holds_of_the_second_program() {
    let has_rows = |question: &Question| matches!(question, Question::Report { .. } | Question::Engines { .. });
    let cases = fixed::cases().into_iter().chain((0..10_000).map(|number| generate::case(3, number)));
    let broken = cases.filter(|case| has_rows(&case.question)).find_map(|case| {
        let laws = broken(&case, &Second::by_paths());
        (!laws.is_empty()).then_some((case, laws))
    });
    assert_eq!(broken, None);
}

#[test]
fn every_room_is_tried_for_both_writers() {
    let rooms = |asked: bool| {
        let of = |question| matches!(question, Question::Report { full, .. } if full == asked);
        reports::cases().into_iter().filter(|case| of(case.question.clone())).count()
    };
    // Twelve rooms for each row by hand and for 255 sites, and four counts that are too large.
    assert_eq!([rooms(false), rooms(true)], [12 * (BY_HAND.len() + 1) + 4; 2]);
}
