//! The examples print what their page says, and the page says what was worked out by hand.

use second::compact;
use second::compare::{finishes, moves};
use second::folded;
use second::forecast::Entry;
use second::library::Second;
use second::line::Family;
use second::program::{printed, LIMITS, MOST_BYTES};
use second::report;
use second::rows::{all_cycles_alone, Row, LOCAL, ON_SPAN, WORK};
use second::sheet;
use second::trace::events;
use second::why::Why;
use std::fs;
use std::path::PathBuf;
use std::process::Command;

fn folder() -> PathBuf {
    PathBuf::from(env!("CARGO_MANIFEST_DIR")).join("../examples")
}

fn page() -> String {
    fs::read_to_string(folder().join("README.md")).expect("the page on the examples")
}

/// What is printed for an example.
fn example(name: &str) -> String {
    printed(&file(name))
}

fn file(name: &str) -> Vec<u8> {
    fs::read(folder().join(name)).expect(name)
}

/// The seven numbers of each row of a report.
fn rows(report: &str) -> Vec<Row> {
    let number = |line: &str, n: usize| u64::from_str_radix(&line[4 + 16 * n..20 + 16 * n], 16).expect("16 digits");
    report.lines().map(|line| std::array::from_fn(|n| number(line, n))).collect()
}

#[test]
fn case_i_is_on_the_page() {
    let report = example("case-i.trace");
    assert_eq!(rows(&report), all_cycles_alone(&[[1, 10, 9, 2, 2], [1, 8, 7, 1, 0], [1, 7, 7, 7, 7]]));
    assert!(page().contains(&report));
}

#[test]
fn the_splitter_is_on_the_page_and_as_worked_out_by_hand() {
    let report = example("splitter.trace");
    assert_eq!(rows(&report), all_cycles_alone(&[[1, 16, 10, 0, 0], [3, 16, 10, 5, 4], [2, 11, 11, 11, 6]]));
    assert!(page().contains(&report));
}

#[test]
fn the_proxy_is_on_the_page_and_as_worked_out_by_hand() {
    let report = example("proxy.trace");
    let by_hand = [
        [1, 36140, 11435, 240, 225],
        [1, 900, 900, 900, 900],
        [1, 2600, 2600, 2600, 0],
        [4, 31700, 28880, 0, 0],
        [4, 11000, 11000, 11000, 3600],
        [8, 5700, 5700, 5700, 910],
        [4, 15000, 15000, 15000, 5100],
        [1, 700, 700, 700, 700],
        [0, 0, 0, 0, 0],
    ];
    assert_eq!(rows(&report), all_cycles_alone(&by_hand));
    assert!(page().contains(&report));
}

#[test]
fn the_folded_stacks_of_the_proxy() {
    let (trace, stock) = (file("proxy.trace"), file("stock.names"));
    let folded = |project: &str, out| {
        let lent = folded::Lent { scratch: 32, out, written: 1 };
        folded::write(&trace, LIMITS, [&file(project), &stock], lent)
            .map_err(|refusal| (refusal.number(), refusal.line))
    };
    assert_eq!(folded("proxy.names", 550).map(String::into_bytes), Ok(file("proxy.folded")));
    assert_eq!(folded("proxy.names", 549), Err((18, 0)));
    assert_eq!(folded("refusal-17-line-ends.names", 550), Err((17, 0)));
    assert_eq!(folded("refusal-17-space.names", 550), Err((17, 4)));
}

/// The page on forecasts.
fn forecasts() -> String {
    fs::read_to_string(folder().join("../docs/FORECAST.md")).expect("the page on forecasts")
}

/// The rows of an example's forecast with one entry, and total work, total span, sites and lines.
fn forecast(name: &str, entry: Entry) -> (Vec<Row>, [u64; 4]) {
    let profile = Second::new().forecast(&file(name), LIMITS, &[entry], &LIMITS.for_tables()).expect("accepted");
    (profile.rows, profile.answer)
}

#[test]
fn the_proxys_rows_halved_in_turn_are_on_the_page_and_as_worked_out_by_hand() {
    // The third segment stays the heaviest: 120 + 900 + 45 + 3600 + 910 + 5100 + 700 + 60, with what is halved rounded up.
    let by_hand = [
        60 + 900 + 3 * 8 + 3600 + 910 + 5100 + 700 + 30,
        120 + 450 + 45 + 3600 + 910 + 5100 + 700 + 60,
        11435,
        11435,
        120 + 900 + 45 + 1800 + 910 + 5100 + 700 + 60,
        120 + 900 + 45 + 3600 + 455 + 5100 + 700 + 60,
        120 + 900 + 45 + 3600 + 910 + 2550 + 700 + 60,
        120 + 900 + 45 + 3600 + 910 + 5100 + 350 + 60,
        11435,
    ];
    let plain = rows(&example("proxy.trace"));
    let mut table = String::from("row      work     local   on span      span      gain\n");
    for (row, span) in by_hand.into_iter().enumerate() {
        assert_eq!(forecast("proxy.trace", Entry { row: row as u64, factor: 2 }).1[1], span, "row {row}");
        let (own, gain) = (plain[row], 11435 - span);
        let [work, local, on_span] = [own[WORK], own[LOCAL], own[ON_SPAN]];
        table += &format!("{row:>3}{work:>10}{local:>10}{on_span:>10}{span:>10}{gain:>10}\n");
    }
    assert!(forecasts().contains(&table), "{table}");
}

#[test]
fn case_i_with_site_2_halved_is_on_the_page() {
    let (rows, answer) = forecast("case-i.trace", Entry { row: 2, factor: 2 });
    assert_eq!(rows, all_cycles_alone(&[[1, 7, 6, 2, 2], [1, 5, 4, 1, 0], [1, 4, 4, 4, 4]]));
    assert_eq!(answer, [7, 6, 2, 10]);
    assert!(forecasts().contains(&report::full_report(rows.as_flattened(), 2, 351).expect("room enough")));
}

#[test]
fn case_g_is_on_the_page() {
    let report = example("case-g.trace");
    assert_eq!(rows(&report), all_cycles_alone(&[[1, 22, 11, 4, 1], [1, 10, 10, 10, 10], [1, 8, 8, 8, 0]]));
    assert!(page().contains(&report));
}

/// The span of an example's trace.
fn span(trace: &[u8]) -> u64 {
    Second::new().profile(trace, LIMITS, &LIMITS.for_tables()).expect("accepted").answer[1]
}

#[test]
fn the_costs_that_move_are_on_the_page() {
    let text = fs::read_to_string(folder().join("../docs/MOVING.md")).expect("the page on costs that move");
    let mut told = vec![];
    for row in text.lines().filter_map(|line| line.strip_prefix("| `with ")) {
        let cells: Vec<&str> = row.trim_end_matches(" |").split(" | ").collect();
        let [command, _, by, after] = cells[..] else { panic!("{row}") };
        let words: Vec<&str> = command.trim_end_matches('`').split(' ').collect();
        let [name, line, value] = words[..] else { panic!("{row}") };
        let (line, value): (usize, u64) = (line.parse().expect("a line"), value.parse().expect("a value"));
        let trace = file(&format!("{name}.trace"));
        let costs = moves::costs(&trace);
        let cost = costs.iter().position(|&(number, _)| number == line).expect("a cost line");
        assert_eq!(by.parse::<i64>(), Ok(value as i64 - costs[cost].1 as i64), "{row}");
        let moved = span(&moves::rewritten(&Second::new(), &trace, cost, value));
        assert_eq!(after.parse(), Ok(moved), "{row}");
        told.push(moved);
    }
    // G: 1, 2 and 8 with one of them raised, or 1, 10; the proxy: its third segment, its audio, its first segment.
    assert_eq!(told, [12, 14, 12, 12, 11, 12, 11, 11535, 11435, 11436, 11435, 11436, 9915]);
}

#[test]
fn the_wordy_trace_is_on_the_page_and_compacts_as_worked_out_by_hand() {
    let report = example("wordy.trace");
    // 2^32 = 4294967296 are the last two costs of the root together.
    let most = 1 << 32;
    let root = [1, most + 36, most + 26, most + 10, most + 8];
    assert_eq!(rows(&report), all_cycles_alone(&[root, [1, 11, 11, 11, 11], [2, 15, 15, 15, 7]]));
    assert_eq!(example("wordy-compact.trace"), report);
    assert_eq!(page().matches(&report).count(), 2);
    let compact = |name: &str, out| {
        let text = compact::write(&file(name), LIMITS, compact::Lent { out, written: 1 });
        text.map_err(|refusal| (refusal.number(), refusal.line))
    };
    assert_eq!(compact("wordy.trace", 414), Ok(file("wordy-compact.trace")));
    assert_eq!(compact("wordy-compact.trace", 414), Ok(file("wordy-compact.trace")));
    assert_eq!(compact("proxy.trace", 9999), Ok(file("proxy.trace")));
    assert_eq!(compact("wordy.trace", 413), Err((21, 0)));
}

#[test]
fn the_trace_with_sites_on_the_way_is_on_the_page_and_as_worked_out_by_hand() {
    let report = example("on-the-way.trace");
    let by_hand = [[1, 22, 17, 7, 7], [1, 15, 10, 3, 3], [1, 7, 7, 6, 6], [2, 6, 6, 6, 1], [0; 5]];
    assert_eq!(rows(&report), all_cycles_alone(&by_hand));
    assert!(page().contains(&report));
    let trace = file("on-the-way.trace");
    let lent = compact::Lent { out: 483, written: 1 };
    assert_eq!(compact::write(&trace, LIMITS, lent), Ok(trace));
}

#[test]
fn the_trace_with_instructions_is_on_the_page_and_as_worked_out_by_hand() {
    let report = example("instructions.trace");
    let by_hand = [[1, 31, 20, 12, 8, 60, 20], [1, 12, 12, 9, 9, 12, 12], [2, 10, 10, 10, 3, 23, 14]];
    assert_eq!(rows(&report), by_hand);
    assert_eq!(example("instructions-compact.trace"), report);
    assert_eq!(page().matches(&report).count(), 2);
    let sheet = sheet::write(by_hand.as_flattened(), 2, usize::MAX, 1);
    assert_eq!(sheet.map(String::into_bytes), Ok(file("instructions.csv")));
    let lent = compact::Lent { out: 483, written: 1 };
    for name in ["instructions.trace", "instructions-compact.trace"] {
        assert_eq!(compact::write(&file(name), LIMITS, lent), Ok(file("instructions-compact.trace")), "{name}");
    }
}

/// The lines of an example that are asked on the page: the line, its answer, and the lines that are marked.
fn asked() -> Vec<(u32, String, Vec<usize>)> {
    let page = page();
    let (_, table) = page.split_once("## Why a line is not on the span").expect("a part on lines that are asked");
    let row = |line: &str| {
        let cells: Vec<&str> = line.strip_prefix("| ")?.strip_suffix(" |")?.split(" | ").collect();
        let (line, marked) = (cells.first()?.parse().ok()?, cells.last()?.split(' '));
        Some((line, cells[cells.len() - 2].to_owned(), marked.filter_map(|line| line.parse().ok()).collect()))
    };
    table.lines().filter_map(row).collect()
}

#[test]
fn why_lines_are_not_on_the_span_is_on_the_page_and_as_worked_out_by_hand() {
    let report = example("why.trace");
    assert_eq!(rows(&report), all_cycles_alone(&[[1, 33, 17, 11, 3], [2, 14, 14, 14, 14], [2, 8, 8, 8, 0]]));
    assert!(page().contains(&report));
    let (trace, asked) = (file("why.trace"), asked());
    let lent = LIMITS.for_why(22);
    let told = |why| match why {
        Why::NotCost => "not a cost line".into(),
        Why::OnChain => "on the chosen chain".into(),
        Why::Slack(less) => format!("slack 17 - {} = {less}", 17 - less),
        Why::Tied(line) => format!("tied with line {line}"),
    };
    for (line, answer, marked) in &asked {
        let (why, marks) = Second::new().why(&trace, LIMITS, *line, &lent).expect("accepted");
        assert_eq!(&told(why), answer, "line {line}");
        assert_eq!(&(0..22).filter(|&line| marks[line] == 1).collect::<Vec<_>>(), marked, "line {line}");
    }
    assert_eq!(asked.iter().map(|(line, ..)| *line).collect::<Vec<_>>(), [2, 3, 4, 6, 8, 12, 18, 20]);
    let past =
        |line| Second::new().why(&trace, LIMITS, line, &lent).map_err(|refusal| (refusal.number(), refusal.line));
    assert_eq!((past(22), past(u32::MAX)), (Err((23, 22)), Err((23, u32::MAX.into()))));
}

/// The page on asyncs and finishes.
fn finishes_page() -> String {
    fs::read_to_string(folder().join("../docs/FINISH.md")).expect("the page on asyncs and finishes")
}

#[test]
fn the_tree_sum_is_on_the_page_and_as_worked_out_by_hand() {
    let trace = file("treesum.trace");
    let half = "2, finish {async 2 {10}, 1, async 3 {10}}, 1";
    let whole = format!("70, finish {{async 1 {{2, finish {{async 2 {{{half}}}, 1, async 3 {{{half}}}}}, 1}}}}, 5");
    assert_eq!(events(&trace), Some(whole));
    let found = Second::new().profile_of(Family::Finishes, &trace, LIMITS, &LIMITS.for_tables()).expect("accepted");
    let by_hand = [[1, 127, 93, 75, 75], [1, 52, 18, 4, 4], [3, 34, 24, 24, 0], [3, 34, 24, 24, 14]];
    assert_eq!((found.answer, found.rows), ([127, 93, 3, 41], all_cycles_alone(&by_hand)));
    let sites = ["main", "line 24", "line 10", "line 13"];
    for (row, (site, [calls, work, span, local, on_span])) in sites.iter().zip(by_hand).enumerate() {
        let share = 100.0 * on_span as f64 / 93.0;
        let told = format!("| {row} | {site} | {calls} | {work} | {span} | {local} | {on_span} | {share:.1} % |");
        assert!(finishes_page().contains(&told), "{told}");
    }
    assert!(page().lines().any(|row| row.contains("`treesum.trace`") && row.contains("`ff0600000004`")));
    assert_eq!(example("treesum.trace"), "ff0600000004\n");
}

#[test]
fn the_twelve_traces_of_asyncs_and_finishes_are_on_the_page() {
    for case in finishes::twelve() {
        let events = if case.name == "L" {
            "63 finishes inside one another, 1 in the innermost".into()
        } else {
            format!("`{}`", case.events)
        };
        let [_, work, span, ..] = case.rows[0];
        let [a, b, c] = case.rows.map(|row| row[ON_SPAN]);
        let told = format!("| {} | {events} | {work} | {span} | {a}, {b}, {c} | ", case.name);
        assert!(finishes_page().contains(&told), "{told}");
    }
}

#[test]
fn the_sheets_are_read_as_the_page_says() {
    let read = |name| sheet::read(&file(name), 21).map_err(|refusal| (refusal.number(), refusal.line));
    let case_i = all_cycles_alone(&[[1, 10, 9, 2, 2], [1, 8, 7, 1, 0], [1, 7, 7, 7, 7]]).concat();
    assert_eq!((read("case-i.csv"), read("case-i-quoted.csv")), (Ok(case_i.clone()), Ok(case_i)));
    assert_eq!(read("refusal-15-line-ends.csv"), Err((15, 0)));
    assert_eq!(read("refusal-15-header.csv"), Err((15, 0)));
    assert_eq!(read("refusal-15-number.csv"), Err((15, 1)));
}

#[test]
fn each_refusal_is_on_the_page() {
    let by_hand = [
        ("refusal-02.trace", "ff0200000000"),
        ("refusal-05.trace", "ff0500000002"),
        ("refusal-06.trace", "ff0600000004"),
        ("refusal-07.trace", "ff0700000005"),
        ("refusal-08.trace", "ff0800000002"),
        ("refusal-09.trace", "ff090000001f"),
        ("refusal-10.trace", "ff0a00000002"),
        ("refusal-11.trace", "ff0b00000001"),
        ("refusal-12.trace", "ff0c00000020"),
        ("refusal-14.trace", "ff0e00000004"),
        ("refusal-22.trace", "ff1600000003"),
    ];
    for (name, line) in by_hand {
        assert_eq!(example(name), format!("{line}\n"), "{name}");
        assert!(page().lines().any(|row| row.contains(name) && row.contains(line)), "{name}");
    }
}

#[test]
fn one_line_too_many_for_the_program_is_refused_before_any_other_check() {
    let script = folder().join("refusal-03.sh");
    let trace = Command::new("sh").arg(script).output().expect("sh").stdout;
    assert_eq!(trace.len(), 2850 * 23);
    assert_eq!(printed(&trace), "ff0300000000\n");
    assert_eq!(printed(&trace[..MOST_BYTES]), "ff0e00000b21\n");
    assert_eq!(printed(&trace[..MOST_BYTES + 1]), "ff0300000000\n");
}
