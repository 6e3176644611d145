//! The plain engine, its forecast, the plain writer of folded stacks, the plain compactor and the plain answer for a line give
//! what the second program gives.

use second::check::Limits;
use second::compact;
use second::compare::case::{Case, Question};
use second::compare::{carried, finishes, fixed, generate, on_the_way};
use second::folded;
use second::library::Second;
use second::plain;

/// Holds the plain engine against the second program on the traces among some cases, and counts them.
fn alike(cases: impl IntoIterator<Item = Case>) -> usize {
    let mut count = 0;
    for case in cases {
        let Question::Engines { family, trace, limits, .. } = &case.question else { continue };
        let near = Limits { depth: limits.depth.min(64), sites: limits.sites.min(255) };
        let lent = near.for_marks(trace.len() / 23);
        let right = Second::new().profile_of(*family, trace, *limits, &lent);
        assert_eq!(plain::profile_of(*family, trace, *limits, &lent), right, "{case}");
        count += 1;
    }
    count
}

#[test]
fn on_the_fixed_traces() {
    // Those with 07 lines and those of asyncs and finishes in seven rooms, the empty file and the longest trace among
    // these.
    let finishes = finishes::twelve().len() + finishes::refused().len() + 2;
    assert_eq!(alike(fixed::cases()), 58 + on_the_way::traces().len() + 7 * (carried::traces().len() + finishes));
}

#[test]
fn on_generated_traces() {
    assert!(alike((0..50_000).map(|number| generate::case(3, number))) > 12_000);
}

/// Holds the plain forecast against the second program on the entries among some cases, and counts them.
fn forecast_alike(cases: impl IntoIterator<Item = Case>) -> usize {
    let mut count = 0;
    for case in cases {
        let Question::Forecast { trace, limits, entries, .. } = &case.question else { continue };
        let near = Limits { depth: limits.depth.min(64), sites: limits.sites.min(255) };
        let lent = near.for_marks(trace.len() / 23);
        let right = Second::new().forecast(trace, *limits, entries, &lent);
        assert_eq!(plain::forecast(trace, *limits, entries, &lent), right, "{case}");
        count += 1;
    }
    count
}

#[test]
fn on_the_fixed_entries() {
    let traces = on_the_way::traces().len() + carried::traces().len();
    assert_eq!(forecast_alike(fixed::cases()), 7 * (39 + carried::FORECASTS.len()) + traces);
}

#[test]
fn on_generated_entries() {
    assert!(forecast_alike((0..50_000).map(|number| generate::case(3, number))) > 5_000);
}

/// Holds the plain writer of folded stacks against the second program on the lists among some cases, with just enough room
/// and one character less, and counts them.
fn folded_alike(cases: impl IntoIterator<Item = Case>) -> usize {
    let mut count = 0;
    for case in cases {
        let Question::Folded { trace, limits, lists: [project, stock], .. } = &case.question else { continue };
        let lists: [&[u8]; 2] = [project, stock];
        let right = folded::write(trace, *limits, lists, folded::Lent::ALL);
        let mut out = vec![0; right.as_ref().map_or(0, String::len)];
        let found = plain::folded::write(trace, *limits, lists, 64, &mut out);
        let found = found.map(|length| String::from_utf8_lossy(&out[..length]).into_owned());
        assert_eq!(found, right, "{case}");
        if let Some((_, less)) = out.split_last_mut() {
            let refused = plain::folded::write(trace, *limits, lists, 64, less).map_err(|refusal| refusal.number());
            assert_eq!(refused, Err(18), "{case}");
        }
        count += 1;
    }
    count
}

#[test]
fn on_the_fixed_lists() {
    let traces = on_the_way::traces().len() + carried::traces().len();
    assert_eq!(folded_alike(fixed::cases()), 7 * 47 + traces);
}

#[test]
fn on_generated_lists() {
    assert!(folded_alike((0..50_000).map(|number| generate::case(3, number))) > 5_000);
}

/// Holds the plain compactor against the second program on the traces among some cases, with just enough room and one
/// character less, and counts them.
fn compacts_alike(cases: impl IntoIterator<Item = Case>) -> usize {
    let mut count = 0;
    for case in cases {
        let Question::Compact { trace, limits, .. } = &case.question else { continue };
        let right = compact::write(trace, *limits, compact::Lent::ALL);
        let mut out = vec![0; right.as_ref().map_or(0, Vec::len)];
        let found = plain::compact::write(trace, *limits, &mut out).map(|length| out[..length].to_vec());
        assert_eq!(found, right, "{case}");
        if let Some((_, less)) = out.split_last_mut() {
            let refused = plain::compact::write(trace, *limits, less).map_err(|refusal| refusal.number());
            assert_eq!(refused, Err(21), "{case}");
        }
        count += 1;
    }
    count
}

#[test]
fn on_the_fixed_compactions() {
    // 44 traces by hand, 5 long ones and 18 that are refused, 16 with site lines on the way, and 26 with 07 lines and a long
    // one, in six rooms.
    let traces = on_the_way::traces().len() + carried::traces().len();
    assert_eq!(compacts_alike(fixed::cases()), 6 * (44 + 5 + 18 + 16 + 26 + 1) + traces);
}

#[test]
fn on_generated_compactions() {
    assert!(compacts_alike((0..50_000).map(|number| generate::case(3, number))) > 5_000);
}

/// Holds the plain answer against the second program on the lines that are asked among some cases, and counts them.
fn why_alike(cases: impl IntoIterator<Item = Case>) -> usize {
    let mut count = 0;
    for case in cases {
        let Question::Why { trace, limits, lines, .. } = &case.question else { continue };
        let near = Limits { depth: limits.depth.min(64), sites: limits.sites.min(255) };
        let lent = near.for_why(trace.len() / 23);
        for &line in lines {
            let right = Second::new().why(trace, *limits, line, &lent);
            assert_eq!(plain::why::why(trace, *limits, line, &lent), right, "line {line} of {case}");
            count += 1;
        }
    }
    count
}

#[test]
fn on_the_fixed_lines() {
    assert!(why_alike(fixed::cases()) > 3_000);
}

#[test]
fn on_generated_lines() {
    assert!(why_alike((0..50_000).map(|number| generate::case(3, number))) > 40_000);
}
