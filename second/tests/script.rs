//! The script with dictionaries prints what the second program prints.

use second::check::Limits;
use second::compare::case::Question;
use second::compare::{fixed, generate};
use second::library::Second;
use second::report;
use std::process::Command;
use std::{env, fs, process};

const LIMITS: Limits = Limits { depth: 64, sites: 255 };

/// What the second program prints with the widest limits.
fn printed(trace: &[u8]) -> String {
    let text = match Second::new().profile(trace, LIMITS, &LIMITS.for_tables()) {
        Err(refused) => report::refusal(refused.number(), refused.line, usize::MAX),
        Ok(profile) => report::full_report(profile.rows.as_flattened(), profile.answer[2], usize::MAX),
    };
    text.expect("room without end")
}

/// The traces among the fixed and the generated cases.
fn traces() -> Vec<Vec<u8>> {
    let cases = fixed::cases().into_iter().chain((0..1_500).map(|number| generate::case(4, number)));
    let trace = |question| match question {
        Question::Engines { trace, .. } => Some(trace),
        _ => None,
    };
    cases.filter_map(|case| trace(case.question)).collect()
}

#[test]
fn prints_the_same() {
    let folder = env::temp_dir().join(format!("nyolifuwe-script-{}", process::id()));
    fs::create_dir_all(&folder).expect("a folder for the traces");
    let traces = traces();
    let names: Vec<_> = (0..traces.len()).map(|n| folder.join(format!("{n}.trace"))).collect();
    names.iter().zip(&traces).for_each(|(name, trace)| fs::write(name, trace).expect("a trace written"));
    let script = concat!(env!("CARGO_MANIFEST_DIR"), "/script/profile.py");
    let output = Command::new("python3").args([script, "-d64", "-m255"]).args(&names).output().expect("python3");
    fs::remove_dir_all(&folder).expect("the folder removed");
    let right: String = traces.iter().map(|trace| printed(trace)).collect();
    assert_eq!(String::from_utf8_lossy(&output.stdout), right);
}
