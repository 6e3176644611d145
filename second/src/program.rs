//! What the report program prints for an input.

use crate::check::Limits;
use crate::library::Second;
use crate::report;

/// "with D = 32, M = 31 and the table engine"
pub const LIMITS: Limits = Limits { depth: 32, sites: 31 };

/// "Above 65,527 bytes it prints `ff0300000000`, before any other check."
pub const MOST_BYTES: usize = 65_527;

/// The report of a trace, or its refusal.
pub fn printed(input: &[u8]) -> String {
    if input.len() > MOST_BYTES {
        return refusal(3, 0);
    }
    match Second::new().profile(input, LIMITS, &LIMITS.for_tables()) {
        Err(refused) => refusal(refused.number(), refused.line),
        Ok(profile) => {
            let sites = profile.answer[2];
            let full = report::full_report(profile.rows.as_flattened(), sites, usize::MAX);
            full.expect("at most 31 sites, a row for each")
        }
    }
}

fn refusal(number: u64, line: u64) -> String {
    report::refusal(number, line, usize::MAX).expect("a number of the table and a line of the trace")
}
