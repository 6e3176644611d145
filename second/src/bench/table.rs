//! What was measured: as a table for the screen, as a CSV file, and against the goals.

use std::fmt::Write;

/// Those that are timed, in the order of the columns.
pub const ENGINES: [&str; 5] = ["bytes", "tables", "marks", "plain", "script"];
const BYTES: usize = 0;
const TABLES: usize = 1;
const MARKS: usize = 2;
const PLAIN: usize = 3;
const SCRIPT: usize = 4;

/// One trace, and the median seconds of each engine on it.
#[derive(Clone, Debug)]
pub struct Measured {
    pub shape: &'static str,
    pub lines: usize,
    pub sites: u64,
    pub seconds: [f64; 5],
}

impl Measured {
    /// How many times as long the first takes as the second.
    fn ratio(&self, long: usize, short: usize) -> f64 {
        self.seconds[long] / self.seconds[short]
    }

    fn nanoseconds_a_line(&self, engine: usize) -> f64 {
        self.seconds[engine] * 1e9 / self.lines as f64
    }

    /// A line of the table.
    pub fn line(&self) -> String {
        let mut text = format!("{:>6} {:>4} {:<9}", self.lines, self.sites, self.shape);
        for engine in 0..ENGINES.len() {
            _ = write!(text, "{:>9.2}", self.nanoseconds_a_line(engine));
        }
        for (long, short) in RATIOS {
            _ = write!(text, "{:>8.2}", self.ratio(long, short));
        }
        text
    }
}

/// The ratios of the table: above 1 where the second is the faster.
const RATIOS: [(usize, usize); 4] = [(PLAIN, TABLES), (PLAIN, MARKS), (TABLES, BYTES), (SCRIPT, TABLES)];

/// What stands above the table.
pub fn head() -> String {
    let mut text = String::from(
        "                     nanoseconds a line                              plain/  plain/  tables/ script/\n",
    );
    text += " lines    M shape    ";
    ENGINES.iter().for_each(|engine| _ = write!(text, "{engine:>9}"));
    text + "  tables   marks   bytes  tables"
}

/// All of it, a record for each trace and engine.
pub fn csv(all: &[Measured]) -> String {
    let mut text = String::from(
        "lines,sites,shape,engine,seconds,ns_per_line,lines_per_second,plain_over_engine,engine_over_bytes\n",
    );
    for measured in all {
        for (engine, name) in ENGINES.iter().enumerate() {
            let Measured { shape, lines, sites, seconds } = measured;
            let rate = *lines as f64 / seconds[engine];
            let (line, plain, floor) =
                (measured.nanoseconds_a_line(engine), measured.ratio(PLAIN, engine), measured.ratio(engine, BYTES));
            _ = writeln!(
                text,
                "{lines},{sites},{shape},{name},{:.9},{line:.3},{rate:.0},{plain:.3},{floor:.3}",
                seconds[engine]
            );
        }
    }
    text
}

/// The goals, each with what was measured.
pub fn goals(all: &[Measured]) -> String {
    let at_31: Vec<&Measured> = all.iter().filter(|measured| measured.sites == 31).collect();
    let mut text = String::new();
    for (engine, name) in [(TABLES, "tables"), (MARKS, "marks")] {
        let (least, most) = range(at_31.iter().map(|measured| measured.ratio(PLAIN, engine)));
        _ = writeln!(text, "plain/{name} at M = 31: {least:.2} to {most:.2} (goal: at least 1.0)");
    }
    let flat = range(across(all, |a, b| a.sites < b.sites && (a.shape, a.lines) == (b.shape, b.lines), MARKS));
    _ = writeln!(text, "marks, ns a line at a larger M over a smaller: {:.2} to {:.2} (goal: flat)", flat.0, flat.1);
    for (engine, name) in [(TABLES, "tables"), (MARKS, "marks")] {
        let linear = range(across(all, |a, b| a.lines < b.lines && (a.shape, a.sites) == (b.shape, b.sites), engine));
        _ = writeln!(
            text,
            "{name}, ns a line of a longer trace over a shorter: {:.2} to {:.2} (goal: linear)",
            linear.0, linear.1
        );
    }
    for (engine, name) in [(TABLES, "tables"), (MARKS, "marks")] {
        let (least, most) = range(all.iter().map(|measured| measured.ratio(SCRIPT, engine)));
        _ = writeln!(text, "script/{name}: {least:.0} to {most:.0} (goal: at least 50)");
    }
    text
}

/// For every two traces that are so related, the second's time a line over the first's.
fn across<'a>(
    all: &'a [Measured],
    related: impl Fn(&Measured, &Measured) -> bool + 'a,
    engine: usize,
) -> impl Iterator<Item = f64> + 'a {
    let pairs = all.iter().flat_map(move |a| all.iter().map(move |b| (a, b)));
    pairs
        .filter(move |(a, b)| related(a, b))
        .map(move |(a, b)| b.nanoseconds_a_line(engine) / a.nanoseconds_a_line(engine))
}

/// The least and the most of some numbers.
fn range(numbers: impl Iterator<Item = f64>) -> (f64, f64) {
    numbers.fold((f64::INFINITY, 0.0), |(least, most), number| (least.min(number), most.max(number)))
}

#[cfg(test)]
mod tests {
    use super::*;

    fn measured() -> Measured {
        Measured { shape: "wide", lines: 1_000, sites: 31, seconds: [1e-6, 2e-5, 1e-5, 3e-5, 3e-3] }
    }

    #[test]
    fn a_record_has_its_numbers() {
        let text = csv(&[measured()]);
        let tables = text.lines().nth(2).expect("a record for each engine");
        assert_eq!(tables, "1000,31,wide,tables,0.000020000,20.000,50000000,1.500,20.000");
    }

    #[test]
    fn the_goals_say_the_ratios() {
        let text = goals(&[measured()]);
        assert!(text.contains("plain/tables at M = 31: 1.50 to 1.50"), "{text}");
        assert!(text.contains("script/marks: 300 to 300"), "{text}");
    }
}
