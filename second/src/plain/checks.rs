//! The checks of a trace line by line, for the plain writers.

use super::{Fields, ASYNC, CALL, COST, FINISH, INSTRUCTIONS, RETURN, SITE, SPAWN};
use crate::check::{before_lines, Limits};
use crate::line::{Family, CHARS};
use crate::refusal::{Ground, Refusal};

/// Hands each line of a trace of the base family to `take`, and gives how many sites there are, or the refusal. Whether
/// too little is lent, `short` says.
pub fn each_line(
    trace: &[u8],
    limits: Limits,
    short: impl Fn(usize) -> bool,
    take: impl FnMut(&Fields),
) -> Result<usize, Refusal> {
    each_line_of(Family::Base, trace, limits, short, take)
}

/// The same of either family.
#[inline(always)]
pub fn each_line_of(
    family: Family,
    trace: &[u8],
    limits: Limits,
    short: impl Fn(usize) -> bool,
    mut take: impl FnMut(&Fields),
) -> Result<usize, Refusal> {
    let lines = before_lines(trace, limits, short).map_err(|ground| ground.at(0))?;
    let mut checks = Checks { limits, places: vec![], open: 1, before: SITE };
    for (number, chars) in trace.chunks_exact(CHARS).enumerate() {
        let chars = chars.try_into().expect("a whole line");
        take(&checks.line(family, chars).map_err(|ground| ground.at(number))?);
    }
    if checks.open > 0 {
        return Err(Ground::Unfinished.at(lines));
    }
    Ok(checks.places.len())
}

struct Checks {
    limits: Limits,
    places: Vec<u64>,
    open: u64,
    /// The kind of the line before; at the start one that carries nothing.
    before: u8,
}

impl Checks {
    /// Takes one line, or gives the smallest number that it is refused with.
    #[inline(always)]
    fn line(&mut self, family: Family, chars: &[u8; CHARS]) -> Result<Fields, Ground> {
        let fields = Fields::read_of(family, chars)?;
        if self.open == 0 {
            return Err(Ground::AfterEnd);
        }
        match fields.kind {
            CALL | SPAWN | ASYNC => self.enter(fields.site)?,
            FINISH => self.open()?,
            RETURN => self.open -= 1,
            SITE => self.site(&fields)?,
            INSTRUCTIONS if self.before != COST => return Err(Ground::Stray),
            _ => (),
        }
        self.before = fields.kind;
        Ok(fields)
    }

    /// Refusals 8, 9 and 10.
    fn site(&mut self, fields: &Fields) -> Result<(), Ground> {
        let sites = self.places.len();
        if usize::from(fields.site) != sites + 1 {
            return Err(Ground::SiteOrder);
        }
        if u64::from(fields.site) > self.limits.sites {
            return Err(Ground::SiteLimit);
        }
        if self.places.contains(&fields.place()) {
            return Err(Ground::Place);
        }
        self.places.push(fields.place());
        Ok(())
    }

    /// Refusals 11 and 12.
    fn enter(&mut self, site: u16) -> Result<(), Ground> {
        if site == 0 || usize::from(site) > self.places.len() {
            return Err(Ground::Undeclared);
        }
        self.open()
    }

    /// Refusal 12.
    fn open(&mut self) -> Result<(), Ground> {
        if self.open >= self.limits.depth {
            return Err(Ground::Depth);
        }
        self.open += 1;
        Ok(())
    }
}
