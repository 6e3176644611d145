//! The grounds of refusal and their numbers.

/// Why a trace, a line or a call is refused; the numbers are those of the table of refusals. 13 is unused.
#[derive(Clone, Copy, Debug, PartialEq, Eq, PartialOrd, Ord)]
#[repr(u8)]
pub enum Ground {
    /// "D or M outside its range"
    Limits = 1,
    /// "length not a multiple of 23"
    Length = 2,
    /// "more than 65,536 lines"
    Lines = 3,
    /// "any lent slice shorter than stated"
    Room = 4,
    /// "a wrong character in the line"
    Character = 5,
    /// "unknown kind, unused field not zero, or a value outside the table"
    Table = 6,
    /// "a line after the root's return"
    AfterEnd = 7,
    /// "a site line", "not numbered one above the last (the first is 1)"
    SiteOrder = 8,
    /// "a site line whose number is above M"
    SiteLimit = 9,
    /// "a place already declared"
    Place = 10,
    /// "call or spawn of site 0 or one not declared"
    Undeclared = 11,
    /// "more than D invocations open"
    Depth = 12,
    /// "lines end before the root's return"
    Unfinished = 14,
    /// "the first record (the header is 0) that isn't good or is missing"
    Record = 15,
    /// "output shorter than the text", "room below" seven "numbers a row"
    SheetRoom = 16,
    /// "the first row, among root and declared sites, whose shown name is bad or missing from both lists"
    Name = 17,
    /// "output shorter than the text"
    FoldedRoom = 18,
    /// "list too long, unordered or naming an undeclared row"
    Entries = 19,
    /// "factor outside its range"
    Factor = 20,
    /// "output shorter than the result"
    CompactRoom = 21,
    /// "a 07 line not directly after a cost"
    Stray = 22,
    /// "a line number at or past the end"
    PastEnd = 23,
}

/// "Refused: a number and a line."
#[derive(Clone, Copy, Debug, PartialEq, Eq)]
pub struct Refusal {
    pub ground: Ground,
    pub line: u64,
}

impl Ground {
    /// This ground with a line.
    pub fn at(self, line: usize) -> Refusal {
        Refusal { ground: self, line: line as u64 }
    }
}

impl Refusal {
    /// The number in the table of refusals.
    pub fn number(self) -> u64 {
        self.ground as u64
    }
}
