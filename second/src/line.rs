//! A trace line: its characters, its five fields and the table that they keep to.

use crate::refusal::Ground;
use std::ops::RangeInclusive;

/// "23 characters: 22 digits", in both cases, "then a line feed."
pub const CHARS: usize = 23;

/// The digits of each field: "kind (2 digits), site (4), value (8), file (4), column (4)".
pub const WIDTHS: [usize; 5] = [2, 4, 8, 4, 4];

/// Kind, site, value, file and column as plain numbers, whether or not they keep to the table.
pub type Fields = [u64; WIDTHS.len()];

/// The two families of traces: that of spawn and sync, and its sibling of async and finish.
#[derive(Clone, Copy, Debug, PartialEq, Eq)]
pub enum Family {
    Base,
    Finishes,
}

/// What a line says happened, in either family.
#[derive(Clone, Copy, Debug, PartialEq, Eq)]
pub enum Kind {
    Site,
    Call,
    Spawn,
    Sync,
    Return,
    Cost,
    Instructions,
    Async,
    Finish,
}

/// "file, line and column"
pub type Place = [u64; 3];

/// A line that keeps to the table.
#[derive(Clone, Copy, Debug, PartialEq, Eq)]
pub struct Line {
    pub kind: Kind,
    pub site: u64,
    pub value: u64,
    pub file: u64,
    pub column: u64,
}

impl Family {
    pub const BOTH: [Family; 2] = [Family::Base, Family::Finishes];

    /// "kinds 12 async (with a site) and 13 finish; kinds 03 and 04 are refused as 6 in it"; 12 and 13 are in the
    /// other.
    pub fn has(self, kind: Kind) -> bool {
        match kind {
            Kind::Spawn | Kind::Sync => self == Family::Base,
            Kind::Async | Kind::Finish => self == Family::Finishes,
            _ => true,
        }
    }

    /// The line with these fields, or refusal 6 "where a field breaks the table".
    pub fn line(self, fields: &Fields) -> Result<Line, Ground> {
        let [number, rest @ ..] = *fields;
        let kind = Kind::numbered(number).filter(|kind| self.has(*kind)).ok_or(Ground::Table)?;
        let keeps = kind.table().iter().zip(&rest).all(|(range, field)| range.contains(field));
        let [site, value, file, column] = rest;
        keeps.then_some(Line { kind, site, value, file, column }).ok_or(Ground::Table)
    }

    /// "The line reader gives refusal 2 unless it is lent exactly 23 characters, then 5, then 6."
    pub fn read(self, chars: &[u8]) -> Result<Line, Ground> {
        if chars.len() != CHARS {
            return Err(Ground::Length);
        }
        self.line(&fields_of(chars).ok_or(Ground::Character)?)
    }

    /// "The line writer takes a frame and gives 23 characters, or refusal 6."
    pub fn write(self, fields: &Fields) -> Result<Vec<u8>, Ground> {
        self.line(fields).map(|_| chars(fields))
    }
}

impl Kind {
    /// The kind with this number, if there is one.
    pub fn numbered(number: u64) -> Option<Kind> {
        match number {
            1 => Some(Kind::Site),
            2 => Some(Kind::Call),
            3 => Some(Kind::Spawn),
            4 => Some(Kind::Sync),
            5 => Some(Kind::Return),
            6 => Some(Kind::Cost),
            7 => Some(Kind::Instructions),
            0x12 => Some(Kind::Async),
            0x13 => Some(Kind::Finish),
            _ => None,
        }
    }

    /// The number that the first two digits show.
    pub fn number(self) -> u64 {
        match self {
            Kind::Site => 1,
            Kind::Call => 2,
            Kind::Spawn => 3,
            Kind::Sync => 4,
            Kind::Return => 5,
            Kind::Cost => 6,
            Kind::Instructions => 7,
            Kind::Async => 0x12,
            Kind::Finish => 0x13,
        }
    }

    /// Whether a line of this kind opens something that a return closes: "05 closes the innermost open thing".
    pub fn opens(self) -> bool {
        self.makes() || self == Kind::Finish
    }

    /// Whether a line of this kind makes an invocation of its site.
    pub fn makes(self) -> bool {
        matches!(self, Kind::Call | Kind::Spawn | Kind::Async)
    }

    /// What the table lets site, value, file and column be. "Unused fields are zero."
    fn table(self) -> [RangeInclusive<u64>; 4] {
        const UNUSED: RangeInclusive<u64> = 0..=0;
        const ANY_SITE: RangeInclusive<u64> = 0..=0xffff;
        match self {
            Kind::Site => [ANY_SITE, 1..=0xffff_ffff, 1..=0xffff, 1..=0xffff],
            Kind::Call | Kind::Spawn | Kind::Async => [ANY_SITE, UNUSED, UNUSED, UNUSED],
            Kind::Sync | Kind::Return | Kind::Finish => [UNUSED, UNUSED, UNUSED, UNUSED],
            Kind::Cost | Kind::Instructions => [UNUSED, 1..=0xffff_ffff, UNUSED, UNUSED],
        }
    }
}

impl Line {
    /// Kind, site, value, file and column.
    pub fn fields(&self) -> Fields {
        [self.kind.number(), self.site, self.value, self.file, self.column]
    }

    /// Where a site line says that its site stands.
    pub fn place(&self) -> Place {
        [self.file, self.value, self.column]
    }

    /// The cost that this line adds: its value if it is a cost line, otherwise nothing.
    pub fn cost(&self) -> u64 {
        match self.kind {
            Kind::Cost => self.value,
            _ => 0,
        }
    }
}

/// The line reader of the base family.
pub fn read(chars: &[u8]) -> Result<Line, Ground> {
    Family::Base.read(chars)
}

/// A line of either family.
pub fn read_any(chars: &[u8]) -> Result<Line, Ground> {
    Family::Base.read(chars).or_else(|_| Family::Finishes.read(chars))
}

/// The line writer of the base family.
pub fn write(fields: &Fields) -> Result<Vec<u8>, Ground> {
    Family::Base.write(fields)
}

/// The characters of fields that are not too wide, whether or not they keep to the table.
pub fn chars(fields: &Fields) -> Vec<u8> {
    let digits: String = fields.iter().zip(WIDTHS).map(|(field, width)| format!("{field:0width$x}")).collect();
    (digits + "\n").into_bytes()
}

/// The five numbers that 23 characters show, if each of them is right.
fn fields_of(chars: &[u8]) -> Option<Fields> {
    let (feed, mut digits) = chars.split_last()?;
    let mut fields = [0; WIDTHS.len()];
    for (field, width) in fields.iter_mut().zip(WIDTHS) {
        let (own, rest) = digits.split_at(width);
        *field = own.iter().try_fold(0, |number, &c| Some(16 * number + digit(c)?))?;
        digits = rest;
    }
    (*feed == b'\n').then_some(fields)
}

/// What a digit is worth: "digits from `0`-`9`, `a`-`f`"; "Reading a digit now takes both cases everywhere, mixed too."
fn digit(c: u8) -> Option<u64> {
    match c {
        b'0'..=b'9' => Some(u64::from(c - b'0')),
        b'a'..=b'f' => Some(u64::from(c - b'a') + 10),
        b'A'..=b'F' => Some(u64::from(c - b'A') + 10),
        _ => None,
    }
}

#[cfg(test)]
mod tests {
    use super::*;

    const SITE: &[u8] = b"0100020000001400010009\n";

    #[test]
    fn a_site_line_is_read_field_by_field() {
        assert_eq!(read(SITE).map(|line| line.fields()), Ok([1, 2, 20, 1, 9]));
    }

    #[test]
    fn what_is_written_is_what_was_read() {
        assert_eq!(write(&[1, 2, 20, 1, 9]).as_deref(), Ok(SITE));
        assert_eq!(write(&[6, 0, 0xffff_ffff, 0, 0]).as_deref(), Ok(&b"060000ffffffff00000000\n"[..]));
        assert_eq!(write(&[7, 0, 0xffff_ffff, 0, 0]).as_deref(), Ok(&b"070000ffffffff00000000\n"[..]));
    }

    #[test]
    fn length_comes_before_characters_and_characters_before_the_table() {
        assert_eq!(read(b"zz"), Err(Ground::Length));
        assert_eq!(read(&[SITE, b"\n"].concat()), Err(Ground::Length));
        assert_eq!(read(b"99000200000014000100g9\n"), Err(Ground::Character));
        assert_eq!(read(b"9900020000001400010009\n"), Err(Ground::Table));
    }

    #[test]
    fn capitals_are_read_mixed_too_and_their_neighbours_are_not() {
        assert_eq!(read(b"060000aBcDeF0100000000\n").map(|line| line.value), Ok(0xabcd_ef01));
        assert_eq!(read(b"0100020000001A0001000B\n").map(|line| line.fields()), Ok([1, 2, 26, 1, 11]));
        for neighbour in b"/:@G[`g" {
            let mut line = *b"0600000000000x00000000\n";
            line[13] = *neighbour;
            assert_eq!(read(&line), Err(Ground::Character), "{neighbour}");
        }
    }

    #[test]
    fn the_last_character_is_a_line_feed() {
        assert_eq!(read(b"05000000000000000000000"), Err(Ground::Character));
        assert_eq!(read(b"050000000000000000000\n\n"), Err(Ground::Character));
    }

    #[test]
    fn each_family_has_its_own_kinds() {
        let kinds = |family: Family| {
            let good = |kind: &u64| [0, 1].iter().any(|&value| family.write(&[*kind, 0, value, value, value]).is_ok());
            let cost = |kind: &u64| family.write(&[*kind, 0, 1, 0, 0]).is_ok();
            (0..256).filter(|kind| good(kind) || cost(kind)).collect::<Vec<u64>>()
        };
        assert_eq!(kinds(Family::Base), [1, 2, 3, 4, 5, 6, 7]);
        assert_eq!(kinds(Family::Finishes), [1, 2, 5, 6, 7, 0x12, 0x13]);
    }

    #[test]
    fn an_async_has_a_site_and_a_finish_has_nothing() {
        let family = Family::Finishes;
        assert_eq!(family.read(b"120002000000000000000A\n"), Err(Ground::Table));
        assert_eq!(family.read(b"1200020000000000000000\n").map(|line| line.fields()), Ok([0x12, 2, 0, 0, 0]));
        assert_eq!(family.read(b"1300000000000000000000\n").map(|line| line.fields()), Ok([0x13, 0, 0, 0, 0]));
        for bad in [[0x12, 0x1_0000, 0, 0, 0], [0x12, 1, 1, 0, 0], [0x12, 1, 0, 1, 0], [0x12, 1, 0, 0, 1]] {
            assert_eq!(family.write(&bad), Err(Ground::Table), "{bad:x?}");
        }
        for bad in [[0x13, 1, 0, 0, 0], [0x13, 0, 1, 0, 0], [0x13, 0, 0, 1, 0], [0x13, 0, 0, 0, 1]] {
            assert_eq!(family.write(&bad), Err(Ground::Table), "{bad:x?}");
        }
    }

    #[test]
    fn each_bound_of_the_table_is_kept() {
        for good in [[1, 0, 1, 1, 1], [1, 0xffff, 0xffff_ffff, 0xffff, 0xffff], [2, 0, 0, 0, 0], [3, 0xffff, 0, 0, 0]] {
            assert!(write(&good).is_ok(), "{good:?}");
        }
        for bad in [
            [0, 0, 0, 0, 0],
            [8, 0, 1, 0, 0],
            [0x106, 0, 1, 0, 0],
            [1, 1, 0, 1, 1],
            [1, 1, 1, 0, 1],
            [1, 1, 1, 1, 0],
            [1, 0x1_0000, 1, 1, 1],
            [2, 1, 1, 0, 0],
            [3, 1, 0, 1, 0],
            [4, 1, 0, 0, 0],
            [5, 0, 0, 0, 1],
            [6, 0, 0, 0, 0],
            [6, 1, 1, 0, 0],
            [6, 0, 0x1_0000_0000, 0, 0],
            [7, 0, 0, 0, 0],
            [7, 1, 1, 0, 0],
            [7, 0, 1, 1, 0],
            [7, 0, 1, 0, 1],
            [7, 0, 0x1_0000_0000, 0, 0],
        ] {
            assert_eq!(write(&bad), Err(Ground::Table), "{bad:?}");
        }
    }
}
