"""Where a refused trace is wrong: the line to show and which of its characters, found by asking the library; and what to do."""

from __future__ import annotations

from itertools import accumulate, product
from typing import Iterator, NamedTuple, Optional

from .api import read_line
from .errors import Refused
from .library import LINE_CHARS
from .model import BASE, FINISHES, Frame
from .names import printable

ACCEPTED, LENGTH, CHARACTER, TABLE, PLACE, STRAY = 0, 2, 5, 6, 10, 22
OF_A_LINE = (*range(5, 13), STRAY)
OF_THE_SITE = (8, 9, 11)

# How a line begins whose kind the other family alone has, and what to try then.
OTHER = {
    BASE: ((b"12", b"13"), "it looks like a trace of asyncs and finishes: try --finish"),
    FINISHES: ((b"03", b"04"), "it looks like a trace of spawns and syncs: leave --finish out"),
}

# Characters of a line that are shown: a line that is much too long is cut.
WIDEST = 80

# The fields of a trace line with the number of their digits, and where each ends.
DIGITS = dict(zip(Frame._fields, (2, 4, 8, 4, 4)))
ENDS = dict(zip(DIGITS, accumulate(DIGITS.values())))


class Part(NamedTuple):
    """A part of a line: its first character, how many it has, and what is to be said of it."""

    column: int
    width: int
    note: str


class Fault(NamedTuple):
    """A line of a trace without its line feed, and the part of it that is wrong, where one can be named."""

    line: int
    text: bytes
    part: Optional[Part]


def fault(trace: bytes, refused: Refused, family: str) -> Optional[Fault]:
    """What can be shown of the refusal of a trace of a family; None where it is about no line that is there."""
    if refused.number == LENGTH:
        return wrong_length(trace)
    chars = trace[LINE_CHARS * refused.line : LINE_CHARS * (refused.line + 1)]
    if refused.number not in OF_A_LINE:
        return None
    return Fault(refused.line, without_end(chars), wrong_part(chars, refused.number, family))


def hint(trace: bytes, refused: Refused, family: str) -> str:
    """What to try where a trace that was read as one of a family looks like one of the other; otherwise nothing."""
    starts, other = OTHER[family]
    return other if refused.number == TABLE and trace.startswith(starts, LINE_CHARS * refused.line) else ""


def remedy(trace: bytes, refused: Refused, family: str) -> str:
    """What to do about the refusal of a trace of a family."""
    return hint(trace, refused, family) or refused.remedy


def told(name: str, trace: bytes, refused: Refused, family: str) -> str:
    """The refusal of a named trace for people, without the last line feed."""
    return f"{name}: {refused}\n{below(fault(trace, refused, family), remedy(trace, refused, family))}"[:-1]


def below(found: Optional[Fault], to_do: str) -> str:
    """What is shown below a refusal: the line that is wrong, where one is, and what to do."""
    return f"{marked(found) if found else ''}  what to do: {to_do}\n"


def marked(found: Fault) -> str:
    """The line that is wrong, and below it the part that is."""
    before = f"  line {found.line}: "
    line = f"{before}{shown(found.text)}\n"
    if not found.part:
        return line
    return f"{line}{' ' * (len(before) + found.part.column)}{'^' * found.part.width} {found.part.note}\n"


def shown(line: bytes) -> str:
    """A line character by character, a question mark for those that are none."""
    cut = "".join(chr(byte) if 32 <= byte < 127 else "?" for byte in line[:WIDEST])
    return cut if len(line) <= WIDEST else f"{cut}..."


def without_end(chars: bytes) -> bytes:
    """A line without its line feed, where it has one."""
    return chars[:-1] if chars.endswith(b"\n") else chars


def wrong_length(trace: bytes) -> Fault:
    """The first line, cut at line feeds, that is longer or shorter than a trace line, marked from where it differs."""
    lines = trace.split(b"\n")
    whole = [line + b"\n" for line in lines[:-1]] + lines[-1:]
    number, line = next((number, line) for number, line in enumerate(whole) if len(line) != LINE_CHARS)
    column = min(len(without_end(line)), LINE_CHARS - 1)
    note = f"the line has {len(line):,} characters and not {LINE_CHARS}"
    return Fault(number, without_end(line), Part(column, 1, note))


def wrong_part(chars: bytes, number: int, family: str) -> Optional[Part]:
    """The part of a line of a family that a refusal is about, where one can be named."""
    if number == CHARACTER:
        column = wrong_character(chars)
        wanted = "line feed" if column == LINE_CHARS - 1 else "digit"
        return Part(column, 1, f"no {wanted}: {printable(chars[column : column + 1])}")
    if number == TABLE:
        return field(wrong_field(chars, family))
    if number in OF_THE_SITE:
        return field("site")
    if number == PLACE:
        return Part(ENDS["site"], ENDS["column"] - ENDS["site"], "place")
    if number == STRAY:
        return field("kind")._replace(note="no cost on the line before")
    return None


def field(name: str) -> Part:
    """A field of a line."""
    return Part(ENDS[name] - DIGITS[name], DIGITS[name], name)


def refusal(chars: bytes, family: str = BASE) -> int:
    """The number of the line reader's refusal, ACCEPTED where it gives none."""
    try:
        read_line(chars, family=family)
    except Refused as refused:
        return refused.number
    return ACCEPTED


def wrong_character(chars: bytes) -> int:
    """The first character that the line reader takes for a wrong one, zeros in place of those behind it."""
    starts = (chars[: column + 1].ljust(LINE_CHARS - 1, b"0") for column in range(LINE_CHARS - 1))
    wrong = (column for column, start in enumerate(starts) if refusal(start + b"\n") == CHARACTER)
    return next(wrong, LINE_CHARS - 1)


def wrong_field(chars: bytes, family: str) -> str:
    """The first field of a line with which no good line of a family begins, whatever stands behind it."""
    return next(name for name in DIGITS if not begins_a_line(chars, name, family))


def begins_a_line(chars: bytes, last: str, family: str) -> bool:
    """Whether a line's characters up to a field begin some good line, 0 and 1 tried for each field behind it."""
    start = chars[: ENDS[last]]
    return any(refusal(start + rest + b"\n", family) == ACCEPTED for rest in endings(last))


def endings(last: str) -> Iterator[bytes]:
    """All digits that may stand behind a field with 0 or 1 in each field."""
    behind = list(DIGITS)[list(DIGITS).index(last) + 1 :]
    for numbers in product((0, 1), repeat=len(behind)):
        yield b"".join(b"%0*x" % (DIGITS[name], number) for name, number in zip(behind, numbers))
