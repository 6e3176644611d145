"""What the library answers, as Python values: a place, a row, a trace line, a whole profile, why a line is not on the span."""

from __future__ import annotations

from dataclasses import dataclass
from enum import IntEnum
from typing import TYPE_CHECKING, List, NamedTuple, Optional

if TYPE_CHECKING:
    import pandas


# The kinds of trace lines.
SITE, CALL, SPAWN, SYNC, RETURN, COST, INSTRUCTIONS = range(1, 8)
ASYNC, FINISH = 0x12, 0x13

# The families of traces: of spawns and syncs, and of asyncs and finishes.
BASE, FINISHES = "base", "finish"


class Place(NamedTuple):
    """Where a site stands in the source."""

    file: int
    line: int
    column: int


class Frame(NamedTuple):
    """A trace line, taken apart."""

    kind: int
    site: int
    value: int
    file: int
    column: int


class Row(NamedTuple):
    """The numbers of the root (row 0, which has no place) or of a site, in the library's order; the last two are instructions."""

    row: int
    place: Optional[Place]
    calls: int
    work: int
    span: int
    local: int
    on_span: int
    ilocal: int
    ion_span: int


@dataclass(frozen=True)
class Profile:
    """The answer for an accepted trace; marks has a byte a line, 1 on the chosen chain; the table engine gives none."""

    work: int
    span: int
    sites: int
    lines: int
    rows: List[Row]
    marks: Optional[bytes]

    @property
    def has_instructions(self) -> bool:
        """Whether the trace carries instructions beside cycles."""
        return any(row.ilocal for row in self.rows)

    @property
    def parallelism(self) -> Optional[float]:
        """Work over span; None where the span is 0."""
        return self.work / self.span if self.span else None

    def frame(self) -> pandas.DataFrame:
        """The rows as a pandas frame with a row's number for its index; wants pandas installed."""
        import pandas

        flat = [(row.row, *(row.place or (None,) * len(Place._fields)), *row[2:]) for row in self.rows]
        frame = pandas.DataFrame(flat, columns=["row", *Place._fields, *Row._fields[2:]])
        return frame.astype({name: "Int64" for name in Place._fields}).set_index("row")


class Case(IntEnum):
    """The four answers to why a line is not on the span, numbered as the library numbers them."""

    NOT_COST, ON_CHAIN, SLACK, TIED = range(4)


@dataclass(frozen=True)
class Why:
    """Why a line is not on the span; slack and tied_line are None where the case is another.

    slack is what the heaviest chain through the line weighs less than the span; tied_line is the smallest line that is on the
    chosen chain and not on the first of the heaviest through the line. marks has a byte a line, 1 on that first chain, which
    is the chosen one for a line on it; a line that is no cost has no chain.
    """

    case: Case
    slack: Optional[int]
    tied_line: Optional[int]
    marks: bytes

    @property
    def lines(self) -> List[int]:
        """The marked lines, ascending."""
        return [line for line, mark in enumerate(self.marks) if mark]
