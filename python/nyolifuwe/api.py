"""What the library does, over bytes and rows: every function raises Refused where the library refuses."""

from __future__ import annotations

import ctypes
from array import array
from typing import Any, Iterator, List, Optional, Sequence, Tuple

from . import library
from .errors import Refused, spawns_alone
from .library import COLUMNS, LINE_CHARS, MOST_DEPTH, MOST_SITES, ask, numbers, written
from .model import BASE, INSTRUCTIONS, SITE, Case, Frame, Place, Profile, Row, Why

FOLDED_ROOM_REFUSAL = 18


def profile(
    trace: bytes, *, depth: int = MOST_DEPTH, sites: int = MOST_SITES, engine: str = "marks", family: str = BASE
) -> Profile:
    """The profile of a trace of a family, "base" or "finish"; the engine "tables" gives the same without marks."""
    return _profile(library.function(engine, family), trace, depth, sites, engine)


def forecast(
    trace: bytes,
    entries: Sequence[Tuple[int, int]],
    *,
    depth: int = MOST_DEPTH,
    sites: int = MOST_SITES,
    engine: str = "marks",
    family: str = BASE,
) -> Profile:
    """The profile as it would be if each named row were faster by its factor; entries are rows and factors, ascending."""
    _spawns_alone("forecast", family)
    return _profile(f"nyo_forecast_{engine}", trace, depth, sites, engine, library.entries(list(entries)))


def forecast_span(
    trace: bytes, entries: Sequence[Tuple[int, int]], *, depth: int = MOST_DEPTH, sites: int = MOST_SITES
) -> int:
    """The span of a forecast, for where many are asked for and no rows are wanted."""
    answer, _, _ = _run("nyo_forecast_marks", trace, depth, sites, "marks", library.entries(list(entries)))
    return int(answer[1])


def _spawns_alone(name: str, family: str) -> None:
    """ValueError unless the family is the one that a function takes."""
    if library.known(family) != BASE:
        raise ValueError(spawns_alone(name))


def _run(
    name: str, trace: bytes, depth: int, sites: int, engine: str, *entries: ctypes.Array[Any]
) -> Tuple[Any, Any, Any]:
    """The answer, the rows and the marks (None from the table engine) that an engine's function writes."""
    if engine not in library.ENGINES:
        raise ValueError(f"no such engine: {engine}")
    scratch = numbers(library.scratch_room(engine, depth, sites))
    rows, answer = numbers(library.rows_room(sites)), numbers(library.ANSWER_NUMBERS)
    marks = ctypes.create_string_buffer(len(trace) // LINE_CHARS) if engine == "marks" else None
    ask(name, trace, depth, sites, *entries, scratch, *([] if marks is None else [marks]), rows, answer)
    return answer, rows, marks


def _profile(name: str, trace: bytes, depth: int, sites: int, engine: str, *entries: ctypes.Array[Any]) -> Profile:
    """What an engine's function answers, with the places of the sites."""
    answer, rows, marks = _run(name, trace, depth, sites, engine, *entries)
    work, span, count, lines = answer
    own = _rows(rows, count, [None, *places(trace)])
    return Profile(work, span, count, lines, own, None if marks is None else marks.raw)


def why(trace: bytes, line: int, *, depth: int = MOST_DEPTH, sites: int = MOST_SITES, family: str = BASE) -> Why:
    """Why a line is not on the span, and the chain through it; ValueError for a number that 32 bits do not hold."""
    _spawns_alone("why", family)
    if not 0 <= line <= library.MOST_ASKED:
        raise ValueError("a line number that 32 bits do not hold")
    scratch, answer = numbers(library.scratch_room("marks", depth, sites)), numbers(library.WHY_NUMBERS)
    marks = ctypes.create_string_buffer(len(trace) // LINE_CHARS)
    ask("nyo_why", trace, depth, sites, line, scratch, marks, answer)
    case, about = Case(answer[0]), int(answer[1])
    return Why(case, about if case == Case.SLACK else None, about if case == Case.TIED else None, marks.raw)


def _rows(room: ctypes.Array[ctypes.c_uint64], count: int, where: Sequence[Optional[Place]]) -> List[Row]:
    """The rows of the root and so many sites out of the room that holds them."""
    wide = len(COLUMNS)
    return [Row(row, where[row], *room[wide * row : wide * (row + 1)]) for row in range(count + 1)]


def places(trace: bytes) -> List[Place]:
    """The places that the site lines of an accepted trace declare, site 1 first."""
    frames = (line_at(trace, line) for line in lines_of_kind(trace, SITE))
    return [Place(frame.file, frame.value, frame.column) for frame in frames]


def lines_of_kind(trace: bytes, kind: int) -> Iterator[int]:
    """The numbers of an accepted trace's lines of a kind, ascending."""
    first, second = b"%02x" % kind
    firsts, seconds = trace[0::LINE_CHARS], trace[1::LINE_CHARS]
    line = seconds.find(second)
    while line >= 0:
        if firsts[line] == first:
            yield line
        line = seconds.find(second, line + 1)


def kind_at(trace: bytes, line: int) -> int:
    """The kind of a line of an accepted trace."""
    return int(trace[LINE_CHARS * line : LINE_CHARS * line + 2], 16)


def line_at(trace: bytes, line: int, family: str = BASE) -> Frame:
    """A line of an accepted trace, taken apart."""
    return read_line(trace[LINE_CHARS * line : LINE_CHARS * (line + 1)], family=family)


def carried(trace: bytes, line: int) -> int:
    """The instructions of a cost line of an accepted trace: what a 07 line directly behind it carries, otherwise 0."""
    return line_at(trace, line + 1).value if kind_at(trace, line + 1) == INSTRUCTIONS else 0


def compact(trace: bytes, *, depth: int = MOST_DEPTH, sites: int = MOST_SITES, family: str = BASE) -> bytes:
    """The trace without the lines that say nothing: the same work, span and rows."""
    _spawns_alone("compact", family)
    return written("nyo_compact", trace, depth, sites, room=len(trace))


def folded(
    trace: bytes,
    names: bytes,
    stock: bytes = b"",
    *,
    depth: int = MOST_DEPTH,
    sites: int = MOST_SITES,
    family: str = BASE,
) -> bytes:
    """A line for each cost of the trace: the names of the open invocations, and the cost."""
    _spawns_alone("folded", family)
    scratch = numbers(library.in_range(depth, MOST_DEPTH))
    room = 2 * len(trace)
    while True:
        try:
            return written("nyo_folded", trace, depth, sites, names, stock, scratch, room=room)
        except Refused as refused:
            if refused.number != FOLDED_ROOM_REFUSAL:
                raise
        room *= 2


def _room_of(rows: Sequence[Row]) -> ctypes.Array[ctypes.c_uint64]:
    """The numbers of rows as they are lent; ValueError unless they are rows 0, 1, 2 and on of 64-bit numbers."""
    if not rows or [row.row for row in rows] != list(range(len(rows))):
        raise ValueError("rows are the root's and then each site's, none left out")
    try:
        flat = array("Q", [number for row in rows for number in row[2:]])
    except OverflowError as error:
        raise ValueError("a row number that 64 bits do not hold") from error
    return (ctypes.c_uint64 * len(flat)).from_buffer(flat)


def report(rows: Sequence[Row], *, full: bool = True) -> bytes:
    """The report of rows: a line of hexadecimal digits for each; where not full, for the root and each row with calls."""
    name = "nyo_full_report" if full else "nyo_report"
    return written(name, _room_of(rows), len(rows) - 1, room=library.ROW_CHARS * len(rows))


def refusal_line(number: int, line: int) -> bytes:
    """A refusal as the report program prints it."""
    return written("nyo_refusal", number, line, room=library.REFUSAL_CHARS)


def write_csv(rows: Sequence[Row]) -> bytes:
    """Rows as comma-separated text."""
    return written("nyo_csv_write", _room_of(rows), len(rows) - 1, room=library.csv_room(len(rows) - 1))


def read_csv(text: bytes) -> List[Row]:
    """The rows of comma-separated text, which has no places."""
    rows, count = numbers(library.rows_room(MOST_SITES)), numbers(1)
    ask("nyo_csv_read", text, rows, count)
    return _rows(rows, count[0], [None] * (count[0] + 1))


def read_line(chars: bytes, *, family: str = BASE) -> Frame:
    """A trace line of a family, its line feed included, taken apart."""
    frame = numbers(library.FRAME_NUMBERS)
    ask(library.function("read_line", family), chars, frame)
    return Frame(*frame)


def write_line(frame: Frame, *, family: str = BASE) -> bytes:
    """A trace line of a family put together, its line feed included."""
    room = numbers(library.FRAME_NUMBERS)
    room[:] = [library.within(number) for number in frame]
    return written(library.function("write_line", family), room, room=LINE_CHARS)
