"""The binding: the shared library, its functions as include/nyolifuwe.h declares them, and the room that each needs."""

from __future__ import annotations

import ctypes
import os
from ctypes import POINTER, c_char_p, c_size_t, c_uint32, c_uint64
from functools import lru_cache
from pathlib import Path
from typing import Any, Dict, List, Tuple, Union

from .errors import LibraryMissing, Refused
from .model import BASE, FINISHES, Row

MOST_DEPTH, MOST_SITES, MOST_LINES = 64, 255, 65536

# The largest line number that can be asked about.
MOST_ASKED = (1 << 32) - 1

# The numbers of a row, in the order in which the library writes them.
COLUMNS: Tuple[str, ...] = Row._fields[2:]

# Characters of a trace line, of a report line, of a printed refusal.
LINE_CHARS = 23
ROW_CHARS = 4 + 16 * len(COLUMNS) + 1
REFUSAL_CHARS = 13

# Numbers of a trace line, of an answer, and of the answer about one line.
FRAME_NUMBERS = 5
ANSWER_NUMBERS = 4
WHY_NUMBERS = 2

FILE_NAME = "libnyolifuwe.so"
ENGINES = ("marks", "tables")


class Entry(ctypes.Structure):
    """A forecast entry as the header has it."""

    _fields_ = [("row", c_uint64), ("factor", c_uint64)]


# How a slice passes: its memory and the number of its elements.
TEXT = (c_char_p, c_size_t)
NUMBERS = (POINTER(c_uint64), c_size_t)
ENTRIES = (POINTER(Entry), c_size_t)
NUMBER = (c_uint64,)
LINE = (c_uint32,)
TRACE = TEXT + 2 * NUMBER  # with the limits on depth and sites
TO_TEXT = TEXT + NUMBERS  # the output, and how much of it was written

PARAMETERS: Dict[str, Tuple[Any, ...]] = {
    "nyo_tables": TRACE + 3 * NUMBERS,
    "nyo_marks": TRACE + NUMBERS + TEXT + 2 * NUMBERS,
    "nyo_forecast_tables": TRACE + ENTRIES + 3 * NUMBERS,
    "nyo_forecast_marks": TRACE + ENTRIES + NUMBERS + TEXT + 2 * NUMBERS,
    "nyo_why": TRACE + LINE + NUMBERS + TEXT + NUMBERS,
    "nyo_read_line": TEXT + NUMBERS,
    "nyo_write_line": NUMBERS + TO_TEXT,
    "nyo_report": NUMBERS + NUMBER + TO_TEXT,
    "nyo_full_report": NUMBERS + NUMBER + TO_TEXT,
    "nyo_refusal": 2 * NUMBER + TO_TEXT,
    "nyo_csv_write": NUMBERS + NUMBER + TO_TEXT,
    "nyo_csv_read": TEXT + 2 * NUMBERS,
    "nyo_folded": TRACE + 2 * TEXT + NUMBERS + TO_TEXT,
    "nyo_compact": TRACE + TO_TEXT,
}

# How the names of a family's functions begin. Those for asyncs and finishes, which a library may lack, take what their
# siblings take.
PREFIXES = {BASE: "nyo_", FINISHES: "nyo_finish_"}
OF_FINISHES = {PREFIXES[FINISHES] + name: f"nyo_{name}" for name in ("tables", "marks", "read_line", "write_line")}
PARAMETERS.update({name: PARAMETERS[sibling] for name, sibling in OF_FINISHES.items()})

Slice = Union[bytes, "ctypes.Array[Any]"]


def path() -> Path:
    """Where the shared library is: what NYO_LIBRARY names, else beside the package, else where the project builds it."""
    named = os.environ.get("NYO_LIBRARY")
    if named:
        return Path(named).absolute()
    here = Path(__file__).resolve().parent
    beside = here / FILE_NAME
    return beside if beside.exists() else here.parent.parent / "target" / "native" / FILE_NAME


@lru_cache(maxsize=None)
def loaded() -> ctypes.CDLL:
    """The shared library with its functions declared; LibraryMissing where it cannot be had."""
    try:
        library = ctypes.CDLL(str(path()))
        for name, parameters in PARAMETERS.items():
            if name not in OF_FINISHES or hasattr(library, name):
                function = getattr(library, name)
                function.argtypes, function.restype = parameters, c_uint64
    except (OSError, AttributeError) as error:
        raise LibraryMissing(f"the library cannot be loaded: {error}") from error
    if not has_columns(library):
        raise LibraryMissing(f"the library cannot be used: {path()} is of another version, with other columns")
    return library


def has_columns(library: ctypes.CDLL) -> bool:
    """Whether a library's rows have the columns of this version, by the header of the comma-separated text that it writes."""
    header = f"row,{','.join(column.replace('_', '') for column in COLUMNS)}\r\n".encode()
    rows, out, count = numbers(rows_room(0)), ctypes.create_string_buffer(csv_room(0)), numbers(1)
    given = library.nyo_csv_write(rows, len(rows), 0, out, len(out), count, 1)
    return not given and out.raw.startswith(header)


def known(family: str) -> str:
    """The family itself; ValueError where there is none of that name."""
    if family not in PREFIXES:
        raise ValueError(f"no such family: {family}")
    return family


def function(name: str, family: str) -> str:
    """The name of a family's function."""
    return PREFIXES[known(family)] + name


def within(number: int) -> int:
    """The number itself where 64 bits hold it, and otherwise their largest, which is outside every range too."""
    return number if 0 <= number < 1 << 64 else (1 << 64) - 1


def ask(name: str, *lent: Union[int, Slice]) -> None:
    """Calls a function on numbers and slices, each slice with its length; raises Refused where it refuses."""
    words: List[Any] = []
    for one in lent:
        words += [within(one)] if isinstance(one, int) else [one, len(one)]
    asked = getattr(loaded(), name, None)
    if asked is None:
        raise LibraryMissing(f"the library takes no traces of asyncs and finishes: {path()} has no {name}")
    given = asked(*words)
    if given:
        raise Refused(given & 255, given >> 8)


def written(name: str, *lent: Union[int, Slice], room: int) -> bytes:
    """What a function writes into so many characters of room."""
    out, count = ctypes.create_string_buffer(room), numbers(1)
    ask(name, *lent, out, count)
    return out.raw[: count[0]]


def numbers(count: int) -> ctypes.Array[c_uint64]:
    """Room for so many numbers."""
    return (c_uint64 * count)()


def entries(pairs: List[Tuple[int, int]]) -> ctypes.Array[Entry]:
    """A list of forecast entries, each a row and a factor."""
    return (Entry * len(pairs))(*[Entry(within(row), within(factor)) for row, factor in pairs])


def in_range(limit: int, most: int) -> int:
    """A limit cut to its range, to reckon room with: limits outside it are refused whatever the room."""
    return min(max(limit, 0), most)


def scratch_room(engine: str, depth: int, sites: int) -> int:
    """Scratch numbers that an engine needs."""
    depth, sites = in_range(depth, MOST_DEPTH), in_range(sites, MOST_SITES)
    return 8 * depth if engine == "marks" else 7 * depth * (sites + 3)


def rows_room(sites: int) -> int:
    """Row numbers of the root and so many sites."""
    return len(COLUMNS) * (in_range(sites, MOST_SITES) + 1)


def csv_room(count: int) -> int:
    """Characters that are enough for comma-separated text of so many sites, whose header is shorter than a record."""
    record = 21 * (1 + len(COLUMNS)) + 1
    return record * (count + 2)
