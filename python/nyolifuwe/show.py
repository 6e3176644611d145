"""How answers look: numbers, percents, tables, and the three formats text, json and csv."""

from __future__ import annotations

import csv
import io
import json
import os
import sys
from typing import Any, Dict, List, Optional, Sequence

from .library import COLUMNS
from .model import Profile, Row
from .names import Names, place_text
from .streams import emit

FORMATS = ("text", "json", "csv")

# The columns that say which row or trace a record is of, and notes: these stand to the left, numbers to the right.
SITE, PLACE, NOTE, TRACE = "site", "place", "note", "trace"
LEFT = (SITE, PLACE, NOTE, TRACE)

# The columns that count instructions and those that do not, each with its heading.
INSTRUCTIONS = {"ilocal": "instructions", "ion_span": "instr on span"}
CYCLES = {column: column.replace("_", " ") for column in COLUMNS if column not in INSTRUCTIONS}
PER_CYCLE = "per cycle"

PLAIN, BOLD, GREEN, YELLOW = "", "1", "32", "33"


def number(value: int) -> str:
    """A number with its thousands apart."""
    return f"{value:,}"


def share(part: int, whole: int) -> Optional[float]:
    """How much of the whole a part is, in percent to three places; None where the whole is 0."""
    return round(100 * part / whole, 3) if whole else None


def percent(part: int, whole: int) -> str:
    """How much of the whole a part is, in percent for people."""
    return f"{100 * part / whole:.1f}%" if whole else "-"


def ratio(over: int, under: int) -> str:
    """A number over another for people."""
    return f"{over / under:,.2f}" if under else "-"


def parallelism(profile: Profile) -> str:
    """Work over span of a profile for people."""
    return ratio(profile.work, profile.span)


def counted(count: int, thing: str) -> str:
    """So many things, one of them without an s."""
    return f"{number(count)} {thing}{'' if count == 1 else 's'}"


def headline(profile: Profile) -> str:
    """The totals of a profile in one line."""
    totals = f"work {number(profile.work)}, span {number(profile.span)}, parallelism {parallelism(profile)}"
    return f"{totals}, {counted(profile.lines, 'line')}, {counted(profile.sites, 'site')}"


def totals(profile: Profile) -> Dict[str, Any]:
    """The totals of a profile for a program."""
    return {
        "work": profile.work,
        "span": profile.span,
        "parallelism": profile.parallelism,
        "lines": profile.lines,
        "sites": profile.sites,
    }


def row_cells(row: Row, names: Names) -> Dict[str, str]:
    """Which row it is, for people; the place has a column of its own where the site column has names."""
    cells = {"row": str(row.row), SITE: names.of(row)}
    return {**cells, PLACE: place_text(row.place)} if names.given else cells


def row_fields(row: Row, names: Names) -> Dict[str, Any]:
    """Which row it is, for a program."""
    file, line, column = row.place or (None, None, None)
    return {"row": row.row, "name": names.of(row), "file": file, "line": line, "column": column}


def cycle_cells(numbers: Dict[str, int]) -> Dict[str, str]:
    """The columns of a row or place that count calls and cycles, for people."""
    return {heading: number(numbers[column]) for column, heading in CYCLES.items()}


def instruction_cells(numbers: Dict[str, int], some: bool) -> Dict[str, str]:
    """The columns that count instructions, and how many there are a cycle of the own cost, for people; none without some."""
    cells = {heading: number(numbers[column]) for column, heading in INSTRUCTIONS.items()}
    return {**cells, PER_CYCLE: ratio(numbers["ilocal"], numbers["local"])} if some else {}


def coloured() -> bool:
    """Whether standard output is a terminal that wants colour."""
    wanted = not os.environ.get("NO_COLOR") and os.environ.get("TERM") != "dumb"
    return wanted and sys.stdout is not None and sys.stdout.isatty()


def paint(text: str, colour: str) -> str:
    """A text in a colour on a terminal, and as it is elsewhere."""
    return f"\x1b[{colour}m{text}\x1b[0m" if colour and coloured() else text


def table(records: Sequence[Dict[str, str]], colours: Sequence[str] = ()) -> str:
    """Records, which have the same columns, as a table with its columns aligned; a colour for each where they are given."""
    header = list(records[0])
    widths = [max(len(name), *(len(record[name]) for record in records)) for name in header]

    def line(cells: Sequence[str]) -> str:
        sides = ("<" if name in LEFT else ">" for name in header)
        return "  ".join(f"{cell:{side}{width}}" for cell, side, width in zip(cells, sides, widths)).rstrip()

    lines = [paint(line(header), BOLD)]
    for record, colour in zip(records, colours or [PLAIN] * len(records)):
        lines.append(paint(line(list(record.values())), colour))
    return "\n".join(lines) + "\n"


def emit_json(value: Any) -> None:
    """A value as JSON text."""
    emit(json.dumps(value, indent=2) + "\n")


def emit_csv(records: List[Dict[str, Any]], fields: Sequence[str] = ()) -> None:
    """Records, which have the same fields, as comma-separated text under the fields' names; for none the names if given."""
    text, names = io.StringIO(), list(fields) or [name for record in records[:1] for name in record]
    if names:
        writer = csv.DictWriter(text, names)
        writer.writeheader()
        writer.writerows(records)
    emit(text.getvalue())
