"""nyo page: a profile as one HTML page that needs nothing beside itself."""

from __future__ import annotations

import argparse
import os
from pathlib import Path
from typing import Any, Dict, List, Optional, Sequence

from .. import api, arguments, flame, streams
from ..gains import gains
from ..model import BASE, Profile, Row
from ..names import Names, unnamed
from ..page import page
from ..store import kept_as, shown

STANDARD_OUTPUT = "-"


def add(subparsers: Any) -> None:
    """The words of the command."""
    parser = arguments.command(
        subparsers,
        "page",
        "one HTML page: totals, forecast, table and flame view",
        "One file for a browser that needs nothing beside itself and asks the network for nothing.",
        "examples/proxy.trace -o proxy.html",
    )
    arguments.add_trace(parser)
    arguments.add_family(parser)
    arguments.add_names(parser)
    parser.add_argument("-o", "--output", required=True, metavar="FILE", help="the page to write; - is standard output")
    parser.set_defaults(run=run)


def run(args: argparse.Namespace) -> int:
    """Writes the page."""
    trace, lists, reading = arguments.trace(args), arguments.lists(args), arguments.reading(args)
    profile = api.profile(trace, **reading)
    boxes = flame_boxes(trace, profile, lists, **reading)
    title = "standard input" if args.trace == streams.STANDARD_INPUT else shown(kept_as(os.path.basename(args.trace)))
    write(args.output, page(title, profile, gains(trace, profile, **reading), boxes, Names(**lists)).encode())
    return 0


def flame_boxes(
    trace: bytes, profile: Profile, lists: Dict[str, bytes], *, family: str, **limits: Any
) -> Optional[List[flame.Box]]:
    """The boxes of the flame view; None for a family without folded stacks."""
    if family != BASE:
        return None
    folded = api.folded(trace, lists["project"], filled(lists["stock"], profile.rows), **limits)
    return flame.boxes(trace, profile.marks or b"", folded)


def filled(stock: bytes, rows: Sequence[Row]) -> bytes:
    """The stock list, with what stands for a row that it does not name."""
    named = dict(enumerate(stock.split(b"\n")))
    return b"\n".join(named.get(row.row) or unnamed(row).encode() for row in rows)


def write(name: str, text: bytes) -> None:
    """Writes a file, or standard output where the name is -; OSError with the file's name where it does not take all."""
    if name == STANDARD_OUTPUT:
        streams.emit(text)
        return
    try:
        Path(name).write_bytes(text)
    except OSError as error:
        raise OSError(error.errno, error.strerror, name) from error
