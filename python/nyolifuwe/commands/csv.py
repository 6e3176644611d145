"""nyo csv: the rows of a trace as comma-separated text."""

from __future__ import annotations

import argparse
from typing import Any

from .. import api, arguments, streams


def add(subparsers: Any) -> None:
    """The words of the command."""
    parser = arguments.command(
        subparsers,
        "csv",
        "every row as comma-separated text (RFC 4180)",
        "The rows of a trace for a spreadsheet, row 0 for the root; nyo top --format csv has names, places and gains"
        " too.",
        "examples/case-i.trace",
    )
    arguments.add_trace(parser)
    arguments.add_spawns_alone(parser)
    parser.set_defaults(run=run)


def run(args: argparse.Namespace) -> int:
    """Prints the header and a record for each row."""
    profile = api.profile(arguments.trace(args), **arguments.limits(args))
    streams.emit(api.write_csv(profile.rows))
    return 0
