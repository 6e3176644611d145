"""nyo compact: a trace without the lines that say nothing."""

from __future__ import annotations

import argparse
from typing import Any

from .. import api, arguments, streams


def add(subparsers: Any) -> None:
    """The words of the command."""
    parser = arguments.command(
        subparsers,
        "compact",
        "the trace without the lines that say nothing; every row stays",
        "A shorter trace with the same work, span and rows: syncs that join nothing are dropped and costs side by"
        " side added up. Its lines have other numbers.",
        "examples/wordy.trace",
    )
    arguments.add_trace(parser)
    arguments.add_spawns_alone(parser)
    parser.set_defaults(run=run)


def run(args: argparse.Namespace) -> int:
    """Prints the compacted trace."""
    streams.emit(api.compact(arguments.trace(args), **arguments.limits(args)))
    return 0
