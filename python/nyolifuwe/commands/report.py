"""nyo report: the report of a trace in the bytes that the report program prints."""

from __future__ import annotations

import argparse
from typing import Any

from .. import api, arguments, streams
from ..errors import Refused


def add(subparsers: Any) -> None:
    """The words of the command."""
    parser = arguments.command(
        subparsers,
        "report",
        "the report in hexadecimal, a line for each row; or the refusal's line",
        "The bytes of the report program, with the largest limits where none are set.",
        "examples/case-i.trace",
    )
    arguments.add_trace(parser)
    arguments.add_family(parser)
    parser.add_argument("--called", action="store_true", help="leave idle rows off")
    parser.set_defaults(run=run)


def run(args: argparse.Namespace) -> int:
    """Prints the report; or the line of the refusal, which then goes on to be said in words."""
    try:
        profile = api.profile(arguments.trace(args), **arguments.reading(args))
    except Refused as refused:
        streams.emit(api.refusal_line(refused.number, refused.line))
        raise
    streams.emit(api.report(profile.rows, full=not args.called))
    return 0
