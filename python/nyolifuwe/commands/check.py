"""nyo check: per trace accepted, or the refusal with its sentence, the place in the trace and what to do."""

from __future__ import annotations

import argparse
from typing import Any, Dict, List, NamedTuple, Optional

from .. import api, arguments, show, streams
from ..errors import Refused
from ..faults import Fault, below, fault, remedy, shown
from ..model import Profile
from ..show import counted

GOOD, REFUSED, FAILED = 0, 1, 3


class Verdict(NamedTuple):
    """What came of a trace: its profile; or a refusal, where it is wrong and what to do; or why it cannot be read."""

    trace: str
    profile: Optional[Profile] = None
    refused: Optional[Refused] = None
    fault: Optional[Fault] = None
    to_do: str = ""
    unread: Optional[str] = None


def add(subparsers: Any) -> None:
    """The words of the command."""
    parser = arguments.command(
        subparsers,
        "check",
        "which traces are accepted, and where the others are wrong",
        "Of each trace that it is accepted; or the refusal, the line with the part that is wrong, and what to do.",
        "examples/case-i.trace examples/refusal-06.trace",
    )
    parser.add_argument("traces", nargs="+", metavar="TRACE", help="a file or pipe; - is standard input")
    arguments.add_limits(parser)
    arguments.add_family(parser)
    arguments.add_format(parser)
    parser.set_defaults(run=run, late="traces")


def run(args: argparse.Namespace) -> int:
    """Prints a verdict for each trace, and behind several how many were accepted."""
    verdicts = []
    for name in args.traces:
        verdicts.append(verdict(name, args))
        if args.format == "text":
            streams.emit(text(verdicts[-1]))
    if args.format == "json":
        show.emit_json([fields(one) for one in verdicts])
    elif args.format == "csv":
        show.emit_csv([fields(one) for one in verdicts])
    elif len(verdicts) > 1:
        streams.emit(summary(verdicts))
    return max(status(one) for one in verdicts)


def verdict(name: str, args: argparse.Namespace) -> Verdict:
    """What comes of one trace."""
    try:
        trace = streams.read(name)
    except OSError as error:
        return Verdict(name, unread=error.strerror)
    try:
        return Verdict(name, profile=api.profile(trace, **arguments.reading(args)))
    except Refused as refused:
        found, to_do = fault(trace, refused, args.family), remedy(trace, refused, args.family)
        return Verdict(name, refused=refused, fault=found, to_do=to_do)


def status(one: Verdict) -> int:
    """The status that a trace alone would give."""
    return GOOD if one.profile else REFUSED if one.refused else FAILED


def text(one: Verdict) -> str:
    """A verdict for people."""
    if one.profile:
        size = f"{counted(one.profile.lines, 'line')}, {counted(one.profile.sites, 'site')}"
        return f"{one.trace}: {show.paint('accepted', show.GREEN)}, {size}\n"
    if one.refused:
        return f"{one.trace}: {show.paint(str(one.refused), show.YELLOW)}\n{below(one.fault, one.to_do)}"
    return f"{one.trace}: {one.unread}\n"


def fields(one: Verdict) -> Dict[str, Any]:
    """A verdict for a program."""
    profile, refused = one.profile, one.refused
    part = one.fault.part if one.fault else None
    return {
        "trace": one.trace,
        "accepted": profile is not None,
        "lines": profile.lines if profile else None,
        "sites": profile.sites if profile else None,
        "number": refused.number if refused else None,
        "line": refused.line if refused else None,
        "sentence": refused.sentence if refused else one.unread,
        "what_to_do": one.to_do if refused else None,
        "text": shown(one.fault.text) if one.fault else None,
        "column": part.column if part else None,
        "width": part.width if part else None,
        "note": part.note if part else None,
    }


def summary(verdicts: List[Verdict]) -> str:
    """How many traces were accepted, refused and not read."""
    found = [status(one) for one in verdicts]
    unread = f", {found.count(FAILED)} not read" if FAILED in found else ""
    return f"{found.count(GOOD)} accepted, {found.count(REFUSED)} refused{unread}\n"
