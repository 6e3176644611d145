"""nyo forecast: the profile of a trace as it would be if some sites were faster."""

from __future__ import annotations

import argparse
from typing import Any, Dict, List, Sequence, Tuple

from .. import api, arguments, show, streams
from ..arguments import Usage
from ..gains import faster_span
from ..model import Profile, Row
from ..names import Names
from ..show import number, parallelism, percent, share

SWEEP = (2, 4, 8, 1000)

# A row and the spans with its own cost divided by each factor of the sweep.
Swept = Tuple[Row, List[int]]


def add(subparsers: Any) -> None:
    """The words of the command."""
    parser = arguments.command(
        subparsers,
        "forecast",
        "the profile if some sites were faster",
        "The span and the rows if the own cost of some sites were divided by factors, each cost rounded up; or with"
        " --sweep the span for every site alone.",
        "examples/proxy.trace 6=2 2:23:13=4",
    )
    arguments.add_trace(parser)
    arguments.add_spawns_alone(parser)
    said = "a row, name or place, and by what its own cost is divided, 2 to 1000"
    parser.add_argument("entries", nargs="*", metavar="SITE=FACTOR", help=said)
    parser.add_argument("--sweep", action="store_true", help="every site alone at 2, 4, 8 and 1,000")
    parser.add_argument("--all", action="store_true", help="idle rows too")
    arguments.add_names(parser)
    arguments.add_format(parser)
    parser.set_defaults(run=run, late="entries")


def run(args: argparse.Namespace) -> int:
    """Prints what the entries change, or the sweep."""
    if args.sweep == bool(args.entries):
        raise Usage("forecast wants SITE=FACTOR words or --sweep, one of the two")
    trace, names = arguments.trace(args), arguments.names(args)
    now = api.profile(trace, **arguments.limits(args))
    if args.sweep:
        emit_sweep(args, now, sweep(trace, now, args), names)
    else:
        entries = sorted(entry(word, now.rows, names) for word in args.entries)
        emit_change(args, now, api.forecast(trace, entries, **arguments.limits(args)), dict(entries), names)
    return 0


def entry(word: str, rows: Sequence[Row], names: Names) -> Tuple[int, int]:
    """The row and the factor of a word SITE=FACTOR."""
    site, _, factor = word.rpartition("=")
    if not (site and factor.isascii() and factor.isdigit()):
        raise Usage(f"{word}: not SITE=FACTOR")
    found = names.rows_of(site, rows)
    if len(found) != 1:
        meant = f"rows {', '.join(map(str, found))}: give the number of one" if found else "no row of this trace"
        raise Usage(f"{word}: {site} means {meant}")
    return found[0], int(factor)


def emit_change(args: argparse.Namespace, now: Profile, then: Profile, factors: Dict[int, int], names: Names) -> None:
    """Prints both profiles beside each other."""
    pairs = [(old, new) for old, new in zip(now.rows, then.rows) if args.all or old.calls]
    pairs.sort(key=lambda pair: (-pair[1].on_span, -pair[1].local, pair[1].row))
    if args.format == "text":
        text = show.table([change_cells(old, new, then, factors, names) for old, new in pairs])
        streams.emit(f"{change_line(now, then)}\n\n{text}")
        return
    rows = [change_fields(old, new, then, factors, names) for old, new in pairs]
    if args.format == "csv":
        show.emit_csv(rows)
    else:
        show.emit_json({"now": show.totals(now), "then": show.totals(then), "rows": rows})


def change_line(now: Profile, then: Profile) -> str:
    """What the entries do to the totals, in one line."""
    less = percent(now.span - then.span, now.span)
    span = f"span {number(now.span)} -> {number(then.span)} ({less} less)"
    return f"{span}, work {number(now.work)} -> {number(then.work)}, parallelism {parallelism(now)} -> {parallelism(then)}"


def change_cells(old: Row, new: Row, then: Profile, factors: Dict[int, int], names: Names) -> Dict[str, str]:
    """A row of both profiles for people."""
    return {
        **show.row_cells(old, names),
        "factor": number(factors[old.row]) if old.row in factors else "",
        "local": number(old.local),
        "local then": number(new.local),
        "on span": number(old.on_span),
        "on span then": number(new.on_span),
        "of span then": percent(new.on_span, then.span),
    }


def change_fields(old: Row, new: Row, then: Profile, factors: Dict[int, int], names: Names) -> Dict[str, Any]:
    """A row of both profiles for a program."""
    return {
        **show.row_fields(old, names),
        "factor": factors.get(old.row),
        "local": old.local,
        "local_then": new.local,
        "on_span": old.on_span,
        "on_span_then": new.on_span,
        "on_span_then_percent": share(new.on_span, then.span),
    }


def sweep(trace: bytes, now: Profile, args: argparse.Namespace) -> List[Swept]:
    """The spans of each row at each factor, the smallest at the largest factor first."""
    rows = [row for row in now.rows if args.all or row.calls]
    limits = arguments.limits(args)
    swept = [(row, [faster_span(trace, now, row, factor, **limits) for factor in SWEEP]) for row in rows]
    return sorted(swept, key=lambda one: (one[1][::-1], -one[0].local, one[0].row))


def emit_sweep(args: argparse.Namespace, now: Profile, swept: List[Swept], names: Names) -> None:
    """Prints the spans of each row at each factor."""
    if args.format == "text":
        streams.emit(f"{show.headline(now)}\n\n{show.table([sweep_cells(one, now, names) for one in swept])}")
        return
    rows = [sweep_fields(one, names) for one in swept]
    if args.format == "csv":
        show.emit_csv(rows)
    else:
        show.emit_json({**show.totals(now), "rows": rows})


def sweep_cells(one: Swept, now: Profile, names: Names) -> Dict[str, str]:
    """A row of the sweep for people: at each factor the span, and what is gained."""
    row, spans = one
    at = {
        f"at {number(factor)}": f"{number(span)} {percent(now.span - span, now.span):>6}"
        for factor, span in zip(SWEEP, spans)
    }
    return {**show.row_cells(row, names), "on span": number(row.on_span), **at}


def sweep_fields(one: Swept, names: Names) -> Dict[str, Any]:
    """A row of the sweep for a program."""
    spans = {f"span_at_{factor}": span for factor, span in zip(SWEEP, one[1])}
    return {**show.row_fields(one[0], names), "on_span": one[0].on_span, **spans}
