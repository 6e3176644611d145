"""nyo top: the rows of a trace, first the one that would shorten the run most."""

from __future__ import annotations

import argparse
from typing import Any, Dict, List, Optional

from .. import api, arguments, show, streams
from ..arguments import Usage
from ..errors import spawns_alone
from ..gains import Gain, advice, gains, in_order, large_and_vain
from ..library import COLUMNS
from ..model import Profile, Row
from ..names import Names
from ..show import counted, number, percent, share

GAIN = "gain"
ORDERS = [GAIN, *(column.replace("_", "-") for column in COLUMNS), "row"]


def add(subparsers: Any) -> None:
    """The words of the command."""
    parser = arguments.command(
        subparsers,
        "top",
        "the rows of a trace, largest gain first (the default)",
        "Work, span and parallelism of a trace, and its rows. if halved is the span if the site's own cost were"
        " halved, gain how much less that is. The last sentence says what to make faster first.",
        "examples/proxy.trace --stock examples/stock.names -n 5",
    )
    arguments.add_trace(parser)
    arguments.add_family(parser)
    arguments.add_names(parser)
    said = "the column to sort by (default: gain; on-span with --finish, which leaves gains out)"
    parser.add_argument("--by", choices=ORDERS, help=said)
    parser.add_argument("--all", action="store_true", help="idle rows too")
    parser.add_argument("-n", type=arguments.at_least_one, metavar="ROWS", help="so many rows at most")
    arguments.add_format(parser)
    parser.set_defaults(run=run)


def run(args: argparse.Namespace) -> int:
    """Prints the headline, the table and the sentence."""
    trace, names = arguments.trace(args), arguments.names(args)
    profile = api.profile(trace, **arguments.reading(args))
    ranked = gains(trace, profile, **arguments.reading(args))
    if args.by == GAIN and not ranked:
        raise Usage(f"--by gain: {spawns_alone('a forecast')}")
    rows, gained = in_order(profile, ranked), {gain.row.row: gain for gain in ranked}
    kept = [row for row in ordered(rows, args.by) if args.all or row.calls]
    shown = kept[: args.n]
    said = advice(profile, ranked, names)
    records = [fields(row, gained.get(row.row), profile, names) for row in shown]
    if args.format == "json":
        show.emit_json({**show.totals(profile), "rows": records, "advice": said})
    elif args.format == "csv":
        show.emit_csv(records)
    else:
        text = table(shown, profile, ranked, names) + left_off(len(rows) - len(kept), len(kept) - len(shown))
        streams.emit(f"{show.headline(profile)}\n\n{text}\n{said}\n")
    return 0


def ordered(rows: List[Row], by: Optional[str]) -> List[Row]:
    """The rows in the order that was asked for; where a column has them equal, or none is named, as they stand."""
    if by in (None, GAIN):
        return rows
    if by == "row":
        return sorted(rows, key=lambda row: row.row)
    return sorted(rows, key=lambda row: -int(getattr(row, str(by).replace("-", "_"))))


def fields(row: Row, gain: Optional[Gain], profile: Profile, names: Names) -> Dict[str, Any]:
    """A row for a program, with its gain where there is one."""
    return {
        **show.row_fields(row, names),
        **{column: getattr(row, column) for column in COLUMNS},
        "on_span_percent": share(row.on_span, profile.span),
        **(gain_fields(gain, profile) if gain else {}),
    }


def gain_fields(gain: Gain, profile: Profile) -> Dict[str, Any]:
    """A gain for a program."""
    return {"span_if_halved": gain.halved, "gain": gain.gain, "gain_percent": share(gain.gain, profile.span)}


def cells(row: Row, gain: Optional[Gain], profile: Profile, names: Names) -> Dict[str, str]:
    """A row for people, with its gain where there is one."""
    return {
        **show.row_cells(row, names),
        **show.cycle_cells(row._asdict()),
        "of span": percent(row.on_span, profile.span),
        **({"if halved": number(gain.halved), "gain": percent(gain.gain, profile.span)} if gain else {}),
        **show.instruction_cells(row._asdict(), profile.has_instructions),
    }


def table(shown: List[Row], profile: Profile, ranked: List[Gain], names: Names) -> str:
    """The table; the row to begin with is green, the large ones that gain nothing are yellow."""
    gained = {gain.row.row: gain for gain in ranked}
    colours = {gain.row.row: show.GREEN for gain in ranked[:1] if gain.gain}
    colours.update({gain.row.row: show.YELLOW for gain in large_and_vain(profile, ranked)})
    records = [cells(row, gained.get(row.row), profile, names) for row in shown]
    return show.table(records, [colours.get(row.row, show.PLAIN) for row in shown])


def left_off(idle: int, beyond: int) -> str:
    """A line on rows that are not shown, where there are some."""
    parts = [f"{counted(beyond, 'row')} beyond -n"] if beyond else []
    parts += [f"{counted(idle, 'idle row')} without --all"] if idle else []
    return f"not shown: {', '.join(parts)}\n" if parts else ""
