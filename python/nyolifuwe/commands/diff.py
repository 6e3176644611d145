"""nyo diff: two traces, or two nights: what grew on the span, place by place."""

from __future__ import annotations

import argparse
import re
from fractions import Fraction
from typing import Any, Dict, List, NamedTuple, Optional, Union

from .. import api, arguments, show, store, streams
from ..errors import Refused
from ..faults import told
from ..model import Place
from ..names import ROOT, place_text
from ..show import counted, number

REFUSED, OVER = 1, 4
FIELDS = (*Place._fields, "old", "new", "grown", "grown_percent", "instructions_old", "instructions_new")

# What each place has of something; the root is None.
ByPlace = Dict[Optional[Place], Fraction]


class Side(NamedTuple):
    """A trace, or the mean of a night's accepted traces: work, span, and by place what is on the span, and its instructions."""

    traces: Optional[int]  # accepted ones of a night; None for a trace
    work: Fraction
    span: Fraction
    on_span: ByPlace
    ion_span: ByPlace


class Change(NamedTuple):
    """What a place has on the span before and after, and its instructions there; None where it is not declared."""

    place: Optional[Place]
    old: Optional[Fraction]
    new: Optional[Fraction]
    instructions_old: Optional[Fraction]
    instructions_new: Optional[Fraction]

    @property
    def grown(self) -> Fraction:
        """By how much it grew."""
        return (self.new or Fraction()) - (self.old or Fraction())


def add(subparsers: Any) -> None:
    """The words of the command."""
    parser = arguments.command(
        subparsers,
        "diff",
        "two traces, or two nights: by place, what grew on the span",
        "Which places have more or less of the span than before, what grew most first; of two nights the means of"
        " their accepted traces.",
        "examples/wordy.trace examples/wordy-compact.trace",
    )
    parser.add_argument("old", metavar="OLD", help="a trace, or the database of a night")
    parser.add_argument("new", metavar="NEW", help="another of the same kind")
    over_help = "status 4 where the span grew by more than this much of the old"
    parser.add_argument("--fail-over", type=allowance, metavar="PERCENT", help=over_help)
    parser.add_argument("--all", action="store_true", help="places too that have on the span what they had")
    parser.add_argument("-n", type=arguments.at_least_one, metavar="ROWS", help="so many places at most")
    arguments.add_limits(parser)
    arguments.add_family(parser)
    arguments.add_format(parser)
    parser.set_defaults(run=run)


def allowance(word: str) -> Fraction:
    """A percentage from 0 on."""
    if not re.fullmatch(r"\d+(\.\d+)?", word, re.ASCII):
        raise ValueError
    return Fraction(word)


def run(args: argparse.Namespace) -> int:
    """Prints what changed; the status says whether it is within what is allowed."""
    old, new = (side(file, **arguments.reading(args)) for file in (args.old, args.new))
    if old is None or new is None:
        return REFUSED
    if (old.traces is None) != (new.traces is None):
        raise arguments.Usage(f"{args.old} and {args.new}: one is a night and the other a trace")
    emit(args, old, new)
    if args.fail_over is None or not over(old, new, args.fail_over):
        return 0
    streams.say(f"over the limit: the span grew by more than {float(args.fail_over):g}%")
    return OVER


def side(file: str, *, family: str, **limits: Any) -> Optional[Side]:
    """What a trace or a night has on its span; None where the trace is refused, which is told."""
    if store.is_database(file):
        with store.read(file) as night:
            return night_side(night)
    trace = streams.read(file)
    try:
        profile = api.profile(trace, family=family, **limits)
    except Refused as refused:
        streams.say(told(file, trace, refused, family))
        return None
    on_span = {row.place: Fraction(row.on_span) for row in profile.rows}
    ion_span = {row.place: Fraction(row.ion_span) for row in profile.rows}
    return Side(None, Fraction(profile.work), Fraction(profile.span), on_span, ion_span)


def night_side(night: store.Night) -> Side:
    """The mean over the accepted traces of a night."""
    totals = night.totals()
    count = totals.accepted or 1
    places = night.by_place()
    on_span, ion_span = (
        {one.place: Fraction(one.numbers[column], count) for one in places} for column in ("on_span", "ion_span")
    )
    return Side(totals.accepted, Fraction(totals.work, count), Fraction(totals.span, count), on_span, ion_span)


def over(old: Side, new: Side, allowed: Fraction) -> bool:
    """Whether the span grew by more than so many percent of the old one."""
    return 100 * (new.span - old.span) > allowed * old.span


def changes(old: Side, new: Side) -> List[Change]:
    """All places, first the one that grew most."""
    places = {**old.on_span, **new.on_span}
    sides = (old.on_span, new.on_span, old.ion_span, new.ion_span)
    found = [Change(place, *(side.get(place) for side in sides)) for place in places]
    return sorted(found, key=lambda change: (-change.grown, change.place or ()))


def emit(args: argparse.Namespace, old: Side, new: Side) -> None:
    """Prints both spans and the places."""
    kept = [change for change in changes(old, new) if args.all or change.grown]
    shown = kept[: args.n]
    if args.format == "csv":
        show.emit_csv([fields(change, old) for change in shown], FIELDS)
    elif args.format == "json":
        show.emit_json({"old": totals(old), "new": totals(new), "places": [fields(change, old) for change in shown]})
    else:
        some = any(old.ion_span.values()) or any(new.ion_span.values())
        table = show.table([cells(change, old, some) for change in shown]) if shown else "no place has more or less on the span\n"
        beyond = len(kept) - len(shown)
        left = f"not shown: {counted(beyond, 'place')} beyond -n\n" if beyond else ""
        streams.emit(f"{headline(old, new)}\n\n{table}{left}")


def headline(old: Side, new: Side) -> str:
    """Both sides in one line."""
    traces = "" if old.traces is None else f"mean of {number(old.traces)} -> {counted(new.traces or 0, 'trace')}: "
    span = f"span {amount(old.span, old)} -> {amount(new.span, old)} ({signed(new.span - old.span, old)})"
    ratios = f"parallelism {ratio(old)} -> {ratio(new)}"
    return f"{traces}{span}, work {amount(old.work, old)} -> {amount(new.work, old)}, {ratios}"


def ratio(one: Side) -> str:
    """Work over span for people."""
    return f"{float(one.work / one.span):,.2f}" if one.span else "-"


def amount(value: Optional[Fraction], one: Side) -> str:
    """A number of a trace, or to one place the mean of a night's; nothing where there is none."""
    if value is None:
        return ""
    return number(int(value)) if one.traces is None else f"{float(value):,.1f}"


def signed(grown: Fraction, old: Side) -> str:
    """By how much of the old span something grew, in percent with its sign."""
    return f"{float(100 * grown / old.span):+.1f}%" if old.span else "-"


def cells(change: Change, old: Side, some: bool) -> Dict[str, str]:
    """A place for people, with its instructions on the span where there are some."""
    instructions = {"instr old": amount(change.instructions_old, old), "instr new": amount(change.instructions_new, old)}
    return {
        show.SITE: place_text(change.place) or ROOT,
        "old": amount(change.old, old),
        "new": amount(change.new, old),
        "grown": ("+" if change.grown > 0 else "") + amount(change.grown, old),
        "of old span": signed(change.grown, old),
        **(instructions if some else {}),
    }


def plain(value: Optional[Fraction], one: Side) -> Union[int, float, None]:
    """A number of a trace, or to three places the mean of a night's, for a program."""
    if value is None:
        return None
    return int(value) if one.traces is None else round(float(value), 3)


def fields(change: Change, old: Side) -> Dict[str, Any]:
    """A place for a program."""
    numbers = [plain(value, old) for value in (change.old, change.new, change.grown)]
    share = round(float(100 * change.grown / old.span), 3) if old.span else None
    instructions = [plain(value, old) for value in (change.instructions_old, change.instructions_new)]
    return dict(zip(FIELDS, [*(change.place or (None,) * 3), *numbers, share, *instructions]))


def totals(one: Side) -> Dict[str, Any]:
    """The totals of a side for a program."""
    own = {"work": plain(one.work, one), "span": plain(one.span, one)}
    return own if one.traces is None else {"traces": one.traces, **own}
