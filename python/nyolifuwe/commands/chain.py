"""nyo chain: the chosen chain of a trace, stretches of one site merged."""

from __future__ import annotations

import argparse
from itertools import accumulate, groupby
from typing import Any, Dict, Iterator, List, NamedTuple

from .. import api, arguments, show, streams
from ..model import ASYNC, BASE, CALL, FINISH, RETURN, SPAWN, Profile
from ..names import Names
from ..show import number, percent, ratio, share


class Cost(NamedTuple):
    """A cost line, the row that it stands directly in, and its instructions."""

    line: int
    row: int
    value: int
    instructions: int


class Stretch(NamedTuple):
    """Costs of one row that follow one another on the chain, what the chain weighs up to their end, and their instructions."""

    costs: List[Cost]
    cost: int
    running: int
    instructions: int


def add(subparsers: Any) -> None:
    """The words of the command."""
    parser = arguments.command(
        subparsers,
        "chain",
        "the chosen chain: which sites make up the span, in order",
        "The costs that make up the span, in order; those of one site that follow one another are one line. running"
        " is how much of the span is reached.",
        "examples/proxy.trace",
    )
    arguments.add_trace(parser)
    arguments.add_family(parser)
    arguments.add_names(parser)
    arguments.add_format(parser)
    parser.set_defaults(run=run)


def run(args: argparse.Namespace) -> int:
    """Prints the headline and the stretches."""
    trace, names = arguments.trace(args), arguments.names(args)
    profile = api.profile(trace, **arguments.reading(args))
    found = stretches(list(marked(trace, profile.marks or b"", args.family)))
    if args.format == "json":
        chain = [fields(stretch, profile, names) for stretch in found]
        show.emit_json({**show.totals(profile), "chain": chain})
    elif args.format == "csv":
        show.emit_csv([fields(stretch, profile, names) for stretch in found])
    else:
        streams.emit(f"{show.headline(profile)}\n")
        if found:
            streams.emit("\n" + show.table([cells(stretch, profile, names) for stretch in found]))
    return 0


def marked(trace: bytes, marks: bytes, family: str = BASE) -> Iterator[Cost]:
    """The cost lines that are marked, in order; those directly in a finish are of the row around it."""
    open_rows = [0]
    for line, mark in enumerate(marks):
        kind = api.kind_at(trace, line)
        if kind in (CALL, SPAWN, ASYNC):
            open_rows.append(api.line_at(trace, line, family).site)
        elif kind == FINISH:
            open_rows.append(open_rows[-1])
        elif kind == RETURN:
            open_rows.pop()
        elif mark:
            yield Cost(line, open_rows[-1], api.line_at(trace, line).value, api.carried(trace, line))


def stretches(costs: List[Cost]) -> List[Stretch]:
    """The chain's costs with those of one row that follow one another merged."""
    merged = [list(group) for _, group in groupby(costs, key=lambda cost: cost.row)]
    sums = [sum(cost.value for cost in group) for group in merged]
    instructions = [sum(cost.instructions for cost in group) for group in merged]
    return [Stretch(*stretch) for stretch in zip(merged, sums, accumulate(sums), instructions)]


def fields(stretch: Stretch, profile: Profile, names: Names) -> Dict[str, Any]:
    """A stretch for a program."""
    return {
        "first_line": stretch.costs[0].line,
        "last_line": stretch.costs[-1].line,
        "costs": len(stretch.costs),
        **show.row_fields(profile.rows[stretch.costs[0].row], names),
        "cost": stretch.cost,
        "cost_percent": share(stretch.cost, profile.span),
        "running": stretch.running,
        "running_percent": share(stretch.running, profile.span),
        "instructions": stretch.instructions,
    }


def cells(stretch: Stretch, profile: Profile, names: Names) -> Dict[str, str]:
    """A stretch for people, with its instructions where the trace has some."""
    first, last = stretch.costs[0].line, stretch.costs[-1].line
    instructions = {"instructions": number(stretch.instructions), show.PER_CYCLE: ratio(stretch.instructions, stretch.cost)}
    return {
        "lines": str(first) if first == last else f"{first}-{last}",
        "costs": number(len(stretch.costs)),
        **show.row_cells(profile.rows[stretch.costs[0].row], names),
        "cost": number(stretch.cost),
        "of span": percent(stretch.cost, profile.span),
        "running": percent(stretch.running, profile.span),
        **(instructions if profile.has_instructions else {}),
    }
