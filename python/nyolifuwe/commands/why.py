"""nyo why: why a line is not on the span, what that means to whoever tunes it, and the chain through it."""

from __future__ import annotations

import argparse
from typing import Any, Dict, List, NamedTuple, Optional

from .. import api, arguments, library, show, streams
from ..gains import called
from ..model import CALL, INSTRUCTIONS, RETURN, SITE, SPAWN, SYNC, Case, Place, Profile, Why
from ..names import Names
from ..show import number, percent
from . import chain
from .chain import Cost, Stretch

LEAST = 1

# What a line is that is no cost.
KINDS = {SITE: "a site line", CALL: "a call", SPAWN: "a spawn", SYNC: "a sync", RETURN: "a return", INSTRUCTIONS: "instructions"}

# What the table shows, by case.
SHOWN = {
    Case.ON_CHAIN: "The chosen chain:",
    Case.SLACK: "The heaviest chain through it:",
    Case.TIED: "The chain through it that weighs as much:",
}

IF_SLOWER = "Slower by any amount, the span grows by as much."


class Asked(NamedTuple):
    """What the library says of a line: the answer, the chain through it, the cost that it is (None where it is none), and
    for one on the chosen chain the span if it had the least cost."""

    line: int
    why: Why
    chain: List[Stretch]
    cost: Optional[Cost]
    least_span: Optional[int]


def add(subparsers: Any) -> None:
    """The words of the command."""
    parser = arguments.command(
        subparsers,
        "why",
        "why a line is not on the span, and what it would change there",
        "Whether a cost line is on the chosen chain, tied with it, or how much slack it has; what making it slower or"
        " faster changes; and the first of the heaviest chains through it, which csv leaves out.",
        "examples/proxy.trace 56",
    )
    arguments.add_trace(parser)
    arguments.add_spawns_alone(parser)
    parser.add_argument("line", type=line_number, metavar="LINE", help="the number of a line of the trace; the first is 0")
    arguments.add_names(parser)
    arguments.add_format(parser)
    parser.set_defaults(run=run)


def line_number(word: str) -> int:
    """A number that the library can be asked about."""
    if not (word.isascii() and word.isdigit() and int(word) <= library.MOST_ASKED):
        raise argparse.ArgumentTypeError(f"not a line number, 0 to {library.MOST_ASKED}: {word}")
    return int(word)


def run(args: argparse.Namespace) -> int:
    """Prints the headline, the answer and the chain."""
    trace, names, limits = arguments.trace(args), arguments.names(args), arguments.limits(args)
    found = asked(trace, args.line, **limits)
    profile = api.profile(trace, **limits)
    if args.format == "json":
        stretches = [chain.fields(stretch, profile, names) for stretch in found.chain]
        show.emit_json({**show.totals(profile), **fields(found, profile, names), "chain": stretches})
    elif args.format == "csv":
        show.emit_csv([fields(found, profile, names)])
    else:
        said = on_cost(found, found.cost, profile, names) if found.cost else on_no_cost(trace, found.line)
        streams.emit(f"{show.headline(profile)}\n\n{said}\n{table(found, profile, names)}")
    return 0


def asked(trace: bytes, line: int, **limits: Any) -> Asked:
    """What the library says of a line."""
    why = api.why(trace, line, **limits)
    costs = list(chain.marked(trace, why.marks))
    cost = next((cost for cost in costs if cost.line == line), None)
    least = api.profile(with_least(trace, line), **limits).span if why.case == Case.ON_CHAIN else None
    return Asked(line, why, chain.stretches(costs), cost, least)


def with_least(trace: bytes, line: int) -> bytes:
    """The trace with the least cost on a cost line."""
    start, end = library.LINE_CHARS * line, library.LINE_CHARS * (line + 1)
    return trace[:start] + api.write_line(api.line_at(trace, line)._replace(value=LEAST)) + trace[end:]


def on_no_cost(trace: bytes, line: int) -> str:
    """The answer for a line that is no cost."""
    kind = api.kind_at(trace, line)
    what = f"{KINDS[kind]} of the cost on line {line - 1}" if kind == INSTRUCTIONS else KINDS[kind]
    return f"Line {line} is not a cost line but {what}. A chain is made of cost lines: ask about one."


def on_cost(found: Asked, cost: Cost, profile: Profile, names: Names) -> str:
    """The answer for a cost line: what it is, and what a slower or faster one changes."""
    line = f"Line {cost.line}, a cost of {number(cost.value)} in {called(profile.rows[cost.row], names)},"
    if found.why.slack is not None:
        return f"{line} {on_slack(found.why.slack, found.chain[-1].running, profile.span)}"
    if found.why.tied_line is not None:
        return f"{line} {on_tie(found.why.tied_line, profile.span)}"
    return f"{line} is on the chosen chain.\n{IF_SLOWER} {if_faster(cost.value, found.least_span or 0, profile.span)}"


def on_slack(slack: int, weight: int, span: int) -> str:
    """What slack is and changes."""
    what = f"has slack {number(slack)}: the heaviest chain through it weighs {number(weight)}, and the span is {number(span)}."
    slower = f"Slower by up to {number(slack)}, nothing changes; by more, the span grows by the rest."
    return f"{what}\n{slower} Faster, nothing is gained."


def on_tie(tied: int, span: int) -> str:
    """What a tie is and changes."""
    what = f"is tied with line {tied}: a chain through it weighs {number(span)} too, without line {tied} of the chosen chain."
    return f"{what}\n{IF_SLOWER} Faster alone, nothing is gained: the chosen chain must become faster too."


def if_faster(value: int, least_span: int, span: int) -> str:
    """What a cost on the chosen chain gains, up to the next chain."""
    gain = span - least_span
    if value == LEAST:
        return f"Faster it cannot be: a cost is at least {LEAST}."
    if not gain:
        return "Faster alone, nothing is gained: a chain without it weighs as much."
    falls = f"the span falls by as much, to {number(least_span)} ({percent(gain, span)} less)"
    if gain == value - LEAST:
        return f"Faster, {falls} where it costs {LEAST}."
    return f"Faster by up to {number(gain)}, {falls}; there a chain without it weighs as much."


def table(found: Asked, profile: Profile, names: Names) -> str:
    """The chain through the line for people, where there is one."""
    if not found.chain:
        return ""
    return f"\n{SHOWN[found.why.case]}\n{show.table([chain.cells(stretch, profile, names) for stretch in found.chain])}"


def fields(found: Asked, profile: Profile, names: Names) -> Dict[str, Any]:
    """The answer for a program; through is what the chain weighs."""
    cost = found.cost
    row = show.row_fields(profile.rows[cost.row], names) if cost else dict.fromkeys(["row", "name", *Place._fields])
    return {
        "asked": found.line,
        "answer": found.why.case.name.lower(),
        "slack": found.why.slack,
        "tied_line": found.why.tied_line,
        "cost": cost.value if cost else None,
        **row,
        "through": found.chain[-1].running if cost else None,
        "span_at_least_cost": found.least_span,
    }
