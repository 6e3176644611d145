"""nyo folded: a trace as folded stacks, the text that flame views take."""

from __future__ import annotations

import argparse
from typing import Any

from .. import api, arguments, streams
from ..names import unnamed_list


def add(subparsers: Any) -> None:
    """The words of the command."""
    parser = arguments.command(
        subparsers,
        "folded",
        "folded stacks for a flame view; by place where no list is given",
        "For each cost the names from the root to the invocation that it stands in, and the cost: what flamegraph.pl"
        " and other flame views take.",
        "examples/proxy.trace --stock examples/stock.names",
    )
    arguments.add_trace(parser)
    arguments.add_spawns_alone(parser)
    arguments.add_names(parser)
    parser.set_defaults(run=run)


def run(args: argparse.Namespace) -> int:
    """Prints a line for each cost; where a list is given, every row needs a name from it."""
    trace, limits = arguments.trace(args), arguments.limits(args)
    if args.names or args.stock:
        lists = arguments.lists(args)
        streams.emit(api.folded(trace, lists["project"], lists["stock"], **limits))
    else:
        streams.emit(api.folded(trace, unnamed_list(api.profile(trace, **limits).rows), **limits))
    return 0
