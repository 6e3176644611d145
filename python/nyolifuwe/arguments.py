"""The words that several commands share: a trace, its limits, names, a format."""

from __future__ import annotations

import argparse
from typing import Any, Dict, NoReturn, Optional

from . import streams
from .errors import spawns_alone
from .library import MOST_DEPTH, MOST_SITES
from .model import BASE, FINISHES
from .names import Names
from .show import FORMATS


class Usage(Exception):
    """Words that a command cannot be run with."""


def command(subparsers: Any, name: str, brief: str, says: str, example: str) -> argparse.ArgumentParser:
    """A command: what the list of commands says of it, what its own help says, and words that run in the top folder."""
    made: argparse.ArgumentParser = subparsers.add_parser(
        name, help=brief, description=says, epilog=f"Example: nyo {name} {example}"
    )
    return made


def add_trace(parser: argparse.ArgumentParser) -> None:
    """One trace and the limits that it is read with."""
    parser.add_argument("trace", metavar="TRACE", help="a file or pipe; - is standard input")
    add_limits(parser)


def trace(args: argparse.Namespace) -> bytes:
    """The trace that is named, kept for whoever tells of its refusal."""
    args.text = streams.read(args.trace)
    return bytes(args.text)


def add_limits(parser: argparse.ArgumentParser) -> None:
    """The limits on depth and sites, at their largest by default."""
    for name, most, least in (("depth", MOST_DEPTH, 1), ("sites", MOST_SITES, 0)):
        said = f"the limit on {name}, {least} to {most} (default: {most})"
        parser.add_argument(f"--{name}", type=int, default=most, metavar="LIMIT", help=said)


def add_family(parser: argparse.ArgumentParser) -> None:
    """The family that traces are of."""
    said = "traces of asyncs and finishes (kinds 12 and 13), not of spawns and syncs"
    parser.add_argument("--finish", dest="family", action="store_const", const=FINISHES, default=BASE, help=said)


def add_spawns_alone(parser: argparse.ArgumentParser) -> None:
    """The same word for a command that takes one family alone, and says so."""
    parser.add_argument("--finish", dest="family", action=SpawnsAlone, nargs=0, default=BASE, help=argparse.SUPPRESS)


class SpawnsAlone(argparse.Action):
    """A word that is wrong usage of a command."""

    def __call__(
        self, parser: argparse.ArgumentParser, args: argparse.Namespace, values: Any, option: Optional[str] = None
    ) -> NoReturn:
        parser.error(f"{spawns_alone(parser.prog.rpartition(' ')[2])}: see nyo top --finish")


def add_names(parser: argparse.ArgumentParser) -> None:
    """The two lists of names."""
    parser.add_argument("--names", metavar="FILE", help="the project's names, one a line, line 0 for the root")
    parser.add_argument("--stock", metavar="FILE", help="names for rows that the project's list leaves out")


def add_format(parser: argparse.ArgumentParser) -> None:
    """The format of what is printed."""
    parser.add_argument("--format", choices=FORMATS, default="text", help="how to print it (default: text)")


def at_least_one(word: str) -> int:
    """A number from 1 on."""
    if not (word.isascii() and word.isdigit() and int(word)):
        raise argparse.ArgumentTypeError(f"not a number from 1 on: {word}")
    return int(word)


def limits(args: argparse.Namespace) -> Dict[str, Any]:
    """The limits as the binding takes them."""
    return {"depth": args.depth, "sites": args.sites}


def reading(args: argparse.Namespace) -> Dict[str, Any]:
    """The limits and the family as the binding takes them."""
    return {**limits(args), "family": args.family}


def lists(args: argparse.Namespace) -> Dict[str, bytes]:
    """The texts of the two lists, empty where none is named."""
    files = {"project": args.names, "stock": args.stock}
    return {name: streams.read(file) if file else b"" for name, file in files.items()}


def names(args: argparse.Namespace) -> Names:
    """The names that the two lists give."""
    return Names(**lists(args))
