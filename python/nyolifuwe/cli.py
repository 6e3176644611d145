"""The command nyo: its words, its commands, and the status that each outcome has."""

from __future__ import annotations

import argparse
import os
import sys
from difflib import get_close_matches
from types import ModuleType
from typing import IO, List, Optional, Sequence

from . import __version__
from .arguments import Usage
from .commands import chain, check, compact, csv, diff, folded, forecast, night, page, report, top, why
from .errors import Refused
from .faults import told
from .streams import STANDARD_INPUT, OutputFailed, emit, say

COMMANDS: List[ModuleType] = [top, forecast, chain, why, check, page, night, diff, compact, folded, csv, report]
NAMES = [command.__name__.rpartition(".")[2] for command in COMMANDS]
DEFAULT = "top"

GOOD, REFUSED, USAGE, FAILED, INTERRUPTED = 0, 1, 2, 3, 130

ABOUT = """Work, span and the chosen chain of a fork-join trace. Every number that is shown comes from the proved library;
only percents, ratios and sums over lines or traces are computed beside it. `nyo TRACE` is `nyo top TRACE`."""
USES = "nyo TRACE\n       nyo COMMAND ...\n       nyo [COMMAND] --help\n       nyo --version"
STATUS = "Status: 0 good, 1 a trace was refused, 2 wrong usage, 3 input or output failed, 4 over a limit that was set."


class Parser(argparse.ArgumentParser):
    """A parser whose help and version are written as every other answer is."""

    def _print_message(self, message: str, file: Optional[IO[str]] = None) -> None:
        if file is sys.stderr:
            super()._print_message(message, file)
        else:
            emit(message)


def parser() -> argparse.ArgumentParser:
    """The parser of all commands."""
    all_commands = Parser(prog="nyo", usage=USES, description=ABOUT, epilog=STATUS)
    all_commands.add_argument("--version", action="version", version=f"nyo {__version__}")
    subparsers = all_commands.add_subparsers(title="commands", prog="nyo", metavar="COMMAND", dest="command", required=True)
    for command in COMMANDS:
        command.add(subparsers)
    return all_commands


def with_command(words: Sequence[str]) -> List[str]:
    """The words with the default command before them, where the first is no command of its own."""
    own = [*NAMES, "-h", "--help", "--version"]
    return list(words) if words[0] in own else [DEFAULT, *words]


def mistyped(words: Sequence[str]) -> str:
    """A sentence where the first word is neither a command nor a file, but nearly a command; otherwise nothing."""
    near = get_close_matches(words[0], NAMES, n=1)
    if not near or words[0] in NAMES or words[0].startswith("-") or os.path.exists(words[0]):
        return ""
    return f"{words[0]}: no command and no file of that name; did you mean {near[0]}?"


def too_many(args: argparse.Namespace, more: Sequence[str]) -> str:
    """A sentence on words that a command does not take."""
    if "trace" in args and not any(word.startswith("-") for word in more):
        own = "one trace and one line" if "line" in args else "one trace"
        return f"{args.command} takes {own}, and not {' '.join(more)} too; check and night take several traces"
    return f"unrecognized arguments: {' '.join(more)}"


def parsed(words: Sequence[str]) -> argparse.Namespace:
    """The words taken apart; those of a list may stand behind an option too. Without words all of the help is the fault."""
    all_commands = parser()
    if not words:
        all_commands.print_help(sys.stderr)
        raise SystemExit(USAGE)
    if mistyped(words):
        all_commands.error(mistyped(words))
    args, more = all_commands.parse_known_args(with_command(words))
    if more and ("late" not in args or any(word.startswith("-") and word != STANDARD_INPUT for word in more)):
        all_commands.error(too_many(args, more))
    if more:
        getattr(args, args.late).extend(more)
    return args


def outcome(args: argparse.Namespace) -> int:
    """Runs the command and answers its status."""
    try:
        return int(args.run(args))
    except Refused as refused:
        say(told(args.trace, args.text, refused, args.family))
        return REFUSED
    except Usage as usage:
        say(str(usage))
        return USAGE
    except OSError as error:
        say(f"{error.filename}: {error.strerror}" if error.filename else str(error))
        return FAILED


def main(words: Optional[Sequence[str]] = None) -> int:
    """Runs the command that the words name and answers its status."""
    try:
        return outcome(parsed(sys.argv[1:] if words is None else words))
    except OutputFailed as failed:
        say(str(failed))
        return FAILED
    except KeyboardInterrupt:
        return INTERRUPTED
