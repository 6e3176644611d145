"""nyo night: every trace of some folders into a SQLite file, and the tables over all of them."""

from __future__ import annotations

import argparse
import fnmatch
import os
from typing import Any, Dict, Iterable, List, Set, Tuple

from .. import arguments, library, show, store, streams
from ..crew import CrewLost, cluster, machine, outcomes
from ..judge import File
from ..library import COLUMNS
from ..model import Place
from ..names import ROOT, place_text
from ..progress import Progress
from ..show import counted, number, percent, ratio, share
from ..store import Night, PlaceTotals, RefusalCount, Totals, Worst

SOME_REFUSED, FAILED = 1, 3
FIELDS = (*Place._fields, "traces", *COLUMNS, "on_span_percent")

SAYS = "The numbers of each trace are the proved library's; sums over traces, parallelism and percents are reckoned from them."


def add(subparsers: Any) -> None:
    """The words of the command."""
    parser = arguments.command(
        subparsers,
        "night",
        "profile every trace of some folders into a database; goes on where it stopped",
        "Profiles every trace that is not stored yet, a process a core, and prints the sums by place, the largest"
        " spans and the refusals of all that is stored. A night that is named like a folder is taken in.",
        "examples --db night.db",
    )
    parser.add_argument(
        "folders", nargs="+", metavar="FOLDER", help="looked through, with the folders in it; or a trace, or a night"
    )
    parser.add_argument("--db", required=True, metavar="FILE", help="the SQLite file, made where there is none")
    parser.add_argument("--match", default="*.trace", metavar="PATTERN", help="names of traces in folders (default: *.trace)")
    parser.add_argument("-n", type=arguments.at_least_one, default=10, metavar="ROWS", help="rows of each table (default: 10)")
    parser.add_argument("--workers", type=arguments.at_least_one, metavar="N", help="processes (default: one a core)")
    parser.add_argument("--scheduler", metavar="ADDRESS", help="a Dask scheduler whose workers see the same files")
    arguments.add_family(parser)
    arguments.add_format(parser)
    parser.set_defaults(run=run, late="folders")


def run(args: argparse.Namespace) -> int:
    """Stores what comes of every file that is new, then prints the tables over all that is stored."""
    library.loaded()
    parts = [file for file in args.folders if store.is_database(file)]
    if any(os.path.exists(args.db) and os.path.samefile(part, args.db) for part in parts):
        raise arguments.Usage(f"{args.db} cannot be taken into itself")
    paths, failed = found([folder for folder in args.folders if folder not in parts], args.match)
    if not (paths or parts or failed):
        failed.append(f"no file matches {args.match}")
    with store.written(args.db) as night:
        try:
            failed += taken_in(night, parts) + judge_all(night, paths, args)
        except CrewLost as lost:
            failed.append(f"{lost}; what is finished is in {args.db}: start again to go on")
        emit(night, args.format, args.n)
        refused = night.totals().refused
    for sentence in failed:
        streams.say(sentence)
    return FAILED if failed else SOME_REFUSED if refused else 0


def found(folders: Iterable[str], pattern: str) -> Tuple[List[str], List[str]]:
    """The files to judge, in order and none twice, and what could not be looked through, each in a sentence."""
    paths: Set[str] = set()
    failed: List[str] = []

    def unlisted(error: OSError) -> None:
        failed.append(f"{error.filename}: {error.strerror}")

    for folder in folders:
        whole = os.path.abspath(folder)
        if os.path.isfile(whole):
            paths.add(whole)
            continue
        for at, _, names in os.walk(whole, onerror=unlisted):
            matching = (os.path.join(at, name) for name in fnmatch.filter(names, pattern))
            paths.update(path for path in matching if os.path.isfile(path))
    return sorted(paths, key=os.fsencode), failed


def taken_in(night: Night, parts: List[str]) -> List[str]:
    """Stores what other nights have; answers a sentence for each that is none."""
    failed = []
    for part in parts:
        try:
            night.take_in(part)
        except store.StoreFailed as error:
            failed.append(str(error))
    return failed


def judge_all(night: Night, paths: List[str], args: argparse.Namespace) -> List[str]:
    """Stores what comes of each file, in their order; answers a sentence for each that could not be read."""
    digests, failed = night.digests(args.family), []
    files = [File(path, digests.get(store.kept_as(path), ""), args.family) for path in paths]
    if not files:
        return []
    with cluster(args.scheduler) if args.scheduler else machine(args.workers) as crew, Progress(len(paths)) as progress:
        for outcome in outcomes(crew, files):
            if outcome.unread:
                failed.append(f"{store.shown(store.kept_as(outcome.path))}: {outcome.unread}")
            elif not outcome.kept:
                night.write(outcome, args.family)
            progress.step(bool(outcome.refusal))
    return failed


def emit(night: Night, form: str, rows: int) -> None:
    """Prints the tables; for people so many rows of each, for programs all places."""
    totals, places = night.totals(), night.by_place()
    if form == "csv":
        show.emit_csv([place_fields(one, totals) for one in places], FIELDS)
    elif form == "json":
        show.emit_json(
            {
                **totals._asdict(),
                "places": [place_fields(one, totals) for one in places],
                "worst": [one._asdict() for one in night.worst(rows)],
                "refusals": [one._asdict() for one in night.refusals()],
            }
        )
    else:
        streams.emit("\n".join(texts(night, totals, places, rows)))


def texts(night: Night, totals: Totals, places: List[PlaceTotals], rows: int) -> List[str]:
    """The parts of what is printed for people."""
    refusals = night.refusals()
    parts = [headline(totals)]
    if places:
        some = any(one.numbers["ilocal"] for one in places)
        left = f"not shown: {counted(len(places) - rows, 'place')} beyond -n\n" if len(places) > rows else ""
        parts.append(show.table([place_cells(one, totals, some) for one in places[:rows]]) + left)
        parts.append("largest spans\n" + show.table([worst_cells(one) for one in night.worst(rows)]))
    if refusals:
        parts.append("refusals, each with its first trace\n" + show.table([refusal_cells(one) for one in refusals]))
    return [*parts, SAYS + "\n"]


def headline(totals: Totals) -> str:
    """The sums in two lines."""
    judged = f"{counted(totals.traces, 'trace')}, {number(totals.accepted)} accepted, {number(totals.refused)} refused"
    sums = f"work {number(totals.work)}, span {number(totals.span)}, parallelism {ratio(totals.work, totals.span)}"
    return f"{judged}\nof the accepted: {sums}, {counted(totals.lines, 'line')}\n"


def place_cells(one: PlaceTotals, totals: Totals, some: bool) -> Dict[str, str]:
    """A place for people, with its instructions where there are some."""
    return {
        show.SITE: place_text(one.place) or ROOT,
        "traces": number(one.traces),
        **show.cycle_cells(one.numbers),
        "of span": percent(one.numbers["on_span"], totals.span),
        **show.instruction_cells(one.numbers, some),
    }


def place_fields(one: PlaceTotals, totals: Totals) -> Dict[str, Any]:
    """A place for a program."""
    percentage = share(one.numbers["on_span"], totals.span)
    return dict(zip(FIELDS, [*(one.place or (None,) * 3), one.traces, *one.numbers.values(), percentage]))


def nearby(path: str) -> str:
    """A path as it is shown, from the current folder on where it is in that folder."""
    return path.removeprefix(store.shown(store.kept_as(os.path.join(os.getcwd(), ""))))


def worst_cells(one: Worst) -> Dict[str, str]:
    """A trace with a large span for people."""
    numbers = {name: number(getattr(one, name)) for name in ("span", "work", "lines")}
    return {**numbers, "parallelism": ratio(one.work, one.span), show.TRACE: nearby(one.path)}


def refusal_cells(one: RefusalCount) -> Dict[str, str]:
    """A refusal for people."""
    counts = {"refusal": str(one.number), "traces": number(one.traces)}
    return {**counts, show.NOTE: one.sentence, show.TRACE: nearby(one.path)}
