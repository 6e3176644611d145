"""A night in a SQLite file: traces, the places of sites, rows and refusals, and what is asked of them."""

from __future__ import annotations

import os
import sqlite3
from contextlib import contextmanager
from pathlib import Path
from typing import Dict, Iterator, List, NamedTuple, Optional, Sequence, Tuple, Union

from .judge import Accepted, Outcome, Refusal
from .library import COLUMNS
from .model import BASE, FINISHES, Place

SIGNATURE = b"SQLite format 3\0"
APPLICATION = 0x4E594F21  # a file with another application_id is not a night

SCHEMA = f"""
PRAGMA application_id = {APPLICATION};
CREATE TABLE traces (
    trace INTEGER PRIMARY KEY,
    path NOT NULL UNIQUE, -- text, or the bytes of a name that is not UTF-8
    digest TEXT NOT NULL, -- SHA-256 of the file
    family TEXT NOT NULL, -- {BASE} or {FINISHES}: what it was read as
    verdict INTEGER NOT NULL, -- 0 for accepted, otherwise the refusal's number
    work INTEGER, span INTEGER, sites INTEGER, lines INTEGER -- of an accepted trace
);
CREATE TABLE sites (
    file INTEGER NOT NULL, line INTEGER NOT NULL, column INTEGER NOT NULL,
    PRIMARY KEY (file, line, column)
) WITHOUT ROWID;
CREATE TABLE rows (
    trace INTEGER NOT NULL REFERENCES traces ON DELETE CASCADE,
    row INTEGER NOT NULL, -- the trace's own number of the site, 0 for the root
    file INTEGER, line INTEGER, column INTEGER, -- its place, none for the root
    {', '.join(f'{name} INTEGER NOT NULL' for name in COLUMNS)},
    PRIMARY KEY (trace, row),
    FOREIGN KEY (file, line, column) REFERENCES sites
) WITHOUT ROWID;
CREATE TABLE refusals (
    trace INTEGER PRIMARY KEY REFERENCES traces ON DELETE CASCADE,
    number INTEGER NOT NULL, line INTEGER NOT NULL, sentence TEXT NOT NULL
);
"""


# The path of a trace as it is stored, its digest and its family.
Key = Tuple[Union[str, bytes], str, str]


class StoreFailed(OSError):
    """A night's file that cannot be read or written, or that is none."""


class Totals(NamedTuple):
    """Over all traces of a night: how many, how many of them accepted and refused, and the sums of the accepted ones."""

    traces: int
    accepted: int
    refused: int
    lines: int
    work: int
    span: int


class PlaceTotals(NamedTuple):
    """Over all accepted traces, by place (none for the root): in how many it ran, and the sums of its numbers."""

    place: Optional[Place]
    traces: int
    numbers: Dict[str, int]


class Worst(NamedTuple):
    """A trace with a large span."""

    path: str
    work: int
    span: int
    lines: int


class RefusalCount(NamedTuple):
    """How many traces got a refusal, and the first of them."""

    number: int
    sentence: str
    traces: int
    path: str
    line: int


def is_database(path: str) -> bool:
    """Whether a file begins as SQLite's do; a pipe, or what cannot be read, does not."""
    try:
        if not os.path.isfile(path):
            return False
        with open(path, "rb") as file:
            return file.read(len(SIGNATURE)) == SIGNATURE
    except OSError:
        return False


def kept_as(path: str) -> Union[str, bytes]:
    """How a path is stored: its text, or its bytes where they are not UTF-8."""
    try:
        path.encode()
        return path
    except UnicodeEncodeError:
        return os.fsencode(path)


def shown(stored: Union[str, bytes]) -> str:
    """A stored path as a person can read it, with every character that could disturb a screen written out."""
    text = stored if isinstance(stored, str) else stored.decode("utf-8", "backslashreplace")
    return "".join(char if char.isprintable() else char.encode("unicode_escape").decode() for char in text)


def summed(columns: Sequence[str]) -> str:
    """What is to be selected for sums of numbers below 2^63: each in two parts, since SQLite's own sum ends at 2^63."""
    return ", ".join(f"coalesce(sum({name} >> 32), 0), coalesce(sum({name} & 4294967295), 0)" for name in columns)


def put_together(parts: Sequence[int]) -> List[int]:
    """The sums out of their two parts each."""
    return [(high << 32) + low for high, low in zip(parts[0::2], parts[1::2])]


class Night:
    """The night in a database: written a trace at a time, each in a transaction of its own."""

    def __init__(self, connection: sqlite3.Connection) -> None:
        self.connection = connection
        self._check("main")

    def _check(self, schema: str) -> None:
        """Raises StoreFailed unless the tables are those of a night with these columns."""
        (application,) = self.connection.execute(f"PRAGMA {schema}.application_id").fetchone()
        traces, rows = (
            [name for _, name, *_ in self.connection.execute(f"PRAGMA {schema}.table_info({table})")]
            for table in ("traces", "rows")
        )
        if application != APPLICATION or "family" not in traces or rows[5:] != list(COLUMNS):
            raise StoreFailed("not a night of this version of nyo")

    def digests(self, family: str) -> Dict[Union[str, bytes], str]:
        """The digest of each trace that is stored as one of a family, by its stored path."""
        return dict(self.connection.execute("SELECT path, digest FROM traces WHERE family = ?", (family,)))

    def write(self, outcome: Outcome, family: str = BASE) -> None:
        """Stores what came of a file in place of what was stored of it: all of it, or nothing where it fails."""
        key = (kept_as(outcome.path), outcome.digest, family)
        with self.connection:
            self.connection.execute("DELETE FROM traces WHERE path = ?", key[:1])
            if outcome.accepted:
                self._write_accepted(key, outcome.accepted)
            elif outcome.refusal:
                self._write_refusal(key, outcome.refusal)

    def _write_accepted(self, key: Key, accepted: Accepted) -> None:
        """Stores the totals, places and rows of an accepted trace."""
        one = self.connection.execute(
            "INSERT INTO traces (path, digest, family, verdict, work, span, sites, lines) VALUES (?, ?, ?, 0, ?, ?, ?, ?)",
            (*key, *accepted[:4]),
        )
        places = [row[1:4] for row in accepted.rows if row[0]]
        self.connection.executemany("INSERT OR IGNORE INTO sites VALUES (?, ?, ?)", places)
        rows = [(one.lastrowid, *row) for row in accepted.rows]
        self.connection.executemany(f"INSERT INTO rows VALUES (?, ?, ?, ?, ?{', ?' * len(COLUMNS)})", rows)

    def _write_refusal(self, key: Key, refusal: Refusal) -> None:
        """Stores the refusal of a trace."""
        one = self.connection.execute(
            "INSERT INTO traces (path, digest, family, verdict) VALUES (?, ?, ?, ?)", (*key, refusal.number)
        )
        self.connection.execute("INSERT INTO refusals VALUES (?, ?, ?, ?)", (one.lastrowid, *refusal))

    def take_in(self, path: str) -> None:
        """Stores all that another night has, in place of what is stored of the same files; StoreFailed where it is none."""
        try:
            self.connection.execute("ATTACH ? AS part", (address(path, "ro"),))
            try:
                self._check("part")
                self._copy_part()
            finally:
                self.connection.execute("DETACH part")
        except (sqlite3.Error, StoreFailed) as error:
            raise StoreFailed(f"{path}: {error}") from error

    def _copy_part(self) -> None:
        """Copies the attached night, its traces numbered on from the last."""
        with self.connection:
            self.connection.execute("DELETE FROM main.traces WHERE path IN (SELECT path FROM part.traces)")
            last = self.connection.execute("SELECT coalesce(max(trace), 0) FROM main.traces").fetchone()
            copy = "INSERT INTO main.{0} SELECT trace + ?, {1} FROM part.{0}"
            self.connection.execute(copy.format("traces", "path, digest, family, verdict, work, span, sites, lines"), last)
            self.connection.execute("INSERT OR IGNORE INTO main.sites SELECT * FROM part.sites")
            self.connection.execute(copy.format("rows", f"row, file, line, column, {', '.join(COLUMNS)}"), last)
            self.connection.execute(copy.format("refusals", "number, line, sentence"), last)

    def totals(self) -> Totals:
        """The sums over all traces."""
        query = f"SELECT count(*), coalesce(sum(verdict = 0), 0), {summed(['lines', 'work', 'span'])} FROM traces"
        traces, accepted, *parts = self.connection.execute(query).fetchone()
        return Totals(traces, accepted, traces - accepted, *put_together(parts))

    def by_place(self) -> List[PlaceTotals]:
        """The sums of each place over all traces, the largest on the span first."""
        query = f"SELECT file, line, column, sum(calls > 0), {summed(COLUMNS)} FROM rows GROUP BY file, line, column"
        found = []
        for file, line, column, traces, *parts in self.connection.execute(query):
            place = None if file is None else Place(file, line, column)
            found.append(PlaceTotals(place, traces, dict(zip(COLUMNS, put_together(parts)))))
        return sorted(found, key=lambda one: (-one.numbers["on_span"], -one.numbers["local"], one.place or ()))

    def worst(self, most: int) -> List[Worst]:
        """The traces with the largest spans."""
        query = "SELECT path, work, span, lines FROM traces WHERE verdict = 0 ORDER BY span DESC, path LIMIT ?"
        return [Worst(shown(path), *numbers) for path, *numbers in self.connection.execute(query, (most,))]

    def refusals(self) -> List[RefusalCount]:
        """The refusals by number and sentence, each with the first of its traces."""
        query = "SELECT number, sentence, path, refusals.line FROM refusals JOIN traces USING (trace) ORDER BY number, path"
        found: Dict[Tuple[int, str], RefusalCount] = {}
        for number, sentence, path, line in self.connection.execute(query):
            first = found.setdefault((number, sentence), RefusalCount(number, sentence, 0, shown(path), line))
            found[number, sentence] = first._replace(traces=first.traces + 1)
        return list(found.values())


def address(path: str, mode: str) -> str:
    """How SQLite is told of a file and of what it may do with it."""
    return f"{Path(path).absolute().as_uri()}?mode={mode}"


@contextmanager
def _connected(path: str, mode: str) -> Iterator[sqlite3.Connection]:
    """A connection that waits for others; whatever fails on it is told with the file's name."""
    try:
        connection = sqlite3.connect(address(path, mode), timeout=60, uri=True)
        try:
            connection.execute("PRAGMA foreign_keys = ON")
            yield connection
        finally:
            connection.close()
    except (sqlite3.Error, StoreFailed) as error:
        raise StoreFailed(f"{path}: {error}") from error


def _at_rest(connection: sqlite3.Connection) -> None:
    """Brings all that was written into the one file, unless somebody is reading it."""
    try:
        connection.execute("PRAGMA busy_timeout = 0")
        connection.execute("PRAGMA journal_mode = DELETE")
    except sqlite3.OperationalError as error:
        if "locked" not in str(error):
            raise


@contextmanager
def written(path: str) -> Iterator[Night]:
    """A night to write to, made where there is none."""
    with _connected(path, "rwc") as connection:
        if not connection.execute("SELECT count(*) FROM sqlite_master").fetchone()[0]:
            connection.executescript(f"BEGIN; {SCHEMA} COMMIT;")
        night = Night(connection)
        connection.execute("PRAGMA journal_mode = WAL")
        connection.execute("PRAGMA synchronous = NORMAL")
        try:
            yield night
        finally:
            _at_rest(connection)


@contextmanager
def read(path: str) -> Iterator[Night]:
    """A night to ask, which is not changed."""
    with _connected(path, "ro") as connection:
        yield Night(connection)
