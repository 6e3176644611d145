"""nyo night: what is stored is what the library says of each file, by SQL."""

from __future__ import annotations

import csv
import hashlib
import io
import json
import os
import shutil
import sqlite3
import sys
import tempfile
import time
import unittest
from concurrent.futures import ThreadPoolExecutor
from contextlib import closing
from pathlib import Path
from typing import Any, Dict, List
from unittest import mock

import nyolifuwe
from nyolifuwe import judge, library, progress, store
from nyolifuwe.model import Place

from . import make_night
from .support import CARRYING, EXAMPLES, FAILED, GOOD, REFUSED, USAGE, Outcome, example, nyo, program, trace

# The places of proxy.trace and case-i.trace with their numbers in examples/README.md, on span falling, then local.
SMALL_NIGHT = """\
3 traces, 2 accepted, 1 refused
of the accepted: work 36,150, span 11,444, parallelism 3.16, 95 lines

site     traces  calls    work    span   local  on span  of span
2:44:13       1      4  15,000  15,000  15,000    5,100    44.6%
2:23:13       1      4  11,000  11,000  11,000    3,600    31.5%
2:31:13       1      8   5,700   5,700   5,700      910     8.0%
1:41:5        1      1     900     900     900      900     7.9%
1:77:5        1      1     700     700     700      700     6.1%
root          2      2  36,150  11,444     242      227     2.0%
1:20:9        1      1       7       7       7        7     0.1%
1:52:9        1      1   2,600   2,600   2,600        0     0.0%
1:10:5        1      1       8       7       1        0     0.0%
1:58:9        1      4  31,700  28,880       0        0     0.0%
not shown: 1 place beyond -n

largest spans
  span    work  lines  parallelism  trace
11,435  36,140     85         3.16  {folder}/b/proxy.trace
     9      10     10         1.11  {folder}/case-i.trace

refusals, each with its first trace
refusal  traces  note                                                                           trace
      5       1  a character that is not `0`-`9`, `a`-`f`, `A`-`F`, or no line feed at the end  {folder}/b/refusal-05.trace

The numbers of each trace are the proved library's; sums over traces, parallelism and percents are reckoned from them.
"""


def query(db: Path, text: str) -> List[Any]:
    """What a query on a database answers."""
    with closing(sqlite3.connect(db)) as connection:
        return connection.execute(text).fetchall()


def dump(db: Path) -> List[str]:
    """All that is in a database."""
    with closing(sqlite3.connect(db)) as connection:
        return list(connection.iterdump())


def stored(folder: Path) -> Dict[str, Any]:
    """What the library says of each file: its totals and rows, or its refusal."""
    found: Dict[str, Any] = {}
    for file in folder.rglob("*.trace"):
        try:
            profile = nyolifuwe.profile(file.read_bytes())
            rows = [(row.row, *(row.place or (None,) * 3), *row[2:]) for row in profile.rows]
            found[str(file)] = (profile.work, profile.span, profile.sites, profile.lines, rows)
        except nyolifuwe.Refused as refused:
            found[str(file)] = (refused.number, refused.line, refused.sentence)
    return found


def read_back(db: Path) -> Dict[str, Any]:
    """What a database has of each file, in the same form."""
    found: Dict[str, Any] = {}
    for trace, path, verdict, *totals in query(db, "SELECT trace, path, verdict, work, span, sites, lines FROM traces"):
        if verdict:
            ((number, line, sentence),) = query(db, f"SELECT number, line, sentence FROM refusals WHERE trace = {trace}")
            assert number == verdict and totals == [None] * 4
            found[path] = (number, line, sentence)
        else:
            rows = query(db, f"SELECT row, file, line, column, {', '.join(library.COLUMNS)} FROM rows WHERE trace = {trace}")
            found[path] = (*totals, rows)
    return found


class InAFolder(unittest.TestCase):
    """Tests with a folder of their own."""

    def setUp(self) -> None:
        self.folder = Path(tempfile.mkdtemp()).resolve()
        self.addCleanup(shutil.rmtree, self.folder)
        self.db = self.folder / "night.db"

    def put(self, name: str, text: bytes) -> Path:
        """A file in the folder."""
        file = self.folder / name
        file.parent.mkdir(parents=True, exist_ok=True)
        file.write_bytes(text)
        return file

    def night(self, *words: object) -> Outcome:
        """The night of the folder, with one worker unless other words say so."""
        return nyo("night", self.folder, "--db", self.db, "--workers", "1", *words)


class Answers(InAFolder):
    """What is printed and stored."""

    def test_small_night(self) -> None:
        """The tables of two examples and a refused one, by hand, and the same again from the database alone."""
        self.put("case-i.trace", example("case-i.trace"))
        self.put("b/proxy.trace", example("proxy.trace"))
        self.put("b/refusal-05.trace", example("refusal-05.trace"))
        self.put("b/notes.txt", b"no trace")
        wanted = (REFUSED, SMALL_NIGHT.replace("{folder}", str(self.folder)), "")
        self.assertEqual(self.night(), wanted)
        before = dump(self.db)
        self.assertEqual(self.night(), wanted)
        self.assertEqual(dump(self.db), before)
        self.assertEqual([file.name for file in self.folder.glob("night.db*")], ["night.db"])
        self.formats()

    def test_traces_of_the_current_folder(self) -> None:
        """A trace in the current folder is shown from there on, and stored with all of its path."""
        file = self.put("traces/i.trace", example("case-i.trace"))
        self.put("traces/bad.trace", example("refusal-05.trace"))
        ran = program(f"cd {self.folder} && $nyo night traces --db night.db --workers 1")
        shown = [text.split()[-1] for text in ran.out.splitlines() if ".trace" in text]
        self.assertEqual(shown, ["traces/i.trace", "traces/bad.trace"])
        self.assertIn((str(file),), query(self.db, "SELECT path FROM traces"))

    def formats(self) -> None:
        """The same as JSON and as comma-separated text."""
        ran = self.night("--format", "json")
        whole = json.loads(ran.out)
        self.assertEqual(
            [whole[key] for key in ("traces", "accepted", "refused", "lines", "work", "span")], [3, 2, 1, 95, 36150, 11444]
        )
        first = {"file": 2, "line": 44, "column": 13, "traces": 1, "calls": 4, "work": 15000, "span": 15000, "local": 15000}
        self.assertEqual(whole["places"][0], {**first, "on_span": 5100, "ilocal": 0, "ion_span": 0, "on_span_percent": 44.565})
        self.assertEqual([(one["number"], one["line"], one["traces"]) for one in whole["refusals"]], [(5, 2, 1)])
        self.assertEqual(
            [(one["span"], Path(one["path"]).name) for one in whole["worst"]], [(11435, "proxy.trace"), (9, "case-i.trace")]
        )
        records = list(csv.DictReader(io.StringIO(self.night("--format", "csv").out)))
        self.assertEqual(len(records), 11)
        self.assertEqual([records[5][name] for name in ("file", "traces", "local", "on_span")], ["", "2", "242", "227"])

    def test_instructions(self) -> None:
        """Where a trace of the night carries instructions, their sums stand behind the other columns."""
        self.put("a.trace", trace(CARRYING))
        self.put("b.trace", trace("spawn 1 {4}, 4"))
        table = self.night().out.splitlines()[3:7]
        self.assertEqual(table[0].split()[-6:], ["instructions", "instr", "on", "span", "per", "cycle"])
        numbers = {line.split()[0]: line.split()[-3:] for line in table[1:]}
        self.assertEqual(numbers, {"1:2:1": ["20", "20", "2.22"], "1:1:1": ["3", "0", "0.21"], "root": ["4", "4", "0.50"]})
        sums = query(self.db, "SELECT row, sum(ilocal), sum(ion_span) FROM rows GROUP BY row")
        self.assertEqual(sums, [(0, 4, 4), (1, 3, 0), (2, 20, 20)])

    def test_generated(self) -> None:
        """Of generated traces the database has what the library says, and each damage its number."""
        verdicts = make_night.make(self.folder, 120, seed=7, most=400, damaged=30, carrying=50)
        self.assertEqual(self.night("--workers", "2").status, REFUSED)
        self.assertEqual(read_back(self.db), stored(self.folder))
        numbers = dict(query(self.db, "SELECT path, verdict FROM traces"))
        self.assertEqual(numbers, {str(file): number for file, number in verdicts.items()})
        self.assertEqual(set(numbers.values()), {0, *make_night.DAMAGES})
        used = set(query(self.db, "SELECT file, line, column FROM rows WHERE row > 0"))
        self.assertEqual(set(query(self.db, "SELECT * FROM sites")), used)
        self.assertTrue(used <= set(make_night.pool()))
        order = query(self.db, "SELECT path FROM traces ORDER BY trace")
        self.assertEqual(order, sorted(order))

    def test_by_place(self) -> None:
        """A place with other numbers is one place; places that share two of three parts are not."""
        places = [Place(1, 10, 5), Place(1, 10, 6), Place(1, 11, 5), Place(2, 10, 5)]
        for name, order in (("a", places), ("b", places[::-1])):
            sites = [make_night.site(number, place) for number, place in enumerate(order, 1)]
            calls = [
                make_night.made(2, number) + make_night.cost(order[number - 1].line) + make_night.RETURN
                for number in range(1, 5)
            ]
            self.put(f"{name}.trace", b"".join(sites + calls) + make_night.RETURN)
        places_of = {
            (one["file"], one["line"], one["column"]): one for one in json.loads(self.night("--format", "json").out)["places"]
        }
        numbers = {place: (places_of[place]["traces"], places_of[place]["on_span"]) for place in places}
        self.assertEqual(numbers, {place: (2, 2 * place.line) for place in places})

    def test_sums_past_64_bits(self) -> None:
        """Sums over traces are exact where 64 bits do not hold them."""
        large = (1 << 53) + 1
        row = (0, None, None, None, *(large for _ in library.COLUMNS))
        with store.written(str(self.db)) as night:
            for count in range(1100):
                night.write(judge.Outcome(f"/{count}", "digest", accepted=judge.Accepted(large, large, 0, 1, [row])))
            self.assertEqual(night.totals(), (1100, 1100, 0, 1100, 1100 * large, 1100 * large))
            self.assertEqual(night.by_place()[0].numbers["on_span"], 1100 * large)


class Parts(InAFolder):
    """Nights that are taken into another."""

    def test_parts(self) -> None:
        """Two nights taken in are one night of all their files; what is stored of the same files gives way."""
        for name in ("case-i", "proxy", "refusal-05"):
            self.put(f"one/{name}.trace", example(f"{name}.trace"))
        again = self.put("two/again.trace", example("splitter.trace"))
        one, two = self.folder / "one.db", self.folder / "two.db"
        for folder, db in (("one", one), ("two", two)):
            nyo("night", self.folder / folder, "--db", db, "--workers", "1")
        self.assertEqual(nyo("night", one, two, "--db", self.db).status, REFUSED)
        self.assertEqual(self.night().status, REFUSED)
        whole = self.folder / "whole.db"
        self.assertEqual(nyo("night", self.folder, "--db", whole, "--workers", "1").status, REFUSED)
        self.assertEqual(dump(self.db), dump(whole))
        again.write_bytes(example("capitals.trace"))
        nyo("night", self.folder / "two", "--db", two, "--workers", "1")
        self.assertEqual(nyo("night", two, "--db", self.db).status, REFUSED)
        self.assertEqual(query(self.db, f"SELECT work FROM traces WHERE path = '{again}'"), [(339,)])
        self.assertEqual(len(query(self.db, "SELECT * FROM traces")), 4)

    def test_no_part(self) -> None:
        """A database of something else is told, and the others are taken in; a night is not taken into itself."""
        self.put("a.trace", example("case-i.trace"))
        self.night()
        other = self.put("other.db", b"SQLite format 3\0" + bytes(100))
        ran = nyo("night", other, self.db, "--db", self.folder / "new.db")
        self.assertEqual((ran.status, ran.err), (FAILED, f"nyo: {other}: file is not a database\n"))
        self.assertEqual(query(self.folder / "new.db", "SELECT work FROM traces"), [(10,)])
        self.assertEqual(nyo("night", self.db, "--db", self.db).status, USAGE)


class Files(InAFolder):
    """Which files are taken, and what a file may be."""

    def test_changed_and_gone(self) -> None:
        """A file that changed is judged anew, alone; one that is gone stays stored; a new one is added."""
        changed = self.put("a.trace", example("case-i.trace"))
        gone = self.put("b.trace", example("splitter.trace"))
        self.assertEqual(self.night().status, GOOD)
        changed.write_bytes(example("capitals.trace"))
        gone.unlink()
        new = self.put("c.trace", example("refusal-07.trace"))
        self.assertEqual(self.night().status, REFUSED)
        wanted = [(str(gone), 0, 16), (str(changed), 0, 339), (str(new), 7, None)]
        self.assertEqual(query(self.db, "SELECT path, verdict, work FROM traces ORDER BY trace"), wanted)
        self.assertEqual(query(self.db, "SELECT count(*) FROM rows"), [(6,)])

    def test_names(self) -> None:
        """A file's name may be any: bytes that are no text, a line feed; a file that is named is taken whatever its name."""
        odd = os.fsdecode(os.fsencode(self.folder) + b"/\xff.trace")
        shutil.copy(EXAMPLES / "case-i.trace", odd)
        self.put("a\nb.trace", example("proxy.trace"))
        named = self.put("c.other", example("case-i.trace"))
        ran = self.night(named)
        self.assertEqual(ran.status, GOOD)
        self.assertIn("/\\xff.trace\n", ran.out)
        self.assertIn("/a\\nb.trace\n", ran.out)
        paths = {path for path, in query(self.db, "SELECT path FROM traces")}
        self.assertEqual(paths, {os.fsencode(odd), str(self.folder / "a\nb.trace"), str(named)})
        self.assertEqual(self.night(named).out, ran.out)

    def test_longer_than_any_trace(self) -> None:
        """A file beyond the limit gets the refusal of its length, whatever its length."""
        beyond = library.LINE_CHARS * (library.MOST_LINES + 5)
        for length, number in ((beyond, 3), (beyond + 4, 2), (judge.MOST_CHARS + 1, 2), (judge.MOST_CHARS + 23, 3)):
            text = (make_night.SYNC * (2 + length // 23))[:length]
            outcome = judge.judged(str(self.put("long.trace", text)), "")
            with self.assertRaises(nyolifuwe.Refused) as refused:
                nyolifuwe.profile(text)
            self.assertEqual(outcome.refusal, (number, 0, refused.exception.sentence))
            self.assertEqual(outcome.digest, hashlib.sha256(text).hexdigest())

    def test_unread(self) -> None:
        """What cannot be read is told, is not stored, and ends nothing."""
        self.put("a.trace", example("case-i.trace"))
        self.assertEqual(judge.judged(str(self.folder), "").unread, "Is a directory")
        ran = self.night(self.folder / "none")
        self.assertEqual((ran.status, ran.err), (FAILED, f"nyo: {self.folder}/none: No such file or directory\n"))
        self.assertEqual(query(self.db, "SELECT work FROM traces"), [(10,)])

    def test_nothing_found(self) -> None:
        """A night without traces is a failure that is told."""
        ran = self.night()
        self.assertEqual((ran.status, ran.err), (FAILED, "nyo: no file matches *.trace\n"))
        self.assertEqual(ran.out.splitlines()[0], "0 traces, 0 accepted, 0 refused")


class Database(InAFolder):
    """Files that are no night, and writes that fail."""

    def test_no_night(self) -> None:
        """A file of something else is left as it is."""
        self.put("a.trace", example("case-i.trace"))
        self.db.write_text("my notes, which are longer than the header of a database: " + 60 * "-")
        before = self.db.read_bytes()
        self.assertEqual((self.night().status, self.db.read_bytes()), (FAILED, before))
        self.db.unlink()
        with closing(sqlite3.connect(self.db)) as connection:
            connection.execute("CREATE TABLE traces (mine)")
        before = self.db.read_bytes()
        wanted = (FAILED, "", f"nyo: {self.db}: not a night of this version of nyo\n")
        self.assertEqual((self.night(), self.db.read_bytes()), (wanted, before))

    def test_a_night_without_a_column(self) -> None:
        """A night that lacks a column is left as it is, and not taken into another."""
        self.put("a.trace", example("case-i.trace"))
        for column in ("traces RENAME COLUMN family", "rows RENAME COLUMN ion_span"):
            self.assertEqual(self.night().status, GOOD)
            with closing(sqlite3.connect(self.db)) as connection:
                connection.execute(f"ALTER TABLE {column} TO other")
            before = self.db.read_bytes()
            wanted = (FAILED, "", f"nyo: {self.db}: not a night of this version of nyo\n")
            self.assertEqual((self.night(), self.db.read_bytes()), (wanted, before))
            self.assertEqual(nyo("night", self.db, "--db", self.folder / "new.db").status, FAILED)
            self.db.unlink()

    def test_no_room(self) -> None:
        """Where the database cannot be written, or standard output not, the status says so."""
        self.put("a.trace", example("case-i.trace"))
        self.assertEqual(nyo("night", self.folder, "--db", "/dev/full").status, FAILED)
        self.assertEqual(nyo("night", self.folder, "--db", self.folder / "none" / "night.db").status, FAILED)
        self.assertEqual(program(f"$nyo night {self.folder} --db {self.db} >/dev/full").status, FAILED)
        self.assertEqual(query(self.db, "SELECT work FROM traces"), [(10,)])

    def test_usage(self) -> None:
        """A night wants a database, and workers."""
        self.assertEqual(nyo("night", self.folder).status, USAGE)
        self.assertEqual(nyo("night", self.folder, "--db", self.db, "--workers", "0").status, USAGE)


class Cluster(InAFolder):
    """A night over a scheduler; tests/nightly_cluster.py has a real one."""

    def test_scheduler(self) -> None:
        """The same function goes to the cluster, and what comes back is stored."""
        self.put("a.trace", example("case-i.trace"))
        self.put("b.trace", example("refusal-07.trace"))
        client, dask = mock.MagicMock(), mock.MagicMock()
        client.__enter__.return_value, client.nthreads.return_value = client, {"one": 1, "other": 2}
        dask.Client.return_value = client
        with ThreadPoolExecutor(3) as threads, mock.patch.dict(sys.modules, distributed=dask):
            client.submit.side_effect = lambda task, files, pure: threads.submit(task, files)
            ran = nyo("night", self.folder, "--db", self.db, "--scheduler", "tcp://there:8786")
        self.assertEqual([call.args[0] for call in client.submit.call_args_list], [judge.all_judged])
        self.assertEqual((ran.status, dask.Client.call_args.args), (REFUSED, ("tcp://there:8786",)))
        self.assertEqual(read_back(self.db), stored(self.folder))

    def test_no_dask(self) -> None:
        """Without Dask, or without a scheduler, there is a sentence and status 3."""
        self.put("a.trace", example("case-i.trace"))
        words = ("night", self.folder, "--db", self.db, "--scheduler", "tcp://there:8786")
        with mock.patch.dict(sys.modules, distributed=None):
            self.assertEqual(nyo(*words), (FAILED, "", "nyo: --scheduler wants Dask (Debian's python3-distributed)\n"))
        dask = mock.MagicMock()
        dask.Client.side_effect = OSError("nobody there")
        with mock.patch.dict(sys.modules, distributed=dask):
            self.assertEqual(nyo(*words), (FAILED, "", "nyo: tcp://there:8786: nobody there\n"))


class Shown(unittest.TestCase):
    """The line that says how far a night is."""

    def test_line(self) -> None:
        """Counts, rate, time left."""
        self.assertEqual(progress.line(1200, 3000, 7, 400.0), "1,200 of 3,000 traces, 400 a second, 5 s left, 7 refused")
        self.assertEqual(progress.line(0, 1, 0, 0.0), "0 of 1 trace, 0 a second, ? left, 0 refused")
        self.assertEqual([progress.duration(seconds) for seconds in (0.4, 59.6, 3600)], ["0 s", "1 min 00 s", "1 h 00 min"])

    def test_on_a_terminal(self) -> None:
        """It is shown on a terminal, and taken away at the end; elsewhere nothing is."""
        for terminal, wanted in ((True, "\r\x1b[K1 of 2 traces, 1 a second, 1 s left, 0 refused\r\x1b[K"), (False, "")):
            screen = io.StringIO()
            clock = mock.patch("time.monotonic", side_effect=[0.0, 1.0, 1.1])
            with mock.patch.object(sys, "stderr", screen), mock.patch.object(screen, "isatty", return_value=terminal), clock:
                with progress.Progress(2) as shown:
                    shown.step(False)
                    shown.step(True)
            self.assertEqual(screen.getvalue(), wanted)


if __name__ == "__main__":
    unittest.main()
