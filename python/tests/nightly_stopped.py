"""nyo night, stopped: killed in the middle and started again it stores what one run stores. Needs a night that is still under way.

And the night of docs/GUIDE.md, which takes a minute.
"""

from __future__ import annotations

import os
import re
import shutil
import signal
import sqlite3
import subprocess
import sys
import time
import unittest
from pathlib import Path
from typing import Any

from nyolifuwe import library

from . import make_night
from .support import FAILED, REFUSED, TOP, screens
from .test_guide import GUIDE, pasted
from .test_night import InAFolder, dump, query


class Pasted(InAFolder):
    """The night of docs/GUIDE.md."""

    @unittest.skipUnless(shutil.which("sqlite3"), "no sqlite3 here")
    def test_the_screens(self) -> None:
        """Made, stored, asked and compared, each screen is what its command prints."""
        own = [one for one in screens(GUIDE) if re.search(r"^(?!.*/shared/).*night", one[0])]
        self.assertEqual(len(own), 8)
        pasted(self, self.folder, own)


class Stopped(InAFolder):
    """A night that is stopped."""

    def started(self, folder: Path, db: Path, **more: Any) -> subprocess.Popen[bytes]:
        """A night that is under way."""
        words = [sys.executable, "-m", "nyolifuwe", "night", str(folder), "--db", str(db), "--workers", "2"]
        own = {**os.environ, "PYTHONPATH": str(TOP / "python"), "NYO_LIBRARY": str(library.path())}
        return subprocess.Popen(words, env=own, stdout=subprocess.DEVNULL, start_new_session=True, **more)

    def wait_for(self, db: Path, count: int, running: subprocess.Popen[bytes]) -> None:
        """Waits until so many traces are stored."""
        while running.poll() is None:
            try:
                if query(db, "SELECT count(*) FROM traces")[0][0] >= count:
                    return
            except sqlite3.OperationalError:
                pass
            time.sleep(0.001)

    def test_killed(self) -> None:
        """Killed in the middle it has lost no stored trace; its workers end; started again it stores what one run stores."""
        traces, whole = self.folder / "traces", self.folder / "whole.db"
        make_night.make(traces, 240, seed=3, most=1500, damaged=10)
        killed = self.started(traces, self.db, stderr=subprocess.DEVNULL)
        self.wait_for(self.db, 40, killed)
        os.kill(killed.pid, signal.SIGKILL)
        killed.wait()
        kept = query(self.db, "SELECT * FROM traces")
        self.assertTrue(40 <= len(kept) < 240, len(kept))
        self.ended(killed.pid)
        self.assertEqual(self.started(traces, self.db).wait(), REFUSED)
        self.assertEqual(self.started(traces, whole).wait(), REFUSED)
        self.assertEqual(query(self.db, "SELECT * FROM traces")[: len(kept)], kept)
        self.assertEqual(dump(self.db), dump(whole))

    def ended(self, session: int) -> None:
        """Waits until no process of a session is left."""
        until = time.monotonic() + 10
        while time.monotonic() < until:
            try:
                os.killpg(session, 0)
            except ProcessLookupError:
                return
            time.sleep(0.02)
        self.fail("a worker outlives the night")

    def test_lost_worker(self) -> None:
        """A worker that is killed ends the night with a sentence; what is stored stays, and starting again goes on."""
        traces = self.folder / "traces"
        make_night.make(traces, 200, seed=5, most=1000)
        night = self.started(traces, self.db, stderr=subprocess.PIPE)
        self.wait_for(self.db, 20, night)
        os.kill(self.worker_of(night.pid), signal.SIGKILL)
        said = f"nyo: a worker process was ended; what is finished is in {self.db}: start again to go on\n"
        self.assertEqual((night.communicate()[1].decode(), night.returncode), (said, FAILED))
        self.assertGreaterEqual(len(query(self.db, "SELECT * FROM traces")), 20)
        self.assertEqual(self.started(traces, self.db).wait(), REFUSED)
        self.assertEqual(query(self.db, "SELECT count(*) FROM traces"), [(200,)])

    def worker_of(self, parent: int) -> int:
        """A worker process of a night."""
        children = map(int, Path(f"/proc/{parent}/task/{parent}/children").read_text().split())
        return next(child for child in children if b"spawn_main" in Path(f"/proc/{child}/cmdline").read_bytes())

    def test_interrupted(self) -> None:
        """An interrupt ends it without a trace of the workers, and what is stored is in one file."""
        make_night.make(self.folder, 200, seed=4, most=1000)
        night = self.started(self.folder, self.db, stderr=subprocess.PIPE)
        self.wait_for(self.db, 20, night)
        os.killpg(night.pid, signal.SIGINT)
        self.assertEqual((night.communicate()[1], night.returncode), (b"", 130))
        self.assertEqual([file.name for file in self.folder.glob("night.db*")], ["night.db"])
        self.assertGreaterEqual(len(query(self.db, "SELECT * FROM traces")), 20)
