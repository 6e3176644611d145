"""nyo night over a Dask cluster of two workers stores what one machine stores, also where a worker is killed on the way.

Run at night, not in the gate: python3 -m unittest tests.nightly_cluster, in the folder python, with a Python that has Dask.
"""

from __future__ import annotations

import os
import shutil
import signal
import sqlite3
import subprocess
import sys
import tempfile
import time
import unittest
from contextlib import closing
from importlib import import_module
from importlib.util import find_spec
from pathlib import Path
from typing import Any, Dict, List, Tuple
from unittest import mock

from nyolifuwe import library

from . import make_night
from .support import FAILED, REFUSED, TOP

TRACES = 1500


def environment() -> Dict[str, str]:
    """What the command and the workers need to find the package and the library."""
    return {**os.environ, "PYTHONPATH": str(TOP / "python"), "NYO_LIBRARY": str(library.path())}


def contents(db: Path) -> List[str]:
    """All that is in a database."""
    with closing(sqlite3.connect(db)) as connection:
        return list(connection.iterdump())


@unittest.skipUnless(find_spec("distributed"), "no Dask here")
class Cluster(unittest.TestCase):
    """A local cluster of two worker processes."""

    def setUp(self) -> None:
        self.folder = Path(tempfile.mkdtemp())
        self.addCleanup(shutil.rmtree, self.folder)
        self.traces = self.folder / "traces"
        make_night.make(self.traces, TRACES, seed=11, most=1000, damaged=10)

    def cluster(self) -> Any:
        """Two workers; each is started anew where it ends."""
        with mock.patch.dict(os.environ, environment()):
            found = import_module("distributed").LocalCluster(
                n_workers=2, threads_per_worker=1, processes=True, dashboard_address=None, silence_logs=50
            )
        self.addCleanup(found.close)
        return found

    def started(self, name: str, *words: str, **more: Any) -> Tuple[Path, "subprocess.Popen[bytes]"]:
        """A night that is under way, and its database."""
        db = self.folder / name
        command = [sys.executable, "-m", "nyolifuwe", "night", str(self.traces), "--db", str(db), *words]
        return db, subprocess.Popen(command, env=environment(), stdout=subprocess.DEVNULL, **more)

    def wait_for(self, db: Path, night: "subprocess.Popen[bytes]") -> None:
        """Waits until some traces are stored."""
        while night.poll() is None:
            try:
                with closing(sqlite3.connect(db)) as connection:
                    if connection.execute("SELECT count(*) FROM traces").fetchone()[0]:
                        return
            except sqlite3.OperationalError:
                pass
            time.sleep(0.01)

    def test_same_as_one_machine(self) -> None:
        """The two databases are the same."""
        cluster = self.cluster()
        alone, night = self.started("alone.db", "--workers", "1")
        self.assertEqual(night.wait(), REFUSED)
        together, night = self.started("together.db", "--scheduler", cluster.scheduler_address)
        self.assertEqual(night.wait(), REFUSED)
        self.assertEqual(contents(together), contents(alone))

    def test_lost_worker(self) -> None:
        """A worker that is killed costs time and no trace."""
        cluster = self.cluster()
        db, night = self.started("night.db", "--scheduler", cluster.scheduler_address)
        self.wait_for(db, night)
        os.kill(next(iter(cluster.workers.values())).pid, signal.SIGKILL)
        self.assertEqual(night.wait(), REFUSED)
        alone, again = self.started("alone.db", "--workers", "1")
        self.assertEqual(again.wait(), REFUSED)
        self.assertEqual(contents(db), contents(alone))

    def test_lost_scheduler(self) -> None:
        """A scheduler that goes away ends the night with a sentence; what is stored stays, and starting again goes on."""
        cluster = self.cluster()
        db, night = self.started("night.db", "--scheduler", cluster.scheduler_address, stderr=subprocess.PIPE)
        self.wait_for(db, night)
        cluster.close()
        said = f"nyo: {cluster.scheduler_address}: the cluster was lost; what is finished is in {db}: start again to go on\n"
        told = night.communicate()[1].decode()
        self.assertEqual((told[-len(said) :], night.returncode), (said, FAILED))
        self.assertEqual(self.started("night.db", "--workers", "1")[1].wait(), REFUSED)

    def test_no_scheduler(self) -> None:
        """An address where none is ends it with status 3 and a sentence."""
        command = [sys.executable, "-m", "nyolifuwe", "night", str(self.traces), "--db", str(self.folder / "night.db")]
        ran = subprocess.run([*command, "--scheduler", "tcp://127.0.0.1:1"], env=environment(), capture_output=True)
        self.assertEqual((ran.returncode, ran.stdout, ran.stderr.startswith(b"nyo: tcp://127.0.0.1:1: ")), (3, b"", True))


if __name__ == "__main__":
    unittest.main()
