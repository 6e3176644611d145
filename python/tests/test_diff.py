"""nyo diff: two traces and two nights, by hand; the status where the span grew by more than is allowed."""

from __future__ import annotations

import csv
import io
import json
import shutil
import tempfile
import unittest
from pathlib import Path
from typing import List, Sequence

from nyolifuwe import judge, store
from nyolifuwe.errors import SENTENCES

from . import make_night
from .support import CARRYING, FAILED, GOOD, REFUSED, USAGE, Outcome, event, nyo, trace, what_to_do

OVER = 4

# Cases C and E of the rules: a sync before the last cost. Sites stand at 1:1:1 and 1:2:1.
C, E = trace("spawn 1 {4}, 4"), trace("spawn 1 {4}, sync, 4")

C_TO_E = """\
span 4 -> 8 (+100.0%), work 8 -> 8, parallelism 2.00 -> 1.00

site  old  new  grown  of old span
root    0    4     +4      +100.0%
"""

E_TO_C = """\
span 8 -> 4 (-50.0%), work 8 -> 8, parallelism 1.00 -> 2.00

site   old  new  grown  of old span
1:1:1    4    4      0        +0.0%
1:2:1    0    0      0        +0.0%
root     4    0     -4       -50.0%
"""

# Site 2's 9 is now 11, with as many instructions.
WITH_INSTRUCTIONS = """\
span 12 -> 14 (+16.7%), work 23 -> 25, parallelism 1.92 -> 1.79

site   old  new  grown  of old span  instr old  instr new
1:2:1    9   11     +2       +16.7%         20         20
"""

# Cases E, E against C, C, E: spans 8, 8 and 4, 4, 8; on the span 4 and 4 each, and 0, 0, 4 and 4, 4, 4.
NIGHTS = """\
mean of 2 -> 3 traces: span 8.0 -> 5.3 (-33.3%), work 8.0 -> 8.0, parallelism 1.00 -> 1.50

site  old  new  grown  of old span
root  4.0  1.3   -2.7       -33.3%
"""


def place_line(number: int, line: int) -> bytes:
    """A site line at file 1, column 1."""
    return make_night.site(number, (1, line, 1))


def body(first: int, second: int) -> bytes:
    """Calls of two sites, with costs of 3 and 5, and the root's return."""
    calls = [make_night.made(2, site) + make_night.cost(cost) + make_night.RETURN for site, cost in ((first, 3), (second, 5))]
    return b"".join(calls) + make_night.RETURN


class InAFolder(unittest.TestCase):
    """Tests with a folder of their own."""

    def setUp(self) -> None:
        self.folder = Path(tempfile.mkdtemp())
        self.addCleanup(shutil.rmtree, self.folder)

    def put(self, name: str, text: bytes) -> Path:
        """A file in the folder."""
        file = self.folder / name
        file.write_bytes(text)
        return file

    def night(self, name: str, traces: Sequence[bytes]) -> Path:
        """A night of these traces."""
        db = self.folder / name
        with store.written(str(db)) as night:
            for number, text in enumerate(traces):
                night.write(judge.judged(str(self.put(f"{name}-{number}.trace", text)), ""))
        return db


class Traces(InAFolder):
    """Two traces."""

    def diff(self, old: bytes, new: bytes, *words: str) -> Outcome:
        """What is said of two traces."""
        return nyo("diff", self.put("old.trace", old), self.put("new.trace", new), *words)

    def test_text(self) -> None:
        """What grew, and with --all every place, what grew most first."""
        self.assertEqual(self.diff(C, E), (GOOD, C_TO_E, ""))
        self.assertEqual(self.diff(E, C, "--all"), (GOOD, E_TO_C, ""))
        same = "span 8 -> 8 (+0.0%), work 8 -> 8, parallelism 1.00 -> 1.00\n\nno place has more or less on the span\n"
        self.assertEqual(self.diff(E, E), (GOOD, same, ""))
        self.assertIn("not shown: 2 places beyond -n\n", self.diff(E, C, "--all", "-n", "1").out)

    def test_instructions(self) -> None:
        """Where there are instructions, those on the span before and after stand beside the cycles."""
        slower = trace(CARRYING.replace("9", "11"))
        self.assertEqual(self.diff(trace(CARRYING), slower), (GOOD, WITH_INSTRUCTIONS, ""))
        place = json.loads(self.diff(trace(CARRYING), slower, "--format", "json").out)["places"][0]
        self.assertEqual((place["instructions_old"], place["instructions_new"]), (20, 20))

    def test_limit(self) -> None:
        """More than is allowed is status 4; as much as is allowed is not; what shrank never is."""
        said = "nyo: over the limit: the span grew by more than 99.99%\n"
        self.assertEqual(self.diff(C, E, "--fail-over", "99.99"), (OVER, C_TO_E, said))
        self.assertEqual(self.diff(C, E, "--fail-over", "100").status, GOOD)
        self.assertEqual(self.diff(E, C, "--fail-over", "0").status, GOOD)
        self.assertEqual(self.diff(E, E, "--fail-over", "0").status, GOOD)
        self.assertEqual(self.diff(C, E, "--fail-over", "0", "--format", "json").status, OVER)

    def test_from_nothing(self) -> None:
        """From a span of 0 any growth is more than any limit."""
        ran = self.diff(trace(""), C, "--fail-over", "1000")
        self.assertEqual(ran.status, OVER)
        self.assertEqual(ran.out.splitlines()[0], "span 0 -> 4 (-), work 0 -> 8, parallelism - -> 2.00")
        self.assertEqual(self.diff(trace(""), trace(""), "--fail-over", "0").status, GOOD)

    def test_moved_chain(self) -> None:
        """A place that comes onto the span while the span shrinks is shown, and is no fault."""
        old, new = trace("spawn 1 {4}, call 2 {5}"), trace("spawn 1 {4}, call 2 {1}")
        ran = self.diff(old, new, "--fail-over", "0")
        self.assertEqual((ran.status, ran.out.splitlines()[3].split()), (GOOD, ["1:1:1", "0", "4", "+4", "+80.0%"]))

    def test_by_place(self) -> None:
        """Places are matched and not numbers: sites in another order change nothing, and a new place is one that grew."""
        one = place_line(1, 10) + place_line(2, 20) + body(1, 2)
        other = place_line(1, 20) + place_line(2, 10) + body(2, 1)
        self.assertEqual(self.diff(one, other).out.splitlines()[2], "no place has more or less on the span")
        moved = place_line(1, 10) + place_line(2, 21) + body(1, 2)
        lines = [line.split() for line in self.diff(one, moved).out.splitlines()[3:]]
        self.assertEqual(lines, [["1:21:1", "5", "+5", "+62.5%"], ["1:20:1", "5", "-5", "-62.5%"]])

    def test_formats(self) -> None:
        """JSON and comma-separated text, also where there is nothing to tell."""
        place = {"file": None, "line": None, "column": None, "old": 0, "new": 4, "grown": 4, "grown_percent": 100.0}
        place.update(instructions_old=0, instructions_new=0)
        whole = {"old": {"work": 8, "span": 4}, "new": {"work": 8, "span": 8}, "places": [place]}
        self.assertEqual(json.loads(self.diff(C, E, "--format", "json").out), whole)
        records: List[List[str]] = list(csv.reader(io.StringIO(self.diff(C, E, "--format", "csv").out)))
        self.assertEqual(records, [list(place), ["", "", "", "0", "4", "4", "100.0", "0", "0"]])
        self.assertEqual(self.diff(C, C, "--format", "csv").out, ",".join(place) + "\r\n")
        self.assertEqual(json.loads(self.diff(C, C, "--format", "json").out)["places"], [])

    def test_ends(self) -> None:
        """Every refused trace is told; a pipe is read; what cannot be read or is no percentage is told."""
        ran = nyo("diff", "examples/refusal-07.trace", "examples/refusal-14.trace")
        first = f"nyo: examples/refusal-07.trace: refusal 7, line 5: {SENTENCES[7]}\n  line 5: {event('4')}{what_to_do(7)}"
        second = f"nyo: examples/refusal-14.trace: refusal 14, line 4: {SENTENCES[14]}\n{what_to_do(14)}"
        self.assertEqual(ran, (REFUSED, "", first + second))
        self.assertEqual(nyo("diff", "-", self.put("new.trace", E), stdin=C), (GOOD, C_TO_E, ""))
        self.assertEqual(nyo("diff", "none.trace", "examples/case-i.trace").status, FAILED)
        for word in ("-1", "1/2", "x", "1e9", "nan"):
            self.assertEqual(self.diff(C, E, f"--fail-over={word}").status, USAGE, word)


class Nights(InAFolder):
    """Two nights."""

    def test_text(self) -> None:
        """A night is the mean of its accepted traces, so another number of traces is no change."""
        old, new = self.night("old.db", [E, E]), self.night("new.db", [C, b"cut", C, E])
        self.assertEqual(nyo("diff", old, new), (GOOD, NIGHTS, ""))
        self.assertEqual(nyo("diff", new, old, "--fail-over", "50").status, GOOD)
        self.assertEqual(nyo("diff", new, old, "--fail-over", "49.9").status, OVER)
        twice = self.night("twice.db", [E, E, E, E])
        self.assertIn("no place has more or less", nyo("diff", old, twice).out)

    def test_formats(self) -> None:
        """JSON has the means to three places."""
        old, new = self.night("old.db", [E, E]), self.night("new.db", [C, C, E])
        whole = json.loads(nyo("diff", old, new, "--format", "json").out)
        self.assertEqual(whole["new"], {"traces": 3, "work": 8.0, "span": 5.333})
        self.assertEqual(whole["places"][0]["grown"], -2.667)

    def test_instructions(self) -> None:
        """The means of instructions stand beside those of cycles: 20 of one trace in two."""
        old, new = self.night("old.db", [E, E]), self.night("new.db", [trace(CARRYING), E])
        lines = [line.split() for line in nyo("diff", old, new).out.splitlines()[2:]]
        self.assertEqual(lines[1], ["1:2:1", "0.0", "4.5", "+4.5", "+56.2%", "0.0", "10.0"])

    def test_ends(self) -> None:
        """A night and a trace cannot be compared; a database of something else is none; an empty night is one."""
        night = self.night("old.db", [E])
        self.assertEqual(nyo("diff", night, "examples/case-i.trace").status, USAGE)
        other = self.put("other.db", b"SQLite format 3\0" + bytes(100))
        self.assertEqual(nyo("diff", night, other).status, FAILED)
        self.assertEqual(nyo("diff", self.night("empty.db", []), night, "--fail-over", "5").status, OVER)


if __name__ == "__main__":
    unittest.main()
