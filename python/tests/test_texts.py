"""nyo compact, folded, csv and report: the library's own texts, byte by byte."""

from __future__ import annotations

import csv
import io
import unittest

from nyolifuwe import read_csv
from nyolifuwe.errors import SENTENCES

from .support import CARRYING, GOOD, NAMED, REFUSED, Outcome, example, nyo, trace, what_to_do

# The rules' own report, with two columns of zeros behind.
ZEROS = 32 * "0"
CASE_I_REPORT = f"""\
00000000000000000001000000000000000a000000000000000900000000000000020000000000000002{ZEROS}
000100000000000000010000000000000008000000000000000700000000000000010000000000000000{ZEROS}
000200000000000000010000000000000007000000000000000700000000000000070000000000000007{ZEROS}
"""


class Texts(unittest.TestCase):
    """What goes to another program."""

    def test_compact(self) -> None:
        for name in ("wordy", "wordy-compact"):
            found = nyo("compact", f"examples/{name}.trace")
            self.assertEqual(found, Outcome(GOOD, example("wordy-compact.trace").decode(), ""))

    def test_folded(self) -> None:
        self.assertEqual(nyo("folded", "examples/proxy.trace", *NAMED), Outcome(GOOD, example("proxy.folded").decode(), ""))

    def test_folded_by_place(self) -> None:
        stacks = "root;1:10:5;1:20:9 7\nroot;1:10:5 1\nroot 2\n"
        self.assertEqual(nyo("folded", "examples/case-i.trace"), Outcome(GOOD, stacks, ""))

    def test_folded_with_a_name_missing(self) -> None:
        found = nyo("folded", "examples/case-i.trace", "--names", "-", stdin=b"root\nouter\n")
        said = f"nyo: examples/case-i.trace: refusal 17, row 2: {SENTENCES[17]}\n{what_to_do(17)}"
        self.assertEqual(found, Outcome(REFUSED, "", said))

    def test_csv(self) -> None:
        found = nyo("csv", "examples/case-i.trace")
        self.assertEqual(found, Outcome(GOOD, example("case-i.csv").decode(), ""))
        records = list(csv.DictReader(io.StringIO(found.out, newline="")))
        self.assertEqual([record["onspan"] for record in records], ["2", "0", "7"])
        self.assertEqual([row.on_span for row in read_csv(found.out.encode())], [2, 0, 7])

    def test_report(self) -> None:
        self.assertEqual(nyo("report", "examples/case-i.trace"), Outcome(GOOD, CASE_I_REPORT, ""))

    def test_instructions(self) -> None:
        carrying = trace(CARRYING)
        lines = nyo("report", "-", stdin=carrying).out.splitlines()
        last_two = [(int(line[-32:-16], 16), int(line[-16:], 16)) for line in lines]
        self.assertEqual((last_two, {len(line) for line in lines}), ([(4, 4), (3, 0), (20, 20)], {116}))
        records = ["row,calls,work,span,local,onspan,ilocal,ionspan", "0,1,23,12,4,3,4,4", "1,1,10,10,10,0,3,0", "2,1,9,9,9,9,20,20"]
        text = "".join(f"{record}\r\n" for record in records)
        self.assertEqual(nyo("csv", "-", stdin=carrying).out, text)
        self.assertEqual([row.ion_span for row in read_csv(text.encode())], [4, 0, 20])
        stacks = "root 1\nroot;1:1:1 10\nroot 2\nroot;1:2:1 9\nroot 1\n"  # of cycles alone
        self.assertEqual(nyo("folded", "-", stdin=carrying).out, stacks)
        self.assertEqual(nyo("compact", "-", stdin=carrying).out, carrying.decode())

    def test_report_without_idle_rows(self) -> None:
        whole, called = nyo("report", "examples/proxy.trace").out, nyo("report", "--called", "examples/proxy.trace").out
        self.assertEqual((whole.count("\n"), called.count("\n")), (9, 8))  # the thumbnail, row 8, is never called
        self.assertTrue(whole.startswith(called))

    def test_a_refusal_in_the_report_programs_bytes(self) -> None:
        said = f"nyo: examples/refusal-14.trace: refusal 14, line 4: {SENTENCES[14]}\n{what_to_do(14)}"
        self.assertEqual(nyo("report", "examples/refusal-14.trace"), Outcome(REFUSED, "ff0e00000004\n", said))
