"""nyo check, whole: every refusal of a trace with its sentence, its line and what is marked in it."""

from __future__ import annotations

import json
import os
import shutil
import tempfile
import unittest
from typing import Dict, List

from nyolifuwe.errors import REMEDIES, SENTENCES

from .support import (
    EXAMPLES,
    FAILED,
    GOOD,
    REFUSED,
    RETURN,
    SYNC,
    Outcome,
    as_text,
    line,
    nyo,
    program,
    read_back,
    sites,
    trace,
    what_to_do,
)

# For an example what stands behind its name: the refusal's number and line, and the lines below it up to what to do.
REFUSALS: Dict[str, List[str]] = {
    "refusal-02": [
        "refusal 2, line 0: " + SENTENCES[2],
        "  line 9: 0500000000000000000000",
        "                                ^ the line has 22 characters and not 23",
    ],
    "refusal-05": [
        "refusal 5, line 2: " + SENTENCES[5],
        "  line 2: 0600000000000g00000000",
        "                       ^ no digit: g",
    ],
    "refusal-06": [
        "refusal 6, line 4: " + SENTENCES[6],
        "  line 4: 0600000000000000000000",
        "                ^^^^^^^^ value",
    ],
    "refusal-07": [
        "refusal 7, line 5: " + SENTENCES[7],
        "  line 5: 0600000000000400000000",
    ],
    "refusal-10": [
        "refusal 10, line 2: " + SENTENCES[10],
        "  line 2: 0100030000000a00010005",
        "                ^^^^^^^^^^^^^^^^ place",
    ],
    "refusal-11": [
        "refusal 11, line 1: " + SENTENCES[11],
        "  line 1: 0200020000000000000000",
        "            ^^^^ site",
    ],
    "refusal-14": ["refusal 14, line 4: " + SENTENCES[14]],
}

# A line that is refused as 6, and the field that is wrong in it.
FIELDS = {
    line(0): "kind",
    line(0xFF, 1, 1, 1, 1): "kind",
    line(4, 1): "site",
    line(6, 1, 0, 1, 1): "site",
    line(5, 0, 1): "value",
    line(1, 1, 0, 1, 1): "value",
    line(6): "value",
    line(2, 1, 0, 1): "file",
    line(1, 1, 1, 0, 1): "file",
    line(6, 0, 1, 0, 1): "column",
    line(7): "value",
    line(7, 1, 1): "site",
    line(1, 1, 1, 1, 0): "column",
}


class Text(unittest.TestCase):
    """What people see."""

    def test_each_refusal(self) -> None:
        for name, said in REFUSALS.items():
            with self.subTest(name):
                text = "\n".join([f"examples/{name}.trace: {said[0]}", *said[1:], what_to_do(int(name[-2:]))])
                self.assertEqual(nyo("check", f"examples/{name}.trace"), Outcome(REFUSED, text, ""))

    def test_site_refusals_mark_the_site(self) -> None:
        marked = "            ^^^^ site"
        self.assertEqual(nyo("check", "examples/refusal-08.trace").out.splitlines()[2], marked)
        found = nyo("check", "examples/refusal-09.trace", "--sites", "31").out.splitlines()
        self.assertEqual(found[0], "examples/refusal-09.trace: refusal 9, line 31: " + SENTENCES[9])
        self.assertEqual(found[2], " " + marked)

    def test_depth(self) -> None:
        said = f"examples/refusal-12.trace: refusal 12, line 32: {SENTENCES[12]}\n  line 32: {line(2, 1)}{what_to_do(12)}"
        self.assertEqual(nyo("check", "--depth", "32", "examples/refusal-12.trace"), Outcome(REFUSED, said, ""))

    def test_instructions_without_a_cost(self) -> None:
        for words, at, text in (("carry 5", 0, line(7, 0, 5)), ("1, carry 5, carry 7", 2, line(7, 0, 7))):
            shown = f"  line {at}: {text}          ^^ no cost on the line before\n"
            said = f"-: refusal 22, line {at}: {SENTENCES[22]}\n{shown}{what_to_do(22)}"
            self.assertEqual(nyo("check", "-", stdin=trace(words, 0)), Outcome(REFUSED, said, ""))

    def test_refusals_without_a_line(self) -> None:
        for words, stdin, number in (
            ("--depth 0", RETURN, 1),
            ("--sites 256", RETURN, 1),
            ("", 65537 * SYNC, 3),
            ("", "", 14),
        ):
            found = nyo("check", "-", *words.split(), stdin=stdin.encode())
            said = f"-: refusal {number}, line 0: {SENTENCES[number]}\n{what_to_do(number)}"
            self.assertEqual(found, Outcome(REFUSED, said, ""))

    def test_the_field_of_a_line(self) -> None:
        for wrong, name in FIELDS.items():
            with self.subTest(wrong):
                found = json.loads(nyo("check", "-", "--format", "json", stdin=wrong.encode()).out)[0]
                self.assertEqual((found["number"], found["line"], found["note"]), (6, 0, name))

    def test_the_character_of_a_line(self) -> None:
        for column in range(22):
            wrong = RETURN[:column] + "g" + RETURN[column + 1 :]
            found = json.loads(nyo("check", "-", "--format", "json", stdin=wrong.encode()).out)[0]
            self.assertEqual((found["number"], found["column"], found["note"]), (5, column, "no digit: g"))

    def test_carriage_returns(self) -> None:
        # 23 lines with CR LF are a multiple of 23 characters; the 23rd character is the CR
        text = (22 * SYNC + RETURN).replace("\n", "\r\n").encode()
        shown = f"  line 0: {SYNC[:22]}?\n{' ' * 32}^"
        wanted = f"-: refusal 5, line 0: {SENTENCES[5]}\n{shown} no line feed: \\x0d\n{what_to_do(5)}"
        self.assertEqual(nyo("check", "-", stdin=text), Outcome(REFUSED, wanted, ""))
        # two such lines are not: the first line is a character too long
        wanted = f"-: refusal 2, line 0: {SENTENCES[2]}\n{shown} the line has 24 characters and not 23\n{what_to_do(2)}"
        self.assertEqual(nyo("check", "-", stdin=text[:48]), Outcome(REFUSED, wanted, ""))

    def test_a_line_much_too_long_is_cut(self) -> None:
        found = nyo("check", "-", stdin=b"0" * 1000).out.splitlines()
        self.assertEqual(found[1], f"  line 0: {'0' * 80}...")
        self.assertEqual(found[2], f"{' ' * 32}^ the line has 1,000 characters and not 23")

    def test_several_traces(self) -> None:
        names = ["examples/case-i.trace", "no-such-file", "examples/refusal-14.trace", "-"]
        found = nyo("check", *names, stdin=sites(1).encode())
        text = (
            "examples/case-i.trace: accepted, 10 lines, 2 sites\n"
            "no-such-file: No such file or directory\n"
            f"examples/refusal-14.trace: refusal 14, line 4: {SENTENCES[14]}\n{what_to_do(14)}"
            f"-: refusal 14, line 1: {SENTENCES[14]}\n{what_to_do(14)}"
            "1 accepted, 2 refused, 1 not read\n"
        )
        self.assertEqual(found, Outcome(FAILED, text, ""))

    def test_traces_behind_an_option(self) -> None:
        words = ["examples/case-i.trace", "--depth", "64", "examples/proxy.trace", "-"]
        found = nyo("check", *words, stdin=RETURN.encode())
        self.assertEqual((found.status, found.out.splitlines()[-1]), (GOOD, "3 accepted, 0 refused"))

    def test_a_file_name_in_any_bytes(self) -> None:
        with tempfile.TemporaryDirectory() as folder:
            named = os.fsencode(folder) + b"/\xff.trace"
            shutil.copy(os.fsencode(EXAMPLES / "case-i.trace"), named)
            done = program(f"$nyo check {folder}/*.trace | od -An -c | tr -d ' \\n'")
        self.assertIn(r"/377.trace:accepted,10lines,2sites", done.out)


class ForPrograms(unittest.TestCase):
    """JSON and CSV, read back."""

    def test_json_and_csv(self) -> None:
        words = ["check", "examples/case-i.trace", "examples/refusal-05.trace", "--format"]
        verdicts = json.loads(nyo(*words, "json").out)
        none = dict.fromkeys(["number", "line", "sentence", "what_to_do", "text", "column", "width", "note"])
        accepted = {"trace": words[1], "accepted": True, "lines": 10, "sites": 2, **none}
        refused = {
            "trace": words[2],
            "accepted": False,
            "lines": None,
            "sites": None,
            "number": 5,
            "line": 2,
            "sentence": SENTENCES[5],
            "what_to_do": REMEDIES[5],
            "text": "0600000000000g00000000",
            "column": 13,
            "width": 1,
            "note": "no digit: g",
        }
        self.assertEqual(verdicts, [accepted, refused])
        self.assertEqual(read_back(nyo(*words, "csv").out), as_text(verdicts))
