"""The pages: every screen of docs/GUIDE.md is what comes of its command, and the program of python/README.md runs."""

from __future__ import annotations

import contextlib
import io
import re
import shlex
import tempfile
import unittest
from pathlib import Path
from typing import List, Sequence, Tuple

from .support import TOP, nyo, program, screens

GUIDE = (TOP / "docs" / "GUIDE.md").read_text()
README = (TOP / "python" / "README.md").read_text()


def pasted(test: unittest.TestCase, folder: Path, commands: Sequence[Tuple[str, str]]) -> None:
    """Runs commands one after another in a folder that looks like the top one: each prints its screen."""
    status = 0
    for name in ("nyo", "python", "examples"):
        (folder / name).symlink_to(TOP / name)
    for command, screen in commands:
        ran = program(f"cd {folder}; (exit {status}); {command}")
        test.assertEqual(without_ends(ran.out + ran.err), without_ends(screen), command)
        status = ran.status


def without_ends(text: str) -> List[str]:
    """The lines of a text without blanks at their ends, which sqlite3 writes."""
    return [line.rstrip() for line in text.splitlines()]


class ThePages(unittest.TestCase):
    """What a reader may paste."""

    def test_the_screens(self) -> None:
        screens = re.findall(r"^```\n\$ \./nyo (.*)\n((?:.*\n)*?)```$", GUIDE, re.M)
        self.assertTrue(screens)
        for command, screen in screens:
            with self.subTest(command):
                self.assertEqual(nyo(*shlex.split(command)).out.replace("\r\n", "\n"), screen)

    def test_the_screens_of_the_shell(self) -> None:
        with tempfile.TemporaryDirectory() as folder:
            own = [one for one in screens(GUIDE) if not re.search(r"night|dask", one[0])]
            self.assertEqual(len(own), 4)
            pasted(self, Path(folder), own)

    def test_the_program(self) -> None:
        (text,) = re.findall(r"^```python\n(.*?)^```$", README, re.M | re.S)
        printed = io.StringIO()
        with contextlib.redirect_stdout(printed):
            exec(text.replace('"examples/', f'"{TOP}/examples/'), {})
        self.assertEqual(printed.getvalue().splitlines()[-1], "8885")
