"""What the tests share: the examples, the command run here or as a program of its own, traces as the rules write them."""

from __future__ import annotations

import contextlib
import csv
import io
import os
import re
import subprocess
import sys
import unittest
from pathlib import Path
from typing import Any, Dict, List, NamedTuple, Sequence, Tuple
from unittest import mock

from nyolifuwe import library
from nyolifuwe.cli import main
from nyolifuwe.errors import REMEDIES
from nyolifuwe.model import BASE, FINISHES

TOP = Path(__file__).resolve().parent.parent.parent
EXAMPLES = TOP / "examples"
NAMED = ["--names", str(EXAMPLES / "proxy.names"), "--stock", str(EXAMPLES / "stock.names")]

GOOD, REFUSED, USAGE, FAILED = 0, 1, 2, 3

# Whether the library takes traces of asyncs and finishes, and what a test that wants it is marked with.
HAS_FINISHES = all(hasattr(library.loaded(), name) for name in library.OF_FINISHES)
with_finishes = unittest.skipUnless(HAS_FINISHES, "a library without asyncs and finishes")


class Outcome(NamedTuple):
    """What came of a run."""

    status: int
    out: str
    err: str


def example(name: str) -> bytes:
    """An example's bytes."""
    return (EXAMPLES / name).read_bytes()


def nyo(*words: object, stdin: bytes = b"") -> Outcome:
    """The command run in this process, in the top folder."""
    out, err = io.BytesIO(), io.BytesIO()
    streams = {"stdin": io.BytesIO(stdin), "stdout": out, "stderr": err}
    with contextlib.ExitStack() as stack:
        for name, stream in streams.items():
            wrapped = io.TextIOWrapper(stream, write_through=True)
            stack.callback(wrapped.detach)
            stack.enter_context(mock.patch.object(sys, name, wrapped))
        before = os.getcwd()
        os.chdir(TOP)
        stack.callback(os.chdir, before)
        try:
            status = main([str(word) for word in words])
        except SystemExit as end:
            status = int(end.code or 0)
    return Outcome(status, out.getvalue().decode(), err.getvalue().decode())


def program(command: str, **environment: str) -> Outcome:
    """A shell command line run in the top folder, where $nyo is the command as a program of its own."""
    nyo_words = f"{sys.executable} -m nyolifuwe"
    known = {"PYTHONPATH": str(TOP / "python"), "NYO_LIBRARY": str(library.path()), "nyo": nyo_words}
    words, environment = ["bash", "-c", command], {**os.environ, **known, **environment}
    done = subprocess.run(words, cwd=TOP, capture_output=True, stdin=subprocess.DEVNULL, env=environment)
    return Outcome(done.returncode, done.stdout.decode(), done.stderr.decode())


def what_to_do(number: int) -> str:
    """The last line below a refusal."""
    return f"  what to do: {REMEDIES[number]}\n"


def screens(page: str) -> List[Tuple[str, str]]:
    """The commands of a page's screens, those that the shell is to run, each with what it prints."""
    found: List[Tuple[str, str]] = []
    for block in re.findall(r"^```console\n(.*?)^```$", page, re.M | re.S):
        for command, screen in re.findall(r"^\$ ((?:[^\"\n]|\"[^\"]*\")+)\n((?:(?!\$ ).*\n)*)", block, re.M):
            found.append((command, screen))
    return found


def read_back(text: str) -> List[Dict[str, str]]:
    """The records of comma-separated text."""
    return list(csv.DictReader(io.StringIO(text, newline="")))


def as_text(records: List[Dict[str, Any]]) -> List[Dict[str, str]]:
    """Records as they come back from comma-separated text."""
    return [{name: "" if value is None else str(value) for name, value in record.items()} for record in records]


def line(kind: int, site: int = 0, value: int = 0, file: int = 0, column: int = 0) -> str:
    """A trace line of these fields."""
    return f"{kind:02x}{site:04x}{value:08x}{file:04x}{column:04x}\n"


BARE = {"}": line(5), "sync": line(4), "finish": line(0x13)}
RETURN, SYNC = BARE["}"], BARE["sync"]


def sites(count: int) -> str:
    """So many site lines, no two with one place."""
    return "".join(line(1, number, number, 1, 1) for number in range(1, count + 1))


def event(word: str) -> str:
    """A word of 01's notation, or an async or a finish, as a line."""
    if word in BARE:
        return BARE[word]
    kind, _, number = word.rpartition(" ")
    if kind in ("call", "spawn", "async"):
        return line({"call": 2, "spawn": 3, "async": 0x12}[kind], int(number))
    return line(7 if kind else 6, 0, int(number))


def events(words: str) -> str:
    """'call 1 {spawn 2 {7}, 1}, 2, carry 9' as lines: braces hold a body, a bare number is a cost, carry is a 07 line."""
    return "".join(event(word) for word in re.findall(r"(?:call |spawn |async |carry )?\d+|sync|finish|\}", words))


def trace(words: str, count: int = 2) -> bytes:
    """A whole trace of so many sites."""
    return (sites(count) + events(words) + RETURN).encode()


# Case H of the rules with instructions behind three of its costs. On the chosen chain are 1, 2 and 9: lines 2, 8 and 10.
# Instructions of rows 0, 1 and 2: local 4, 3 and 20, on span 4, 0 and 20.
CARRYING = "1, carry 4, spawn 1 {10, carry 3}, 2, spawn 2 {9, carry 20}, 1"


def family_of(name: str) -> str:
    """The family that an example trace is of."""
    return FINISHES if re.search(rb"^1[23]", example(name), re.M) else BASE


def accepted_examples(family: str = BASE) -> Sequence[str]:
    """The names of a family's example traces that the largest limits take."""
    beyond_the_report_program = ("refusal-09.trace", "refusal-12.trace")
    names = sorted(path.name for path in EXAMPLES.glob("*.trace"))
    good = [name for name in names if not name.startswith("refusal-") or name in beyond_the_report_program]
    return [name for name in good if family_of(name) == family]
