"""The command as a program: statuses, pipes, output that fails, names, and ./nyo, which builds."""

from __future__ import annotations

import os
import pty
import re
import shutil
import subprocess
import sys
import tempfile
import unittest
from pathlib import Path
from unittest import mock

from nyolifuwe import library
from nyolifuwe.cli import NAMES
from nyolifuwe.errors import SENTENCES

from .support import FAILED, GOOD, REFUSED, TOP, USAGE, Outcome, nyo, program, what_to_do
from .test_top import CASE_I

# Each command with the words that it wants; check goes on where a trace is not to be had.
ON_ONE_TRACE = [
    "top examples/case-i.trace",
    "forecast examples/case-i.trace 2=2",
    "forecast --sweep examples/case-i.trace",
    "chain examples/case-i.trace",
    "why examples/case-i.trace 6",
    "compact examples/case-i.trace",
    "folded examples/case-i.trace",
    "csv examples/case-i.trace",
    "report examples/case-i.trace",
]
COMMANDS = [*ON_ONE_TRACE, "check examples/case-i.trace"]


class Input(unittest.TestCase):
    """A trace comes from a file, a pipe or standard input."""

    def test_from_a_pipe(self) -> None:
        for command in ("cat $trace | $nyo -", "$nyo <(cat $trace)", "$nyo - <$trace"):
            self.assertEqual(program(command, trace="examples/case-i.trace"), Outcome(GOOD, CASE_I, ""), command)

    def test_an_empty_file(self) -> None:
        said = f"nyo: /dev/null: refusal 14, line 0: {SENTENCES[14]}\n{what_to_do(14)}"
        for command in ON_ONE_TRACE:
            found = nyo(*command.replace("examples/case-i.trace", "/dev/null").split())
            printed = "ff0e00000000\n" if command.startswith("report") else ""
            self.assertEqual(found, Outcome(REFUSED, printed, said), command)

    def test_a_refused_trace_is_shown_where_it_is_wrong(self) -> None:
        name = "examples/refusal-06.trace"
        line = "  line 4: 0600000000000000000000\n                ^^^^^^^^ value\n"
        said = f"nyo: {name}: refusal 6, line 4: {SENTENCES[6]}\n{line}{what_to_do(6)}"
        for command in ON_ONE_TRACE:
            found = nyo(*command.replace("examples/case-i.trace", name).split())
            printed = "ff0600000004\n" if command.startswith("report") else ""
            self.assertEqual(found, Outcome(REFUSED, printed, said), command)

    def test_what_cannot_be_read(self) -> None:
        for name, why in (("no-such-file", "No such file or directory"), ("examples", "Is a directory")):
            for command in ON_ONE_TRACE:
                found = nyo(*command.replace("examples/case-i.trace", name).split())
                self.assertEqual(found, Outcome(FAILED, "", f"nyo: {name}: {why}\n"), command)
        self.assertEqual(nyo("examples/case-i.trace", "--names", "none").err, "nyo: none: No such file or directory\n")

    def test_standard_input_that_is_closed_or_a_folder(self) -> None:
        self.assertEqual(program("$nyo - <&-"), Outcome(FAILED, "", "nyo: standard input: is closed\n"))
        self.assertEqual(program("./nyo - <examples"), Outcome(FAILED, "", "nyo: standard input is a folder\n"))

    def test_a_library_that_is_not_there(self) -> None:
        found = program("$nyo examples/case-i.trace", NYO_LIBRARY="/no-such-library.so")
        self.assertEqual(found[:2], (FAILED, ""))
        self.assertTrue(found.err.startswith("nyo: the library cannot be loaded: /no-such-library.so: "))


class Output(unittest.TestCase):
    """An answer that is not taken is no answer."""

    def test_a_full_disk(self) -> None:
        full = "nyo: standard output: No space left on device\n"
        for command in [*COMMANDS, "--help", "--version"]:
            self.assertEqual(program(f"$nyo {command} >/dev/full"), Outcome(FAILED, "", full), command)

    def test_a_closed_pipe(self) -> None:
        for command in ("folded examples/proxy.trace", "top examples/proxy.trace"):
            found = program(f"(sleep 0.3; $nyo {command}; echo $? >&2) | exec true")
            self.assertEqual(found.err, "nyo: standard output: Broken pipe\n3\n")

    def test_standard_output_that_is_closed(self) -> None:
        self.assertEqual(program("$nyo examples/case-i.trace >&-"), Outcome(FAILED, "", "nyo: standard output is closed\n"))

    def test_standard_error_that_is_closed(self) -> None:
        self.assertEqual(program("$nyo report examples/refusal-14.trace 2>&-"), Outcome(REFUSED, "ff0e00000004\n", ""))

    def test_colour_on_a_terminal_alone(self) -> None:
        self.assertIn("\x1b[", on_a_terminal())
        self.assertNotIn("\x1b[", on_a_terminal(NO_COLOR="1"))
        plain = on_a_terminal(NO_COLOR="1").replace("\r\n", "\n")
        self.assertEqual(plain, CASE_I)


def on_a_terminal(**environment: str) -> str:
    """What a terminal gets of case I."""
    own, theirs = pty.openpty()
    known = {"PYTHONPATH": str(TOP / "python"), "NYO_LIBRARY": str(library.path()), "TERM": "xterm"}
    bare = {name: value for name, value in os.environ.items() if name != "NO_COLOR"}
    words, environment = [sys.executable, "-m", "nyolifuwe", "examples/case-i.trace"], {**bare, **known, **environment}
    subprocess.run(words, cwd=TOP, stdin=subprocess.DEVNULL, stdout=theirs, env=environment, check=True)
    os.close(theirs)
    with open(own, "rb", buffering=0) as terminal:
        return terminal.read(65536).decode()


class Usage(unittest.TestCase):
    """Words that are wrong, and help."""

    def test_wrong_words(self) -> None:
        for words in ("", "top", "chain", "why a", "check", "report a b", "a b", "--nothing", "top a --names"):
            found = nyo(*words.split())
            self.assertEqual(found[:2], (USAGE, ""), words)
            self.assertTrue(found.err.startswith("usage: nyo"), words)

    def test_no_words(self) -> None:
        self.assertEqual(nyo(), Outcome(USAGE, "", nyo("--help").out))

    def test_words_that_are_nearly_right(self) -> None:
        for words, says in (
            ("chian examples/case-i.trace", "chian: no command and no file of that name; did you mean chain?"),
            ("tops", "tops: no command and no file of that name; did you mean top?"),
            ("one two", "top takes one trace, and not two too; check and night take several traces"),
            ("chain one two", "chain takes one trace, and not two too; check and night take several traces"),
            ("why one 2 3", "why takes one trace and one line, and not 3 too; check and night take several traces"),
            ("chain one --two", "unrecognized arguments: --two"),
        ):
            found = nyo(*words.split())
            self.assertEqual((found.status, found.out, found.err.splitlines()[-1]), (USAGE, "", f"nyo: error: {says}"))
        self.assertEqual(nyo("nothing").err, "nyo: nothing: No such file or directory\n")

    def test_the_example_of_each_help(self) -> None:
        for name in NAMES:
            with mock.patch.dict("os.environ", COLUMNS="80"):
                ((example, words),) = re.findall(r"^(Example: nyo (.*))\n\Z", nyo(name, "--help").out, re.M)
            with self.subTest(example), tempfile.TemporaryDirectory() as folder:
                found = program(f"ln -s $PWD/examples {folder} && cd {folder} && $nyo {words}")
                refused = name in ("check", "night")
                self.assertEqual((found.status, found.err), (REFUSED if refused else GOOD, ""))

    def test_help(self) -> None:
        for words in ("--help", "-h", *(f"{command} --help" for command in NAMES)):
            found = nyo(*words.split())
            self.assertEqual((found.status, found.err), (GOOD, ""), words)
            self.assertTrue(found.out.startswith("usage: nyo"), words)

    def test_it_says_where_its_numbers_come_from(self) -> None:
        self.assertIn("Every number that is shown comes from the proved library", " ".join(nyo("--help").out.split()))

    def test_version(self) -> None:
        self.assertEqual(nyo("--version"), Outcome(GOOD, "nyo 0.1\n", ""))


class Started(unittest.TestCase):
    """./nyo: from any folder, behind a link, and building where a source is newer."""

    def setUp(self) -> None:
        made = tempfile.TemporaryDirectory()
        self.addCleanup(made.cleanup)
        self.folder = Path(made.name)

    def start(self, nyo_file: Path, *words: str, **environment: str) -> Outcome:
        """What comes of a start in the folder."""
        known = {name: value for name, value in os.environ.items() if name != "NYO_LIBRARY"}
        done = subprocess.run([nyo_file, *words], cwd=self.folder, capture_output=True, env={**known, **environment})
        return Outcome(done.returncode, done.stdout.decode(), done.stderr.decode())

    def test_behind_a_link_from_another_folder(self) -> None:
        (self.folder / "link").symlink_to(TOP / "nyo")
        shutil.copy(TOP / "examples" / "case-i.trace", self.folder)
        found = self.start(self.folder / "link", "case-i.trace", NYO_LIBRARY=str(library.path()))
        self.assertEqual(found, Outcome(GOOD, CASE_I, ""))

    def project(self, build: str) -> Path:
        """A project whose library is built by these commands; its command nyo."""
        for name in ("tools", "crates", "target"):
            (self.folder / name).mkdir()
        for name in ("crates.txt", "crates/lib.rt", "tools/native-lib.sh"):
            (self.folder / name).touch()
        (self.folder / "python").symlink_to(TOP / "python")
        script = self.folder / "tools" / "shared-lib.sh"
        script.write_text(f"#!/bin/sh\ncd {self.folder}\necho built >>builds\n{build}\n")
        script.chmod(0o755)
        return Path(shutil.copy(TOP / "nyo", self.folder))

    def test_it_builds_where_a_source_is_newer(self) -> None:
        own = self.project(f"mkdir -p target/native && cp {library.path()} target/native/libnyolifuwe.so")
        says = "nyo: building the library: some minutes where a proof is new\n"
        self.assertEqual(self.start(own, "--version"), Outcome(GOOD, "nyo 0.1\n", says))
        self.assertEqual(self.start(own, "--version"), Outcome(GOOD, "nyo 0.1\n", ""))
        newer = (self.folder / "target/native/libnyolifuwe.so").stat().st_mtime + 10
        os.utime(self.folder / "crates" / "lib.rt", (newer, newer))
        self.assertEqual(self.start(own, "--version"), Outcome(GOOD, "nyo 0.1\n", says))
        self.assertEqual((self.folder / "builds").read_text(), 2 * "built\n")

    def test_a_build_that_fails(self) -> None:
        found = self.start(self.project("echo no rt here\nexit 1"), "--version")
        self.assertEqual(found[:2], (FAILED, ""))
        self.assertIn(f"nyo: the library cannot be built: {self.folder}/target/nyo.log says why\n", found.err)
        self.assertEqual((self.folder / "target" / "nyo.log").read_text(), "no rt here\n")
