#!/usr/bin/env python3
"""Runs ./profile on the examples, on the rules' own traces, on traces at each limit and where input or output fails,
and holds what it prints to what the rules say, and its status and words to docs/CARD.md.

The expected output is typed from the rules and from the pages, or worked out by hand where a comment says how; nothing
is taken from a program. The last line is 'N passed, 0 failed'; the exit status is 1 where a test fails.
"""

import fcntl
import os
import pty
import re
import shutil
import signal
import socket
import subprocess
import sys
import tempfile
import time
from pathlib import Path

TOP = Path(__file__).resolve().parent.parent
PROFILE = TOP / "profile"
EXAMPLES = TOP / "examples"
CARD = (TOP / "docs" / "CARD.md").read_text()

REPORT, REFUSAL, USAGE, FAILED = 0, 1, 2, 3

passed = failed = 0


def expect(name, got, wanted):
    global passed, failed
    if got == wanted:
        passed += 1
    else:
        failed += 1
        print(f"{name}: got {got!r}, wanted {wanted!r}")


def run(trace=b"", words=(), folder=TOP, program=(PROFILE,), **more):
    """What came of a run: its status, standard output and standard error; nothing, where it does not end."""
    try:
        done = subprocess.run([*program, *words], input=trace, capture_output=True, cwd=folder, timeout=60, **more)
    except subprocess.TimeoutExpired:
        return None, "", ""
    return done.returncode, done.stdout.decode(), done.stderr.decode()


def said(*sentences):
    """Sentences on standard error."""
    return "".join(f"profile: {sentence}\n" for sentence in sentences)


def words_of(number, line):
    """What the card has the program say of a refusal."""
    rows = re.findall(r"^\| (\d+) \| [^|]*\| ([^|]+) \| ([^|]+) \|", CARD, re.M)
    ((says, todo),) = [row[1:] for row in rows if int(row[0]) == number]
    return said(f"refusal {number}, line {line}: {says}", f"what to do: {todo}")


def printed(trace):
    """What is printed for a trace, where status and words are right for it."""
    status, out, err = run(trace)
    refused = re.fullmatch("ff([0-9a-f]{2})([0-9a-f]{8})\n", out)
    wanted = (REFUSAL, words_of(int(refused[1], 16), int(refused[2], 16))) if refused else (REPORT, "")
    return out if (status, err) == wanted else (status, out, err)


# ---- traces as the rules write them

RETURN = "0500000000000000000000\n"
SYNC = "0400000000000000000000\n"


def site(number, line, file, column):
    return f"01{number:04x}{line:08x}{file:04x}{column:04x}\n"


def call(number):
    return f"02{number:04x}0000000000000000\n"


def spawn(number):
    return f"03{number:04x}0000000000000000\n"


def cost(value):
    return f"060000{value:08x}00000000\n"


def carry(instructions):
    return f"070000{instructions:08x}00000000\n"


def sites(count):
    """So many site lines, no two with one place."""
    return "".join(site(number, number, 1, 1) for number in range(1, count + 1))


def events(words):
    """'call 1 {spawn 2 {7}, 1}, 2' as lines: braces hold a body, a bare number is a cost."""
    lines = []
    for word in re.findall(r"call \d+|spawn \d+|cost \d+|sync|\d+|\}", words):
        kind, _, number = word.rpartition(" ")
        if word == "}":
            lines.append(RETURN)
        elif word == "sync":
            lines.append(SYNC)
        elif kind == "call":
            lines.append(call(int(number)))
        elif kind == "spawn":
            lines.append(spawn(int(number)))
        else:
            lines.append(cost(int(number)))
    return "".join(lines)


# a row's numbers, in this order
CALLS, WORK, SPAN, LOCAL, ON_SPAN, ILOCAL, ION_SPAN = range(COLUMNS := 7)


def row(number, calls, work, span, local, on_span, ilocal=0, ion_span=0):
    """A report line; without 07 lines the instructions are zero."""
    numbers = (calls, work, span, local, on_span, ilocal, ion_span)
    return f"{number:04x}" + "".join(f"{n:016x}" for n in numbers) + "\n"


def refusal(number, line):
    return f"ff{number:02x}{line:08x}\n"


# ---- case I, to the byte, and the twelve traces

CASE_I = """\
0100010000000a00010005
0100020000001400010009
0200010000000000000000
0300020000000000000000
0600000000000700000000
0500000000000000000000
0600000000000100000000
0500000000000000000000
0600000000000200000000
0500000000000000000000
"""
# as the rules print it, and behind it in each line the two numbers of instructions, which are zero
CASE_I_REPORT = """\
00000000000000000001000000000000000a00000000000000090000000000000002000000000000000200000000000000000000000000000000
00010000000000000001000000000000000800000000000000070000000000000001000000000000000000000000000000000000000000000000
00020000000000000001000000000000000700000000000000070000000000000007000000000000000700000000000000000000000000000000
"""
PLACES = site(1, 10, 1, 5) + site(2, 20, 1, 9)

# events before the root's return, work, span, on span of rows 0, 1 and 2
TWELVE = {
    "A": ("", 0, 0, [0, 0, 0]),
    "B": ("cost 5, cost 3", 8, 8, [8, 0, 0]),
    "C": ("spawn 1 {4}, cost 4", 8, 4, [0, 4, 0]),
    "D": ("spawn 1 {4}, cost 5", 9, 5, [5, 0, 0]),
    "E": ("spawn 1 {4}, sync, cost 4", 8, 8, [4, 4, 0]),
    "F": ("call 1 {4}, cost 4", 8, 8, [4, 4, 0]),
    "G": ("1, spawn 1 {10}, 2, spawn 2 {8}, 1", 22, 11, [1, 10, 0]),
    "H": ("1, spawn 1 {10}, 2, spawn 2 {9}, 1", 23, 12, [3, 0, 9]),
    "I": ("call 1 {spawn 2 {7}, 1}, 2", 10, 9, [2, 0, 7]),
    "J": ("spawn 1 {3}, call 2 {1, sync, 1}", 5, 3, [0, 3, 0]),
    "K": ("call 1 {1, call 1 {2}}", 3, 3, [0, 3, 0]),
    "L": ("spawn 1 {spawn 2 {6}, 1}, 2, sync, 1", 10, 7, [1, 0, 6]),
}


def columns(report):
    """The seven numbers of each row; nothing where the text is no report."""
    rows = []
    for line in str(report).splitlines():
        if not re.fullmatch(f"[0-9a-f]{{{4 + 16 * COLUMNS}}}", line):
            return []
        rows.append([int(line[4 + 16 * k : 20 + 16 * k], 16) for k in range(COLUMNS)])
    return rows


def the_rules_traces():
    expect("case I", printed(CASE_I.encode()), CASE_I_REPORT)
    for letter, (words, work, span, on_span) in TWELVE.items():
        trace = PLACES + events(words) + RETURN
        rows = columns(printed(trace.encode()))
        totals, column_5 = [[numbers[WORK], numbers[SPAN]] for numbers in rows[:1]], [numbers[ON_SPAN] for numbers in rows]
        expect(letter, (totals, column_5), ([[work, span]], on_span))
        expect(f"{letter} has no instructions", [numbers[ILOCAL:] for numbers in rows], 3 * [[0, 0]])
        if letter == "I":
            expect("I's lines", trace, CASE_I)
        if letter == "K":
            expect("K's row 1: calls, work, span, local", [numbers[:4] for numbers in rows[1:2]], [[2, 3, 3, 3]])


# ---- the examples and their page


def the_examples():
    page = (EXAMPLES / "README.md").read_text()
    refusals = dict(re.findall(r"^\| `([^`]+)`.*\| `(ff[0-9a-f]{10})` \|$", page, re.M))
    reports = dict(re.findall(r"^## `([^`]+)`.*?^```\n(0000.*?)^```$", page, re.M | re.S))
    expect("case I on the page", reports.get("case-i.trace"), CASE_I_REPORT)
    others = set(re.findall(r"([\w-]+\.(?:csv|names|folded))\b", page))  # `c/run.sh` holds what is printed for these
    shown = sorted([*refusals, *reports])
    there = sorted(path.name for path in EXAMPLES.iterdir() if path.name != "README.md")
    expect("every example is on the page", sorted([*shown, *others]), there)
    for name in shown:
        path = EXAMPLES / name
        trace = subprocess.run(["sh", path], capture_output=True).stdout if path.suffix == ".sh" else path.read_bytes()
        expect(name, printed(trace), reports.get(name) or refusals[name] + "\n")


# ---- at each limit, with D = 32 and M = 31


def the_limits():
    expect("the empty file", printed(b""), refusal(14, 0))
    expect("a lone return", printed(RETURN.encode()), row(0, 1, 0, 0, 0, 0))
    expect("a line after it", printed((RETURN + SYNC).encode()), refusal(7, 1))
    expect("call 2 with one site", printed((sites(1) + call(2) + RETURN + RETURN).encode()), refusal(11, 1))
    expect("call 0", printed((sites(1) + call(0) + RETURN + RETURN).encode()), refusal(11, 1))
    expect("cost 0", printed((cost(0) + RETURN).encode()), refusal(6, 0))

    # 31 calls in one another and the root are 32 open; row 1 has the work of the outermost alone, which is the cost of 5
    deepest = sites(1) + 31 * call(1) + cost(5) + 31 * RETURN + RETURN
    expect("D invocations open", printed(deepest.encode()), row(0, 1, 5, 5, 0, 0) + row(1, 31, 5, 5, 5, 5))
    deeper = sites(1) + 32 * call(1) + 32 * RETURN + RETURN
    expect("D + 1 invocations open", printed(deeper.encode()), refusal(12, 32))

    idle = "".join(row(number, 0, 0, 0, 0, 0) for number in range(1, 32))
    expect("M sites", printed((sites(31) + RETURN).encode()), row(0, 1, 0, 0, 0, 0) + idle)
    expect("M + 1 sites", printed((sites(32) + RETURN).encode()), refusal(9, 31))

    # 2,849 lines are 65,527 bytes: 2,848 costs of 1 in a row, and the return
    most = (2848 * cost(1) + RETURN).encode()
    expect("65,527 bytes", (len(most), printed(most)), (65527, row(0, 1, 2848, 2848, 2848, 2848)))
    # one byte more is 3 and not 2, and where a line is wrong too it is 3 and not 5
    expect("65,528 bytes", printed(most + b"\n"), refusal(3, 0))
    expect("65,528 wrong bytes", printed(b"?" * 65528), refusal(3, 0))
    expect("65,527 wrong bytes", printed(b"?" * 65527), refusal(5, 0))
    expect("a million bytes", printed(b"?" * 1000000), refusal(3, 0))


def the_sites_on_the_way():
    """A site line anywhere before the root's return, with D = 32 and M = 31."""
    # each directly before the call of its site, which costs 1
    met = "".join(site(number, number, 1, 1) + call(number) + cost(1) + RETURN for number in range(1, 32))
    each = "".join(row(number, 1, 1, 1, 1, 1) for number in range(1, 32))
    expect("M sites on the way", printed((met + RETURN).encode()), row(0, 1, 31, 31, 0, 0) + each)
    last = printed((cost(5) + sites(1) + RETURN).encode())
    expect("a site line last but one", last, row(0, 1, 5, 5, 5, 5) + row(1, 0, 0, 0, 0, 0))
    refused = {
        # the 32nd site line behind 124 lines and 31 calls, with 32 invocations open
        "M + 1 sites, the last deep inside": (met + 31 * call(1) + site(32, 32, 1, 1) + 32 * RETURN, 9, 155),
        "a site line after the return": (cost(5) + RETURN + sites(1), 7, 2),
        "a number skipped on the way": (sites(1) + cost(5) + site(3, 3, 1, 1) + RETURN, 8, 2),
        "the same place far apart": (sites(1) + 99 * cost(5) + site(2, 1, 1, 1) + RETURN, 10, 100),
        "a call on the line before its site line": (cost(5) + call(1) + sites(1) + 2 * RETURN, 11, 1),
    }
    for name, (trace, number, line) in refused.items():
        expect(name, printed(trace.encode()), refusal(number, line))


def the_instructions():
    """Kind 07 directly behind a cost, with D = 32 and M = 31."""
    expect("behind a cost", printed((cost(5) + carry(9) + RETURN).encode()), row(0, 1, 5, 5, 5, 5, 9, 9))
    # 4 beside 4, and the first is chosen, whatever the second carries; its digits are 3E8 and 3e8
    tie = sites(1) + spawn(1) + cost(4) + carry(1) + RETURN + cost(4) + carry(1000) + RETURN
    tied = row(0, 1, 8, 4, 4, 0, 1000, 0) + row(1, 1, 4, 4, 4, 4, 1, 1)
    expect("the chain is chosen by cycles", printed(tie.encode()), tied)
    expect("capital digits", printed(tie.upper().encode()), tied)
    # 1,424 costs of 1 that carry the most there may be: 1,424 times 4,294,967,295
    most = (1424 * (cost(1) + carry(0xFFFFFFFF)) + RETURN).encode()
    whole = row(0, 1, 1424, 1424, 1424, 1424, 6116033428080, 6116033428080)
    expect("65,527 bytes with instructions", (len(most), printed(most)), (65527, whole))
    refused = {
        "the first line": (carry(9) + RETURN, 22, 0),
        "behind a site line": (sites(1) + carry(9) + RETURN, 22, 1),
        "behind a sync": (cost(5) + SYNC + carry(9) + RETURN, 22, 2),
        "behind a call": (sites(1) + call(1) + carry(9) + 2 * RETURN, 22, 2),
        "behind a return": (sites(1) + call(1) + cost(5) + RETURN + carry(9) + RETURN, 22, 4),
        "a second one": (cost(5) + carry(9) + carry(9) + RETURN, 22, 2),
        "behind the root's return": (cost(5) + RETURN + carry(9), 7, 2),
        "of 0": (cost(5) + carry(0) + RETURN, 6, 1),
        "with a site": (cost(5) + "0700010000000900000000\n" + RETURN, 6, 1),
        "no return behind it": (cost(5) + carry(9), 14, 2),
    }
    for name, (trace, number, line) in refused.items():
        expect(f"07 {name}", printed(trace.encode()), refusal(number, line))


# ---- the command

SHELLS = [shell for shell in ("sh", "dash", "bash") if shutil.which(shell)]
MORE = "usage: profile [FILE]; profile --help says more"
UNWRITTEN = (FAILED, "", said("standard output cannot be written"))
CLOSED = (FAILED, "", said("standard input is closed"))
UNREAD = (FAILED, "", said("the input cannot be read"))
CASE_I_REPORTED = (REPORT, CASE_I_REPORT, "")
REFUSED_14 = (
    REFUSAL,
    refusal(14, 4),
    said(
        "refusal 14, line 4: the lines end before the root's return",
        "what to do: the trace was cut at a line's end; send it again",
    ),
)
UNHEARD_14 = (REFUSAL, refusal(14, 4), "")

# the words and redirections of a command line, and what comes of it with nothing on standard input
COMMANDS = {
    "examples/case-i.trace": CASE_I_REPORTED,
    "-- examples/case-i.trace": CASE_I_REPORTED,
    "- <examples/case-i.trace": CASE_I_REPORTED,
    "examples/case-i.trace <&-": CASE_I_REPORTED,
    "examples/case-i.trace 2>&-": CASE_I_REPORTED,
    "examples/refusal-14.trace": REFUSED_14,
    "examples/refusal-14.trace 2>&-": UNHEARD_14,
    "examples/refusal-14.trace 2>/dev/full": UNHEARD_14,
    "--version": (0, "profile 0.1\n", ""),
    "-x": (USAGE, "", said("-x: no such option", MORE)),
    "--depth 64": (USAGE, "", said("--depth: no such option", MORE)),
    "one two": (USAGE, "", said("one FILE at a time, not 2: one two", MORE)),
    "-x 2>&-": (USAGE, "", ""),
    "missing.trace": (FAILED, "", said("missing.trace: no such file")),
    "-- -x": (FAILED, "", said("-x: no such file")),
    "missing.trace 2>&-": (FAILED, "", ""),
    "examples": (FAILED, "", said("examples: is a folder")),
    "/proc/self/mem": UNREAD,
    "<examples": UNREAD,
    "- <examples": UNREAD,
    "<&-": CLOSED,
    "- <&-": CLOSED,
    "<&- 2>&-": (FAILED, "", ""),
    "examples/case-i.trace >/dev/full": UNWRITTEN,
    "examples/refusal-14.trace >/dev/full": UNWRITTEN,
    "examples/case-i.trace >&-": UNWRITTEN,
    "examples/case-i.trace <&- >&-": UNWRITTEN,
    "--help >/dev/full": UNWRITTEN,
    "--version >&-": UNWRITTEN,
}


def the_command():
    for shell in SHELLS:
        for words, wanted in COMMANDS.items():
            program = ("sh", "-c", f'exec "$@" {words}', "sh", shell, PROFILE)
            expect(f"{shell} profile {words}", run(program=program), wanted)
    status, help_text, err = run(words=["--help"])
    expect("--help", (status, help_text[:21], err), (0, "usage: profile [FILE]", ""))
    expect("--help has each status", re.findall(r"^  (\d)  ", help_text, re.M), ["0", "1", "2", "3"])
    expect("the card has each status", re.findall(r"^- (\d): ", CARD, re.M), ["0", "1", "2", "3"])
    expect("a file of another folder", run(words=["case-i.trace"], folder=EXAMPLES), CASE_I_REPORTED)
    with tempfile.TemporaryDirectory() as room:
        (Path(room) / "a trace").write_text(CASE_I)
        (Path(room) / "link").symlink_to(PROFILE)
        (Path(room) / "far").symlink_to("link")
        expect("through links", run(words=["a trace"], folder=room, program=(f"{room}/far",)), CASE_I_REPORTED)
        os.mkfifo(f"{room}/pipe")
        feed = ("sh", "-c", 'cat "$1" >"$2" & exec "$3" "$2"', "sh", f"{room}/a trace", f"{room}/pipe", PROFILE)
        expect("a named pipe", run(program=feed), CASE_I_REPORTED)
        with socket.socket(socket.AF_UNIX) as there:
            there.bind(f"{room}/socket")
            expect("a socket", run(words=["socket"], folder=room), (FAILED, "", said("socket: cannot be read")))


def the_card():
    """What the card says of line ends (24 characters a line: 2; but 23 such lines: 5 in line 0) and of long traces."""
    ten, more = CASE_I.replace("\n", "\r\n"), (22 * cost(1) + RETURN).replace("\n", "\r\n")
    expect("ten lines that end in CR LF", printed(ten.encode()), refusal(2, 0))
    expect("23 lines that end in CR LF", printed(more.encode()), refusal(5, 0))
    too_long = said(
        "refusal 3, line 0: more than 65,536 lines; for the report program more than 65,527 bytes, which are 2,849 "
        "lines",
        'what to do: up to 65,536 lines use the library or its C example (README.md, "Larger traces"), beyond that '
        "trace a shorter run; a trace cannot be split, since a chain crosses the cut",
    )
    expect("the card's words for 3", run(b"?" * 65528), (REFUSAL, refusal(3, 0), too_long))


def the_terminal():
    """At a terminal no argument is wrong usage; - reads what is typed, up to one control-D."""
    keys, terminal = pty.openpty()
    unnamed = subprocess.run([PROFILE], stdin=terminal, capture_output=True)
    wanted = (USAGE, b"", said("no trace: name a FILE, or - for standard input", MORE).encode())
    expect("no argument at a terminal", (unnamed.returncode, unnamed.stdout, unnamed.stderr), wanted)
    typed = subprocess.Popen([PROFILE, "-"], stdin=terminal, stdout=subprocess.PIPE)
    os.write(keys, CASE_I.encode() + b"\x04")
    try:
        report = typed.communicate(timeout=60)[0].decode()
        expect("- at a terminal", (typed.returncode, report), (REPORT, CASE_I_REPORT))
    finally:
        typed.kill()
        os.close(keys)
        os.close(terminal)


# ---- when it is built

# a stand-in for rt: builds by a copy, in SECONDS_TO_BUILD, and counts its builds; fails where BROKEN is set. It is run in
# crates/profile, as rt is, and says on standard error what the script takes for a crate that is proved.
STAND_IN = """\
#!/bin/sh
[ "$*" = run ] && [ "$PWD" = '{room}/crates/profile' ] || exit 2
touch ../../started
sleep "${{SECONDS_TO_BUILD:-0}}"
[ -z "${{BROKEN:-}}" ] || exit 1
echo built >>../../builds
mkdir -p out
cp '{program}' out/profile
echo 'crate profile: modules loaded=1 checked=1' >&2
echo 'logic=proved functions=3' >&2
echo 'what the program prints'
"""
BUILDING = ("proving and building the program: some minutes, once", "profile proved")
TOOLS = "bash cat cp find flock mkdir mv readlink sh sleep tail touch".split()


def the_builds():
    """The script in a folder of its own, with a stand-in for rt, or no rt."""
    with tempfile.TemporaryDirectory() as name:
        room = Path(name)
        program = (room / "profile",)
        for folder in ("crates/one/src", "crates/one/must-fail", "crates/profile", "docs", "tools", "kit"):
            (room / folder).mkdir(parents=True)
        source = room / "crates/one/src/lib.rt"
        for path in (source, room / "crates/one/must-fail/wrong.rt", room / "crates.txt"):
            path.touch()
        shutil.copy(PROFILE, room)
        shutil.copy(TOP / "docs/CARD.md", room / "docs")
        for tool in filter(shutil.which, TOOLS):
            (room / "tools" / tool).symlink_to(shutil.which(tool))
        (room / "kit/rt").write_text(STAND_IN.format(room=room, program=TOP / "target/bin/profile"))
        (room / "kit/rt").chmod(0o755)
        without = {"PATH": f"{room}/tools"}
        quick = {"PATH": f"{room}/tools:{room}/kit"}

        def builds():
            return (room / "builds").read_text().count("built") if (room / "builds").exists() else 0

        def begin(seconds):
            """A run that builds for so long, when it has begun to."""
            slow = {**quick, "SECONDS_TO_BUILD": str(seconds)}
            unheard = dict.fromkeys(("stdin", "stdout", "stderr"), subprocess.DEVNULL)
            (room / "started").unlink(missing_ok=True)
            first = subprocess.Popen(program, env=slow, start_new_session=True, **unheard)
            while not (room / "started").exists() and first.poll() is None:
                time.sleep(0.01)
            return first

        trace = CASE_I.encode()
        no_rt = (FAILED, "", said("the program cannot be built: rt, the command of the Rattle kit, is not on the path"))
        expect("nothing built and no rt", run(trace, program=program, env=without), no_rt)

        killed = begin(600)
        os.killpg(killed.pid, signal.SIGKILL)
        killed.wait()
        with open(room / "target/profile.lock") as lock:
            fcntl.flock(lock, fcntl.LOCK_EX)  # free when the last of the killed is gone
        built = (REPORT, CASE_I_REPORT, said(*BUILDING))
        expect("after a killed build", (run(trace, program=program, env=quick), builds()), (built, 1))
        expect("once built, without rt", run(trace, program=program, env=without), CASE_I_REPORTED)
        (room / "crates/one/must-fail/wrong.rt").touch()
        expect("a wrong program is no source", run(trace, program=program, env=without), CASE_I_REPORTED)
        (room / "crates/profile/out/kept.rt").touch()
        expect("what rt keeps is no source", run(trace, program=program, env=without), CASE_I_REPORTED)

        source.touch()
        expect("a newer source and no rt", run(trace, program=program, env=without), no_rt)
        unbuilt = said(BUILDING[0], f"the program cannot be built: {room}/target/profile.log says why")
        expect("a build that fails", run(trace, program=program, env={**quick, "BROKEN": "1"}), (FAILED, "", unbuilt))
        if shutil.which("flock"):
            first = begin(1)
            second = run(trace, program=program, env=quick)
            waited = (REPORT, CASE_I_REPORT, said("waiting for another run, which builds the program"))
            expect("two runs at once", (second, first.wait(), builds()), (waited, REFUSAL, 2))


def the_start():
    """Once built, a start takes a few milliseconds; the least processor time of ten, with much to spare."""
    times = []
    for _ in range(10):
        before = os.times()
        run(RETURN.encode())
        after = os.times()
        times.append(after.children_user + after.children_system - before.children_user - before.children_system)
    expect(f"it starts at once ({min(times):.3f} s)", min(times) < 0.05, True)


def the_program():
    """The program without the script: where input or output fails it says so, and gives no answer."""
    bare = TOP / "target/bin/profile"
    for words, wanted in {
        "<examples/case-i.trace": (0, CASE_I_REPORT, ""),
        "<examples": (0, "", said("the input cannot be read")),
        "<&-": (0, "", said("the input cannot be read")),
        "<examples/case-i.trace >/dev/full": (0, "", said("the answer cannot be written")),
        "<examples/case-i.trace >&-": (0, "", said("the answer cannot be written")),
    }.items():
        expect(f"the program {words}", run(program=("sh", "-c", f'exec "$@" {words}', "sh", bare)), wanted)


def main():
    built = subprocess.run([PROFILE], input=RETURN.encode(), stdout=subprocess.DEVNULL)
    if built.returncode:
        print("0 passed, 1 failed")
        return 1
    the_rules_traces()
    the_examples()
    the_limits()
    the_sites_on_the_way()
    the_instructions()
    the_command()
    the_card()
    the_terminal()
    the_program()
    the_builds()
    the_start()
    print(f"{passed} passed, {failed} failed")
    return 1 if failed else 0


if __name__ == "__main__":
    sys.exit(main())
