#!/usr/bin/env python3
"""Work and span of traces with dictionaries, in the manner of the script that the proved profiler replaces, but right.

usage: profile.py [-d DEPTH] [-m SITES] [FILE...]

Prints the report of each file (of standard input if there is none), or the line of its refusal.
"""

import argparse
import re
import sys

SITE, CALL, SPAWN, SYNC, RETURN, COST, INSTRUCTIONS = 1, 2, 3, 4, 5, 6, 7
CHARS = 23
MOST_LINES = 65_536
NOTHING = {"calls": 0, "work": 0, "span": 0, "local": 0, "on span": 0, "ilocal": 0, "ion span": 0}
LINE = re.compile(rb"([\da-fA-F]{2})([\da-fA-F]{4})([\da-fA-F]{8})([\da-fA-F]{4})([\da-fA-F]{4})\n")


class Refusal(Exception):
    """A number and a line."""

    def __init__(self, number, line=0):
        super().__init__(number, line)
        self.number = number
        self.line = line


class Path:
    """A way through part of a trace: its weight, and by row the costs that it is made of and their instructions."""

    def __init__(self):
        self.weight = 0
        self.costs = {}
        self.instructions = {}

    def add(self, row, cost):
        self.weight += cost
        self.costs[row] = self.costs.get(row, 0) + cost

    def carry(self, row, instructions):
        self.instructions[row] = self.instructions.get(row, 0) + instructions

    def extend(self, other):
        self.weight += other.weight
        for row, cost in other.costs.items():
            self.costs[row] = self.costs.get(row, 0) + cost
        for row, instructions in other.instructions.items():
            self.carry(row, instructions)

    def then(self, other):
        path = Path()
        path.extend(self)
        path.extend(other)
        return path


class Invocation:
    """An open invocation: the blocks that a sync has ended, the way along the present one, its heaviest branch."""

    def __init__(self, row, spawned, work_before):
        self.row = row
        self.spawned = spawned
        self.work_before = work_before
        self.done = Path()
        self.along = Path()
        self.branch = Path()

    def take(self, child):
        """A child has returned. Of equal branches the first stays."""
        if not child.spawned:
            self.along.extend(child.done)
        elif self.along.weight + child.done.weight > self.branch.weight:
            self.branch = self.along.then(child.done)

    def end_block(self):
        """A sync or the return. The lines of a branch come before those past it, so it wins when they are equal."""
        self.done.extend(self.branch if self.branch.weight >= self.along.weight else self.along)
        self.along = Path()
        self.branch = Path()


class Profile:
    """The rows of a trace, taken line by line."""

    def __init__(self, depth, sites):
        self.depth = depth
        self.most_sites = sites
        self.lines = 0
        self.kind = None
        self.work = 0
        self.places = {}
        self.rows = {0: {**NOTHING, "calls": 1}}
        self.open = [Invocation(0, False, 0)]
        self.open_of = {0: 1}

    def line(self, chars):
        """Takes one line."""
        kind, site, value, file, column = self.fields(chars)
        if not self.open:
            self.refuse(7)
        if kind == SITE:
            self.site(site, (file, value, column))
        elif kind in (CALL, SPAWN):
            self.enter(site, kind == SPAWN)
        elif kind == SYNC:
            self.open[-1].end_block()
        elif kind == RETURN:
            self.leave()
        elif kind == INSTRUCTIONS:
            self.carry(value)
        else:
            self.cost(value)
        self.lines += 1
        self.kind = kind

    def fields(self, chars):
        match = LINE.fullmatch(chars)
        if not match:
            self.refuse(5)
        kind, site, value, file, column = (int(field, 16) for field in match.groups())
        good = {
            SITE: value and file and column,
            CALL: not (value or file or column),
            SPAWN: not (value or file or column),
            SYNC: not (site or value or file or column),
            RETURN: not (site or value or file or column),
            COST: value and not (site or file or column),
            INSTRUCTIONS: value and not (site or file or column),
        }
        if not good.get(kind):
            self.refuse(6)
        return kind, site, value, file, column

    def site(self, site, place):
        if site != len(self.places) + 1:
            self.refuse(8)
        if site > self.most_sites:
            self.refuse(9)
        if place in self.places:
            self.refuse(10)
        self.places[place] = site
        self.rows[site] = dict(NOTHING)

    def enter(self, site, spawned):
        if not 1 <= site <= len(self.places):
            self.refuse(11)
        if len(self.open) >= self.depth:
            self.refuse(12)
        self.rows[site]["calls"] += 1
        self.open_of[site] = self.open_of.get(site, 0) + 1
        self.open.append(Invocation(site, spawned, self.work))

    def leave(self):
        own = self.open.pop()
        own.end_block()
        self.open_of[own.row] -= 1
        if not self.open_of[own.row]:  # none of its row is open around it
            self.rows[own.row]["work"] += self.work - own.work_before
            self.rows[own.row]["span"] += own.done.weight
        if self.open:
            self.open[-1].take(own)
        else:
            for row, cost in own.done.costs.items():
                self.rows[row]["on span"] = cost
            for row, instructions in own.done.instructions.items():
                self.rows[row]["ion span"] = instructions

    def cost(self, value):
        own = self.open[-1]
        self.work += value
        self.rows[own.row]["local"] += value
        own.along.add(own.row, value)

    def carry(self, instructions):
        if self.kind != COST:
            self.refuse(22)
        own = self.open[-1]
        self.rows[own.row]["ilocal"] += instructions
        own.along.carry(own.row, instructions)

    def refuse(self, number):
        raise Refusal(number, self.lines)


def profile(trace, depth, sites):
    """The rows of a trace, each a dictionary; raises its refusal."""
    if not 1 <= depth <= 64 or not 0 <= sites <= 255:
        raise Refusal(1)
    if len(trace) % CHARS:
        raise Refusal(2)
    if len(trace) > MOST_LINES * CHARS:
        raise Refusal(3)
    taken = Profile(depth, sites)
    for start in range(0, len(trace), CHARS):
        taken.line(trace[start : start + CHARS])
    if taken.open:
        taken.refuse(14)
    return taken.rows


def report(trace, depth, sites):
    """The text that is printed for a trace."""
    try:
        rows = profile(trace, depth, sites)
    except Refusal as refusal:
        return f"ff{refusal.number:02x}{refusal.line:08x}\n"
    return "".join(f"{row:04x}" + "".join(f"{n:016x}" for n in rows[row].values()) + "\n" for row in sorted(rows))


def main():
    words = argparse.ArgumentParser(description=__doc__, formatter_class=argparse.RawDescriptionHelpFormatter)
    words.add_argument("-d", dest="depth", type=int, default=32, help="the depth limit D (32)")
    words.add_argument("-m", dest="sites", type=int, default=31, help="the site limit M (31)")
    words.add_argument("files", metavar="FILE", nargs="*")
    given = words.parse_args()
    if not given.files:
        sys.stdout.write(report(sys.stdin.buffer.read(), given.depth, given.sites))
    for name in given.files:
        with open(name, "rb") as file:
            sys.stdout.write(report(file.read(), given.depth, given.sites))


if __name__ == "__main__":
    main()
