#!/usr/bin/env python3
"""make_night.py FOLDER COUNT [--seed N] [--most LINES] [--damaged PERCENT] [--carrying PERCENT]: writes generated traces.

Some are damaged, and some carry instructions where that is asked for. Sizes are mixed, from a few lines up to the most; every
trace declares other sites of one pool of places, in another order, so the same place has other numbers in other traces. The
same words give the same files.
"""

from __future__ import annotations

import argparse
import math
from pathlib import Path
from random import Random
from typing import Callable, Dict, List, Tuple

LINE_CHARS, MOST_LINES, MOST_SITES, MOST_DEPTH = 23, 65536, 255, 64
SYNC, RETURN = b"0400000000000000000000\n", b"0500000000000000000000\n"
POOL, DEEPEST, FILES_A_FOLDER = 40, 24, 100

Place = Tuple[int, int, int]


def site(number: int, place: Place) -> bytes:
    """The line that declares a site."""
    file, line, column = place
    return b"01%04x%08x%04x%04x\n" % (number, line, file, column)


def cost(value: int) -> bytes:
    """A cost line."""
    return b"060000%08x00000000\n" % value


def instructions(value: int) -> bytes:
    """The line behind a cost that carries its instructions."""
    return b"070000%08x00000000\n" % value


def made(kind: int, number: int) -> bytes:
    """A call (kind 2) or a spawn (kind 3) of a site."""
    return b"%02x%04x0000000000000000\n" % (kind, number)


def pool() -> List[Place]:
    """Places that share files, lines and columns with one another, and no two the same."""
    return [(1 + at % 3, 10 * (1 + at // 6), 5 + 4 * (at // 3 % 2)) for at in range(POOL)]


def body(random: Random, weights: List[int], lines: int) -> List[bytes]:
    """Lines of the root up to its return: its sites weigh differently, and every invocation is closed."""
    text: List[bytes] = []
    opened = [0]
    while len(text) + len(opened) < lines:
        choice = random.random()
        if choice < 0.5 or len(weights) == 1:
            text.append(cost(1 + int(random.random() * weights[opened[-1]])))
        elif choice < 0.72 and len(opened) < DEEPEST and len(text) + len(opened) + 1 < lines:
            opened.append(random.randrange(1, len(weights)))
            text.append(made(2 + (choice < 0.61), opened[-1]))
        elif choice < 0.8:
            text.append(SYNC)
        elif len(opened) > 1:
            text.append(RETURN)
            opened.pop()
    return text + [RETURN] * len(opened)


def trace(random: Random, most: int) -> Tuple[List[bytes], List[bytes]]:
    """The site lines and the other lines of an accepted trace of at most so many lines, small ones as often as large ones."""
    lines = int(math.exp(random.uniform(math.log(12), math.log(most))))
    places = random.sample(list(enumerate(pool())), random.randint(1, min(POOL, lines // 4)))
    weights = [20] + [5 + 17 * kind * kind % 901 for kind, _ in places]
    sites = [site(number, place) for number, (_, place) in enumerate(places, 1)]
    return sites, body(random, weights, lines - len(sites))


def with_instructions(random: Random, rest: List[bytes]) -> List[bytes]:
    """Lines with instructions behind four costs in five, from none to four a cycle."""
    text: List[bytes] = []
    for line in rest:
        text.append(line)
        if line.startswith(b"06") and random.random() < 0.8:
            text.append(instructions(1 + int(random.random() * 4 * int(line[6:14], 16))))
    return text


def cut_in_a_line(random: Random, sites: List[bytes], rest: List[bytes]) -> bytes:
    """A text whose length is not a multiple of 23."""
    return b"".join(sites + rest)[: -random.randint(1, LINE_CHARS - 1)]


def too_many(random: Random, sites: List[bytes], rest: List[bytes]) -> bytes:
    """A line more than a trace may have."""
    return b"".join(sites + [SYNC] * (MOST_LINES + 1 - len(sites) - len(rest)) + rest)


def wrong_character(random: Random, sites: List[bytes], rest: List[bytes]) -> bytes:
    """A letter that is no digit."""
    lines = sites + rest
    at = random.randrange(len(lines))
    lines[at] = b"g" + lines[at][1:]
    return b"".join(lines)


def unknown_kind(random: Random, sites: List[bytes], rest: List[bytes]) -> bytes:
    """A line of a kind that there is not."""
    rest.insert(random.randrange(len(rest)), b"ff" + SYNC[2:])
    return b"".join(sites + rest)


def after_the_end(random: Random, sites: List[bytes], rest: List[bytes]) -> bytes:
    """A line after the root's return."""
    return b"".join(sites + rest + [SYNC])


def misnumbered(random: Random, sites: List[bytes], rest: List[bytes]) -> bytes:
    """Sites that begin with number 2."""
    return b"".join([site(2, (9, 9, 9))] + rest)


def too_many_sites(random: Random, sites: List[bytes], rest: List[bytes]) -> bytes:
    """A site more than there may be."""
    return b"".join([site(number, (7, number, 1)) for number in range(1, MOST_SITES + 2)] + rest)


def same_place(random: Random, sites: List[bytes], rest: List[bytes]) -> bytes:
    """A site with the place of the first."""
    again = b"01%04x" % (len(sites) + 1) + sites[0][6:]
    return b"".join(sites + [again] + rest)


def undeclared(random: Random, sites: List[bytes], rest: List[bytes]) -> bytes:
    """A call of a site that is not declared."""
    return b"".join(sites + [made(2, len(sites) + 1), RETURN] + rest)


def too_deep(random: Random, sites: List[bytes], rest: List[bytes]) -> bytes:
    """One invocation more open than there may be."""
    return b"".join(sites + [made(2, 1)] * MOST_DEPTH + [RETURN] * MOST_DEPTH + rest)


def cut_at_a_line(random: Random, sites: List[bytes], rest: List[bytes]) -> bytes:
    """Lines that end before the root's return."""
    return b"".join((sites + rest)[: -random.randint(1, len(rest))])


def astray(random: Random, sites: List[bytes], rest: List[bytes]) -> bytes:
    """Instructions that no cost stands before."""
    return b"".join(sites + [SYNC, instructions(1)] + rest)


# By number the damage that is refused with it.
DAMAGES: Dict[int, Callable[[Random, List[bytes], List[bytes]], bytes]] = {
    2: cut_in_a_line,
    3: too_many,
    5: wrong_character,
    6: unknown_kind,
    7: after_the_end,
    8: misnumbered,
    9: too_many_sites,
    10: same_place,
    11: undeclared,
    12: too_deep,
    14: cut_at_a_line,
    22: astray,
}
OF_INSTRUCTIONS = 22  # a damage that only a trace with instructions has


def falls(at: int, percent: int) -> bool:
    """Whether one of so many in a hundred falls on this one."""
    return at * percent // 100 != (at + 1) * percent // 100


def make(
    folder: Path, count: int, *, seed: int = 1, most: int = 20000, damaged: int = 2, carrying: int = 0
) -> Dict[Path, int]:
    """Writes the traces, and answers each file's verdict: 0, or the number that its damage is refused with."""
    random, verdicts = Random(seed), {}
    for at in range(count):
        sites, rest = trace(random, most)
        numbers = list(DAMAGES)
        if falls(at, carrying):
            rest = with_instructions(random, rest)
        else:
            numbers.remove(OF_INSTRUCTIONS)
        number = random.choice(numbers) if falls(at, damaged) else 0
        file = folder / f"{at // FILES_A_FOLDER:03}" / f"{at:05}.trace"
        file.parent.mkdir(parents=True, exist_ok=True)
        file.write_bytes(DAMAGES[number](random, sites, rest) if number else b"".join(sites + rest))
        verdicts[file] = number
    return verdicts


def main() -> None:
    """Makes the night that the words ask for, and says how many traces it has."""
    parser = argparse.ArgumentParser(description="write generated traces, some of them damaged")
    parser.add_argument("folder", type=Path, metavar="FOLDER")
    parser.add_argument("count", type=int, metavar="COUNT")
    parser.add_argument("--seed", type=int, default=1)
    parser.add_argument("--most", type=int, default=20000, metavar="LINES", help="largest size (default: 20000)")
    parser.add_argument("--damaged", type=int, default=2, metavar="PERCENT", help="how many are damaged (default: 2)")
    parser.add_argument("--carrying", type=int, default=0, metavar="PERCENT", help="how many carry instructions (default: 0)")
    words = parser.parse_args()
    verdicts = make(
        words.folder,
        words.count,
        seed=words.seed,
        most=words.most,
        damaged=words.damaged,
        carrying=words.carrying,
    )
    print(f"{len(verdicts)} traces, {sum(map(bool, verdicts.values()))} of them damaged")


if __name__ == "__main__":
    main()
