"""A flame view as boxes: folded stacks added up, with the part of each that stands on the chosen chain."""

from __future__ import annotations

from typing import Dict, Iterable, Iterator, List, NamedTuple, Tuple

from . import api
from .model import COST


class Box(NamedTuple):
    """A name under the same names: how deep it stands, what stands left of it, its cost, and the part on the chain."""

    name: str
    depth: int
    left: int
    cost: int
    chain: int


class Node:
    """A box that is being added up, and the boxes of the invocations in it by name."""

    __slots__ = ("cost", "chain", "inner")

    def __init__(self) -> None:
        self.cost = self.chain = 0
        self.inner: Dict[str, Node] = {}

    def add(self, cost: int, chain: int) -> None:
        """Counts a cost and the part of it that is on the chain."""
        self.cost += cost
        self.chain += chain


def stacks(trace: bytes, marks: bytes, folded: bytes) -> Dict[str, Tuple[int, int]]:
    """The cycles of each stack of names and the part of it on the chosen chain; the folded text has a line a cost line."""
    added: Dict[str, Tuple[int, int]] = {}
    for line, text in zip(api.lines_of_kind(trace, COST), folded.decode("ascii").splitlines()):
        names, _, figures = text.rpartition(" ")
        cost, (all_of_it, chain) = int(figures), added.get(names, (0, 0))
        added[names] = all_of_it + cost, chain + cost * marks[line]
    return added


def tree(added: Dict[str, Tuple[int, int]]) -> Node:
    """The node over all stacks, whose one inner node is the root's."""
    whole = Node()
    for names, (cost, chain) in added.items():
        node = whole
        node.add(cost, chain)
        for name in names.split(";"):
            node = node.inner.setdefault(name, Node())
            node.add(cost, chain)
    return whole


def laid_out(node: Node, depth: int = 0, left: int = 0) -> Iterator[Box]:
    """The boxes in a node, each before those in it, beside one another by name."""
    for name, own in sorted(node.inner.items()):
        yield Box(name, depth, left, own.cost, own.chain)
        yield from laid_out(own, depth + 1, left)
        left += own.cost


def widest(boxes: Iterable[Box], most: int) -> List[Box]:
    """At most so many boxes, none narrower than one that is left out, and none without the box that it stands in."""
    kept = sorted(boxes, key=lambda box: (-box.cost, box.depth))[:most]
    return sorted(kept, key=lambda box: (box.depth, box.left))


def boxes(trace: bytes, marks: bytes, folded: bytes) -> List[Box]:
    """All boxes of the flame view of an accepted trace."""
    return list(laid_out(tree(stacks(trace, marks, folded))))
