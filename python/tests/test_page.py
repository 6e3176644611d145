"""nyo page: the page parsed with html.parser, its numbers held to the library's and to those that the pages of the project have."""

from __future__ import annotations

import os
import tempfile
import unittest
from html.parser import HTMLParser
from pathlib import Path
from typing import Dict, List, NamedTuple, Optional, Tuple
from unittest import mock

import nyolifuwe
from nyolifuwe import flame, page

from .support import CARRYING, EXAMPLES, FAILED, GOOD, NAMED, REFUSED, USAGE, accepted_examples, example, nyo, program, trace

Attributes = Dict[str, Optional[str]]

# Elements that have no end.
VOID = {"meta", "input"}

# docs/FORECAST.md: the span of proxy.trace with each row halved.
PROXY_HALVED = [11324, 10985, 11435, 11435, 9635, 10980, 8885, 11085, 11435]


class Element(NamedTuple):
    """An element that was met, with what it stands in."""

    tag: str
    attributes: Attributes
    around: Tuple[str, ...]


class Read(HTMLParser):
    """A page taken apart: its elements, the text of each, and whether every one is ended in its turn."""

    def __init__(self, text: str) -> None:
        super().__init__()
        self.elements: List[Element] = []
        self.texts: List[str] = []
        self.open: List[int] = []
        self.feed(text)
        self.close()

    def handle_starttag(self, tag: str, attributes: List[Tuple[str, Optional[str]]]) -> None:
        self.elements.append(Element(tag, dict(attributes), tuple(self.elements[at].tag for at in self.open)))
        self.texts.append("")
        if tag not in VOID:
            self.open.append(len(self.elements) - 1)

    def handle_endtag(self, tag: str) -> None:
        assert self.elements[self.open.pop()].tag == tag, tag

    def handle_data(self, data: str) -> None:
        for at in self.open:
            self.texts[at] += data

    def text_of(self, key: str) -> str:
        """The text of the element with this id."""
        return next(text for one, text in zip(self.elements, self.texts) if one.attributes.get("id") == key)

    def value_of(self, key: str) -> Optional[str]:
        """The value of the element with this id."""
        return next(one.attributes["data-value"] for one in self.elements if one.attributes.get("id") == key)

    def table(self) -> Dict[int, List[Tuple[str, str]]]:
        """Of each row the value and the text of its cells."""
        rows: Dict[int, List[Tuple[str, str]]] = {}
        for one, text in zip(self.elements, self.texts):
            if one.tag == "tr" and "data-row" in one.attributes:
                cells = rows.setdefault(int(one.attributes["data-row"] or ""), [])
            elif one.tag == "td":
                cells.append((one.attributes["data-value"] or "", text))
        return rows

    def boxes(self) -> List[flame.Box]:
        """The boxes of the flame view."""
        found = [(one, text) for one, text in zip(self.elements, self.texts) if "data-chain" in one.attributes]
        fields = ("depth", "left", "cost", "chain")
        return [flame.Box(text, *(int(one.attributes[f"data-{name}"] or "") for name in fields)) for one, text in found]


def made(words: str, *more: str) -> Read:
    """The page of a trace, taken apart; all of it is ended."""
    ran = nyo("page", words, "-o", "-", *more)
    assert ran.status == GOOD, ran
    read = Read(ran.out)
    assert not read.open
    return read


class Page(unittest.TestCase):
    """The page's parts."""

    def test_proxy(self) -> None:
        """The numbers of examples/README.md and docs/FORECAST.md stand on the page."""
        read = made("examples/proxy.trace", *NAMED)
        self.assertEqual([read.text_of(key) for key in ("work", "span", "parallelism")], ["36,140", "11,435", "3.16"])
        self.assertEqual([read.text_of(key) for key in ("lines", "sites")], ["85", "8"])
        encode = [text for _, text in read.table()[6]]
        self.assertEqual(encode[0], "encode:prores 2:44:13")
        self.assertEqual(encode[1:], ["4", "15,000", "15,000", "15,000", "5,100", "44.6%", "8,885", "22.3%"])
        self.assertEqual([int(read.table()[row][7][0]) for row in range(9)], PROXY_HALVED)
        self.assertEqual(list(read.table()), [6, 4, 5, 1, 7, 0, 2, 3, 8])
        self.assertIn("encode:prores", read.text_of("advice"))

    def test_forecast(self) -> None:
        """The bars are the rows that gain, largest gain first, with the span that is left."""
        read = made("examples/proxy.trace")
        bars = [int(one.attributes["data-value"] or "") for one in read.elements if one.tag == "b"]
        self.assertEqual(bars, [8885, 9635, 10980, 10985, 11085, 11324])

    def test_flame(self) -> None:
        """Boxes by hand from the tables of examples/README.md: the chain runs through the third segment."""
        boxes = {box.name: box for box in made("examples/proxy.trace", *NAMED).boxes()}
        self.assertEqual(boxes["proxy"], ("proxy", 0, 0, 36140, 11435))
        self.assertEqual(boxes["audio"], ("audio", 1, 0, 2600, 0))
        self.assertEqual(boxes["segment"], ("segment", 1, 4200, 31700, 9610))
        self.assertEqual(boxes["encode:prores"], ("encode:prores", 2, 15200, 15000, 5100))
        self.assertEqual(len(boxes), 8)

    def test_every_example(self) -> None:
        """On every accepted example the page's numbers are the library's, and the flame view adds up to work and span."""
        for name in accepted_examples():
            read, profile = made(f"examples/{name}"), nyolifuwe.profile(example(name))
            for key in ("work", "span", "lines", "sites"):
                self.assertEqual(read.value_of(key), str(getattr(profile, key)), name)
            last = 9 if profile.has_instructions else 7
            numbers = {row.row: [str(number) for number in row[2:9]][: last - 2] for row in profile.rows}
            found = {row: [cell[0] for cell in (*cells[1:6], *cells[9:11])] for row, cells in read.table().items()}
            self.assertEqual(found, numbers, name)
            top = [box for box in read.boxes() if not box.depth]
            self.assertEqual(
                [(box.cost, box.chain) for box in top], [(profile.work, profile.span)] if profile.work else [], name
            )

    def test_instructions(self) -> None:
        """Where a trace carries instructions, they and how many a cycle stand behind the other columns."""
        read = Read(nyo("page", "-", "-o", "-", stdin=trace(CARRYING)).out)
        texts = {row: [text for _, text in cells[9:]] for row, cells in read.table().items()}
        self.assertEqual(texts, {0: ["4", "4", "1.00"], 1: ["3", "0", "0.30"], 2: ["20", "20", "2.22"]})
        self.assertEqual({len(cells) for cells in made("examples/proxy.trace").table().values()}, {9})

    def test_no_cost(self) -> None:
        """A trace without costs has a page: nothing is divided by its span of 0."""
        ran = nyo("page", "-", "-o", "-", stdin=trace("call 1 {}, sync"))
        read = Read(ran.out)
        self.assertEqual((ran.status, read.text_of("span"), read.text_of("parallelism"), read.boxes()), (GOOD, "0", "-", []))
        self.assertEqual(read.text_of("told"), "There is no cost in this trace.")

    def test_nothing_beside_it(self) -> None:
        """No element names another file, and the page's own rule forbids to load one."""
        read = made("examples/proxy.trace")
        named = [one for one in read.elements if {"src", "href", "srcset", "action"} & set(one.attributes)]
        self.assertEqual(named, [])
        self.assertIn(
            "default-src 'none'", [one.attributes.get("content") or "" for one in read.elements if one.tag == "meta"][2]
        )

    def test_names_are_text(self) -> None:
        """A name with characters of HTML is shown and is not an element."""
        with tempfile.TemporaryDirectory() as folder:
            names = Path(folder) / "names"
            names.write_text("<b>&\"'</b>\n")
            read = made("examples/proxy.trace", "--names", str(names))
        self.assertEqual(read.table()[0][0], ("<b>&\"'</b>",) * 2)
        self.assertEqual(read.boxes()[0].name, "<b>&\"'</b>")

    def test_names_of_files(self) -> None:
        """A file's name may be any: the page is text all the same."""
        with tempfile.TemporaryDirectory() as folder:
            odd = os.fsdecode(os.fsencode(folder) + b"/<\xff>.trace")
            Path(odd).write_bytes(example("case-i.trace"))
            read = made(odd)
        self.assertEqual(read.texts[[one.tag for one in read.elements].index("h1")], "<\\xff>.trace")

    def test_places_stand_in(self) -> None:
        """A row that no list names has its place, in the table and in the flame view."""
        read = made("examples/proxy.trace", "--names", "examples/proxy.names")
        self.assertEqual(read.table()[1][0], ("1:41:5", "1:41:5"))
        self.assertIn("1:41:5", [box.name for box in read.boxes()])

    def test_widest(self) -> None:
        """Where there are more boxes than are drawn, the widest are, each with the box that it stands in."""
        with mock.patch.object(page, "MOST_BOXES", 4):
            read = made("examples/proxy.trace", *NAMED)
        self.assertEqual([box.name for box in read.boxes()], ["proxy", "segment", "decode:h264", "encode:prores"])
        self.assertIn("Drawn are the 4 widest of 8 boxes.", read.texts[0])


class Ends(unittest.TestCase):
    """How the command ends."""

    def test_file(self) -> None:
        """The page goes into the file, and nothing to standard output."""
        with tempfile.TemporaryDirectory() as folder:
            file = Path(folder) / "page.html"
            self.assertEqual(nyo("page", "examples/case-i.trace", "-o", file), (GOOD, "", ""))
            self.assertEqual(file.read_text(encoding="utf-8"), nyo("page", "examples/case-i.trace", "-o", "-").out)

    def test_failed_write(self) -> None:
        """A page that is not taken is told with the file's name."""
        full = "nyo: /dev/full: No space left on device\n"
        self.assertEqual(nyo("page", "examples/case-i.trace", "-o", "/dev/full"), (FAILED, "", full))
        self.assertEqual(program("$nyo page examples/case-i.trace -o - >/dev/full").status, FAILED)
        self.assertEqual(nyo("page", "examples/case-i.trace", "-o", "/no/folder/page.html").status, FAILED)

    def test_refused(self) -> None:
        """A refused trace and a bad name are refusals, and no page is written."""
        with tempfile.TemporaryDirectory() as folder:
            file = Path(folder) / "page.html"
            self.assertEqual(nyo("page", "examples/refusal-14.trace", "-o", file).status, REFUSED)
            names = EXAMPLES / "refusal-17-space.names"
            ran = nyo("page", "examples/proxy.trace", "--names", names, "-o", file)
            self.assertEqual(ran.status, REFUSED)
            self.assertIn("refusal 17, row 4", ran.err)
            self.assertFalse(file.exists())

    def test_usage(self) -> None:
        """A page wants a file to go to."""
        self.assertEqual(nyo("page", "examples/case-i.trace").status, USAGE)


if __name__ == "__main__":
    unittest.main()
