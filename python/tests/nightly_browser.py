"""nyo page in a real browser, wide and narrow: nothing overflows or is loaded, the table sorts, the flame view zooms.

Run at night, not in the gate: python3 -m unittest tests.nightly_browser, in the folder python. Pictures go to target/pages.
"""

from __future__ import annotations

import tempfile
import unittest
from pathlib import Path
from random import Random
from typing import Any, List

import nyolifuwe

from . import browser, make_night
from .support import GOOD, NAMED, TOP, example, nyo

PICTURES = TOP / "target" / "pages"
SCREENS = {"wide": (1280, 900), "tablet": (768, 1024), "narrow": (360, 740)}

ROWS = "[...document.querySelectorAll('#rows tbody tr')]"
SHOWN_ROWS = f"{ROWS}.filter(row => row.offsetHeight).map(row => Number(row.dataset.row))"
BOX = "[...document.querySelectorAll('.boxes button')].find(box => box.textContent === '%s')"
# Elements that stand out of the screen on the right.
BEYOND = "[...document.body.querySelectorAll('*')].filter(one => one.getBoundingClientRect().right > innerWidth + 1).map(one => one.outerHTML)"

# Boxes that begin, by more than a pixel, before the one beside them ends.
OVERLAPPING = """(() => {
    const sized = [...document.querySelectorAll('.boxes button')].map(box => ({depth: box.dataset.depth, at: box.getBoundingClientRect()}));
    sized.sort((one, other) => one.depth - other.depth || one.at.left - other.at.left);
    return sized.filter((one, at) => at && sized[at - 1].depth === one.depth && sized[at - 1].at.right > one.at.left + 1).length;
})()"""


@unittest.skipUnless(browser.program(), "no Chromium here")
class Page(unittest.TestCase):
    """The page of proxy.trace, and one of a large trace."""

    shown: browser.Browser
    folder: tempfile.TemporaryDirectory[str]

    @classmethod
    def setUpClass(cls) -> None:
        cls.folder = tempfile.TemporaryDirectory()
        cls.addClassCleanup(cls.folder.cleanup)
        cls.shown = browser.Browser()
        cls.addClassCleanup(cls.shown.close)

    def open(self, screen: str, trace: object = "examples/proxy.trace", *words: str) -> None:
        """Shows a trace's page on a screen."""
        file = Path(self.folder.name) / "page.html"
        self.assertEqual(nyo("page", trace, "-o", file, *(words or NAMED)).status, GOOD)
        self.shown.open(file, *SCREENS[screen])

    def tearDown(self) -> None:
        """No page asks for anything but itself, and none has a fault."""
        self.assertEqual([url for url in self.shown.requests if not url.endswith("/page.html")], [])
        self.assertEqual(self.shown.complaints, [])

    def rows(self) -> List[int]:
        """The rows that are shown, in their order."""
        return list(self.shown.run(SHOWN_ROWS))

    def test_fits(self) -> None:
        """On every screen all of the page is within its width, no text is tiny, and its picture is taken."""
        for screen in SCREENS:
            self.open(screen)
            self.assertEqual(self.shown.run(BEYOND), [], screen)
            self.assertLessEqual(self.shown.run("document.scrollingElement.scrollWidth - innerWidth"), 0)
            smallest = "Math.min(...[...document.querySelectorAll('td, dd, dt, p, li, .boxes button')].map(one => parseFloat(getComputedStyle(one).fontSize)))"
            self.assertGreaterEqual(self.shown.run(smallest), 13)
            self.shown.picture(PICTURES / f"{screen}.png")

    def test_instructions(self) -> None:
        """With three more columns and large numbers the page still does not go sideways; its pictures are taken."""
        lines = example("proxy.trace").splitlines(True)
        carrying = [line + make_night.instructions(1000 * int(line[6:14], 16)) if line[:2] == b"06" else line for line in lines]
        file = Path(self.folder.name) / "carrying.trace"
        file.write_bytes(b"".join(carrying))
        for screen in SCREENS:
            self.open(screen, file, *NAMED)
            self.assertLessEqual(self.shown.run("document.scrollingElement.scrollWidth - innerWidth"), 0, screen)
            if screen != "tablet":  # there the table is moved sideways by itself
                self.assertEqual(self.shown.run(BEYOND), [], screen)
            self.assertIn("15,000,000", self.shown.run("document.querySelector('#rows tr[data-row=\"6\"]').textContent"))
            self.shown.picture(PICTURES / f"carrying-{screen}.png")

    def test_numbers(self) -> None:
        """The numbers that are shown are the library's."""
        profile = nyolifuwe.profile(example("proxy.trace"))
        for screen in SCREENS:
            self.open(screen)
            for row in profile.rows:
                cells = self.shown.run(
                    f"[...document.querySelector('#rows tr[data-row=\"{row.row}\"]').cells].map(one => one.textContent)"
                )
                self.assertEqual(cells[1:6], [f"{number:,}" for number in row[2:7]])

    def test_sorts(self) -> None:
        """A heading sorts, largest first, and the other way when it is pressed again; names begin with the first."""
        self.open("wide")
        self.assertEqual(self.rows(), [6, 4, 5, 1, 7, 0, 2, 3])
        self.shown.click("#rows th:nth-child(3) button")
        self.assertEqual(self.rows(), [0, 3, 6, 4, 5, 2, 1, 7])
        self.shown.click("#rows th:nth-child(3) button")
        self.assertEqual(self.rows(), [7, 1, 2, 5, 4, 6, 3, 0])
        self.shown.click("#rows th:nth-child(1) button")
        self.assertEqual(self.rows(), [2, 4, 1, 6, 7, 0, 5, 3])
        self.assertEqual(self.shown.run("document.querySelector('[aria-sort]').textContent"), "site")

    def test_sorts_on_a_phone(self) -> None:
        """Where there are no headings there is a choice."""
        self.open("narrow")
        self.assertEqual(self.shown.run("document.querySelector('thead').offsetHeight"), 0)
        self.assertGreater(self.shown.run("document.querySelector('#order').offsetHeight"), 0)
        self.shown.run("order.value = 2; order.dispatchEvent(new Event('change'))")
        self.assertEqual(self.rows(), [0, 3, 6, 4, 5, 2, 1, 7])

    def test_idle(self) -> None:
        """Rows without calls show where they are asked for."""
        self.open("wide")
        self.assertNotIn(8, self.rows())
        self.shown.click("#idle")
        self.assertIn(8, self.rows())

    def box(self, name: str) -> Any:
        """Where a box stands, in parts of the flame view's width; nothing where it is not shown."""
        script = (
            "(() => { const whole = document.querySelector('.boxes').getBoundingClientRect(), own = "
            + BOX % name
            + ".getBoundingClientRect(); return own.width ? [(own.x - whole.x) / whole.width, own.width / whole.width] : null; })()"
        )
        found = self.shown.run(script)
        return found and [round(part, 2) for part in found]

    def test_zooms(self) -> None:
        """A box that is pressed fills the width; what is around it too; what is beside it is away; the root brings all back."""
        for screen in ("wide", "narrow"):
            self.open(screen)
            self.assertEqual(self.box("segment"), [round(4200 / 36140, 2), round(31700 / 36140, 2)])
            self.shown.click(".boxes button[data-cost='31700']")
            self.assertEqual([self.box(name) for name in ("segment", "proxy", "audio")], [[0, 1], [0, 1], None])
            self.assertEqual(self.box("decode:h264"), [0, round(11000 / 31700, 2)])
            said = "segment: 31,700, 87.7% of the work; on the chosen chain 9,610, 84.0% of the span"
            self.assertEqual(self.shown.run("told.textContent"), said)
            self.shown.picture(PICTURES / f"{screen}-zoomed.png")
            self.shown.click(".boxes button[data-cost='36140']")
            self.assertEqual(self.box("audio"), [0, round(2600 / 36140, 2)])

    def test_large(self) -> None:
        """A trace of the greatest length has a page that fits too."""
        random = Random(5)
        sites = [make_night.site(number, (1, number, 1)) for number in range(1, 201)]
        rest = make_night.body(random, [20, *(1 + number % 97 for number in range(200))], make_night.MOST_LINES - 200)
        file = Path(self.folder.name) / "large.trace"
        file.write_bytes(b"".join(sites + rest))
        for screen in ("wide", "narrow"):
            self.open(screen, file, "--depth", "64")
            self.assertEqual(self.shown.run(BEYOND), [])
            self.assertEqual(self.shown.run(OVERLAPPING), 0)
            self.assertEqual(len(self.rows()), 201)
            self.shown.picture(PICTURES / f"large-{screen}.png")


if __name__ == "__main__":
    unittest.main()
