"""The binding: what the rules and the pages say of their traces, every refusal, and the header's own declarations."""

from __future__ import annotations

import importlib.util
import pickle
import re
import unittest
from ctypes import POINTER, c_char_p, c_size_t, c_uint32, c_uint64, create_string_buffer
from typing import Any, Callable, Dict, List, Tuple
from unittest import mock

import nyolifuwe
from nyolifuwe import Case, Frame, LibraryMissing, Place, Refused, Row, api, library
from nyolifuwe.errors import REMEDIES, SENTENCES
from nyolifuwe.model import COST

from .support import (
    CARRYING,
    EXAMPLES,
    HAS_FINISHES,
    RETURN,
    TOP,
    accepted_examples,
    event,
    events,
    example,
    family_of,
    line,
    sites,
    trace,
)

HEADER = (TOP / "include" / "nyolifuwe.h").read_text()
CARD = (TOP / "docs" / "CARD.md").read_text()
PAGE = (EXAMPLES / "README.md").read_text()

# The twelve traces of the rules: events before the root's return, work, span, on span of rows 0, 1 and 2.
TWELVE: Dict[str, Tuple[str, int, int, List[int]]] = {
    "A": ("", 0, 0, [0, 0, 0]),
    "B": ("5, 3", 8, 8, [8, 0, 0]),
    "C": ("spawn 1 {4}, 4", 8, 4, [0, 4, 0]),
    "D": ("spawn 1 {4}, 5", 9, 5, [5, 0, 0]),
    "E": ("spawn 1 {4}, sync, 4", 8, 8, [4, 4, 0]),
    "F": ("call 1 {4}, 4", 8, 8, [4, 4, 0]),
    "G": ("1, spawn 1 {10}, 2, spawn 2 {8}, 1", 22, 11, [1, 10, 0]),
    "H": ("1, spawn 1 {10}, 2, spawn 2 {9}, 1", 23, 12, [3, 0, 9]),
    "I": ("call 1 {spawn 2 {7}, 1}, 2", 10, 9, [2, 0, 7]),
    "J": ("spawn 1 {3}, call 2 {1, sync, 1}", 5, 3, [0, 3, 0]),
    "K": ("call 1 {1, call 1 {2}}", 3, 3, [0, 3, 0]),
    "L": ("spawn 1 {spawn 2 {6}, 1}, 2, sync, 1", 10, 7, [1, 0, 6]),
}

CASE_I_ROWS = [
    Row(0, None, 1, 10, 9, 2, 2, 0, 0),
    Row(1, Place(1, 10, 5), 1, 8, 7, 1, 0, 0, 0),
    Row(2, Place(1, 20, 9), 1, 7, 7, 7, 7, 0, 0),
]


class TheProfile(unittest.TestCase):
    """Totals, rows, places and marks."""

    def test_case_i(self) -> None:
        found = nyolifuwe.profile(example("case-i.trace"))
        self.assertEqual((found.work, found.span, found.sites, found.lines), (10, 9, 2, 10))
        self.assertEqual(found.rows, CASE_I_ROWS)
        self.assertEqual(found.marks, bytes([0, 0, 0, 0, 1, 0, 0, 0, 1, 0]))  # the costs 7 and 2
        self.assertEqual(found.parallelism, 10 / 9)

    def test_the_twelve(self) -> None:
        for letter, (words, work, span, on_span) in TWELVE.items():
            for engine in library.ENGINES:
                with self.subTest(letter, engine=engine):
                    found = nyolifuwe.profile(trace(words), depth=4, sites=2, engine=engine)
                    self.assertEqual((found.work, found.span, [row.on_span for row in found.rows]), (work, span, on_span))
        self.assertEqual(nyolifuwe.profile(trace(TWELVE["K"][0])).rows[1][2:], (2, 3, 3, 3, 3, 0, 0))

    def test_instructions_beside_cycles(self) -> None:
        for engine in library.ENGINES:
            found = nyolifuwe.profile(trace(CARRYING), engine=engine)
            self.assertEqual((found.work, found.span, found.sites, found.lines), (23, 12, 2, 15))
            rows = [(1, 23, 12, 4, 3, 4, 4), (1, 10, 10, 10, 0, 3, 0), (1, 9, 9, 9, 9, 20, 20)]
            self.assertEqual([row[2:] for row in found.rows], rows)
            self.assertTrue(found.has_instructions)
        self.assertEqual(nyolifuwe.profile(trace(CARRYING)).marks, bytes([0, 0, 1, 0, 0, 0, 0, 0, 1, 0, 1, 0, 0, 0, 0]))

    def test_without_instructions_the_rest_is_as_it_was(self) -> None:
        plain, carrying = (nyolifuwe.profile(trace(words)) for words in (re.sub(", carry \\d+", "", CARRYING), CARRYING))
        self.assertEqual([row[2:7] for row in plain.rows], [row[2:7] for row in carrying.rows])
        self.assertEqual([row[7:] for row in plain.rows], 3 * [(0, 0)])
        self.assertFalse(plain.has_instructions)

    def test_no_cost_has_no_parallelism(self) -> None:
        self.assertIsNone(nyolifuwe.profile(RETURN.encode()).parallelism)

    def test_the_engines_agree_and_the_columns_add_up(self) -> None:
        for name in accepted_examples():
            with self.subTest(name):
                marks, tables = (nyolifuwe.profile(example(name), engine=engine) for engine in library.ENGINES)
                self.assertEqual((tables.rows, tables.marks), (marks.rows, None))
                self.assertEqual(sum(row.local for row in marks.rows), marks.work)
                self.assertEqual(sum(row.on_span for row in marks.rows), marks.span)
                costs = list(api.lines_of_kind(example(name), COST))
                carried = {line: api.carried(example(name), line) for line in costs}
                self.assertEqual(sum(row.ilocal for row in marks.rows), sum(carried.values()))
                on_chain = sum(carried[line] for line in costs if (marks.marks or b"")[line])
                self.assertEqual(sum(row.ion_span for row in marks.rows), on_chain)

    def test_places_wherever_the_site_lines_stand(self) -> None:
        on_the_way = event("4") + line(1, 1, 10, 1, 5) + event("call 1") + line(1, 2, 20, 2, 9) + 2 * RETURN
        self.assertEqual(api.places(on_the_way.encode()), [Place(1, 10, 5), Place(2, 20, 9)])

    def test_other_engines_are_none(self) -> None:
        self.assertRaises(ValueError, nyolifuwe.profile, example("case-i.trace"), engine="other")

    @unittest.skipUnless(importlib.util.find_spec("pandas"), "no pandas here")
    def test_the_frame(self) -> None:
        frame = nyolifuwe.profile(example("case-i.trace")).frame()
        self.assertEqual(list(frame.columns), ["file", "line", "column", *library.COLUMNS])
        self.assertEqual(list(frame.on_span), [2, 0, 7])
        self.assertEqual(list(frame.loc[2]), [1, 20, 9, 1, 7, 7, 7, 7, 0, 0])


class TheForecast(unittest.TestCase):
    """The profile with some rows faster."""

    def test_case_i_with_site_2_halved(self) -> None:
        found = nyolifuwe.forecast(example("case-i.trace"), [(2, 2)])  # 7 becomes 4: docs/FORECAST.md
        self.assertEqual((found.work, found.span), (7, 6))
        self.assertEqual([row[2:7] for row in found.rows], [(1, 7, 6, 2, 2), (1, 5, 4, 1, 0), (1, 4, 4, 4, 4)])

    def test_instructions_stay_as_they_are(self) -> None:
        found = nyolifuwe.forecast(trace(CARRYING), [(2, 2)])  # 9 becomes 5, and 1, 10 the chain
        self.assertEqual((found.work, found.span), (19, 11))
        self.assertEqual([(row.ilocal, row.ion_span) for row in found.rows], [(4, 4), (3, 3), (20, 0)])

    def test_an_empty_list_is_the_plain_profile(self) -> None:
        for engine in library.ENGINES:
            self.assertEqual(
                nyolifuwe.forecast(example("proxy.trace"), [], engine=engine),
                nyolifuwe.profile(example("proxy.trace"), engine=engine),
            )

    def test_each_row_of_the_proxy_halved(self) -> None:
        spans = [11324, 10985, 11435, 11435, 9635, 10980, 8885, 11085, 11435]  # the table of docs/FORECAST.md
        proxy = example("proxy.trace")
        self.assertEqual([api.forecast_span(proxy, [(row, 2)]) for row in range(9)], spans)
        self.assertEqual([nyolifuwe.forecast(proxy, [(row, 2)], engine="tables").span for row in range(9)], spans)


class TheTexts(unittest.TestCase):
    """Reports, comma-separated text, folded stacks, compacted traces, lines."""

    def test_the_reports_of_the_page(self) -> None:
        reports = dict(re.findall(r"^## `([^`]+)`.*?^```\n(0000.*?)^```$", PAGE, re.M | re.S))
        self.assertIn("case-i.trace", reports)
        for name, report in reports.items():
            with self.subTest(name):
                rows = nyolifuwe.profile(example(name), family=family_of(name)).rows
                self.assertEqual(nyolifuwe.report(rows).decode(), report)
                called = [text for text in report.splitlines(True) if int(text[4:20], 16)]
                self.assertEqual(nyolifuwe.report(rows, full=False).decode(), "".join(called))

    def test_a_refusal_as_it_is_printed(self) -> None:
        self.assertEqual(nyolifuwe.refusal_line(14, 4), b"ff0e00000004\n")

    def test_comma_separated_text_both_ways(self) -> None:
        self.assertEqual(nyolifuwe.write_csv(CASE_I_ROWS), example("case-i.csv"))
        bare = [row._replace(place=None) for row in CASE_I_ROWS]
        for name in ("case-i.csv", "case-i-quoted.csv"):
            self.assertEqual(nyolifuwe.read_csv(example(name)), bare)

    def test_the_widest_text_has_room(self) -> None:
        widest = [Row(row, None, *len(library.COLUMNS) * [2**64 - 1]) for row in range(256)]
        self.assertEqual(nyolifuwe.read_csv(nyolifuwe.write_csv(widest)), widest)

    def test_rows_that_cannot_be_written(self) -> None:
        for rows in ([], CASE_I_ROWS[1:], [CASE_I_ROWS[0], CASE_I_ROWS[2]], [Row(0, None, 2**64, *6 * [0])]):
            self.assertRaises(ValueError, nyolifuwe.report, rows)
            self.assertRaises(ValueError, nyolifuwe.write_csv, rows)

    def test_folded_stacks(self) -> None:
        found = nyolifuwe.folded(example("proxy.trace"), example("proxy.names"), example("stock.names"))
        self.assertEqual(found, example("proxy.folded"))

    def test_folded_stacks_far_longer_than_the_trace(self) -> None:
        deep = (sites(1) + 63 * event("call 1") + event("5") + 64 * RETURN).encode()
        found = nyolifuwe.folded(deep, b"r\n" + b"s" * 1000)
        self.assertEqual(found, b"r" + 63 * (b";" + b"s" * 1000) + b" 5\n")

    def test_compacted_traces(self) -> None:
        self.assertEqual(nyolifuwe.compact(example("wordy.trace")), example("wordy-compact.trace"))
        self.assertEqual(nyolifuwe.compact(example("wordy-compact.trace")), example("wordy-compact.trace"))
        self.assertEqual(nyolifuwe.compact(example("proxy.trace")), example("proxy.trace"))

    def test_compacted_instructions(self) -> None:
        most = 2**32 - 1
        for words, wanted in (
            ("5, carry 3, 4, carry 6", "9, carry 9"),
            ("5, carry 3, sync, 4", "9, carry 3"),
            ("5, 4, carry 6", "9, carry 6"),
            (f"5, carry {most}, 4, carry 1, 1", f"5, carry {most}, 5, carry 1"),
            (f"{most}, carry 2, 1, carry 2", f"{most}, carry 2, 1, carry 2"),
        ):
            self.assertEqual(nyolifuwe.compact(trace(words)), trace(wanted), words)

    def test_a_line_both_ways(self) -> None:
        frame = Frame(kind=1, site=1, value=10, file=1, column=5)
        self.assertEqual(nyolifuwe.read_line(b"0100010000000a00010005\n"), frame)
        self.assertEqual(nyolifuwe.write_line(frame), b"0100010000000a00010005\n")
        self.assertEqual(nyolifuwe.read_line(b"0700000000001400000000\n"), Frame(7, 0, 20, 0, 0))


def lent(name: str, *slices: Any) -> Callable[[], None]:
    """A call of the library with slices of one's own."""
    return lambda: library.ask(name, *slices)


def of_profile(text: str, **limits: Any) -> Callable[[], Any]:
    """The profile of a text."""
    return lambda: nyolifuwe.profile(text.encode(), **limits)


CASE_I, PROXY = example("case-i.trace"), example("proxy.trace")
NUMBERS = library.numbers

# For each refusal what is refused so, and the line, record or row that comes with it.
REFUSALS: List[Tuple[int, int, Callable[[], Any]]] = [
    *[(1, 0, of_profile(RETURN, depth=depth)) for depth in (0, 65, -1, 2**64 + 1)],
    *[(1, 0, of_profile(RETURN, sites=most)) for most in (256, -1, 2**64)],
    (1, 0, lambda: nyolifuwe.report([Row(row, None, *7 * [0]) for row in range(257)])),
    (1, 0, lambda: nyolifuwe.refusal_line(256, 0)),
    (1, 0, lambda: nyolifuwe.refusal_line(0, 2**32)),
    (2, 0, lambda: nyolifuwe.profile(example("refusal-02.trace"))),
    (2, 0, lambda: nyolifuwe.read_line(b"")),
    (3, 0, of_profile(65536 * line(6, 0, 1) + RETURN)),
    (4, 0, lent("nyo_marks", CASE_I, 4, 2, NUMBERS(31), create_string_buffer(10), NUMBERS(21), NUMBERS(4))),
    (4, 0, lent("nyo_tables", CASE_I, 4, 2, NUMBERS(139), NUMBERS(21), NUMBERS(4))),
    (4, 0, lent("nyo_tables", CASE_I, 4, 2, NUMBERS(140), NUMBERS(20), NUMBERS(4))),
    (5, 2, lambda: nyolifuwe.profile(example("refusal-05.trace"))),
    (6, 4, lambda: nyolifuwe.profile(example("refusal-06.trace"))),
    (6, 0, lambda: nyolifuwe.write_line(Frame(6, 0, 2**64 + 1, 0, 0))),
    (7, 5, lambda: nyolifuwe.profile(example("refusal-07.trace"))),
    (8, 2, lambda: nyolifuwe.profile(example("refusal-08.trace"))),
    (9, 31, lambda: nyolifuwe.profile(example("refusal-09.trace"), sites=31)),
    (9, 255, of_profile(sites(256) + RETURN)),
    (10, 2, lambda: nyolifuwe.profile(example("refusal-10.trace"))),
    (11, 1, lambda: nyolifuwe.profile(example("refusal-11.trace"))),
    (12, 32, lambda: nyolifuwe.profile(example("refusal-12.trace"), depth=32)),
    (12, 64, of_profile(sites(1) + 64 * event("call 1") + 65 * RETURN)),
    (14, 4, lambda: nyolifuwe.profile(example("refusal-14.trace"))),
    (14, 0, of_profile("")),
    (15, 0, lambda: nyolifuwe.read_csv(example("refusal-15-line-ends.csv"))),
    (15, 1, lambda: nyolifuwe.read_csv(example("refusal-15-number.csv"))),
    (16, 0, lent("nyo_csv_read", example("case-i.csv"), NUMBERS(20), NUMBERS(1))),
    (17, 0, lambda: nyolifuwe.folded(PROXY, example("refusal-17-line-ends.names"), example("stock.names"))),
    (17, 4, lambda: nyolifuwe.folded(PROXY, example("refusal-17-space.names"), example("stock.names"))),
    (18, 0, lent("nyo_folded", CASE_I, 4, 2, b"r\na\nb", b"", NUMBERS(4), create_string_buffer(14), NUMBERS(1))),
    (19, 0, lambda: nyolifuwe.forecast(PROXY, [(6, 2), (4, 2)])),
    (19, 0, lambda: nyolifuwe.forecast(PROXY, [(9, 2)])),
    (19, 0, lambda: nyolifuwe.forecast(PROXY, [(2**64, 2)])),
    (20, 0, lambda: nyolifuwe.forecast(PROXY, [(6, 1)])),
    (20, 0, lambda: nyolifuwe.forecast(PROXY, [(6, 2**64 + 2)])),
    (21, 0, lent("nyo_compact", example("wordy.trace"), 4, 2, create_string_buffer(413), NUMBERS(1))),
    (22, 0, of_profile(event("carry 5") + RETURN)),
    (22, 2, of_profile(events("5, carry 3, carry 4") + RETURN)),
    (22, 2, of_profile(events("5, sync, carry 3") + RETURN)),
    (22, 3, of_profile(events("5, carry 3") + line(1, 1, 1, 1, 1) + event("carry 4") + RETURN)),
    (7, 2, of_profile(event("5") + RETURN + event("carry 3"))),
    (6, 1, of_profile(event("5") + event("carry 0") + RETURN)),
    (4, 0, lent("nyo_why", CASE_I, 4, 2, 0, NUMBERS(31), create_string_buffer(10), NUMBERS(2))),
    (4, 0, lent("nyo_why", CASE_I, 4, 2, 0, NUMBERS(32), create_string_buffer(9), NUMBERS(2))),
    (4, 0, lent("nyo_why", CASE_I, 4, 2, 0, NUMBERS(32), create_string_buffer(10), NUMBERS(1))),
    (14, 4, lambda: nyolifuwe.why(example("refusal-14.trace"), 4)),
    (23, 10, lambda: nyolifuwe.why(CASE_I, 10)),
    (23, 2**32 - 1, lambda: nyolifuwe.why(CASE_I, 2**32 - 1)),
]


class TheRefusals(unittest.TestCase):
    """Each refusal has its number, its line and the card's sentence."""

    def test_each_number_and_line(self) -> None:
        for number, at, refused in REFUSALS:
            with self.subTest(number=number, line=at):
                with self.assertRaises(Refused) as caught:
                    refused()
                self.assertEqual((caught.exception.number, caught.exception.line), (number, at))

    def test_every_number_is_tried(self) -> None:
        self.assertEqual({number for number, _, _ in REFUSALS}, set(SENTENCES))

    def test_the_sentences_are_the_cards(self) -> None:
        card = dict(re.findall(r"^\| (\d+) \| [^|]*\| ([^|]+) \|", CARD, re.M))
        left_out = r"[,;] (which is \d+ )?for the report program.*|; in a line it is asked for.*"
        self.assertEqual({int(number): re.sub(left_out, "", says) for number, says in card.items()}, SENTENCES)

    def test_what_to_do_is_the_cards(self) -> None:
        card = dict(re.findall(r"^\| (\d+) \| [^|]*\| [^|]+ \| ([^|]+) \|", CARD, re.M))
        self.assertEqual(set(REMEDIES), set(SENTENCES))
        own = {number for number, todo in REMEDIES.items() if todo != card[str(number)]}
        self.assertEqual(own, {1, 3, 9, 12, 15, 17, 19})  # limits, lists and sheets

    def test_how_a_refusal_reads(self) -> None:
        self.assertEqual(str(Refused(7, 5)), "refusal 7, line 5: a line after the root's return")
        self.assertTrue(str(Refused(15, 1)).startswith("refusal 15, record 1: of comma-separated text: "))
        self.assertTrue(str(Refused(17, 4)).startswith("refusal 17, row 4: of folded stacks: "))

    def test_a_refusal_passes_between_processes(self) -> None:
        again = pickle.loads(pickle.dumps(Refused(7, 5)))
        self.assertEqual((again.number, again.line, str(again)), (7, 5, str(Refused(7, 5))))


class TheHeader(unittest.TestCase):
    """The functions and the room are those of include/nyolifuwe.h."""

    def test_every_function_is_declared_as_there(self) -> None:
        types = {"uint8_t *": c_char_p, "uint64_t *": POINTER(c_uint64), "nyo_entry *": POINTER(library.Entry)}
        types.update({"size_t ": c_size_t, "uint64_t ": c_uint64, "uint32_t ": c_uint32})
        found = {}
        for name, parameters in re.findall(r"^uint64_t (nyo_\w+)\((.*?)\);", HEADER, re.M | re.S):
            kinds = (re.sub(r"^const |\w+$", "", " ".join(one.split())) for one in parameters.split(","))
            found[name] = tuple(types[kind] for kind in kinds)
        known = library.PARAMETERS.items()
        self.assertEqual(found, {name: own for name, own in known if HAS_FINISHES or name not in library.OF_FINISHES})

    def test_the_numbers_are_those_of_the_header(self) -> None:
        defined = {name: int(value) for name, value in re.findall(r"^#define NYO_(\w+) (\d+)$", HEADER, re.M)}
        own = {
            "MOST_DEPTH": library.MOST_DEPTH,
            "MOST_SITES": library.MOST_SITES,
            "MOST_LINES": library.MOST_LINES,
            "LINE_CHARS": library.LINE_CHARS,
            "REFUSAL_CHARS": library.REFUSAL_CHARS,
            "COLUMNS": len(library.COLUMNS),
            "FRAME": library.FRAME_NUMBERS,
            "ANSWER": library.ANSWER_NUMBERS,
            "WHY": library.WHY_NUMBERS,
        }
        self.assertEqual(own, {name: defined[name] for name in own})

    def test_the_cases_are_those_of_the_header(self) -> None:
        (cases,) = re.findall(r"^enum \{\n((?: +NYO_\w+,? +/\*.*\n)+)\};", HEADER, re.M)
        self.assertEqual(re.findall(r"^ +NYO_(\w+)", cases, re.M), [case.name for case in Case])

    def test_a_library_of_other_columns(self) -> None:
        library.loaded.cache_clear()
        self.addCleanup(library.loaded.cache_clear)
        with mock.patch.object(library, "COLUMNS", library.COLUMNS[:5]):
            self.assertRaisesRegex(LibraryMissing, "another version", nyolifuwe.profile, CASE_I)

    def test_a_library_that_is_not_there(self) -> None:
        library.loaded.cache_clear()
        self.addCleanup(library.loaded.cache_clear)
        with mock.patch.dict("os.environ", NYO_LIBRARY="/no-such-library.so"):
            self.assertRaises(LibraryMissing, nyolifuwe.profile, CASE_I)
