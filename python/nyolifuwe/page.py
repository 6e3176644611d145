"""A profile as one HTML page that needs nothing beside itself: totals, forecast, flame view, table of rows."""

from __future__ import annotations

from html import escape
from pathlib import Path
from typing import Any, Dict, Iterator, List, NamedTuple, Optional, Sequence

from .flame import Box, widest
from .errors import spawns_alone
from .gains import Gain, advice, in_order
from .model import Profile, Row
from .names import Names, place_text
from .show import CYCLES, INSTRUCTIONS, PER_CYCLE, counted, number, parallelism, percent, ratio, totals

MOST_BARS = 12
MOST_BOXES = 3000
BOX_HEIGHT = 1.5  # rem, as page.css has it

# The page may load nothing and talk to nobody.
POLICY = "default-src 'none'; style-src 'unsafe-inline'; script-src 'unsafe-inline'"

SAYS = (
    "Every number on this page comes from the proved library; ratios (parallelism is work over span), percents and"
    " gains are reckoned from its numbers, and the flame view adds up the costs of equal stacks."
)

FLAME_SAYS = (
    "Each box is a site under those that called it, as wide as its share of the work."
    ' <span class="key chain"></span> is the part of it on the chosen chain, which makes the span,'
    ' and <span class="key rest"></span> the rest. Choose a box to see it larger.'
)


NO_FLAME = f"No flame view is drawn: {spawns_alone('it')}."


class Cell(NamedTuple):
    """A cell of the table: its column's heading, the value that it is sorted by, and its HTML."""

    heading: str
    value: Any
    html: str


def part(name: str) -> str:
    """A text of the page that stands beside this file."""
    return (Path(__file__).parent / name).read_text(encoding="utf-8")


def headline(profile: Profile) -> Iterator[str]:
    """The totals as a list."""
    yield '<dl class="totals">'
    for name, value in totals(profile).items():
        text = parallelism(profile) if name == "parallelism" else number(value)
        yield f'<div><dt>{name}</dt><dd id="{name}" data-value="{"" if value is None else value}">{text}</dd></div>'
    yield "</dl>"


def bar(profile: Profile, gain: Gain, names: Names) -> str:
    """A row's gain: a bar of its share of the span, and the span that is left."""
    less = percent(gain.gain, profile.span)
    return (
        f'<li data-row="{gain.row.row}"><span class="name">{escape(names.of(gain.row))}</span>'
        f'<div class="bar"><i style="width:{100 * gain.gain / profile.span:.3f}%"></i></div>'
        f'<span><b data-value="{gain.halved}">{number(gain.halved)}</b> (&minus;{less})</span></li>'
    )


def forecast(profile: Profile, ranked: Sequence[Gain], names: Names) -> Iterator[str]:
    """The rows that gain most with their own cost halved; nothing where gains are left out."""
    if not ranked:
        return
    gaining = [gain for gain in ranked if gain.gain]
    vain = sum(not gain.gain and gain.row.local > 0 for gain in ranked)
    yield '<section id="forecast"><h2>If one site were twice as fast</h2>'
    yield '<p class="note">The span with the costs directly in a site halved, each rounded up; '
    yield f'it is {number(profile.span)} now. Rows with costs that gain nothing: {vain}.</p><ul class="bars">'
    yield from (bar(profile, gain, names) for gain in gaining[:MOST_BARS])
    yield "</ul>"
    if len(gaining) > MOST_BARS:
        yield f'<p class="note">{counted(len(gaining) - MOST_BARS, "row")} with smaller gains in the table.</p>'
    yield "</section>"


def cells(profile: Profile, row: Row, gain: Optional[Gain], names: Names) -> List[Cell]:
    """The cells of a row, with its gain where there is one."""
    name, place = names.of(row), place_text(row.place)
    beside = f' <span class="place">{place}</span>' if place not in ("", name) else ""
    return [
        Cell("site", name, escape(name) + beside),
        *number_cells(row, CYCLES),
        Cell("of span", row.on_span, percent(row.on_span, profile.span)),
        *(gain_cells(profile, gain) if gain else []),
        *(instruction_cells(row) if profile.has_instructions else []),
    ]


def gain_cells(profile: Profile, gain: Gain) -> List[Cell]:
    """The cells of a row's gain."""
    halved = Cell("if halved", gain.halved, number(gain.halved))
    return [halved, Cell("gain", gain.gain, percent(gain.gain, profile.span))]


def number_cells(row: Row, columns: Dict[str, str]) -> List[Cell]:
    """The cells of some columns of a row, given with their headings."""
    return [Cell(heading, getattr(row, column), number(getattr(row, column))) for column, heading in columns.items()]


def instruction_cells(row: Row) -> List[Cell]:
    """The cells of a row's instructions, and of how many there are a cycle of its own cost."""
    per_cycle = row.ilocal / row.local if row.local else 0
    return [*number_cells(row, INSTRUCTIONS), Cell(PER_CYCLE, per_cycle, ratio(row.ilocal, row.local))]


def choices(headings: Sequence[str], first: str, idle: int) -> Iterator[str]:
    """What can be chosen about the table: its order, for screens too narrow for headings, and whether idle rows are shown."""
    yield '<div class="choices"><label class="order">order by <select id="order">'
    for column, heading in enumerate(headings):
        yield f'<option value="{column}"{" selected" if heading == first else ""}>{heading}</option>'
    hidden = "" if idle else " hidden"
    yield f'</select></label><label{hidden}><input type="checkbox" id="idle"> {counted(idle, "row")} without calls too</label></div>'


def table(profile: Profile, ranked: List[Gain], names: Names) -> Iterator[str]:
    """The rows as a table that can be sorted, largest gain first; without gains the most on the span first."""
    gained = {gain.row.row: gain for gain in ranked}
    records = [(row, cells(profile, row, gained.get(row.row), names)) for row in in_order(profile, ranked)]
    headings, first = [cell.heading for cell in records[0][1]], "gain" if ranked else CYCLES["on_span"]
    yield f'<section id="rows"{" class=carrying" if profile.has_instructions else ""}><h2>Every site</h2>'
    yield from choices(headings, first, sum(not row.calls for row, _ in records))
    yield "<table><thead><tr>"
    for heading in headings:
        sort = ' aria-sort="descending"' if heading == first else ""
        yield f'<th scope="col"{sort}><button type="button">{heading}</button></th>'
    yield "</tr></thead><tbody>"
    for row, record in records:
        yield f'<tr data-row="{row.row}"{"" if row.calls else " class=idle"}>'
        for cell in record:
            yield f'<td data-label="{cell.heading}" data-value="{escape(str(cell.value))}">{cell.html}</td>'
        yield "</tr>"
    yield "</tbody></table></section>"


def told(profile: Profile, box: Box) -> str:
    """A box in words."""
    all_of_it = f"{box.name}: {number(box.cost)}, {percent(box.cost, profile.work)} of the work"
    return f"{all_of_it}; on the chosen chain {number(box.chain)}, {percent(box.chain, profile.span)} of the span"


def flame_box(profile: Profile, box: Box) -> str:
    """A box, as wide as its share of the work and filled as far as its share on the chosen chain."""
    left, width = (f"{100 * size / profile.work:.5f}%" for size in (box.left, box.cost))
    style = f"left:{left};width:{width};top:{BOX_HEIGHT * box.depth}rem;--part:{100 * box.chain / box.cost:.2f}%"
    data = f'data-depth="{box.depth}" data-left="{box.left}" data-cost="{box.cost}" data-chain="{box.chain}"'
    return f'<button type="button" {data} style="{style}" title="{escape(told(profile, box))}">{escape(box.name)}</button>'


def flame(profile: Profile, boxes: Optional[Sequence[Box]]) -> Iterator[str]:
    """The flame view, root on top, with the chosen chain marked; without boxes, that there is none."""
    if boxes is None:
        yield f'<section><p class="note" id="no-flame">{NO_FLAME}</p></section>'
        return
    drawn = widest(boxes, MOST_BOXES)
    rows = 1 + max((box.depth for box in drawn), default=-1)
    first = told(profile, drawn[0]) if drawn else "There is no cost in this trace."
    yield f'<section id="flame"><h2>Where the work is, and what of it makes the span</h2><p class="note">{FLAME_SAYS}</p>'
    yield f'<output id="told">{escape(first)}</output><div class="boxes" style="height:{BOX_HEIGHT * rows}rem">'
    yield from (flame_box(profile, box) for box in drawn)
    yield "</div>"
    if len(drawn) < len(boxes):
        yield f'<p class="note">Drawn are the {number(len(drawn))} widest of {number(len(boxes))} boxes.</p>'
    yield "</section>"


def page(title: str, profile: Profile, ranked: List[Gain], boxes: Optional[Sequence[Box]], names: Names) -> str:
    """The whole page."""
    parts = [
        '<!doctype html>\n<html lang="en">\n<head><meta charset="utf-8">',
        '<meta name="viewport" content="width=device-width, initial-scale=1">',
        f'<meta http-equiv="Content-Security-Policy" content="{POLICY}">',
        f"<title>{escape(title)}: work and span</title>\n<style>\n{part('page.css')}</style></head>",
        f"<body><header><h1>{escape(title)}</h1>",
        *headline(profile),
        f'<p id="advice">{escape(advice(profile, ranked, names))}</p></header><main>',
        *forecast(profile, ranked, names),
        *flame(profile, boxes),
        *table(profile, ranked, names),
        f"</main><footer><p>{SAYS}</p></footer>\n<script>\n{part('page.js')}</script></body></html>\n",
    ]
    return "\n".join(parts)
