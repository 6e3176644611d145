"""What each row gains: the span if its own cost were smaller, the rows in that order, and the sentence that follows."""

from __future__ import annotations

from typing import Any, List, NamedTuple

from . import api
from .errors import spawns_alone
from .model import BASE, Profile, Row
from .names import Names, unnamed
from .show import number, percent

HALF = 2

# A row is large where its own cost is at least this much of the work, in percent.
LARGE = 5

NO_GAINS = f"Gains are left out: {spawns_alone('a forecast')}."


class Gain(NamedTuple):
    """A row, and the span if its own cost were halved."""

    row: Row
    halved: int
    gain: int


def faster_span(trace: bytes, profile: Profile, row: Row, factor: int, **limits: Any) -> int:
    """The span if a row's own cost were divided by a factor; nothing on the span, nothing gained (docs/FORECAST.md)."""
    return api.forecast_span(trace, [(row.row, factor)], **limits) if row.on_span else profile.span


def gains(trace: bytes, profile: Profile, *, family: str, **limits: Any) -> List[Gain]:
    """What each row gains, the largest gain first, then the largest own cost; none for a family without forecasts."""
    if family != BASE:
        return []
    spans = [faster_span(trace, profile, row, HALF, **limits) for row in profile.rows]
    found = [Gain(row, span, profile.span - span) for row, span in zip(profile.rows, spans)]
    return sorted(found, key=lambda gain: (-gain.gain, -gain.row.local, gain.row.row))


def in_order(profile: Profile, ranked: List[Gain]) -> List[Row]:
    """The rows as they are ranked; without gains the most on the span first, then the largest own cost."""
    by_span = sorted(profile.rows, key=lambda row: (-row.on_span, -row.local, row.row))
    return [gain.row for gain in ranked] or by_span


def large_and_vain(profile: Profile, ranked: List[Gain]) -> List[Gain]:
    """The large rows that gain nothing, the largest own cost first."""
    return [gain for gain in ranked if not gain.gain and 100 * gain.row.local >= LARGE * profile.work > 0]


def called(row: Row, names: Names) -> str:
    """A row's name, with its place behind it where the name is another."""
    name, place = names.of(row), unnamed(row)
    return name if name == place else f"{name} ({place})"


def advice(profile: Profile, ranked: List[Gain], names: Names) -> str:
    """One sentence: what to split or speed up first, and which large row gains nothing."""
    if not profile.span:
        return "There is no cost in this trace."
    if not ranked:
        return NO_GAINS
    best, vain = ranked[0], large_and_vain(profile, ranked)
    first = "No row shortens the span when it alone is halved"
    if best.gain:
        won = f"{number(best.gain)} ({percent(best.gain, profile.span)})"
        first = f"Split or speed up {called(best.row, names)} first: its own cost halved takes {won} off the span"
    if not vain:
        return f"{first}."
    row = vain[0].row
    return f"{first}; {called(row, names)} has {percent(row.local, profile.work)} of the work and gains nothing."
