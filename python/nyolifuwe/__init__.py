"""Nyolifuwe: work, span and the chosen chain of a fork-join trace, by a proved library.

Every number comes from that library; only ratios, and sums over several traces, are computed beside it.
"""

from .api import (
    compact,
    folded,
    forecast,
    profile,
    read_csv,
    read_line,
    refusal_line,
    report,
    why,
    write_csv,
    write_line,
)
from .errors import LibraryMissing, Refused
from .model import Case, Frame, Place, Profile, Row, Why

__all__ = [
    "Case",
    "Frame",
    "LibraryMissing",
    "Place",
    "Profile",
    "Refused",
    "Row",
    "Why",
    "compact",
    "folded",
    "forecast",
    "profile",
    "read_csv",
    "read_line",
    "refusal_line",
    "report",
    "why",
    "write_csv",
    "write_line",
]
__version__ = "0.1"
