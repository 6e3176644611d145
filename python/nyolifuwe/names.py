"""The name shown for a row: from the project's list, else the stock list, else its place."""

from __future__ import annotations

from typing import List, Optional, Sequence

from .model import Place, Row

ROOT = "root"


def place_text(place: Optional[Place]) -> str:
    """A place as file:line:column; the root has none."""
    return f"{place.file}:{place.line}:{place.column}" if place else ""


def unnamed(row: Row) -> str:
    """What stands for a row that no list names: its place, and of row 0 that it is the root."""
    return place_text(row.place) or ROOT


def printable(text: bytes) -> str:
    """A text with every character that could disturb a screen written out."""
    return "".join(chr(byte) if 32 <= byte < 127 else f"\\x{byte:02x}" for byte in text)


class Names:
    """Two lists with one name a line, line 0 for the root."""

    def __init__(self, project: bytes = b"", stock: bytes = b"") -> None:
        self.lists: List[List[bytes]] = [text.split(b"\n") for text in (project, stock)]
        self.given = bool(project or stock)

    def of(self, row: Row) -> str:
        """The name shown for a row: the first list's whose line for it is not empty, else what stands for it."""
        named = (names[row.row] for names in self.lists if row.row < len(names))
        return next((printable(name) for name in named if name), unnamed(row))

    def rows_of(self, word: str, rows: Sequence[Row]) -> List[int]:
        """The rows that a word means: the one of that number, or all of that name or place."""
        if word.isascii() and word.isdigit():
            return [int(word)]
        return [row.row for row in rows if word in (self.of(row), unnamed(row))]


def unnamed_list(rows: Sequence[Row]) -> bytes:
    """A list of names with what stands for each row that no list names."""
    return "".join(unnamed(row) + "\n" for row in rows).encode()
