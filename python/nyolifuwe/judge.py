"""What comes of one file of a night: its digest and its profile or refusal, or why it could not be read."""

from __future__ import annotations

import hashlib
from typing import List, NamedTuple, Optional, Sequence, Tuple

from . import api
from .errors import Refused
from .faults import hint
from .library import LINE_CHARS, MOST_LINES
from .model import BASE, Place

MOST_CHARS = LINE_CHARS * MOST_LINES
PART = 1 << 20


# A row as it is stored: its number, its place (None three times for the root), its columns.
Stored = Tuple[Optional[int], ...]


class File(NamedTuple):
    """A file to be judged, with the digest known of it, and the family that it is read as."""

    path: str
    known: str
    family: str


class Accepted(NamedTuple):
    """The totals and the rows of an accepted trace."""

    work: int
    span: int
    sites: int
    lines: int
    rows: List[Stored]


class Refusal(NamedTuple):
    """The number, line and sentence of a refused one, and behind it a hint where it looks like the other family's."""

    number: int
    line: int
    sentence: str


class Outcome(NamedTuple):
    """What came of a file: unread where a reason is given, kept where the digest is the one known, and otherwise judged."""

    path: str
    digest: str = ""
    unread: str = ""
    accepted: Optional[Accepted] = None
    refusal: Optional[Refusal] = None

    @property
    def kept(self) -> bool:
        """Whether nothing is new about this file."""
        return not (self.unread or self.accepted or self.refusal)


def contents(path: str) -> Tuple[str, bytes]:
    """A file's digest and bytes; for one longer than any trace zeros, as many as get the refusal of its length."""
    with open(path, "rb") as file:
        trace = file.read(MOST_CHARS + 1)
        digest, size = hashlib.sha256(trace), len(trace)
        while size > MOST_CHARS:
            part = file.read(PART)
            if not part:
                return digest.hexdigest(), bytes(MOST_CHARS + LINE_CHARS + size % LINE_CHARS)
            digest.update(part)
            size += len(part)
    return digest.hexdigest(), trace


def judged(path: str, known: str, family: str = BASE) -> Outcome:
    """What comes of a file, unless its digest is the one that is known of it; a fault of the file is never an error."""
    try:
        digest, trace = contents(path)
    except OSError as error:
        return Outcome(path, unread=error.strerror or str(error))
    if digest == known:
        return Outcome(path, digest)
    try:
        profile = api.profile(trace, family=family)
    except Refused as refused:
        sentence = "; ".join(filter(None, [refused.sentence, hint(trace, refused, family)]))
        return Outcome(path, digest, refusal=Refusal(refused.number, refused.line, sentence))
    rows = [(row.row, *(row.place or (None,) * len(Place._fields)), *row[2:]) for row in profile.rows]
    return Outcome(path, digest, accepted=Accepted(profile.work, profile.span, profile.sites, profile.lines, rows))


def all_judged(files: Sequence[File]) -> List[Outcome]:
    """What comes of each of some files."""
    return [judged(*file) for file in files]
