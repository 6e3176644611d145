"""What goes wrong: a refusal with the card's sentence, a library that is not there, a family that is not taken."""

from typing import Dict

# What docs/CARD.md says of each refusal, without what it says of the report program's own limits and of the order of refusals.
SENTENCES: Dict[int, str] = {
    1: "the depth limit is not 1 to 64, or the site limit not 0 to 255",
    2: "the length is not a multiple of 23",
    3: "more than 65,536 lines",
    4: "a lent slice is too short",
    5: "a character that is not `0`-`9`, `a`-`f`, `A`-`F`, or no line feed at the end",
    6: "unknown kind, an unused field that is not zero, or a value outside the table",
    7: "a line after the root's return",
    8: "a site line that is not numbered one above the last (the first is 1)",
    9: "a site number above the site limit",
    10: "a place that was declared before",
    11: "a call or spawn of site 0, or of a site that no earlier line declares",
    12: "more invocations open than the depth limit",
    14: "the lines end before the root's return",
    15: "of comma-separated text: the first record (the header is 0) that is not good or is missing",
    16: "of comma-separated text: the output is shorter than the text, or the room below seven numbers a row",
    17: "of folded stacks: the first row (the root is 0) whose shown name is bad or missing from both lists",
    18: "of folded stacks: the output is shorter than the text",
    19: "of a forecast: more than 16 entries, rows that are not strictly ascending, or a row that is not declared",
    20: "of a forecast: a factor that is not 2 to 1,000",
    21: "of a compacted trace: the output is shorter than the result",
    22: "a line of kind 07, instructions, that is not directly behind a cost line",
    23: "of a line that is asked about: its number is at or past the end",
}

# What to do about each: what the card says, but for limits, lists and sheets, which nyo and Python have their own way with.
REMEDIES: Dict[int, str] = {
    1: "set limits in these ranges, or none: the largest are the default",
    2: "a line is cut, or the lines end in CR LF: send the file again, with line feeds alone",
    3: "trace a shorter run; a trace cannot be split, since a chain crosses the cut",
    4: "lend what the limits ask for",
    5: "the line is damaged: look for spaces and other letters, and in line 0 for CR LF"
    " (it gives 5, and not 2, where the number of lines is a multiple of 23)",
    6: "the collector is newer or broken; a cost is at least 1, and so are its instructions",
    7: "two traces in one file?",
    8: "number the site lines 1, 2, 3 and on in the order in which they stand",
    9: "declare fewer sites, or set no limit: 255 is the largest",
    10: "two sites cannot share a place",
    11: "declare it on an earlier line",
    12: "look for a return that is missing, or set no limit: 64 is the largest",
    14: "the trace was cut at a line's end; send it again",
    15: "look for LF alone as line end, semicolons, spaces, and numbers that a spreadsheet rewrote (docs/CARD.md)",
    16: "lend `NYO_CSV_CHARS(count)` characters to write, `NYO_ROWS(255)` numbers to read",
    17: "mend the line of that row in the list of names: characters from `!` to `~` without `;`, and line feeds alone",
    18: "lend more: `NYO_FOLDED_CHARS(costs, depth, longest)` characters are always enough",
    19: "name at most 16 rows, each once: 0 for the root, otherwise a declared site",
    20: "leave out the entry of a row that is to stay as it is",
    21: "lend more: as many characters as the trace has are always enough (`NYO_COMPACT_CHARS`)",
    22: "the collector writes each 07 line directly behind its cost, one for a cost at most",
    23: "ask about a line of the trace: they are numbered from 0, so the last is one below their number",
}

# What the second number of a refusal counts, where that is not lines of the trace.
COUNTED: Dict[int, str] = {15: "record", 17: "row"}


class Refused(Exception):
    """A refusal of the library: its number, its line (of 15 a record, of 17 a row), the card's sentence, and what to do."""

    def __init__(self, number: int, line: int) -> None:
        super().__init__(number, line)
        self.number = number
        self.line = line
        self.sentence = SENTENCES.get(number, "a refusal that the card does not have")
        self.remedy = REMEDIES.get(number, "take the version of nyo that belongs to the library")

    def __str__(self) -> str:
        return f"refusal {self.number}, {COUNTED.get(self.number, 'line')} {self.line}: {self.sentence}"


class LibraryMissing(OSError):
    """The shared library is not where it is looked for, or cannot be loaded, or lacks a function."""


def spawns_alone(name: str) -> str:
    """What is said of a function, command or view where traces of asyncs and finishes are asked for."""
    return f"{name} takes traces of spawns and syncs alone, and none of asyncs and finishes"
