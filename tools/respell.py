#!/usr/bin/env python3
"""Spells the names that specs/ and proofs/ declare as Rattle's library spells its own.

usage: tools/respell.py            at the top of the repository, once
       tools/respell.py --list     prints the names that it changes, and writes nothing

A word is in snake case: readLine becomes read_line, and still-parallel still_parallel. In a lemma's name a dash stays
between two names that are declared themselves, or behind a type, as in length-append and Row-to. A fact that is a type
begins with a capital letter. A name that would meet another one stays as it is, and --list says so.
Names are changed wherever they stand as words: in specs/ and proofs/, in clauses and ghost uses of src/, in must-fail
edits, and between backticks in comments and pages. Rust's names, strings and Rattle's own labels stay.
"""

import collections
import os
import re
import sys

W = r'[^\s(){}.;,@"«»\[\]\\`|]+'
TOKEN = re.compile(W)
DECLARED = re.compile(r"^( *)((?:pub |abbrev |unfoldable |record |data )*)(" + W + r")((?: \{[^{}\n]*\}| \([^()\n]*(?:\([^()\n]*\)[^()\n]*)*\))*) :(?: |$)(.*)$")
# What no rule gives: facts that are types, functions that are none, and names that would meet another one's new name.
CHOSEN = {
    "climb": "Climb",
    "never": "Never",
    "runsOn": "RunsOn",
    "On-it": "on_it",
    "by_entries": "entries_weigh",
    "of_row": "is_of_row",
    "on_row": "on_row_lem",
    "record_of": "record_of_lem",
    "same_place": "same_place_lem",
    "too_many": "too_many_lem",
    "value_in": "value_in_lem",
    "on-span": "on_span_sum",
    "ion-span": "ion_span_sum",
    "marks-room": "marks_room_fits",
    "scratch-room": "scratch_room_fits",
    "row-in": "row_within",
    "climb-opening": "Climb-opening",
}
# The same, in one crate alone.
HERE = {"report": {"row-in": "row_in_lem"}}
# The library's words that lemmas' names begin with or end in.
WORDS = "length append take drop set replicate map filter reverse zero suc add mul sub div mod pow cons nil".split()


def files(*ends):
    for top in ("crates", "docs", "examples", "second", "python", "c", "bench", "fuzz", "include", "."):
        for folder, dirs, names in os.walk(top):
            dirs[:] = sorted(d for d in dirs if d not in ("out", ".git", "target", "__pycache__") and top != ".")
            for n in sorted(names):
                if n.endswith(ends):
                    yield os.path.normpath(os.path.join(folder, n))


def read(path):
    with open(path, encoding="utf-8") as f:
        return f.read()


def of_a_function(path):
    """A proof file of one function, whose labels Rattle makes."""
    return bool(re.search(r"/proofs/.+/", path))


def code_of(text):
    """The text with its comments blanked."""
    return re.sub(r"--[^\n]*", lambda m: " " * len(m[0]), text)


def imported():
    """The names that some file takes from a library, which are spelled already."""
    names = set()
    for p in files(".antt", ".rt"):
        for m in re.finditer(r"\b(?:pub )?use ((?:[A-Za-z_][\w']*\.)*)\{([^}]*)\}", read(p)):
            steps = m[1].split(".")
            if steps[0] != "Rattle" or steps[1] == "std":
                for n in m[2].split(","):
                    names.add(n.strip().split(" as ")[0])
    return names


def declared():
    """Each name that a file of specs/ or of lemmas declares, with whether it is a definition."""
    names = collections.defaultdict(bool)
    for p in files(".antt"):
        if of_a_function(p):
            continue
        lines = code_of(read(p)).split("\n")
        inside = -1
        for line in lines:
            if not line.strip():
                continue
            depth = len(line) - len(line.lstrip())
            if depth <= inside:
                inside = -1
            m = DECLARED.match(line)
            if m:
                names[m[3]] |= "/specs/" in p or bool(m[2].replace("pub ", "").strip()) or inside >= 0
                if re.search(r"\b(record|data)\b", m[2]):
                    inside = depth
            elif re.match(r" *(pub )?(record|data) ", line):
                inside = depth
    return names


def snake(word):
    return re.sub(r"(?<=[a-z0-9])[A-Z]", lambda m: "_" + m[0].lower(), word) if word[:1].islower() else word


def joined(parts, known):
    """A lemma's name: a dash where all the pieces between dashes are names, else an underscore."""
    best = None

    def cut(i, pieces):
        nonlocal best
        if i == len(parts):
            if best is None or len(pieces) > len(best):
                best = list(pieces)
            return
        for j in range(i + 1, len(parts) + 1):
            piece = "_".join(parts[i:j])
            if piece in known and not (i == 0 and j == len(parts)):
                cut(j, [*pieces, piece])

    cut(0, [])
    if best:
        return "-".join(best)
    if parts[0][:1].isupper() and len(parts[0]) > 1:
        return parts[0] + "-" + "_".join(parts[1:])
    return "_".join(parts)


def table():
    names, kept = declared(), imported()
    known = set(WORDS) | {"_".join(snake(w) for w in n.split("-")) for n, d in names.items() if d}
    new = {}
    for n, definition in sorted(names.items()):
        if n in kept and n not in CHOSEN or not re.fullmatch(r"[A-Za-z_][\w'-]*", n):
            continue
        parts = [snake(w) for w in n.split("-")]
        to = CHOSEN.get(n) or ("_".join(parts) if definition else joined(parts, known))
        if to != n:
            new[n] = to
    for n, to in list(new.items()):  # "a lemma that would have its function's name gets _lem"
        if not names[n] and (to in names or any(t == to and names[m] for m, t in new.items())):
            new[n] = to + "_lem"
    here = used() - set(CHOSEN)
    meets = {n: to for n, to in new.items() if to in here or to in kept or sum(t == to for t in new.values()) > 1}
    for n in meets:
        del new[n]
    return new, meets


def used():
    """The words of antt, and those of Rust's values, fields and constants: a clause names no Rust function."""
    words = set()
    for p in files(".antt"):
        text = code_of(read(p))
        if of_a_function(p):
            text = re.sub(r"\.[\w'-]+", " ", text)
            text = re.sub(r"(?m)^ *[\w'-]+ (?=:|c\b)", " ", text)
            text = re.sub(r"(?m)^use .* as .*$", " ", text)
        words.update(TOKEN.findall(text))
    for p in files(".rt"):
        text = re.sub(r"//[^\n]*|\"[^\"\n]*\"|\bfn \w+|\buse [^;]*;|\bmod \w+|\w+::", " ", read(p))
        words.update(re.findall(r"\b\w+\b(?!\()", text))
    return words


def turned(text, new):
    return TOKEN.sub(lambda m: new.get(m[0], m[0]), text)


def turn_antt(path, text, new):
    own = of_a_function(path)

    def code(part):
        def one(m):
            before = part[: m.start()]
            if own and re.search(r"[a-z)\d]\.$", before) and m[0] not in FIELDS:
                return m[0]  # a label of Rattle's, behind a value
            return new.get(m[0], m[0])

        return TOKEN.sub(one, part)

    lines = []
    for line in text.split("\n"):
        m = re.search(r"(?:^|\s)--(?: |$).*", line)
        cut = m.start() if m else len(line)
        lines.append(code(line[:cut]) + turn_ticks(line[cut:], new))
    return "\n".join(lines)


def turn_rt(text, new):
    def clause(m):
        return turned(m[0], new)

    text = re.sub(r"(?m)^ghost use [^;]*;", clause, text)
    out, i = [], 0
    for m in re.finditer(r"\b(?:requires|ensures|ghost)\*?(?: \w+)?:? *=? *\{", text):
        if m.start() < i:
            continue
        deep, k = 0, m.end() - 1
        while True:
            deep += (text[k] == "{") - (text[k] == "}")
            k += 1
            if not deep:
                break
        out.append(text[i : m.start()])
        out.append(turned(text[m.start() : k], new))
        i = k
    out.append(text[i:])
    return turn_ticks("".join(out), new)


def turn_ticks(text, new):
    """Between backticks, where no string of a program stands."""
    return re.sub(r"`[^`\n]+`", lambda m: turned(m[0], {k: v for k, v in new.items() if re.search(r"[A-Z-]", k)}), text)


def turn_page(text, new):
    """In a page: a name or an application between backticks, and no option, path, file or command."""

    def one(m):
        word = m[0]
        other = "_".join(snake(w) for w in word.split("-"))
        return new.get(word) or (other if word not in NAMES and other in NAMES and re.search("[A-Z-]", word) else word)

    def span(m):
        return m[0] if re.search(r"--|/|\./|\.\w|\$|=|::", m[0]) else TOKEN.sub(one, m[0])

    return re.sub(r"`[^`\n]+`", span, text)


def fields():
    names = set()
    for p in files(".antt"):
        inside = -1
        for line in code_of(read(p)).split("\n"):
            if not line.strip():
                continue
            depth = len(line) - len(line.lstrip())
            if depth <= inside:
                inside = -1
            m = DECLARED.match(line)
            if m and inside >= 0:
                names.add(m[3])
            if re.match(r" *(pub )?record ", line):
                inside = depth
    return names


def main(argv):
    global FIELDS, NAMES
    table_of_all, meets = new, _ = table()
    if argv == ["--list"]:
        for n, to in sorted(new.items()):
            print(n, to)
        for n, to in sorted(meets.items()):
            print(n, "stays: it would meet", to)
        return 0
    if argv or not os.path.isdir("crates"):
        print(__doc__)
        return 2
    FIELDS, NAMES = fields(), set(declared())
    for p in files(".antt", ".rt", ".edit", ".md"):
        text = read(p)
        new = {**table_of_all, **HERE.get(p.split("/")[1] if p.startswith("crates/") else "", {})}
        if p.endswith(".antt"):
            to = turn_antt(p, text, new)
        elif p.endswith(".rt"):
            to = turn_rt(text, new)
        elif p.endswith(".edit"):
            to = "\n".join(turned(l, new) if re.match(r"(old|new):", l) and "file: src/" not in text else turn_rt(l, new) if re.match(r"(old|new):", l) else l for l in text.split("\n"))
        else:
            to = turn_page(text, new)
        if to != text:
            with open(p, "w", encoding="utf-8") as f:
                f.write(to)
    return 0


FIELDS, NAMES = set(), set()

if __name__ == "__main__":
    sys.exit(main(sys.argv[1:]))
