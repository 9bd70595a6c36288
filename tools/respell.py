#!/usr/bin/env python3
"""Spells this repository's own definitions and lemmas in snake case.

usage: tools/respell.py [FOLDER]     in FOLDER, or here: once, after port.py, with everything committed

A name that some .antt file of crates/ declares, and that has a dash or a capital behind a small letter, gets plain
underscores: insertOf becomes insert_of, count-sum count_sum. Types, modules and constructors with a capital keep theirs.
It turns whole words: in .antt and in clauses, in the edits of definitions, in code spans of pages. In a comment a bare
word turns only where it has a capital inside. Names that fall together are listed, and nothing is written.
"""

import collections
import os
import re
import sys

WORD = r'[^\s(){}\[\].;,@"«»`|]+'
TOKEN = re.compile(WORD)
MARKS = r"(?:(?:pattern|unfoldable|abbrev|pub|mutual)\s+)*"
SIGNATURE = re.compile(rf"^ *{MARKS}({WORD})(?: \{{[^{{}}\n]*\}})* :(?=\s|$)(.*)")
# In a proof that follows the code: what Rattle asks for, under a name of Rattle's.
ASKED = re.compile(r"\btie\.(Need|Code)")
# Where the plain rule is not enough: a word of the library that has another name now.
PARTS = [("getD", "getOr"), ("get_d", "get_or"), ("NE", "ne"), ("F?", "f?")]
# Fields of claims and hypotheses that would meet a definition of the same text, and laws that would meet their subject.
FIXED = {
    "no-mail": "without_mail",
    "full-room": "with_room",
    "on-way": "way_count",
    "read-order": "reads_in_order",
    "act-order": "acts_in_order",
    "read-event": "event_read",
    "proposal-checks": "proposal_accepted",
    "table-words": "words_of_table",
    "no-office": "office_missing",
    "read-checks": "read_checks",
    "room-check": "room_check",
    "restart-table": "restart_table",
    "room-above": "room_above",
    "sent-at": "sent_at",
    "bit-and": "bit_and_lem",
    "bit-or": "bit_or_lem",
}
# Laws that have underscores already, and whose subject gets their text.
LAWS = ["number_by", "front_length", "read_back", "set_words", "cut_off", "fresh_kept", "at_first", "cuts_first", "left_in", "read_number"]


def spelled(name):
    if name in FIXED:
        return FIXED[name]
    for old, new in PARTS:
        name = name.replace(old, new)
    name = re.sub(r"(?<=[a-z0-9])[A-Z]", lambda m: "_" + m[0].lower(), name).replace("-", "_")
    return re.sub(r"(?<=_)[A-Z](?=_|$|[a-z])", lambda m: m[0].lower(), name)


def files(root, ends, *tops):
    for top in tops:
        path = os.path.join(root, top)
        if os.path.isfile(path):
            yield path
        for folder, dirs, names in os.walk(path):
            dirs[:] = sorted(d for d in dirs if d not in ("out", ".git", "target"))
            for name in sorted(names):
                if name.endswith(ends):
                    yield os.path.join(folder, name)


def read(path):
    with open(path, encoding="utf-8") as it:
        return it.read()


def declared(root):
    found = collections.defaultdict(set)
    for path in files(root, (".antt",), "crates"):
        for line in read(path).split("\n"):
            m = SIGNATURE.match(line)
            if m and not ASKED.search(m[2]) and not line.lstrip().startswith("--"):
                found[m[1]].add(os.path.relpath(path, root))
    return found


def table(names):
    rows = {name: name + "_lem" for name in LAWS if name in names}
    subjects = {spelled(n) for n in names if "-" not in n and n not in LAWS}
    for name in names:
        if re.match(r"[a-z]", name) and (re.search(r"[A-Z]", name) or "-" in name or "get_d" in name):
            if spelled(name) != name:
                rows[name] = spelled(name)
                if "-" in name and name not in FIXED and rows[name] in subjects:
                    rows[name] += "_lem"
    return rows


def words(text, rows):
    def turned(m):
        if m[0] in LAWS and text[m.start() - 1 : m.start()] == ".":
            return m[0]
        return rows.get(m[0], m[0])

    return TOKEN.sub(turned, text)


def prose(text, rows):
    """A comment: code spans, and bare words with a capital inside."""

    def span(m):
        return "`" + words(m[1], rows) + "`"

    def bare(m):
        return rows.get(m[0], m[0]) if re.search(r"[a-z][A-Z]", m[0]) and "-" not in m[0] else m[0]

    parts = re.split(r"(`[^`\n]*`)", text)
    return "".join(re.sub(r"`([^`]*)`", span, p) if p.startswith("`") else TOKEN.sub(bare, p) for p in parts)


def split(line, mark):
    """A line's code and its comment."""
    at = re.search(rf"(^|\s){mark}", line)
    return (line[: at.start()], line[at.start() :]) if at else (line, "")


def antt(text, rows):
    out = []
    for line in text.split("\n"):
        code, comment = split(line, "--")
        out.append(words(code, rows) + prose(comment, rows))
    return "\n".join(out)


def source(text, rows):
    rows = {k: v for k, v in rows.items() if k not in LAWS}
    out = []
    for line in text.split("\n"):
        code, comment = split(line, "//")
        pieces = re.split(r'("(?:[^"\\]|\\.)*")', code)
        out.append("".join(p if p.startswith('"') else words(p, rows) for p in pieces) + prose(comment, rows))
    return "\n".join(out)


def page(text, rows):
    return re.sub(r"`([^`\n]+)`", lambda m: "`" + words(m[1], rows) + "`", text)


def lent(text, own):
    """What a file imports from a library keeps its spelling there."""
    names = set()
    for m in re.finditer(r"\buse ([^\s;{]+)\{([^}]*)\}", text):
        steps = m[1].split(".")
        if steps[0] != "Rattle" or steps[1] not in own:
            names.update(re.split(r"\s+as\s+", w.strip())[0] for w in m[2].split(","))
    return names


def edit(text, rows):
    return "\n".join(words(l, rows) if re.match(r"(old|new):", l) else l for l in text.split("\n"))


def main(root):
    found = declared(root)
    rows = table(found)
    own = set(os.listdir(os.path.join(root, "crates")))
    pages = dict(rows)
    for name in found:
        if "_" in name:
            pages.setdefault(name.replace("_", "-"), name)
            pages.setdefault(re.sub(r"_([a-z])", lambda m: m[1].upper(), name), name)
    met = collections.defaultdict(set)
    for name in found:
        met[rows.get(name, name)].add(name)
    bad = 0
    for new, olds in sorted(met.items()):
        if len(olds) > 1:
            print(f"together, in files apart: {new}: {', '.join(sorted(olds))}")
    # two words of one file that become one
    for path in files(root, (".antt",), "crates"):
        if path.endswith("/Proof.antt"):
            continue
        there = collections.defaultdict(set)
        text = read(path)
        out = lent(text, own)
        here = {k: v for k, v in rows.items() if k not in out}
        for word in set(TOKEN.findall(re.sub(r"(?m)(^|\s)--.*$", "", text))):
            there[here.get(word, word)].add(word)
        for new, olds in sorted(there.items()):
            if len(olds) > 1:
                print(f"meets: {os.path.relpath(path, root)}: {' and '.join(sorted(olds))}")
                bad += 1
    if "--look" in sys.argv:
        return 0
    changed = 0
    kinds = [((".antt",), antt, "crates"), ((".rt",), source, "crates"), ((".edit",), edit, "crates"), ((".md",), page, "README.md", "docs")]
    for ends, turn, *tops in kinds:
        for path in files(root, ends, *tops):
            if "/landings/" in path:
                continue
            old = read(path)
            out = lent(old, own)
            here = pages if turn is page else {k: v for k, v in rows.items() if k not in out}
            new = turn(old, here)
            if new != old:
                with open(path, "w", encoding="utf-8") as it:
                    it.write(new)
                changed += 1
    print(f"{len(rows)} names, {changed} files changed, {bad} meet in a file")
    return 0


if __name__ == "__main__":
    sys.exit(main(next((a for a in sys.argv[1:] if not a.startswith("--")), ".")))
