#!/usr/bin/env python3
"""Brings the repository's own definitions and lemmas to snake case: words of specs/ and proofs/ in camel case or with dashes.

usage: python3 tools/respell.py [--dry]      at the top of the repository, once, after the port's own script

It collects what the .antt files define (words, constructors, fields, lemmas; no goals, whose names the check makes), and renames each where it
stands: in .antt files everywhere, in .rt files outside strings (names with a dash outside comments too), in pages only between backticks.
It stops, with nothing written, where two names of an .antt file would fall together.
"""

import collections
import os
import re
import sys

# where plain snake case would fall together with another name of the same files: a lemma named as its function gets `_lem`
OTHERWISE = [
    ("crates/coherence/", "let-go", "letting_go"),
    ("crates/coherence/proofs/", "of_owner", "of_an_owner"),
    ("crates/directory/proofs/", "reader-apart", "reader_apart_lem"),
    ("crates/keys/proofs/", "first-from", "first_from_lem"),
    ("crates/lawful/proofs/", "down_by", "down_by_lem"),
    ("crates/lawful/proofs/", "down-from", "down_from_lem"),
    ("crates/lawful/proofs/", "let-go-by", "let_go_by_lem"),
    ("crates/lawful/proofs/", "let-go-in", "let_go_in_lem"),
    ("crates/lawful/proofs/", "start-by", "start_by_lem"),
    ("crates/lawful/proofs/", "start-in", "start_in_lem"),
    ("crates/lawful/proofs/", "take-up-by", "take_up_by_lem"),
    ("crates/lawful/proofs/", "up_by", "up_by_lem"),
    ("crates/lawful/proofs/", "up-from", "up_from_lem"),
    ("crates/lawful/proofs/", "down-kinds", "down_kinds_lem"),
    ("crates/lawful/proofs/", "up-kinds", "up_kinds_lem"),
    ("crates/lawful/proofs/", "taken-up", "after_take_up"),
    ("crates/lawful/proofs/Lanes.antt", "lanes-empty", "lanes_empty_lem"),
    ("crates/lawful/proofs/Lawful.antt", "lanes-empty", "lanes_empty_lem"),
    ("crates/lawful/proofs/", "rows-calm", "rows_calm_lem"),
    ("crates/lawful/proofs/", "no-messages", "no_messages_lem"),
    ("crates/pool/proofs/", "no-messages", "no_messages_lem"),
    ("crates/lawful/proofs/", "none-wait", "none_wait_lem"),
    ("crates/lawful/proofs/", "sent-down", "sent_down_lem"),
    ("crates/lawful/proofs/", "in-exclusive", "in_exclusive_lem"),
    ("crates/lawful/proofs/", "in-invalid", "in_invalid_lem"),
    ("crates/lawful/proofs/", "in-shared", "in_shared_lem"),
    ("crates/lawful/proofs/", "serves_on", "serves_on_lem"),
    ("crates/lawful/proofs/", "takes_first", "takes_first_lem"),
    ("crates/lawful/proofs/", "takes-up", "takes_up_lem"),
]

HEAD = re.compile(r"^(\s*)((?:pub |abbrev |unfoldable |data |record |opaque |rec )*)([A-Za-z][A-Za-z0-9_'-]*)\s+(?:\{[^}]*\}\s*|\([^)]*\)\s*)*:\s")
TOKEN = re.compile(r"(?<![A-Za-z0-9_'ℕ-])[A-Za-z][A-Za-z0-9_'-]*")
STRING = re.compile(r'"(?:[^"\\]|\\.)*"')
TICKS = re.compile(r"`[^`\n]*`")


def snake(name):
    return re.sub(r"(?<=[a-z0-9])([A-Z])", lambda m: "_" + m.group(1).lower(), name).replace("-", "_")


def names_for(path, names):
    """The names of a file: the general ones, with what OTHERWISE says of its folder."""
    return names | {old: new for start, old, new in OTHERWISE if path.startswith(start)}


def files(*endings):
    for top in ("crates", "docs", "README.md"):
        if os.path.isfile(top):
            if top.endswith(endings):
                yield top
            continue
        for folder, dirs, names in os.walk(top):
            dirs[:] = sorted(d for d in dirs if d != "out")
            for n in sorted(names):
                if n.endswith(endings):
                    yield os.path.join(folder, n)


def read(path):
    with open(path, encoding="utf-8") as f:
        return f.read()


def own_names():
    found = set()
    for p in files(".antt"):
        for line in read(p).split("\n"):
            m = HEAD.match(line)
            if m and ": goal." not in line:
                found.add(m.group(3))
    return {n: snake(n) for n in found if n[0].islower() and snake(n) != n}


def turned(text, names, comment):
    """Tokens outside strings; a name with a dash is none in a comment, where it may be plain words."""
    strings = [m.span() for m in STRING.finditer(text)] if comment == "//" else []

    def turn(m):
        if m.group(0) not in names or any(a <= m.start() < b for a, b in strings):
            return m.group(0)
        line = text.rfind("\n", 0, m.start()) + 1
        if "-" in m.group(0) and comment in text[line : m.start()] and text[m.start() - 1] != "`":
            return m.group(0)
        return names[m.group(0)]

    return TOKEN.sub(turn, text)


def in_page(text, names):
    return TICKS.sub(lambda t: TOKEN.sub(lambda m: names.get(m.group(0), m.group(0)), t.group(0)), text)


def clashes(names):
    """Names of an .antt file that would fall together. In .rt files a word may be named as the function that it describes."""
    for p in files(".antt"):
        here = names_for(p, names)
        text = re.sub(r"(?m)(^| )--( .*)?$", "", read(p))
        text = re.sub(r"Rattle(?:\.[A-Za-z0-9_+']+)+", "", text)
        became = collections.defaultdict(set)
        for t in set(TOKEN.findall(text)):
            became[here.get(t, t)].add(t)
        for new, olds in sorted(became.items()):
            if len(olds) > 1:
                yield p, new, sorted(olds)


def main():
    names = own_names()
    found = list(clashes(names))
    for p, new, olds in found:
        print(f"{p}: {new} would be {', '.join(olds)}")
    if found or "--dry" in sys.argv:
        print(f"{len(names)} names, {len(found)} clashes")
        raise SystemExit(1 if found else 0)
    n = 0
    for p in files(".antt", ".rt", ".edit", ".md"):
        old = read(p)
        here = names_for(p, names)
        new = in_page(old, here) if p.endswith(".md") else turned(old, here, "--" if p.endswith(".antt") else "//")
        if new != old:
            n += 1
            with open(p, "w", encoding="utf-8") as f:
                f.write(new)
    print(f"{len(names)} names, {n} files")


main()
