#!/usr/bin/env python3
"""respell.py: spells this repository's own definitions, lemmas, fields and variables in snake case, after port.py.

usage: python3 tools/respell.py [--list]      at the top of the repository, once; --list only says what would be renamed

What is respelled: names with a small first letter that have a capital further on (isAnchor, is_anchor), and names with a
hyphen (same-length, same_length), where a text below crates/ declares them. What stays: names that a file imports from a
library, the names of goals and steps that the checker makes, Rust's own names, strings. In comments and in pages of docs/
a name is respelled where it stands between backticks. must-fail edits are respelled like the texts that they change.
"""
import collections
import os
import re
import sys

TOKEN = re.compile(r"[^\s(){}\[\].;,@\"«»`λ|=]+")
CAMEL = re.compile(r"^[a-z][a-z0-9_'-]*[A-Z]")
USE = re.compile(r"\buse ([^\s;{]+)(\{[^;}]*\})?(?: as ([^\s;]+))?")
# Where a lemma or a field would meet a definition, it gets a name of its own; the second row only in the folder that it names.
OTHER = {
    "at_first": ("crates/search/proofs/Ground", "at_first_lem"),
    "no-route": ("crates/search/", "no_route_lem"),
    "bytes-of": ("", "bytes_of_lem"),
    "edge-bytes": ("", "edge_bytes_lem"),
    "edge-cost": ("", "edge_cost_lem"),
    "edges-bytes": ("", "edges_bytes_lem"),
    "in-round": ("", "in_round_lem"),
    "least-from": ("", "least_from_lem"),
    "plan-edges": ("", "plan_edges_lem"),
    "route-words": ("", "route_words_lem"),
    "schedule-of": ("", "schedule_of_lem"),
    "work-words": ("", "work_words_lem"),
    "two-vertices": ("", "between_two_vertices"),
    "six-rounds": ("", "standard_six"),
    "silent-fork": ("", "silent_fork_case"),
}
MADE = re.compile(r"/proofs/.+/(Proof|Answers|Invariants)\.antt$")
DECLARED = re.compile(r"(?m)^ *(?:(?:pub|abbrev|unfoldable|private|constructor) )*([^\s:(){}]+)(?: \{[^{}\n]*\})* :(?=\s)")
BOUND = re.compile(r"[({]([^(){}:\n]+) : ")
LET = re.compile(r"(?:\blet|;|^)\s+([^\s(){}:=;]+) (?:=|:) ", re.M)
LAMBDA = re.compile(r"λ ([^.\n]*)\.")


def texts(*endings):
    for top in ("crates", "docs"):
        for folder, dirs, files in os.walk(top):
            dirs[:] = sorted(d for d in dirs if d != "out")
            for name in sorted(files):
                if name.endswith(endings):
                    yield os.path.join(folder, name)
    if ".md" in endings:
        yield "README.md"


def read(path):
    with open(path, encoding="utf-8") as f:
        return f.read()


def odd(word):
    return bool(CAMEL.match(word)) or ("-" in word and re.match(r"^[\w][\w'-]*[\w']$", word) is not None)


def snake(word):
    return re.sub(r"(?<=[a-z0-9'])[A-Z]", lambda m: "_" + m[0].lower(), word).replace("-", "_") if word[0].islower() else word.replace("-", "_")


def without_comments(text, path):
    mark = "//" if path.endswith(".rt") else "--"
    return re.sub(r"(?m)(^|\s)" + mark + r"( .*)?$", " ", text)


def imported(code):
    """The names that a file takes from a library."""
    found = set()
    for path, items, alias in USE.findall(code):
        if not path.startswith("Rattle.") or path.startswith(("Rattle.std.", "Rattle.core.")):
            found.update(TOKEN.findall(items) if items else [alias or path.split(".")[-1]])
    return found


def declared():
    names = collections.Counter()
    for path in texts(".antt", ".rt"):
        code = without_comments(read(path), path)
        found = set(TOKEN.findall(code))
        if path.endswith(".rt"):
            names.update(w for w in found if CAMEL.match(w))
            continue
        here = set()
        made = MADE.search(path)
        if not made:
            here.update(DECLARED.findall(code))
        for m in BOUND.findall(code) + LAMBDA.findall(code):
            here.update(TOKEN.findall(m))
        here.update(LET.findall(code))
        here.update(w for w in found if CAMEL.match(w))
        if made:
            here -= {m for m in DECLARED.findall(code)}
            here = {w for w in here if "-" not in w or w in LAMBDA.findall(code)}
        names.update(w for w in here - imported(code) if odd(w))
    return names


def respelled(text, path, table):
    code = without_comments(text, path)
    keep = imported(code) if not path.endswith((".md", ".edit")) else set()
    if MADE.search(path):
        keep |= {m for m in DECLARED.findall(code)}
    rows = {old: new for old, new in table.items() if old not in keep}
    rows.update((old, new) for old, (where, new) in OTHER.items() if path.startswith(where) and old not in keep)

    def word(m):
        return rows.get(m[0], m[0])

    def line(text_line, mark):
        at = re.search(r"(^|\s)" + mark + r"(\s|$)", text_line) if mark else None
        head, tail = (text_line, "") if not at else (text_line[: at.start()], text_line[at.start() :])
        head = "".join(part if k % 2 else TOKEN.sub(word, part) for k, part in enumerate(re.split(r'("(?:[^"\\]|\\.)*")', head)))
        return head + ticks(tail)

    def ticks(part):
        return re.sub(r"`[^`\n]*`", lambda m: TOKEN.sub(word, m[0]), part)

    if path.endswith(".md"):
        return ticks(text)
    if path.endswith(".edit"):
        out = []
        for it in text.split("\n"):
            out.append(line(it, None) if re.match(r"(old|new): ", it) else ticks(it))
        return "\n".join(out)
    mark = "//" if path.endswith(".rt") else "--"
    return "\n".join(line(it, mark) for it in text.split("\n"))


def main():
    names = declared()
    table = {w: snake(w) for w in names if snake(w) != w}
    meets = collections.defaultdict(set)
    for old, new in table.items():
        meets[new].add(old)
    for new, olds in sorted(meets.items()):
        if len(olds) > 1:
            print("fall together:", new, "<-", ", ".join(sorted(olds)))
    for path in texts(".antt", ".rt"):
        found = set(TOKEN.findall(without_comments(read(path), path)))
        here = {old for old in table if old in found}
        for old in sorted(here):
            if table[old] in found:
                print("stands already:", path, old, "->", table[old])
    if "--list" in sys.argv:
        for old, new in sorted(table.items()):
            print(old, new)
        return
    n = 0
    for path in texts(".antt", ".rt", ".edit", ".md"):
        text = read(path)
        new = respelled(text, path, table)
        if new != text:
            with open(path, "w", encoding="utf-8") as f:
                f.write(new)
            n += 1
    print(f"{len(table)} names respelled in {n} files")


main()
