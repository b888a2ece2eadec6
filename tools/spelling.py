#!/usr/bin/env python3
"""Gives the definitions and lemmas of specs/ and proofs/ the spelling of tools/spelling.tsv, wherever they are used.

usage: tools/spelling.py        at the top of the repository; rewrites files in place, and does nothing the second time

A row is old<TAB>new; where the old name is CRATE/NAME, it holds in that crate alone. Turned are: .antt files; in .rt files the `ghost use` lines,
the clauses and comments; in README.md, CONTRIBUTING.md and docs/*.md what stands in backticks. Left are strings, what Rattle makes (behind a dot, in Proof.antt
what the file itself declares) and what a file imports from a library.
"""

import os
import re

NAME = r'[^\s(){}.;,@"«»]+'
TOKEN = re.compile(rf'--[^\n]*|"(?:\\.|[^"\\\n])*"|«[^»\n]*»|{NAME}')
PART = re.compile(r"[^\s(){}.;,:@\"«»`!?…]+")
QUOTED = re.compile(r"`[^`\n]+`")
USE = re.compile(r"\buse ([^\s{};]+)\.\{([^}]*)\}|\buse ([^\s{};]+) as (\S+)")
# Modules that Rattle makes.
MADE = re.compile(r"\.(?:specs|proofs)\.[a-z_+]")
DECLARED = re.compile(rf"(?m)^ *(?:pub |abbrev |unfoldable )*({NAME}(?: {NAME})*) :\s")
# Fields of records of proofs/ that share their spelling with calls in Proof.antt: there they are meant behind a parenthesis only.
FIELDS = {"text-right", "extent-right"}
CLAUSE = re.compile(r"\b(?:requires|ensures)\*?(?:\s+\w+)?\s*\{|\bghost\s+\w+\s*:\s*\{")
LINE = re.compile(r"(?m)^[ \t]*//[^\n]*")
GHOST_USE = re.compile(r"\bghost use [^;]*;")
PAGES = ["README.md", "CONTRIBUTING.md"]


def is_own(path):
    return path.startswith("Rattle.") and not path.startswith(("Rattle.std.", "Rattle.core.")) and not MADE.search(path)


def in_code(text, table, proof):
    """A text of antt, each name of the table in its new spelling."""
    kept, meant, aliases = set(), set(), set()
    for m in USE.finditer(text):
        path, names, whole, alias = m.groups()
        if path:
            (meant if is_own(path) else kept).update(re.findall(NAME, names.replace(",", " ")))
        elif is_own(whole):
            aliases.add(alias)
    if proof:
        kept.update(n for m in DECLARED.finditer(text) for n in m[1].split() if "-" in n and n not in meant)

    def turn(m):
        old = m[0]
        if old.startswith("--"):
            return in_comment(old, table)
        new = table.get(old)
        if new is None or old[0] in '"«':
            return old
        at = m.start()
        if text[at - 1 : at] == ".":
            head = re.search(rf"({NAME}|\))\.$", text[:at][-80:])
            head = head[1] if head else ""
            if "-" in old and proof and head not in aliases and not head[:1].isupper() and not (head == ")" and old in FIELDS):
                return old
            return new
        return old if old in kept else new

    return TOKEN.sub(turn, text)


def in_comment(text, table):
    """A comment: camel case anywhere, dashes in backticks only."""
    text = PART.sub(lambda m: table.get(m[0], m[0]) if "-" not in m[0] else m[0], text)
    return QUOTED.sub(lambda q: PART.sub(lambda m: table.get(m[0], m[0]), q[0]), text)


def in_rust(text, table):
    """The `ghost use` lines and the clauses of a text of Rattle."""
    spans = [m.span() for m in GHOST_USE.finditer(text)]
    kept, aliases = set(), set()
    for m in CLAUSE.finditer(text):
        line = text.rfind("\n", 0, m.start()) + 1
        if "//" in text[line : m.start()]:
            continue
        depth, at = 1, m.end()
        while depth and at < len(text):
            depth += {"{": 1, "}": -1}.get(text[at], 0)
            at += 1
        spans.append((m.end(), at))
    for a, b in spans:
        for m in USE.finditer(text[a:b]):
            if m[1] and not is_own(m[1]):
                kept.update(re.findall(NAME, m[2].replace(",", " ")))
    said, last = [], 0
    for a, b in sorted(spans):
        if a < last:
            continue
        said += [text[last:a], re.sub(rf'//[^\n]*|{TOKEN.pattern}', lambda m: m[0] if m[0] in kept else table.get(m[0], m[0]), text[a:b])]
        last = b
    text = "".join(said) + text[last:]
    return LINE.sub(lambda m: in_comment(m[0], table), text)


def in_page(text, table):
    return QUOTED.sub(lambda q: PART.sub(lambda m: table.get(m[0], m[0]), q[0]), text)


def main():
    table, alone = {}, {}
    with open(os.path.join(os.path.dirname(os.path.abspath(__file__)), "spelling.tsv"), encoding="utf-8") as f:
        for line in f:
            old, new = line.rstrip("\n").split("\t")
            crate, _, name = old.partition("/")
            if name and crate.replace("_", "").isalnum():
                alone.setdefault(crate, {})[name] = new
            else:
                table[old] = new
    files = []
    for folder, folders, names in os.walk("crates"):
        folders[:] = sorted(d for d in folders if d not in ("out", "must-fail"))
        files += [os.path.join(folder, n) for n in sorted(names) if n.endswith((".antt", ".rt"))]
    files += PAGES + sorted(os.path.join("docs", n) for n in os.listdir("docs") if n.endswith(".md"))
    for path in files:
        if not os.path.isfile(path) or os.path.islink(path):
            continue
        with open(path, encoding="utf-8", newline="") as f:
            text = f.read()
        rows = table
        if path.startswith("crates"):
            rows = {**table, **alone.get(path.split(os.sep)[1], {})}
        if path.endswith(".md"):
            turned = in_page(text, rows)
        elif path.endswith(".rt"):
            turned = in_rust(text, rows)
        else:
            turned = in_code(text, rows, path.endswith("/Proof.antt") or "/Proof/" in path)
        if turned != text:
            with open(path, "w", encoding="utf-8", newline="") as f:
                f.write(turned)


main()
