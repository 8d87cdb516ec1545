#!/usr/bin/env python3
"""Spells the repository's own definitions and lemmas in snake case, once: `firstOffence` and `first-offence` become `first_offence`.

usage: python3 docs/history/port_names.py, at the top of the repository

A name turns if a file of specs/ or proofs/ declares it: in those files, in the clauses and `ghost use` items of src/, and in the code spans of pages.
What stays: types (they begin with a capital), imported names, labels that are made from the code (the first name behind `c.`, `w.`, `l.` or `goal.` in answers and invariants),
and every name of src/. A lemma that would fall together with the definition that it is of gets `_lem`. A second run changes nothing.
"""

import os
import re
import sys

TOKEN = re.compile(r'[^\s(){}.;,@"«»\[\]`]+')
DECLARED = re.compile(r"^\s*(?:(?:pub|abbrev|unfoldable)\s+)*([^\s(){}.;,@\"«»:λ=]+)(?:\s+\{[^{}\n]*\})*\s+:\s")
LET = re.compile(r"\blet ([a-z][\w-]*)(?: :| =)")
QUIET = re.compile(r'"(?:[^"\\\n]|\\.)*"|(?<![^\s(){}.;,@"«»])--[^\n]*')
RUST_QUIET = re.compile(r'//[^\n]*|"(?:\\.|[^"\\])*"|b?\'(?:\\.|[^\'\\])\'', re.S)
CLAUSE = re.compile(r"\b(?:requires|ensures|ghost)\s*\*?\s*(?:\w+\s*)?(?::\s*|=\s*)?\{")
GHOST_USE = re.compile(r"\bghost\s+use\b[^;]*;")
MADE = re.compile(r"(?:^|[^\w.'-])(?:c|w|l|g|goal)\d*\.$")
SPAN = re.compile(r"`[^`\n]+`")

# lemmas that would fall together with a definition
LEMMAS = "same-fact fact-in history-back method-at method-test is-check entry-test node-test is-return"
# the same, where port.py has turned the lemma already: in these files alone
TURNED = {
    "node_at": ("recipe/proofs/Scans", "recipe/proofs/WriteBack", "recipe/proofs/Layout/node_at/Answers"),
    "edge_test": ("recipe/proofs/Scans", "recipe/proofs/Layout/edge_fits/Answers"),
    "same_point": ("model/proofs/Held", "model/proofs/Telling"),
    "call_returns": ("model/proofs/Standing",),
    "in_use": ("inquiry/proofs/Wholes",),
}


def snake(name):
    name = name.replace("getD", "get_or")
    words = re.sub(r"(?<=[a-z0-9])[A-Z]", lambda m: "_" + m[0].lower(), name)
    return words.replace("-", "_")


def below(top, ending):
    for folder, folders, files in os.walk(top):
        folders[:] = sorted(f for f in folders if f != "out")
        yield from (os.path.join(folder, f) for f in sorted(files) if f.endswith(ending))


def read(path):
    with open(path, encoding="utf-8") as f:
        return f.read()


def table():
    own = set("derive-first derive-follow derive-enter derive-back nth-getD".split())
    for path in below("crates", ".antt"):
        for line in read(path).splitlines():
            m = DECLARED.match(line)
            if m and "goal." not in line:
                own.add(m[1])
            own.update(LET.findall(line))
    rows = {n: snake(n) for n in own if n[:1].isalpha() and n[0].islower() and snake(n) != n}
    rows.update({n: snake(n) + "_lem" for n in LEMMAS.split() if n in own})
    return rows, {rows.get(n, n) for n in own}


def turned(text, rows, answers):
    """The text of a file of specs/ or proofs/, or of a clause, with each word of the table turned."""

    def one(part, start):
        def word(m):
            before = part[: m.start()][-40:]
            if answers and "-" in m[0] and MADE.search(before):
                return m[0]
            if m[0] in rows and not (before.endswith(".") and rows[m[0]].endswith("_lem")):
                return rows[m[0]]
            return m[0]

        return TOKEN.sub(word, part)

    out, at = [], 0
    for m in QUIET.finditer(text):
        out += [one(text[at : m.start()], at), comment(m[0], rows)]
        at = m.end()
    return "".join(out + [one(text[at:], at)])


def comment(text, rows):
    """In prose only a name that no prose has: one with a capital inside."""
    return re.sub(r"\b[a-z]+[A-Z]\w*\b", lambda m: rows.get(m[0], m[0]), text)


def closing(text, at):
    depth = 1
    while depth:
        depth += {"{": 1, "}": -1}.get(text[at], 0)
        at += 1
    return at


def rust(text, rows):
    out, at = [], 0
    while at < len(text):
        quiet, use, clause = (p.match(text, at) for p in (RUST_QUIET, GHOST_USE, CLAUSE))
        if quiet:
            end, new = quiet.end(), comment(quiet[0], rows) if quiet[0][:2] == "//" else quiet[0]
        elif use:
            end, new = use.end(), turned(use[0], rows, False)
        elif clause and not re.match(r"\w", text[at - 1 : at]):
            end = closing(text, clause.end())
            new = turned(text[at:end], rows, False)
        else:
            end, new = at + 1, text[at]
        out.append(new)
        at = end
    return "".join(out)


def main():
    rows, declared = table()
    met = {}
    for old, new in rows.items():
        met.setdefault(new, []).append(old)
    for new, olds in sorted(met.items()):
        if len(olds) > 1:
            print(f"look: {' and '.join(sorted(olds))} fall together as {new}")
    changed = 0
    for ending in (".antt", ".rt", ".md"):
        for path in below("." if ending == ".md" else "crates", ending):
            old = read(path)
            here = dict(rows)
            for name, files in TURNED.items():
                if "nodeAt" in rows and any(path == f"crates/{f}.antt" for f in files):
                    here[name] = name + "_lem"
            if ending == ".antt":
                words = set(TOKEN.findall(QUIET.sub(" ", old)))
                for word in sorted(words):
                    if here.get(word) in words and here[word] not in here:
                        print(f"look: {path}: {word} meets {here[word]}")
                new = turned(old, here, path.endswith(("/Answers.antt", "/Invariants.antt")))
            elif ending == ".rt":
                new = rust(old, here)
            else:
                # (a page may have a name that port.py has turned in the code)
                page = lambda w: here.get(w[0]) or (snake(w[0]) if snake(w[0]) in declared else w[0])
                new = SPAN.sub(lambda m: TOKEN.sub(page, m[0]), old)
            if new != old:
                changed += 1
                with open(path, "w", encoding="utf-8") as f:
                    f.write(new)
    print(f"{len(rows)} names, {changed} files changed")


if __name__ == "__main__":
    sys.exit(main())
