#!/usr/bin/env python3
"""Spells the definitions and lemmas of crates/ in snake case, once, right after the kit's port.py: asksFor becomes asks_for, and in specs/ answer-is becomes answer_is.

usage: python3 tools/port_names.py            at the top of the repository

A name is turned wherever it is a whole word: in .antt, in the clauses of .rt, in must-fail edits, and in the code spans of comments, README.md and docs/.
What stands in double quotes stays, and in prose a name with a dash that the programs print (cancel-all). Names of capitals (LI-START) and names of Rust stay. A dash stays where it joins two names in a lemma.
Names that fall together in one file are printed, and nothing is written.
"""

import os
import re
import sys

WORD = re.compile(r'[^\s(){}.;,@"«»]+')
DECLARED = re.compile(r'(?m)^\s*(?:(?:unfoldable|abbrev|opaque|record|data|inductive|pub)\s+)*([^\s(){}.;,@"«»]+)\s*:')
CAMEL = re.compile(r"(?<=[a-z0-9])([A-Z])(?=[a-z0-9]|$|[-'′])|(?<=[a-z0-9])([A-Z])")
# Where two names would fall together.
OWN = {"to-ground": "for_ground", "to-air": "for_air", "ofGround": "is_of_ground", "ofAir": "is_of_air", "left_after": "left_after_lem"}
QUOTED = re.compile(r'"(?:[^"\\\n]|\\.)*"')


def files(*endings):
    for folder, dirs, names in os.walk("crates"):
        dirs[:] = sorted(d for d in dirs if d != "out")
        for name in sorted(names):
            if name.endswith(endings):
                yield os.path.join(folder, name)


def read(path):
    with open(path, encoding="utf-8", newline="") as f:
        return f.read()


def code(text):
    """The text without its comments and quoted parts."""
    return re.sub(r"(?m)(^|\s)--.*$", "", QUOTED.sub('""', text))


def parts(path):
    """Names that stand in a file as a part of a path alone: a crate, a module, a function's folder."""
    text = code(read(path))
    inner = {w for path in re.findall(r"Rattle((?:\.[\w'-]+)+)\.", text) for w in path.split(".")}
    return {w for w in inner if not re.search(rf"(?<![\w.'-]){re.escape(w)}(?![\w.'-])", text)}


def snake(word):
    return re.sub(r"(?<=[a-z0-9])[A-Z]", lambda m: "_" + m[0].lower(), word)


def table():
    """Old and new spelling of each own name."""
    words, fields = set(), set()
    for path in files(".antt"):
        text = code(read(path))
        words.update(WORD.findall(text))
        if "/specs/" in path and "/laws/" not in path:
            fields.update(DECLARED.findall(text))
    rows = {w: snake(w) for w in words if re.match(r"[a-z]", w) and re.search(r"[a-z0-9][A-Z]", w)}
    for w in fields:
        if re.fullmatch(r"[a-z][a-z0-9]*(-[a-z0-9]+)+", w):
            rows[w] = w.replace("-", "_")
    rows.update({old: new for old, new in OWN.items() if old in words})
    return {old: new for old, new in rows.items() if old != new}


def printed():
    """The words that the code has in double quotes, and those of the examples."""
    words = set()
    for path in files(".rt", ".antt"):
        for part in QUOTED.findall(read(path)):
            words.update(re.findall(r"[a-z][\w-]*", part))
    for top in ("examples", "tests"):
        for folder, _, names in os.walk(top):
            for name in names:
                if name.endswith((".script", ".trace", ".flight")):
                    with open(os.path.join(folder, name), encoding="latin-1") as f:
                        words.update(re.findall(r"[a-z][\w-]*", f.read()))
    return words


def turned(text, rows, shown, comment=r"--"):
    """Turns words outside double quotes; in a comment those of code spans."""
    out = []
    for line in text.split("\n"):
        if line.startswith(("wrong:", "at:")):
            out.append(line)
            continue
        at = re.search(rf"(^|\s){comment}", line)
        cut = at.start() if at else len(line)
        head, tail = line[:cut], line[cut:]
        parts, last = [], 0
        for q in QUOTED.finditer(head):
            parts += [WORD.sub(lambda m: rows.get(m[0], m[0]), head[last : q.start()]), q[0]]
            last = q.end()
        parts.append(WORD.sub(lambda m: rows.get(m[0], m[0]), head[last:]))
        out.append("".join(parts) + spans(tail, shown))
    return "\n".join(out)


def spans(text, rows):
    """Turns names in code spans."""
    names = re.compile(r"(?<![\w\"'-])[a-z][\w'-]*")
    in_span = lambda m: names.sub(lambda n: rows.get(n[0], n[0]), m[0])
    in_any = lambda m: re.sub(r"(?<![\w\"'.-])[a-z]+[a-z0-9]*(?:[A-Z][a-z0-9]*)+(?![\w.(])", lambda n: snake(n[0]), in_span(m))
    return re.sub(r"`[^`\n]*`", in_any, text)


def main():
    rows = table()
    together = 0
    for path in files(".antt"):
        words = set(WORD.findall(code(read(path))))
        for old in sorted(words & rows.keys()):
            if rows[old] in words and rows[old] not in rows and rows[old] not in parts(path):
                print(f"{path}: {old} and {rows[old]}")
                together += 1
        news = {}
        for old in words & rows.keys():
            news.setdefault(rows[old], []).append(old)
        for new, olds in news.items():
            if len(olds) > 1:
                print(f"{path}: {' and '.join(sorted(olds))} become {new}")
                together += 1
    if together or "--check" in sys.argv:
        print(f"{len(rows)} names, {together} together")
        return
    changed, words = 0, printed()
    shown = {old: new for old, new in rows.items() if old not in words}
    for path in files(".antt", ".rt", ".edit"):
        text = read(path)
        new = turned(text, rows, shown, r"//" if path.endswith(".rt") else r"--")
        if new != text:
            changed += 1
            with open(path, "w", encoding="utf-8", newline="") as f:
                f.write(new)
    pages = ["README.md"] + [os.path.join(d, n) for d, _, ns in os.walk("docs") for n in ns if n.endswith(".md")]
    for path in pages:
        text = read(path)
        new = spans(text, shown)
        if new != text:
            changed += 1
            with open(path, "w", encoding="utf-8", newline="") as f:
                f.write(new)
    print(f"{len(rows)} names, {changed} files")


main()
