#!/usr/bin/env python3
"""Counts the places of docs/DESIGN-PASS.md in src/: forms of an older Rattle for which today's has plainer ones.

usage: python3 tools/forms.py [--list] [POINT ..]        at the top of the repository

It counts shapes and judges nothing: a line is a place to look at, and the page says what became of it.
"""

import collections
import pathlib
import re
import sys

FN = re.compile(r"(?m)^([ ]*)(?:pub(?:\(crate\))? )?(?:const )?(?:extern \"C\" )?fn (\w+)")
WORD = re.compile(r"[A-Za-z_]\w*|\d+\w*|\"[^\"]*\"|\S")
KEEP = {"fn", "let", "mut", "if", "else", "match", "while", "for", "in", "return", "loop", "self", "as", "true", "false", "break"}
FAILS = {"Refused", "Unread", "Unreadable", "Garbled", "Long", "Full", "Ended", "Unfit", "Last", "Nothing", "End"}


def bare(text):
    """The text without comments and clauses."""
    text = re.sub(r"//.*", "", text)
    return re.sub(r"(?m)^\s*(?:requires|ensures|ghost use|#\[|#!\[).*\n", "", text)


def functions(text):
    """Each function of a file: name, parameters, body."""
    for m in FN.finditer(text):
        open_at = text.index("(", m.end())
        depth, i = 0, open_at
        while True:
            depth += {"(": 1, ")": -1}.get(text[i], 0)
            i += 1
            if not depth:
                break
        stop = text.find("\n" + m[1] + "}", i)
        body_at = text.find("{", i)
        if body_at < 0:
            continue
        line_end = text.find("\n", body_at)
        body = text[body_at:line_end] if "}" in text[body_at:line_end] and text[body_at:line_end].count("{") == text[body_at:line_end].count("}") else text[body_at:stop + len(m[1]) + 2]
        yield m[2], [" ".join(p.split()) for p in re.split(r",(?![^<\[(]*[>\])])", text[open_at + 1:i - 1]) if p.strip()], body


def structs(text):
    for m in re.finditer(r"(?ms)^(?:pub(?:\(crate\))? )?struct (\w+)[^;{]*\{(.*?)^\}", text):
        yield m[1], re.findall(r"(?m)^\s*(?:pub(?:\(crate\))? )?(\w+): (.*),$", m[2])


def enums(text):
    for m in re.finditer(r"(?ms)^(?:pub(?:\(crate\))? )?enum (\w+) \{(.*?)^\}", text):
        yield m[1], re.findall(r"(?m)^    (\w+)", m[2])


def shape(body):
    return " ".join(w if w in KEEP or not re.match(r"[\w\"]", w) else "x" for w in WORD.findall(body))


def count():
    found = collections.defaultdict(list)
    shapes, pairs = collections.defaultdict(list), collections.defaultdict(list)
    for path in sorted(pathlib.Path("crates").glob("*/src/*.rt")):
        where = f"{path.parts[1]}/{path.stem}"
        text = bare(path.read_text())
        for name, cases in enums(text):
            if FAILS & set(cases):
                found["1 own enums with a case for a failure"].append(f"{where} {name}")
        for name, fields in structs(text):
            kinds = dict(fields)
            for field, kind in fields:
                if kind == "bool" and len(fields) > 1:
                    found["1 flags beside other fields"].append(f"{where} {name}.{field}")
                if kind == "u8" and field in ("refusal", "kind", "fate", "shape", "number"):
                    found["1 fields with the number of a kind or a refusal"].append(f"{where} {name}.{field}")
            if len(fields) == 2 and kinds.get("next") == "Cursor":
                found["2 structs of a value and the next cursor"].append(f"{where} {name}")
            if any(k.startswith("[") for _, k in fields) and any(f in ("n", "len", "count", "used", "from", "at") and k in ("usize", "u32") for f, k in fields):
                found["6 arrays with a length beside"].append(f"{where} {name}")
            if sum(k.startswith("[") for _, k in fields) > 1:
                found["6 parallel arrays"].append(f"{where} {name}")
        for m in re.finditer(r"(?m)^(?:pub(?:\(crate\))? )?const (\w+): u8\b", text):
            found["1 constants of a kind's or a refusal's number"].append(f"{where} {m[1]}")
        for m in re.finditer(r"(?m)^\s*(?:while|loop)\b.*", text):
            found["3 loops that count or test by hand"].append(f"{where} {m[0].strip()}")
        for name, params, body in functions(text):
            at = f"{where} {name}"
            arms = re.findall(r"=> (.*)", body)
            if re.match(r"\{\s*match \w+ \{\s", body) and all(re.fullmatch(r"(?:[A-Z_0-9+ ]+|\w+::\w+|true|false),", a) for a in arms):
                found["4 conversions written as a match"].append(at)
            if re.fullmatch(r"same|eq|copy\w*|is_five|put_byte_run", name):
                found["4 equality and copying by name"].append(at)
            if re.search(r"match \w+ \{", body) and sum(bool(re.match(r"\w+\(.*\),$", a)) for a in arms) >= 3:
                found["7 switches over which step to run"].append(at)
            if body.count("\n") >= 4:
                shapes[shape(body)].append(at)
            for a, b in zip(params, params[1:]):
                pairs[f"{a}, {b}"].append(at)
    for group in shapes.values():
        if len(group) > 1:
            found["2 functions of the same shape"].append(" ~ ".join(group))
    for pair, users in pairs.items():
        if len(users) > 2:
            found["5 parameters that travel together in three functions or more"].append(f"{pair}: {len(users)}")
    for path in sorted(pathlib.Path("crates").glob("*/proofs/**/*.antt")):
        where = str(path.relative_to("crates"))
        found["8 files of proofs"].append(where)
        for m in re.finditer(r"(?m)^\w\S* .*= search rules$", path.read_text()):
            found["8 answers that say no more than search rules"].append(f"{where} {m[0]}")
    return found


def main():
    listed = "--list" in sys.argv
    points = [a for a in sys.argv[1:] if a != "--list"]
    for what, places in sorted(count().items()):
        if points and what[0] not in points:
            continue
        print(f"{len(places):5}  {what}")
        if listed:
            print(*(f"       {p}" for p in places), sep="\n")


main()
