"""wings.py [--write]: is what docs/ARCHITECTURE.md shows of the crates what crates.txt and the heads of the crates say?

crates.txt has a comment for each wing and a line for each crate; the head comment of a crate's lib.rt or main.rt says what is in it. The picture (wings, each
standing only on those below) and the table of the crates are made from both; --write puts them into the page.
"""
import pathlib
import re
import sys

ROOT = pathlib.Path(__file__).resolve().parent.parent
PAGE = ROOT / "docs/ARCHITECTURE.md"


def crates_of(text):
    """The wings in their order, each with its crates, and what each crate names."""
    wings, names = {}, {}
    for line in text.splitlines():
        if line.startswith("# ") and len(line) < 30:
            wing = wings.setdefault(line[2:].strip(), [])
        elif line and not line.startswith("#"):
            name, _, rest = line.replace(" staticlib:", ":").partition(":")
            wing.append(name)
            names[name] = rest.split()
    return wings, names


def head(name):
    source = next(p for p in (ROOT / "crates" / name / "src/lib.rt", ROOT / "crates" / name / "src/main.rt") if p.exists())
    lines = re.match(r"(?:// .*\n)+", source.read_text(encoding="utf-8"))[0]
    return re.sub(r"\n?// ", " ", lines).strip().split(". ")[0].rstrip(".") + "."


def picture(wings, names):
    home = {name: wing for wing, crates in wings.items() for name in crates}

    def level(name):
        return 1 + max((level(n) for n in names[name] if home.get(n) == home[name]), default=0)

    rows, done = [], []
    waiting = dict(wings)
    while waiting:
        for wing, crates in waiting.items():
            on = sorted({home[n] for c in crates for n in names[c] if n in home} - {wing}, key=list(wings).index)
            if all(w in done for w in on):
                break
        else:
            sys.exit("wings.py: the wings %s stand on each other in a circle" % ", ".join(waiting))
        ranks = {}
        for c in crates:
            ranks.setdefault(level(c), []).append(c)
        chain = " > ".join("  ".join(ranks[k]) for k in sorted(ranks, reverse=True))
        below = "on " + ", ".join(on) if on else ""
        # a long chain has what it stands on in a line of its own; rows are turned round in the end
        rows += ["%-24s%-60s%s" % (wing, chain, below)] if len(chain) < 60 else ["%-84s%s" % ("", below), "%-24s%s" % (wing, chain)]
        done.append(wing)
        del waiting[wing]
    return "\n".join(row.rstrip() for row in reversed(rows))


def table(wings, names):
    rows = ["| wing | crate | what | names |", "|---|---|---|---|"]
    for wing, crates in wings.items():
        rows += ["| %s | `%s` | %s | %s |" % (wing if c == crates[0] else "", c, head(c), " ".join("`%s`" % n for n in names[c])) for c in crates]
    return "\n".join(rows)


def parts(text):
    wings, names = crates_of(text)
    return {"picture": "```\n%s\n```" % picture(wings, names), "crates": table(wings, names)}


def put(page, made):
    for name, text in made.items():
        begin, end = "<!-- %s: tests/wings.py writes this -->" % name, "<!-- end of %s -->" % name
        if page.count(begin) != 1 or page.count(end) != 1:
            sys.exit("wings.py: docs/ARCHITECTURE.md has no place for the %s" % name)
        page = page[:page.index(begin) + len(begin)] + "\n" + text + "\n" + page[page.index(end):]
    return page


def main(words):
    listed = (ROOT / "crates.txt").read_text(encoding="utf-8")
    page = PAGE.read_text(encoding="utf-8")
    made = put(page, parts(listed))
    if words == ["--write"]:
        PAGE.write_text(made, encoding="utf-8")
        return 0
    if made != page:
        print("docs/ARCHITECTURE.md is not what crates.txt and the heads of the crates say: python3 tests/wings.py --write")
        return 1
    # a test of the test: with any one dependency left out, the page is another
    for name, rest in crates_of(listed)[1].items():
        for gone in rest:
            line = next(it for it in listed.splitlines() if re.match(r"%s( staticlib)?:" % name, it))
            less = "%s: %s" % (name, " ".join(n for n in rest if n != gone))
            if put(page, parts(listed.replace(line, less.rstrip()))) == page:
                print("wings.py does not see that %s no longer names %s" % (name, gone))
                return 1
    print("docs/ARCHITECTURE.md shows the crates as they are")
    return 0


if __name__ == "__main__":
    sys.exit(main(sys.argv[1:]))
