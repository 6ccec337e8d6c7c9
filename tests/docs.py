"""docs.py: does what the documents say of files still hold? Every path in them exists, and a name that stands right before a path stands in that file.
Of docs/PROMISES.md every name of two words or more (a_b, a-b) stands in some crate, in a test or in the header.
"""
import pathlib
import re
import sys

ROOT = pathlib.Path(__file__).resolve().parent.parent
FILE = r"(?:crates/)?([a-z_]+/(?:src|specs|proofs|must-fail)(?:/[\w/]+\.(?:rt|antt))?)\b"
OTHER = re.compile(r"`((?:docs|tests|examples|include|speed)/[\w./-]+)`")
NAMED = re.compile(r"((?:`[^`\s]+`,? (?:and )?)+)\(?`?" + FILE)


def faults(page, text):
    for m in re.finditer(r"(?<![\w/.])" + FILE, text):
        if not (ROOT / "crates" / m[1]).exists():
            yield "%s: there is no crates/%s" % (page, m[1])
    for m in OTHER.finditer(text):
        if "/out/" not in m[1] and not (ROOT / m[1]).exists():
            yield "%s: there is no %s" % (page, m[1])
    for m in NAMED.finditer(text):
        path = ROOT / "crates" / m[2]
        if path.suffix and path.exists():
            source = path.read_text(encoding="utf-8")
            for name in re.findall(r"`(?:\w+::)*([\w-]+)`", m[1]):
                if not re.search(r"(?<![\w-])%s(?![\w-])" % re.escape(name), source):
                    yield "%s: crates/%s has no %s" % (page, m[2], name)


def words():
    """Every name of the crates, the tests and the header."""
    files = [f for top, ending in (("crates", "rt"), ("crates", "antt"), ("tests", "py"), ("include", "h")) for f in (ROOT / top).rglob("*." + ending)]
    return {f.parent.name for f in files} | {w for f in files for w in re.findall(r"[\w'-]+", f.read_text(encoding="utf-8"))} | {f.name for f in (ROOT / "crates").iterdir()}


def unknown(page, text, known):
    for span in re.findall(r"`([^`\n]+)`", text):
        for name in re.findall(r"(?<![\w'./-])[A-Za-z]\w*(?:[-_][\w'-]*\w)(?![\w./])", span):
            if name not in known:
                yield "%s: nothing is named %s" % (page, name)


def main():
    found, paths = [], 0
    for page in [ROOT / "README.md", *sorted((ROOT / "docs").rglob("*.md")), *sorted(ROOT.glob("*/README.md"))]:
        text = page.read_text(encoding="utf-8")
        found += faults(page.relative_to(ROOT), text)
        paths += len(re.findall(FILE, text)) + len(OTHER.findall(text))
    promises = ROOT / "docs/PROMISES.md"
    found += unknown(promises.relative_to(ROOT), promises.read_text(encoding="utf-8"), words())
    # a test of the test
    made = "`no-such-law`, ground/proofs/Demand3.antt; ground/proofs/None.antt; `tests/none.py`"
    if len(list(faults("made", made))) != 3 or len(list(unknown("made", made, set()))) != 1:
        found.append("docs.py does not find its own mistakes")
    print(*found, "%d paths in the documents, %d faults" % (paths, len(found)), sep="\n")
    return len(found) > 0


if __name__ == "__main__":
    sys.exit(main())
