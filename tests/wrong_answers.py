"""wrong_answers.py [CRATE | CRATE/SHEET ..]: is each wrong answer in the must-fail edits refused at its own place?

An edit is a sheet of wrong answers, so that a crate is proved once for all of them, and rt is content when any one is refused. So each says where it is refused:

    wrong: a level is written from -74                         (a sentence)
    at: proofs/position/write_position                         (the folder of a function's proof, or the file of a lemma; a line for each)
    file: src/position.rt
    old: p.signed(out, level, 75, 10000)
    new: p.signed(out, level, 74, 10000)

Every public function that states a result has a wrong answer, and those that a user or a host calls have two.

rt tells one error of an edit and keeps no log. So each sheet is tried here once more, on a copy of its crate, over the libraries that rt ci (or rt check) has built and
over what a check of the crate as it stands proved. Refused at a place means that an error of its own stands there: a fact that fails, a goal that the search for a
proof no longer closes. What only follows from another error is none, and neither is a name that the proof no longer finds:

- a goal has its name from the source (returns-then-n-lt8). Where a wrong answer changes that name, the proof is tried again with the new one;
- a function that calls another wrong one may not be tried at all. So the wrong answers that were not refused are tried again without the others, and at last alone.

What a sheet came to is kept in .cache/ads-wrong-answers of the user, by the sum of all that it stands on; what is kept is not tried again. --anew tries all.

--places         prints the places of each edit as the check has them, for a new wrong answer
--self-test      makes a small repository with a sheet of each fault, and wants each fault found
--jobs N         tries N sheets at a time
Exit status 1 where there is a fault.
"""
import concurrent.futures
import contextlib
import difflib
import hashlib
import json
import os
import pathlib
import pwd
import re
import shutil
import signal
import subprocess
import sys
import tempfile
import threading

import kit

# Raise it where the same log is to be read otherwise.
FORM = 1
KEPT = pathlib.Path(pwd.getpwuid(os.geteuid()).pw_dir) / ".cache/ads-wrong-answers"

# ---- what a check says

ERROR = re.compile(r"(?:\./)?(\S+?):\d+:\d+: error: (.*)")
FUNCTION = re.compile(r"fn \w+::(\S+): (.*)")
OPEN_GOAL = re.compile(r"note: (?:\./)?src/\S+?:\d+:\d+: .*\(`[^`]*`\)")
FOLLOWS = "was not admitted"
UNFIT = re.compile(r"that can be named from here|has no field|is not in scope|has no `")
FALSE = "allow values at which this goal is false"
PROOF = re.compile(r"(proofs/.+)/(?:Answers|Invariants|Proof)\.antt")


def place_of(path):
    """A function's proof is its folder, whichever file of it is meant."""
    m = PROOF.fullmatch(path)
    return m[1] if m else path


class Said:
    """What a check says of an edited crate: the places with an error of their own, those whose proof does not find a name, and which names these are."""

    def __init__(self, log):
        self.own, self.unfit, self.missing, goals, lost = {}, {}, {}, [], []
        for line in log.splitlines():
            if m := ERROR.match(line):
                if FOLLOWS in m[2]:
                    continue
                place = place_of(m[1])
                (self.unfit if UNFIT.search(m[2]) else self.own).setdefault(place, line[:300])
                if n := re.search(r"has no field `([^`]+)`(?: \(nearest: ([^)]*)\))?", m[2]):
                    self.miss(place, n[1], re.findall(r"\.([^\s,]+)", n[2] or ""))
                elif n := re.search(r"has no `([^`]+)`(.*)", m[2]):
                    self.miss(place, n[1], re.findall(r"`([^`]+)`", n[2]))
            elif OPEN_GOAL.match(line):
                goals.append(line)
            elif m := FUNCTION.match(line):
                place = "proofs/" + m[1].replace("::", "/")
                false = [g for g in goals if FALSE in g]
                if m[2].startswith(("no proof: expected", "not proved")) and goals and (false or place not in self.unfit):
                    self.own.setdefault(place, (false or goals)[0][:300])
                lost, goals = place, []
            elif lost and (m := re.match(r"help: `Goals` has no `([^`]+)`; rattle asks for ([^;]*)(.*)", line)):
                self.miss(lost, m[1], re.findall(r"`([^`]+)`", m[2] + m[3]))
        for place in self.own:
            self.unfit.pop(place, None)

    def miss(self, place, name, others):
        self.missing.setdefault(place, {}).setdefault(name, []).extend(others)

    def renamed(self, place, text):
        """The text of a proof with the names that it does not find turned into the nearest that are there."""
        for name, others in self.missing.get(place, {}).items():
            has = set(re.findall(r"[^\s(){}.;,@\"]+", text))
            near = difflib.get_close_matches(name, [o for o in others if o not in has], 1, 0.6)
            if near:
                text = renamed(text, name, near[0])
        return text


def renamed(text, old, new):
    """Each name that has the part in which two names differ, between the same neighbours, with the other part."""
    a, b = old.split("-"), new.split("-")
    front = 0
    while front < min(len(a), len(b)) - 1 and a[front] == b[front]:
        front += 1
    back = 0
    while back < min(len(a), len(b)) - front - 1 and a[-1 - back] == b[-1 - back]:
        back += 1
    before, after = a[front - 1:front] if front else [], a[len(a) - back:len(a) - back + 1] if back else []
    was, to = "-".join(before + a[front:len(a) - back] + after), "-".join(before + b[front:len(b) - back] + after)
    return re.sub(r"(?<![\w'])((?:[\w']+-)*)%s(?![\w'%s])" % (re.escape(was), "" if after else "-"), lambda m: m[1] + to, text)


# ---- sheets

class Answer:
    def __init__(self, sentence):
        self.sentence, self.places, self.changes = sentence, [], []


def answers_of(edit):
    """The wrong answers of a sheet, and whether a change stands before the first one."""
    answers, loose, path, old = [], False, "", None
    for line in edit.read_text(encoding="utf-8").splitlines():
        if line.startswith("wrong: "):
            answers.append(Answer(line[7:].strip()))
        elif line.startswith("at: ") and answers:
            answers[-1].places.append(line[4:].strip())
        elif line.startswith("file: "):
            path = line[6:].strip()
        elif line.startswith("old: "):
            old = line[5:]
        elif line.startswith("new:") and old is not None:
            if answers:
                answers[-1].changes.append((path, old, line[4:].removeprefix(" ")))
            else:
                loose = True
            old = None
    return answers, loose


def edited(folder, answers):
    """The texts of the files that these wrong answers change."""
    texts = {}
    for path, old, new in (change for answer in answers for change in answer.changes):
        if path not in texts:
            texts[path] = (folder / path).read_text(encoding="utf-8")
        if texts[path].count(old) != 1:
            raise ValueError("this stands in %s %d times, not once: %s" % (path, texts[path].count(old), old))
        texts[path] = texts[path].replace(old, new)
    return texts


class Sheets:
    """The sheets of a repository, and what their tries come to."""

    def __init__(self, root, wanted=(), anew=False, jobs=None, at=KEPT):
        self.repository, self.anew, self.at, self.jobs = kit.Repository(root), anew, at, jobs or processes()
        self.edits = [(c, e) for c in self.repository.crates.values() for e in sorted((c.folder / "must-fail").glob("*.edit"))
                      if not wanted or c.name in wanted or "%s/%s" % (c.name, e.stem) in wanted]
        self.sums, self.seeds, self.listings, self.locks = {}, {}, {}, {c.name: threading.Lock() for c, _ in self.edits}

    # what is kept

    def sum_of(self, crate, seen):
        """A sum of all that a check of the crate reads."""
        if crate.name not in seen:
            sum = hashlib.sha256(repr((crate.name, crate.is_static, crate.named)).encode())
            for file in kit.files_of(crate.folder):
                sum.update(repr((str(file.relative_to(crate.folder)), file.read_bytes())).encode())
            sum.update(repr([self.sum_of(it, seen) for it in crate.libraries()[0]]).encode())
            seen[crate.name] = sum.hexdigest()
        return seen[crate.name]

    def kept(self, crate, edit, seen):
        told = [(kit.kit() / name).read_text() for name in ("KIT-ID", "WHAT")]
        return self.at / hashlib.sha256(repr((FORM, told, self.sum_of(crate, seen), edit.read_bytes())).encode()).hexdigest()

    # tries

    def seed(self, crate, room):
        """What a check of the crate as it stands proved, or why there is none."""
        with self.locks[crate.name]:
            if crate.name not in self.seeds:
                self.seeds[crate.name] = self.make_seed(crate, room / (crate.name + "-seed"))
            return self.seeds[crate.name]

    def make_seed(self, crate, seed):
        if not crate.is_over_what_stands() and not crate.make_libraries():
            return None, "a library below it is not proved"
        own = crate.folder / "out/incremental"
        if own.is_dir():
            linked(own, seed)
        else:
            seed.mkdir()
        ran = check(crate, {}, seed, seed.with_name(crate.name + "-own"))
        if ran.returncode:
            return None, "as it stands it is not proved: %s" % first(ran.stdout)
        self.listings[crate.name] = listing(seed)
        return seed, ""

    def one(self, crate, edit, answers, seed, room):
        """What a check says of the crate with these wrong answers."""
        texts, place = edited(crate.folder, answers), room / ("%s-%s-%d" % (crate.name, edit.stem, threading.get_ident()))
        over = place.with_name(place.name + "-over")
        linked(seed, over)
        try:
            for _ in range(4):
                ran = check(crate, texts, over, place)
                if listing(seed) != self.listings[crate.name]:
                    raise ValueError("what the crate's own check kept was changed: try again")
                if ran.returncode == 0:
                    return Said("")
                if ran.returncode != 1 or not last(ran.stdout).startswith("logic=not-proved"):
                    raise ValueError("the check came to nothing, status %d: %s" % (ran.returncode, first(ran.stdout)))
                said, turned = Said(ran.stdout), {}
                for unfit in said.unfit:
                    for file in sorted((crate.folder / unfit).glob("*.antt")) if (crate.folder / unfit).is_dir() else ():
                        path = str(file.relative_to(crate.folder))
                        text = texts.get(path) or file.read_text(encoding="utf-8")
                        if (new := said.renamed(unfit, text)) != text:
                            turned[path] = new
                if not turned:
                    return said
                texts.update(turned)
            return said
        finally:
            shutil.rmtree(over, ignore_errors=True)

    def tried(self, crate, edit, room):
        """The places at which a sheet is refused, each with an error, and those whose proof does not fit; or why nothing is known."""
        file = self.kept(crate, edit, self.sums)
        if not self.anew and file.is_file():
            return json.loads(file.read_text(encoding="utf-8"))
        seed, why = self.seed(crate, room)
        if not seed:
            return {"nothing": why}
        answers, own, unfit = answers_of(edit)[0], {}, {}
        try:
            todo, turns = [answers], 0
            while todo:
                group = todo.pop(0)
                said = self.one(crate, edit, group, seed, room)
                own, unfit, turns = {**said.own, **own}, {**unfit, **said.unfit}, turns + 1
                rest = [a for a in group if not set(a.places) <= set(own)]
                if rest and len(rest) < len(group):
                    todo.append(rest)
                elif len(rest) > 1:
                    todo += [[a] for a in rest]
        except (OSError, ValueError) as error:
            return {"nothing": str(error)}
        found = {"own": own, "unfit": {p: e for p, e in unfit.items() if p not in own}, "turns": turns}
        # (unless a file was changed meanwhile)
        with contextlib.suppress(OSError):
            if file != self.kept(crate, edit, {}):
                return found
            self.at.mkdir(parents=True, exist_ok=True)
            new = self.at / ("%s.%d" % (file.name, threading.get_ident()))
            new.write_text(json.dumps(found), encoding="utf-8")
            new.replace(file)
        return found

    def all(self):
        """What each sheet came to, in their order."""
        with tempfile.TemporaryDirectory(prefix="wrong-answers-") as room, concurrent.futures.ThreadPoolExecutor(self.jobs) as pool:
            room = pathlib.Path(room)
            lines = {c.name: sum(f.read_bytes().count(b"\n") for f in kit.files_of(c.folder)) for c, _ in self.edits}
            # the largest first
            order = sorted(range(len(self.edits)), key=lambda i: -lines[self.edits[i][0].name])
            tries = {i: pool.submit(self.tried, *self.edits[i], room) for i in order}
            return [(crate, edit, tries[i].result()) for i, (crate, edit) in enumerate(self.edits)]


def processes():
    """One for each processor, where each has 3 GB."""
    found = re.search(r"MemAvailable:\s+(\d+)", pathlib.Path("/proc/meminfo").read_text())
    return max(1, min(len(os.sched_getaffinity(0)), int(found[1]) // 3_000_000))


def first(text):
    """The first line that says what is wrong."""
    return next((line for line in text.split("\n") if ": error" in line or ": no proof" in line), last(text))[:300]


def last(text):
    return (text.rstrip("\n").split("\n") or [""])[-1][:300]


def linked(folder, to):
    """A copy of what a check keeps; the checked modules by links, as a check replaces such a file and changes none."""

    def copy(one, other):
        if one.endswith(".oantt"):
            try:
                return os.link(one, other)
            except OSError:
                pass
        return shutil.copy2(one, other)

    shutil.copytree(folder, to, copy_function=copy)


def listing(folder):
    """What tells whether a file of the folder was changed, lost or added."""
    return sorted((str(it), it.lstat().st_ino, it.lstat().st_size, it.lstat().st_mtime_ns) for it in folder.rglob("*") if not it.is_dir())


def check(crate, texts, over, place):
    """Checks a copy of the crate with these texts in place of its own, over what an earlier check kept."""
    try:
        for part in kit.PARTS:
            if (crate.folder / part).is_dir():
                shutil.copytree(crate.folder / part, place / part)
        for path, text in texts.items():
            (place / path).write_text(text, encoding="utf-8")
        words = [*crate.words("check"), "--jobs", "1", "--incremental", str(over)]
        how = {"cwd": place, "stdin": subprocess.DEVNULL, "stdout": subprocess.PIPE, "stderr": subprocess.STDOUT, "text": True, "errors": "replace"}
        ran = subprocess.run(words, **how)
        # (killed, most likely for memory)
        return subprocess.run(words, **how) if ran.returncode == -signal.SIGKILL else ran
    finally:
        shutil.rmtree(place, ignore_errors=True)


# ---- the judgement

def faults_of(edit, found):
    if "nothing" in found:
        return ["NOT TRIED: %s" % found["nothing"]]
    own, unfit = found["own"], found["unfit"]
    answers, loose = answers_of(edit)
    named = [place for answer in answers for place in answer.places]
    faults = ["a replacement belongs to no wrong answer"] if loose or not answers else []
    for answer in answers:
        if not answer.changes:
            faults.append("changes nothing: %s" % answer.sentence)
        if not answer.places:
            faults.append("names no place: %s" % answer.sentence)
        faults += ["NOT REFUSED at %s: %s" % (place, answer.sentence) for place in sorted(set(answer.places) - set(own) - set(unfit))]
    faults += ["two wrong answers share %s" % place for place in sorted(set(named)) if named.count(place) > 1]
    faults += ["refused at %s, which no wrong answer names" % place for place in sorted(set(own) - set(named))]
    faults += ["the proof does not fit the code: %s" % place for place in sorted(unfit)]
    return faults


# What a user or a host calls: the whole of these crates, and the root of `pdu`.
CALLED = {"adschost", "adschost_c", "air", "air_bench", "bench", "ground", "ground_lent", "pdu_reader"}
FUNCTION_HEAD = re.compile(r'^( *)(?:pub )?(?:extern "C" )?fn (\w+)')
# Where functions stand: with a type, for one of the repository's traits, whose clauses they have without a word, or in such a trait.
IMPL = re.compile(r"impl(?:<[^>]*>)? (?:(\w+) for )?(\w+)")
TRAIT = re.compile(r"pub trait (\w+)")


def contracts_of(source, traits):
    """The public functions of a file that state a result, as paths below the module."""
    found, home, stated, lines = [], "", False, source.read_text(encoding="utf-8").splitlines()
    for i, line in enumerate(lines):
        if m := IMPL.match(line):
            home, stated = m[2] + (m[1] or ""), m[1] in traits
        elif m := TRAIT.match(line):
            home, stated = m[1], None
        elif m := FUNCTION_HEAD.match(line):
            end = next(k for k in range(i, len(lines)) if lines[k] in (m[1] + "{", m[1] + "}") or lines[k].endswith(";"))
            clauses, body = any(h.lstrip().startswith("ensures") for h in lines[i:end]), lines[end] == m[1] + "{"
            if m[1] and stated or clauses and (line.lstrip().startswith("pub ") or m[1] and stated is None and body):
                found.append("/".join(([home] if m[1] else []) + [m[2]]))
    return found


def untried(sheets):
    """Public contracts with too few wrong answers."""
    tried = [(crate.name, place) for crate, edit in sheets.edits for answer in answers_of(edit)[0] for place in answer.places]
    traits = {m[1] for source in sheets.repository.root.glob("crates/*/src/*.rt") for m in TRAIT.finditer(source.read_text(encoding="utf-8"))}
    for source in sorted(sheets.repository.root.glob("crates/*/src/*.rt")):
        crate, module = source.parent.parent.name, "" if source.stem in ("lib", "main") else source.stem + "/"
        for function in contracts_of(source, traits):
            want = 2 if crate in CALLED or (crate, module) == ("pdu", "") else 1
            have = tried.count((crate, "proofs/%s%s" % (module, function)))
            if have < want:
                yield "%s: %s%s has %d wrong answers, not %d" % (crate, module, function, have, want)


# ---- the test of the test

FUNCTION_TEXT = """
pub fn {name}() -> u32
    ensures {{ result ≡ {value} }}
{{
    {body}
}}
"""
LIBRARY = "// Tried.\n#![tactic(auto)]\n\nghost use Rattle.std.specs.Prelude.{◌≡◌, min};\n" + "".join(
    FUNCTION_TEXT.format(name=name, value=value, body=body) for name, value, body in (
        ("two", 2, "2"), ("seven", 7, "two() + 5"), ("nine", 9, "9"), ("eleven", 11, "let n = nine();\n    n + 2"))) + """
pub fn least(a: u32) -> u32
    ensures { result ≡ min a 8 }
{
    if a < 8 { a } else { 8 }
}
"""
# Proofs that name a goal and a step.
PROOFS = {
    "least": "use Rattle.std.proofs.Common.{rules}\nuse Rattle.tried.proofs.least.Goals as goal\n\n" + "".join(
        "pub returns-%s-a-lt8 : goal.returns-%s-a-lt8\nreturns-%s-a-lt8 c = search rules\n\n" % (arm, arm, arm) for arm in ("then", "else")),
    "eleven": "use Rattle.std.proofs.Common.{◌≡◌}\nuse native.Mathlib.Omega.{arith}\nuse Rattle.tried.proofs.eleven.Goals as goal\n\n"
              "pub returns : goal.returns\nreturns c = let n : c.nine-n.result ≡ 9 = c.nine-n.ensures in omega arith\n",
}


def sheet(sentence, place, old, new):
    return "wrong: %s\nat: proofs/%s\nfile: src/lib.rt\nold: %s\nnew: %s\n" % (sentence, place, old, new)


TWO = sheet("two is 3", "two", "    2", "    3")
SEVEN = sheet("seven is one more", "seven", "two() + 5", "two() + 6")
HARMLESS = sheet("nine is said otherwise", "nine", "    9", "    4 + 5")
LEAST = sheet("eight is the seventh", "least", "if a < 8 { a } else { 8 }", "if a < 7 { a } else { 8 }")
ELEVEN = sheet("eleven is nine more", "eleven", "n + 2", "n + 9")
RENAMED = sheet("eleven by another name", "eleven", "let n = nine();", "let m = nine();")
TRIED = {
    "good": (TWO + SEVEN + LEAST + ELEVEN, []),
    "harmless": (TWO + HARMLESS, ["NOT REFUSED at proofs/nine: nine is said otherwise"]),
    "harmless_caller": (TWO + SEVEN.replace("two() + 6", "5 + two()"), ["NOT REFUSED at proofs/seven: seven is one more"]),
    "no_place": (TWO.replace("at: proofs/two\n", ""), ["names no place: two is 3", "refused at proofs/two, which no wrong answer names"]),
    "one_place": (TWO + SEVEN.replace("at: proofs/seven", "at: proofs/two"), [
        "two wrong answers share proofs/two", "refused at proofs/seven, which no wrong answer names"]),
    "no_sentence": (TWO.replace("wrong: two is 3\n", "") + SEVEN, ["a replacement belongs to no wrong answer"]),
    "no_change": (TWO + "wrong: nothing\nat: proofs/nine\n", ["changes nothing: nothing", "NOT REFUSED at proofs/nine: nothing"]),
    "not_there": (TWO.replace("    2", "    4"), ["NOT TRIED: this stands in src/lib.rt 0 times, not once:     4"]),
    "new_name": (RENAMED + "old:     n + 2\nnew:     m + 3\n", []),
    "harmless_name": (TWO + RENAMED + "old:     n + 2\nnew:     m + 2\n", ["NOT REFUSED at proofs/eleven: eleven by another name"]),
    "no_step": (sheet("eleven by itself", "eleven", "let n = nine();", "let n: u32 = 9;"), ["the proof does not fit the code: proofs/eleven"]),
    "not_read": (TWO.replace("    3", "    three"), [
        "NOT TRIED: the check came to nothing, status 1: src/lib.rt:9:5: error[unknown-name]: cannot find value `three` in this scope"]),
}


def self_test():
    with tempfile.TemporaryDirectory(prefix="wrong-answers-") as room:
        root = pathlib.Path(room)
        (root / "crates/tried/src").mkdir(parents=True)
        (root / "crates/tried/must-fail").mkdir()
        (root / "crates.txt").write_text("tried:\n")
        (root / "crates/tried/src/lib.rt").write_text(LIBRARY, encoding="utf-8")
        for name, text in PROOFS.items():
            (root / "crates/tried/proofs" / name).mkdir(parents=True)
            (root / "crates/tried/proofs" / name / "Answers.antt").write_text(text, encoding="utf-8")
        for name, (text, _) in TRIED.items():
            (root / "crates/tried/must-fail" / (name + ".edit")).write_text(text, encoding="utf-8")
        # (kept apart, by the text of this tool)
        own = hashlib.sha256(b"".join(pathlib.Path(it).read_bytes() for it in (__file__, kit.__file__))).hexdigest()
        found = {edit.stem: faults_of(edit, found) for _, edit, found in Sheets(root, at=KEPT / ("self-test-" + own[:16])).all()}
        wanted = {name: faults for name, (_, faults) in TRIED.items()}
        for name in found:
            if sorted(found[name]) != sorted(wanted[name]):
                print("%s: faults found: %s; faults made: %s" % (name, found[name], wanted[name]))
        return found != wanted


def main(words):
    if "--self-test" in words:
        if self_test():
            return 1
        print("each fault of a sheet was found")
    names = [w for i, w in enumerate(words) if not w.startswith("--") and words[i - 1] != "--jobs"]
    jobs = int(words[words.index("--jobs") + 1]) if "--jobs" in words else None
    sheets = Sheets(pathlib.Path(__file__).resolve().parent.parent, names, "--anew" in words, jobs)
    results = sheets.all()
    if "--places" in words:
        for crate, edit, found in results:
            print("%s/%s" % (crate.name, edit.stem), *sorted("at: " + p for p in found.get("own", ())), sep="\n")
        return 0
    faults = ["%s/%s: %s" % (crate.name, edit.stem, fault) for crate, edit, found in results for fault in faults_of(edit, found)]
    answers = sum(len(answers_of(edit)[0]) for _, edit in sheets.edits)
    faults += [] if names else untried(sheets)
    print(*faults, "%d wrong answers on %d sheets, %d faults" % (answers, len(sheets.edits), len(faults)), sep="\n")
    return len(faults) > 0 or answers == 0


if __name__ == "__main__":
    sys.exit(main(sys.argv[1:]))
