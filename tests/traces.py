"""traces.py ground|air|flight PROGRAM [ARGS..]: plays every stored script of a side of the link, or of both; the program and the model have to give its trace, octet for octet.

The traces are worked out from 01, 02 and, for the air, 002 by hand: so neither the program nor the model is the measure of the other. Of the flights the
traces are the model's: those in examples/flight were read against docs/FLIGHT.md, those in tests/flights are what a search found (crossings.py); test_flightmodel.py has the ones worked out by hand.
"""
import itertools
import pathlib
import subprocess
import sys

import airmodel
import flightmodel
import linkmodel

ROOT = pathlib.Path(__file__).resolve().parent.parent
MODELS = {"ground": linkmodel, "air": airmodel, "flight": flightmodel}
PLACES = {"ground": [ROOT / "tests/traces", ROOT / "examples"], "air": [ROOT / "tests/traces/air", ROOT / "examples/air"],
          "flight": [ROOT / "tests/flights", ROOT / "examples/flight"]}
# rt plays these pairs too, but asks the program alone.
PAIRS = {side: [(ROOT / f"crates/{name}/stdin", ROOT / f"crates/{name}/stdout")] for side, name in (("ground", "adsc"), ("air", "adsair"), ("flight", "flight"))}


def pairs_in(place):
    """Each name in a place, a trace that has lost its script too; a missing half is found when it is read."""
    script = ".flight" if place in PLACES["flight"] else ".script"
    names = sorted({path.with_suffix("") for path in place.glob("*") if path.suffix in (script, ".trace")})
    return [(name.with_name(name.name + script), name.with_name(name.name + ".trace")) for name in names]


def stored(side):
    """The scripts of a side."""
    return [script.read_bytes() for place in PLACES[side] for script, _ in pairs_in(place)]


def play(command, script):
    run = subprocess.run(command, input=script, stdout=subprocess.PIPE, timeout=60)
    return run.stdout if run.returncode == 0 else run.stdout + b"exit status %d" % run.returncode


def difference(due, got):
    """The first line that differs: its place in the trace, what is due, what came."""
    lines = itertools.zip_longest(due.split(b"\n"), got.split(b"\n"))
    return next((place, *pair) for place, pair in enumerate(lines, 1) if pair[0] != pair[1])


def shown(line):
    text = "nothing" if line is None else line.decode("latin-1")
    return text if len(text) <= 200 else text[:200] + ".."


def judge(side, command, script, trace):
    """Whether a pair holds; prints where it first does not."""
    if not (script.is_file() and trace.is_file()):
        print(f"{script.relative_to(ROOT)}, {trace.name}: one of the two is missing")
        return False
    calls, due = script.read_bytes(), trace.read_bytes()
    good = True
    for who, got in (("the program", play(command, calls)), ("the model", MODELS[side].trace(calls))):
        if got != due:
            place, expected, came = difference(due, got)
            print(f"{trace.relative_to(ROOT)}, line {place}: expected: {shown(expected)}: {who} has: {shown(came)}")
            good = False
    return good


def main(side, command):
    found = {place: pairs_in(place) for place in PLACES[side]}
    for place in found:
        if not found[place]:
            print(f"{place.relative_to(ROOT)}: no pair")
    results = [judge(side, command, *pair) for pair in [*itertools.chain(*found.values()), *PAIRS[side]]]
    print(f"traces {len(results)}, differences {results.count(False)}")
    return all(found.values()) and all(results)


if __name__ == "__main__":
    if len(sys.argv) < 3 or sys.argv[1] not in MODELS:
        sys.exit(__doc__)
    sys.exit(0 if main(sys.argv[1], sys.argv[2:]) else 1)
