"""any_script.py ground|air|flight PROGRAM [ARGS..]: octets of every kind as a script; the program has to end with the trace of the model of that side, or of both, octet for octet."""
import collections
import random
import subprocess
import sys

import airmodel
import broken_input
import flightmodel
import linkmodel

# The side's model, a set, a call that opens the link, calls after which data goes on and on, such data, what may stand behind a word, and how many lines end a trace.
Side = collections.namedtuple("Side", "model set opening deep data tails ending")
SIDES = {
    "ground": Side(linkmodel, b"set 60 60 60 60 60 60 60 60 60 60\n", b"req 3000", b"req 3000\nstart-cnf 2130\n", b"data 00\n",
                   [" 3000", " 2130", " 08000000000000000001 2c00000000", " 64042"], 1),
    "air": Side(airmodel, b"set 60\n", b"start-ind 3000", b"start-ind 4080\nreq 3800\nreq 10000000000000004b0000000000\nreq 00\n", b"data 5840\n",
                [" 3000", " 2130", " 4080", " 3800", " 10000000000000004b0000000000", " 5840", " 20", " 64042"], 1),
    "flight": Side(flightmodel, b"ground set 60 60 60 60 60 60 60 60 60 60\nair set 60\n", b"ground req 3000", b"ground req 4080\ndeliver\nair req 3800\ndeliver\n",
                   b"air req 180000000000000000096000000000\ndeliver 1\n",
                   [" req 3000", " req 4080", " req 4080", " req 3800", " req 3800", " req 2130", " user-abort", " 1", " 2", " set 60", " down", " req 64042"], 4),
}


def run(data, out=subprocess.PIPE):
    return subprocess.run(COMMAND, input=data, stdout=out, timeout=120)


def words(rng):
    """Lines that are nearly right."""
    tails = ["", " ", " 0", " 00", " 2130 ", "  2130", " 2130\r", "\t00", "0", " A0", " -1", " 4294967296", *SIDE.tails]
    for _ in range(20000):
        yield (rng.choice(list(SIDE.model.WORDS)) + rng.choice(tails)).encode()


def check(name, data):
    ran = run(data)
    good = ran.returncode == 0 and ran.stdout == SIDE.model.trace(data)
    print(f"{name}: {len(data)} octets, {ran.stdout.count(b'%c' % 10)} lines{'' if good else ': WRONG'}")
    return good


def counted(name, data, lines):
    """Too long for the model: one answer a line, and the count."""
    ran = run(data)
    good = ran.returncode == 0 and ran.stdout.count(b"\n") == lines + 1 + SIDE.ending and ran.stdout.endswith(b"end %d\n" % lines)
    print(f"{name}: {len(data)} octets, {lines} lines{'' if good else ': WRONG'}")
    return good


def full():
    """Where its output cannot be written the program stops reading."""
    with open("/dev/full", "wb") as out:
        run(b"data\n" * 2000000, out)
    print("output that cannot be written: stopped")
    return True


def begun(data):
    """A trace without what ends it."""
    return b"".join(SIDE.model.trace(data).splitlines(keepends=True)[:-SIDE.ending])


def broken():
    """A read that fails is no end of the script: what ends a trace is missing, what came of a line is not played, and standard error says so."""
    data = SIDE.set + SIDE.opening + b"\nelapse 5"
    ran = broken_input.run(COMMAND, data)
    good = ran.stdout == begun(data[:data.rindex(b"\n") + 1]) and ran.stderr == broken_input.TOLD
    first = broken_input.run_directory(COMMAND)
    good = good and first.stdout == begun(b"") and first.stderr == broken_input.TOLD
    print(f"input that cannot be read: {'said' if good else 'WRONG'}")
    return good


def main():
    rng = random.Random()
    seed = rng.randrange(2**32)
    rng.seed(seed)
    print(f"seed {seed}")
    cases = {
        "empty": b"",
        "no last LF": SIDE.set + SIDE.opening,
        "empty lines": b"\n" * 20000,
        "NUL": SIDE.set + b"\0" * 5000 + b"\n" + b"data \0" + b"\n" + SIDE.opening + b"\n",
        "CR LF": SIDE.set.replace(b"\n", b"\r\n") + SIDE.set + SIDE.opening + b"\r\n" + SIDE.opening + b"\n",
        "long lines": SIDE.set + b"".join(b"data " + b"0" * n + b"\n" for n in (4091, 4092, 4090, 4093, 70000, 1000000)),
        "random octets": rng.randbytes(2000000),
        "lines that are nearly right": SIDE.set + b"\n".join(words(rng)) + b"\n",
        "data again and again": SIDE.set + SIDE.deep + SIDE.data * 3000,
    }
    good = [check(name, data) for name, data in cases.items()]
    good.append(counted("a million lines", SIDE.set + b"elapse 0\n" * (1000000 - SIDE.set.count(b"\n")), 1000000))
    good.append(counted("one long line", b"a" * 20000000, 1))
    good.append(full())
    good.append(broken())
    return all(good)


if len(sys.argv) < 3 or sys.argv[1] not in SIDES:
    sys.exit(__doc__)
SIDE, COMMAND = SIDES[sys.argv[1]], sys.argv[2:]
sys.exit(0 if main() else 1)
