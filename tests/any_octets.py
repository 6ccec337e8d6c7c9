"""any_octets.py PROGRAM [ARGS..] NAME: octets of every kind on standard input; the program has to end with one answer a line, of NAME's form."""
import random
import re
import subprocess
import sys

import broken_input

ANSWERS = {"coder": rb"(ok( [0-9a-f]+)?|refused [0-9]+)\Z", "pdutext": rb"((air|ground): [ -~]+|refused [0-9]+ \([ -~]+\))\Z",
           "hostcall": rb"([0-9]+ [0-9]+ [0-9a-f]* [0-9a-f]*|refused 17)\Z"}
ANSWER = re.compile(ANSWERS[sys.argv[-1]])


def lines_of(data):
    parts = data.split(b"\n")
    return len(parts) - (parts[-1] == b"")


def check(name, data):
    run = subprocess.run(sys.argv[1:], input=data, stdout=subprocess.PIPE, timeout=120)
    answers = run.stdout.split(b"\n")
    good = run.returncode == 0 and answers[-1] == b"" and len(answers) - 1 == lines_of(data) and all(map(ANSWER.match, answers[:-1]))
    print(f"{name}: {len(data)} octets, {len(answers) - 1} answers{'' if good else ': WRONG'}")
    return good


def broken():
    """A read that fails is no end of the input: what came of a line is not answered, and standard error says so."""
    ran = broken_input.run(sys.argv[1:], b"air 00\nair 4")
    good = ran.stdout.count(b"\n") == 1 and ran.stdout.endswith(b"\n") and ran.stderr == broken_input.TOLD
    first = broken_input.run_directory(sys.argv[1:])
    good = good and first.stdout == b"" and first.stderr == broken_input.TOLD
    print(f"input that cannot be read: {'said' if good else 'WRONG'}")
    return good


def main():
    rng = random.Random()
    seed = rng.randrange(2**32)
    rng.seed(seed)
    print(f"seed {seed}")
    cases = {
        "empty": b"",
        "no last LF": b"air 00",
        "empty lines": b"\n" * 100000,
        "NUL": b"\0" * 5000 + b"\n" + b"air \0" + b"\nair 00\n",
        "CR LF": b"air 00\r\n" * 10,
        "one long line": b"a" * 5000000,
        "long lines": b"".join(b"air " + b"0" * n + b"\n" for n in (4091, 4092, 4093, 70000, 1000000)),
        "random octets": rng.randbytes(4000000),
        "many lines": b"ground 74\nair 4200\nwrite_ground   a5 0\n" * 200000,
    }
    return all([*(check(name, data) for name, data in cases.items()), broken()])


sys.exit(0 if main() else 1)
