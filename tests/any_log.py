"""any_log.py PROGRAM [ARGS..]: octets of every kind as a log; adsplay has to end with the text of the model, octet for octet. Then input that cannot be read
to its end and output that cannot be written, for adsplay and adsclog. PROGRAM is run with the program's name behind its words."""
import random
import subprocess
import sys

import broken_input
import logmodel

SET = b"set 60 60 60 60 60 60 60 60 60 60\n"


def check(name, data):
    ran = subprocess.run([*COMMAND, "adsplay"], input=data, stdout=subprocess.PIPE, timeout=120)
    good = ran.returncode == 0 and ran.stdout == logmodel.play(data)
    print(f"{name}: {len(data)} octets, {ran.stdout.count(b'%c' % 10)} lines{'' if good else ': WRONG'}")
    return good


def full():
    """Where its output cannot be written a program stops reading."""
    log = logmodel.log(SET + b"elapse 0\n" * 161)
    with open("/dev/full", "wb") as out:
        subprocess.run([*COMMAND, "adsclog"], input=SET + b"elapse 0\n" * 2000000, stdout=out, timeout=120)
        subprocess.run([*COMMAND, "adsplay"], input=log + b"".join(map(empty, range(2, 30000))), stdout=out, timeout=120)
    print("output that cannot be written: stopped")
    return True


def empty(number):
    return logmodel.block_of(number, b"")


def broken():
    """A read that fails is no end. Of a log the last line is missing, and what came of a block is not played; of a script what came of a line is not, and
    the log has the lines before. Standard error says so."""
    script = SET + b"req 3000\nelapse 5"
    whole = logmodel.log(script[:script.rindex(b"\n") + 1])
    ran = broken_input.run([*COMMAND, "adsplay"], whole + whole[:100])
    text = logmodel.play(whole)
    good = ran.stdout == text[:text.rindex(b"end ")] and ran.stderr == broken_input.TOLD
    first = broken_input.run_directory([*COMMAND, "adsplay"])
    good = good and first.stdout == b"adsc trace 1\n" and first.stderr == broken_input.TOLD
    ran = broken_input.run([*COMMAND, "adsclog"], script)
    good = good and ran.stdout == whole and ran.stderr == broken_input.TOLD
    first = broken_input.run_directory([*COMMAND, "adsclog"])
    good = good and first.stdout == b"" and first.stderr == broken_input.TOLD
    print(f"input that cannot be read: {'said' if good else 'WRONG'}")
    return good


def main():
    rng = random.Random()
    seed = rng.randrange(2**32)
    rng.seed(seed)
    print(f"seed {seed}")
    log = logmodel.log(SET + b"elapse 0\n" * 400)
    cases = {
        "empty": b"",
        "random octets": rng.randbytes(2000000),
        "zeros": bytes(1000000),
        "text": SET * 1000,
        "a log and random octets": log + rng.randbytes(100000),
        "a log and half of it again": log + log[:len(log) // 2],
        "blocks without records": b"".join(map(empty, range(2000))),
        "a log of a block for each record": b"".join(logmodel.block_of(place, record) for place, record in enumerate(logmodel.recorded(SET + b"elapse 0\n" * 2000))),
    }
    good = [check(name, data) for name, data in cases.items()]
    good += [check("a random payload", log[:512] + logmodel.block_of(1, rng.randbytes(size))) for size in (1, 6, 100, 504)]
    return all([*good, full(), broken()])


if len(sys.argv) < 2:
    sys.exit(__doc__)
COMMAND = sys.argv[1:]
sys.exit(0 if main() else 1)
