"""logs.py PROGRAM [ARGS..]: plays every stored log, and records every stored script; the programs have to give what is stored, octet for octet.

tests/logs has NAME.log with NAME.play, what is printed for it, worked out from 01 and 02 by hand; where there is a NAME.script, the log is what the recorder
writes for it. PROGRAM is run with `adsplay` or `adsclog` behind its words; test_logmodel.py asks the model. A log is stored as text: octets in hexadecimal, a
record a line, and `N zeros`.

    logs.py octets < NAME.log > log         logs.py text < log > NAME.log
"""
import pathlib
import sys

from traces import difference, play, shown

PLACE = pathlib.Path(__file__).resolve().parent / "logs"


# Logs as text

def octets(text):
    found = [bytes(int(line.split()[0])) if line.endswith("zeros") else bytes.fromhex(line) for line in text.split("\n")]
    return b"".join(found)


def block_lines(block):
    """Number and length, each record, zeros, check: as far as the block can be taken so."""
    length = int.from_bytes(block[4:6], "big")
    yield f"{block[:4].hex()} {block[4:6].hex()}"
    at = 6
    while at < min(6 + length, 510, len(block)):
        end = min(at + 6 + (block[at + 5] if at + 5 < len(block) else 0), 6 + length, 510)
        record = block[at:end]
        yield " ".join(part.hex() for part in (record[:1], record[1:5], record[5:6], record[6:]) if part)
        at = end
    behind = block[at:510]
    zeros = len(behind) - len(behind.lstrip(b"\0"))
    yield from [f"{zeros} zeros"] * (zeros > 0)
    yield from (part.hex() for part in (behind[zeros:], block[510:]) if part)


def text(log):
    blocks = [log[at:at + 512] for at in range(0, len(log), 512)]
    return "".join(f"{line}\n" for block in blocks for line in block_lines(block))


# What is stored

def stored():
    """Each name: its log, its play, and its script or None; a missing half is found when it is read."""
    names = sorted({path.with_suffix("") for path in PLACE.iterdir()})
    for name in names:
        log, play, script = (name.with_name(name.name + kind) for kind in (".log", ".play", ".script"))
        yield name.name, octets(log.read_text()), play.read_bytes(), script.read_bytes() if script.is_file() else None


def logs():
    return [log for _, log, _, _ in stored()]


def same(name, due, got):
    """Prints where an answer first differs."""
    if got != due:
        place, expected, came = difference(due, got)
        print(f"{name}, line {place}: expected: {shown(expected)}: the program has: {shown(came)}")
    return got == due


def judge(command, name, log, due, script):
    good = [same(f"{name}.play", due, play([*command, "adsplay"], log))]
    if script is not None:
        good.append(same(f"{name}.log", text(log).encode(), text(play([*command, "adsclog"], script)).encode()))
    return all(good)


def refusals(plays):
    return [line.split()[1] for text in plays for line in text.decode().split("\n") if line.startswith("refused")]


def main(command):
    cases = list(stored())
    results = [judge(command, *case) for case in cases]
    met = refusals(due for _, _, due, _ in cases)
    scarce = [number for number in ("18", "19", "20") if met.count(number) < 2]
    for number in scarce:
        print(f"refusal {number} is stored {met.count(number)} times")
    print(f"logs {len(results)}, scripts {sum(script is not None for *_, script in cases)}, refused {len(met)}, differences {results.count(False)}")
    return bool(results) and all(results) and not scarce


if __name__ == "__main__":
    if len(sys.argv) < 2:
        sys.exit(__doc__)
    if sys.argv[1:] == ["octets"]:
        sys.stdout.buffer.write(octets(sys.stdin.read()))
    elif sys.argv[1:] == ["text"]:
        sys.stdout.write(text(sys.stdin.buffer.read()))
    else:
        sys.exit(0 if main(sys.argv[1:]) else 1)
