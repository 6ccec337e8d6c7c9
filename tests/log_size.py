"""log_size.py PROGRAM [ARGS..]: adsclog and adsplay on a million records: memory stays as for a thousand, time goes with their number.

PROGRAM is run with `adsclog` or `adsplay` behind its words. What they write is compared too: each octet of the log, the lines of its play.
"""
import os
import pathlib
import re
import subprocess
import sys
import tempfile
import time

import logmodel

FEW, MORE, MANY = 1000, 100000, 1000000
MORE_KILOBYTES = 512            # of memory than for few records; a log of a million has some 12 megabytes
TIMES = 1.5                     # what a record may cost more, where there are ten times as many


def script(count):
    return b"set 60 60 60 60 60 60 60 60 60 60\n" + b"elapse 0\n" * (count - 1)


def due_log(count):
    """The settings have 46 octets and the others 6: 77 in the first block, 84 in each other."""
    elapse, records = bytes([3, 0, 0, 0, 0, 0]), count - 1
    payloads = [next(logmodel.recorded(script(1))) + elapse * min(records, 76)]
    rest = records - min(records, 76)
    payloads += [elapse * 84] * (rest // 84) + [elapse * (rest % 84)] * (rest % 84 > 0)
    return payloads


def run(command, data, target):
    """Seconds of the processor, kilobytes of memory at most, exit status. Memory is looked up when all has come but the end: what wait4 gives has this
    process's own in it, from before the program was there."""
    with open(target, "wb") as out:
        child = subprocess.Popen(command, stdin=subprocess.PIPE, stdout=out)
        child.stdin.write(data)
        child.stdin.flush()
        time.sleep(0.1)
        memory = re.search(r"VmHWM:\s*(\d+) kB", pathlib.Path(f"/proc/{child.pid}/status").read_text())
        child.stdin.close()
        _, status, usage = os.wait4(child.pid, 0)
    child.returncode = status
    return usage.ru_utime + usage.ru_stime, int(memory[1]), status


def same_log(path, count):
    """Block by block; the first, the last and each hundredth with its check, which takes time."""
    octets, payloads = path.read_bytes(), due_log(count)
    if len(octets) != 512 * len(payloads):
        return False
    for place, payload in enumerate(payloads):
        block = octets[512 * place:512 * place + 512]
        plain = place.to_bytes(4, "big") + len(payload).to_bytes(2, "big") + payload.ljust(504, b"\0")
        sealed = place % 100 == 0 or place == len(payloads) - 1
        if block[:510] != plain or sealed and block != logmodel.block_of(place, payload):
            return False
    return True


def same_play(path, count):
    return path.read_bytes() == b"".join([b"adsc trace 1\n", *(b"%d ok\n" % place for place in range(1, count + 1)), b"end %d\n" % count])


def measured(command, room, count):
    log, text = (pathlib.Path(room) / name for name in ("log", "text"))
    costs = {"adsclog": run([*command, "adsclog"], script(count), log)}
    costs["adsplay"] = run([*command, "adsplay"], log.read_bytes(), text)
    good = all(status == 0 for _, _, status in costs.values()) and same_log(log, count) and same_play(text, count)
    if not good:
        print(f"{count} records: what was written is not what is due")
    return costs, good


def main(command):
    with tempfile.TemporaryDirectory() as room:
        runs = {count: measured(command, room, count) for count in (FEW, MORE, MANY)}
    good = [right for _, right in runs.values()]
    for program in ("adsclog", "adsplay"):
        (_, few, _), (some, _, _), (many, most, _) = (runs[count][0][program] for count in (FEW, MORE, MANY))
        print(f"{program}: {FEW} records {few} kB; {MANY} records {most} kB, {many:.2f} s; {MORE} records {some:.2f} s")
        good.append(most <= few + MORE_KILOBYTES and many <= TIMES * MANY / MORE * max(some, 0.05))
    return all(good)


if __name__ == "__main__":
    if len(sys.argv) < 2:
        sys.exit(__doc__)
    sys.exit(0 if main(sys.argv[1:]) else 1)
