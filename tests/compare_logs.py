"""Compares the programs of the flight log with logmodel.py, on fresh random scripts and on logs of theirs that are damaged.

    compare_logs.py [--count N] [--damages M] [--seed S] [--mutate NAME|all] -- PROGRAM [ARGS..]
    compare_logs.py [--count N] [--damages M] [--seed S] --mutate all --self
    compare_logs.py --list

PROGRAM is run with `adsclog` (script to log), `adsplay` (log to text) and `adsc` (script to trace) behind its words. The log of each script is compared, then
its play, with the model's and with the trace without what was refused. Then each octet of a few blocks is changed (18 at that block is due), a log is cut
at every length of its last block (20 is due there), and logs are damaged in M ways with the check made right again. --mutate changes one thing of the model,
all of them each alone with `all`: then the comparison must fail. --self compares them with the plain model, without a program. Exit 0: no differences, and
every damage and every ground of refusal was met; with `all`, every changed model was told apart.
"""

import argparse
import collections
import concurrent.futures
import random
import subprocess
import sys

import linkmodel
import logmodel
import logs
from logmaking import DAMAGES, GOOD, WRONG, Scripts, both, damaged, octet_changed
from logmodel import BLOCK, GROUNDS, Reader
from logmutants import MUTANTS
from traces import difference, shown

WORKERS = 2
SHOWN = 5


def accepted(trace):
    """A trace without what was refused, counted anew; a log that holds no record is refused."""
    answers = [line.split(b' ', 1)[1] for line in trace.split(b'\n')[1:-2] if b' ok' in line]
    last = b'end %d' % len(answers) if answers else b'refused 20 block 0'
    return b'\n'.join([b'adsc trace 1', *(b'%d %s' % pair for pair in enumerate(answers, 1)), last, b''])


# Cases: what they are, the program that answers, its input, and the last line that is due besides

Case = collections.namedtuple('Case', 'what program data last', defaults=(None,))


def chosen(rng, logs, blocks):
    """The first blocks of a log that has so many."""
    return rng.choice([log for log in logs if len(log) >= blocks * BLOCK])[:blocks * BLOCK]


def octets_changed(rng, logs):
    """Of each block of a log of three: what is before it is played."""
    log = chosen(rng, logs, 3)
    for place in range(3 * BLOCK):
        yield Case(f'octet {place} changed', 'adsplay', octet_changed(rng, log, place), f'refused 18 block {place // BLOCK}')


def cut(rng, logs):
    log = chosen(rng, logs, 2)
    for length in range(BLOCK + 1, 2 * BLOCK):
        yield Case('cut', 'adsplay', log[:length], 'refused 20 block 1')
    yield Case('cut', 'adsplay', log[:BLOCK])


def damages(rng, logs, count):
    """In each way as often as in the others; some logs have not what a damage needs."""
    for _ in range(count // len(DAMAGES)):
        for name in DAMAGES:
            tried = (damaged(rng, name, rng.choice(logs)) for _ in range(20))
            yield from (Case(name, 'adsplay', log) for log in [next(filter(None, tried), None)] if log)
        yield Case('two grounds', 'adsplay', both(rng, rng.choice(logs)))


def stored():
    for _, log, _, script in logs.stored():
        yield Case('stored', 'adsplay', log)
        yield from [Case('stored', 'adsclog', script)] if script is not None else []


def cases_of(rng, count, damage, mutation):
    """What is stored tells changed models apart, and is compared elsewhere; a changed octet or a cut tells none apart."""
    maker = Scripts(rng)
    scripts = [b'', *(maker.script() for _ in range(count))]
    made = [log for log in map(logmodel.log, scripts) if log]
    cases = [*(Case('script', 'adsclog', script) for script in scripts), *(Case('log', 'adsplay', log) for log in (b'', *made))]
    return scripts, [*(stored() if mutation else (*octets_changed(rng, made), *cut(rng, made))), *cases, *damages(rng, made, damage)]


# What was met

def grounds_of(log):
    """The grounds that refuse the block at which a log is refused."""
    reader, blocks = Reader(), [log[at:at + BLOCK] for at in range(0, len(log) - BLOCK + 1, BLOCK)]
    for block in blocks:
        found = [name for name, _ in GROUNDS if getattr(reader, name)(block)]
        if found:
            return found
        reader.read(block)
    return []


def unmet(cases):
    """Each damage, and each ground of 19 and 20 alone, or with `refused_in_play` behind it: what cannot be read is not played either."""
    met = collections.Counter(case.what for case in cases)
    for case in cases:
        if case.program == 'adsplay' and case.what in DAMAGES:
            found = grounds_of(case.data)
            met.update([found[0]] if found and set(found[1:]) <= {'refused_in_play'} else [])
            met.update([f'{case.what} refused'] if found else [f'{case.what} good'])
    due = [*DAMAGES, 'two grounds', *(name for name, _ in GROUNDS[1:]), *(f'{name} refused' for name in WRONG if name != 'no records'),
           *(f'{name} good' for name in GOOD)]
    print('damages', sum(case.what in DAMAGES for case in cases), *(f'{name} {met[name]},' for name, _ in GROUNDS[1:]))
    return [name for name in due if met[name] < 2]


# Runs

def run(command, case):
    ran = subprocess.run([*command, case.program], input=case.data, stdout=subprocess.PIPE, timeout=60)
    return ran.stdout if ran.returncode == 0 else ran.stdout + b'exit status %d\n' % ran.returncode


def answers(command, cases):
    with concurrent.futures.ThreadPoolExecutor(WORKERS) as pool:
        return list(pool.map(lambda case: run(command, case), cases))


def model(case, functions=(logmodel.log, logmodel.play)):
    return functions[case.program == 'adsplay'](case.data)


def show(number, case, due, got):
    if case.program == 'adsclog':
        due, got = logs.text(due).encode(), logs.text(got).encode()
    place, expected, came = difference(due, got)
    print(f'case {number + 1}, {case.what}, {case.program}, line {place}: expected: {shown(expected)}: got: {shown(came)}')


def compare(command, scripts, cases, mutation):
    functions = MUTANTS[mutation] if mutation else (logmodel.log, logmodel.play)
    due, got = [model(case, functions) for case in cases], answers(command, cases)
    found = [place for place, pair in enumerate(zip(due, got)) if pair[0] != pair[1]]
    faults = []
    if not mutation:
        faults = [f'{case.what}: {case.last} is due' for case, text in zip(cases, due) if case.last and not text.endswith(case.last.encode() + b'\n')]
        faults += [f'met less than twice: {name}' for name in unmet(cases)]
        asked = [script for script in scripts if logmodel.play(logmodel.log(script)) != accepted(linkmodel.trace(script))]
        asked += [script for script, trace in zip(scripts, answers(command, [Case('script', 'adsc', script) for script in scripts]))
                  if logmodel.play(logmodel.log(script)) != accepted(trace)]
        faults += [f'the play of a log is not the trace of its script: {shown(script[-100:])}' for script in asked]
    print(f'differences {len(found)}')
    for place in found[:SHOWN]:
        show(place, cases[place], due[place], got[place])
    for fault in faults[:SHOWN]:
        print(f'fault: {fault}')
    return 1 if found or faults else 0


def told_apart(functions, due):
    """By the cases of a program whose function is changed."""
    plain = {'adsclog': logmodel.log, 'adsplay': logmodel.play}
    changed = [program for program, function in zip(plain, functions) if function is not plain[program]]
    return any(model(case, functions) != text for case, text in due if case.program in changed)


def mutate_all(command, cases):
    """Each changed model against the programs or the plain one, up to the first case that tells them apart."""
    plain = [model(case) for case in cases]
    given = answers(command, cases) if command else plain
    faults = ['the plain model is told apart'] if given != plain else []
    due = list(zip(cases, given))
    missed = [name for name, functions in MUTANTS.items() if not told_apart(functions, due)]
    print(f'changed models {len(MUTANTS)}, told apart {len(MUTANTS) - len(missed)}')
    for fault in [*faults, *(f'not told apart: {name}' for name in missed)]:
        print(fault)
    return 1 if faults or missed else 0


def parse():
    arguments, command = sys.argv[1:], []
    if '--' in arguments:
        place = arguments.index('--')
        arguments, command = arguments[:place], arguments[place + 1:]
    parser = argparse.ArgumentParser(usage=__doc__.split('\n\n')[1])
    parser.add_argument('--count', type=int, default=100)
    parser.add_argument('--damages', type=int, default=1000)
    parser.add_argument('--seed', type=int, default=None)
    parser.add_argument('--mutate', choices=['all', *MUTANTS], metavar='NAME')
    parser.add_argument('--list', action='store_true')
    parser.add_argument('--self', action='store_true', dest='itself')
    options = parser.parse_args(arguments)
    if not options.list and (options.itself == bool(command) or options.itself and options.mutate != 'all'):
        parser.error('give a program, or --mutate all --self')
    return options, command


def main():
    options, command = parse()
    if options.list:
        print('\n'.join(MUTANTS))
        return 0
    seed = random.SystemRandom().randrange(1 << 32) if options.seed is None else options.seed
    scripts, cases = cases_of(random.Random(seed), options.count, options.damages, options.mutate)
    print(f'seed {seed}' + (f', changed: {options.mutate}' if options.mutate else ''))
    print(f'scripts {len(scripts)}, logs {len(cases) - len(scripts)}, blocks {sum(len(case.data) // BLOCK for case in cases if case.what == "log")}')
    return mutate_all(command, cases) if options.mutate == 'all' else compare(command, scripts, cases, options.mutate)


if __name__ == '__main__':
    sys.exit(main())
