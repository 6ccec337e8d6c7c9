"""A program that plays scripts of one side of a link is compared with that side's model, on fresh random scripts.

    main(usage, side) -> exit status

compare_link.py and compare_air.py say what a side is and how they are called.
"""

import argparse
import collections
import concurrent.futures
import dataclasses
import random
import re
import subprocess
import sys

from sidemodel import lines

WORKERS = 2
SECONDS = 30        # for one script
SHOWN = 3
REFUSALS = (1, 2, 3, 4, 17)         # 29 needs a record that calls never lead to; the others are of reading and writing
ENTRY = re.compile(rb'(ind abort|ind peer-abort|[a-z-]+)(?: [0-9a-f]+| [A-Z0-9]+)?')

Answer = collections.namedtuple('Answer', 'trace fault')


@dataclasses.dataclass(frozen=True)
class Side:
    trace: callable         # script -> trace
    mutants: dict           # name -> the trace function of a changed model
    maker: callable         # random numbers, coverage -> what makes scripts
    coverage: callable      # -> what notes what scripts met
    entries: tuple          # of action lists, that are due
    due: callable           # coverage -> what -> what of it has to be met, maybe with where it stands, and how often each was
    faults: callable        # coverage -> what else is wrong
    notes: callable         # coverage -> lines that are printed
    stored: callable        # -> scripts that are stored; they tell changed models apart too
    tally: callable         # traces -> how often each answer and entry was due, and how many entries the longest list has


class Program:
    """A command that is run on scripts; after one that took too long it is not run again."""

    def __init__(self, command):
        self.command, self.given_up = command, False

    def run(self, script):
        if self.given_up:
            return Answer(b'', 'not run')
        try:
            ended = subprocess.run(self.command, input=script, stdout=subprocess.PIPE, timeout=SECONDS)
        except (OSError, subprocess.TimeoutExpired) as error:
            self.given_up = True
            return Answer(b'', str(error))
        return Answer(ended.stdout, f'the program ended with {ended.returncode}' if ended.returncode else None)


def answers(side, command, scripts):
    """The answers of a program to all scripts, or of the plain model."""
    if not command:
        return [Answer(side.trace(script), None) for script in scripts]
    program = Program(command)
    with concurrent.futures.ThreadPoolExecutor(WORKERS) as pool:
        return list(pool.map(program.run, scripts))


# Differences

Difference = collections.namedtuple('Difference', 'number script place expected got fault')


def difference(number, script, expected, answer):
    """The first line of a trace that differs, if one does."""
    if answer.trace == expected and not answer.fault:
        return None
    due, came = expected.split(b'\n'), answer.trace.split(b'\n')
    size = max(len(due), len(came))
    due += [b'(none)'] * (size - len(due))
    came += [b'(none)'] * (size - len(came))
    place = next((place for place in range(size) if due[place] != came[place]), size - 1)
    return Difference(number, script, place, due[place], came[place], answer.fault)


def shown(octets):
    text = octets.decode('latin-1')
    return text if text.isprintable() and len(text) < 300 else ascii(text[:300])


def show(difference):
    """The script up to the line whose answer differs, all of it where it is the end that does."""
    print(f'script {difference.number + 1}:' + (f' {difference.fault}' if difference.fault else ''))
    number = re.match(rb'\d+', difference.expected)
    for line in lines(difference.script)[:int(number[0]) if number else None]:
        print(f'    {shown(line)}')
    print(f'  expected {shown(difference.expected)}\n  got      {shown(difference.got)}')


# What was met

def tally(traces):
    met, longest = collections.Counter(), 0
    for trace in traces:
        for line in trace.split(b'\n')[1:-2]:
            _, word, *rest = line.split(b' ', 2)
            if word == b'refused':
                met[int(rest[0])] += 1
                continue
            entries = [name.decode() for name in ENTRY.findall(rest[0])] if rest else []
            met['ok'] += 1
            met.update(entries)
            longest = max(longest, len(entries))
    return met, longest


def faults_of(side, met, longest, coverage):
    faults = [f'refusal {number} was never due' for number in REFUSALS if not met[number]]
    faults += [f'refusal {number} was due' for number in met if isinstance(number, int) and number not in REFUSALS]
    faults += [f'no {entry} was due' for entry in side.entries if not met[entry]]
    faults += ['an action list has more than 8 entries'] if longest > 8 else []
    faults += [f'{what}: not met: {key} {due[key] if isinstance(due, dict) else ""}'.rstrip()
               for what, (due, times) in side.due(coverage).items() for key in due if not times[key]]
    return faults + side.faults(coverage)


def print_met(side, met, longest, coverage):
    print('expected ok', met['ok'], *(f'refused-{number} {met[number]}' for number in REFUSALS))
    print('entries', *(f'{entry} {met[entry]},' for entry in side.entries), f'at most {longest} in a list')
    for what, (due, times) in side.due(coverage).items():
        print(f'{what} {sum(key in times for key in due)}/{len(due)}, least met {min(times[key] for key in due)} times')
    for note in side.notes(coverage):
        print(note)


# Runs

def compare(side, command, scripts, coverage, mutation):
    """Compares and prints; with a mutation coverage is not judged."""
    model = side.mutants[mutation] if mutation else side.trace
    expected = [model(script) for script in scripts]
    found = [difference(number, script, due, answer) for number, (script, due, answer)
             in enumerate(zip(scripts, expected, answers(side, command, scripts)))]
    found = sorted(filter(None, found), key=lambda one: one.place)
    faults = []
    if not mutation:
        met, longest = side.tally(expected)
        faults = faults_of(side, met, longest, coverage)
        print_met(side, met, longest, coverage)
    print(f'differences {len(found)}')
    for one in found[:SHOWN]:
        show(one)
    for fault in faults[:20]:
        print(f'fault: {fault}')
    return 1 if found or faults else 0


def told_apart(model, traces):
    """Whether a script tells a changed model apart; it is the first one for the next, which is often much alike."""
    place = next((place for place, (script, trace) in enumerate(traces) if model(script) != trace), None)
    if place is not None:
        traces.insert(0, traces.pop(place))
    return place is not None


def mutate_all(side, command, scripts):
    """Each changed model against the program or the plain one, up to the first script that tells them apart."""
    scripts = [*scripts, *side.stored()]
    given = answers(side, command, scripts)
    traces = [(script, answer.trace) for script, answer in zip(scripts, given)]
    faults = [f'the program: {answer.fault}' for answer in given if answer.fault]
    faults += ['the plain model is told apart'] if told_apart(side.trace, traces) else []
    missed = [name for name, model in side.mutants.items() if not told_apart(model, traces)]
    print(f'changed models {len(side.mutants)}, told apart {len(side.mutants) - len(missed)}')
    for fault in [*faults, *(f'not told apart: {name}' for name in missed)]:
        print(fault)
    return 1 if faults or missed else 0


def parse(usage, side):
    arguments, command = sys.argv[1:], []
    if '--' in arguments:
        place = arguments.index('--')
        arguments, command = arguments[:place], arguments[place + 1:]
    parser = argparse.ArgumentParser(usage=usage.split('\n\n')[1])
    parser.add_argument('--count', type=int, default=1000)
    parser.add_argument('--lines', type=int, default=60)
    parser.add_argument('--seed', type=int, default=None)
    parser.add_argument('--mutate', choices=['all', *side.mutants], metavar='NAME')
    parser.add_argument('--list', action='store_true')
    parser.add_argument('--self', action='store_true', dest='itself')
    options = parser.parse_args(arguments)
    if not options.list and options.itself == bool(command):
        parser.error('give a program or --self')
    return options, command


def main(usage, side):
    options, command = parse(usage, side)
    if options.list:
        print('\n'.join(side.mutants))
        return 0
    fault = command and Program(command).run(b'').fault
    if fault:
        print(f'on an empty script: {fault}')
        return 1
    seed = random.SystemRandom().randrange(1 << 32) if options.seed is None else options.seed
    coverage = side.coverage()
    maker = side.maker(random.Random(seed), coverage)
    scripts = [maker.script(options.lines) for _ in range(options.count)]
    print(f'seed {seed}' + (f', changed: {options.mutate}' if options.mutate else ''))
    print(f'scripts {len(scripts)}, lines {sum(len(lines(script)) for script in scripts)}')
    if options.mutate == 'all':
        return mutate_all(side, command, scripts)
    return compare(side, command, scripts, coverage, options.mutate)
