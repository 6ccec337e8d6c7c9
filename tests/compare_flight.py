"""Compares a program that flies both ends of a link against each other with flightmodel.py, on fresh random flights.

    compare_flight.py [--count N] [--lines M] [--seed S] [--mutate NAME|all] -- PROGRAM [ARGS..]
    compare_flight.py [--count N] [--lines M] [--seed S] [--mutate NAME|all] --self
    compare_flight.py --list

PROGRAM reads a script on standard input and writes the flight (docs/FLIGHT.md). --self compares with
the model itself, without a program. --mutate changes one thing of the model, all of them each alone
with `all`: then the comparison must fail. --list prints the names. Exit 0: no differences, everything
that a flight may bring was met, nothing was refused by an end where nothing was lost, and no end
aborted with 2; with `all`, every changed model was told apart.
"""

import collections
import functools
import re
import sys

import flightmodel
import traces
from compare_scripts import ENTRY, Side, main
from flightmutants import MUTANTS
from flightscripts import FULL_DUE, LINES_DUE, OUTCOMES_DUE, Coverage, Maker

ENTRIES = ('start-req', 'start-rsp', 'data-req', 'end-req', 'end-rsp', 'abort-req', 'ind', 'ind abort', 'ind peer-abort', 'late', 'start', 'stop')

ANSWER = re.compile(rb'(?:^| )(?:ok((?: (?!ground|air)\S+)*)|refused (\d+))')


def tally(outputs):
    """Answers of ends, and of the flight to its own lines; how long the longest action list was."""
    met, longest = collections.Counter(), 0
    for output in outputs:
        for line in output.split(b'\n')[1:-5]:
            for entries, number in ANSWER.findall(line):
                names = [name.decode() for name in ENTRY.findall(entries)]
                met[int(number) if number else 'ok'] += 1
                met.update(names)
                longest = max(longest, len(names))
    return met, longest


def due(coverage):
    return {'what came of deliveries': (OUTCOMES_DUE, coverage.outcomes), 'lines': (LINES_DUE, coverage.lines),
            'lines with as much under way as may be': (FULL_DUE, coverage.full)}


def faults(coverage):
    return [*coverage.wrong, *(f'an outcome that cannot be: {key}' for key in coverage.outcomes if key not in OUTCOMES_DUE)]


SIDE = Side(flightmodel.trace, MUTANTS, Maker, Coverage, ENTRIES, due, faults, lambda coverage: (), functools.partial(traces.stored, 'flight'), tally)

if __name__ == '__main__':
    sys.exit(main(__doc__, SIDE))
