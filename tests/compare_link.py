"""Compares a program that plays scripts of a link with linkmodel.py, on fresh random scripts.

    compare_link.py [--count N] [--lines M] [--seed S] [--mutate NAME|all] -- PROGRAM [ARGS..]
    compare_link.py [--count N] [--lines M] [--seed S] [--mutate NAME|all] --self
    compare_link.py --list

PROGRAM reads a script on standard input and writes the trace (01, bench examples). --self compares
with the model itself, without a program. --mutate changes one entry of the model, all of them each
alone with `all`: then the comparison must fail. --list prints the names. Exit 0: no differences, and
every pair of a state and an event and every timer's end were met; with `all`, every changed model
was told apart.
"""

import functools
import sys

import linkmodel
import traces
from compare_scripts import Side, main, tally
from linkmutants import MUTANTS
from linkscripts import EVENTS, Coverage, Maker, ends_due, lines_due, pairs_due

ENTRIES = ('start-req', 'data-req', 'end-req', 'abort-req', 'ind', 'ind abort', 'ind peer-abort', 'late', 'start', 'stop')


def due(coverage):
    return {'pairs': (pairs_due()[0], coverage.pairs), 'LI states and lines': (lines_due(), coverage.lines),
            'ends of timers': (ends_due(), coverage.ends)}


def faults(coverage):
    known = set(pairs_due()[0])
    return [f'pair met though it cannot be: {pair}' for pair in coverage.pairs if pair not in known]


def notes(coverage):
    yield from (f'  pairs not reachable {count}: {why}' for why, count in pairs_due()[1].items())
    joints = [states for states in coverage.joints if states != 'END']
    yield (f'states of all four modules together {len(joints)}/{3 * 5 * 5 * 3}, '
           f'with events {len(coverage.joint_pairs)}/{(3 * 5 * 5 * 3 - 1) * len(EVENTS) + 9}')


SIDE = Side(linkmodel.trace, MUTANTS, Maker, Coverage, ENTRIES, due, faults, notes, functools.partial(traces.stored, 'ground'), tally)

if __name__ == '__main__':
    sys.exit(main(__doc__, SIDE))
