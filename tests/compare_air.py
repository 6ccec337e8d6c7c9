"""Compares a program that plays scripts of the air side of a link with airmodel.py, on fresh random scripts.

    compare_air.py [--count N] [--lines M] [--seed S] [--mutate NAME|all] -- PROGRAM [ARGS..]
    compare_air.py [--count N] [--lines M] [--seed S] [--mutate NAME|all] --self
    compare_air.py --list

PROGRAM reads a script on standard input and writes the trace (docs/DECISIONS.md, F75). --self
compares with the model itself, without a program. --mutate changes one entry of the model, all of
them each alone with `all`: then the comparison must fail. --list prints the names. Exit 0: no
differences, and every row of the air tables, every cell without one, every pair of a state and what
is asked and EM3's end were met, rows and cells by the stored scripts too; with `all`, every changed
model was told apart.
"""

import collections
import functools
import math
import sys

import airmodel
import traces
from airmutants import MUTANTS
from airscripts import CELLS_DUE, ROWS_DUE, STATES, Coverage, Maker, covered, ends_due, lines_due, pairs_due
from compare_scripts import Side, main, tally

ENTRIES = ('start-rsp', 'data-req', 'end-rsp', 'abort-req', 'ind', 'ind abort', 'ind peer-abort', 'start', 'stop')

stored = functools.partial(traces.stored, 'air')


@functools.lru_cache(maxsize=None)
def by_stored():
    return covered(stored())


def due(coverage):
    return {'rows': (ROWS_DUE, coverage.rows), 'cells without a row': (CELLS_DUE, coverage.cells),
            'rows, by stored scripts': (ROWS_DUE, by_stored().rows), 'cells, by stored scripts': (CELLS_DUE, by_stored().cells),
            'pairs': (pairs_due(), coverage.pairs), 'LI states and lines': (lines_due(), coverage.lines),
            'ends of EM3': (ends_due(), coverage.ends)}


def faults(coverage):
    known = set(pairs_due())
    return ([f'pair met though it cannot be: {pair}' for pair in coverage.pairs if pair not in known]
            + [f'row met that is none: {row}' for row in coverage.rows if row not in ROWS_DUE])


def notes(coverage):
    tables = collections.Counter(event if event == 'stop operation' else table for table, _, event in ROWS_DUE)
    yield 'rows by table: ' + ', '.join(f'{table} {count}' for table, count in tables.items())
    yield f'states of all four modules together {len(coverage.joints)}/{math.prod(map(len, STATES.values()))}'


SIDE = Side(airmodel.trace, MUTANTS, Maker, Coverage, ENTRIES, due, faults, notes, stored, tally)

if __name__ == '__main__':
    sys.exit(main(__doc__, SIDE))
