#!/usr/bin/env python3
"""tables.py COUNTING RUNNING DRIVER MIX: runs the driver and prints what it measured, and which goals are reached.

COUNTING and RUNNING are what stands before the driver to count its instructions and to run it.
"""

import re
import subprocess
import sys

REPORTS = ['demand report', 'emergency report', 'event report', 'periodic report', 'report, all elements', 'report, any elements']
NAMES = ['negative ack, 16 names']
CONTRACTS = ['demand contract', 'event contract', 'periodic contract', 'event, all elements', 'event, any elements']
# At most so many instructions for one of asn1c, and so many nanoseconds for one of the codec by hand.
GOALS = [(what, group, most) for what, groups, most in (
    ('read', REPORTS, 0.06), ('read', NAMES, 0.12), ('read', CONTRACTS, 0.05),
    ('write', REPORTS, 0.18), ('write', NAMES, 0.5), ('write', CONTRACTS, 0.25)) for group in groups]
HAND_GOALS = {'read': 1.1, 'write': 1.5}
RUNS = 5


def run(before, mode):
    """What the driver tells in a mode, {group: {operation: (calls, value)}}, and the plugin's lines."""
    driver, mix = sys.argv[3:]
    done = subprocess.run([*before.split(), driver, mode, mix], capture_output=True, text=True)
    if done.returncode:
        sys.exit(done.stdout + done.stderr)
    told = {}
    for line in done.stdout.splitlines():
        group, operation, calls, value = line.split('|')
        told.setdefault(group, {})[operation] = int(calls), float(value)
    return told, done.stderr


def values(before, mode):
    return {group: {operation: value for operation, (_, value) in row.items()} for group, row in run(before, mode)[0].items()}


def times(before):
    """Nanoseconds a call: the least of some runs, as other work on the machine only adds to them."""
    runs = [values(before, 'time') for _ in range(1 if before else RUNS)]
    return {group: {operation: min(one[group][operation] for one in runs) for operation in row} for group, row in runs[0].items()}


def counts(before):
    """Instructions a call, without those of the loop around it."""
    told, cuts = run(before, 'count')
    length, last = {}, 0
    for tag, count in re.findall(r'^cut (\d+) (\d+)$', cuts, re.M):
        length[int(tag)], last = int(count) - last, int(count)
    each = {group: {operation: length[tag] / calls for operation, (calls, tag) in row.items()} for group, row in told.items()}
    return {group: {operation: n - row['nothing'] for operation, n in row.items()} for group, row in each.items()}


def ratio(row, what):
    theirs = row['their ' + what] + (row['their free'] if what == 'read' else 0)
    return row['our ' + what] / theirs


def hand_ratio(row, what):
    return row['our ' + what] / row['hand ' + what]


def codecs_of(found):
    return {group: row for group, row in found.items() if group != 'link'}


def hand_of(found):
    """The groups that the codec by hand has."""
    return {group: row for group, row in found.items() if 'hand read' in row}


def table(title, found, columns):
    print('\n' + title)
    print(' ' * 24 + ''.join(f'{name:>13}' for name, _ in columns))
    for group, row in found.items():
        print(f'{group:24}' + ''.join(f'{column(row):13.{3 if name == "ratio" else 0}f}' for name, column in columns))


def codecs(title, found):
    table(title, codecs_of(found), [
        ('asn1c read', lambda row: row['their read']), ('free', lambda row: row['their free']),
        ('ours read', lambda row: row['our read']), ('ratio', lambda row: ratio(row, 'read')),
        ('asn1c write', lambda row: row['their write']), ('ours write', lambda row: row['our write']),
        ('ratio', lambda row: ratio(row, 'write')), ('asn1c check', lambda row: row['their check'])])
    table(title + ': by hand', hand_of(found), [
        ('hand read', lambda row: row['hand read']), ('ours read', lambda row: row['our read']), ('ratio', lambda row: hand_ratio(row, 'read')),
        ('hand write', lambda row: row['hand write']), ('ours write', lambda row: row['our write']), ('ratio', lambda row: hand_ratio(row, 'write'))])


def stacks(found):
    table('Deepest stack, octets', codecs_of(found), [
        ('asn1c read', lambda row: row['their read']), ('ours read', lambda row: row['our read']),
        ('asn1c write', lambda row: row['their write']), ('ours write', lambda row: row['our write'])])


def links(counted, timed, deep):
    print('\nCalls on a link with a periodic contract' + ('' if 'link' in counted else ': the archive has none'))
    for call in counted.get('link', {}):
        if call != 'nothing':
            print(f'{call:24}{counted["link"][call]:8.0f} instructions {timed["link"][call]:8.0f} ns {deep["link"][call]:8.0f} octets of stack')


def goal(what, group, reached, most):
    print(f'{what:6} {group:24}{reached:6.3f}  at most {most:<4}  {"reached" if reached <= most else "NOT REACHED"}')


def slowest(found):
    """The group that compares worst with asn1c; the goal is that none takes more."""
    reached, what, group = max((ratio(row, what), what, group) for group, row in codecs_of(found).items() for what in ('read', 'write'))
    goal(what, group, reached, 1)


def goals(counted, timed, note):
    print('\nGoals: instructions for one of asn1c, free included')
    for what, group, most in GOALS:
        goal(what, group, ratio(counted[group], what), most)
    print('\nGoals: nothing slower than asn1c; the slowest, by instructions and by nanoseconds' + note)
    slowest(counted)
    slowest(timed)
    print('\nGoals: nanoseconds for one of the codec by hand' + note)
    for what, most in HAND_GOALS.items():
        for group, row in hand_of(timed).items():
            goal(what, group, hand_ratio(row, what), most)


def main():
    counting, running = sys.argv[1:3]
    note = ', EMULATED: the ratios of a real processor are others' if running else ''
    counted, timed, deep = counts(counting), times(running), values(running, 'stack')
    codecs('Instructions a PDU (x86-64)', counted)
    codecs('Nanoseconds a PDU' + note, timed)
    stacks(deep)
    links(counted, timed, deep)
    goals(counted, timed, note)


main()
