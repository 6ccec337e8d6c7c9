"""Compares a program that makes the calls of include/adsc.h from lines with hostmodel.py, on fresh random lines.

    compare_host.py [--writing N] [--records N] [--blocks N] [--seed S] [--change NAME|all] -- PROGRAM [ARGS..]
    compare_host.py [--writing N] [--records N] [--blocks N] [--seed S] --self
    compare_host.py --list

PROGRAM is hostcall. Writing is from numbers: each at its edges, each two things out of order, every room; calls are on link records, good and
one step off; blocks of the flight log are opened, appended to, finished and played,
damaged ones too. --change compares with a model of which one rule is changed, all of them each alone with `all`: then the comparison must fail. --self
compares each such model with the plain one, without a program. --list prints their names. Exit 0: no differences, and everything that is due was met;
with `all` and --self, every changed model was told apart.
"""

import argparse
import collections
import contextlib
import dataclasses
import functools
import random
import sys

import hostlines
import hostmodel
import logmodel
import percoder
from altering import replaced
from compare_coder import run
from hostmodel import INTERVALS, LINK_OCTETS, ORDER, RULES, STATES
from percoder import PRESENCE

REFUSALS = {'write_ground': (5, 6, 10, 15), 'write_air': (5, 6, 10, 12), 'open': (3, 6), 'request': (29, 1, 5, 10, 15, 6), 'elapse': (29, 4, 6),
            **{word: (29, 1, 6) if word == 'user_abort' else (29, 2, 6) for word in hostmodel.CALLS if word not in ('request', 'elapse')},
            'block_open': (5, 6), 'block_append': (20, 5, 6), 'block_finish': (20,), 'block_play': (29, 20, 18, 19)}
ONES = b' 1' * hostmodel.MOST_NUMBERS
UNREADABLE = (b'', b'write', b'write_ground', b'write_ground  ', b'Open    1', b'open   1', b'open    1 ', b'open    01', b'open    4294967296',
              b'open 0   1', b'open AA   1', b'open a a a 1', b'open   ' + ONES + b' 1', b'elapse ' + b'00' * (hostmodel.MOST_OCTETS + 1) + b'  ', b'elapse    1\r',
              b'down   \0', b'downs   ', b'adsc_down   ', b'down   ' + ONES * 70)
READABLE = (b'down   ', b'elapse   ', b'open   ' + ONES, b'elapse ' + b'00' * hostmodel.MOST_OCTETS + b'  ', b'request    6 0 1 1')


# ---- models with one rule changed

class PresenceLast(percoder.Writer):
    """10 and 15 behind the fields that the presence bits stand before."""
    def fields(self, form, value, optional, required):
        try:
            super().fields(form, value, optional, required)
        except percoder.Refused as refused:
            if refused.number in (10, 15):
                for name, content in required:
                    self.write(content, value[name])
            raise


class RangesLast(percoder.Writer):
    """10, 12 and 15 before the 5 of any number."""
    late = False

    def number(self, name, value, kind='number'):
        try:
            super().number(name, value, kind)
        except percoder.Refused:
            self.late = True

    def write(self, form, value):
        super().write(form, value)
        if self.late and form in ('air*', 'ground*'):
            raise percoder.Refused(5)


def fitting(value, optional):
    """The presence bits without those that do not fit."""
    return {**value, PRESENCE: value[PRESENCE] % (1 << len(optional))} if PRESENCE in value else value


class RangeLast(percoder.Writer):
    """Presence bits that do not fit are judged by those that do."""
    def present(self, form, value, optional):
        percoder.judge_presence(form, optional, super().present(form, fitting(value, optional), optional))
        return super().present(form, value, optional)


class RangeCut(percoder.Writer):
    """Presence bits that do not fit are left out."""
    def present(self, form, value, optional):
        return super().present(form, fitting(value, optional), optional)


class CountLast(percoder.Writer):
    """12 behind the entries."""
    def list(self, form, value, content):
        for entry in value[:16]:
            percoder.Writer().write(content, entry)
        super().list(form, value, content)


class AbsentJudged(percoder.Writer):
    """Fields that are absent are judged too."""
    def fields(self, form, value, optional, required):
        super().fields(form, value, optional, required)
        for name, content in optional:
            if content in percoder.RANGES and name in value:
                percoder.Writer().write(content, value[name])


class AbsentElements(percoder.Writer):
    """Vectors, weather and other groups and choices that are absent are judged too."""
    def fields(self, form, value, optional, required):
        super().fields(form, value, optional, required)
        for name, content in optional:
            if content in ('ground-vector', 'air-vector', 'weather', 'level-range', 'air-speed-change', 'profile-request') and name in value:
                percoder.Writer().write(content, value[name])


class AnyElement(percoder.Writer):
    """An event contract with no element is taken."""
    def fields(self, form, value, optional, required):
        if form in percoder.NEEDS_ONE and value.get(PRESENCE) == 0:
            self.put('presence', form, 0, len(optional))
        else:
            super().fields(form, value, optional, required)


@contextlib.contextmanager
def exchanged(form, one, other):
    """Two fields in each other's place, with their presence bits."""
    percoder.exchange(form, one, other)
    try:
        yield RULES
    finally:
        percoder.exchange(form, one, other)


@contextlib.contextmanager
def needing(form):
    """One of the parts has to be there."""
    percoder.NEEDS_ONE.add(form)
    try:
        yield RULES
    finally:
        percoder.NEEDS_ONE.discard(form)


@contextlib.contextmanager
def ranged(name, low, high):
    """One range moved at one end."""
    kept = percoder.RANGES[name]
    percoder.RANGES[name] = (kept[0] + low, kept[1] + high)
    try:
        yield RULES
    finally:
        percoder.RANGES[name] = kept


def ruled(**fields):
    return lambda: contextlib.nullcontext(dataclasses.replace(RULES, **fields))


def without_state(place, state):
    timer, states, also = RULES.watch[place]
    return replaced(RULES.watch, place, (timer, tuple(other for other in states if other != state), also))


def keeping(place, kept):
    """One interval is not what a call makes of it."""
    def alter(before, after):
        return [kept(*pair) if at == place else pair[1] for at, pair in enumerate(zip(before, after))]
    return ruled(kept=alter)


def interval_changes(place, name, states):
    where, _ = RULES.places[place]
    yield f'{name}, least significant octet first', ruled(places=replaced(RULES.places, place, (where, 'little')))
    for most in (7199, 7201):
        yield f'{name} up to {most}', ruled(longest=replaced(RULES.longest, place, most))
    for state in STATES['PC']:
        other = replaced(RULES.wanted, place, tuple(set(states) ^ {state}))
        yield (f'{name} may be missing in {state}', ruled(wanted=other)) if state in states else (f'{name} may be in {state}', ruled(allowed=other))
        yield f'{name} {"not" if state in states else "due"} in {state}', ruled(wanted=other, allowed=other)
    yield f'{name} not written back', keeping(place, lambda was, now: was)
    yield f'{name} written back as none', keeping(place, lambda was, now: 0)
    yield f'{name} never cleared', keeping(place, lambda was, now: now or was)


def grace_changes():
    yield 'its setting', ruled(grace=lambda setting, asked, force: setting)
    yield 'its interval', ruled(grace=lambda setting, asked, force: force)
    yield 'the longer of both', ruled(grace=lambda setting, asked, force: max(force, setting))
    yield 'both and one more', ruled(grace=lambda setting, asked, force: force + setting + 1)
    yield 'both but one', ruled(grace=lambda setting, asked, force: force + setting - 1)


def first(judge):
    return (judge, *(other for other in ORDER if other != judge))


def changes():
    yield 'writing: 10 behind the fields', ruled(writer=PresenceLast)
    yield 'writing: 10, 12 and 15 before 5', ruled(writer=RangesLast)
    yield 'writing: presence bits that do not fit are 10 first', ruled(writer=RangeLast)
    yield 'writing: presence bits that do not fit are left out', ruled(writer=RangeCut)
    yield 'writing: 12 behind the entries', ruled(writer=CountLast)
    yield 'writing: absent fields are judged', ruled(writer=AbsentJudged)
    yield 'writing: no element is taken', ruled(writer=AnyElement)
    yield 'writing: absent elements are judged', ruled(writer=AbsentElements)
    yield 'writing: heading by the bit of the track', ruled(heading_by='ground-parts')
    for name in hostmodel.SIGNED:
        yield f'writing: {name} without a sign', ruled(signed=tuple(other for other in hostmodel.SIGNED if other != name))
        yield f'writing: {name} sent plus one more', functools.partial(ranged, name, -1, -1)
    for form, one, other in percoder.EXCHANGED + percoder.ALIKE:
        yield f'writing: {one} and {other} of {form} exchanged', functools.partial(exchanged, form, one, other)
    for form in ('ground-vector', 'air-vector', 'weather'):
        yield f'writing: no {form} with nothing in it', functools.partial(needing, form)
    yield 'writing: a refused write changes the output', ruled(spoils=('out',))
    yield 'writing: a good write changes what follows', ruled(spoils=('past',))
    yield 'writing: a refused write tells a length', ruled(told=0)
    yield 'writing: one octet too few is room', ruled(short=1)
    yield 'writing: just enough is no room', ruled(short=-1)
    for name in percoder.RANGES:
        if name not in ('octets', 'count', 'air-index', 'ground-index', 'negative-reason', 'noncompliance-index', 'interval-index', 'air-speed-index',
                        'air-speed-change-index', 'profile-index'):
            yield f'writing: {name} ends one later', functools.partial(ranged, name, 0, 1)
            yield f'writing: {name} ends one sooner', functools.partial(ranged, name, 0, -1)
            yield f'writing: {name} begins one sooner', functools.partial(ranged, name, -1, 0)
    yield 'writing: lists of 17', functools.partial(ranged, 'count', 0, 1)
    yield 'writing: lists of 15', functools.partial(ranged, 'count', 0, -1)
    yield 'records: a setting of 0', ruled(settings=(0, 86400))
    yield 'records: no setting of 1', ruled(settings=(2, 86400))
    yield 'records: a setting of 86,401', ruled(settings=(1, 86401))
    yield 'records: no setting of 86,400', ruled(settings=(1, 86399))
    yield 'records: 0 left', ruled(left=(0, 0))
    yield 'records: not 1 left', ruled(left=(2, 0))
    yield 'records: setting + 1 left', ruled(left=(1, 1))
    yield 'records: not the setting left', ruled(left=(1, -1))
    yield 'records: a timer that rests has 1 left', ruled(resting=1)
    yield 'records: a timer that rests has any left', ruled(resting=1 << 32)
    yield 'records: IDLE with a module not IDLE', ruled(ended=('END',))
    yield 'records: END with a module not IDLE', ruled(ended=('IDLE',))
    for li in ('START', 'ACTIVE'):
        yield f'records: {li} wants every module IDLE', ruled(ended=(*RULES.ended, li))
    for place, module in enumerate(STATES):
        yield f'records: one state more of {module}', ruled(states=tuple(most + (place == at) for at, most in enumerate(RULES.states)))
    for size in (84, 85, 86, 92, 94):
        yield f'records: {size} octets', ruled(sizes=(LINK_OCTETS, size))
    yield 'records: nine settings are taken', ruled(counts=(9, *RULES.counts))
    yield 'records: asked and force exchanged', ruled(places=RULES.places[::-1])
    for place, (name, states) in enumerate(INTERVALS.items()):
        for what, change in interval_changes(place, name, states):
            yield f'records: {what}', change
    for most, change in grace_changes():
        yield f'records: PC2 has at most {most} left', change
    for place, (timer, states, also) in enumerate(RULES.watch):
        for state in states:
            yield f'records: {timer} need not run in {state}', ruled(watch=without_state(place, state))
        if also:
            yield f'records: {timer} runs without {also}', ruled(watch=replaced(RULES.watch, place, (timer, states, None)))
    for judge in ORDER[1:]:
        yield f'records: {judge} before 29', ruled(order=first(judge))
    yield 'records: 6 before 4', ruled(order=('bad_record', 'no_room', 'long_elapse', 'not_listed', 'bad_fields'))
    yield 'records: 6 before 1 and 2', ruled(order=('bad_record', 'long_elapse', 'no_room', 'not_listed', 'bad_fields'))
    yield 'records: 6 before fields', ruled(order=('bad_record', 'long_elapse', 'not_listed', 'no_room', 'bad_fields'))
    yield 'records: fields before 1', ruled(order=('bad_record', 'long_elapse', 'bad_fields', 'not_listed', 'no_room'))
    yield 'records: 30 octets are room', ruled(room=30)
    yield 'records: 31 octets are no room', ruled(room=32)
    yield 'records: a refused call changes the record', ruled(spoils=('link',))
    yield 'records: a refused call changes the answer', ruled(spoils=('out',))


def logged(**fields):
    """A rule of the log's model changed."""
    return ruled(log=dataclasses.replace(RULES.log, **fields))


def block_changes():
    order, play = RULES.append_order, RULES.play_order
    yield '5 before 20', ruled(append_order=(order[1], order[0], order[2]))
    yield '6 before 5', ruled(append_order=(order[0], order[2], order[1]))
    for judge in order:
        yield f'append without {judge}', ruled(append_order=tuple(other for other in order if other != judge))
    yield '20 of the octets before 29', ruled(play_order=(play[1], play[0], play[2]))
    yield '29 last', ruled(play_order=(*play[1:], play[0]))
    yield 'no 29', ruled(play_order=play[1:])
    for room in (503, 505):
        yield f'payloads of {room}', ruled(payload=room)
    for kept in (128, 130, 255):
        yield f'{kept} octets kept', ruled(kept_data=kept)
    for size in (35, 36, 37, 39, 41):
        yield f'settings of {size} are kept', ruled(settings_octets=(*RULES.settings_octets, size))
        if size != 36:
            yield f'settings of {size} are played', logged(lengths=(*RULES.log.lengths, size))
    yield 'settings of 36 are not played', logged(lengths=RULES.settings_octets)
    for old in (1, 86399):
        yield f'settings of 36 are played with {old}', logged(old=lambda numbers, old=old: old)
    for last in (RULES.last_block - 1, RULES.last_block + 1):
        yield f'blocks up to {last} are opened', ruled(last_block=last)
        yield f'blocks up to {last} are played', logged(last=last)
    yield 'an append writes zeros', ruled(behind=lambda octets: bytes(len(octets)))
    yield 'what stands behind stays', ruled(finished=lambda octets: octets)
    yield 'checks without the 1', logged(check=lambda octets: (logmodel.check(octets) - 1) % 65521)
    yield 'zeros of any length are no settings yet', ruled(none=lambda link: not any(link))
    yield 'no record is no settings yet', ruled(none=lambda link: False)
    for ground in RULES.log.grounds:
        yield f'play without {ground[0]}', logged(grounds=tuple(other for other in RULES.log.grounds if other != ground))
    yield '19 before 18', logged(grounds=(RULES.log.grounds[1], RULES.log.grounds[0], *RULES.log.grounds[2:]))
    yield '20 before 19', logged(grounds=(RULES.log.grounds[0], *RULES.log.grounds[2:], RULES.log.grounds[1]))
    for word in logmodel.KINDS:
        if word not in logmodel.WITH_DATA:
            yield f'{word} has data', logged(with_data=(*logmodel.WITH_DATA, word))
    yield 'a refused call changes the block or the record', ruled(spoils=('link',))
    yield 'a refused call changes the output', ruled(spoils=('out',))


CHANGES = {**dict(changes()), **{f'blocks: {name}': change for name, change in block_changes()}}


def part_of(line):
    word = line.split(b' ')[0].decode()
    return 'blocks' if word in hostmodel.BLOCKS else 'writing' if word.startswith('write') else 'records'


def changed(line, rules):
    """The answer of a changed model, 'none' where it has none."""
    try:
        return hostmodel.answer(line, rules)
    except (ArithmeticError, AssertionError, AttributeError, LookupError, TypeError, ValueError):
        return 'none'


def told_apart(change, cases):
    with change() as rules:
        return any(changed(line, rules) != text for line, text in cases)


def change_all(rng, program, lines):
    """Each changed model against the program or the plain one, up to the first line of its own that tells them apart. Then all is put back, and none does."""
    answers, faults = run(program, lines) if program else ([hostmodel.answer(line) for line in lines], [])
    cases = list(zip(lines, answers))
    rng.shuffle(cases)
    own = collections.defaultdict(list)
    for line, text in cases:
        own[part_of(line)].append((line, text))
    missed = [name for name, change in CHANGES.items() if not told_apart(change, own[name.split(':')[0]])]
    faults += ['the plain model is told apart'] if told_apart(ruled(), cases) else []
    print(f'changed models {len(CHANGES)}, told apart {len(CHANGES) - len(missed)}')
    for fault in [*faults, *(f'not told apart: {name}' for name in missed)]:
        print(fault)
    return 1 if faults or missed else 0


# ---- the program


def tally(lines, expected):
    """word -> number -> how often"""
    met = collections.defaultdict(collections.Counter)
    for line, text in zip(lines, expected):
        if text != 'refused 17':
            met[line.split(b' ')[0].decode()][int(text.split(' ')[0])] += 1
    return met


def faults_of(numbers, met):
    faults = [f'no {word} was due with {number}' for word, known in REFUSALS.items() for number in (0, *known) if not numbers[word][number]]
    faults += [f'{word} was due with {number}' for word in numbers for number in numbers[word] if number not in (0, *REFUSALS[word])]
    return faults + [f'not met: {name}' for name in hostlines.WRITING_DUE + hostlines.RECORDS_DUE + hostlines.BLOCKS_DUE if not met[name]]


def show_met(numbers, met):
    for word in hostmodel.WORDS:
        print(f'{word}: accepted {numbers[word][0]},', *(f'refused-{number} {numbers[word][number]}' for number in REFUSALS[word]))
    print('29 alone:', *(f'{ground} {met[f"29 for {ground} alone"]}' for ground in hostlines.GROUNDS))
    print('29 before another:', *(f'{other} {met[f"29 before {other}"]}' for first, other in hostlines.MEETINGS if first == 29))
    for edges, what in ((hostlines.SETTINGS, 'setting {}'), (hostlines.EDGES, '{} left')):
        for how in ('runs', 'rests'):
            names = [what.format(edge) for edge in edges]
            print(f'a timer {how}:', *(f'{name} {sum(met[f"{timer} {how}: {name}"] for timer in hostlines.TIMERS)},' for name in names))
    print('PC2:', *(f'{edge} left {met[f"PC2: {edge} left"]},' for edge in hostlines.GRACES))
    for name, states in INTERVALS.items():
        for how, some in (('has', states), ('lacks', set(STATES['PC']) - set(states))):
            print(f'{name} where PC {how} it:', *(f'{n} {sum(met[f"PC {state}: {name} {n}"] for state in some)},' for n in hostlines.SECONDS))
    print('in force after a call:', *(f'{force} {sum(met[name] for name in met if f": {force} in force" in name)},' for force in hostlines.FORCES))
    print(f'edges and grounds met: writing {sum(met[name] > 0 for name in hostlines.WRITING_DUE)}/{len(hostlines.WRITING_DUE)},',
          f'records {sum(met[name] > 0 for name in hostlines.RECORDS_DUE)}/{len(hostlines.RECORDS_DUE)},',
          f'blocks {sum(met[name] > 0 for name in hostlines.BLOCKS_DUE)}/{len(hostlines.BLOCKS_DUE)}')


def compare(program, lines, met, change):
    with CHANGES[change]() if change else contextlib.nullcontext(RULES) as rules:
        expected = [changed(line, rules) if change else hostmodel.answer(line) for line in lines]
    answers, faults = run(program, lines)
    answers += ['(none)'] * (len(lines) - len(answers))
    wrong = [place for place, text in enumerate(expected) if answers[place] != text]
    if change is None:
        numbers = tally(lines, expected)
        met.update(name for line, text in zip(lines, expected) for name in hostlines.moved(line, text))
        faults += faults_of(numbers, met)
        show_met(numbers, met)
    print(f'differences {len(wrong)}')
    for place in wrong[:5]:
        print(f'line {place + 1}: {lines[place].decode("latin-1")[:700]!r}\n  expected {expected[place]}\n  got      {answers[place]}')
    for fault in faults[:20]:
        print(f'fault: {fault}')
    return 1 if wrong or faults else 0


def parse():
    arguments, program = sys.argv[1:], []
    if '--' in arguments:
        place = arguments.index('--')
        arguments, program = arguments[:place], arguments[place + 1:]
    parser = argparse.ArgumentParser(usage=__doc__.split('\n\n')[1])
    parser.add_argument('--writing', type=int, default=20000)
    parser.add_argument('--records', type=int, default=10000)
    parser.add_argument('--blocks', type=int, default=2000)
    parser.add_argument('--seed', type=int, default=None)
    parser.add_argument('--change', choices=['all', *CHANGES], metavar='NAME')
    parser.add_argument('--self', action='store_true', dest='itself')
    parser.add_argument('--list', action='store_true')
    options = parser.parse_args(arguments)
    if not options.list and options.itself == bool(program):
        parser.error('give a program or --self')
    return options, program


def main():
    options, program = parse()
    if options.list:
        print('\n'.join(CHANGES))
        return 0
    seed = random.SystemRandom().randrange(1 << 32) if options.seed is None else options.seed
    rng = random.Random(seed)
    writing, met = hostlines.writing(rng, options.writing)
    records, more = hostlines.records(rng, options.records)
    blocks, yet = hostlines.blocks(rng, options.blocks)
    lines = writing + records + blocks + list(UNREADABLE + READABLE)
    assert all((hostmodel.parts(line) is None) == (line in UNREADABLE) for line in lines)
    print(f'seed {seed}' + (f', changed: {options.change}' if options.change else ''))
    print(f'lines {len(lines)}: writing {len(writing)}, records {len(records)}, blocks {len(blocks)}')
    if options.itself or options.change == 'all':
        return change_all(rng, program, lines)
    return compare(program, lines, met + more + yet, options.change)


if __name__ == '__main__':
    sys.exit(main())
