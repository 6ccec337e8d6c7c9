"""Models of a side of a link changed by one thing, for the tests of tests: what linkmutants.py and airmutants.py share.

Rows are pairs of their steps and what comes after. A family of changed models is (name, trace function) each; `changed` is the
side's: it makes the trace function of a model whose link, box or rules are others.
"""

import operator

from sidemodel import LIMITS, ORDER

# Who does not judge records: a difference has to show in what the box does.
BLIND = tuple(judge for judge in ORDER if judge != 'bad_record')


def without(sequence, place):
    return sequence[:place] + sequence[place + 1:]


def replaced(sequence, place, entry):
    return sequence[:place] + (entry,) + sequence[place + 1:]


def swapped(sequence, place):
    return sequence[:place] + (sequence[place + 1], sequence[place]) + sequence[place + 2:]


def step_name(step):
    return step.replace(' ', '-')


def altered_steps(todo, conditions=()):
    """(name, steps): one left out, two in the other order, one without its condition."""
    for place, step in enumerate(todo):
        yield f'no-{step_name(step)}', without(todo, place)
        if place + 1 < len(todo):
            yield f'{step_name(todo[place + 1])}-before-{step_name(step)}', swapped(todo, place)
        for condition in conditions:
            if step.endswith(condition):
                bare = step[:-len(condition)]
                yield f'always-{step_name(bare)}', replaced(todo, place, bare)


def altered_row(row, states, conditions=()):
    """(name, row), None for a row that is missing."""
    todo, after = row
    yield 'drop', None
    yield from ((name, (steps, after)) for name, steps in altered_steps(todo, conditions))
    yield from ((f'to-{state}', (todo, state)) for state in states if state != after)


def with_row(rows, key, row):
    rows = {**rows, key: row}
    return rows if row else {known: rows[known] for known in rows if known != key}


# The clock

class NoTime:
    def elapse(self, seconds):
        before = self.left
        entries = super().elapse(seconds)
        self.left = self.left if entries else before
        return entries


class LoadsOnce:
    """A timer stopped and started again goes on with what was left."""
    kept = {}

    def stop(self, timer):
        self.kept = {**self.kept, timer: self.left.get(timer, self.loads(timer))}
        return super().stop(timer)

    def start(self, timer):
        entries = super().start(timer)
        self.left[timer] = self.kept.get(timer, self.left[timer])
        return entries


class OneSecond:
    def loads(self, timer):
        return 1


def loading(link, timer, more):
    """A start of one timer loads so many seconds more, but one at least."""
    class Loads(link):
        def loads(self, started):
            return max(1, super().loads(started) + more(self)) if started == timer else super().loads(started)
    return Loads


def of(link, change):
    """A side's link with a change of the clock."""
    return type(change.__name__, (change, link), {})


def clock_mutants(changed, link):
    yield 'clock.fewer-left', changed(expired=operator.lt)
    yield 'clock.one-early', changed(expired=lambda left, seconds: left <= seconds + 1)
    yield 'clock.first-elapse', changed(expired=lambda left, seconds: True)
    yield 'clock.never', changed(expired=lambda left, seconds: False)
    for change in (NoTime, LoadsOnce):
        yield f'clock.{change.__name__}', changed(of(link, change))
    yield 'load.one-second', changed(of(link, OneSecond))


# Refusals, lines and the trace

class GivesAll:
    """Requests that no row lists are taken, and do nothing."""
    def row(self, event):
        return super().row(event) or ('DC', ((), self.state['DC']))


def refusal_mutants(changed, link, words, asked):
    """Only 17 meets another refusal on one line: 3 is of `set`, 4 of `elapse`, 1 and 2 of the rest, 29 of none."""
    for judge in ('bad_setting', 'long_elapse', 'not_listed'):
        rest = tuple(other for other in BLIND if other != judge)
        yield f'order.{judge.replace("_", "-")}-before-17', changed(order=(judge, *rest))
    yield 'order.no-bad-setting', changed(order=tuple(judge for judge in BLIND if judge != 'bad_setting'))
    yield 'order.no-long-elapse', changed(order=tuple(judge for judge in BLIND if judge != 'long_elapse'))
    yield 'order.no-request-refused', changed(of(link, GivesAll))
    for word in words:
        if word not in ('set', 'elapse'):
            others = set(asked) ^ {word}
            yield f'refusal.{word}-{"1-for-2" if word in others else "2-for-1"}', changed(asked=tuple(others))
    for name, most in LIMITS.items():
        yield f'limit.{name.replace(" ", "-")}-one-less', changed(limits={**LIMITS, name: most - 1})
        yield f'limit.{name.replace(" ", "-")}-one-more', changed(limits={**LIMITS, name: most + 1})


def trace_mutants(trace):
    yield 'trace.last-line-needs-LF', lambda script: trace(script[:script.rfind(b'\n') + 1])
    yield 'trace.line-after-last-LF', lambda script: trace(script + b'\n' if script.endswith(b'\n') else script)
    yield 'trace.CR-left-out', lambda script: trace(script.replace(b'\r\n', b'\n'))
    yield 'trace.end-counts-accepted', lambda script: recounted(trace(script))


def recounted(trace):
    """The last line tells the calls that were accepted."""
    *most, _, _ = trace.split(b'\n')
    return b'\n'.join([*most, b'end %d' % sum(b' ok' in line for line in most), b''])
