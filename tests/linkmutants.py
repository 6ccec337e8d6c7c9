"""Models with one entry changed: a test of the test that compares links (compare_link.py --mutate).

    MUTANTS: name -> the trace function of the changed model

Except where the watch table itself is changed, or an interval stays where only a record shows it,
they do not judge records (29): a difference has to show in what the box does.
"""

import dataclasses
import functools
import re

from altering import (BLIND, altered_row, altered_steps, clock_mutants, loading, refusal_mutants, replaced, step_name, swapped,
                      trace_mutants, with_row)
from linkmodel import (ASKED, DOWNLINK, INTERVAL_STATES, LIMITS, MODULES, ORDER, REASONS, RULES, WORDS, Box, Link, call_of,
                       read, seconds, trace)
from linkscripts import LI_STATES, STATES
from percoder import DEFAULTS
from sidemodel import sends_default

def changed(link=Link, made=Box, **fields):
    return functools.partial(trace, rules=dataclasses.replace(RULES, **{'order': BLIND, **fields}), link=link, made=made)


judged = functools.partial(changed, order=ORDER)


# Rows

CONDITIONS = (' if it runs', ' without an emergency', ' if PC is ACTIVE')


def row_mutants():
    for key, row in RULES.rows.items():
        for name, new in altered_row(row, STATES[key[0]], CONDITIONS):
            yield '.'.join((*key, name)), changed(rows=with_row(RULES.rows, key, new))


# Events of a module's own contract; with EM those that no module lists.
OWN = {
    'DC': ['req/demand-contract', 'demand-report', 'demand-report+ack', 'noncompliance/demand', 'negative-ack/demand'],
    'EC': ['req/event-contract', 'req/cancel-contract/event', 'event-report', 'event-report+ack', 'noncompliance/event',
           'negative-ack/event', 'positive-ack/event', 'positive-ack/cancel-event'],
    'PC': ['req/periodic-contract', 'req/cancel-contract/periodic', 'periodic-report', 'periodic-report+ack',
           'noncompliance/periodic', 'negative-ack/periodic', 'positive-ack/periodic', 'positive-ack/cancel-periodic'],
    'EM': ['req/modify-emergency', 'cancel-emergency', 'emergency', 'emergency+ack', 'positive-ack/modify-emergency'],
}
OWN['EM'] += [event for event in DOWNLINK if event not in {event for _, _, event in RULES.rows}]


def added_mutants():
    """A row too many: the event is shown or sent, and nothing changes."""
    for module in MODULES:
        for state in STATES[module]:
            for event in OWN[module]:
                if (module, state, event) not in RULES.rows:
                    row = (('send' if event.startswith('req/') else 'ind',), state)
                    yield f'{module}.{state}.{event}.add', changed(rows=with_row(RULES.rows, (module, state, event), row))


# LI and the abort rule

def shows(li, todo, steps):
    """In END all modules are IDLE; the place of `modules IDLE` in a row is never seen."""
    gone = set(todo) - set(steps)
    if gone:
        return not (li == 'END' and gone == {'modules IDLE'})
    return [step for step in todo if step != 'modules IDLE'] != [step for step in steps if step != 'modules IDLE']


# Rows that LI has not.
ADDED = [
    ('IDLE', 'data', (('pass',), 'IDLE')),
    ('START', 'data', (('pass',), 'START')),
    ('IDLE', 'start-cnf', (('pass',), 'IDLE')),
    ('ACTIVE', 'start-cnf', (('pass',), 'ACTIVE')),
    ('END', 'start-cnf', (('late',), 'END')),
    ('IDLE', 'start-rej', ((), 'IDLE')),
    ('ACTIVE', 'start-rej', (('stops', 'modules IDLE'), 'IDLE')),
    ('END', 'start-rej', ((), 'IDLE')),
    ('START', 'contract', (('request as data-req',), 'START')),
    ('END', 'contract', (('request as start-req',), 'START')),
    ('IDLE', 'cancel-all', (('end-req PDU', 'start LI1'), 'END')),
    ('START', 'cancel-all', (('stops', 'modules IDLE', 'end-req PDU', 'start LI1'), 'END')),
    ('END', 'cancel-all', (('end-req PDU',), 'END')),
    *((li, 'end-cnf', ((), li)) for li in ('IDLE', 'START', 'ACTIVE')),
    *(('IDLE', call, ((), 'IDLE')) for call in ('user-abort', 'down', 'air-abort', 'peer-abort')),
    *((li, 'no request', (('data-req PDU',), li)) for li in LI_STATES),
]


def li_mutants():
    for (li, call), (todo, after) in RULES.li.items():
        for name, new in altered_row((todo, after), LI_STATES, (' if all IDLE',)):
            if new is None or new[1] != after or shows(li, todo, new[0]):
                yield f'LI.{li}.{call}.{name}', changed(li=with_row(RULES.li, (li, call), new))
    for li, call, row in ADDED:
        yield f'LI.{li}.{step_name(call)}.add', changed(li=with_row(RULES.li, (li, call), row))
    yield 'LI.END.data.read', changed(li=with_row(RULES.li, ('END', 'data'), (('pass',), 'END')))
    yield 'LI.END.data.shown', changed(li=with_row(RULES.li, ('END', 'data'), (('ind PDU',), 'END')))
    for li in ('START', 'ACTIVE', 'END'):
        row = RULES.li[li, 'air-abort']
        new = (tuple(step.replace('of the PDU', 'undefined') for step in row[0]), row[1])
        yield f'LI.{li}.air-abort.reason-not-taken', changed(li=with_row(RULES.li, (li, 'air-abort'), new))


def abort_mutants():
    for name, steps in altered_steps(RULES.abort):
        if shows('', RULES.abort, steps):
            yield f'abort.{name.replace("-{}", "")}', changed(abort=steps)
    for why, reason in REASONS.items():
        yield f'reason.{step_name(why)}', changed(reasons={**REASONS, why: reason + 1})


# Watch table and clock

def watch_mutants():
    """Here 29 judges, by the changed table. The order of its timers is that of the settings too."""
    for place, (timer, states, also) in enumerate(RULES.watch):
        for state in states:
            entry = (timer, tuple(other for other in states if other != state), also)
            yield f'watch.{timer}.not-{state}', judged(watch=replaced(RULES.watch, place, entry))
        if also:
            yield f'watch.{timer}.always', judged(watch=replaced(RULES.watch, place, (timer, states, None)))
        if place + 1 < len(RULES.watch):
            yield f'watch.{RULES.watch[place + 1][0]}-before-{timer}', judged(watch=swapped(RULES.watch, place))


class StopsBackwards(Link):
    def stops(self):
        return super().stops()[::-1]


class ExpiredNotStopped(Link):
    def elapse(self, seconds):
        if any(left <= seconds for left in self.left.values()):
            self.left = {timer: left for timer, left in self.left.items() if left > seconds}
            return self.abort('timer expiry')
        return super().elapse(seconds)


class FirstLoses(Link):
    """Only the first running timer loses seconds."""
    def elapse(self, seconds):
        before = self.left
        entries = super().elapse(seconds)
        for timer in list(self.left)[1:]:
            self.left[timer] = before[timer]
        return entries


class FirstJudged(Link):
    """Only the first running timer can expire."""
    def elapse(self, seconds):
        first = list(self.left)[:1]
        if any(self.left[timer] <= seconds for timer in first):
            return self.abort('timer expiry')
        self.left = {timer: max(1, left - seconds) for timer, left in self.left.items()}
        return []


def time_mutants():
    yield from clock_mutants(changed, Link)
    for link in (StopsBackwards, ExpiredNotStopped, FirstLoses, FirstJudged):
        yield f'clock.{link.__name__}', changed(link)
    timers = [timer for timer, _, _ in RULES.watch]
    for timer, other in zip(timers, timers[1:] + timers[:1]):
        yield f'load.{timer}-with-{other}', changed(loading(
            Link, timer, lambda link, timer=timer, other=other: link.settings[other] - link.settings[timer]))
        yield f'load.{timer}-one-less', changed(loading(Link, timer, lambda link: -1))


# END and its clock (02, L8)

def end_row_mutants():
    """LI1 started or stopped, and said so, by what does not."""
    for (li, call), (todo, after) in RULES.li.items():
        if not any('LI1' in step for step in todo):
            yield f'LI.{li}.{call}.start-LI1', changed(li=with_row(RULES.li, (li, call), (todo + ('start LI1',), after)))
    yield 'LI.END.data.stop-LI1', changed(li=with_row(RULES.li, ('END', 'data'), (('stop LI1', 'late'), 'END')))
    yield 'LI.END.data.stop-and-start-LI1', changed(li=with_row(RULES.li, ('END', 'data'), (('stop LI1', 'late', 'start LI1'), 'END')))
    yield 'LI.END.end-cnf.start-LI1', changed(li=with_row(RULES.li, ('END', 'end-cnf'), (('start LI1',), 'IDLE')))


def late(then):
    """Late data does something to LI1, and does not say so."""
    class Late(Link):
        def call(self, kind, octets):
            closed = self.li == 'END'
            entries = super().call(kind, octets)
            if closed and kind == 'data':
                then(self)
            return entries
    return Late


class NeverStarted(Link):
    """LI1 starts, it is said, and does not run."""
    def start(self, timer):
        entries = super().start(timer)
        self.left.pop('LI1', None)
        return entries

    def stops(self):
        return super().stops() or (['stop LI1'] if self.li == 'END' else [])


class GoesOn(Link):
    """LI1 stops, it is said, and runs on."""
    expiring = False

    def stop(self, timer):
        left = self.left.get(timer)
        entries = super().stop(timer)
        self.left.update({timer: left} if timer == 'LI1' and left and not self.expiring else {})
        return entries

    def elapse(self, seconds):
        self.expiring = True
        entries = super().elapse(seconds)
        self.expiring = False
        return entries


class Unwatched(Link):
    """LI1 is used up, and nothing happens."""
    def elapse(self, seconds):
        if self.li != 'END':
            return super().elapse(seconds)
        self.left = {timer: max(1, left - seconds) for timer, left in self.left.items()}
        return []


class AsConfirmed(Link):
    """LI1 is used up, and the link is as if its end were confirmed."""
    def elapse(self, seconds):
        used_up = self.li == 'END' and any(left <= seconds for left in self.left.values())
        return self.call('end-cnf', b'') if used_up else super().elapse(seconds)


class NobodyToTell(Link):
    """LI1 is used up: the user, who has nothing at work, is not told."""
    def elapse(self, seconds):
        closed = self.li == 'END'
        return [entry for entry in super().elapse(seconds) if not (closed and entry.startswith('ind abort'))]


class EndsAgain(Link):
    """LI1 is used up, and the end is asked for again."""
    def elapse(self, seconds):
        used_up = self.li == 'END' and any(left <= seconds for left in self.left.values())
        return ['stop LI1', 'end-req', *self.start('LI1')] if used_up else super().elapse(seconds)


NINE = re.compile(rb'set(?: [0-9]+){9}')


class NineTaken(Box):
    """A `set` of nine numbers is taken, with LI1 as in an old log."""
    @staticmethod
    def call_of(line):
        return call_of(line + b' 86400' if NINE.fullmatch(line) else line)


def end_mutants():
    yield from end_row_mutants()
    yield 'end.late-data-restarts', changed(late(lambda link: link.start('LI1')))
    yield 'end.late-data-stops', changed(late(lambda link: link.left.clear()))
    for link in (NeverStarted, GoesOn, Unwatched, AsConfirmed, NobodyToTell, EndsAgain):
        yield f'end.{link.__name__}', changed(link)
    yield 'end.LI1-first', judged(watch=RULES.watch[-1:] + RULES.watch[:-1])
    yield 'end.NineTaken', changed(made=NineTaken)


# Intervals (02, L2)

def with_intervals(key, *todo):
    return {**RULES.intervals, key: todo}


def interval_row_mutants():
    """What asks for an interval, brings it into force and clears it. One that is not cleared shows in the record alone."""
    for (state, event), todo in RULES.intervals.items():
        for name, steps in altered_steps(todo):
            cleared = 'clear asked' in steps or 'clear asked' not in todo
            if cleared or state != 'START-PENDING' or event != 'negative-ack/periodic':     # PC goes IDLE: both are cleared
                yield f'interval.{state}.{event}.{name}', (changed if cleared else judged)(
                    intervals=with_intervals((state, event), *steps))
    yield 'interval.in-force-at-the-request', changed(
        intervals=with_intervals(('ACTIVE', 'req/periodic-contract'), 'ask', 'asked into force'))
    yield 'interval.in-force-at-the-first-request', judged(
        intervals=with_intervals(('IDLE', 'req/periodic-contract'), 'ask', 'asked into force'))
    yield 'interval.in-force-by-a-refusal', changed(
        intervals=with_intervals(('PENDING', 'negative-ack/periodic'), 'asked into force', 'clear asked'))
    yield 'interval.cleared-by-a-refusal', changed(
        intervals=with_intervals(('PENDING', 'negative-ack/periodic'), 'clear asked', 'clear force'))
    yield 'interval.cleared-by-a-cancel', judged(
        intervals=with_intervals(('ACTIVE', 'req/cancel-contract/periodic'), 'clear force'))
    for what, todo in (('in-force', ('asked into force',)), ('cleared', ('clear asked',)),
                       ('in-force-and-cleared', ('asked into force', 'clear asked'))):
        yield f'interval.{what}-by-a-plain-report', changed(
            intervals=with_intervals(('PENDING', 'periodic-report'), *todo))


class Forgets(Link):
    """Modules go IDLE, and PC's intervals stay."""
    def link_step(self, step, octets):
        if step != 'states IDLE':
            return super().link_step(step, octets)
        self.state = dict.fromkeys(MODULES, 'IDLE')
        return []


def forgetting(todo):
    return tuple(step.replace('modules IDLE', 'states IDLE') for step in todo)


def interval_idle_mutants():
    """An interval kept in IDLE: the next contract's takes its place, so the record alone shows it."""
    for name in INTERVAL_STATES:
        yield f'interval.{name}-kept-in-IDLE', judged(pc_idle=tuple(step for step in RULES.pc_idle if step != f'clear {name}'))
    for (li, call), (todo, after) in RULES.li.items():
        if li != 'END' and forgetting(todo) != todo:
            yield f'interval.kept-by.{li}.{call}', judged(Forgets, li=with_row(RULES.li, (li, call), (forgetting(todo), after)))
    yield 'interval.kept-by.abort', judged(Forgets, abort=forgetting(RULES.abort))


class NotInEmergency(Link):
    """An answer during an emergency leaves the old interval in force."""
    def set_intervals(self, todo, octets):
        super().set_intervals([step for step in todo if step != 'asked into force' or not self.emergency()], octets)


class AtEmergencysEnd(Link):
    """What is agreed during an emergency comes into force at its end."""
    def set_intervals(self, todo, octets):
        if 'asked into force' not in todo or not self.emergency():
            super().set_intervals(todo, octets)

    def step(self, step, octets, send):
        if step == 'start PC2 if PC is ACTIVE' and self.asked and self.state['PC'] == 'ACTIVE':
            super().set_intervals(('asked into force', 'clear asked'), octets)
        return super().step(step, octets, send)


class FromBeforeEmergency(Link):
    """At an emergency's end PC2 runs for the interval that was in force when the emergency began."""
    before = 0

    def play(self, event, octets, send):
        self.before = self.before if self.emergency() else self.force
        return super().play(event, octets, send)

    def loads(self, timer):
        stale = timer == 'PC2' and self.emergency() and self.before
        return self.settings[timer] + self.before if stale else super().loads(timer)


class LoadedTooEarly(Link):
    """PC2 is loaded before a change is in force."""
    before = 0

    def play(self, event, octets, send):
        self.before = self.force
        return super().play(event, octets, send)

    def loads(self, timer):
        return self.settings[timer] + (self.before or self.force) if timer == 'PC2' else super().loads(timer)


class FirstAtReports(Link):
    """A report starts PC2 with the interval that was agreed first."""
    first = 0

    def set_intervals(self, todo, octets):
        super().set_intervals(todo, octets)
        self.first = self.force if self.state['PC'] == 'START-PENDING' else self.first

    def loads(self, timer):
        stale = timer == 'PC2' and self.state['PC'] == 'ACTIVE' and not self.emergency()
        return self.settings[timer] + self.first if stale else super().loads(timer)


class ModifyCounts(Link):
    """The interval of a modify is in force for PC too."""
    def play(self, event, octets, send):
        if event == 'req/modify-emergency' and self.force:
            self.force = self.rules.seconds(*read('ground', octets)[1])
        return super().play(event, octets, send)


class ModifyLoads(Link):
    """EM1 runs for the interval of the last modify, as PC2 does for its own."""
    modified = 0

    def play(self, event, octets, send):
        if event == 'req/modify-emergency':
            self.modified = self.rules.seconds(*read('ground', octets)[1])
        return super().play(event, octets, send)

    def loads(self, timer):
        return super().loads(timer) + (self.modified if timer == 'EM1' else 0)


class LoadsADayAtMost(Link):
    def loads(self, timer):
        return min(super().loads(timer), LIMITS['setting'])


class JudgedByGrace(Link):
    """29 wants no more than its setting of PC2 too."""
    def good(self):
        return super().good() and self.left.get('PC2', 0) <= self.settings['PC2']


class RefusedAsks(Box):
    """A request that is refused while another one has no answer asks for its interval."""
    def answer(self, line):
        answer, call = super().answer(line), call_of(line)
        if answer == 'refused 1' and call.event == 'req/periodic-contract' and self.link.asked:
            self.link.set_intervals(('ask',), call.octets)
        return answer


class SentAsGiven(Link):
    """A request goes as its octets came, with the default."""
    def step(self, step, octets, send):
        return [f'{send} {octets.hex()}'] if step == 'send' else super().step(step, octets, send)


class DefaultAsksNothing(Link):
    """5 minutes that are sent leave the interval asked for as it was, and count a minute where there was none."""
    def set_intervals(self, todo, octets):
        if 'ask' in todo and sends_default(octets):
            self.asked = self.asked or 60
        else:
            super().set_intervals(todo, octets)


class DefaultUnread(Box):
    """A request that sends the default is 17, as before L5."""
    def not_readable(self, call):
        return super().not_readable(call) or (17 if call.word == 'req' and sends_default(call.octets) else 0)


ABSENT = DEFAULTS['periodic-contract', 'interval']

# How an interval is counted, in seconds.
COUNTED = {
    'minutes-as-seconds': lambda unit, number: number,
    'seconds-as-minutes': lambda unit, number: 60 * number,
    'as-sent': lambda unit, number: seconds(unit, number - 1),
    'one-second-less': lambda unit, number: seconds(unit, number) - 1,
    'one-second-more': lambda unit, number: seconds(unit, number) + 1,
    'absent-is-none': lambda *interval: 0 if interval == ABSENT else seconds(*interval),
    'absent-is-1-minute': lambda *interval: 60 if interval == ABSENT else seconds(*interval),
    'absent-is-5-seconds': lambda *interval: 5 if interval == ABSENT else seconds(*interval),
    'an-hour-at-most': lambda *interval: min(3600, seconds(*interval)),
}


def interval_load_mutants():
    for name, parts in {'setting-alone': ('setting',), 'interval-alone': ('force',), 'asked-one': ('setting', 'asked'),
                        'setting-twice': ('setting', 'setting', 'force'), 'interval-twice': ('setting', 'force', 'force')}.items():
        yield f'interval.PC2-loads-{name}', changed(loads={**RULES.loads, 'PC2': parts})
    for timer in RULES.loads:
        if timer not in ('PC2', 'LI1'):         # in END there is none
            yield f'interval.{timer}-loads-it-too', changed(loads={**RULES.loads, timer: ('setting', 'force')})
    yield 'interval.PC1-loads-the-asked-one', changed(loads={**RULES.loads, 'PC1': ('setting', 'asked')})
    for name, count in COUNTED.items():
        yield f'interval.{name}', changed(seconds=count)
    for link in (NotInEmergency, AtEmergencysEnd, FromBeforeEmergency, LoadedTooEarly, FirstAtReports, ModifyCounts, ModifyLoads,
                 LoadsADayAtMost):
        yield f'interval.{link.__name__}', changed(link)
    yield 'interval.RefusedAsks', changed(made=RefusedAsks)
    for link in (SentAsGiven, DefaultAsksNothing):
        yield f'default.{link.__name__}', changed(link)
    yield 'default.DefaultUnread', changed(made=DefaultUnread)


def interval_record_mutants():
    """Here 29 judges, by a changed table of the states that have an interval, or by another most."""
    for name, states in INTERVAL_STATES.items():
        for state in STATES['PC']:
            yield f'interval.{name}-{"not-" if state in states else ""}in-{state}', judged(
                interval_states={**INTERVAL_STATES, name: tuple(set(states) ^ {state})})
    yield 'interval.longest-one-less', judged(longest=RULES.longest - 1)
    yield 'interval.JudgedByGrace', judged(JudgedByGrace)


# The end request and indications

class EndFirst(Link):
    """The end request before what it follows."""
    def call(self, kind, octets):
        entries = super().call(kind, octets)
        if 'end-req' in entries:
            place = entries.index('end-req')
            entries[place - 1:place + 1] = entries[place], entries[place - 1]
        return entries


class EndTwice(Link):
    def end(self):
        return super().end() * 2


class EndAfterAbort(Link):
    def end(self):
        return super().end() or (['end-req'] if self.all_idle() else [])


class BareInd(Link):
    """Indications without their octets."""
    def step(self, step, octets, send):
        return [step] if step == 'ind' else super().step(step, octets, send)


def other_mutants():
    for link in (EndFirst, EndTwice, EndAfterAbort, BareInd):
        yield f'link.{link.__name__}', changed(link)
    yield from refusal_mutants(changed, Link, WORDS, ASKED)
    yield from trace_mutants(trace)


FAMILIES = (row_mutants, added_mutants, li_mutants, abort_mutants, watch_mutants, time_mutants, end_mutants, interval_row_mutants,
            interval_idle_mutants, interval_load_mutants, interval_record_mutants, other_mutants)
MUTANTS = dict(mutant for family in FAMILIES for mutant in family())
