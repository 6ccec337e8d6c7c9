"""Models of the air side with one entry changed: a test of the test that compares it (compare_air.py --mutate).

    MUTANTS: name -> the trace function of the changed model

Except where the watch table itself is changed they do not judge records (29): a difference has to
show in what the box does.
"""

import dataclasses
import functools

import percoder
from airmodel import ASKED, LI_STATES, MAY_COME, MODULES, OWN, REASONS, RULES, SENDS, STATES, WORDS, Box, Link, trace
from airscripts import CELLS_DUE, REQUESTS
from altering import (BLIND, altered_row, altered_steps, clock_mutants, loading, refusal_mutants, replaced, step_name, trace_mutants,
                      with_row)
from sidemodel import GROUND_PDUS, ORDER, REQUEST_TYPES, read, sends_default, written


def changed(link=Link, made=Box, **fields):
    return functools.partial(trace, rules=dataclasses.replace(RULES, **{'order': BLIND, **fields}), link=link, made=made)


# Rows of the modules

MODULE_STEPS = ('ind', 'send', 'start EM3', 'stop EM3')


def row_mutants():
    """A row left out, a step left out, moved or too many, another next state."""
    for key, (todo, after) in RULES.rows.items():
        more = [(f'and-{step_name(step)}', ((*todo, step), after)) for step in MODULE_STEPS
                if step not in todo and (step != 'send' or key[2].startswith('req/'))]
        for name, new in [*altered_row((todo, after), STATES[key[0]]), *more]:
            yield '.'.join((*key, name)), changed(rows=with_row(RULES.rows, key, new))


# Requests that no row lists: where a row too many would stand.
NOWHERE = [event for event in REQUESTS if event not in {event for _, _, event in RULES.rows} and event != 'req/provider-abort']


def added_mutants():
    """A row too many, in each cell that has none: what comes is shown or sent, and nothing changes. Then those of 002's version 2
    and of other readings."""
    cells = [key for key in CELLS_DUE if key[0] in MODULES]
    cells += [('DC', state, event) for state in STATES['DC'] for event in NOWHERE]
    for module, state, event in cells:
        row = (('send' if event.startswith('req/') else 'ind',), state)
        yield f'{module}.{state}.{event}.add', changed(rows=with_row(RULES.rows, (module, state, event), row))
    for key, row in {
            ('DC', 'PENDING', 'req/positive-ack/demand'): (('send',), 'ACTIVE'),
            ('EM', 'MODIFY', 'req/positive-ack/modify-emergency'): (('send',), 'ACTIVE'),
            ('EM', 'MODIFY', 'req/cancel-emergency'): (('send', 'start EM3'), 'CANCEL'),
            ('EM', 'CANCEL', 'req/emergency'): (('stop EM3', 'send'), 'ACTIVE'),
            ('EM', 'IDLE', 'cancel-emergency-ack'): ((), 'IDLE')}.items():
        yield '.'.join((*key, 'taken')), changed(rows=with_row(RULES.rows, key, row))


def halt_mutants():
    """A request to stop operation leads elsewhere, or is not the one that stops EM3."""
    for key, (todo, after) in RULES.halts.items():
        for state in STATES[key[0]]:
            if state != after:
                yield f'stop.{".".join(key)}.to-{state}', changed(halts={**RULES.halts, key: (todo, state)})
        if key[0] == 'EM':
            other = () if todo else ('stop EM3',)
            yield f'stop.{".".join(key)}.{"no" if todo else "and"}-stop-EM3', changed(halts={**RULES.halts, key: (other, after)})


# LI and the abort rule

def shows(li, todo, name):
    """In START EM3 does not run, so that the place of `stop operation` is never seen; an abort leads LI to IDLE whatever stands there."""
    hidden = li == 'START' and 'stop-operation' in name and '-before-' in name
    return not hidden and not (name.startswith('to-') and todo == ('abort invalid PDU',))


# Rows that LI has not, by the cell; a row for an answer in IDLE would meet no module that lists it.
ADDED = {
    **{('IDLE', call): ((), 'IDLE') for call in ('user-abort', 'peer-abort', 'ground-abort', 'down')},
    ('IDLE', 'emergency'): (('request as data-req',), 'IDLE'),
    ('START', 'emergency'): (('request as start-rsp',), 'ACTIVE'),
    **{(li, 'no request'): (('data-req',), li) for li in LI_STATES},
    **{(li, 'start-ind'): (('pass',), li) for li in ('START', 'ACTIVE')},
    **{(li, 'data'): (('pass',), li) for li in ('IDLE', 'START')},
    **{(li, 'end-ind'): RULES.li['ACTIVE', 'end-ind'] for li in ('IDLE', 'START')},
    **{(li, 'end-ind bare'): RULES.li['ACTIVE', 'end-ind bare'] for li in ('IDLE', 'START')},
    **{(li, f'{word} invalid'): (('abort invalid PDU',), 'IDLE') for word, places in (
        ('start-ind', ('START', 'ACTIVE')), ('data', ('IDLE', 'START')), ('end-ind', ('IDLE', 'START'))) for li in places},
}
assert set(ADDED) == {key[1:] for key in CELLS_DUE if key[0] == 'LI'} - {('IDLE', 'answer')}

# A step of LI in place of another.
INSTEAD = [
    ('START', 'answer', 'request as start-rsp', 'request as data-req'),
    ('ACTIVE', 'answer', 'request as data-req', 'request as start-rsp'),
    ('ACTIVE', 'emergency', 'request as data-req', 'request as start-rsp'),
    ('ACTIVE', 'end-ind', 'end-rsp ack of cancel-all', 'end-rsp'),
    ('ACTIVE', 'end-ind bare', 'end-rsp', 'end-rsp ack of cancel-all'),
    ('ACTIVE', 'end-ind invalid', 'abort invalid PDU', 'end-rsp'),
    # No user is active, or no dialogue exists (002:4771-4773, 002:6036).
    ('IDLE', 'start-ind invalid', 'abort invalid PDU', 'abort-req invalid PDU'),
    ('IDLE', 'start-ind invalid', 'abort invalid PDU', 'ind abort invalid PDU'),
    *((li, call, 'abort invalid PDU', 'abort sequence error') for li, call in (
        ('IDLE', 'start-ind invalid'), ('ACTIVE', 'data invalid'), ('ACTIVE', 'end-ind invalid'))),
    *((li, 'ground-abort', 'ind abort of the PDU', f'ind abort {why}') for li in ('START', 'ACTIVE') for why in (
        'undefined', 'invalid PDU', 'provider failure')),
    *((li, 'peer-abort', 'ind peer-abort', 'ind abort undefined') for li in ('START', 'ACTIVE')),
    *((li, 'down', 'ind abort provider failure', 'ind peer-abort') for li in ('START', 'ACTIVE')),
]


def li_mutants():
    for (li, call), (todo, after) in RULES.li.items():
        for name, new in altered_row((todo, after), LI_STATES):
            if shows(li, todo, name):
                yield f'LI.{li}.{step_name(call)}.{name}', changed(li=with_row(RULES.li, (li, call), new))
    for (li, call), row in ADDED.items():
        yield f'LI.{li}.{step_name(call)}.add', changed(li=with_row(RULES.li, (li, call), row))
    for li, call, step, other in INSTEAD:
        todo, after = RULES.li[li, call]
        row = (replaced(todo, todo.index(step), other), after)
        yield f'LI.{li}.{step_name(call)}.{step_name(other)}-for-{step_name(step)}', changed(li=with_row(RULES.li, (li, call), row))


def sort_mutants():
    """A PDU that LI takes for another kind: a cancel-emergency is refused in START all the same, as EM is IDLE there."""
    for name, kind in SENDS.items():
        other = 'emergency' if kind == 'answer' else 'answer'
        if name != 'cancel-emergency':
            yield f'sends.{name}.{other}', changed(sends={**SENDS, name: other})
        yield f'sends.{name}.no-request', changed(sends={known: SENDS[known] for known in SENDS if known != name})
    for word, may in MAY_COME.items():
        for name in (*GROUND_PDUS, None):       # None: what does not read
            others = tuple(known for known in may if known != name) if name in may else (*may, name)
            yield f'{word}.{"not-" if name in may else ""}{name}', changed(may_come={**MAY_COME, word: others})


class GroundsAbort(Link):
    """The ground's provider abort goes."""
    def link_step(self, step, octets):
        if step.startswith('abort-req '):
            return [f'abort-req {percoder.write("ground", ("provider-abort", self.reason(step[10:]))).hex()}']
        return super().link_step(step, octets)


class FourBits(Link):
    """An abort reason has four bits, as in 002 (002:3801-3816)."""
    def link_step(self, step, octets):
        if step.startswith('abort-req '):
            return [f'abort-req {0x4000 | self.reason(step[10:]) << 6:04x}']
        return super().link_step(step, octets)


class Quiet(Link):
    """An abort is not told where no contract and no emergency is in place (002:4671-4681)."""
    def abort(self, why):
        idle = self.all_idle()
        return [entry for entry in super().abort(why) if not (idle and entry.startswith('ind '))]


def abort_mutants():
    for name, steps in altered_steps(RULES.abort):
        yield f'abort.{name.replace("-{}", "")}', changed(abort=steps)
    for why, reason in REASONS.items():
        yield f'reason.{step_name(why)}', changed(reasons={**REASONS, why: reason + 1})
    for link in (GroundsAbort, FourBits, Quiet):
        yield f'abort.{link.__name__}', changed(link)
    for name, (kind, request) in OWN.items():
        for other in range(len(REQUEST_TYPES)):
            if other != request:
                yield f'own.{step_name(name)}.{REQUEST_TYPES[other]}', changed(own={**OWN, name: (kind, other)})


# EM3

class Restarts(Link):
    """Whatever comes while EM3 runs loads it anew."""
    def call(self, kind, octets):
        runs, entries = bool(self.left), super().call(kind, octets)
        if runs and self.left:
            self.left['EM3'] = self.settings['EM3']
        return entries


class ExpiredNotStopped(Link):
    def elapse(self, seconds):
        entries = super().elapse(seconds)
        return [entry for entry in entries if entry != 'stop EM3']


class RunsOn(Link):
    """EM3 is not stopped by the acknowledgement, though it is shown so."""
    def play(self, event, octets, send):
        before, entries = dict(self.left), super().play(event, octets, send)
        self.left = before if event == 'cancel-emergency-ack' else self.left
        return entries


def timer_mutants():
    yield from clock_mutants(changed, Link)
    for link in (Restarts, ExpiredNotStopped, RunsOn):
        yield f'EM3.{link.__name__}', changed(link)
    yield 'EM3.one-less', changed(loading(Link, 'EM3', lambda link: -1))
    yield 'EM3.one-more', changed(loading(Link, 'EM3', lambda link: 1))
    yield 'EM3.six-minutes', changed(loading(Link, 'EM3', lambda link: 360 - link.settings['EM3']))
    # Here 29 judges, by the changed table.
    for states in ((), *(('EM-CANCEL', f'EM-{state}') for state in STATES['EM'][:-1])):
        yield f'watch.EM3.in-{"-and-".join(states) or "no-state"}', changed(order=ORDER, watch=(('EM3', states, None),))


# Other readings

class EndsItself(Link):
    """LI goes IDLE where all modules are IDLE, as the ground's ends the link (F85)."""
    def call(self, kind, octets):
        entries = super().call(kind, octets)
        self.li = 'IDLE' if self.li == 'ACTIVE' and self.all_idle() else self.li
        return entries


class BareInd(Link):
    """Indications without their octets."""
    def step(self, step, octets, send):
        return [step] if step == 'ind' else super().step(step, octets, send)


class BareEnd(Link):
    """The indication of cancel-all without its octets."""
    def link_step(self, step, octets):
        return [step] if step == 'ind' else super().link_step(step, octets)


class FixedReason(Link):
    """A modify is refused with the reason that 002 has, whatever the user gives (002:5754)."""
    def step(self, step, octets, send):
        value = read('air', octets)
        if step == 'send' and value[0] == 'negative-ack' and REQUEST_TYPES[value[1]['request']] == 'modify-emergency':
            octets = percoder.write('air', ('negative-ack', {**value[1], 'reason': ('reason-1', None)}))
        return super().step(step, octets, send)


class ShownAsWritten(Link):
    """A contract is shown as it would be written, not as it came."""
    def step(self, step, octets, send):
        return super().step(step, written('ground', octets) if step == 'ind' else octets, send)


class DefaultInvalid(Box):
    """A contract that sends the default is invalid, as before L5."""
    def kind_of(self, call):
        return f'{call.word} invalid' if call.word in ('start-ind', 'data') and sends_default(call.octets) else super().kind_of(call)


def refusing(refused):
    """A box that refuses some requests besides."""
    class Refuses(Box):
        def not_listed(self, call):
            return super().not_listed(call) or (1 if self.link and call.event and refused(self.link.state, call.event) else 0)
    return Refuses


# Duties of the user (002:6714, 002:6723, 002:6751-6753): refused by the box.
DUTIES = {
    'emergency-without-a-contract': lambda state, event: (
        event == 'req/emergency' and {state['EC'], state['PC']} == {'IDLE'}),
    'periodic-report-in-an-emergency': lambda state, event: event == 'req/periodic-report' and state['EM'] != 'IDLE',
    'answer-by-a-periodic-report-in-an-emergency': lambda state, event: event == 'req/periodic-report+ack' and state['EM'] != 'IDLE',
    'cancel-emergency-with-a-contract-waiting': lambda state, event: event == 'req/cancel-emergency' and 'PENDING' in state.values(),
}


def other_mutants():
    for link in (EndsItself, BareInd, BareEnd, FixedReason):
        yield f'link.{link.__name__}', changed(link)
    yield 'default.ShownAsWritten', changed(ShownAsWritten)
    yield 'default.DefaultInvalid', changed(made=DefaultInvalid)
    for name, refused in DUTIES.items():
        yield f'duty.{name}', changed(made=refusing(refused))
    yield from refusal_mutants(changed, Link, WORDS, ASKED)
    yield from trace_mutants(trace)
    yield 'trace.head-of-the-ground', lambda script: trace(script).replace(b'adsc air trace 1', b'adsc trace 1')


FAMILIES = (row_mutants, added_mutants, halt_mutants, li_mutants, sort_mutants, abort_mutants, timer_mutants, other_mutants)
MUTANTS = dict(mutant for family in FAMILIES for mutant in family())
