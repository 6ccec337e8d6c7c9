"""A model of the ground side of one link, written from page 01 alone, its intervals from L2 and L5 of 02 and the watch over END from L8.

It shares nothing with the box it is compared with but these pages; it stands on sidemodel.py, and
reads PDUs with percoder.py. First the tables of 01, as data in the page's order with its words above
each group, and those of L2 and L8; below them the model that plays them.

    linkmodel.py < script > trace
    trace(script octets) -> trace octets
"""

import dataclasses
import functools
import operator
import re
import sys

import percoder
import sidemodel
from sidemodel import AIRCRAFT_PDUS, LIMITS, MODULES, NUMBER, OCTETS, ORDER, aircraft_pdu, asked, ground_pdu, read, settings, steps, written

# Events of the tables: requests are `req/` and the ground PDU, the rest are aircraft PDUs.
DOWNLINK = AIRCRAFT_PDUS

# What LI is asked for by `req`; cancel-emergency-ack and provider abort are no request (01, script words).
REQUESTS = {
    'req/demand-contract': 'contract',
    'req/event-contract': 'contract',
    'req/periodic-contract': 'contract',
    'req/cancel-contract/event': 'change',
    'req/cancel-contract/periodic': 'change',
    'req/modify-emergency': 'change',
    'req/cancel-all': 'cancel-all',
    'req/cancel-emergency-ack': 'no request',
    'req/provider-abort': 'no request',
}

# What the user asks: refusal 1 where it is not listed. The rest are link primitives: refusal 2.
ASKED = ('req', 'user-abort')

# Ground tables: module, states, event, what is done in turn, next state. Confirms are shown as `ind` (01,
# answers). "Downlink data not listed for a state: abort 3. Requests not listed: refusal 1."
ROWS = [
    # DC. "IDLE: request, send, start DC1, PENDING."
    ('DC', 'IDLE', 'req/demand-contract', 'send, start DC1', 'PENDING'),
    # "PENDING: report with ack, stop DC1, report ind, IDLE; negative ack (demand), stop, confirm, IDLE; demand
    # noncompliance, stop, confirm, start DC2, ACTIVE."
    ('DC', 'PENDING', 'demand-report+ack', 'stop DC1, ind', 'IDLE'),
    ('DC', 'PENDING', 'negative-ack/demand', 'stop DC1, ind', 'IDLE'),
    ('DC', 'PENDING', 'noncompliance/demand', 'stop DC1, ind, start DC2', 'ACTIVE'),
    # "ACTIVE: report without ack, stop DC2, ind, IDLE."
    ('DC', 'ACTIVE', 'demand-report', 'stop DC2, ind', 'IDLE'),

    # EC. "IDLE: request, send, start EC1, START-PENDING."
    ('EC', 'IDLE', 'req/event-contract', 'send, start EC1', 'START-PENDING'),
    # "ACTIVE: request, send, start EC1, PENDING; cancel, send, start EC2, CANCEL; plain report, ind."
    ('EC', 'ACTIVE', 'req/event-contract', 'send, start EC1', 'PENDING'),
    ('EC', 'ACTIVE', 'req/cancel-contract/event', 'send, start EC2', 'CANCEL'),
    ('EC', 'ACTIVE', 'event-report', 'ind', 'ACTIVE'),
    # "START-PENDING and PENDING: report with ack (ind), positive ack (event) or event noncompliance (confirm), each
    # after stop EC1, to ACTIVE; negative ack (event), stop, confirm, to IDLE and ACTIVE respectively."
    ('EC', 'START-PENDING PENDING', 'event-report+ack', 'stop EC1, ind', 'ACTIVE'),
    ('EC', 'START-PENDING PENDING', 'positive-ack/event', 'stop EC1, ind', 'ACTIVE'),
    ('EC', 'START-PENDING PENDING', 'noncompliance/event', 'stop EC1, ind', 'ACTIVE'),
    ('EC', 'START-PENDING', 'negative-ack/event', 'stop EC1, ind', 'IDLE'),
    ('EC', 'PENDING', 'negative-ack/event', 'stop EC1, ind', 'ACTIVE'),
    # "PENDING and CANCEL: plain report, ind."
    ('EC', 'PENDING', 'event-report', 'ind', 'PENDING'),
    ('EC', 'CANCEL', 'event-report', 'ind', 'CANCEL'),
    # "CANCEL: positive ack (cancel event), stop EC2, confirm, IDLE."
    ('EC', 'CANCEL', 'positive-ack/cancel-event', 'stop EC2, ind', 'IDLE'),

    # PC. "As EC with PC1 and, for cancel, PC3. Besides: on entering ACTIVE without an emergency, start PC2 last; a
    # plain report in ACTIVE without an emergency stops PC2, gives ind, starts PC2; a request or cancel in ACTIVE
    # first stops PC2 if it runs."
    ('PC', 'IDLE', 'req/periodic-contract', 'send, start PC1', 'START-PENDING'),
    ('PC', 'ACTIVE', 'req/periodic-contract', 'stop PC2 if it runs, send, start PC1', 'PENDING'),
    ('PC', 'ACTIVE', 'req/cancel-contract/periodic', 'stop PC2 if it runs, send, start PC3', 'CANCEL'),
    ('PC', 'ACTIVE', 'periodic-report', 'stop PC2 without an emergency, ind, start PC2 without an emergency', 'ACTIVE'),
    ('PC', 'START-PENDING PENDING', 'periodic-report+ack', 'stop PC1, ind, start PC2 without an emergency', 'ACTIVE'),
    ('PC', 'START-PENDING PENDING', 'positive-ack/periodic', 'stop PC1, ind, start PC2 without an emergency', 'ACTIVE'),
    ('PC', 'START-PENDING PENDING', 'noncompliance/periodic', 'stop PC1, ind, start PC2 without an emergency', 'ACTIVE'),
    ('PC', 'START-PENDING', 'negative-ack/periodic', 'stop PC1, ind', 'IDLE'),
    ('PC', 'PENDING', 'negative-ack/periodic', 'stop PC1, ind, start PC2 without an emergency', 'ACTIVE'),
    ('PC', 'PENDING', 'periodic-report', 'ind', 'PENDING'),
    ('PC', 'CANCEL', 'periodic-report', 'ind', 'CANCEL'),
    ('PC', 'CANCEL', 'positive-ack/cancel-periodic', 'stop PC3, ind', 'IDLE'),

    # EM. "IDLE: plain emergency report, stop PC2 if it runs, ind, start EM1, ACTIVE."
    ('EM', 'IDLE', 'emergency', 'stop PC2 if it runs, ind, start EM1', 'ACTIVE'),
    # "ACTIVE: modify, stop EM1, send, start EM2, MODIFY; plain report, stop EM1, ind, start EM1."
    ('EM', 'ACTIVE', 'req/modify-emergency', 'stop EM1, send, start EM2', 'MODIFY'),
    ('EM', 'ACTIVE', 'emergency', 'stop EM1, ind, start EM1', 'ACTIVE'),
    # "MODIFY: plain report, ind; report with ack (ind) or positive ack (modify, confirm), stop EM2, that, start EM1,
    # ACTIVE."
    ('EM', 'MODIFY', 'emergency', 'ind', 'MODIFY'),
    ('EM', 'MODIFY', 'emergency+ack', 'stop EM2, ind, start EM1', 'ACTIVE'),
    ('EM', 'MODIFY', 'positive-ack/modify-emergency', 'stop EM2, ind, start EM1', 'ACTIVE'),
    # "ACTIVE, MODIFY: cancel-emergency, stop the timer, ind, send ack, start PC2 if PC is ACTIVE, IDLE."
    ('EM', 'ACTIVE', 'cancel-emergency', 'stop EM1, ind, send ack, start PC2 if PC is ACTIVE', 'IDLE'),
    ('EM', 'MODIFY', 'cancel-emergency', 'stop EM2, ind, send ack, start PC2 if PC is ACTIVE', 'IDLE'),
]

# LI: states, call, what is done in turn, next state.
LI_ROWS = [
    # "IDLE: a contract request goes as a start request, START. Other sends are data requests. Requests in START or
    # END: refusal 1."
    ('IDLE', 'contract', 'request as start-req', 'START'),
    ('ACTIVE', 'contract', 'request as data-req', 'ACTIVE'),
    ('ACTIVE', 'change', 'request as data-req', 'ACTIVE'),
    # "START: accepted start confirm passes its data, then ACTIVE; rejected, abort 5 without an abort request.
    # ACTIVE: data passes. After confirm or data without an abort, if all four modules are IDLE, one end request is
    # added at the end, END." "a timer LI1 .. starts with every end request" (02, L8): send, then start, as in every row.
    ('START', 'start-cnf', 'pass, end-req if all IDLE, start LI1 if all IDLE', 'ACTIVE'),
    ('START', 'start-rej', 'stops, ind abort cannot establish contact, modules IDLE', 'IDLE'),
    ('ACTIVE', 'data', 'pass, end-req if all IDLE, start LI1 if all IDLE', 'ACTIVE'),
    # "Cancel-all in ACTIVE: stop running timers in watch order, all modules IDLE, end request with the PDU, END."
    ('ACTIVE', 'cancel-all', 'stops, modules IDLE, end-req PDU, start LI1', 'END'),
    # "END: data is set aside unread as "late"; end confirm, IDLE. Link primitives not listed: refusal 2." "Late data
    # doesn't restart it." LI1 "stops on end confirm or any abort" (L8): an abort stops all that run.
    ('END', 'data', 'late', 'END'),
    ('END', 'end-cnf', 'stop LI1', 'IDLE'),
    # Abort rule. "A user abort (START, ACTIVE, END; in IDLE refusal 1): stops, abort request with no PDU, no
    # indication."
    ('START ACTIVE END', 'user-abort', 'stops, abort-req, modules IDLE', 'IDLE'),
    # "From below, in the same states: stops and indication only; reason 0 for a provider failure, the PDU's reason if
    # an aircraft provider abort reads well, else 6; a peer user's abort is shown as such."
    ('START ACTIVE END', 'down', 'stops, ind abort provider failure, modules IDLE', 'IDLE'),
    ('START ACTIVE END', 'air-abort', 'stops, ind abort of the PDU, modules IDLE', 'IDLE'),
    ('START ACTIVE END', 'peer-abort', 'stops, ind peer-abort, modules IDLE', 'IDLE'),
]

# "Stop entries for all running timers, an expired one too, in watch order, abort request with ground provider abort n,
# abort indication n, all IDLE, LI too; every abort below ends so as well."
ABORT = 'stops, abort-req {}, ind abort {}, modules IDLE'

# "0..7 as in 003 (2 invalid PDU, 3 sequence error, 4 timer expiry, 5 cannot establish contact, 6 undefined)", and
# "reason 0 for a provider failure".
REASONS = {'provider failure': 0, 'invalid PDU': 2, 'sequence error': 3, 'timer expiry': 4,
           'cannot establish contact': 5, 'undefined': 6}

# "In this order: DC1 DC-PENDING; DC2 DC-ACTIVE; EC1 EC-START-PENDING, EC-PENDING; EC2 EC-CANCEL; PC1 PC-START-PENDING,
# PC-PENDING; PC2 PC-ACTIVE with EM-IDLE; PC3 PC-CANCEL; EM1 EM-ACTIVE; EM2 EM-MODIFY." And "a timer LI1, last in the
# watch order: it .. runs exactly in END" (02, L8). Timer, states, with.
WATCH = [
    ('DC1', ('DC-PENDING',), None),
    ('DC2', ('DC-ACTIVE',), None),
    ('EC1', ('EC-START-PENDING', 'EC-PENDING'), None),
    ('EC2', ('EC-CANCEL',), None),
    ('PC1', ('PC-START-PENDING', 'PC-PENDING'), None),
    ('PC2', ('PC-ACTIVE',), 'EM-IDLE'),
    ('PC3', ('PC-CANCEL',), None),
    ('EM1', ('EM-ACTIVE',), None),
    ('EM2', ('EM-MODIFY',), None),
    ('LI1', ('LI-END',), None),
]

# Intervals (02, L2), in whole seconds, 0 for none. "The record gains the interval asked for and the interval in force".
# PC's states, event, what is done in turn, all of it before PC2 is loaded.
INTERVAL_ROWS = [
    # A periodic request asks for its interval.
    ('IDLE ACTIVE', 'req/periodic-contract', 'ask'),
    # "the asked one comes into force on entering ACTIVE by a report with ack, a positive ack or a noncompliance, and a
    # negative ack leaves the old one. Any answer clears the asked one". A plain report in PENDING is no answer.
    ('START-PENDING PENDING', 'periodic-report+ack', 'asked into force, clear asked'),
    ('START-PENDING PENDING', 'positive-ack/periodic', 'asked into force, clear asked'),
    ('START-PENDING PENDING', 'noncompliance/periodic', 'asked into force, clear asked'),
    ('START-PENDING PENDING', 'negative-ack/periodic', 'clear asked'),
]

# "PC going IDLE both."
PC_IDLE = 'clear asked, clear force'

# "29 also covers an interval missing from its state, foreign to it, or over 7,200": the states of PC that have one.
INTERVAL_STATES = {'asked': ('START-PENDING', 'PENDING'), 'force': ('ACTIVE', 'PENDING', 'CANCEL')}
LONGEST = 7200

# "PC2 must run for the interval in force plus its setting, which becomes a grace". For the rest 01: "A start loads the
# timer's setting." Refusal 29 reads "no more than interval plus grace" for PC2.
LOADS = {timer: ('setting', 'force') if timer == 'PC2' else ('setting',) for timer, _, _ in WATCH}

# "seconds 1..59 (0) or minutes 1..120 (1)", and 5 minutes where the contract leaves it out, as percoder.py reads it. Sent or not, they are left
# out of what goes (02, L5).
UNITS = {'seconds': 1, 'minutes': 60}


def seconds(unit, number):
    return UNITS[unit] * number


@dataclasses.dataclass(frozen=True)
class Rules:
    """The tables as they are looked up; a test of a test alters one entry."""
    rows: dict = dataclasses.field(default_factory=lambda: {
        (module, state, event): (steps(text), after)
        for module, states, event, text, after in ROWS for state in states.split()})
    li: dict = dataclasses.field(default_factory=lambda: {
        (state, call): (steps(text), after) for states, call, text, after in LI_ROWS for state in states.split()})
    abort: tuple = steps(ABORT)
    reasons: dict = dataclasses.field(default_factory=lambda: dict(REASONS))
    watch: tuple = tuple(WATCH)
    intervals: dict = dataclasses.field(default_factory=lambda: {
        (state, event): steps(text) for states, event, text in INTERVAL_ROWS for state in states.split()})
    pc_idle: tuple = steps(PC_IDLE)
    interval_states: dict = dataclasses.field(default_factory=lambda: dict(INTERVAL_STATES))
    longest: int = LONGEST
    loads: dict = dataclasses.field(default_factory=lambda: dict(LOADS))
    seconds: callable = seconds
    limits: dict = dataclasses.field(default_factory=lambda: dict(LIMITS))
    order: tuple = ORDER
    asked: tuple = ASKED
    expired: callable = operator.le         # "n or fewer left"; at least 1 is left, so an elapse of 0 ends none


RULES = Rules()


# PDUs

downlink = aircraft_pdu


def request(octets):
    """The event a ground PDU is, or None if it does not read."""
    return asked(ground_pdu(octets))


CANCEL_EMERGENCY_ACK = percoder.write('ground', ('cancel-emergency-ack', None)).hex()


def provider_abort(reason):
    return percoder.write('ground', ('provider-abort', reason)).hex()


# The link

STEP = re.compile('(start|stop) (...)(?: (if it runs|without an emergency|if PC is ACTIVE|if all IDLE))?')


class Link(sidemodel.Link):
    """A link with the interval asked for and the one in force."""

    at_rest = ('IDLE', 'END')

    def __init__(self, rules, settings):
        super().__init__(rules, settings)
        self.asked = self.force = 0

    def emergency(self):
        # "An emergency holds exactly while EM isn't IDLE."
        return self.state['EM'] != 'IDLE'

    def enter(self, states):
        """Modules go to states."""
        self.state = {**self.state, **states}
        if self.state['PC'] == 'IDLE':
            self.set_intervals(self.rules.pc_idle, b'')

    def set_intervals(self, todo, octets):
        for step in todo:
            if step == 'ask':
                self.asked = self.rules.seconds(*read('ground', octets)[1]['interval'])
            elif step == 'asked into force':
                self.force = self.asked
            else:
                setattr(self, step.removeprefix('clear '), 0)

    # Entries of an action list

    def loads(self, timer):
        return sum(self.settings[timer] if part == 'setting' else getattr(self, part) for part in self.rules.loads[timer])

    def stops(self):
        return [entry for timer, _, _ in self.rules.watch if timer in self.left for entry in self.stop(timer)]

    def holds(self, condition, timer):
        return (condition is None or condition == 'if it runs' and timer in self.left
                or condition == 'without an emergency' and not self.emergency()
                or condition == 'if PC is ACTIVE' and self.state['PC'] == 'ACTIVE'
                or condition == 'if all IDLE' and self.ends())

    def step(self, step, octets, send):
        """One step of a row of a module."""
        if step == 'send':
            return [f'{send} {written("ground", octets).hex()}']
        if step == 'send ack':
            return [f'{send} {CANCEL_EMERGENCY_ACK}']
        if step == 'ind':
            return [f'ind {octets.hex()}']
        verb, timer, condition = STEP.fullmatch(step).groups()
        if not self.holds(condition, timer):
            return []
        return self.start(timer) if verb == 'start' else self.stop(timer)

    def play(self, event, octets, send):
        module, (todo, after) = self.row(event)
        self.set_intervals(self.rules.intervals.get((self.state['PC'], event), ()), octets)
        entries = [entry for step in todo for entry in self.step(step, octets, send)]
        self.enter({module: after})
        return entries

    def receive(self, octets):
        # "A value is taken only when the reading is good; otherwise a start confirm in START or data in ACTIVE ends in
        # abort 2."
        event = downlink(octets)
        if event is None:
            return self.abort('invalid PDU')
        if self.row(event) is None:
            return self.abort('sequence error')
        return self.play(event, octets, 'data-req')

    def ends(self):
        """Whether an end request is due, or goes; LI is IDLE after an abort."""
        return self.li != 'IDLE' and self.all_idle()

    def end(self):
        if not self.ends():
            return []
        self.li = 'END'
        return ['end-req']

    def reason_of(self, octets):
        value = read('air', octets)
        return value[1] if value and value[0] == 'provider-abort' else self.rules.reasons['undefined']

    def link_step(self, step, octets):
        """One step of a row of LI, or of the abort rule."""
        if step.startswith('request as '):
            return self.play(request(octets), octets, step[11:])
        if step == 'pass':
            return self.receive(octets)
        if step == 'end-req if all IDLE':
            return self.end()
        if STEP.fullmatch(step):
            return self.step(step, octets, None)
        if step == 'stops':
            return self.stops()
        if step == 'modules IDLE':
            self.enter(dict.fromkeys(MODULES, 'IDLE'))
            return []
        if step == 'ind abort of the PDU':
            return [f'ind abort {self.reason_of(octets)}']
        if step.startswith('ind abort '):
            return [f'ind abort {self.rules.reasons[step[10:]]}']
        if step.startswith('abort-req '):
            return [f'abort-req {provider_abort(self.rules.reasons[step[10:]])}']
        return [step.replace('PDU', octets.hex())]      # an entry as it stands

    def abort(self, why):
        self.li = 'IDLE'
        return [entry for step in self.rules.abort for entry in self.link_step(step.format(why), b'')]

    def fits(self, interval):
        """Whether PC's state has an interval of its range, or has none and there is none."""
        has = self.state['PC'] in self.rules.interval_states[interval]
        return 1 <= getattr(self, interval) <= self.rules.longest if has else getattr(self, interval) == 0

    def good(self):
        return super().good() and all(self.fits(interval) for interval in self.rules.interval_states)


# The script

# "The opening script line takes ten numbers" (02, L8); the other words are 01's.
WORDS = {
    'set': settings(10),
    'req': OCTETS,
    'user-abort': '',
    'elapse': f' {NUMBER}',
    'start-cnf': OCTETS,
    'start-rej': '',
    'data': OCTETS,
    'end-cnf': '',
    'peer-abort': '',
    'air-abort': OCTETS,
    'down': '',
}
LINE = sidemodel.line_of(WORDS)


class Call(sidemodel.Call):
    def __init__(self, line):
        super().__init__(line, LINE)
        self.event = request(self.octets) if self.word == 'req' else None
        self.kind = REQUESTS.get(self.event, 'no request') if self.word == 'req' else self.word


@functools.lru_cache(maxsize=100000)
def call_of(line):
    return Call(line)


class Box(sidemodel.Box):
    call_of, words, to_modules = staticmethod(call_of), WORDS, ('contract', 'change')

    def __init__(self, rules=RULES, link=Link):
        super().__init__(rules, link)

    def kind_of(self, call):
        return call.kind


def trace(script, rules=RULES, link=Link, made=Box):
    return sidemodel.trace('adsc trace 1', made(rules, link), script)


if __name__ == '__main__':
    sys.stdout.buffer.write(trace(sys.stdin.buffer.read()))
