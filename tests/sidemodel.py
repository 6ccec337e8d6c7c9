"""What the models of both sides of a link share, written from 01: the names of PDUs, timers and the clock, the lines of a script and
their refusals, the trace. Tables and steps are a side's own (linkmodel.py, airmodel.py).

    aircraft_pdu(octets), ground_pdu(octets) -> the name of a PDU, None if it does not read
    written(family, octets) -> the octets that go for a PDU
    Link, Call, Box: what a side's model of them stands on
    trace(head, box, script octets) -> trace octets
"""

import functools
import re

import percoder

MODULES = ('DC', 'EC', 'PC', 'EM')

# Names of PDUs: `+ack` is a report with a positive ack, behind `/` stand the request type, the noncompliance or the contract.
REQUEST_TYPES = ('event', 'periodic', 'demand', 'cancel-event', 'cancel-periodic', 'modify-emergency', 'cancel-all',
                 'end-forward')
REPORTS = ('demand-report', 'emergency', 'event-report', 'periodic-report')
AIRCRAFT_PDUS = (['cancel-emergency', 'provider-abort'] + list(REPORTS) + [name + '+ack' for name in REPORTS]
                 + ['negative-ack/' + name for name in REQUEST_TYPES] + ['positive-ack/' + name for name in REQUEST_TYPES]
                 + ['noncompliance/' + name for name in ('demand', 'event', 'periodic')])
GROUND_PDUS = ['demand-contract', 'event-contract', 'periodic-contract', 'cancel-contract/event', 'cancel-contract/periodic',
               'modify-emergency', 'cancel-all', 'cancel-emergency-ack', 'provider-abort']

# Settings are 1..86,400, an elapse is at most 86,400, a number fits 32 bits, a line has at most 4,096 octets.
LIMITS = {'least setting': 1, 'setting': 86400, 'elapse': 86400, 'number': 2 ** 32 - 1, 'line': 4096}

# "Order. Calls: 17, 3, 29, 4, 1 or 2, then fields." Each is a function of Box.
ORDER = ('not_readable', 'bad_setting', 'bad_record', 'long_elapse', 'not_listed')


def steps(text):
    return tuple(text.split(', ')) if text else ()


# PDUs

@functools.lru_cache(maxsize=None)
def read(family, octets):
    """The value, or None: a reading's refusal number is never shown."""
    try:
        return percoder.read(family, octets)
    except percoder.Refused:
        return None


@functools.lru_cache(maxsize=None)
def written(family, octets):
    """What goes for a PDU of the user's: what is written for the value read (F119; 02, L5)."""
    return percoder.write(family, read(family, octets))


def sends_default(octets):
    """Whether a ground PDU reads, and is not as it is written."""
    return read('ground', octets) is not None and written('ground', octets) != octets


@functools.lru_cache(maxsize=None)
def aircraft_pdu(octets):
    value = read('air', octets)
    if value is None:
        return None
    name, content = value
    if name in REPORTS:
        return name + '+ack' if 'ack' in content else name
    if name == 'negative-ack':
        return f'{name}/{REQUEST_TYPES[content["request"]]}'
    if name == 'positive-ack':
        return f'{name}/{REQUEST_TYPES[content]}'
    if name == 'noncompliance':
        return f'{name}/{content[0]}'
    return name


@functools.lru_cache(maxsize=None)
def ground_pdu(octets):
    value = read('ground', octets)
    if value is None:
        return None
    name, content = value
    return name + ('/' + ('event', 'periodic')[content] if name == 'cancel-contract' else '')


def asked(pdu):
    """The event of a PDU that the user asks for."""
    return pdu and 'req/' + pdu


# The link

class Link:
    """LI, the modules, the seconds left of the timers that run. A side adds what a step of LI does (link_step) and its aborts."""

    at_rest = ('IDLE',)         # states of LI with all modules IDLE

    def __init__(self, rules, settings):
        self.rules = rules
        self.settings = {timer: setting for (timer, _, _), setting in zip(rules.watch, settings)}
        self.li = 'IDLE'
        self.state = dict.fromkeys(MODULES, 'IDLE')
        self.left = {}

    def all_idle(self):
        return set(self.state.values()) == {'IDLE'}

    def row(self, event):
        """The module that lists an event at its state, and its row."""
        for module, state in self.state.items():
            row = self.rules.rows.get((module, state, event))
            if row is not None:
                return module, row
        return None

    # Timers: entries of an action list

    def loads(self, timer):
        """The seconds that a start loads: as many as a running timer may have left (29)."""
        return self.settings[timer]

    def start(self, timer):
        self.left[timer] = self.loads(timer)
        return [f'start {timer}']

    def stop(self, timer):
        self.left.pop(timer, None)
        return [f'stop {timer}']

    # Calls

    def call(self, kind, octets):
        todo, self.li = self.rules.li[self.li, kind]
        return [entry for step in todo for entry in self.link_step(step, octets)]

    def elapse(self, seconds):
        # "if a running timer has n or fewer left (n at least 1), abort 4; else each running one loses n."
        if any(self.rules.expired(left, seconds) for left in self.left.values()):
            return self.abort('timer expiry')
        self.left = {timer: left - seconds for timer, left in self.left.items()}
        return []

    def watched(self):
        """The timers that run by the watch table."""
        now = {f'LI-{self.li}', *(f'{module}-{state}' for module, state in self.state.items())}
        return {timer for timer, states, also in self.rules.watch
                if not now.isdisjoint(states) and (also is None or also in now)}

    def good(self):
        """The record by refusal 29; calls never lead to a bad one."""
        return (set(self.left) == self.watched()
                and all(1 <= left <= self.loads(timer) for timer, left in self.left.items())
                and (self.li not in self.at_rest or self.all_idle()))


# The script

# "N has no sign or leading zero and fits 32 bits", so it has at most ten digits.
NUMBER = '(?:0|[1-9][0-9]{0,9})'
HEX = '(?:[0-9a-f]{2})+'
OCTETS = f'(?: {HEX})?'
IS_NUMBER = re.compile(NUMBER)
IS_HEX = re.compile(HEX)


def settings(count):
    return f'(?: {NUMBER}){{{count}}}'


def line_of(words):
    """What a line of a side's words looks like."""
    return re.compile('|'.join(word + rest for word, rest in words.items()))


class Call:
    """A line taken apart, as far as it can be. A side adds which event a request is."""

    def __init__(self, line, formed):
        text = line.decode('latin-1')
        self.size = len(line)
        self.formed = formed.fullmatch(text) is not None
        self.word, *arguments = text.split(' ')
        counts = self.word in ('set', 'elapse')     # elsewhere digits are octets
        self.numbers = [int(word) for word in arguments if counts and IS_NUMBER.fullmatch(word)]
        self.octets = bytes.fromhex(arguments[0]) if arguments and IS_HEX.fullmatch(arguments[0]) else b''


class Box:
    """The link, once there is one, and the answers to lines. Each refusal judges alone: their order is a table. A side adds how a line
    is taken apart (call_of), its words, as what LI finds a call (kind_of), and the kinds that ask a module (to_modules)."""

    def __init__(self, rules, link):
        self.rules, self.make, self.link = rules, link, None

    def not_readable(self, call):
        # "`req` takes a written ground PDU: one that doesn't read is 17, one that is no request is 1. Lines before a
        # good `set`, a `set` after it and lines over 4,096 octets are 17." On the air side an aircraft PDU.
        limits = self.rules.limits
        readable = call.formed and call.size <= limits['line'] and all(n <= limits['number'] for n in call.numbers)
        placed = (call.word == 'set') == (self.link is None)
        return 0 if readable and placed and not (call.word == 'req' and call.event is None) else 17

    def bad_setting(self, call):
        limits = self.rules.limits
        good = all(limits['least setting'] <= number <= limits['setting'] for number in call.numbers)
        return 3 if call.word == 'set' and not good else 0

    def bad_record(self, call):
        return 29 if self.link and not self.link.good() else 0

    def long_elapse(self, call):
        return 4 if call.word == 'elapse' and any(n > self.rules.limits['elapse'] for n in call.numbers) else 0

    def not_listed(self, call):
        if self.link is None or call.word not in self.words or call.word in ('set', 'elapse'):
            return 0
        kind = self.kind_of(call)
        if (self.link.li, kind) not in self.rules.li:
            return 1 if call.word in self.rules.asked else 2
        return 1 if kind in self.to_modules and self.link.row(call.event) is None else 0

    def act(self, call):
        if call.word == 'set':
            self.link = self.make(self.rules, call.numbers)
            return []
        if call.word == 'elapse':
            return self.link.elapse(call.numbers[0])
        return self.link.call(self.kind_of(call), call.octets)

    def answer(self, line):
        call = self.call_of(line)
        for judge in self.rules.order:
            number = getattr(self, judge)(call)
            if number:
                return f'refused {number}'
        return ' '.join(['ok'] + self.act(call))


def lines(script):
    """Octets up to LF; a last line without LF counts, nothing behind the last LF is no line."""
    parts = script.split(b'\n')
    return parts if parts[-1] else parts[:-1]


def trace(head, box, script):
    parts = lines(script)
    answers = [f'{place} {box.answer(line)}' for place, line in enumerate(parts, 1)]
    return '\n'.join([head, *answers, f'end {len(parts)}', '']).encode()
