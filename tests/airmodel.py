"""A model of the air side of one link, written from the air tables of 000 and the text of 002, as L4 of 02 asks.

It shares nothing with the box it is compared with but these pages; it stands on sidemodel.py, and
reads PDUs with percoder.py. Which source decides: 01 and 02, then the text of 002, then the tables;
what they leave open stands in docs/DECISIONS.md (F). First the tables, as data: each row with the
lines that it was read off, `002:4975-4980` of 002, `000:87-89` of 000. Below them the model that
plays them.

    airmodel.py < script > trace
    trace(script octets) -> trace octets
"""

import dataclasses
import functools
import operator
import re
import sys

import percoder
import sidemodel
from sidemodel import LIMITS, MODULES, NUMBER, OCTETS, ORDER, REQUEST_TYPES, aircraft_pdu, asked, ground_pdu, read, settings, steps, written

# States, in the order of 000's tables.
STATES = {'DC': ('IDLE', 'PENDING', 'ACTIVE'),                              # 002:4895-4903, 000:63
          'EC': ('IDLE', 'PENDING', 'ACTIVE', 'ACTIVE-PENDING'),            # 002:5147-5154, 000:179
          'PC': ('IDLE', 'PENDING', 'ACTIVE', 'ACTIVE-PENDING'),            # 002:5460-5468, 000:381
          'EM': ('IDLE', 'ACTIVE', 'MODIFY', 'CANCEL')}                     # 002:5688-5695, 000:501
LI_STATES = ('IDLE', 'START', 'ACTIVE')                                     # 002:5996-6002, 000:607

# Tables of the modules: module, state, event, what is done in turn, next state, where it stands. Events are ground PDUs, and `req/`
# with the aircraft PDU that the user's request or response is sent as (Tables 2.2.1.5-4 and 2.2.1.5-64, 002:4743-4755, 002:6053-6064).
# Not listed: "Not permitted", refusal 1, of what the user asks; "request AB to abort", sequence error (002:6122), of a ground PDU.
ROWS = [
    # DC, 2.2.1.5.3.7. The positive acknowledgement of 002:4919-4925 is of version 2 (F79): no row.
    ('DC', 'PENDING', 'req/negative-ack/demand', 'send', 'IDLE', '002:4905-4911 002:6197 000:67-69'),
    ('DC', 'PENDING', 'req/noncompliance/demand', 'send', 'ACTIVE', '002:4932-4938 002:6198 000:69-71'),
    ('DC', 'PENDING', 'req/demand-report+ack', 'send', 'IDLE', '002:4945-4951 002:6200 000:71-75'),
    ('DC', 'ACTIVE', 'req/demand-report', 'send', 'IDLE', '002:4953-4957 002:6201 000:75-79'),
    ('DC', 'IDLE', 'demand-contract', 'ind', 'PENDING', '002:4975-4980 002:6205 000:87-89'),

    # EC, 2.2.1.5.3.9
    ('EC', 'PENDING', 'req/positive-ack/event', 'send', 'ACTIVE', '002:5156-5162 002:6232 000:183-185'),
    ('EC', 'ACTIVE-PENDING', 'req/positive-ack/event', 'send', 'ACTIVE', '002:5156-5162 002:6232 000:185-187'),
    ('EC', 'PENDING', 'req/noncompliance/event', 'send', 'ACTIVE', '002:5169-5175 002:6232 000:183-185'),
    ('EC', 'ACTIVE-PENDING', 'req/noncompliance/event', 'send', 'ACTIVE', '002:5169-5175 002:6232 000:185-187'),
    ('EC', 'PENDING', 'req/negative-ack/event', 'send', 'IDLE', '002:5182-5188 002:6233 000:187-189'),
    ('EC', 'ACTIVE-PENDING', 'req/negative-ack/event', 'send', 'ACTIVE', '002:5190-5194 002:6233 000:189-191'),
    ('EC', 'PENDING', 'req/event-report+ack', 'send', 'ACTIVE', '002:5202-5208 002:6234 000:191-195'),
    ('EC', 'ACTIVE-PENDING', 'req/event-report+ack', 'send', 'ACTIVE', '002:5202-5208 002:6234 000:195-197'),
    ('EC', 'ACTIVE', 'req/event-report', 'send', 'ACTIVE', '002:5218-5224 002:6235 000:197-201'),
    ('EC', 'IDLE', 'event-contract', 'ind', 'PENDING', '002:5234-5239 002:6239 000:209-211'),
    ('EC', 'ACTIVE', 'event-contract', 'ind', 'ACTIVE-PENDING', '002:5241-5244 002:6239 000:211-213'),
    # "A cancel in EC-A-ACTIVE or PC-A-ACTIVE gives the indication, then sends the positive ack, then goes IDLE." (02, L4)
    ('EC', 'ACTIVE', 'cancel-contract/event', 'ind, send ack of cancel-event', 'IDLE', '002:5252-5270 002:6240 000:213-219'),

    # PC, 2.2.1.5.3.11
    ('PC', 'PENDING', 'req/positive-ack/periodic', 'send', 'ACTIVE', '002:5470-5477 002:6272 000:385-387'),
    ('PC', 'ACTIVE-PENDING', 'req/positive-ack/periodic', 'send', 'ACTIVE', '002:5470-5477 002:6272 000:387-389'),
    ('PC', 'PENDING', 'req/noncompliance/periodic', 'send', 'ACTIVE', '002:5470-5477 002:6272 000:385-387'),
    ('PC', 'ACTIVE-PENDING', 'req/noncompliance/periodic', 'send', 'ACTIVE', '002:5470-5477 002:6272 000:387-389'),
    ('PC', 'PENDING', 'req/negative-ack/periodic', 'send', 'IDLE', '002:5489-5495 002:6273 000:389-391'),
    ('PC', 'ACTIVE-PENDING', 'req/negative-ack/periodic', 'send', 'ACTIVE', '002:5497-5501 002:6273 000:391-393'),
    ('PC', 'PENDING', 'req/periodic-report+ack', 'send', 'ACTIVE', '002:5509-5515 002:6274 000:393-397'),
    ('PC', 'ACTIVE-PENDING', 'req/periodic-report+ack', 'send', 'ACTIVE', '002:5509-5515 002:6274 000:397-399'),
    ('PC', 'ACTIVE', 'req/periodic-report', 'send', 'ACTIVE', '002:5523-5529 002:6275 000:399-403'),
    ('PC', 'IDLE', 'periodic-contract', 'ind', 'PENDING', '002:5537-5542 002:6279 000:411-413'),
    ('PC', 'ACTIVE', 'periodic-contract', 'ind', 'ACTIVE-PENDING', '002:5544-5547 002:6279 000:413-415'),
    ('PC', 'ACTIVE', 'cancel-contract/periodic', 'ind, send ack of cancel-periodic', 'IDLE', '002:5555-5572 002:6280 000:415-421'),

    # EM, 2.2.1.5.3.13. The response to a modify is the negative acknowledgement, with any reason (F78).
    ('EM', 'IDLE', 'req/emergency', 'send', 'ACTIVE', '002:5697-5703 002:6303 000:505-507'),
    ('EM', 'ACTIVE', 'req/emergency', 'send', 'ACTIVE', '002:5705-5709 002:6303 000:507-509'),
    ('EM', 'MODIFY', 'req/emergency+ack', 'send', 'ACTIVE', '002:5718-5724 002:6304 000:509-511'),
    ('EM', 'ACTIVE', 'req/cancel-emergency', 'send, start EM3', 'CANCEL', '002:5733-5740 002:6305 000:511-515'),
    ('EM', 'MODIFY', 'req/negative-ack/modify-emergency', 'send', 'ACTIVE', '002:5742-5754 002:6306 000:515-517'),
    ('EM', 'CANCEL', 'cancel-emergency-ack', 'stop EM3', 'IDLE', '002:5756-5761 002:6308 000:521-523'),
    ('EM', 'ACTIVE', 'modify-emergency', 'ind', 'MODIFY', '002:5763-5768 002:6309 000:523-525'),
    ('EM', 'CANCEL', 'modify-emergency', '', 'CANCEL', '002:5770-5772 002:6309 000:525'),
]

# "Requests to stop operation": module, states, what is done in turn, next state, where it stands.
STOP_ROWS = [
    ('DC', 'IDLE PENDING ACTIVE', '', 'IDLE', '002:4988 002:6203 000:83'),
    ('EC', 'IDLE PENDING ACTIVE ACTIVE-PENDING', '', 'IDLE', '002:5272 002:6237 000:205'),
    ('PC', 'IDLE PENDING ACTIVE ACTIVE-PENDING', '', 'IDLE', '002:5574 002:6277 000:407'),
    ('EM', 'IDLE ACTIVE MODIFY', '', 'IDLE', '002:5779-5782 002:6311 000:529'),
    ('EM', 'CANCEL', 'stop EM3', 'IDLE', '002:5779-5782 002:6311 000:529-531'),
]

# The PDUs that LI is passed, by the row of LI's that takes them. A provider abort is none of the user's (F80).
SENDS = {
    # 002:6004, 002:6349, 000:611
    'demand-report': 'answer', 'event-report': 'answer', 'periodic-report': 'answer', 'positive-ack': 'answer',
    'negative-ack': 'answer', 'noncompliance': 'answer',
    # 002:6025, 002:6350, 000:615
    'cancel-emergency': 'emergency', 'emergency': 'emergency',
}

# Which ground PDUs may come by which primitive. Another one, one that does not read, none where one is due: invalid. An end
# indication may come bare.
MAY_COME = {
    'start-ind': ('demand-contract', 'event-contract', 'periodic-contract'),                                # 002:6106
    'data': ('demand-contract', 'event-contract', 'periodic-contract', 'modify-emergency', 'cancel-emergency-ack',
             'cancel-contract/event', 'cancel-contract/periodic'),                                          # 002:6110
    'end-ind': ('cancel-all',),                                                                             # 002:6114
}

# LI, 2.2.1.5.3.16: states, call, what is done in turn, next state, where it stands. Not listed: "Not permitted", refusal 1, of what the
# user asks; "cannot occur", refusal 2, of a primitive (02, L4).
LI_ROWS = [
    # "If in the LI-A-IDLE state, .. pass the user data .. to the module as defined in Table 2.2.1.5-64, and b) enter LI-A-START state."
    ('IDLE', 'start-ind', 'pass', 'START', '002:6039-6044 002:6352 000:621-623'),
    # "Upon receipt of an ADS-demand-report-PDU, or .. If in the LI-A-START state, .. a) Invoke D-START response .., and b) enter the
    # LI-A-ACTIVE state. .. If in the LI-A-ACTIVE state, .. a) Invoke D-DATA request"
    ('START', 'answer', 'request as start-rsp', 'ACTIVE', '002:6004-6018 002:6349 000:611-613'),
    ('ACTIVE', 'answer', 'request as data-req', 'ACTIVE', '002:6020-6023 002:6349 000:613-615'),
    # "Upon receipt of an ADS-cancel-emergency-PDU, or an ADS-emergency-report-PDU from the EM module: If in the LI-A-ACTIVE state, .."
    ('ACTIVE', 'emergency', 'request as data-req', 'ACTIVE', '002:6025-6030 002:6350 000:615-617'),
    # "Upon receipt of a D-DATA indication: If in the LI-A-ACTIVE state, .. pass the user data to the module"
    ('ACTIVE', 'data', 'pass', 'ACTIVE', '002:6046-6051 002:6353 000:623-625'),
    # "a) pass it to the air HI module, b) invoke D-END response with .. ADS-positive-acknowledgement-PDU (cancel-all-contracts) .., c)
    # request the DC, EC, PC and EM modules to stop operation, and d) enter LI-A-IDLE state." (F81)
    ('ACTIVE', 'end-ind', 'ind, end-rsp ack of cancel-all, stop operation', 'IDLE', '002:6070-6075 002:6354 000:625-629'),
    # "If there is no user data, .. a) invoke D-END response with .. no user data, and b) enter LI-A-IDLE state." (F82, F85c)
    ('ACTIVE', 'end-ind bare', 'end-rsp, stop operation', 'IDLE', '002:6077-6080 002:6354 000:625-629'),
    # "shall request the AB module to abort with reason invalid-PDU" (F76, F118)
    ('IDLE', 'start-ind invalid', 'abort invalid PDU', 'IDLE', '002:6106 002:6144-6146'),
    ('ACTIVE', 'data invalid', 'abort invalid PDU', 'IDLE', '002:6110 002:6144-6146'),
    ('ACTIVE', 'end-ind invalid', 'abort invalid PDU', 'IDLE', '002:6114 002:6144'),
    # AB, 2.2.1.5.3.14. "Upon receipt of an ADS-user-abort request, .. a) request the DC, EC, PC and EM modules to stop operation, and b)
    # request the LI module to invoke D-ABORT .. user data not provided" (F25)
    ('START ACTIVE', 'user-abort', 'stop operation, abort-req', 'IDLE', '002:5788-5797 002:6032-6037'),
    # "Upon receipt of a D-P-ABORT indication, .. a) request the .. modules to stop operation, and b) request the HI module to invoke
    # ADS-provider-abort indication .. Reason communications-service-failure"
    ('START ACTIVE', 'down', 'stop operation, ind abort provider failure', 'IDLE', '002:5823-5831 002:6088-6092 002:6355 000:629-633'),
    # "originator .. "user" and with no data .. invoke ADS-user-abort indication."
    ('START ACTIVE', 'peer-abort', 'stop operation, ind peer-abort', 'IDLE', '002:5833-5836 002:6082-6086 002:6355 000:629-633'),
    # "originator .. "provider" and with data .. Reason value of the user data parameter", else 6 (01, F117)
    ('START ACTIVE', 'ground-abort', 'stop operation, ind abort of the PDU', 'IDLE',
     '002:5838-5846 002:6082-6086 002:6355 000:629-633'),
]

# "Upon receipt of a request to abort, the AB module shall: a) request the DC, EC, PC and EM modules to stop operation, b) create an
# ADS-provider-abort-PDU .., c) request the LI module to invoke D-ABORT .., and d) request the HI module to invoke ADS-provider-abort"
# (002:5799-5821); LI goes IDLE (002:6032-6037), on a start indication too (F77).
ABORT = 'stop operation, abort-req {}, ind abort {}'

# 0..7 as 01 has them. What the air side raises: invalid PDU (002:6104-6116), sequence error (002:6122), timer expiry (002:5774-5777,
# 002:6098). What it shows: provider failure (002:5831), undefined (01, "else 6").
REASONS = {'provider failure': 0, 'invalid PDU': 2, 'sequence error': 3, 'timer expiry': 4, 'undefined': 6}

# PDUs of the box's own: positive acks (002:5270, 002:5572, 002:6073), by request type.
OWN = {f'ack of {name}': ('positive-ack', REQUEST_TYPES.index(name)) for name in ('cancel-event', 'cancel-periodic', 'cancel-all')}

# Timer, states, with: "c) start the t-EM-3 timer, and d) enter the EM-A-CANCEL state" (002:5739-5740, F84).
WATCH = [('EM3', ('EM-CANCEL',), None)]

# What the user asks: refusal 1 where it is not listed. The rest are link primitives: refusal 2.
ASKED = ('req', 'user-abort')


@dataclasses.dataclass(frozen=True)
class Rules:
    """The tables as they are looked up; a test of a test alters one entry."""
    rows: dict = dataclasses.field(default_factory=lambda: {
        (module, state, event): (steps(text), after) for module, state, event, text, after, _ in ROWS})
    halts: dict = dataclasses.field(default_factory=lambda: {
        (module, state): (steps(text), after) for module, states, text, after, _ in STOP_ROWS for state in states.split()})
    li: dict = dataclasses.field(default_factory=lambda: {
        (state, call): (steps(text), after) for states, call, text, after, _ in LI_ROWS for state in states.split()})
    sends: dict = dataclasses.field(default_factory=lambda: dict(SENDS))
    may_come: dict = dataclasses.field(default_factory=lambda: dict(MAY_COME))
    abort: tuple = steps(ABORT)
    reasons: dict = dataclasses.field(default_factory=lambda: dict(REASONS))
    own: dict = dataclasses.field(default_factory=lambda: dict(OWN))
    watch: tuple = tuple(WATCH)
    limits: dict = dataclasses.field(default_factory=lambda: dict(LIMITS))
    order: tuple = ORDER
    asked: tuple = ASKED
    expired: callable = operator.le         # "n or fewer left"; at least 1 is left, so an elapse of 0 ends none


RULES = Rules()


# The link

TIMER_STEP = re.compile('(start|stop) (...)')


@functools.lru_cache(maxsize=None)
def own_pdu(name, number):
    """An aircraft PDU of the box's own."""
    return percoder.write('air', (name, number)).hex()


class Link(sidemodel.Link):
    def own(self, name):
        return own_pdu(*self.rules.own[name])

    def step(self, step, octets, send):
        """One step of a row of a module."""
        if step == 'send':
            return [f'{send} {written("air", octets).hex()}']
        if step.startswith('send '):
            return [f'{send} {self.own(step[5:])}']
        if step == 'ind':
            return [f'ind {octets.hex()}']
        verb, timer = TIMER_STEP.fullmatch(step).groups()
        return self.start(timer) if verb == 'start' else self.stop(timer)

    def enter(self, module, row, octets=b'', send=None):
        """A module does what a row says."""
        todo, after = row
        entries = [entry for step in todo for entry in self.step(step, octets, send)]
        self.state[module] = after
        return entries

    def play(self, event, octets, send):
        module, row = self.row(event)
        return self.enter(module, row, octets, send)

    def receive(self, octets):
        event = ground_pdu(octets)
        return self.play(event, octets, 'data-req') if self.row(event) else self.abort('sequence error')

    def halt(self, module):
        return self.enter(module, self.rules.halts[module, self.state[module]])

    def reason_of(self, octets):
        value = read('ground', octets)
        return value[1] if value and value[0] == 'provider-abort' else self.reason('undefined')

    def reason(self, why):
        return self.rules.reasons[why]

    def link_step(self, step, octets):
        """One step of a row of LI, or of the abort rule."""
        if step.startswith('request as '):
            return self.play(asked(aircraft_pdu(octets)), octets, step[11:])
        if step == 'pass':
            return self.receive(octets)
        if step == 'stop operation':
            return [entry for module in MODULES for entry in self.halt(module)]
        if step == 'ind':
            return [f'ind {octets.hex()}']
        if step.startswith('end-rsp '):
            return [f'end-rsp {self.own(step[8:])}']
        if step.startswith('abort '):
            return self.abort(step[6:])
        if step == 'ind abort of the PDU':
            return [f'ind abort {self.reason_of(octets)}']
        if step.startswith('ind abort '):
            return [f'ind abort {self.reason(step[10:])}']
        if step.startswith('abort-req '):
            return [f'abort-req {own_pdu("provider-abort", self.reason(step[10:]))}']
        return [step]           # an entry as it stands

    def abort(self, why):
        self.li = 'IDLE'
        return [entry for step in self.rules.abort for entry in self.link_step(step.format(why), b'')]

    def good(self):
        limits = self.rules.limits
        return super().good() and all(limits['least setting'] <= setting <= limits['setting'] for setting in self.settings.values())


# The script (F75, F121)

WORDS = {
    'set': settings(1),
    'req': OCTETS,
    'user-abort': '',
    'elapse': f' {NUMBER}',
    'start-ind': OCTETS,
    'data': OCTETS,
    'end-ind': OCTETS,
    'peer-abort': '',
    'ground-abort': OCTETS,
    'down': '',
}
LINE = sidemodel.line_of(WORDS)


def family(event):
    """The PDU of a request, without what tells its cases apart."""
    return re.split('[+/]', event.removeprefix('req/'))[0]


class Call(sidemodel.Call):
    def __init__(self, line):
        super().__init__(line, LINE)
        self.event = asked(aircraft_pdu(self.octets)) if self.word == 'req' else None
        self.sent = family(self.event) if self.event else None
        self.comes = ground_pdu(self.octets) if self.word in MAY_COME else None


@functools.lru_cache(maxsize=100000)
def call_of(line):
    return Call(line)


class Box(sidemodel.Box):
    call_of, words, to_modules = staticmethod(call_of), WORDS, ('answer', 'emergency')

    def __init__(self, rules=RULES, link=Link):
        super().__init__(rules, link)

    def kind_of(self, call):
        if call.word == 'req':
            return self.rules.sends.get(call.sent, 'no request')
        if call.word not in self.rules.may_come or call.comes in self.rules.may_come[call.word]:
            return call.word
        return f'{call.word} bare' if call.word == 'end-ind' and not call.octets else f'{call.word} invalid'


def trace(script, rules=RULES, link=Link, made=Box):
    return sidemodel.trace('adsc air trace 1', made(rules, link), script)


if __name__ == '__main__':
    sys.stdout.buffer.write(trace(sys.stdin.buffer.read()))
