"""Random scripts for a link, steered into deep states by the model played along, and what they cover.

    maker = Maker(rng, Coverage())
    maker.script(60) -> script octets
"""

import collections
import functools

import scriptmaking
from compare_coder import random_value
from linkmodel import DOWNLINK, REQUESTS, RULES, Box, call_of, downlink, request, seconds
from percoder import DEFAULTS, write
from scriptmaking import BEFORE, MOST, elapse_kind, no_call, set_kind
from sidemodel import sends_default

LI_STATES = ('IDLE', 'START', 'ACTIVE', 'END')
EVENTS = [*REQUESTS, *DOWNLINK, 'unreadable']
ENDING = {'START': EVENTS[len(REQUESTS):], 'ACTIVE': ['req/cancel-all', *EVENTS[len(REQUESTS):]]}

CONTRACT_STATES = ('IDLE', 'START-PENDING', 'ACTIVE', 'PENDING', 'CANCEL')
STATES = {'DC': ('IDLE', 'PENDING', 'ACTIVE'), 'EC': CONTRACT_STATES, 'PC': CONTRACT_STATES,
          'EM': ('IDLE', 'ACTIVE', 'MODIFY')}

# What stands beside a module's state: PC2 hangs on both PC and EM.
BESIDE = {'DC': ('',), 'EC': ('',), 'PC': ('EM IDLE', 'EM not IDLE'), 'EM': ('PC ACTIVE', 'PC not ACTIVE')}
PLACES = [(module, state, beside) for module in STATES for state in STATES[module] for beside in BESIDE[module]]

# Intervals that every run agrees to (02, L2), beside others: the ends of both units and the one that is left out.
INTERVALS = (('seconds', 1), ('seconds', 59), ('minutes', 1), DEFAULTS['periodic-contract', 'interval'], ('minutes', 120))
SIZES = [seconds(*interval) for interval in INTERVALS]

ANSWERS = ('periodic-report+ack', 'positive-ack/periodic', 'noncompliance/periodic', 'negative-ack/periodic')

# With a periodic contract in force, what makes each other timer run; a cancel also meets what ends the link.
BESIDE_PC2 = [
    ('req/demand-contract',), ('req/demand-contract', 'noncompliance/demand'), ('req/event-contract',),
    ('req/event-contract', 'positive-ack/event', 'req/cancel-contract/event'), ('req/periodic-contract',),
    ('req/cancel-contract/periodic',), ('req/cancel-contract/periodic', 'break'), ('emergency',),
    ('emergency', 'req/modify-emergency')]

# How a timer's end is met: PC2 by the row that started it and by the interval in force, LI1 by the call that brought the end
# request and whether data came late, the others with an interval in force and without; and where time comes to a halt there.
STARTS = [key for key, (todo, _) in RULES.rows.items() if any(step.startswith('start PC2') for step in todo)]
CLOSINGS = [(word, late) for word in ('start-cnf', 'data', 'req') for late in ('late', 'nothing late')]
ENDS = [*STARTS, *SIZES, 'another interval', *CLOSINGS, *((timer, has) for timer, _, _ in RULES.watch for has in ('interval', 'no interval')
                                                          if timer not in ('PC2', 'LI1') and (timer, has) != ('PC3', 'no interval'))]
EDGES = {-1: 'a second less', 0: 'its end', 1: 'a second more'}

# Kinds of lines, as LI meets them.
KINDS = ['set in range', 'set out of range', 'req contract', 'req default sent', 'req change', 'req cancel-all', 'req no request',
         'req unreadable', 'user-abort', 'elapse 0', 'elapse runs on', 'elapse expires', 'elapse over',
         'start-cnf reads', 'start-cnf unreadable', 'start-rej', 'data reads', 'data unreadable', 'end-cnf',
         'peer-abort', 'air-abort provider abort', 'air-abort other', 'air-abort unreadable', 'down', 'no call']

# Where modules stand in LI START.
FIRST = [(module, 'IDLE') for module in STATES] + [('DC', 'PENDING'), ('EC', 'START-PENDING'), ('PC', 'START-PENDING')]

# Pairs that no calls lead to, and why.
UNREACHABLE = [
    ('LI IDLE: downlink is refusal 2, no module is asked',
     lambda li, place, event: li == 'IDLE' and event not in REQUESTS),
    ('LI START: a request is refusal 1, no module is asked',
     lambda li, place, event: li == 'START' and event in REQUESTS),
    ('LI END: a request is refusal 1, data is late, no module is asked',
     lambda li, place, event: li == 'END'),
    ('LI IDLE has all modules IDLE (29)',
     lambda li, place, event: li == 'IDLE' and (place[1] != 'IDLE' or place[2] in ('EM not IDLE', 'PC ACTIVE'))),
    ('LI START has one module, in its first pending state: the answer ends START, a second request is refused',
     lambda li, place, event: li == 'START' and (place[:2] not in FIRST or place[2] in ('EM not IDLE', 'PC ACTIVE'))),
]
UNREACHABLE_LINES = [
    ('no timer runs in LI IDLE', lambda li, kind: li in (BEFORE, 'IDLE') and kind == 'elapse expires'),
]


def places(link):
    """Where the four modules stand."""
    beside = {'DC': '', 'EC': '', 'PC': 'EM not IDLE' if link.emergency() else 'EM IDLE',
              'EM': 'PC ACTIVE' if link.state['PC'] == 'ACTIVE' else 'PC not ACTIVE'}
    return [(module, state, beside[module]) for module, state in link.state.items()]


def joint(link):
    return tuple(link.state.values())


def event_of(link, call):
    """The event the tables are asked about, or None."""
    if call.word == 'req' and link.li in ('IDLE', 'ACTIVE'):
        return call.event
    if (link.li, call.word) in (('START', 'start-cnf'), ('ACTIVE', 'data')):
        return downlink(call.octets) or 'unreadable'
    return None


def kind_of(link, call):
    """The kind of a line, one of KINDS."""
    if no_call(call):
        return 'no call'
    if call.word == 'set':
        return set_kind(call)
    if call.word == 'req' and sends_default(call.octets):
        return 'req default sent'
    if call.word == 'req':
        return f'req {call.kind}' if call.event else 'req unreadable'
    if call.word == 'elapse':
        return elapse_kind(link, call.numbers[0])
    if call.word in ('start-cnf', 'data'):
        return f'{call.word} {"reads" if downlink(call.octets) else "unreadable"}'
    if call.word == 'air-abort':
        event = downlink(call.octets) or 'unreadable'
        return 'air-abort ' + {'provider-abort': 'provider abort', 'unreadable': 'unreadable'}.get(event, 'other')
    return call.word


def first_end(link):
    """The timer that ends first, and its seconds left."""
    return min(link.left.items(), key=lambda entry: entry[1], default=(None, 0))


class Coverage:
    def __init__(self):
        self.pairs = collections.Counter()      # (LI state, place, event)
        self.lines = collections.Counter()      # (LI state, kind of line)
        self.joints = collections.Counter()     # the four states together, or END
        self.joint_pairs = collections.Counter()
        self.ends = collections.Counter()       # (one of ENDS, edge)
        self.started = None                     # the row that started PC2 last
        self.closing = self.word = None         # the call that brought the end request and whether data came late; the last call's word

    def note(self, box, line):
        link, call = box.link, call_of(line)
        kind = kind_of(link, call)
        self.lines[link.li if link else BEFORE, kind] += 1
        self.joints['END'] += link is not None and link.li == 'END'
        self.note_closing(link, call)
        if kind in ('elapse runs on', 'elapse expires') and link:
            self.note_end(link, call.numbers[0])
        event = event_of(link, call) if link and kind != 'no call' else None
        if event is None:
            return
        self.started = next((key for key in STARTS if key == (key[0], link.state[key[0]], event)), self.started)
        for place in places(link):
            self.pairs[link.li, place, event] += 1
        self.joints[joint(link)] += 1
        self.joint_pairs[joint(link), event] += 1

    def note_closing(self, link, call):
        if not link or link.li != 'END':
            self.closing, self.word = None, call.word
        else:
            self.closing = self.closing or (self.word, 'nothing late')
            self.closing = (self.closing[0], 'late') if call.word == 'data' and call.formed else self.closing

    def ends_of(self, link, timer):
        if timer == 'PC2':
            return self.started, link.force if link.force in SIZES else 'another interval'
        if timer == 'LI1':
            return (self.closing or (self.word, 'nothing late'),)
        return ((timer, 'interval' if link.force else 'no interval'),)

    def note_end(self, link, seconds):
        timer, left = first_end(link)
        if timer and seconds - left in EDGES:
            self.ends.update((end, EDGES[seconds - left]) for end in self.ends_of(link, timer))

    def rarest_edge(self, link):
        """The edge that was met least, of the timer that ends first, and how often it was."""
        ends = self.ends_of(link, first_end(link)[0])
        met = {edge: sorted(self.ends[end, name] for end in ends) for edge, name in EDGES.items()}
        edge = min(met, key=met.get)
        return edge, met[edge][0]

    def rarity(self, link, event):
        """How often an event met the least of its pairs at the present states."""
        return min(self.pairs[link.li, place, event] for place in places(link)), self.joint_pairs[joint(link), event]


def pairs_due():
    """The pairs that must be met, and how many cannot be, by reason."""
    due, out = [], collections.Counter()
    for li in LI_STATES:
        for place in PLACES:
            for event in EVENTS:
                why = next((why for why, holds in UNREACHABLE if holds(li, place, event)), None)
                if why:
                    out[why] += 1
                else:
                    due.append((li, place, event))
    return due, out


def ends_due():
    return [(end, edge) for end in ENDS for edge in EDGES.values()]


def lines_due():
    return [(li, kind) for li in (BEFORE, *LI_STATES) for kind in KINDS
            if not any(holds(li, kind) for _, holds in UNREACHABLE_LINES)]


class Pool(scriptmaking.Pool):
    """With periodic contracts of the intervals that every run agrees to."""

    def __init__(self, rng):
        super().__init__(rng, (('air', downlink, DOWNLINK), ('ground', request, REQUESTS)))
        intervals = [*INTERVALS, ('seconds', rng.randint(2, 58)), ('minutes', rng.randint(2, 119))]
        self.of['req/periodic-contract'] += [self.periodic(rng, interval) for interval in intervals for _ in range(4)]

    def periodic(self, rng, interval):
        return write('ground', ('periodic-contract', {**random_value(rng, 'periodic-contract'), 'interval': interval}))


@functools.lru_cache(maxsize=None)
def moves(states):
    """The events listed at four states, each with the states it leads to; with all IDLE the link ends."""
    found = []
    for place, (module, state) in enumerate(zip(STATES, states)):
        for (row_module, row_state, event), (_, after) in RULES.rows.items():
            if (row_module, row_state) == (module, state):
                then = states[:place] + (after,) + states[place + 1:]
                found.append((event, then if set(then) != {'IDLE'} else 'END'))
    return found


def lists(link, kind):
    """Whether LI lists a kind of line at its state."""
    word, _, detail = kind.replace('default sent', 'contract').partition(' ')
    return (link.li, detail if word == 'req' else word) in RULES.li


class Maker(scriptmaking.Maker):
    """What is rarely met is tried more."""

    kinds, count, hex_words = KINDS, len(RULES.watch), ('req', 'start-cnf', 'data', 'air-abort')
    elsewhere = ('air ', 'end', 'start-req ', 'start-ind ', 'ground-abort ')

    def __init__(self, rng, coverage):
        super().__init__(rng, coverage, Pool(rng))

    def begin(self):
        self.box = Box()
        self.rough = self.rng.choice((0.05, 0.1, 0.25))         # how often a line may end the link
        self.story = [] if self.rng.random() < 0.15 else None   # what comes next, where PC2 is watched to its end

    def line(self):
        link, draw = self.box.link, self.rng.random()
        if link is None:
            return self.opening(draw)
        if self.story is not None:
            return self.telling(link, draw)
        if link.left and draw < 0.3 and not self.coverage.rarest_edge(link)[1]:     # an end not met yet
            return b'elapse %d' % self.about_end(link)
        if self.rng.random() < self.rough:
            return self.breaking(link, draw)
        if draw < 0.62:
            return self.forward(link)
        if draw < 0.74:
            return self.asking(link)
        if draw < 0.88:
            return self.clock(link)
        return self.of_kind(self.rarest_kind(link.li, [kind for kind in KINDS if not lists(link, kind)]))

    def settings(self):
        high = self.rng.choice((3, 6, 12, 12, 60, 60, MOST))
        low = self.rng.choice((1, 2, high // 2 + 1))
        numbers = [self.rng.choice((self.rng.randint(low, high), self.rng.randint(low, high), high)) for _ in range(self.count)]
        if self.story is not None and self.rng.random() < 0.2:
            numbers[5] = MOST       # PC2 then runs for longer than an elapse may be
        return numbers

    # With a link

    def forward(self, link):
        """A listed event, rather one that leads where few calls have been."""
        if link.li == 'END':
            return self.of_kind(self.rng.choice(('end-cnf', 'end-cnf', 'data reads', 'data unreadable')))
        listed = [(event, after) for event, after in moves(joint(link))
                  if link.li == 'ACTIVE' or (event in REQUESTS) == (link.li == 'IDLE')]
        if self.rng.random() < 0.3:
            return self.of_event(link, self.rarest([event for event, _ in listed], link))
        event, _ = min(listed, key=lambda pair: (1 + self.coverage.joints[pair[1]]) * self.rng.random())
        return self.of_event(link, event)

    def asking(self, link):
        """The request that was asked least here; a cancel-all would end the link."""
        if link.li not in ('IDLE', 'ACTIVE'):
            return self.of_kind(self.rng.choice([kind for kind in KINDS if kind.startswith('req ')]))
        return self.of_event(link, self.rarest([event for event in REQUESTS if event != 'req/cancel-all'], link))

    def telling(self, link, draw):
        """The next line of a story; now and then time goes by."""
        if draw < 0.1 and link.left:
            return self.clock(link)
        if not self.story and link.li == 'END':
            return self.of_kind('end-cnf')
        self.story = self.story or self.new_story(link)
        event = self.story.pop(0)
        if event == 'break':
            self.story = []
            return self.breaking(link, self.rng.choice((0, 1)))
        if event == 'time':
            return b'elapse %d' % self.about_end(link) if link.left else self.clock(link)
        return self.of_event(link, event)

    def new_story(self, link):
        """A periodic contract is agreed, what follows is met by time or by what ends the link; or the link is closed, and time goes by."""
        rng = self.rng
        if link.left and ('PC2' not in link.left or rng.random() < 0.2):
            return ['req/cancel-all', *self.maybe('emergency'), 'time', 'time']
        first = [] if link.left else ['req/periodic-contract', rng.choice(ANSWERS[:3])]
        rest = list(rng.choice(BESIDE_PC2)) if rng.random() < 0.3 else self.changes()
        calls = [*first, *rest, 'time', 'time']
        return calls[:rng.choice((1, rng.randrange(1, len(calls))))] + ['break'] if rng.random() < 0.3 else calls

    def changes(self):
        """The contract is changed, maybe twice and then often refused, before, in or after an emergency or without one."""
        calls = [*self.change(), *self.rng.choice(((), self.change(), ('req/periodic-contract', 'negative-ack/periodic')))]
        if self.rng.random() < 0.5:
            place = self.rng.choice((0, self.rng.randrange(len(calls))))
            calls[place:place] = ['emergency']
            calls += self.maybe('req/modify-emergency', *self.maybe('break')) + ('cancel-emergency',)
        return [*calls, *self.maybe('periodic-report')]

    def change(self):
        """A request and its answer; between them maybe a report, which is none, or a request, which is refused."""
        between = self.rng.choice(((), ('periodic-report',), ('req/periodic-contract',)))
        return ['req/periodic-contract', *between, self.rng.choice(ANSWERS)]

    def maybe(self, *events):
        return self.rng.choice((events, ()))

    def breaking(self, link, draw):
        """What ends the link, if there is one: data not listed or unreadable, an expiry, cancel-all, aborts."""
        if draw < 0.65 and link.li in ('START', 'ACTIVE'):
            event = self.rarest(ENDING[link.li], link)
            fresh = self.coverage.rarity(link, event)[0] < 2
            return self.of_event(link, event) if fresh or self.rng.random() < 0.5 else self.forward(link)
        if draw < 0.8 and link.left:
            return b'elapse %d' % self.near(link)
        return self.of_kind(self.rarest_kind(link.li, [kind for kind in KINDS if lists(link, kind)]))

    def near(self, link):
        """Time about the end of the timer that ends first, or of any."""
        if self.rng.random() < 0.5:
            return self.about_end(link)
        timer, left = self.rng.choice(list(link.left.items()))
        return min(MOST, self.rng.choice((left, left - 1, left + 1, link.settings[timer], link.settings[timer] - 1, MOST)))

    def about_end(self, link):
        return max(1, min(MOST, first_end(link)[1] + self.coverage.rarest_edge(link)[0]))

    def rarest(self, events, link):
        return min(events, key=lambda event: (*self.coverage.rarity(link, event), self.rng.random()))

    # Lines

    def of_event(self, link, event):
        if event in REQUESTS:
            return self.hexed('req', self.rng.choice(self.pool.of[event]))
        octets = self.rng.choice(self.pool.bad['air'] if event == 'unreadable' else self.pool.of[event])
        return self.hexed('start-cnf' if link.li == 'START' else 'data', octets)

    def octets(self, word, detail):
        rng, of, bad = self.rng, self.pool.of, self.pool.bad
        if detail == 'unreadable':
            if word in ('start-cnf', 'air-abort') and rng.random() < 0.05:
                return rng.randbytes(self.longest(word))
            return rng.choice(bad['ground' if word == 'req' else 'air'])
        if detail == 'default sent':
            return rng.choice(self.pool.defaults)
        if word == 'req':
            return rng.choice(of[rng.choice([event for event, kind in REQUESTS.items() if kind == detail])])
        if detail == 'provider abort':
            return rng.choice(of['provider-abort'])
        return rng.choice(of[rng.choice([event for event in DOWNLINK if detail == 'reads' or event != 'provider-abort'])])
