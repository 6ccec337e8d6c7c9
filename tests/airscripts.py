"""Random scripts for the air side of a link, steered into deep states by the model played along, and what scripts meet.

    maker = Maker(rng, Coverage())
    maker.script(60) -> script octets
    covered(scripts) -> the coverage of scripts that are there
"""

import collections
import functools

import scriptmaking
from airmodel import LI_ROWS, LI_STATES, MAY_COME, MODULES, REASONS, ROWS, RULES, SENDS, STATES, STOP_ROWS, Box, Link, call_of, family
from scriptmaking import BEFORE, MOST, elapse_kind, no_call, set_kind
from sidemodel import AIRCRAFT_PDUS, GROUND_PDUS, aircraft_pdu, asked, ground_pdu, lines, sends_default

REQUESTS = ['req/' + name for name in AIRCRAFT_PDUS]
COMES = [*GROUND_PDUS, 'unreadable', 'none']        # what a primitive brings
ABORTS = ['user-abort', 'peer-abort', 'ground-abort', 'down']

# What a module may be asked for, by LI's state: a request, a primitive with what it brings, an abort, EM3's end.
ASKS = {
    'IDLE': [*REQUESTS, *('start-ind/' + name for name in COMES)],
    'START': [*REQUESTS, *ABORTS],
    'ACTIVE': [*REQUESTS, *('data/' + name for name in COMES), *('end-ind/' + name for name in COMES), *ABORTS, 'expiry'],
}
PLACES = [(module, state) for module in MODULES for state in STATES[module]]
IDLE_PLACES = [(module, 'IDLE') for module in MODULES]

# Where modules stand by LI's state: in START one of three waits for its answer, and the answer ends START.
STANDS = {'IDLE': IDLE_PLACES, 'START': [*IDLE_PLACES, ('DC', 'PENDING'), ('EC', 'PENDING'), ('PC', 'PENDING')], 'ACTIVE': PLACES}

# Kinds of lines, as LI meets them.
BRINGS = {'start-ind': 'contract', 'data': 'of a module', 'end-ind': 'cancel-all', 'ground-abort': 'provider abort'}
KINDS = ['set in range', 'set out of range', 'req answer', 'req emergency', 'req no request', 'req unreadable', 'user-abort',
         'elapse 0', 'elapse runs on', 'elapse expires', 'elapse over', 'peer-abort', 'down', 'no call',
         *(f'{word} {what}' for word in BRINGS for what in (BRINGS[word], 'other', 'unreadable', 'none')),
         *(f'{word} default sent' for word in ('start-ind', 'data'))]

# What happened while EM3 ran, before its end is met; and settings.
SINCE = ('nothing', 'time', 'a modify', 'another module', 'a refusal', 'an earlier run')
EDGES = {-1: 'a second less', 0: 'its end', 1: 'a second more'}
SIZES = (1, MOST)


def own_events(module):
    return list(dict.fromkeys(event for who, _, event, *_ in ROWS if who == module))


# The rows of the tables, and the cells that have none: "Not permitted" and "request AB to abort" of a module, "Not permitted" and "cannot
# occur" of LI.
LI_CALLS = [*dict.fromkeys(call for _, call, *_ in LI_ROWS), 'no request']
ROWS_DUE = {
    **{(module, state, event): where for module, state, event, _, _, where in ROWS},
    **{(module, state, 'stop operation'): where for module, states, _, _, where in STOP_ROWS for state in states.split()},
    **{('LI', state, call): where for states, call, _, _, where in LI_ROWS for state in states.split()},
    **{('AB', 'reason', why): '002:5799-5821' for why in REASONS},
}
CELLS_DUE = [(module, state, event) for module, state in PLACES for event in own_events(module) if (module, state, event) not in ROWS_DUE]
CELLS_DUE += [('LI', state, call) for state in LI_STATES for call in LI_CALLS if ('LI', state, call) not in ROWS_DUE]


def brought(octets):
    """What a primitive brings, one of COMES."""
    return ground_pdu(octets) or ('unreadable' if octets else 'none')


def asks_of(link, call):
    """What the modules are asked for, one of ASKS, or None."""
    if call.word == 'req':
        return call.event
    if call.word == 'elapse':
        return 'expiry' if elapse_kind(link, call.numbers[0]) == 'elapse expires' else None
    what = f'{call.word}/{brought(call.octets)}' if call.word in MAY_COME else call.word
    return what if what in ASKS[link.li] else None


def kind_of(link, call):
    """The kind of a line, one of KINDS."""
    if no_call(call):
        return 'no call'
    if call.word == 'set':
        return set_kind(call)
    if call.word == 'req':
        return f'req {SENDS.get(call.sent, "no request")}' if call.event else 'req unreadable'
    if call.word == 'elapse':
        return elapse_kind(link, call.numbers[0])
    if call.word not in BRINGS:
        return call.word
    what = brought(call.octets)
    if f'{call.word} default sent' in KINDS and sends_default(call.octets):
        return f'{call.word} default sent'
    if what in MAY_COME.get(call.word, ('provider-abort',)):
        return f'{call.word} {BRINGS[call.word]}'
    return f'{call.word} {what if what in ("unreadable", "none") else "other"}'


class Counted(Link):
    """A link that counts the rows that it plays."""

    def __init__(self, met, rules, settings):
        super().__init__(rules, settings)
        self.met = met

    def play(self, event, octets, send):
        module, _ = self.row(event)
        self.met[module, self.state[module], event] += 1
        return super().play(event, octets, send)

    def halt(self, module):
        self.met[module, self.state[module], 'stop operation'] += 1
        return super().halt(module)

    def call(self, kind, octets):
        self.met['LI', self.li, kind] += 1
        return super().call(kind, octets)

    def reason(self, why):
        self.met['AB', 'reason', why] += 1
        return super().reason(why)


class Coverage:
    def __init__(self):
        self.rows = collections.Counter()       # of ROWS_DUE
        self.cells = collections.Counter()      # of CELLS_DUE
        self.pairs = collections.Counter()      # (LI state, place, what is asked)
        self.lines = collections.Counter()      # (LI state, kind of line)
        self.joints = collections.Counter()     # the four states together
        self.ends = collections.Counter()       # (one of SINCE or SIZES, edge)
        self.since, self.runs = set(), 0        # of EM3, in the present script

    def box(self):
        """For a new script, counted into this."""
        self.since, self.runs = set(), 0
        return Box(RULES, functools.partial(Counted, self.rows))

    def note(self, box, line):
        """A line is about to be answered."""
        link, call = box.link, call_of(line)
        kind = kind_of(link, call)
        self.lines[link.li if link else BEFORE, kind] += 1
        if link is None or kind in ('no call', 'req unreadable') or call.word == 'set':
            return
        refused = any(getattr(box, judge)(call) for judge in box.rules.order)
        if call.word == 'elapse' and not refused:
            self.note_end(link, call.numbers[0])
        asks = asks_of(link, call)
        self.note_cell(box, call, refused)
        self.note_run(link, call, asks, refused)
        if asks is not None:
            self.pairs.update((link.li, place, asks) for place in link.state.items())
            self.joints[tuple(link.state.values())] += 1

    def note_cell(self, box, call, refused):
        """The cells without a row: LI's, else those of the module whose event it is."""
        if call.word == 'elapse':
            return
        link, kind = box.link, box.kind_of(call)
        if ('LI', link.li, kind) not in ROWS_DUE:
            self.cells['LI', link.li, kind] += 1
        elif (refused or kind == 'data') and link.li == 'ACTIVE':
            event = call.event or call.comes
            self.cells.update((module, state, event) for module, state in link.state.items())

    # EM3

    def note_run(self, link, call, asks, refused):
        """What happens while EM3 runs."""
        if not link.left:
            self.since = set()
            self.runs += asks == 'req/cancel-emergency' and not refused
        elif refused:
            self.since.add('a refusal')
        elif call.word == 'elapse':
            self.since.add('time')
        else:
            self.since.add('a modify' if asks == 'data/modify-emergency' else 'another module')

    def histories(self, link):
        earlier = ['an earlier run'] if self.runs > 1 else []
        return [*(self.since or ['nothing']), *earlier, *(size for size in SIZES if link.settings['EM3'] == size)]

    def note_end(self, link, seconds):
        edge = EDGES.get(seconds - link.left['EM3']) if link.left else None
        if edge:
            self.ends.update((history, edge) for history in self.histories(link))

    def rarest_edge(self, link):
        """The edge that was met least, and how often it was."""
        met = {edge: sorted(self.ends[history, name] for history in self.histories(link)) for edge, name in EDGES.items()}
        edge = min(met, key=met.get)
        return edge, met[edge][0]

    def rarity(self, link, asks):
        """How often something was asked at the least of the present states."""
        return min(self.pairs[link.li, place, asks] for place in link.state.items())


def covered(scripts):
    coverage = Coverage()
    for script in scripts:
        box = coverage.box()
        for line in lines(script):
            coverage.note(box, line)
            box.answer(line)
    return coverage


def pairs_due():
    return [(li, place, asks) for li in LI_STATES for place in STANDS[li] for asks in ASKS[li]
            if asks != 'expiry' or place[0] != 'EM' or place[1] == 'CANCEL']


def lines_due():
    """EM3 runs in ACTIVE alone."""
    return [(li, kind) for li in (BEFORE, *LI_STATES) for kind in KINDS if li == 'ACTIVE' or kind != 'elapse expires']


def ends_due():
    """A day and a second is no elapse."""
    return [(history, edge) for history in (*SINCE, *SIZES) for edge in EDGES.values()
            if (history, edge) != (MOST, 'a second more')]


@functools.lru_cache(maxsize=None)
def moves(states):
    """The events listed at four states, each with the states it leads to."""
    return [(event, states[:place] + (after,) + states[place + 1:]) for place, (module, state) in enumerate(zip(MODULES, states))
            for (row_module, row_state, event), (_, after) in RULES.rows.items() if (row_module, row_state) == (module, state)]


def lists(link, kind):
    """Whether LI lists a kind of line at its state."""
    word, _, detail = kind.partition(' ')
    if word == 'req':
        return (link.li, detail) in RULES.li
    return any((link.li, call) in RULES.li for call in (word, f'{word} invalid'))


class Maker(scriptmaking.Maker):
    """What is rarely met is tried more."""

    kinds, count, hex_words = KINDS, 1, ('req', 'start-ind', 'data', 'end-ind', 'ground-abort')
    elsewhere = ('air ', 'end', 'start-rsp ', 'start-cnf ', 'start-rej', 'end-cnf', 'air-abort ')

    def __init__(self, rng, coverage):
        super().__init__(rng, coverage, scriptmaking.Pool(rng, (
            ('air', lambda octets: asked(aircraft_pdu(octets)), REQUESTS), ('ground', ground_pdu, GROUND_PDUS))))

    def begin(self):
        self.box = self.coverage.box()
        self.rough = self.rng.choice((0.05, 0.1, 0.2))          # how often a line may end the link

    def line(self):
        link, draw = self.box.link, self.rng.random()
        if link is None:
            return self.opening(draw)
        if link.left and draw < 0.3 and self.coverage.rarest_edge(link)[1] < 6:     # an end rarely met
            return b'elapse %d' % self.about_end(link)
        if self.rng.random() < self.rough:
            return self.breaking(link, draw)
        if draw < 0.6:
            return self.forward(link)
        if draw < 0.78:
            return self.of_asked(self.rarest(REQUESTS, link))
        if draw < 0.88:
            return self.clock(link)
        return self.of_kind(self.rarest_kind(link.li, [kind for kind in KINDS if not lists(link, kind)]))

    def settings(self):
        high = self.rng.choice((1, 2, 3, 6, 12, 60, 360, MOST, MOST))
        return [self.rng.choice((high, self.rng.randint(1, high)))]

    def forward(self, link):
        """A listed event, rather one that leads where few calls have been."""
        listed = [(self.by_li(link, event), after) for event, after in moves(tuple(link.state.values()))]
        listed = [(asks, after) for asks, after in listed if asks in ASKS[link.li] and not self.waits(link, asks)]
        draw = self.rng.random()
        if draw < 0.3:
            return self.of_asked(self.rarest([asks for asks, _ in listed], link))
        if draw < 0.5:      # the emergency goes on: EM's ways are long
            listed = [(asks, after) for asks, after in listed if after[-1] != link.state['EM']] or listed
        return self.of_asked(min(listed, key=lambda pair: (1 + self.coverage.joints[pair[1]]) * self.rng.random())[0])

    def by_li(self, link, event):
        """What brings an event in a state of LI."""
        return event if event.startswith('req/') else f'{"data" if link.li == "ACTIVE" else "start-ind"}/{event}'

    def waits(self, link, asks):
        """Whether LI does not take it in its state."""
        return link.li != 'ACTIVE' and asks.startswith('req/') and (link.li, SENDS.get(family(asks))) not in RULES.li

    def breaking(self, link, draw):
        """What ends the link, if there is one: data not listed or invalid, an expiry, an end indication, aborts."""
        ending = [asks for asks in ASKS[link.li] if asks not in REQUESTS and (asks != 'expiry' or link.left)]
        if draw < 0.8 and ending:
            return self.of_asked(self.rarest(ending, link))
        return self.of_kind(self.rarest_kind(link.li, [kind for kind in KINDS if lists(link, kind)]))

    def near(self, link):
        """Time about EM3's end."""
        if self.rng.random() < 0.5:
            return self.about_end(link)
        left = link.left['EM3']
        return min(MOST, self.rng.choice((left, left + 1, link.settings['EM3'], MOST)))

    def about_end(self, link):
        return min(MOST, link.left['EM3'] + self.coverage.rarest_edge(link)[0])

    def rarest(self, asks, link):
        return min(asks, key=lambda one: (self.coverage.rarity(link, one), self.rng.random()))

    # Lines

    def of_asked(self, asks):
        word, _, what = asks.partition('/')
        if word == 'req':
            return self.hexed('req', self.rng.choice(self.pool.of[asks]))
        if word == 'expiry':
            return b'elapse %d' % self.rng.choice((self.box.link.left['EM3'], MOST))
        if word == 'ground-abort':
            return self.of_kind(self.rng.choice([kind for kind in KINDS if kind.startswith('ground-abort ')]))
        return self.hexed(word, self.of_brought(what)) if what else word.encode()

    def of_brought(self, what):
        if what == 'none':
            return b''
        return self.rng.choice(self.pool.bad['ground'][1:] if what == 'unreadable' else self.pool.of[what])

    def octets(self, word, detail):
        rng, of = self.rng, self.pool.of
        if word == 'req':
            if detail == 'unreadable':
                return rng.choice(self.pool.bad['air'])
            return rng.choice(of[rng.choice([event for event in REQUESTS if SENDS.get(family(event), 'no request') == detail])])
        if detail in ('unreadable', 'none'):
            if detail == 'unreadable' and rng.random() < 0.05:
                return rng.randbytes(self.longest(word))
            return self.of_brought(detail)
        if detail == 'default sent':
            return rng.choice(self.pool.defaults)
        may = MAY_COME.get(word, ('provider-abort',))
        return rng.choice(of[rng.choice([name for name in GROUND_PDUS if (name in may) == (detail == BRINGS[word])])])
