"""Lines for the program hostcall: writing from numbers, calls on link records good and one step off, and blocks of the flight log.

    writing(rng, count) -> lines, what they met        records(rng, count), blocks(rng, count): the same

What is met is a Counter of names; WRITING_DUE, RECORDS_DUE and BLOCKS_DUE say which names have to be in it.

    moved(line, answer) -> the names of what a call made of the intervals and of LI1, for the same Counter
"""

import collections
import itertools

import hostmodel
import linkmodel
import logmaking
import logmodel
from hostmodel import AIR, ANSWER_OCTETS, CALLS, GROUND, INTERVAL_MOST, INTERVALS, LINK_OCTETS, STATES, Calling, Record, grounds, link_of, spelt, taken_apart, written
from linkscripts import Pool
from percoder import RANGES

TOP = 2 ** 32
KINDS = {'ground': [name for name, _ in hostmodel.TABLE['ground'][2]], 'air': [name for name, _ in hostmodel.TABLE['air'][2]]}
PLACES = {'ground': GROUND, 'air': AIR}

# ---- writing: the numbers of a kind that are looked at, each with its range

FIX = {'south': 'sign', 'latitude': 'degrees-latitude', 'latitude-minutes': 'minutes-of-degree', 'latitude-tenths': 'tenth-seconds',
       'west': 'sign', 'longitude': 'degrees-longitude', 'longitude-minutes': 'minutes-of-degree', 'longitude-tenths': 'tenth-seconds',
       'level': 'level', 'year': 'year', 'month': 'month', 'day': 'day', 'has-seconds': 'boolean', 'hours': 'hours', 'minutes': 'minutes',
       'accuracy': 'accuracy', 'units': 'boolean', 'avoidance': 'boolean'}
# Behind the bits that say which of them are there (the first as the highest), and those behind the bit of their element.
PARTS = {
    'ground-parts': (('track', 'track'), ('ground-speed', 'ground-speed'), ('ground-rate', 'ground-rate')),
    'air-parts': (('heading', 'heading'), ('air-speed', 'air-speed-index'), ('air-rate', 'air-rate')),
    'weather-parts': (('wind-speed', 'wind-speed'), ('wind-direction', 'wind-direction'), ('temperature', 'temperature'), ('turbulence', 'turbulence')),
}
SPEEDS = {0: ('mach',), 1: ('ias',), 2: ('mach', 'ias')}
BITS = {'address': 64, 'ground-parts': 16, 'air-parts': 8, 'weather-parts': 4}
URGENT_BITS = {'address': 2, 'ground-parts': 1}
REPORTS = ('demand-report', 'emergency', 'event-report', 'periodic-report')
WHAT = {'cancel-contract': 'cancel-contract', 'provider-abort': 'abort-reason', 'positive-ack': 'request-type', 'negative-ack': 'request-type',
        'noncompliance': 'noncompliance-index', **dict.fromkeys(REPORTS, 'boolean')}
ENTRIES = ('report-type', 'noncompliance-event-type', 'report-type-and-period')

# Presence bits as a host gives them: how many, and which are carried.
MASKS = {'demand-contract': (7, 0x7c), 'periodic-contract': (7, 0x7c), 'event-contract': (11, 0x7ff), 'emergency': (2, 3),
         **dict.fromkeys(('demand-report', 'event-report', 'periodic-report'), (7, 0x5c)),
         **{parts: (len(fields), (1 << len(fields)) - 1) for parts, fields in PARTS.items()}}
MODULI = dict(zip(hostmodel.MODULI, (64, 32, 16, 8, 4)))
# The numbers of an event contract by the bits that announce them; two of them are of the kind that stands before them.
EVENTS = {1024: ('lateral-deviation',), 512: ('rate-change',), 256: ('ceiling', 'floor'), 64: ('air-speed-kind', 'air-speed-change'),
          32: ('ground-speed-change',), 16: ('heading-change',), 8: ('profile-kind', 'profile-count'), 2: ('track-change',), 1: ('level-change',)}
EVENT_KINDS = {'air-speed-kind': 'air-speed-change-index', 'profile-kind': 'profile-index'}
AMOUNTS = {'air-speed-change': ('air-speed-kind', ('mach-change', 'ias-change')), 'profile-count': ('profile-kind', ('profile-time', 'profile-points'))}
# These say what else there is.
SAYING = ('what', 'scale', 'detail', 'elements', 'has-seconds', *PARTS, 'air-speed', *EVENT_KINDS)
COUNTS = (17, 18, 255, 256, 257, TOP - 1)


def elements_of(kind, n):
    """What the elements of a report add, in the order of sending."""
    found = {}
    for element, bit in (URGENT_BITS if kind == 'emergency' else BITS).items():
        if n['elements'] & bit:
            found[element] = 'mask' if element in PARTS else element
            found.update(parts_of(element, n))
    return found


def parts_of(element, n):
    """The parts of a vector or weather that its bits announce."""
    parts = PARTS.get(element, ())
    for place, (name, form) in enumerate(parts, 1):
        if n[element] >> len(parts) - place & 1:
            yield name, form
            yield from ((speed, speed) for speed in SPEEDS.get(n['air-speed'], ()) if name == 'air-speed')


def change_range(place, n):
    if place in AMOUNTS:
        kind, forms = AMOUNTS[place]
        return forms[n[kind] % 2]
    return EVENT_KINDS.get(place, place)


def fields_of(family, kind, n):
    """place -> range, or 'mask', 'count' and 'entries', of what this PDU has."""
    if family == 'ground':
        found = {'what': WHAT[kind]} if kind in WHAT else {'what': 'mask'} if kind in MASKS else {}
        if kind in ('modify-emergency', 'periodic-contract'):
            found.update(scale='interval-index', interval=('interval-seconds', 'interval-minutes')[n['scale'] % 2])
        if kind == 'periodic-contract':
            found.update((name, 'modulus') for name, bit in MODULI.items() if n['what'] & bit)
        if kind == 'event-contract':
            found.update((name, change_range(name, n)) for bit, names in EVENTS.items() if n['what'] & bit for name in names)
        return found
    found = {'what': WHAT[kind]} if kind in WHAT else {}
    if kind in REPORTS:
        found.update({'detail': 'event-type'} if kind == 'event-report' else {}, elements='mask', **FIX)
        found.update({'seconds': 'seconds'} if n['has-seconds'] == 1 else {})
        found.update(elements_of(kind, n))
    if kind == 'negative-ack':
        found['detail'] = 'negative-reason'
    if kind == 'noncompliance' or kind == 'negative-ack' and n['detail'] == 2:
        found.update(count='count', entries='entries')
    return found


def entry_range(kind, n):
    return RANGES['character'] if kind == 'negative-ack' else RANGES[ENTRIES[n['what'] % 3]]


class Pdu:
    """Numbers and list octets of a PDU that is good; what it has not is anything."""

    def __init__(self, rng, family, kind, full=False):
        self.rng, self.family, self.kind = rng, family, kind
        self.n = {place: rng.choice((rng.randrange(TOP), rng.randrange(300), 0)) for place in PLACES[family]}
        self.n['kind'] = KINDS[family].index(kind)
        self.octets = rng.randbytes(rng.choice((0, 0, 5, 128, 140)))
        for place in SAYING:
            form = self.fields().get(place) if place in self.n else None
            if form:
                self.n[place] = self.good(place, form)
        if full:
            self.n.update({'has-seconds': 1, 'elements': MASKS[kind][1], 'air-speed': 2} if kind in REPORTS else {})
            self.n.update({parts: MASKS[parts][1] for parts in PARTS} if kind in REPORTS else {})
            self.n.update({'detail': 2} if kind == 'negative-ack' else {})
            self.n.update({'what': 0x7c} if kind == 'periodic-contract' else {})
            self.n.update({'what': 0x7ff, **{place: rng.randrange(2) for place in EVENT_KINDS}} if kind == 'event-contract' else {})
        for place, form in self.fields().items():       # no number of these says what else there is
            if place not in (*SAYING, 'entries'):
                self.n[place] = max(self.good(place, form), 1) if full and place == 'count' else self.good(place, form)
        if 'entries' in self.fields():
            low, high = entry_range(kind, self.n)
            self.octets = bytes(rng.choice((low, high, rng.randint(low, high))) for _ in range(16 * (8 if kind == 'negative-ack' else 1)))
            used = self.used()
            self.octets = self.octets[:used] + rng.randbytes(rng.choice((0, 3)))    # past the entries: anything

    def used(self):
        return self.n['count'] * (8 if self.kind == 'negative-ack' else 1)

    def fields(self):
        return fields_of(self.family, self.kind, self.n)

    def mask(self, place):
        return MASKS[place if place in PARTS else self.kind]

    def good(self, place, form):
        if form == 'mask':
            carried = self.mask(place)[1]
            some = self.rng.randrange(2048) & carried
            return self.rng.choice((carried, some or carried) if self.kind == 'event-contract' else (carried, 0, some))
        low, high = RANGES[form]
        return self.rng.choice((low, high, self.rng.randint(low, high))) % TOP

    def edges(self, place):
        """name -> number: just outside, just inside."""
        form = self.fields()[place]
        if form == 'mask':
            bits, carried = self.mask(place)
            off = [1 << bit for bit in range(bits) if not carried >> bit & 1]
            return {'none': 0, 'carried': carried, 'over': 1 << bits, 'top': TOP - 1, **{f'not carried {bit}': bit for bit in off},
                    **({'all': (1 << bits) - 1, 'over and not carried': (1 << bits) + off[0]} if off else {})}
        low, high = RANGES[form]
        return {'below': (low - 1) % TOP, 'low': low % TOP, 'high': high, 'above': high + 1, 'top bit': 1 << 31, 'any': self.rng.randrange(TOP)}

    def spoil(self, place):
        """One thing out of order: a number outside, a bit not carried, a list too long, an entry outside."""
        form = self.fields()[place]
        if form == 'entries':
            if self.used() == 0 or not self.octets:
                return
            at = self.rng.randrange(min(self.used(), len(self.octets)))
            high = entry_range(self.kind, self.n)[1]
            self.octets = self.octets[:at] + bytes([self.rng.choice((high + 1, 255))]) + self.octets[at + 1:]
        elif form == 'count':
            self.n['count'] = self.rng.choice(COUNTS)
        elif form == 'mask':
            fine = ('carried', 'none')[:1 if self.kind == 'event-contract' else 2]
            self.n[place] = self.rng.choice([number for name, number in self.edges(place).items() if name not in fine])
        else:
            self.n[place] = self.rng.choice([self.edges(place)[name] for name in ('below', 'above')])

    def numbers(self):
        return [self.n[place] for place in PLACES[self.family]]

    def pdu(self):
        value = hostmodel.ground_value(self.numbers()) if self.family == 'ground' else hostmodel.air_value(self.numbers(), self.octets)
        return written(self.family, value)

    def line(self, room=None, numbers=None):
        pdu, rng = self.pdu(), self.rng
        if room is None:
            size = len(pdu) if isinstance(pdu, bytes) else rng.randrange(20)
            room = max(0, rng.choice((size, size, size + 1, size - 1, 0, 128, 160)))
        numbers = self.numbers() if numbers is None else numbers
        return line_of('write_' + self.family, rng.randbytes(rng.choice((0, 0, 2))), self.octets, rng.randbytes(room), numbers)


def line_of(word, link, octets, out, numbers):
    return ' '.join([word, link.hex(), octets.hex(), out.hex(), *map(str, numbers)]).encode()


ALL_KINDS = [(family, kind) for family, kinds in KINDS.items() for kind in kinds]


def edge_lines(rng, met):
    """Each number of each kind at each edge; each two things out of order together."""
    for family, kind in ALL_KINDS:
        for place in Pdu(rng, family, kind, True).fields():
            if place != 'entries':
                for name in Pdu(rng, family, kind, True).edges(place):
                    pdu = Pdu(rng, family, kind, True)
                    pdu.n[place] = pdu.edges(place)[name]
                    met[f'{family} {kind}: {place} {name}'] += 1
                    yield pdu.line(128)
        for pair in itertools.combinations(Pdu(rng, family, kind, True).fields(), 2):
            pdu = Pdu(rng, family, kind, True)
            for place in reversed(pair):
                if place in pdu.fields():
                    pdu.spoil(place)
            met[f'{family} {kind}: two out of order'] += 1
            yield pdu.line(rng.choice((128, 128, 0)))


def room_lines(rng, met):
    """Every room from none to two octets more than the PDU has."""
    for family, kind in ALL_KINDS:
        for full in (True, False):
            pdu = Pdu(rng, family, kind, full)
            size = len(pdu.pdu())
            for room in range(size + 3):
                met[f'{family} {kind}: room {min(room - size, 0) or "for it"}' if room >= size - 1 else f'{family} {kind}: less room'] += 1
                yield pdu.line(room)


def family_of(kind):
    return next(family for family, kinds in KINDS.items() if kind in kinds)


def ends(form):
    low, high = RANGES[form]
    return low - 1, low, high, high + 1


def signed_edges(place):
    low, high = RANGES[place]
    return (low - 1, low, -1, 0, high, high + 1, -2 ** 31)


def other_lines(rng, met):
    """Levels and other signed numbers, sets of parts, lists, kinds and lengths of their own."""
    for place, kind in itertools.product(hostmodel.SIGNED, (*REPORTS, 'event-contract')):
        for number in signed_edges(place) if place in PLACES[family_of(kind)] else ():
            pdu = Pdu(rng, family_of(kind), kind, True)
            pdu.n[place] = number % TOP
            met[f'{place} {number}'] += 1
            yield pdu.line(128)
    for kind, (parts, (bits, _)) in itertools.product(REPORTS, ((parts, MASKS[parts]) for parts in PARTS)):
        for some, speed in itertools.product(range(1 << bits), range(4) if parts == 'air-parts' else (2,)):
            pdu = Pdu(rng, 'air', kind, True)
            pdu.n[parts], pdu.n['air-speed'] = some, speed
            met[f'{kind}: {parts} {some}'] += 1
            yield pdu.line(128)
    for place, (which, forms) in AMOUNTS.items():
        for kind, form in enumerate((*forms, forms[0])):                # the last kind names nothing
            for number in ends(form):
                pdu = Pdu(rng, 'ground', 'event-contract', True)
                pdu.n[which], pdu.n[place] = kind, number % TOP
                met[f'{place} of kind {kind}: {number}'] += 1
                yield pdu.line(128)
    for what in (*EVENTS, 128, 4, *(0x7ff - bit for bit in EVENTS)):
        pdu = Pdu(rng, 'ground', 'event-contract', True)
        pdu.n['what'] = what
        met[f'event contract of {what:03x}'] += 1
        yield pdu.line(128)
    for kind, count, short in itertools.product(('negative-ack', 'noncompliance'), (0, 1, 15, 16, *COUNTS), (False, True)):
        pdu = Pdu(rng, 'air', kind, True)
        pdu.n['count'] = count
        pdu.octets = pdu.octets[:3] if short else bytes(128)
        met[f'{kind}: a list of {count}'] += 1
        yield pdu.line(128)
    for what, over, place in itertools.product(range(3), (0, 1, 2, 3), range(5)):
        pdu = Pdu(rng, 'air', 'noncompliance')
        octet = RANGES[ENTRIES[what]][1] + over
        pdu.n['what'], pdu.n['count'], pdu.octets = what, 5, bytes(place) + bytes([octet]) + bytes(9)
        met[f'an entry {over} over'] += 1
        yield pdu.line(128)
    for octet in (127, 128, 255):
        for place in range(24):
            pdu = Pdu(rng, 'air', 'negative-ack', True)
            pdu.n['count'], pdu.octets = 3, bytes(place) + bytes([octet]) + bytes(30 - place)
            met[f'a character {octet}'] += 1
            yield pdu.line(128)
    for family, kind in itertools.product(KINDS, (8, 9, 10, 15, 16, 256, TOP - 1)):
        pdu = Pdu(rng, family, rng.choice(KINDS[family]))
        pdu.n['kind'] = kind
        met[f'{family}: kind {kind}'] += 1
        yield pdu.line(128)
    for family, kind in ALL_KINDS:
        for size in range(hostmodel.MOST_NUMBERS + 1):
            pdu = Pdu(rng, family, kind, True)
            met[f'{family}: {size} numbers'] += 1
            yield pdu.line(128, (pdu.numbers() + [rng.randrange(TOP) for _ in range(size)])[:size])


def random_write(rng, met):
    family, kind = rng.choice(ALL_KINDS)
    pdu = Pdu(rng, family, kind, rng.random() < 0.5)
    for place in rng.sample(list(pdu.fields()), min(len(pdu.fields()), rng.choice((0, 0, 1, 1, 2, 3)))):
        if place in pdu.fields():
            pdu.spoil(place)
    met['random'] += 1
    return pdu.line()


def writing(rng, count):
    met = collections.Counter()
    lines = [*edge_lines(rng, met), *room_lines(rng, met), *other_lines(rng, met)]
    lines += [random_write(rng, met) for _ in range(count - len(lines))]
    return lines, met


# ---- records

SETTINGS = (0, 1, 86400, 86401)
EDGES = ('0', '1', 'setting', 'setting + 1', '86400 of 86400', '86401 of 86400')
TIMERS = [timer for timer, _, _ in linkmodel.RULES.watch]
PC2, LI1 = TIMERS.index('PC2'), TIMERS.index('LI1')
PC, EM = list(STATES).index('PC'), list(STATES).index('EM')
# PC2's seconds left, where `both` is interval in force and setting; seconds of an interval; how many octets are no record.
GRACES = ('interval', 'interval + 1', 'both', 'both + 1', '93600 of 7200 + 86400', '93601 of 7200 + 86400')
SECONDS = (0, 1, INTERVAL_MOST, INTERVAL_MOST + 1, TOP - 1)
SIZES = (0, 77, 84, 85, 86, 92, 94, 186)
BRINGING = ('start_confirm', 'data', 'air_abort')
# Requests as numbers, with the seconds that are asked for.
WISHES = {1: (6, 0, 0, 1), 59: (6, 0, 0, 59), 60: (6, 0, 1, 1), 300: (6, 0, 1, 5), 7200: (6, 0, 1, 120)}
ASKING = {'req/periodic-contract': list(WISHES.values()), 'req/cancel-contract/periodic': [(1, 1)]}
CANCEL_ALL = (0,)
# What becomes of the intervals: PC's state before and after a call, and which is in force then.
FORCES = NONE, THE_ASKED, THE_OLD = ('none', 'the asked one', 'the old one')
MOVES = [('IDLE', 'START-PENDING', NONE), ('START-PENDING', 'START-PENDING', NONE), ('START-PENDING', 'ACTIVE', THE_ASKED), ('START-PENDING', 'IDLE', NONE),
         ('PENDING', 'PENDING', THE_OLD), ('PENDING', 'ACTIVE', THE_ASKED), ('PENDING', 'ACTIVE', THE_OLD), ('PENDING', 'IDLE', NONE),
         ('ACTIVE', 'ACTIVE', THE_OLD), ('ACTIVE', 'PENDING', THE_OLD), ('ACTIVE', 'CANCEL', THE_OLD), ('ACTIVE', 'IDLE', NONE),
         ('CANCEL', 'CANCEL', THE_OLD), ('CANCEL', 'IDLE', NONE)]
MEETINGS = [(29, 4), (29, 1), (29, 2), (29, 5), (29, 10), (29, 15), (29, 6),
            (4, 6), (1, 5), (1, 10), (1, 15), (1, 6), (2, 6), (5, 6), (10, 6), (15, 6)]
GROUNDS = ('octets', 'setting', 'state', 'running', 'left', 'module', 'missing', 'foreign', 'over')


class Records:
    def __init__(self, rng):
        self.rng, self.pool, self.met, self.lines = rng, Pool(rng), collections.Counter(), []

    # Good ones: any states that may stand together, any seconds.

    def good(self, li=None):
        rng = self.rng
        states = [rng.randrange(len(names)) for names in STATES.values()]
        states[4] = states[4] if li is None else STATES['LI'].index(li)
        if STATES['LI'][states[4]] in ('IDLE', 'END'):
            states[:4] = [0] * 4
        settings = [rng.choice((1, 2, 60, 86399, 86400, rng.randint(1, 86400))) for _ in TIMERS]
        return self.fitted(Record(settings, [0] * len(TIMERS), states, [0] * 2))

    def fitted(self, record):
        """With the intervals that PC's state has, and seconds left where a timer runs by the watch table."""
        rng, pc = self.rng, STATES['PC'][record.states[PC]]
        most = INTERVAL_MOST
        intervals = [rng.choice((1, 60, 300, most - 1, most, rng.randint(1, most))) if pc in states else 0 for states in INTERVALS.values()]
        return self.timed(record._replace(intervals=intervals))

    def timed(self, record):
        watched = link_of(record).watched()
        most = list(record.settings)
        most[PC2] += min(record.intervals[1], INTERVAL_MOST)
        left = [self.rng.choice((1, setting, most, self.rng.randint(1, most))) if timer in watched else 0
                for timer, setting, most in zip(TIMERS, record.settings, most)]
        return record._replace(left=left)

    def with_pc(self, state, li=None, em=None):
        """PC at a state, EM at one that is IDLE or is not. The two intervals differ."""
        record = self.good(li or self.rng.choice(('START', 'ACTIVE')))
        record.states[PC] = STATES['PC'].index(state)
        record.states[EM] = record.states[EM] if em is None else self.rng.randint(1, 2) * em
        while True:
            record = self.fitted(record)
            if record.intervals[0] != record.intervals[1] or not any(record.intervals):
                return record

    def with_timer(self, place, runs):
        while True:
            record = self.good(self.rng.choice(('END',) if TIMERS[place] == 'LI1' else ('START', 'ACTIVE')) if runs else None)
            if bool(record.left[place]) == runs:
                return record

    # One step off, or just not.

    def steps(self):
        for place, timer in enumerate(TIMERS):
            for runs in (True, False):
                how = 'runs' if runs else 'rests'
                for setting in SETTINGS:
                    record = self.with_timer(place, runs)
                    record.settings[place] = setting
                    record.left[place] = min(record.left[place], max(setting, 1)) if runs else 0
                    yield f'{timer} {how}: setting {setting}', spelt(record)
                for edge in EDGES:
                    record = self.with_timer(place, runs)
                    record.settings[place] = 86400 if edge.endswith('of 86400') else record.settings[place]
                    setting = record.settings[place]
                    seconds = {'0': 0, '1': 1, 'setting': setting, 'setting + 1': setting + 1}
                    record.left[place] = seconds.get(edge) if edge in seconds else int(edge[:5])
                    yield f'{timer} {how}: {edge} left', spelt(record)
        for edge in GRACES:
            record = self.with_timer(PC2, True)
            if edge.endswith('of 7200 + 86400'):
                record.settings[PC2], record.intervals[1] = 86400, INTERVAL_MOST
            interval, both = record.intervals[1], record.intervals[1] + record.settings[PC2]
            seconds = {'interval': interval, 'interval + 1': interval + 1, 'both': both, 'both + 1': both + 1}
            record.left[PC2] = seconds.get(edge) or int(edge[:5])
            yield f'PC2: {edge} left', spelt(record)
        for (place, interval), state, seconds in itertools.product(enumerate(INTERVALS), STATES['PC'], SECONDS):
            record = self.with_pc(state)
            record.intervals[place] = seconds
            yield f'PC {state}: {interval} {seconds}', spelt(self.timed(record))
        for place, (module, names) in enumerate(STATES.items()):
            for state in (len(names), len(names) + 1, 255):
                record = self.good()
                record.states[place] = state
                yield f'{module}: no state {state - len(names) if state < 255 else 255}', spelt(record)
            for state in range(len(names)):
                record = self.good(self.rng.choice(('START', 'ACTIVE')) if module != 'LI' else None)
                record.states[place] = state
                yield f'{module}: another state', spelt(record)
        for li, place in itertools.product(('IDLE', 'END'), range(4)):
            module, names = list(STATES.items())[place]
            for state in range(1, len(names)):
                record = self.good(li)
                record.states[place] = state
                yield f'{li}: {module} {names[state]}', spelt(self.fitted(record))
        for li in STATES['LI']:
            record = self.good(li)
            record.states[:4] = [0] * 4
            yield f'{li}: all IDLE', spelt(self.fitted(record))
        for size, li in itertools.product(SIZES, ('IDLE', 'ACTIVE')):
            yield f'{size} octets', (spelt(self.good(li)) * 2)[:size]
        yield 'good', spelt(self.good())

    # Calls

    def seconds(self, octets):
        near = [left + step for left in taken_apart(octets).left if left for step in (-1, 0, 1)] if len(octets) == LINK_OCTETS else []
        return self.rng.choice((0, 1, 86400, 86401, TOP - 1, *near, *near)) % TOP

    def rows(self, record, asked):
        """The events that the modules' states have a row for."""
        link = link_of(taken_apart(record)) if len(record) == LINK_OCTETS else None
        return [event for module, state, event in linkmodel.RULES.rows
                if link and link.state[module] == state and event.startswith('req/') == asked]

    def request(self, record):
        """A request, mostly one that the states have a row for, now and then with a field out of order; or none."""
        rows = [event.split('/')[1] for event in self.rows(record, True)]
        kind = self.rng.choice(rows if rows and self.rng.random() < 0.7 else KINDS['ground'])
        pdu = Pdu(self.rng, 'ground', kind, self.rng.random() < 0.5)
        if self.rng.random() < 0.4 and pdu.fields():
            pdu.spoil(self.rng.choice(list(pdu.fields())))
        if kind == 'event-contract' and self.rng.random() < 0.4:
            pdu.n['what'] = 0
        if self.rng.random() < 0.05:
            pdu.n['kind'] = self.rng.choice((8, 255, TOP - 1))
        return pdu.numbers()[:self.rng.choice((21, 21, 21, 9, 4, 24))]

    def octets(self, record):
        """What may come: mostly what the states have a row for."""
        rng, rows = self.rng, self.rows(record, False)
        event = rng.choice(rows if rows and rng.random() < 0.6 else linkmodel.DOWNLINK)
        return rng.choice(self.pool.bad['air'] if rng.random() < 0.1 else self.pool.of[event])

    def make(self, word, name, record, octets=None, numbers=None, room=(*(ANSWER_OCTETS,) * 4, ANSWER_OCTETS + 1, ANSWER_OCTETS + 18, ANSWER_OCTETS - 1, 0)):
        if numbers is None:
            numbers = [self.seconds(record)] if word == 'elapse' else self.request(record) if word == 'request' else []
        if octets is None:
            octets = self.octets(record) if word in BRINGING else b''
        out = self.rng.randbytes(self.rng.choice(room))
        refused = Calling(word, record, octets, out, numbers, hostmodel.RULES).refusals()
        bad = grounds(record)
        self.met[name] += 1
        self.met.update([f'29 for {ground} alone' for ground in bad if len(bad) == 1])
        self.met.update(f'{refused[0]} before {other}' for other in refused[1:])
        self.met[f'{word} {"refused" if refused else "accepted"}'] += 1
        self.lines.append(line_of(word, record, octets, out, numbers))

    # What becomes of the intervals, in an emergency and without one: each row of PC, and each way to IDLE that is none.

    def contract(self):
        for (state, event), em in itertools.product([row[1:] for row in linkmodel.RULES.rows if row[0] == 'PC'], (False, True)):
            record = spelt(self.with_pc(state, 'ACTIVE', em))
            if event in ASKING:
                for numbers in ASKING[event]:
                    self.make('request', event, record, numbers=numbers, room=(ANSWER_OCTETS,))
            else:
                self.make('data', event, record, self.rng.choice(self.pool.of[event]), room=(ANSWER_OCTETS,))
        for state, word, em in itertools.product(STATES['PC'][1:], CALLS, (False, True)):
            record = self.with_pc(state, 'START' if word.startswith('start') else 'ACTIVE', em)
            numbers = {'elapse': [min(left for left in record.left if left)], 'request': CANCEL_ALL}.get(word, [])
            if word != 'end_confirm':
                self.make(word, 'to IDLE', spelt(record), self.rng.choice(self.pool.bad['air']) if word in BRINGING else b'', numbers, (ANSWER_OCTETS,))

    # What starts LI1 and what stops it: each row by which the last contract goes, a cancel-all, and each call in END.

    def closing(self):
        for (module, state, event), (_, after) in linkmodel.RULES.rows.items():
            for li, word in (('START', 'start_confirm'), ('ACTIVE', 'data')):
                if after == 'IDLE':
                    record = self.good(li)
                    record.states[:4] = [STATES[name].index(state) if name == module else 0 for name in linkmodel.MODULES]
                    self.make(word, 'closing', spelt(self.fitted(record)), self.rng.choice(self.pool.of[event]), room=(ANSWER_OCTETS,))
        for word, step in itertools.product(CALLS, (-1, 0, 1)):
            record = self.good('END')
            numbers = [min(86400, record.left[LI1] + step)] if word == 'elapse' else None
            self.make(word, 'in END', spelt(record), numbers=numbers, room=(ANSWER_OCTETS,))

    def open(self):
        rng = self.rng
        numbers = [rng.choice((1, 60, 86400, rng.randint(1, 86400))) for _ in TIMERS]
        draw = rng.random()
        if draw < 0.5:
            numbers[rng.randrange(len(TIMERS))] = rng.choice((0, 1, 86400, 86401, TOP - 1))
        elif draw < 0.6:
            numbers = (numbers * 2)[:rng.choice((0, 8, 9, 9, 11))]
        link = rng.randbytes(rng.choice((LINK_OCTETS,) * 4 + SIZES))
        self.lines.append(line_of('open', link, b'', rng.randbytes(rng.choice((0, ANSWER_OCTETS))), numbers))
        self.met['open'] += 1

    def all(self, count):
        while len(self.lines) < count:
            for name, record in self.steps():
                for word in CALLS:
                    self.make(word, name, record)
            self.contract()
            self.closing()
            for _ in range(200):
                self.make(self.rng.choice(list(CALLS)), 'good', spelt(self.good()))
                self.make('request', 'good', spelt(self.good(self.rng.choice(('IDLE', 'ACTIVE', 'ACTIVE')))))
                self.make('data', 'good', spelt(self.good('ACTIVE')))
                self.open()
        return self.lines, self.met


def records(rng, count):
    return Records(rng).all(count)


def runs(record):
    return 'runs' if record.left[LI1] else 'rests'


def moved(line, answer):
    """The names of what an accepted call made of the intervals, and of LI1."""
    if not answer.startswith('0 ') or line.split(b' ')[0].decode() not in CALLS:
        return
    before, after = (taken_apart(bytes.fromhex(link)) for link in (line.decode().split(' ')[1], answer.split(' ')[2]))
    yield f'LI1 {runs(before)}, then {runs(after)}: {line.split(b" ")[0].decode()}'
    was, now = (STATES['PC'][record.states[PC]] for record in (before, after))
    (asked, old), (wish, force) = before.intervals, after.intervals
    if was != now:
        yield f'{wish} s asked for'
    for name, seconds in zip(FORCES, (0, asked, old)):
        if force == seconds and (name == NONE) == (seconds == 0):
            yield f'{was} to {now}: {name} in force' + (' in an emergency' if before.states[EM] else '')


# ---- blocks of the flight log

BLOCK_SIZES = (0, 1, 510, 511, 513, 520)
BLOCK_NUMBERS = (0, 1, 255, 256, 65536, logmodel.LAST - 1, logmodel.LAST, logmodel.LAST + 1, 1 << 25, TOP - 1)
KINDS_GIVEN = (*range(13), 128, 255)
DATA_SIZES = (0, 1, 2, 35, 36, 37, 39, 40, 41, 127, 128, 129, 130, 131, 255, 256, 300)
SETTINGS_SIZES = {0: False, 32: False, 35: False, 36: True, 37: False, 38: False, 39: False, 40: True, 41: False, 44: False}     # whether they play
# How many octets of room are left where the record is put, more than it needs.
ROOMS = (-6, -1, 0, 1, 100)


class Blocks:
    """Lines for block_open, block_append, block_finish and block_play."""

    def __init__(self, rng):
        self.rng, self.met, self.lines, self.scripts = rng, collections.Counter(), [], logmaking.Scripts(rng)

    def add(self, name, word, link, octets, numbers):
        out = self.rng.randbytes(self.rng.choice((0, 0, 4)))
        number = hostmodel.call(word, link, octets, out, list(numbers)).number
        self.met.update((name, f'{word} {number}', f'{name}: {"refused" if number else "accepted"}'))
        self.lines.append(line_of(word, link, octets, out, numbers))

    def opening(self):
        for number in BLOCK_NUMBERS:
            self.add(f'open {number}', 'block_open', self.rng.randbytes(512), b'', [number])
            for size in BLOCK_SIZES:
                self.add(f'open of {size}', 'block_open', self.rng.randbytes(size), b'', [number])
        self.add('open without a number', 'block_open', self.rng.randbytes(512), b'', [])

    # A record more

    def block(self, used):
        """A block whose payload has so many octets of any kind; behind it zeros or octets of any kind, and a check that is right or not."""
        block = logmodel.block_of(self.rng.choice((0, 1, 77, logmodel.LAST)), self.rng.randbytes(used))
        return self.rng.choice((block, block[:510] + bytes(2), block[:6 + used] + self.rng.randbytes(506 - used)))

    def fields(self, kind):
        """Seconds and data that the call of a kind has."""
        word = logmodel.KINDS[kind] if kind < len(logmodel.KINDS) else None
        sizes = (40,) if word == 'set' else DATA_SIZES if word in logmodel.WITH_DATA else (0,)
        return self.rng.choice((0, 1, 86400, TOP - 1)) if word == 'elapse' else 0, self.rng.randbytes(self.rng.choice(sizes))

    def append(self, name, kind, seconds, data, room=None, spoil=None):
        size = 6 + min(len(data), logmodel.KEPT)
        used = max(0, min(504, 504 - size - (self.rng.choice((0, 1, 50, 300)) if room is None else room)))
        block = self.block(used)
        self.add(name, 'block_append', spoil(block) if spoil else block, data, [kind, seconds])

    def spoils(self):
        """Blocks that are no open ones, and such at the edges."""
        for size in BLOCK_SIZES:
            yield f'{size} octets', lambda block, size=size: (block + bytes(8))[:size]
        for length in (505, 510, 1000, 65535):
            yield f'length {length}', lambda block, length=length: block[:4] + length.to_bytes(2, 'big') + block[6:]
        for number in (logmodel.LAST, logmodel.LAST + 1, TOP - 1):
            yield f'number {number}', lambda block, number=number: number.to_bytes(4, 'big') + block[4:]

    def appending(self):
        for kind in KINDS_GIVEN:
            seconds, data = self.fields(kind)
            self.append(f'kind {kind}', kind, seconds, data)
            self.append(f'kind {kind} with seconds', kind, self.rng.choice((1, 1 << 24)), data)
            self.append(f'kind {kind} with data', kind, 0, self.rng.randbytes(self.rng.choice(DATA_SIZES[1:])))
        for kind, size in itertools.product((0, 1, 4, 6, 9), DATA_SIZES):
            self.append(f'kind {kind}, {size} octets', kind, 0, self.rng.randbytes(size))
        for kind, room in itertools.product(range(11), ROOMS):
            self.append(f'room {room}', kind, *self.fields(kind), room)
            self.append(f'room {room}, out of order', kind, *(1, b'') if kind != 3 else (0, b'x'), room)
        for name, spoil in self.spoils():
            for kind, seconds, data in ((3, 5, b''), (6, 0, b'abc'), (6, 1, b'abc'), (11, 0, b'')):
                self.append(name, kind, seconds, data, self.rng.choice((None, None, -1)) if kind == 6 else None, spoil)
            self.add(f'finish: {name}', 'block_finish', spoil(self.block(self.rng.choice((0, 6, 300)))), b'', [])
        for used in (0, 1, 6, 42, 300, 503, 504):
            self.add('finish', 'block_finish', self.block(used), b'', [])
            self.add('finish again', 'block_finish', logmodel.block_of(3, self.rng.randbytes(used)), b'', [])

    # Play

    def logs(self, blocks=1):
        """A log of so many blocks or more."""
        log = b''
        while len(log) < blocks * 512:
            log = logmodel.log(self.scripts.script())
        return log

    def walk(self, name, log):
        """Each block of a log on the record that the blocks before it have left."""
        link = bytes(LINK_OCTETS)
        for number, at in enumerate(range(0, len(log), 512)):
            block = log[at:at + 512]
            self.add(name, 'block_play', link, block, [number])
            after = hostmodel.call('block_play', link, block, b'', [number])
            if after.number:
                return
            link = after.link

    def keeping(self):
        """The first block of a log kept anew: each call on what the one before has left."""
        first, at = self.logs()[:512], 6
        block = hostmodel.call('block_open', bytes(512), b'', b'', [0]).link
        while at < 6 + int.from_bytes(first[4:6], 'big'):
            kind, seconds, data = first[at], int.from_bytes(first[at + 1:at + 5], 'big'), first[at + 6:at + 6 + first[at + 5]]
            self.add('keep', 'block_append', block, data, [kind, seconds])
            block = hostmodel.call('block_append', block, data, b'', [kind, seconds]).link
            at += 6 + len(data)
        self.add('keep', 'block_finish', block, b'', [])
        self.met['kept as the log has it'] += hostmodel.call('block_finish', block, b'', b'', []).link == first

    def orders(self):
        """Two grounds of 18, 19 and 20 at once, and data that is too long where its call would be accepted."""
        zeros, first = bytes(LINK_OCTETS), logmodel.block_of(0, logmaking.spelt(3, 1))
        self.add('play: 18 before 19', 'block_play', zeros, first[:511] + bytes([first[511] ^ 1]), [1])
        self.add('play: 19 before 20', 'block_play', zeros, first, [1])
        calls = logmaking.spelt(0, 0, (360).to_bytes(4, 'big') * self.rng.choice((9, 10))) + logmaking.spelt(1, 0, b'\x30\x00')
        for size in (129, 130):
            self.add(f'play: {size} octets', 'block_play', zeros, logmodel.block_of(0, calls + logmaking.spelt(4, 0, bytes(size))), [0])

    def playing(self, records):
        log = self.logs(2)
        self.walk('play', log)
        for name in logmaking.DAMAGES:
            tried = (logmaking.damaged(self.rng, name, log) for _ in range(20))         # some places have not what a damage needs
            damaged = next(filter(None, tried), None)
            if damaged:
                self.walk(f'play: {name}', damaged)
        self.walk('play: two grounds', logmaking.both(self.rng, log))
        self.walk('play: an octet changed', logmaking.octet_changed(self.rng, log, self.rng.randrange(len(log))))
        first = log[:512]
        for size in BLOCK_SIZES:
            self.add(f'play of {size}', 'block_play', bytes(LINK_OCTETS), (first + bytes(8))[:size], [0])
        for number in BLOCK_NUMBERS:
            block = logmodel.block_of(number, first[6:6 + int.from_bytes(first[4:6], 'big')])
            self.add(f'play {number}', 'block_play', bytes(LINK_OCTETS), block, [number])
            self.add(f'play {number} for another', 'block_play', bytes(LINK_OCTETS), block, [self.rng.choice([n for n in BLOCK_NUMBERS if n != number])])
        for size in SETTINGS_SIZES:
            settings = logmodel.block_of(0, logmaking.spelt(0, 0, logmaking.settings_of(size)))
            self.add(f'play settings of {size}', 'block_play', bytes(LINK_OCTETS), settings, [0])
        for name, record in records:
            block = self.rng.choice((logmodel.block_of(1, b''), first[:511], logmodel.block_of(1, logmaking.spelt(3, 0)), logmodel.block_of(1, logmaking.spelt(3, 1)), first))
            self.add(f'play on {"a good one" if not grounds(record) else "another"}', 'block_play', record, block, [1])
        self.add('play on nothing', 'block_play', b'', first, [0])
        for size in (84, 86):
            self.add('play on other zeros', 'block_play', bytes(size), first, [0])
        self.add('play of no record', 'block_play', bytes(LINK_OCTETS), logmodel.block_of(0, b''), [0])

    def all(self, count):
        while len(self.lines) < count:
            self.opening()
            self.appending()
            self.playing(list(Records(self.rng).steps())[::9])
            self.keeping()
            self.orders()
        return self.lines, self.met


def blocks(rng, count):
    return Blocks(rng).all(count)


# ---- what has to be met

BLOCKS_DUE = ([f'{word} {number}' for word, numbers in (('block_open', (0, 5, 6)), ('block_append', (0, 20, 5, 6)), ('block_finish', (0, 20)),
                                                            ('block_play', (0, 29, 20, 18, 19)))
               for number in numbers]
              + [f'room {room}: {"refused" if room < 0 else "accepted"}' for room in ROOMS] + [f'room {room}, out of order: refused' for room in ROOMS]
              + [f'kind {kind}: {"accepted" if kind <= 10 else "refused"}' for kind in KINDS_GIVEN] + ['kept as the log has it', 'play: 129 octets: accepted', 'play: 130 octets: refused']
              + [f'kind {kind} with seconds: {"accepted" if kind == 3 else "refused"}' for kind in KINDS_GIVEN]
              + [f'play: {name}: refused' for name in logmaking.WRONG if name != 'no records'] + [f'play: {name}: accepted' for name in logmaking.GOOD]
              + [f'play {number}: {"accepted" if number <= logmodel.LAST else "refused"}' for number in BLOCK_NUMBERS]
              + [f'play {number} for another: refused' for number in BLOCK_NUMBERS]
              + [f'play settings of {size}: {"accepted" if plays else "refused"}' for size, plays in SETTINGS_SIZES.items()]
              + [f'kind 0, {size} octets: {"accepted" if size == 40 else "refused"}' for size in DATA_SIZES]
              + [f'{what}number {number}: {"accepted" if number == logmodel.LAST else "refused"}' for what in ('', 'finish: ')
                 for number in (logmodel.LAST, logmodel.LAST + 1, TOP - 1)]
              + ['finish: accepted', 'finish again: accepted', 'play: accepted', 'play on a good one: accepted', 'play on another: refused',
                 'play on nothing: refused', 'play on other zeros: refused', 'play of no record: accepted'])

RECORDS_DUE = ([f'{timer} {how}: setting {setting}' for timer in TIMERS for how in ('runs', 'rests') for setting in SETTINGS]
               + [f'{timer} {how}: {edge} left' for timer in TIMERS for how in ('runs', 'rests') for edge in EDGES]
               + [f'PC2: {edge} left' for edge in GRACES]
               + [f'PC {state}: {interval} {seconds}' for state in STATES['PC'] for interval in INTERVALS for seconds in SECONDS]
               + [f'{seconds} s asked for' for seconds in WISHES]
               + [f'{was} to {now}: {force} in force{where}' for was, now, force in MOVES for where in ('', ' in an emergency')]
               + [f'LI1 rests, then runs: {word}' for word in ('request', 'start_confirm', 'data')]
               + [f'LI1 runs, then rests: {word}' for word in ('user_abort', 'elapse', 'end_confirm', 'peer_abort', 'air_abort', 'down')]
               + [f'LI1 runs, then runs: {word}' for word in ('elapse', 'data')]
               + [f'{module}: no state {over}' for module in STATES for over in (0, 1, 255)]
               + [f'{li}: {module} {state}' for li in ('IDLE', 'END') for module in linkmodel.MODULES for state in STATES[module][1:]]
               + [f'{li}: all IDLE' for li in STATES['LI']] + [f'{size} octets' for size in SIZES]
               + [f'29 for {ground} alone' for ground in GROUNDS] + [f'{first} before {other}' for first, other in MEETINGS]
               + [f'{word} {how}' for word in CALLS for how in ('accepted', 'refused')] + ['open'])
WRITING_DUE = ([f'{place} {number}' for place in hostmodel.SIGNED for number in signed_edges(place)]
               + [f'{kind}: {parts} {some}' for kind in REPORTS for parts in PARTS for some in range(1 << len(PARTS[parts]))]
               + [f'air {kind}: {place} {edge}' for kind in REPORTS for parts in PARTS if kind != 'emergency' or parts == 'ground-parts'
                  for place, _ in PARTS[parts] for edge in ('below', 'low', 'high', 'above')]
               + [f'air {kind}: {place} {edge}' for kind in REPORTS[:1] + REPORTS[2:] for place in ('mach', 'ias')
                  for edge in ('below', 'low', 'high', 'above')]
               + [f'ground event-contract: {place} {edge}' for names in EVENTS.values() for place in names for edge in ('below', 'low', 'high', 'above')]
               + [f'{place} of kind {kind}: {number}' for place, (_, forms) in AMOUNTS.items() for kind, form in enumerate(forms) for number in ends(form)]
               + [f'event contract of {bit:03x}' for bit in (*EVENTS, 128, 4)]
               + [f'{kind}: a list of {count}' for kind in ('negative-ack', 'noncompliance') for count in (16, *COUNTS)]
               + [f'a character {octet}' for octet in (127, 128, 255)] + ['an entry 0 over', 'an entry 1 over']
               + [f'{family} {kind}: room {room}' for family, kind in ALL_KINDS for room in (-1, 'for it')]
               + [f'air {kind}: {place} {edge}' for kind in REPORTS for place in FIX for edge in ('below', 'low', 'high', 'above')])
