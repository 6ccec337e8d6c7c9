"""A PER coder of both ADS PDU families, written from page 01; vectors and weather from the module of 002 (02, L1), the interval
of 5 minutes from L5 of 02, and the elements of an event contract from the module of 002 (02, L7).

It shares nothing with the box it is compared with. First the message table of 01, as data in the
page's order and words; below it a coder that walks the table (ITU-T X.691, basic unaligned).

    read(family, octets)  -> value, or raises Refused(n)
    write(family, value)  -> octets, or raises Refused(n)

family is 'air' or 'ground'. Values are plain: whole numbers are int, NULL is None, a choice is
(name, content), a list is a list, a name is a tuple of eight numbers, and a group of fields is a
dict that lacks its absent parts. Only an absent interval reads as something: its default, which may
be sent too. What is written never has it.
"""

import contextlib
import copy
import functools
import re
from collections import namedtuple

# Whole numbers lo..hi, both ends allowed.
RANGES = {
    'octets': (0, 128),                     # of one input; over it is 16
    'count': (0, 16),                       # of a list, always 8 bits; over it is 12
    'air-index': (0, 8),
    'ground-index': (0, 7),
    'cancel-contract': (0, 1),              # 0 event, 1 periodic
    'event-type': (0, 11),
    'sign': (0, 1),
    'degrees-latitude': (0, 90),
    'degrees-longitude': (0, 180),
    'minutes-of-degree': (0, 59),
    'tenth-seconds': (0, 599),
    'level': (-75, 10000),
    'year': (1996, 2095),
    'month': (1, 12),
    'day': (1, 31),
    'hours': (0, 23),
    'minutes': (0, 59),
    'seconds': (0, 59),
    'accuracy': (0, 7),
    'boolean': (0, 1),
    'address': (0, 2 ** 24 - 1),
    'track': (1, 3600),                     # 002:4195
    'ground-speed': (-50, 2200),            # 002:4060
    'ground-rate': (-3000, 3000),           # 002:4277
    'heading': (1, 3600),
    'air-speed-index': (0, 2),
    'mach': (500, 4000),                    # 002:4240
    'ias': (0, 1100),                       # 002:4228
    'air-rate': (-3000, 3000),
    'wind-speed': (0, 300),                 # 002:4114
    'wind-direction': (1, 360),
    'temperature': (-400, 400),
    'turbulence': (0, 15),
    'abort-reason': (0, 7),
    'request-type': (0, 7),
    'negative-reason': (0, 3),
    'character': (0, 127),
    'noncompliance-index': (0, 2),
    'report-type': (0, 6),
    'noncompliance-event-type': (0, 10),    # one less than in the event report
    'report-type-and-period': (0, 7),
    'interval-index': (0, 1),
    'interval-seconds': (1, 59),
    'interval-minutes': (1, 120),
    'modulus': (1, 255),
    'lateral-deviation': (0, 2000),         # 002:4234
    'rate-change': (-3000, 3000),           # 002:4277
    'ceiling': (-75, 10000),                # 002:4442, as is the floor
    'floor': (-75, 10000),
    'air-speed-change-index': (0, 1),
    'mach-change': (1, 255),                # 002:4179
    'ias-change': (1, 700),
    'ground-speed-change': (0, 300),        # 002:4222
    'heading-change': (1, 3600),            # 002:4195
    'profile-index': (0, 1),
    'profile-time': (1, 80),                # 002:4214
    'profile-points': (1, 128),
    'track-change': (1, 3600),
    'level-change': (1, 500),               # 002:4186
}

NOT_CARRIED = 'not carried'

# name: format. A mark * behind a name means that an extension bit comes first.
#   ('choice', index, [(name, format), ..])   the index, then the format it names
#   ('fields', optional, required)            a presence bit for each optional field, the
#                                             required fields, the optional ones that are there
#   ('list', format)                          8 bits of count, then the entries
#   ('eight', format)                         eight of them
TABLE = {
    'air': ('choice', 'air-index', [
        ('cancel-emergency', 'null'),
        ('demand-report', 'acked-report*'),
        ('emergency', 'acked-emergency*'),
        ('event-report', 'acked-event*'),
        ('negative-ack', 'negative-ack'),
        ('noncompliance', 'noncompliance*'),
        ('periodic-report', 'acked-report*'),
        ('positive-ack', 'request-type*'),
        ('provider-abort', 'abort-reason*')]),
    'ground': ('choice', 'ground-index', [
        ('cancel-all', 'null'),
        ('cancel-contract', 'cancel-contract*'),
        ('cancel-emergency-ack', 'null'),
        ('demand-contract', 'demand-contract*'),
        ('event-contract', 'event-contract*'),
        ('modify-emergency', 'interval'),
        ('periodic-contract', 'periodic-contract*'),
        ('provider-abort', 'abort-reason*')]),

    'acked-report': ('fields', [('ack', 'null')], [('report', 'report*')]),
    'acked-emergency': ('fields', [('ack', 'null')], [('report', 'emergency-report')]),
    'acked-event': ('fields', [('ack', 'null')], [('event-type', 'event-type*'), ('report', 'report*')]),

    'report': ('fields', [
        ('address', 'address'), ('projected-profile', NOT_CARRIED), ('ground-vector', 'ground-vector'),
        ('air-vector', 'air-vector'), ('weather', 'weather'), ('short-term-intent', NOT_CARRIED),
        ('extended-profile', NOT_CARRIED)],
        [('position', 'position'), ('time', 'time'), ('merit', 'merit')]),
    'emergency-report': ('fields', [('address', 'address'), ('ground-vector', 'ground-vector')],
                         [('position', 'position'), ('time', 'time'), ('merit', 'merit')]),
    'position': ('fields', [], [('latitude', 'latitude'), ('longitude', 'longitude'), ('level', 'level')]),
    'latitude': ('fields', [], [('sign', 'sign'), ('degrees', 'degrees-latitude'),
                                ('minutes', 'minutes-of-degree'), ('tenths', 'tenth-seconds')]),
    'longitude': ('fields', [], [('sign', 'sign'), ('degrees', 'degrees-longitude'),
                                 ('minutes', 'minutes-of-degree'), ('tenths', 'tenth-seconds')]),
    'time': ('fields', [], [('date', 'date'), ('clock', 'clock')]),
    'date': ('fields', [], [('year', 'year'), ('month', 'month'), ('day', 'day')]),
    'clock': ('fields', [('seconds', 'seconds')], [('hours', 'hours'), ('minutes', 'minutes')]),
    'merit': ('fields', [], [('accuracy', 'accuracy'), ('first', 'boolean'), ('second', 'boolean')]),
    # 002, "AirVector", "GroundVector", "MetInfo"
    'ground-vector': ('fields', [('track', 'track'), ('speed', 'ground-speed'), ('rate', 'ground-rate')], []),
    'air-vector': ('fields', [('heading', 'heading'), ('speed', 'air-speed'), ('rate', 'air-rate')], []),
    'air-speed': ('choice', 'air-speed-index', [('mach', 'mach'), ('ias', 'ias'), ('both', 'mach-and-ias')]),
    'mach-and-ias': ('fields', [], [('mach', 'mach'), ('ias', 'ias')]),
    'weather': ('fields', [('speed', 'wind-speed'), ('direction', 'wind-direction'),
                           ('temperature', 'temperature'), ('turbulence', 'turbulence')], []),

    'negative-ack': ('fields', [], [('request', 'request-type*'), ('reason', 'negative-reason-choice*')]),
    'negative-reason-choice': ('choice', 'negative-reason', [
        ('reason-0', 'null'), ('reason-1', 'null'), ('reason-2', 'names'), ('reason-3', 'null')]),
    'names': ('list', 'name'),
    'name': ('eight', 'character'),
    'noncompliance': ('choice', 'noncompliance-index', [
        ('demand', 'report-types'), ('event', 'event-types'), ('periodic', 'types-and-periods')]),
    'report-types': ('list', 'report-type*'),
    'event-types': ('list', 'noncompliance-event-type*'),
    'types-and-periods': ('list', 'report-type-and-period*'),

    'interval': ('choice', 'interval-index', [('seconds', 'interval-seconds'), ('minutes', 'interval-minutes')]),
    'demand-contract': ('fields', [
        ('address', 'null'), ('projected-profile', 'null'), ('ground-vector', 'null'), ('air-vector', 'null'),
        ('weather', 'null'), ('short-term-intent', NOT_CARRIED), ('extended-profile', NOT_CARRIED)], []),
    # 002, "EventContract", "AirSpeedChange", "LevelRange", "ExtendedProjectedProfileRequest"
    'event-contract': ('fields', [
        ('lateral-deviation', 'lateral-deviation'), ('vertical-rate', 'rate-change'), ('level-range', 'level-range'),
        ('waypoint-change', 'null'), ('air-speed', 'air-speed-change'), ('ground-speed', 'ground-speed-change'),
        ('heading', 'heading-change'), ('extended-profile', 'profile-request'), ('merit-change', 'null'),
        ('track', 'track-change'), ('level', 'level-change')], []),
    'level-range': ('fields', [], [('ceiling', 'ceiling'), ('floor', 'floor')]),
    'air-speed-change': ('choice', 'air-speed-change-index', [('mach', 'mach-change'), ('ias', 'ias-change')]),
    'profile-request': ('choice', 'profile-index', [('time', 'profile-time'), ('points', 'profile-points')]),
    'periodic-contract': ('fields', [
        ('interval', 'interval'), ('address', 'modulus'), ('projected-profile', 'modulus'),
        ('ground-vector', 'modulus'), ('air-vector', 'modulus'), ('weather', 'modulus'),
        ('short-term-intent', NOT_CARRIED), ('extended-profile', NOT_CARRIED)], []),
}

# A group of fields may give its presence bits as one number, as a host does; it then names fields that are absent too, which are no part of it.
PRESENCE = 'presence'

# "`64 04 20` is good and reads as 5 minutes. We still omit it." (02, L5)
DEFAULTS = {('periodic-contract', 'interval'): ('minutes', 5)}
NEEDS_ONE = {'event-contract'}


class Refused(Exception):
    def __init__(self, number):
        super().__init__(number)
        self.number = number


def width(name):
    """The fewest bits that hold hi minus lo."""
    low, high = RANGES[name]
    return (high - low).bit_length()


def judge_presence(form, optional, present):
    """10 and 15 stand right after the presence bits, when reading and when writing."""
    if any(there and content == NOT_CARRIED for (_, content), there in zip(optional, present)):
        raise Refused(10)
    if form in NEEDS_ONE and not any(present):
        raise Refused(15)


class Reader:
    """The bits of one input and the place reached in them."""

    def __init__(self, octets):
        self.bits = ''.join(f'{octet:08b}' for octet in octets)
        self.place = 0

    def take(self, bits):
        start, self.place = self.place, self.place + bits
        if self.place > len(self.bits):     # 7 before the judgement of the field
            raise Refused(7)
        return int(self.bits[start:self.place] or '0', 2)

    def number(self, name):
        low, high = RANGES[name]
        sent = self.take(width(name))
        if sent > high - low:
            raise Refused(8)
        return low + sent

    def read(self, form):
        if form.endswith('*'):
            if self.take(1):                # judged before the next bits are sought
                raise Refused(9)
            form = form[:-1]
        if form == 'null':
            return None
        if form in RANGES:
            return self.number(form)
        kind, *parts = TABLE[form]
        return getattr(self, kind)(form, *parts)

    def choice(self, form, index, alternatives):
        name, content = alternatives[self.number(index)]
        return name, self.read(content)

    def fields(self, form, optional, required):
        sent = self.take(len(optional))     # all presence bits are one field
        present = [bool(sent >> place & 1) for place in reversed(range(len(optional)))]
        judge_presence(form, optional, present)
        value = {name: self.read(content) for name, content in required}
        for (name, content), there in zip(optional, present):
            if there:
                value[name] = self.read(content)
            elif (form, name) in DEFAULTS:
                value[name] = DEFAULTS[form, name]
        return value

    def list(self, form, content):
        count = self.take(8)
        if count > RANGES['count'][1]:      # 17..255, the long form of X.691 too
            raise Refused(12)
        return [self.read(content) for _ in range(count)]

    def eight(self, form, content):
        return tuple(self.read(content) for _ in range(8))


def read(family, octets):
    if len(octets) > RANGES['octets'][1]:
        raise Refused(16)
    reader = Reader(octets)
    value = reader.read(family + '*')
    end = (reader.place + 7) // 8 * 8
    if '1' in reader.bits[reader.place:end]:
        raise Refused(13)
    if end < len(reader.bits):
        raise Refused(14)
    return value


# What is sent, field by field; tests alter single pieces to make inputs that no value gives.
# kind: extension, presence, index, number or count. name: the range or the group of fields.
Piece = namedtuple('Piece', 'kind name sent width')


class Writer:
    def __init__(self, with_default=False):
        self.pieces = []
        self.with_default = with_default    # as another sender may; ours never sends a default

    def put(self, kind, name, sent, bits):
        self.pieces.append(Piece(kind, name, sent, bits))

    def number(self, name, value, kind='number'):
        low, high = RANGES[name]
        if not low <= value <= high:
            raise Refused(5)
        self.put(kind, name, value - low, width(name))

    def write(self, form, value):
        if form.endswith('*'):
            form = form[:-1]
            self.put('extension', form, 0, 1)
        if form in RANGES:
            self.number(form, value)
        elif form != 'null':
            kind, *parts = TABLE[form]
            getattr(self, kind)(form, value, *parts)

    def choice(self, form, value, index, alternatives):
        names = [name for name, _ in alternatives]
        if value[0] not in names:           # an unused index
            raise Refused(5)
        place = names.index(value[0])
        self.number(index, place, 'index')
        self.write(alternatives[place][1], value[1])

    def present(self, form, value, optional):
        if PRESENCE in value:               # all presence bits are one field
            if not 0 <= value[PRESENCE] < 1 << len(optional):
                raise Refused(5)
            return [bool(value[PRESENCE] >> place & 1) for place in reversed(range(len(optional)))]
        # The default interval is never sent, whether the value names it or not.
        return [name in value and (self.with_default or value[name] != DEFAULTS.get((form, name), ())) for name, _ in optional]

    def fields(self, form, value, optional, required):
        known = [PRESENCE] + [name for name, _ in optional + required]
        assert all(name in known for name in value), (form, value)
        present = self.present(form, value, optional)
        judge_presence(form, optional, present)
        if optional:
            self.put('presence', form, int(''.join('01'[there] for there in present), 2), len(optional))
        for name, content in required:
            self.write(content, value[name])
        for (name, content), there in zip(optional, present):
            if there:
                self.write(content, value[name])

    def list(self, form, value, content):
        if len(value) > RANGES['count'][1]:     # at the count, before any entry
            raise Refused(12)
        self.put('count', 'count', len(value), 8)
        for entry in value:
            self.write(content, entry)

    def eight(self, form, value, content):
        assert len(value) == 8, value
        for entry in value:
            self.write(content, entry)


def pieces(family, value, with_default=False):
    writer = Writer(with_default)
    writer.write(family + '*', value)
    return writer.pieces


def pack(sent):
    """The octets of some pieces, filled to an octet with zeros."""
    bits = ''.join(f'{piece.sent:0{piece.width}b}' for piece in sent if piece.width)
    bits += '0' * (-len(bits) % 8)
    return int('1' + bits, 2).to_bytes(len(bits) // 8 + 1, 'big')[1:]


def write(family, value, with_default=False):
    return pack(pieces(family, value, with_default))


def written_back(family, octets, value):
    """What octets that read as a value are written back to."""
    written = write(family, value)
    # "octets accepted write back to the same octets unless the default was sent, and then to the form without it" (02, L5)
    assert octets == written or octets == write(family, value, with_default=True), octets.hex()
    return written


LINE = re.compile(rb'(air|ground)(?: ((?:[0-9a-f]{2})+))?')


def answer(line):
    """The answer due to one line (octets without LF), and (family, message) if it is ok."""
    match = LINE.fullmatch(line)
    if match is None or len(line) > 4096:
        return 'refused 17', None
    family = match[1].decode()
    octets = bytes.fromhex((match[2] or b'').decode())
    try:
        value = read(family, octets)
    except Refused as refusal:
        return f'refused {refusal.number}', None
    return f'ok {written_back(family, octets, value).hex()}', (family, value[0])


@contextlib.contextmanager
def changed(change):
    """One rule changed, to test that a comparison finds it, and then put back."""
    tables = RANGES, TABLE, DEFAULTS, NEEDS_ONE
    kept, functions = copy.deepcopy(tables), {'Reader': Reader, 'written_back': written_back}
    change()
    try:
        yield
    finally:
        for table, before in zip(tables, kept):
            table.clear()
            table.update(before)
        globals().update(functions)


def shift(name):
    """Move the upper end of one range up by one."""
    low, high = RANGES[name]
    RANGES[name] = (low, high + 1)
    for kind, *parts in TABLE.values():
        if kind == 'choice' and parts[0] == name:
            parts[1].append(('one-more', 'null'))


def exchange(form, one, other):
    """Two fields of a group in each other's place, with their presence bits; or two alternatives of a choice."""
    for part in TABLE[form][2 if TABLE[form][0] == 'choice' else 1:]:
        places = [place for place, (name, _) in enumerate(part) if name in (one, other)]
        for place, field in zip(places, [part[place] for place in reversed(places)]):
            part[place] = field


def extend(form, name):
    """An extension bit before one field of a group."""
    part = TABLE[form][1]
    part[:] = [(other, content + '*' * (other == name)) for other, content in part]


def offset(name):
    """One range moved down by one: the octets stay good, and every number reads one less."""
    low, high = RANGES[name]
    RANGES[name] = (low - 1, high - 1)


class RefusingReader(Reader):
    """A default that is sent is refused, as before L5."""
    def fields(self, form, optional, required):
        start = self.place
        value = super().fields(form, optional, required)
        for place, (name, _) in enumerate(optional):
            if self.bits[start + place] == '1' and value[name] == DEFAULTS.get((form, name), ()):
                raise Refused(11)
        return value


# Rules of vectors and weather, of the default and of event contracts changed, each alone, to test that a comparison finds it. Only a line for a person or a
# host's numbers show an offset and an exchange of two fields of one range, only octets that are written back how they were sent.
EVENT_ELEMENTS = [name for name, _ in TABLE['event-contract'][1]]
EXCHANGED = [('report', 'ground-vector', 'air-vector'), ('report', 'air-vector', 'weather'), ('report', 'address', 'ground-vector'),
             ('report', 'weather', 'short-term-intent'), ('report', 'projected-profile', 'ground-vector'),
             ('emergency-report', 'address', 'ground-vector'), ('ground-vector', 'track', 'speed'), ('ground-vector', 'speed', 'rate'),
             ('air-vector', 'heading', 'speed'), ('air-vector', 'heading', 'rate'), ('mach-and-ias', 'mach', 'ias'),
             ('weather', 'speed', 'direction'), ('weather', 'temperature', 'turbulence'),
             *(('event-contract', one, other) for one, other in zip(EVENT_ELEMENTS, EVENT_ELEMENTS[1:])),
             ('air-speed-change', 'mach', 'ias'), ('profile-request', 'time', 'points')]
ALIKE = [('level-range', 'ceiling', 'floor'), ('event-contract', 'heading', 'track')]
OFFSETS = {
    **{f'{name}.offset': functools.partial(offset, name) for name in (
        'track', 'ground-speed', 'ground-rate', 'heading', 'mach', 'air-rate', 'wind-direction', 'temperature',
        'lateral-deviation', 'rate-change', 'ceiling', 'floor', 'mach-change', 'ias-change', 'ground-speed-change', 'heading-change',
        'profile-time', 'profile-points', 'track-change', 'level-change')},
    **{f'{form}.{one}.{other}': functools.partial(exchange, form, one, other) for form, one, other in ALIKE},
}
SENDING = {'default.written-as-sent': lambda: globals().update(written_back=lambda family, octets, value: octets)}
CHANGES = {
    'default.refused': lambda: globals().update(Reader=RefusingReader),
    'default.one-more': lambda: DEFAULTS.update({('periodic-contract', 'interval'): ('minutes', 6)}),
    **SENDING,
    **{f'{form}.{one}.{other}': functools.partial(exchange, form, one, other) for form, one, other in EXCHANGED},
    **{f'{form}.needs-one': functools.partial(NEEDS_ONE.add, form) for form in ('ground-vector', 'air-vector', 'weather')},
    **{f'{form}.{name}.extension': functools.partial(extend, form, name) for form, name in (
        ('report', 'ground-vector'), ('report', 'air-vector'), ('report', 'weather'), ('emergency-report', 'ground-vector'),
        ('air-vector', 'speed'), ('event-contract', 'level-range'), ('event-contract', 'air-speed'), ('event-contract', 'extended-profile'))},
    'event-contract.needs-none': functools.partial(NEEDS_ONE.remove, 'event-contract'),
    **OFFSETS,
}
