"""A model of what include/adsc.h declares, on the lent buffers of a host, written from that header and pages 01 and 02 alone.

It shares nothing with the box it is compared with: PDUs are those of percoder.py, the link is that of linkmodel.py, blocks of the flight log are those of
logmodel.py.

    answer(line) -> the text that is due to a line of the program hostcall:

`WORD LINK OCTETS OUT N N ..` calls adsc_WORD on buffers of these octets (each field may be empty, its space stays) and numbers, and is
answered with `NUMBER LENGTH LINK OUT`: the function's result, the length of a write (999 before the call), both lent buffers after it. For block_open,
block_append and block_finish LINK is the block, and the numbers are its number, kind and seconds, and none; a kind is one octet, of a larger number the lowest.
For block_play OCTETS is the block, and the number is the one it is to have.
"""

import dataclasses
import functools
import re
import types
from collections import namedtuple

import linkmodel
import logmodel
import percoder
from percoder import PRESENCE, TABLE

BEFORE = 999

# Numbers of a ground PDU and of an aircraft PDU, by their places (enum adsc_ground_place, enum adsc_air_place).
MODULI = ('address', 'projected-profile', 'ground-vector', 'air-vector', 'weather')
GROUND = ('kind', 'what', 'scale', 'interval', *MODULI, 'lateral-deviation', 'rate-change', 'ceiling', 'floor', 'air-speed-kind', 'air-speed-change',
          'ground-speed-change', 'heading-change', 'profile-kind', 'profile-count', 'track-change', 'level-change')
AIR = ('kind', 'what', 'detail', 'count', 'elements', 'south', 'latitude', 'latitude-minutes', 'latitude-tenths', 'west', 'longitude',
       'longitude-minutes', 'longitude-tenths', 'level', 'year', 'month', 'day', 'has-seconds', 'hours', 'minutes', 'seconds', 'accuracy',
       'units', 'avoidance', 'address', 'ground-parts', 'track', 'ground-speed', 'ground-rate', 'air-parts', 'heading', 'air-speed', 'mach', 'ias',
       'air-rate', 'weather-parts', 'wind-speed', 'wind-direction', 'temperature', 'turbulence')
SIGNED = ('level', 'ground-speed', 'ground-rate', 'air-rate', 'temperature', 'rate-change', 'ceiling', 'floor')      # "in two's complement"
LINK_OCTETS, ANSWER_OCTETS, SENT_MOST, TIMERS = 93, 31, 17, 10

# The states of a record, by their numbers (enum adsc_dc_state and the four below it).
STATES = {
    'DC': ('IDLE', 'PENDING', 'ACTIVE'),
    'EC': ('IDLE', 'START-PENDING', 'PENDING', 'ACTIVE', 'CANCEL'),
    'PC': ('IDLE', 'START-PENDING', 'PENDING', 'ACTIVE', 'CANCEL'),
    'EM': ('IDLE', 'ACTIVE', 'MODIFY'),
    'LI': ('IDLE', 'START', 'ACTIVE', 'END'),
}

# The intervals of a record, and the states of PC that have them (enum adsc_link_place); elsewhere "0 .. : none".
INTERVALS = {'asked': ('START-PENDING', 'PENDING'), 'force': ('PENDING', 'ACTIVE', 'CANCEL')}
INTERVAL_MOST = 7200

# enum adsc_action
ACTIONS = {'start-req': 1, 'data-req': 2, 'end-req': 3, 'abort-req': 4, 'ind': 5, 'ind abort': 6, 'ind peer-abort': 7, 'late': 8, 'stop': 16,
           'start': 32}

# The functions, and what the calls on a record are called in a script.
CALLS = {'request': 'req', 'user_abort': 'user-abort', 'elapse': 'elapse', 'start_confirm': 'start-cnf', 'start_rejected': 'start-rej',
         'data': 'data', 'end_confirm': 'end-cnf', 'peer_abort': 'peer-abort', 'air_abort': 'air-abort', 'down': 'down'}
BLOCKS = ('block_open', 'block_append', 'block_finish', 'block_play')
WORDS = ('write_ground', 'write_air', 'open', *CALLS, *BLOCKS)
MOST_OCTETS = 520
HEX = f'((?:[0-9a-f]{{2}}){{0,{MOST_OCTETS}}})'
MOST_NUMBERS = 47
LINE = re.compile(f'({"|".join(WORDS)}) {HEX} {HEX} {HEX}((?: {linkmodel.NUMBER}){{0,{MOST_NUMBERS}}})')

# "Order. Calls: .. 29, 4, 1 or 2, then fields", and "6 last" (adsc.h). Each is a function of Calling.
ORDER = ('bad_record', 'long_elapse', 'not_listed', 'bad_fields', 'no_room')
# Of adsc_block_append and adsc_block_play, as adsc.h has them: functions of Appending and Playing.
APPEND_ORDER = ('not_open', 'bad_fields', 'no_room')
PLAY_ORDER = ('bad_record', 'cut_short', 'judged')


@dataclasses.dataclass(frozen=True)
class Rules:
    """What a test of a test alters. 29: "link record: running timers not those of the watch table, seconds left not 1..setting, a setting
    not 1..86,400, or LI in IDLE or END with a module not IDLE" (01); "no more than interval plus grace" for PC2, "an interval missing from its
    state, foreign to it, or over 7,200" (02, L2); LI1 "runs exactly in END" (L8); "numbers that are no states; not of 93 octets" (adsc.h)."""
    settings: tuple = (1, 86400)
    left: tuple = (1, 0)                # from so many to so many more than the setting
    grace: callable = lambda setting, asked, force: force + setting     # what stands for the setting of PC2
    resting: int = 0                    # seconds left where a timer does not run
    wanted: tuple = tuple(INTERVALS.values())       # at these states an interval of 0 is missing,
    allowed: tuple = tuple(INTERVALS.values())      # at others than these one above 0 is foreign
    longest: tuple = (INTERVAL_MOST,) * len(INTERVALS)
    places: tuple = ((85, 'big'), (89, 'big'))
    kept: callable = lambda before, after: after    # the intervals that a call writes back
    ended: tuple = ('IDLE', 'END')      # where every module is IDLE
    states: tuple = tuple(len(names) for names in STATES.values())
    sizes: tuple = (LINK_OCTETS,)
    watch: tuple = linkmodel.RULES.watch
    order: tuple = ORDER
    append_order: tuple = APPEND_ORDER
    play_order: tuple = PLAY_ORDER
    block: int = logmodel.BLOCK         # octets of a block
    payload: int = logmodel.ROOM
    kept_data: int = logmodel.KEPT
    last_block: int = logmodel.LAST
    counts: tuple = (TIMERS,)           # numbers that a new record is made from; where there are fewer, LI1 is that of an old log
    settings_octets: tuple = (logmodel.SETTINGS,)               # of a record to append
    behind: callable = lambda octets: octets                    # what stands behind the record after an append,
    finished: callable = lambda octets: bytes(len(octets))      # and behind the payload after a finish
    none: callable = lambda link: link == bytes(LINK_OCTETS)    # "A link record of 93 zeros is one that has no settings yet"
    log: logmodel.Rules = logmodel.RULES
    room: int = ANSWER_OCTETS
    writer: type = percoder.Writer
    signed: tuple = SIGNED
    heading_by: str = 'air-parts'       # whose first presence bit announces the heading
    told: int = BEFORE                  # the length after a refused write: as it was
    short: int = 0                      # so many octets fewer than the PDU are room too
    spoils: tuple = ()                  # what changes though it stays: 'link', 'out', and 'past', what follows a good write

    def left_as(self, what, octets):
        return bytes([octets[0] ^ 255]) + octets[1:] if octets and what in self.spoils else octets


RULES = Rules()
After = namedtuple('After', 'number length link out')


# ---- writing

def flat(places, numbers):
    """"Of a shorter list the numbers that are not there count as 0, and what follows the last one is not looked at." """
    return {name: numbers[place] if place < len(numbers) else 0 for place, name in enumerate(places)}


def named(names, number):
    """A number that names nothing is out of range (5) where it is sent."""
    return names[number] if number < len(names) else 'nothing'


def signed(number):
    return number - (1 << 32 if number >> 31 else 0)


def reading(n, rules):
    """How a number is read that may have a sign."""
    return lambda name: signed(n[name]) if name in rules.signed else n[name]


def changes_of(n, number):
    """What an event contract has."""
    return {PRESENCE: n['what'], 'lateral-deviation': n['lateral-deviation'], 'vertical-rate': number('rate-change'),
            'level-range': {'ceiling': number('ceiling'), 'floor': number('floor')}, 'waypoint-change': None,
            'air-speed': (named(('mach', 'ias'), n['air-speed-kind']), n['air-speed-change']), 'ground-speed': n['ground-speed-change'],
            'heading': n['heading-change'], 'extended-profile': (named(('time', 'points'), n['profile-kind']), n['profile-count']),
            'merit-change': None, 'track': n['track-change'], 'level': n['level-change']}


def ground_value(numbers, rules=RULES):
    n = flat(GROUND, numbers)
    interval = (named(('seconds', 'minutes'), n['scale']), n['interval'])
    sent = interval != percoder.DEFAULTS['periodic-contract', 'interval']
    moduli = {name: n[name] for name in MODULI}
    name = named([name for name, _ in TABLE['ground'][2]], n['kind'])
    return name, {
        'cancel-contract': n['what'],
        'demand-contract': {PRESENCE: n['what'], **dict.fromkeys(moduli)},
        'event-contract': changes_of(n, reading(n, rules)),
        'modify-emergency': interval,
        # one presence bit more than the host gives, for the interval
        'periodic-contract': {PRESENCE: n['what'] + 128 * sent if n['what'] < 128 else -1, 'interval': interval, **moduli},
        'provider-abort': n['what'],
    }.get(name)


def vectors_of(n, number, rules):
    heading = n['air-parts'] & ~4 | n[rules.heading_by] & 4
    speeds = {'mach': n['mach'], 'ias': n['ias'], 'both': {'mach': n['mach'], 'ias': n['ias']}}
    kind = named(('mach', 'ias', 'both'), n['air-speed'])
    return {
        'ground-vector': {PRESENCE: n['ground-parts'], 'track': n['track'], 'speed': number('ground-speed'), 'rate': number('ground-rate')},
        'air-vector': {PRESENCE: heading, 'heading': n['heading'], 'speed': (kind, speeds.get(kind)), 'rate': number('air-rate')},
        'weather': {PRESENCE: n['weather-parts'], 'speed': n['wind-speed'], 'direction': n['wind-direction'],
                    'temperature': number('temperature'), 'turbulence': n['turbulence']}}


def report_of(n, rules, kind):
    def angle(sign, name):
        return {'sign': n[sign], 'degrees': n[name], 'minutes': n[name + '-minutes'], 'tenths': n[name + '-tenths']}

    number = reading(n, rules)
    elements = {'address': n['address'], **vectors_of(n, number, rules)}
    return {PRESENCE: n['elements'], **{name: elements[name] for name, _ in TABLE[kind][1] if name in elements},
            'position': {'latitude': angle('south', 'latitude'), 'longitude': angle('west', 'longitude'), 'level': number('level')},
            'time': {'date': {'year': n['year'], 'month': n['month'], 'day': n['day']},
                     'clock': {PRESENCE: n['has-seconds'], 'hours': n['hours'], 'minutes': n['minutes'], 'seconds': n['seconds']}},
            'merit': {'accuracy': n['accuracy'], 'first': n['units'], 'second': n['avoidance']}}


def air_value(numbers, octets, rules=RULES):
    n = flat(AIR, numbers)
    count = min(n['count'], 17)         # over 16 is 12, however far
    octets = octets + bytes(128)        # "A list with fewer octets than entries has zeros for the others."
    names = [tuple(octets[8 * place:8 * place + 8]) for place in range(count)]
    report = {PRESENCE: n['what'], 'ack': None, 'report': report_of(n, rules, 'report')}
    name = named([name for name, _ in TABLE['air'][2]], n['kind'])
    return name, {
        'demand-report': report, 'periodic-report': report,
        'emergency': {**report, 'report': report_of(n, rules, 'emergency-report')},
        'event-report': {**report, 'event-type': n['detail']},
        'negative-ack': {'request': n['what'], 'reason': (named([f'reason-{k}' for k in range(4)], n['detail']), names)},
        'noncompliance': (named(('demand', 'event', 'periodic'), n['what']), list(octets[:count])),
        'positive-ack': n['what'],
        'provider-abort': n['what'],
    }.get(name)


def written(family, value, rules=RULES):
    """The octets, or the number of a refusal."""
    writer = rules.writer()
    try:
        writer.write(family + '*', value)
    except percoder.Refused as refused:
        return refused.number
    return percoder.pack(writer.pieces)


def write(family, value, link, out, rules):
    pdu = written(family, value, rules)
    if isinstance(pdu, bytes) and len(out) < len(pdu) - rules.short:
        pdu = 6
    if not isinstance(pdu, bytes):      # "A refused call leaves every buffer as it was"
        return After(pdu, rules.told, link, rules.left_as('out', out))
    return After(0, len(pdu), link, pdu + rules.left_as('past', out[len(pdu):]))       # "octets past its end stay"


# ---- the link record

Record = namedtuple('Record', 'settings left states intervals')     # the last in the order of INTERVALS


def numbers_of(octets):
    """"numbers in four with the most significant first" """
    return [int.from_bytes(octets[place:place + 4], 'big') for place in range(0, len(octets), 4)]


def taken_apart(octets, rules=RULES):
    intervals = [int.from_bytes(octets[place:place + 4], order) for place, order in rules.places]
    return Record(numbers_of(octets[:40]), numbers_of(octets[40:80]), list(octets[80:85]), intervals)


def spelt(record, rules=RULES):
    intervals = sorted((place, number.to_bytes(4, order)) for number, (place, order) in zip(record.intervals, rules.places))
    return b''.join([*(number.to_bytes(4, 'big') for number in record.settings + record.left), bytes(record.states),
                     *(octets for _, octets in intervals)])


def link_of(record, rules=linkmodel.RULES):
    """The link that a record spells, or None where a number is no state."""
    if any(state >= len(names) for state, names in zip(record.states, STATES.values())):
        return None
    link = linkmodel.Link(rules, record.settings)
    states = {module: names[state] for (module, names), state in zip(STATES.items(), record.states)}
    link.li = states.pop('LI')
    link.state = states
    link.left = {timer: left for (timer, _, _), left in zip(rules.watch, record.left) if left}
    link.asked, link.force = record.intervals
    return link


def record_of(link):
    timers = [timer for timer, _, _ in linkmodel.RULES.watch]
    states = {**link.state, 'LI': link.li}
    return Record([link.settings[timer] for timer in timers], [link.left.get(timer, 0) for timer in timers],
                  [names.index(states[module]) for module, names in STATES.items()], [link.asked, link.force])


def grounds(octets, rules=RULES):
    """The grounds on which 29 refuses a record."""
    if len(octets) not in rules.sizes:
        return {'octets'}
    record, found = taken_apart(octets.ljust(LINK_OCTETS, b'\0'), rules), set()
    if not all(rules.settings[0] <= setting <= rules.settings[1] for setting in record.settings):
        found.add('setting')
    if any(state >= most for state, most in zip(record.states, rules.states)):
        return found | {'state'}
    link = link_of(record, dataclasses.replace(linkmodel.RULES, watch=rules.watch))
    if link is None:
        return found
    pc, watched = link.state['PC'], link.watched()
    for seconds, wanted, allowed, longest in zip(record.intervals, rules.wanted, rules.allowed, rules.longest):
        found |= {'missing'} if seconds == 0 and pc in wanted else set()
        found |= {'foreign'} if seconds > 0 and pc not in allowed else set()
        found |= {'over'} if seconds > longest else set()
    for (timer, _, _), setting, left in zip(rules.watch, record.settings, record.left):
        most = rules.grace(setting, *record.intervals) if timer == 'PC2' else setting
        if timer not in watched:
            found |= {'running'} if left > rules.resting else set()
        elif left == 0 and rules.left[0]:
            found.add('running')        # it does not run, and should
        elif not rules.left[0] <= left <= most + rules.left[1]:
            found.add('left')
    if link.li in rules.ended and not link.all_idle():
        found.add('module')
    return found


def answer_octets(entries):
    """"0 to 3 the reason .., 4 how many actions there are" (enum adsc_answer_place); what is not used is 0."""
    actions, reason, sent = [], 0, b''
    for entry in entries:
        word, _, rest = entry.partition(' ')
        if word in ('start', 'stop'):
            timers = [timer for timer, _, _ in linkmodel.RULES.watch]
            actions.append(ACTIONS[word] + timers.index(rest))
        elif entry.startswith('ind abort '):
            actions.append(ACTIONS['ind abort'])
            reason = int(entry[10:])
        else:
            actions.append(ACTIONS.get(entry) or ACTIONS[word])
            sent = sent or (bytes.fromhex(rest) if word.endswith('-req') else b'')      # "goes with its first request"
    return (reason.to_bytes(4, 'big') + bytes([len(actions)]) + bytes(actions).ljust(8, b'\0')
            + bytes([len(sent)]) + sent.ljust(SENT_MOST, b'\0'))


class Calling:
    """A call on a record. Each refusal judges alone: their order is a table."""

    def __init__(self, word, record, octets, out, numbers, rules):
        self.record, self.octets, self.out, self.rules = record, octets, out, rules
        self.box = linkmodel.Box()
        self.before = taken_apart(record.ljust(LINK_OCTETS, b'\0'), rules)
        self.box.link = link_of(self.before)
        self.word = CALLS[word]
        self.seconds = numbers[0] if numbers else 0
        self.event, self.kind = None, self.word
        if word == 'request':
            self.asks(ground_value(numbers))

    def asks(self, value):
        """"A kind or a contract to cancel that names nothing is no request" """
        name, content = value
        self.event = 'req/' + name + ('/' + named(('event', 'periodic'), content) if name == 'cancel-contract' else '')
        self.kind = linkmodel.REQUESTS.get(self.event, 'no request')
        self.octets = written('ground', value)

    def bad_record(self):
        return 29 if grounds(self.record, self.rules) else 0

    def long_elapse(self):
        return 4 if self.word == 'elapse' and self.seconds > linkmodel.LIMITS['elapse'] else 0

    def not_listed(self):
        return self.box.not_listed(types.SimpleNamespace(word=self.word, kind=self.kind, event=self.event)) if self.box.link else 0

    def bad_fields(self):
        return self.octets if isinstance(self.octets, int) else 0

    def no_room(self):
        return 6 if len(self.out) < self.rules.room else 0

    def refusals(self):
        """All that would apply, in order."""
        return [number for number in (getattr(self, judge)() for judge in self.rules.order) if number]

    def made(self):
        refused = self.refusals()
        if refused:
            return After(refused[0], BEFORE, self.rules.left_as('link', self.record), self.rules.left_as('out', self.out))
        link = self.box.link
        entries = link.elapse(self.seconds) if self.word == 'elapse' else link.call(self.kind, self.octets)
        after = record_of(link)
        after = after._replace(intervals=self.rules.kept(self.before.intervals, after.intervals))
        return After(0, BEFORE, spelt(after, self.rules), answer_octets(entries) + self.out[ANSWER_OCTETS:])


def opened(link, out, numbers, rules):
    """Refuses 3, and then 6, "a record that is not of 93 octets"."""
    limits = linkmodel.LIMITS
    if len(numbers) not in rules.counts or not all(limits['least setting'] <= number <= limits['setting'] for number in numbers):
        return After(3, BEFORE, link, out)
    if len(link) != LINK_OCTETS:
        return After(6, BEFORE, link, out)
    numbers = (numbers + [logmodel.OLD_LI1])[:TIMERS]
    return After(0, BEFORE, spelt(Record(numbers, [0] * TIMERS, [0] * len(STATES), [0] * len(INTERVALS))), out)


# ---- the flight log

def block_opened(block, out, numbers, rules):
    number = numbers[0] if numbers else 0
    if number > rules.last_block:
        return After(5, BEFORE, block, out)
    if len(block) != rules.block:
        return After(6, BEFORE, block, out)
    return After(0, BEFORE, number.to_bytes(4, 'big') + bytes(508), out)


def not_open(block, rules):
    """"20 (a block that is not of 512 octets, or whose number or payload length is none that adsc_block_open and this function make)" """
    if len(block) != rules.block:
        return 20
    return 20 if int.from_bytes(block[:4], 'big') > rules.last_block or int.from_bytes(block[4:6], 'big') > rules.payload else 0


class Appending:
    """A record behind those of a block. Each refusal judges alone: their order is a table."""

    def __init__(self, block, data, out, numbers, rules):
        self.block, self.data, self.out, self.rules = block, data, out, rules
        self.kind, self.seconds = (*numbers, 0, 0)[:2]
        self.kind %= 256
        self.used = int.from_bytes(block[4:6], 'big')
        self.size = logmodel.RECORD_HEAD + len(data[:rules.kept_data])

    def not_open(self):
        return not_open(self.block, self.rules)

    def bad_fields(self):
        """"5 (a kind over ADSC_CALL_DOWN; seconds not 0, where the call is no elapse; data, where the call has none; settings that are not
        ADSC_SETTINGS_OCTETS octets)" """
        word = named(self.rules.log.kinds, self.kind)
        unused = self.seconds and word != 'elapse' or self.data and word not in self.rules.log.with_data
        wrong = word == 'set' and len(self.data) not in self.rules.settings_octets
        return 5 if word == 'nothing' or unused or wrong else 0

    def no_room(self):
        return 6 if self.used + self.size > self.rules.payload else 0

    def refusals(self):
        return [number for number in (getattr(self, judge)() for judge in self.rules.append_order) if number]

    def made(self):
        refused = self.refusals()
        if refused:
            return After(refused[0], BEFORE, self.rules.left_as('link', self.block), self.rules.left_as('out', self.out))
        data = self.data[:self.rules.kept_data]
        record = bytes([self.kind]) + self.seconds.to_bytes(4, 'big') + bytes([len(data)]) + data
        payload = self.block[6:6 + self.used] + record
        octets = self.block[:4] + len(payload).to_bytes(2, 'big') + payload + self.rules.behind(self.block[6 + len(payload):510])
        return After(0, BEFORE, octets + self.block[510:], self.out)


def block_finished(block, out, rules):
    """"Zeros behind the payload, and the check." """
    if not_open(block, rules):
        return After(20, BEFORE, rules.left_as('link', block), rules.left_as('out', out))
    end = 6 + int.from_bytes(block[4:6], 'big')
    octets = block[:end] + rules.finished(block[end:510])
    return After(0, BEFORE, octets + rules.log.check(octets).to_bytes(2, 'big'), out)


class Playing:
    """A block judged and played on a record."""

    def __init__(self, link, block, out, numbers, rules):
        self.link, self.block, self.out, self.rules = link, block, out, rules
        self.reader = logmodel.Reader(rules.log)
        self.reader.number = numbers[0] if numbers else 0
        if not rules.none(link) and not grounds(link, rules):
            self.reader.box.link = link_of(taken_apart(link, rules))

    def bad_record(self):
        return 29 if not self.rules.none(self.link) and grounds(self.link, self.rules) else 0

    def cut_short(self):
        return 20 if len(self.block) != self.rules.block else 0

    def judged(self):
        return self.reader.read(self.block)

    def made(self):
        for judge in self.rules.play_order:
            number = getattr(self, judge)()
            if number:
                return After(number, BEFORE, self.rules.left_as('link', self.link), self.rules.left_as('out', self.out))
        link = self.reader.box.link
        return After(0, BEFORE, spelt(record_of(link), self.rules) if link else self.link, self.out)


# ---- lines

@functools.lru_cache(maxsize=100000)
def parts(line):
    """The word, link, octets, output and numbers of a line, or None."""
    match = LINE.fullmatch(line.decode('latin-1'))
    if match is None or len(line) > linkmodel.LIMITS['line']:
        return None
    numbers = [int(number) for number in match[5].split()]
    fields = (bytes.fromhex(match[place]) for place in (2, 3, 4))
    return (match[1], *fields, numbers) if all(number <= linkmodel.LIMITS['number'] for number in numbers) else None


def call(word, link, octets, out, numbers, rules=RULES):
    if word == 'write_ground':
        return write('ground', ground_value(numbers, rules), link, out, rules)
    if word == 'write_air':
        return write('air', air_value(numbers, octets, rules), link, out, rules)
    if word == 'open':
        return opened(link, out, numbers, rules)
    if word == 'block_open':
        return block_opened(link, out, numbers, rules)
    if word == 'block_append':
        return Appending(link, octets, out, numbers, rules).made()
    if word == 'block_finish':
        return block_finished(link, out, rules)
    if word == 'block_play':
        return Playing(link, octets, out, numbers, rules).made()
    return Calling(word, link, octets, out, numbers, rules).made()


def answer(line, rules=RULES):
    asked = parts(line)
    if asked is None:
        return 'refused 17'
    after = call(*asked, rules)
    return f'{after.number} {after.length} {after.link.hex()} {after.out.hex()}'
