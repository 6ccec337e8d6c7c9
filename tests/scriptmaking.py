"""What makers of random scripts share for both sides of a link: PDUs of every event, lines of every kind, lines that are none.

    Pool(rng, sources): PDUs by event, and octets that are none
    Maker(rng, coverage).script(60) -> script octets
"""

import collections

from compare_coder import DAMAGES, random_value
from percoder import DEFAULTS, write
from sidemodel import LIMITS

MOST = LIMITS['elapse']
BEFORE = 'no link'


class Pool:
    """PDUs of every event, those that send a default too, and octets that are none. A source is a family, what names its PDUs, and the events."""
    EACH = 12

    def __init__(self, rng, sources):
        self.of = collections.defaultdict(list)
        for family, name_of, events in sources:
            while any(len(self.of[event]) < self.EACH for event in events):
                octets = write(family, random_value(rng, family))
                if len(self.of[name_of(octets)]) < self.EACH:
                    self.of[name_of(octets)].append(octets)
        self.defaults = [self.with_default(rng) for _ in range(self.EACH)]
        names = {family: name_of for family, name_of, _ in sources}
        for octets in self.defaults:
            self.of[names['ground'](octets)].append(octets)
        self.bad = {family: self.unreadable(rng, family, name_of) for family, name_of, _ in sources}

    def with_default(self, rng):
        (form, name), default = rng.choice(list(DEFAULTS.items()))
        return write('ground', (form, {**random_value(rng, form), name: default}), with_default=True)

    def unreadable(self, rng, family, name_of):
        found = [b'', bytes(129), b'\x80', b'\x99' * 5, write('air', ('cancel-emergency', None)) + b'\0']
        while len(found) < 100:
            drawn, octets = rng.choice(DAMAGES)(rng, family)
            if drawn == family and name_of(octets) is None:
                found.append(octets)
        return found


def elapse_kind(link, seconds):
    if seconds == 0 or seconds > MOST:
        return 'elapse over' if seconds else 'elapse 0'
    return 'elapse expires' if link and any(left <= seconds for left in link.left.values()) else 'elapse runs on'


def no_call(call):
    """Whether a line is none, whatever the link."""
    return not call.formed or call.size > LIMITS['line'] or any(number > LIMITS['number'] for number in call.numbers)


def set_kind(call):
    return 'set in range' if all(1 <= number <= LIMITS['setting'] for number in call.numbers) else 'set out of range'


class Maker:
    """Makes scripts one after another. A side has its kinds of lines, how many settings there are, the words that octets stand behind,
    and what is a word elsewhere alone; how a script begins, its next line, and the octets and settings of a line are its functions."""

    def __init__(self, rng, coverage, pool):
        self.rng, self.coverage, self.pool = rng, coverage, pool

    def script(self, size):
        rng, made = self.rng, []
        self.begin()
        if rng.random() < 0.02:
            size = rng.randint(0, 3)
        for _ in range(size):
            line = self.line()
            self.coverage.note(self.box, line)
            self.box.answer(line)
            made.append(line)
        return b'\n'.join(made) + (b'\n' if made and rng.random() < 0.9 else b'')

    def opening(self, draw):
        """A line before there is a link."""
        if draw < 0.65:
            return self.of_kind('set in range')
        if draw < 0.8:
            return self.of_kind('set out of range')
        return self.of_kind(self.rarest_kind(BEFORE, self.kinds))

    def rarest_kind(self, li, kinds):
        """The kind of line met least in an LI state; an expiry needs a timer and is not drawn here."""
        return min(kinds, key=lambda kind: (kind == 'elapse expires', self.coverage.lines[li, kind], self.rng.random()))

    # Lines

    def hexed(self, word, octets):
        return f'{word} {octets.hex()}'.rstrip().encode()

    def of_kind(self, kind):
        word, _, detail = kind.partition(' ')
        if kind == 'no call':
            return self.no_call()
        if word == 'set':
            return self.set_line(detail)
        if word == 'elapse':
            return b'elapse %d' % self.seconds(detail)
        if not detail:
            return word.encode()
        return self.hexed(word, self.octets(word, detail))

    def longest(self, word):
        """How many octets the longest readable line has behind a word."""
        return (LIMITS['line'] - len(word) - 1) // 2

    def clock(self, link):
        """Time that no timer ends by."""
        most = min([MOST, *(left - 1 for left in link.left.values())])
        return b'elapse %d' % self.rng.choice((most, self.rng.randint(0, most), self.rng.randint(0, most), min(1, most), 0))

    def seconds(self, detail):
        link = self.box.link
        if detail == 'over':
            return self.rng.choice((MOST + 1, MOST + 1, LIMITS['number'], self.rng.randint(MOST + 1, LIMITS['number'])))
        if detail == '0':
            return 0
        return self.near(link) if link and link.left else self.rng.choice((1, MOST, self.rng.randint(1, MOST)))

    def set_line(self, detail):
        numbers = self.settings()
        if detail == 'out of range':
            for place in self.rng.sample(range(self.count), self.rng.choice((1, 1, 1, self.count))):
                numbers[place] = self.rng.choice((0, MOST + 1, MOST + 1, LIMITS['number']))
        return ' '.join(['set', *map(str, numbers)]).encode()

    # Lines that are none: most are a good one with one thing wrong

    def no_call(self):
        return self.rng.choice((self.bad_set, self.bad_elapse, self.bad_line, self.bad_line, self.bad_octets,
                                self.too_long))()

    def bad_set(self):
        numbers = self.set_line(self.rng.choice(('in range', 'out of range'))).split()[1:]
        place = self.rng.randrange(self.count)
        odd = self.rng.choice((b'00', b'-1', b'+1', b'01', b'4294967296', b'1.0', b'x', b''))
        return b' '.join([b'set', *self.rng.choice((
            numbers[:-1], numbers + [b'1'], numbers + [b'0'], [], numbers[:place] + [odd] + numbers[place + 1:]))])

    def bad_elapse(self):
        beyond = b' %d' % (LIMITS['number'] + 1)
        return b'elapse' + self.rng.choice((
            b'', b' ', b' 00', b' 01', b' -0', b' -1', b' +1', b' 1 ', b' 1 1', b'  1', b' 0x1', b' 1a', beyond, beyond,
            beyond, beyond, b' 18446744073709551616', b' ' + b'9' * 5000, b'1', b'\t1', b' 1\r', b' \xb2'))

    def bad_line(self):
        line = self.of_kind(self.rng.choice([kind for kind in self.kinds if kind.split()[0] not in ('set', 'elapse', 'no')]))
        word, _, digits = line.partition(b' ')
        return self.rng.choice((
            b'', b' ', line + b' ', line + b'\r', line + b'\r', line + b'\t', line + b'\0', line + b'\xff', b' ' + line,
            line + b' 00', word.upper(), word.title() + line[len(word):], word[:-1], word + b'x', word + b'  ' + (digits or b'00'),
            word + b'\t' + (digits or b'00'), *(other.encode() + digits for other in self.elsewhere), digits + b'g',
            line.replace(b' ', b''), word + b' 0x00'))

    def bad_octets(self):
        word = self.rng.choice(self.hex_words).encode()
        return word + b' ' + self.rng.choice((b'', b'0', b'000', b'3B80', b'0g', b'00 00', b'0', b'\xd9\xa0', b'3b8', b'74 '))

    def too_long(self):
        word = self.rng.choice(self.hex_words)
        return self.hexed(word, bytes(self.longest(word) + self.rng.choice((1, 1, 1, 1000))))
