"""Random flights: what both users do, what the channel does with what is under way, and lines that are none.

    Maker(rng, coverage).script(60) -> script octets
    Coverage: what the flights have met, and what has to be
"""

import collections
import re

import linkmodel
from airscripts import REQUESTS as REPLIES
from flightmodel import HEARD, MOST, World
from scriptmaking import Pool
from sidemodel import GROUND_PDUS, LIMITS, aircraft_pdu, asked, ground_pdu

REQUESTS = {'ground': list(linkmodel.REQUESTS), 'air': list(REPLIES)}
DAY = LIMITS['elapse']

# What comes of something under way. Nothing but what was lost before leads to a refusal of 2, and it does with these.
CALLS = [(end, word) for end, sender in (('air', 'ground'), ('ground', 'air')) for word in [*HEARD[sender].values(), 'peer-abort']]
OUTCOMES_DUE = ([(*call, outcome) for call in CALLS for outcome in ('ok', 'lost')]
                + [(*call, 'over') for call in CALLS if call[1] != 'start-ind']
                + [('ground', 'data', 'late'), ('air', 'start-ind', 'refused 2'), ('ground', 'data', 'refused 2')])

# Lines: what stands first, and what came of it, with as much under way as may be or less. `none` is a line that is none of these.
LINES_DUE = [(word, answer) for word in ('ground', 'air') for answer in ('ok', 'refused 1', 'refused 3', 'refused 17')]
LINES_DUE += [(word, answer) for word in ('elapse', 'cut') for answer in ('ok', 'refused 17')] + [('elapse', 'refused 4')]
LINES_DUE += [('elapse', timer) for timer in ('LI1', 'EM3')]      # of both ends
LINES_DUE += [(word, count, answer) for word in ('deliver', 'lose') for count, answer in (
    ('all', 'ok'), ('some', 'ok'), ('as many', 'ok'), ('none', 'refused 17'), ('one more', 'refused 17'), ('all', 'refused 17'), ('unreadable', 'refused 17'))]
LINES_DUE += [('none', 'refused 17'), ('not set', 'refused 17')]
FULL_DUE = [('ground', 'refused 17'), ('air', 'refused 17'), ('elapse', 'refused 17'), ('elapse', 'ok')]


def counted(world, rest):
    """How many a `deliver` or `lose` asks for, in words."""
    if not rest:
        return 'all'
    if not rest.isdigit() or str(int(rest)) != rest:
        return 'unreadable'
    number, there = int(rest), len(world.under_way)
    if number == there:
        return 'as many' if number else 'none'
    return 'none' if number == 0 else 'some' if number < there else 'one more' if number == there + 1 else 'more'


# A line behind that of a `deliver`, a `lose` or a `cut`.
BEHIND = re.compile('(ground|air) ([a-z-]+)(?: [0-9a-f]+)? ((?:ok|refused|over|lost).*)')


def came_of(answer):
    """Of an answer, how it begins; both ends answer a `cut` or an `elapse`, accepted."""
    words = answer.split(' ')
    if words[0] == 'refused':
        return ' '.join(words[:2])
    return 'ok' if words[0] in HEARD else 'late' if words[-1] == 'late' else words[0]


class Coverage:
    def __init__(self):
        self.lines, self.outcomes, self.full = collections.Counter(), collections.Counter(), collections.Counter()
        self.wrong = []
        self.lost = False           # in the present flight

    def begin(self):
        self.lost = False

    def note(self, before, line, answer, behind):
        word, _, rest = line.decode('latin-1').partition(' ')
        self.note_line(before, word, rest, came_of(answer.removeprefix(f'{word} ')))
        self.lines.update((word, timer) for timer in re.findall('stop (LI1|EM3)', answer) if word == 'elapse')
        for text in behind:
            end, call, outcome = BEHIND.fullmatch(text).groups()
            self.outcomes[end, call, came_of(outcome)] += 1
            self.lost |= outcome == 'lost'
            if came_of(outcome).startswith('refused') and not self.lost:
                self.wrong.append(f'nothing was lost: {text}')
        self.wrong += [f'an abort with 2: {text}' for text in (answer, *behind) if 'ind abort 2' in text]

    def note_line(self, before, word, rest, result):
        if word in ('deliver', 'lose') and before.set_up():
            self.lines[word, counted(before, rest), result] += 1
        elif word in HEARD or word in ('elapse', 'cut') and before.set_up():
            self.lines[word, result] += 1
        else:
            self.lines['not set' if word in ('deliver', 'lose', 'elapse', 'cut') else 'none', result] += 1
        if len(before.under_way) >= MOST - 1:
            self.full[word, result] += 1


class Maker:
    """Makes flights one after another; what is rarely met is tried more by flights of a temper of their own."""

    def __init__(self, rng, coverage):
        self.rng, self.coverage = rng, coverage
        self.pool = Pool(rng, (('air', lambda octets: asked(aircraft_pdu(octets)), REQUESTS['air']), ('ground', ground_pdu, GROUND_PDUS)))

    def script(self, size):
        rng, made = self.rng, []
        self.world = World()
        self.coverage.begin()
        self.temper = rng.choice(('calm', 'calm', 'rough', 'rough', 'flood', 'honest'))
        self.short = rng.random() < 0.3         # timers that soon are used up
        if rng.random() < 0.02:
            size = rng.randint(0, 3)
        for _ in range(size):
            line, before = self.line(), self.world.tried()
            self.coverage.note(before, line, *self.world.line(line))
            made.append(line)
        return b'\n'.join(made) + (b'\n' if made and rng.random() < 0.9 else b'')

    def line(self):
        draw = self.rng.random()
        if not self.world.set_up():
            return self.opening(draw)
        if len(self.world.under_way) >= MOST - 1 and draw < 0.4:
            return self.crowded()
        if draw < 0.04:
            return self.odd()
        if draw < 0.12:
            return b'elapse %d' % self.seconds()
        if draw < 0.3 and self.world.box['air'].link.left:
            return b'elapse %d' % self.world.box['air'].link.left['EM3']
        if self.temper == 'rough' and self.rarely_lost():
            return b'lose 1'
        if self.rng.random() < {'calm': 0.02, 'rough': 0.25, 'flood': 0.02, 'honest': 0.08}[self.temper]:
            return self.rough()
        if self.world.under_way and self.rng.random() < self.haste():
            return self.channel('deliver')
        return self.user('air' if self.floods() else self.rng.choice(('ground', 'air', 'air')))

    def floods(self):
        """Whether what the aircraft sends piles up: the link stands, and little is delivered."""
        return self.temper == 'flood' and all(box.link and box.link.li == 'ACTIVE' for box in self.world.box.values())

    def haste(self):
        """How often something is delivered."""
        return 0.03 if self.floods() else {'calm': 0.4, 'rough': 0.3, 'flood': 0.5, 'honest': 0.4}[self.temper]

    # The ends

    def opening(self, draw):
        if self.world.under_way and draw < 0.3:
            return self.rng.choice((b'lose', b'deliver', b'cut', b'elapse 1'))
        if draw < 0.7:
            end = self.rng.choice([end for end, box in self.world.box.items() if not box.link])
            return f'{end} {self.settings(end)}'.encode()
        return self.odd() if draw < 0.85 else self.user('ground')

    def settings(self, end):
        numbers = [self.rng.randint(1, 6) if self.short else self.rng.choice((60, 360, DAY)) for _ in range(10 if end == 'ground' else 1)]
        if self.rng.random() < 0.1:
            numbers[self.rng.randrange(len(numbers))] = self.rng.choice((0, DAY + 1))
        if self.rng.random() < 0.05:
            numbers.append(1)
        return ' '.join(map(str, ['set', *numbers]))

    def user(self, end):
        """A request, mostly one that is permitted."""
        for _ in range(12):
            line = self.request(end)
            if self.taken(end, line) or self.rng.random() < 0.01:
                return f'{end} {line}'.encode()
        if self.world.under_way:
            return self.channel('deliver')
        return self.rng.choice((f'ground {self.request("ground")}', 'ground user-abort', 'air user-abort', f'elapse {DAY}')).encode()

    def request(self, end):
        event = self.rng.choice(REQUESTS[end])
        if self.floods() and end == 'air' and self.rng.random() < 0.7:
            event = self.rng.choice(('req/emergency', 'req/event-report', 'req/periodic-report'))
        octets = self.pool.of[event if end == 'air' else event.removeprefix('req/')]
        return f'req {self.rng.choice(octets).hex()}'

    def taken(self, end, line):
        box = self.world.tried().box[end]
        return box.answer(line.encode()).startswith('ok')

    def crowded(self):
        """With as much under way as may be, or one less: what would send."""
        return self.rng.choice((b'ground user-abort', b'air user-abort', b'elapse %d' % DAY, b'elapse %d' % DAY, b'elapse 1'))

    # The channel and the clock

    def channel(self, word):
        there = len(self.world.under_way)
        some = self.rng.randint(1, there) if there else 1
        return self.rng.choice((word, f'{word} 1', f'{word} {some}')).encode()

    def rarely_lost(self):
        """Whether the oldest is something that has been lost a few times at most."""
        oldest = self.world.under_way[:1]
        return any(self.coverage.outcomes[item.end, item.call.split(' ')[0], 'lost'] < 3 for item in oldest)

    def rough(self):
        """What an honest channel between patient users never does."""
        draw = self.rng.random()
        if draw < 0.45 or self.temper == 'honest':
            return self.rng.choice((b'ground user-abort', b'air user-abort'))
        return self.channel('lose') if draw < 0.85 else b'cut'

    def seconds(self):
        left = [seconds for box in self.world.box.values() for seconds in box.link.left.values()]
        draw = self.rng.random()
        if left and draw < 0.4:
            return min(DAY, max(0, self.rng.choice(left) + self.rng.choice((-1, -1, 0, 1))))
        return self.rng.choice((0, 1, 1, 2, 5, DAY + 1, LIMITS['number'])) if draw < 0.9 else DAY

    # Lines that are refused, most of them for what they are

    def odd(self):
        there = len(self.world.under_way)
        word, end = self.rng.choice(('deliver', 'lose')), self.rng.choice(('ground', 'air'))
        counts = ['', *(f' {rest}' for rest in (there, there + 1, 0, '01', '', 'x', '1 1', -1, ' 1', 2 ** 32 + 1))]
        line = self.rng.choice((
            *(f'{word}{count}' for count in counts), f'{word}1', f'{word}\t1', f'{word}\r',
            'cut', 'cut ', 'cut 1', 'Cut', 'elapse', 'elapse 1', 'elapse 1', 'elapse ', 'elapse 01', 'elapse 4294967296', '', ' ',
            end, f'{end} ', f' {end} user-abort', f'{end}  user-abort', f'{end} user-abort ', f'{end}\tuser-abort', f'{end} user-abort\r',
            *(f'{end} {call}' for call in (
                'elapse 1', 'down', 'data', 'data 3880', 'peer-abort', 'start-ind 3000', 'start-cnf 2130', 'end-cnf', 'end-ind', 'start-rej',
                'air-abort', 'ground-abort 74', 'req', 'req 0', 'req 640420', 'set 1', 'set 1 1 1 1 1 1 1 1 1', 'set 1 1 1 1 1 1 1 1 1 1', 'deliver', f'{end} user-abort')),
            'req 3000', 'user-abort', 'set 60', 'down', 'sea user-abort',
            # at most 128 octets read, at most 4,096 are a line
            f'{end} req ' + '00' * self.rng.choice((128, 129)), f'{end} req ' + '00' * (2043 + (end == 'air')), f'{end} req ' + '00' * 2042,
            'deliver ' + '1' * self.rng.choice((4088, 4089))))
        return line.encode('latin-1')
