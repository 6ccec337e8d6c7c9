"""A model of a flight, both ends of a link played against each other, written from docs/FLIGHT.md alone.

It stands on the models of both ends (linkmodel.py, airmodel.py), which it asks line by line, and
shares nothing with the program it is compared with but the pages.

    flightmodel.py < script > output
    trace(script octets) -> output octets
"""

import collections
import copy
import re
import sys

import airmodel
import linkmodel
from sidemodel import IS_NUMBER, LIMITS, MODULES, lines

ENDS = {'ground': linkmodel.Box, 'air': airmodel.Box}
WORDS = (*ENDS, 'elapse', 'deliver', 'lose', 'cut')
OTHER = {'ground': 'air', 'air': 'ground'}

# "LINE is a line of `adsc` or of `adsair`, with `set`, `req` or `user-abort`"
USERS = ('set', 'req', 'user-abort')

# What one end sends, as the other hears it. "`end-cnf`, which has no octets"; "`abort-req` (the user's)": `peer-abort`.
HEARD = {'ground': {'start-req': 'start-ind', 'data-req': 'data', 'end-req': 'end-ind', 'abort-req': 'ground-abort'},
         'air': {'start-rsp': 'start-cnf', 'data-req': 'data', 'end-rsp': 'end-cnf', 'abort-req': 'air-abort'}}
SENT = re.compile('(start-req|start-rsp|data-req|end-req|end-rsp|abort-req)(?: ([0-9a-f]+))?(?= |$)')

MOST = 16       # "where more than 16 would be under way after it"

# Something under way: the end that it is for, what that end hears, the number of its dialogue.
Item = collections.namedtuple('Item', 'end call dialogue')


def heard(sender, word, octets):
    """What the other end hears, in the words of its script."""
    call = HEARD[sender][word]
    if word == 'abort-req' and not octets:
        return 'peer-abort'
    return f'{call} {octets}' if octets and call != 'end-cnf' else call


def copied(box):
    """A box that goes its own way."""
    box = copy.copy(box)
    if box.link:
        box.link = copy.copy(box.link)
        box.link.state, box.link.left = dict(box.link.state), dict(box.link.left)
    return box


class World:
    """Both ends and what is under way between them. A test of a test changes a part of it."""

    most, users, heard = MOST, USERS, staticmethod(heard)

    def __init__(self):
        self.box = {end: made() for end, made in ENDS.items()}
        self.dialogue = dict.fromkeys(ENDS, 0)      # "start requests are numbered from 1 as they are sent"
        self.under_way = []

    def tried(self):
        """The same world, to see where something leads."""
        other = copy.copy(self)
        other.box = {end: copied(box) for end, box in self.box.items()}
        other.dialogue, other.under_way = dict(self.dialogue), list(self.under_way)
        return other

    def become(self, other):
        self.box, self.dialogue, self.under_way = other.box, other.dialogue, other.under_way

    def fits(self):
        return len(self.under_way) <= self.most

    def set_up(self):
        return all(box.link for box in self.box.values())

    # What an end does

    def ask(self, end, line):
        """An end's answer to a line of its own script; what it sends is under way."""
        answer = self.box[end].answer(line.encode('latin-1'))
        for word, octets in SENT.findall(answer) if answer.startswith('ok') else ():
            self.dialogue[end] += word == 'start-req'
            self.under_way.append(Item(OTHER[end], self.heard(end, word, octets), self.dialogue[end]))
        return answer

    def within(self, end, line):
        """The same, refused where too much would be under way."""
        world = self.tried()
        answer = world.ask(end, line)
        if not world.fits():
            return 'refused 17'
        self.become(world)
        return answer

    # Deliveries

    def hears(self, item):
        # "A start request is always heard. Anything else is heard by an end whose LI is not IDLE and whose number it has"
        return self.starts(item) or self.box[item.end].link.li != 'IDLE' and self.dialogue[item.end] == item.dialogue

    def starts(self, item):
        return item.call.startswith('start-ind')

    def take(self, item):
        """What comes of the oldest."""
        if not self.hears(item):
            del self.under_way[0]
            return 'over'
        world = self.tried()
        del world.under_way[0]
        if self.starts(item) and self.box['air'].link.li == 'IDLE':     # else it is refused, and the old dialogue goes on
            world.dialogue['air'] = item.dialogue
        answer = world.ask(item.end, item.call)
        if not world.fits():
            return 'refused 17'
        self.become(world)
        return answer

    def delivered(self, count):
        """A line for each."""
        for _ in range(count):
            item = self.under_way[0]
            answer = self.take(item)
            yield f'{item.end} {item.call} {answer}'
            if answer == 'refused 17':
                return

    def thrown_away(self, count):
        gone, self.under_way = self.under_way[:count], self.under_way[count:]
        return [f'{item.end} {item.call} lost' for item in gone]

    # Lines of the script

    def at_end(self, end, line):
        if line.split(' ')[0] not in self.users:
            return f'{end} refused 17', ()
        return f'{end} {self.within(end, line)}', ()

    def elapse(self, rest):
        world = self.tried()
        answers = {end: world.ask(end, f'elapse{rest}') for end in ENDS}
        refused = [answer for answer in answers.values() if answer.startswith('refused')]
        if refused or not world.fits():
            return [*refused, 'refused 17'][0], ()
        self.become(world)
        return self.both(answers), ()

    def both(self, answers):
        return ' '.join(f'{end} {answer}' for end, answer in answers.items())

    def count(self, rest):
        """How many a `deliver` or a `lose` is of, 0 where it is refused."""
        if not rest:
            return len(self.under_way)
        number = int(rest[1:]) if rest[0] == ' ' and IS_NUMBER.fullmatch(rest[1:]) else 0
        return number if number <= len(self.under_way) else 0

    def deliver(self, rest):
        count = self.count(rest)
        return ('ok', list(self.delivered(count))) if count else ('refused 17', ())

    def lose(self, rest):
        count = self.count(rest)
        return ('ok', self.thrown_away(count)) if count else ('refused 17', ())

    def cut(self, rest):
        if rest:
            return 'refused 17', ()
        gone = self.thrown_away(len(self.under_way))
        return self.both({end: self.ask(end, 'down') for end in ENDS}), gone

    def line(self, octets):
        """The answer to a line of the script, and the lines behind it."""
        text = octets.decode('latin-1')
        word, space, rest = text.partition(' ')
        if len(octets) > LIMITS['line']:
            return 'refused 17', ()
        if word in ENDS:
            return self.at_end(word, rest)
        step = {'elapse': self.elapse, 'deliver': self.deliver, 'lose': self.lose, 'cut': self.cut}.get(word)
        return step(space + rest) if step and self.set_up() else ('refused 17', ())

    def states(self):
        for end, box in self.box.items():
            link = box.link
            yield f'{end} ' + (' '.join([f'LI-{link.li}', *(f'{module}-{link.state[module]}' for module in MODULES)]) if link else 'not set')
        yield f'under way {len(self.under_way)}'


def trace(script, made=World):
    world, output, count = made(), ['adsc flight 1'], 0
    for count, line in enumerate(lines(script), 1):
        answer, behind = world.line(line)
        output += [f'{count} {answer}', *(f'{count}.{place} {text}' for place, text in enumerate(behind, 1))]
    return '\n'.join([*output, *world.states(), f'end {count}', '']).encode()


if __name__ == '__main__':
    sys.stdout.buffer.write(trace(sys.stdin.buffer.read()))
