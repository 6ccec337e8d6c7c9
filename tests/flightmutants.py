"""Models of a flight with one thing changed: a test of the test that compares it (compare_flight.py --mutate).

    MUTANTS: name -> the trace function of the changed model
"""

import functools

import linkmodel
from altering import trace_mutants
from flightmodel import ENDS, MOST, USERS, World, heard, trace
from linkmutants import Unwatched


def of(**parts):
    """A world with other parts."""
    return type('Changed', (World,), parts)


# What is under way

class NewestFirst(World):
    def delivered(self, count):
        self.under_way = self.under_way[:count][::-1] + self.under_way[count:]
        return super().delivered(count)


class UpFirst(World):
    """Each queue by itself, what goes up before what comes down."""
    def delivered(self, count):
        self.under_way.sort(key=lambda item: item.end)
        return super().delivered(count)


class OnAndOn(World):
    """What is sent meanwhile comes too."""
    def delivered(self, count):
        texts = list(super().delivered(count))
        while self.under_way and len(texts) < 40:
            texts += super().delivered(1)
        return texts


class One(World):
    """A bare word is of one."""
    def count(self, rest):
        return super().count(rest or ' 1')


class AsManyAsThere(World):
    """A number that is too great is of all there is."""
    def count(self, rest):
        return super().count(rest) or (super().count('') if rest[1:].isdigit() and rest != ' 0' else 0)


class Zeros(World):
    """`deliver 01` and `deliver 1` are the same."""
    def count(self, rest):
        return super().count(f' {int(rest[1:])}' if rest[1:].isdigit() else rest)


class LosesNewest(World):
    def thrown_away(self, count):
        self.under_way.reverse()
        texts = super().thrown_away(count)
        self.under_way.reverse()
        return texts


class LosesQuietly(World):
    def thrown_away(self, count):
        super().thrown_away(count)
        return []


class StaysIfRefused(World):
    """What an end refuses stays under way."""
    def take(self, item):
        kept = list(self.under_way)
        answer = super().take(item)
        self.under_way = kept if answer == 'refused 2' else self.under_way
        return answer

    def delivered(self, count):
        return list(super().delivered(count))


# Dialogues

class OneDialogue(World):
    """All is heard."""
    def hears(self, item):
        return True


class NumbersAlone(World):
    def hears(self, item):
        return self.starts(item) or self.dialogue[item.end] == item.dialogue


class StatesAlone(World):
    def hears(self, item):
        return self.starts(item) or self.box[item.end].link.li != 'IDLE'


class NeverJoins(World):
    """The aircraft has the ground's number."""
    def take(self, item):
        self.dialogue['air'] = self.dialogue['ground']
        return super().take(item)


class JoinsRefused(World):
    """The number of a start that was refused is taken."""
    def take(self, item):
        if self.starts(item):
            self.dialogue['air'] = item.dialogue
        return super().take(item)


class OverStays(World):
    """What is over stops the deliveries of a line."""
    def delivered(self, count):
        for text in super().delivered(count):
            yield text
            if text.endswith(' over'):
                return


class OverIsLost(World):
    def take(self, item):
        return super().take(item).replace('over', 'lost')


class AbortOvertakes(World):
    """An abort goes before all else."""
    def ask(self, end, line):
        answer = super().ask(end, line)
        self.under_way.sort(key=lambda item: 'abort' not in item.call)
        return answer


# Both ends

def ends(order):
    class Ordered(World):
        def both(self, answers):
            return super().both({end: answers[end] for end in order})
    return Ordered


class AirFirst(World):
    """What the clocks send: the aircraft's before the ground's."""
    def elapse(self, rest):
        there = len(self.under_way)
        answer = super().elapse(rest)
        self.under_way[there:] = self.under_way[there:][::-1]
        return answer


class OneClock(World):
    def ask(self, end, line):
        return 'ok' if end == 'air' and line.startswith('elapse') else super().ask(end, line)


class EndStands(World):
    """The ground's END has no clock."""
    def __init__(self):
        super().__init__()
        self.box['ground'] = linkmodel.Box(link=Unwatched)


class CutKeeps(World):
    def cut(self, rest):
        kept = list(self.under_way)
        answer, behind = super().cut(rest)
        self.under_way = kept
        return answer, behind if rest else ()


class CutIdle(World):
    """A cut is refused where an end has nothing to lose."""
    def cut(self, rest):
        idle = any(box.link.li == 'IDLE' for box in self.box.values())
        return ('refused 2', ()) if idle and not rest else super().cut(rest)


class CutAnything(World):
    def cut(self, rest):
        return super().cut('')


class AnyWord(World):
    """An end's other words are let through."""
    def at_end(self, end, line):
        self.users = line.split(' ')[:1]
        return super().at_end(end, line)


class FullChanges(World):
    """A line that is refused for want of room has been played all the same."""
    def within(self, end, line):
        world = self.tried()
        answer = world.ask(end, line)
        world.under_way = world.under_way[:self.most]
        full = len(self.under_way) + answer.count('-req') + answer.count('-rsp') > self.most
        self.become(world)
        return 'refused 17' if full else answer


class FullClock(World):
    """Time passes however much is under way."""
    def elapse(self, rest):
        most, self.most = self.most, 2 * MOST
        answer = super().elapse(rest)
        self.most = most
        return answer


class LosesUnset(World):
    """What is under way can be lost before both ends have their settings."""
    def line(self, octets):
        return self.lose('') if octets == b'lose' else super().line(octets)


class LineOfItsOwn(World):
    """A line may be as long as the end's own line may be."""
    def line(self, octets):
        word, _, rest = octets.partition(b' ')
        return self.at_end(word.decode(), rest.decode('latin-1')) if word.decode('latin-1') in ENDS else super().line(octets)


class NoRefusingEnd(World):
    """Who refused is not said."""
    def at_end(self, end, line):
        answer, behind = super().at_end(end, line)
        return answer.removeprefix(f'{end} ') if ' refused ' in answer else answer, behind


# What is heard

def hearing(sender, word, other):
    """An entry of an end's answer is heard as something else."""
    def hears(end, entry, octets):
        return other(octets) if (end, entry) == (sender, word) else heard(end, entry, octets)
    return of(heard=staticmethod(hears))


def with_octets(call):
    return lambda octets: f'{call} {octets}'.rstrip()


HEARINGS = {
    'start-ind-as-data': hearing('ground', 'start-req', with_octets('data')),
    'end-ind-bare': hearing('ground', 'end-req', lambda octets: 'end-ind'),
    'ground-abort-as-peer': hearing('ground', 'abort-req', lambda octets: 'peer-abort'),
    'ground-abort-never-peer': hearing('ground', 'abort-req', with_octets('ground-abort')),
    'start-rsp-as-data': hearing('air', 'start-rsp', with_octets('data')),
    'end-cnf-octets': hearing('air', 'end-rsp', with_octets('end-cnf')),
    'air-abort-as-peer': hearing('air', 'abort-req', lambda octets: 'peer-abort'),
    'air-abort-never-peer': hearing('air', 'abort-req', with_octets('air-abort')),
}


# The output

class OneState(World):
    def states(self):
        return [text for text in super().states() if not text.startswith('air')]


class NoCount(World):
    def states(self):
        return list(super().states())[:-1]


def dotless(script):
    """Deliveries have the number of their line alone."""
    return b'\n'.join(line.split(b'.')[0] + b' ' + line.partition(b' ')[2] if b'.' in line.split(b' ')[0] else line for line in trace(script).split(b'\n'))


WORLDS = {
    'most.one-less': of(most=MOST - 1), 'most.one-more': of(most=MOST + 1),
    **{f'users.no-{word}': of(users=tuple(other for other in USERS if other != word)) for word in USERS},
    **{f'heard.{name}': world for name, world in HEARINGS.items()},
    'both.air-said-first': ends(('air', 'ground')),
    **{world.__name__: world for world in (
        NewestFirst, UpFirst, OnAndOn, One, AsManyAsThere, Zeros, LosesNewest, LosesQuietly, StaysIfRefused, OneDialogue, NumbersAlone, StatesAlone, NeverJoins,
        JoinsRefused, OverStays, OverIsLost, AbortOvertakes, AirFirst, OneClock, EndStands, CutKeeps, CutIdle, CutAnything, AnyWord, FullChanges, FullClock, LosesUnset, LineOfItsOwn,
        NoRefusingEnd, OneState, NoCount)},
}
MUTANTS = {**{name: functools.partial(trace, made=world) for name, world in WORLDS.items()},
           **{name: model for name, model in trace_mutants(trace) if name != 'trace.end-counts-accepted'}, 'trace.no-places': dotless}
