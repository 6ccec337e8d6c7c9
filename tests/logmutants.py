"""Models of the flight log with one thing changed: a test of the test that compares logs (compare_logs.py --mutate).

    MUTANTS: name -> (log, play), the functions of the changed model
"""

import dataclasses
import functools

import linkmodel
from logmodel import BLOCK, GROUNDS, HEAD, KINDS, ROOM, RULES, WITH_DATA, Reader, block_of, log, packed, play, recorded
from sidemodel import sends_default


def recorder(**fields):
    return functools.partial(log, rules=dataclasses.replace(RULES, **fields)), play


def reader(made=Reader, **fields):
    return log, functools.partial(play, rules=dataclasses.replace(RULES, **fields), made=made)


def both(**fields):
    return recorder(**fields)[0], reader(**fields)[1]


# The check

def summed(octets, first=1):
    return sum(octet * place for place, octet in enumerate(octets, first))


CHECKS = {
    'without-the-1': lambda octets: summed(octets[:510]) % 65521,
    'places-from-0': lambda octets: (1 + summed(octets[:510], 0)) % 65521,
    'one-behind-the-modulus': lambda octets: 1 + summed(octets[:510]) % 65521,
    'modulo-65536': lambda octets: (1 + summed(octets[:510])) % 65536,
    'modulo-65520': lambda octets: (1 + summed(octets[:510])) % 65520,
    'modulo-65519': lambda octets: (1 + summed(octets[:510])) % 65519,
    'of-509': lambda octets: (1 + summed(octets[:509])) % 65521,
    'of-the-payload': lambda octets: (1 + summed(octets[6:510])) % 65521,
    'without-the-number': lambda octets: (1 + summed(bytes(4) + octets[4:510])) % 65521,
    'without-places': lambda octets: (1 + sum(octets[:510])) % 65521,
}


def check_mutants():
    for name, check in CHECKS.items():
        yield f'check.{name}', both(check=check)
        yield f'check.{name}.read', reader(check=check)


# The recorder

def by_word(*words):
    return lambda call, answer: answer.startswith('ok') and call.word not in words


def not_late(call, answer):
    return answer.startswith('ok') and 'late' not in answer


class Packing:
    """Payloads packed by another rule."""

    @staticmethod
    def empty_behind_full(records):
        found = packed(records)
        return found + [b''] if found and len(found[-1]) == ROOM else found

    @staticmethod
    def a_block_each(records):
        return list(records)

    @staticmethod
    def cut_through(records):
        octets = b''.join(records)
        return [octets[at:at + ROOM] for at in range(0, len(octets), ROOM)]

    @staticmethod
    def first_that_has_room(records):
        found = []
        for record in records:
            room = next((place for place, payload in enumerate(found) if len(payload) + len(record) <= ROOM), None)
            if room is None:
                found.append(record)
            else:
                found[room] += record
        return found

    @staticmethod
    def last_only_where_full(records):
        found = packed(records)
        return found[:-1]


def packing(pack):
    def other(script):
        return b''.join(block_of(place, payload) for place, payload in enumerate(pack(recorded(script))))
    return other, play


def recorder_mutants():
    yield 'records.refused-too', recorder(records=lambda call, answer: answer != 'refused 17')
    yield 'records.no-late-data', recorder(records=not_late)
    yield 'records.no-elapse-0', recorder(records=lambda call, answer: answer.startswith('ok') and (call.word != 'elapse' or call.numbers[0] > 0))
    for word in KINDS:
        yield f'records.no-{word}', recorder(records=by_word(word))
    yield 'records.only-with-actions', recorder(records=lambda call, answer: call.word == 'set' and answer == 'ok' or answer.startswith('ok '))
    yield 'request.as-given', recorder(request=lambda octets: octets)
    for kept in (0, 127, 128, 130, 255):
        yield f'kept.{kept}', recorder(kept=kept)
    for room in (500, 503):
        yield f'room.{room}', recorder(room=room)
    yield 'settings.36', recorder(settings=36)
    yield 'first-block-1', recorder(first=1)
    yield 'filled-with-ff', recorder(filling=b'\xff')
    yield 'little-endian', recorder(order='little')
    for place in range(len(KINDS) - 1):
        kinds = list(KINDS)
        kinds[place:place + 2] = kinds[place + 1], kinds[place]
        yield f'kinds.{kinds[place]}-before-{kinds[place + 1]}', both(kinds=tuple(kinds))
    yield 'kinds.from-1', both(kinds=('none', *KINDS))
    for pack in ('empty_behind_full', 'a_block_each', 'cut_through', 'first_that_has_room', 'last_only_where_full'):
        yield f'packed.{pack.replace("_", "-")}', packing(getattr(Packing, pack))


# The reader

class NoEmptyBlock(Reader):
    def cut_short(self, block):
        return super().cut_short(block) or self.length(block) == 0


class NoRoomLeft(Reader):
    """G89 read otherwise: a block that had room for the first record of the next is refused."""
    room = None

    def cut_short(self, block):
        records = self.records(block)
        first = HEAD + records[0].size if records else 0
        loose = self.room is not None and 0 < first <= self.room
        self.room = ROOM - self.length(block)
        return super().cut_short(block) or loose


class WrittenAlone(Reader):
    """G92 read otherwise: a request that is not as it would be written is refused."""
    def data_unused(self, block):
        return super().data_unused(block) or any(sends_default(record.data) for record in self.records(block) if self.word(record) == 'req')


class FreshLink(Reader):
    """Each block has a link of its own, with the settings of the first."""
    def read(self, block):
        settings = self.box.link and list(self.box.link.settings.values())
        number = super().read(block)
        if self.box.link:
            self.box.link = linkmodel.Link(linkmodel.RULES, settings or list(self.box.link.settings.values()))
        return number


class CutZeros(Reader):
    """Zeros behind the payload are looked at up to one place before the check."""
    def not_zero(self, block):
        return any(block[HEAD + self.length(block):BLOCK - 3])


class ZerosFromNext(Reader):
    def not_zero(self, block):
        return any(block[HEAD + self.length(block) + 1:BLOCK - 2])


class LowOctets(Reader):
    """The top octet of the number is not looked at."""
    def out_of_turn(self, block):
        return int.from_bytes(block[1:4], 'big') != self.number


class Rising(Reader):
    """Any higher number is in turn."""
    def out_of_turn(self, block):
        number = int.from_bytes(block[:4], 'big')
        wrong = number < self.number
        self.number = max(self.number, number)
        return wrong


class NotOnlyFirst(Reader):
    """Settings may come again, and are left out."""
    def played(self, box, block):
        answers = []
        for record in self.records(block):
            again = box.link is not None and self.word(record) == 'set'
            if self.word(record) and all(answer.startswith('ok') for answer in answers[-1:]):
                answers.append('ok' if again else box.answer(self.line(record)))
        return answers


class BeforeSettings(Reader):
    """Time may pass before the settings."""
    def played(self, box, block):
        answers = []
        for record in self.records(block):
            early = box.link is None and self.word(record) == 'elapse'
            if self.word(record) and all(answer.startswith('ok') for answer in answers[-1:]):
                answers.append('ok' if early else box.answer(self.line(record)))
        return answers


def ground_mutants():
    for ground in GROUNDS:
        yield f'ground.no-{ground[0].replace("_", "-")}', reader(grounds=tuple(other for other in GROUNDS if other != ground))
    turn, check, rest = GROUNDS[1], GROUNDS[0], GROUNDS[2:]
    for name, grounds in {'19-before-18': (turn, check, *rest), '20-before-19': (check, *rest, turn), '20-before-18': (*rest, check, turn)}.items():
        yield f'order.{name}', reader(grounds=grounds)
    for name, number in {'check_wrong': 20, 'out_of_turn': 20, 'length_over': 18, 'not_zero': 18, 'cut_short': 7, 'refused_in_play': 17}.items():
        yield f'ground.{name.replace("_", "-")}-is-{number}', reader(grounds=tuple((ground, number if ground == name else due) for ground, due in GROUNDS))


def reader_mutants():
    for made in (NoEmptyBlock, NoRoomLeft, WrittenAlone, FreshLink, CutZeros, ZerosFromNext, LowOctets, Rising, NotOnlyFirst, BeforeSettings):
        yield f'reader.{made.__name__}', reader(made)
    for most in (36, 40, 127, 128, 130, 255):
        yield f'reader.data-of-{most}', reader(most=most)
    for word in KINDS:
        if word not in WITH_DATA:
            yield f'reader.data-of-{word}', reader(with_data=(*WITH_DATA, word))
    for size in (35, 37, 38, 39, 41, 44):
        yield f'reader.settings-of-{size}-too', reader(lengths=(*RULES.lengths, size))
    for size in RULES.lengths:
        yield f'reader.settings-of-{size}-alone', reader(lengths=(size,))
    for name, old in {'a-second-less': lambda numbers: 86399, 'the-last': lambda numbers: numbers[-1], 'the-longest': max, 'six-minutes': lambda numbers: 360,
                      'none': lambda numbers: 0}.items():
        yield f'reader.old-LI1-{name}', reader(old=old)
    yield 'reader.shows-the-refused-block', reader(shows_refused=True)
    yield 'reader.numbers-from-0', reader(numbered=0)
    yield 'reader.no-record-is-good', reader(empty=0)
    yield 'reader.a-part-is-left-out', reader(rest=0)
    yield 'reader.a-part-is-18', reader(rest=18)
    yield 'reader.a-part-is-7', reader(rest=7)
    for name, change in {
            'no-head': lambda text: text.removeprefix(b'adsc trace 1\n'), 'blocks-from-1': one_more,
            'no-end': lambda text: text[:text.rindex(b'end ')] if b'end ' in text.split(b'\n')[-2] else text,
            'end-behind-a-refusal': end_too}.items():
        yield f'text.{name}', (log, lambda octets, change=change: change(play(octets)))


def one_more(text):
    head, block, place = text.rpartition(b' block ')
    return head + block + b'%d\n' % (int(place) + 1) if block else text


def end_too(text):
    return text + b'end %d\n' % (text.count(b'\n') - 2) if b'refused' in text else text


FAMILIES = (check_mutants, recorder_mutants, ground_mutants, reader_mutants)
MUTANTS = dict(mutant for family in FAMILIES for mutant in family())
