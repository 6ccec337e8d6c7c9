"""A model of the flight log of one link, written from L6 and L8 of page 02 and page 01 alone: the recorder, the reader and the player.

It shares nothing with the box it is compared with but these pages; the calls and their answers are those of linkmodel.py.

    log(script octets) -> log octets, as the program adsclog writes them
    play(log octets) -> text octets, as the program adsplay prints them
    logmodel.py log < script > log
    logmodel.py play < log > text
"""

import collections
import copy
import dataclasses
import functools
import sys

import linkmodel
from sidemodel import lines, written

# "Record every accepted call of one link in blocks of 512 octets. .. Octets 0 to 3 are the block number from 0, 4 and 5 the payload length (0 to 504),
# 6 to 509 the payload and zeros, 510 and 511 a check". "Numbers go most significant octet first."
BLOCK, HEAD, ROOM = 512, 6, 504

# "A record is call kind (1 octet: the place of its script word in document 01, from 0), seconds (4, ..), data length (1), data".
KINDS = tuple(linkmodel.WORDS)
RECORD_HEAD = 6

# The words whose calls have data: "a request's data is its written PDU, and the settings are the first record, 36 octets of data."
# "a settings record in the log holds forty octets; logs with thirty-six are read with LI1 at 86,400" (L8).
WITH_DATA = ('set', 'req', 'start-cnf', 'data', 'air-abort')
SETTINGS, OLD_SETTINGS, OLD_LI1 = 40, 36, 86400

# "Of longer data the first 129 octets are kept, which get the same answer."
KEPT = 129

# Numbers of blocks end before 2^24: the top octet is for another form (G97, G98).
LAST = 2 ** 24 - 1


def check(octets):
    """"a check: 1 plus the sum of each of the first 510 octets times its place counted from 1, modulo 65,521" (G86: all of it)."""
    return (1 + sum(octet * place for place, octet in enumerate(octets[:BLOCK - 2], 1))) % 65521


Record = collections.namedtuple('Record', 'kind seconds size data whole')       # whole: all of it lies in the payload

# "18 check wrong, 19 block number out of turn, 20 record not readable (..), block by block in this order". Each is a function of Reader; those of 20 may
# stand in any order, as they have one number.
GROUNDS = (('check_wrong', 18), ('out_of_turn', 19), ('length_over', 20), ('not_zero', 20), ('cut_short', 20), ('no_kind', 20), ('data_over', 20),
           ('seconds_unused', 20), ('data_unused', 20), ('settings_length', 20), ('refused_in_play', 20))


@dataclasses.dataclass(frozen=True)
class Rules:
    """What a test of a test alters."""
    check: callable = check
    order: str = 'big'              # of the octets of a number
    kinds: tuple = KINDS
    room: int = ROOM
    kept: int = KEPT
    most: int = KEPT                # data that a reader takes
    last: int = LAST
    first: int = 0                  # block
    numbered: int = 1               # the first line of a play
    filling: bytes = b'\0'
    records: callable = lambda call, answer: answer.startswith('ok')        # "every accepted call"
    request: callable = lambda octets: written('ground', octets)            # "its written PDU"
    with_data: tuple = WITH_DATA
    settings: int = SETTINGS        # octets that the recorder writes,
    lengths: tuple = (SETTINGS, OLD_SETTINGS)       # and those that a reader takes
    old: callable = lambda numbers: OLD_LI1         # LI1 where there are nine numbers
    grounds: tuple = GROUNDS
    shows_refused: bool = False     # the records of a refused block (G122: not)
    empty: int = 20                 # for a log that has no record (G87, G120)
    rest: int = 20                  # for octets that are no whole block (G88)


RULES = Rules()


# The recorder

def data_of(call, rules):
    if call.word == 'set':
        return b''.join(number.to_bytes(4, rules.order) for number in call.numbers)[:rules.settings]
    if call.word == 'req':
        return rules.request(call.octets)
    return call.octets[:rules.kept] if call.word in WITH_DATA else b''


def record_of(call, rules):
    seconds, data = call.numbers[0] if call.word == 'elapse' else 0, data_of(call, rules)
    return bytes([rules.kinds.index(call.word)]) + seconds.to_bytes(4, rules.order) + bytes([len(data)]) + data


def block_of(number, payload, rules=RULES):
    octets = number.to_bytes(4, rules.order) + len(payload).to_bytes(2, rules.order) + payload.ljust(ROOM, rules.filling)
    return octets + rules.check(octets).to_bytes(2, rules.order)


def packed(records, rules=RULES):
    """The payloads. "A record that doesn't fit opens the next block"; one that would open a block behind the last is not written, nor any later (G98)."""
    payloads = []
    for record in records:
        if payloads and len(payloads[-1]) + len(record) <= rules.room:
            payloads[-1] += record
        elif len(payloads) <= rules.last:
            payloads.append(record)
        else:
            break
    return payloads


def recorded(script, rules=RULES):
    box = linkmodel.Box()
    for line in lines(script):
        if rules.records(linkmodel.call_of(line), box.answer(line)):
            yield record_of(linkmodel.call_of(line), rules)


def log(script, rules=RULES):
    return b''.join(block_of(rules.first + place, payload, rules) for place, payload in enumerate(packed(recorded(script, rules), rules)))


# The reader and player

@functools.lru_cache(maxsize=10000)
def taken_apart(payload, order):
    """The records of a payload."""
    at, found = 0, []
    while at < len(payload):
        head = payload[at:at + RECORD_HEAD].ljust(RECORD_HEAD, b'\0')
        data = payload[at + RECORD_HEAD:at + RECORD_HEAD + head[5]]
        whole = at + RECORD_HEAD + head[5] <= len(payload)
        found.append(Record(head[0], int.from_bytes(head[1:5], order), head[5], data, whole))
        at += RECORD_HEAD + head[5]
    return tuple(found)


def copied(box):
    """A box whose link is played on alone."""
    other = copy.copy(box)
    if box.link:
        other.link = copy.copy(box.link)
        other.link.left = dict(box.link.left)
    return other


class Reader:
    """Judges one block after another and plays it. Each ground judges alone: their order is a table."""

    def __init__(self, rules=RULES):
        self.rules, self.box, self.number, self.answers = rules, linkmodel.Box(), 0, []

    # Grounds of refusal

    def check_wrong(self, block):
        return int.from_bytes(block[BLOCK - 2:], self.rules.order) != self.rules.check(block)

    def out_of_turn(self, block):
        return int.from_bytes(block[:4], self.rules.order) != self.rules.first + self.number or self.number > self.rules.last

    def length_over(self, block):
        return self.length(block) > self.rules.room

    def not_zero(self, block):
        return any(block[HEAD + self.length(block):BLOCK - 2])

    def cut_short(self, block):
        return not all(record.whole for record in self.records(block))

    def no_kind(self, block):
        return not all(record.kind < len(self.rules.kinds) for record in self.records(block))

    def data_over(self, block):
        return any(record.size > self.rules.most for record in self.records(block))

    def seconds_unused(self, block):
        """"seconds (4, zero unless the call is an elapse)" """
        return any(record.seconds for record in self.records(block) if self.word(record) != 'elapse')

    def data_unused(self, block):
        return any(record.size for record in self.records(block) if self.word(record) not in self.rules.with_data)

    def settings_length(self, block):
        return any(record.size not in self.rules.lengths for record in self.records(block) if self.word(record) == 'set')

    def refused_in_play(self, block):
        """Also "no settings first", and "Settings in any other place are 20": a script line before a good `set`, and a `set` after it, are 17."""
        return not all(answer.startswith('ok') for answer in self.played(copied(self.box), block))

    # Blocks

    def length(self, block):
        return int.from_bytes(block[4:HEAD], self.rules.order)

    def records(self, block):
        return taken_apart(block[HEAD:HEAD + ROOM][:self.length(block)], self.rules.order)

    def word(self, record):
        return self.rules.kinds[record.kind] if record.kind < len(self.rules.kinds) else None

    def line(self, record):
        """The script line of a record's call."""
        word = self.word(record)
        if word == 'set':
            return ' '.join([word, *map(str, self.numbers(record.data[:SETTINGS]))]).encode()
        if word == 'elapse':
            return b'elapse %d' % record.seconds
        return f'{word} {record.data.hex()}'.rstrip().encode() if word in WITH_DATA else word.encode()

    def numbers(self, data):
        """The settings of a record; of another length they are refused besides."""
        numbers = [int.from_bytes(data[place:place + 4], self.rules.order) for place in range(0, len(data), 4)]
        return numbers + [self.rules.old(numbers)] if len(data) <= OLD_SETTINGS else numbers

    def played(self, box, block):
        """The answers to records of a kind that there is; a refused one is the last."""
        answers = []
        for record in self.records(block):
            if self.word(record) and all(answer.startswith('ok') for answer in answers[-1:]):
                answers.append(box.answer(self.line(record)))
        return answers

    def read(self, block):
        """The number of the refusal, 0 where the block is played."""
        number = next((number for ground, number in self.rules.grounds if getattr(self, ground)(block)), 0)
        if number == 0 or self.rules.shows_refused:
            self.answers += self.played(self.box, block)
        self.number += 1
        return number


def blocks_of(log):
    """The whole blocks, and what stands behind them."""
    whole = len(log) // BLOCK * BLOCK
    return [log[at:at + BLOCK] for at in range(0, whole, BLOCK)], log[whole:]


def verdict(reader, log):
    """The last line."""
    rules, (blocks, rest) = reader.rules, blocks_of(log)
    for place, block in enumerate(blocks):
        number = reader.read(block)
        if number:
            return f'refused {number} block {place}'
    if rest and rules.rest:
        return f'refused {rules.rest} block {len(blocks)}'
    if not reader.answers and rules.empty:
        return f'refused {rules.empty} block {len(blocks)}'
    return f'end {len(reader.answers)}'


def play(log, rules=RULES, made=Reader):
    reader = made(rules)
    last = verdict(reader, log)
    answers = [f'{place} {answer}' for place, answer in enumerate(reader.answers, rules.numbered)]
    return '\n'.join(['adsc trace 1', *answers, last, '']).encode()


DOES = {'log': log, 'play': play}

if __name__ == '__main__':
    if sys.argv[1:] not in ([name] for name in DOES):
        sys.exit(__doc__)
    sys.stdout.buffer.write(DOES[sys.argv[1]](sys.stdin.buffer.read()))
