"""Random scripts for the flight log, and logs damaged in one way each with the check made right again.

    Scripts(rng).script() -> script octets
    damaged(rng, name, log octets) -> log octets, or None where the log has not what the damage needs
    both(rng, log) -> log octets with two grounds of refusal in one block
    DAMAGES: name -> the damage          GOOD: those after which a log still reads          WRONG: those after which it does not
"""

import linkscripts
from logmodel import BLOCK, HEAD, KINDS, LAST, ROOM, WITH_DATA, Reader, block_of, check

NUMBER = dict(zip(KINDS, range(len(KINDS))))
LENGTHS = (0, 1, 127, 128, 129, 130, 131, 255, 256, 400, 2045)


class Scripts:
    """Scripts of linkscripts.py with data of all lengths in between, and time that does not pass."""

    def __init__(self, rng):
        self.rng, self.maker = rng, linkscripts.Maker(rng, linkscripts.Coverage())

    def between(self):
        word = self.rng.choice(('data', 'data', 'start-cnf', 'air-abort'))
        octets = self.rng.randbytes(self.rng.choice(LENGTHS))
        return self.rng.choice((f'{word} {octets.hex()}'.rstrip().encode(), b'elapse 0', b'req 640420', b'end-cnf'))

    def script(self):
        found = []
        for line in self.maker.script(self.rng.choice((3, 30, 60, 60, 120, 200))).split(b'\n'):
            found += [line, self.between()] if self.rng.random() < 0.1 else [line]
        if self.rng.random() < 0.3:     # a link that closes: what comes is late, and then its clock runs out, of an old log too
            found += [b'elapse 86400', b'req 3000', b'start-cnf 2130', *(b'data ' + self.rng.randbytes(size).hex().encode() for size in self.rng.sample(LENGTHS[1:], 5))]
            found += [b'elapse 86399', b'elapse 1'] if self.rng.random() < 0.5 else []
        return b'\n'.join(found) + self.rng.choice((b'', b'\n'))


# Logs as lists of blocks, blocks as lists of records

def spelt(kind, seconds=0, data=b''):
    return bytes([kind]) + seconds.to_bytes(4, 'big') + bytes([len(data)]) + data


def records_of(block):
    return [spelt(record.kind, record.seconds, record.data) for record in Reader().records(block)]


def blocks_of(log):
    return [records_of(log[at:at + BLOCK]) for at in range(0, len(log), BLOCK)]


def sealed(blocks):
    """The log of these records: a block that is too full gives some to the next."""
    found, rest = [], [list(block) for block in blocks]
    while rest:
        block, more = rest.pop(0), []
        while sum(map(len, block)) > ROOM:
            more.insert(0, block.pop())
        rest[:0] = [more] if more else []
        found.append(block_of(len(found), b''.join(block)))
    return b''.join(found)


def patched(log, number, places):
    """Octets of a block changed, and its check made right."""
    block = bytearray(log[number * BLOCK:(number + 1) * BLOCK])
    for place, octets in places.items():
        block[place:place + len(octets)] = octets
    block[BLOCK - 2:] = check(block).to_bytes(2, 'big')
    return log[:number * BLOCK] + bytes(block) + log[(number + 1) * BLOCK:]


def any_block(rng, log):
    return rng.randrange(len(log) // BLOCK)


def length_of(log, number):
    return int.from_bytes(log[number * BLOCK + 4:number * BLOCK + HEAD], 'big')


# Damage of blocks

def number(rng, log):
    at = any_block(rng, log)
    wrong = [n for n in (at + 1, at - 1, at + 256, at + (2 << 24), at + (1 << 24), at << 8, at << 24, LAST, 2 ** 32 - 1) if n != at and n >= 0]
    return patched(log, at, {0: (rng.choice(wrong) % 2 ** 32).to_bytes(4, 'big')})


def block_left_out(rng, log):
    at = any_block(rng, log)
    return log[:at * BLOCK] + log[(at + 1) * BLOCK:] if at + 1 < len(log) // BLOCK else None


def block_twice(rng, log):
    at = any_block(rng, log)
    return log[:(at + 1) * BLOCK] + log[at * BLOCK:]


def blocks_exchanged(rng, log):
    at = any_block(rng, log)
    if at == 0:
        return None
    before, one, two = log[:(at - 1) * BLOCK], log[(at - 1) * BLOCK:at * BLOCK], log[at * BLOCK:(at + 1) * BLOCK]
    return before + two + one + log[(at + 1) * BLOCK:]


def length_over(rng, log):
    return patched(log, any_block(rng, log), {4: rng.choice((505, 506, 510, 512, 760, 65535)).to_bytes(2, 'big')})


def full_and_over(rng, log):
    """Records to the last octet, and a length beyond."""
    first = sealed([blocks_of(log)[0][:1] + [spelt(NUMBER['elapse'])] * 75 + [spelt(NUMBER['req'], 0, bytes.fromhex('3000'))]])
    return patched(first, 0, {4: rng.choice((505, 506, 510, 1000, 65535)).to_bytes(2, 'big')})


def length_less(rng, log):
    at = any_block(rng, log)
    size = length_of(log, at)
    return patched(log, at, {4: rng.randrange(size).to_bytes(2, 'big')}) if size else None


def cut_within(rng, log):
    """The last record of a block with less than it says, and zeros behind: in its head or in its data."""
    blocks = blocks_of(log)
    at = any_block(rng, log)
    if not blocks[at]:
        return None
    last = blocks[at][-1]
    kept = rng.randrange(1, len(last))
    payload = b''.join(blocks[at][:-1]) + last[:kept]
    return patched(log, at, {4: len(payload).to_bytes(2, 'big'), HEAD: payload.ljust(ROOM, b'\0')})


def data_cut_to_nothing(rng, log):
    """A record that would be good with the data it has, and says more."""
    blocks = blocks_of(log)
    payload = b''.join(blocks[0][:1]) + spelt(NUMBER['req'], 0, bytes.fromhex('3000'))[:5] + bytes([rng.choice((3, 100, 255))]) + bytes.fromhex('3000')
    return patched(log[:BLOCK], 0, {4: len(payload).to_bytes(2, 'big'), HEAD: payload.ljust(ROOM, b'\0')})


def length_more(rng, log):
    at = any_block(rng, log)
    size = length_of(log, at) + rng.choice((1, 2, 5, 6, 12))
    return patched(log, at, {4: size.to_bytes(2, 'big')}) if size <= ROOM else None


def not_zero(rng, log):
    at = any_block(rng, log)
    first = HEAD + length_of(log, at)
    place = rng.choice((first, BLOCK - 3, rng.randint(first, BLOCK - 3))) if first <= BLOCK - 3 else None
    return place and patched(log, at, {place: bytes([rng.randint(1, 255)])})


# Damage of records

def changing(change):
    """A damage of one of the records that have what it needs."""
    def damage(rng, log):
        blocks = blocks_of(log)
        places = [(at, place) for at, block in enumerate(blocks) for place in range(len(block))]
        for at, place in rng.sample(places, len(places)):
            new = change(rng, blocks[at][place])
            if new is not None:
                blocks[at][place:place + 1] = new
                return sealed(blocks)
        return None
    return damage


def word_of(record):
    return KINDS[record[0]]


def inserting(make):
    """A record more, behind the settings or anywhere behind."""
    def damage(rng, log):
        blocks = blocks_of(log)
        at = any_block(rng, log)
        place = rng.randint(1 if at == 0 else 0, len(blocks[at])) if blocks[at] else 0
        blocks[at][place:place] = [make(rng)]
        return sealed(blocks)
    return damage


def unused_seconds(rng, record):
    seconds = rng.choice((1, 256, 1 << 24, 60, 86400))
    return [record[:1] + seconds.to_bytes(4, 'big') + record[5:]] if word_of(record) != 'elapse' else None


def unused_data(rng, record):
    data = rng.randbytes(rng.choice((1, 2, 36, 40, 129)))
    return [record[:5] + bytes([len(data)]) + data] if word_of(record) not in WITH_DATA else None


def long_data(rng, record):
    data = record[6:] + rng.randbytes(255)
    size = rng.choice((130, 130, 131, 200, 255))
    return [record[:5] + bytes([size]) + data[:size]] if word_of(record) in ('start-cnf', 'data', 'air-abort') else None


def settings_of(size):
    """So many octets; what is left of the last number would be a setting too."""
    return (86400).to_bytes(4, 'big') * (size // 4) + ((60).to_bytes(size % 4, 'big') if size % 4 else b'')


def wrong_settings(rng, record):
    size = rng.choice((0, 1, 32, 35, 33, 37, 38, 39, 41, 44, 72, 80))
    return [record[:5] + bytes([size]) + settings_of(size)] if word_of(record) == 'set' else None


def bad_setting(rng, record):
    place = 6 + 4 * rng.randrange(10)
    number = rng.choice((0, 86401, 2 ** 32 - 1, 1 << 24)).to_bytes(4, 'big')
    return [record[:place] + number + record[place + 4:]] if word_of(record) == 'set' else None


def long_elapse(rng, record):
    seconds = rng.choice((86401, 86401, 2 ** 32 - 1, 1 << 24))
    return [record[:1] + seconds.to_bytes(4, 'big') + record[5:]] if word_of(record) == 'elapse' else None


def another_kind(rng, record):
    return [bytes([rng.randrange(len(KINDS))]) + record[1:]]


def settings_later(rng, log):
    blocks = blocks_of(log)
    if not blocks or len(blocks[0]) < 2:
        return None
    blocks[0][:2] = blocks[0][1], blocks[0][0]
    return sealed(blocks)


def no_settings(rng, log):
    blocks = blocks_of(log)
    return sealed([blocks[0][1:], *blocks[1:]])


def no_records(rng, log):
    return sealed([[] for _ in blocks_of(log)])


# After these a log reads, unless something else is wrong with it

def packed_loosely(rng, log):
    """G89: blocks with room for the next record."""
    found = []
    for block in blocks_of(log):
        place = rng.randint(0, len(block))
        found += [block[:place], block[place:]]
    return sealed(found)


def empty_block(rng, log):
    blocks = blocks_of(log)
    blocks.insert(rng.randint(0, len(blocks)), [])
    return sealed(blocks)


def default_sent(rng, log):
    """G92: a request as it may be sent, not as it is written, before all others."""
    first, *rest = blocks_of(log)
    return sealed([[first[0], spelt(NUMBER['req'], 0, bytes.fromhex('640420')), spelt(NUMBER['down']), *first[1:]], *rest])


def old_settings(rng, record):
    """36 octets, as before L8: END then lasts a day."""
    return [record[:5] + bytes([36]) + record[6:42]] if word_of(record) == 'set' else None


GOOD = {'old settings': changing(old_settings), 'packed loosely': packed_loosely, 'empty block': empty_block, 'default sent': default_sent}
WRONG = {
    'number': number, 'block left out': block_left_out, 'block twice': block_twice, 'blocks exchanged': blocks_exchanged,
    'length over': length_over, 'full and over': full_and_over, 'length less': length_less, 'length more': length_more,
    'cut within': cut_within, 'data cut': data_cut_to_nothing, 'not zero': not_zero,
    'kind over': inserting(lambda rng: spelt(rng.choice((11, 12, 255)))),
    'kind over with data': inserting(lambda rng: spelt(rng.choice((11, 128)), 0, rng.randbytes(9))),
    'unused seconds': changing(unused_seconds), 'unused data': changing(unused_data), 'long data': changing(long_data),
    'wrong settings': changing(wrong_settings), 'bad setting': changing(bad_setting), 'long elapse': changing(long_elapse),
    'settings later': settings_later, 'no settings': no_settings, 'no records': no_records,
    'settings again': inserting(lambda rng: spelt(0, 0, (60).to_bytes(4, 'big') * rng.choice((9, 10)))),
    'request unreadable': inserting(lambda rng: spelt(NUMBER['req'], 0, rng.choice((b'', b'\x30', b'\x30\x01', bytes(129))))),
    'no request': inserting(lambda rng: spelt(NUMBER['req'], 0, rng.choice((b'\x20', b'\x74')))),
}
# What play finds, or does not.
OTHER = {
    'record left out': changing(lambda rng, record: []), 'record twice': changing(lambda rng, record: [record] * 2),
    'another kind': changing(another_kind), 'a call more': inserting(lambda rng: spelt(rng.randrange(1, len(KINDS)))),
    'time more': inserting(lambda rng: spelt(NUMBER['elapse'], rng.choice((0, 1, 60, 86400)))),
}
DAMAGES = {**GOOD, **WRONG, **OTHER}


def damaged(rng, name, log):
    return DAMAGES[name](rng, log)


# Damage with the check left wrong, and of two kinds

def octet_changed(rng, log, place):
    return log[:place] + bytes([log[place] ^ rng.randint(1, 255)]) + log[place + 1:]


def both(rng, log):
    """Two grounds in one block: of the order 18, 19, 20."""
    at = any_block(rng, log)
    turn = {0: (at + rng.choice((1, 256, 1 << 24))).to_bytes(4, 'big')}
    record = {4: rng.choice((505, 65535, 1, 3)).to_bytes(2, 'big')}
    places = rng.choice((turn, record, {**turn, **record}))
    log = patched(log, at, places)
    return log if len(places) == 2 else octet_changed(rng, log, at * BLOCK + rng.choice((BLOCK - 1, BLOCK - 2)))
