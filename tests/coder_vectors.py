"""Writes the fixed vectors of the coder: OUTDIR/stdin, one line per PDU, and OUTDIR/stdout, the
answers due (the lines are described in compare_coder.py).

    coder_vectors.py OUTDIR

The examples of page 01 and of the decided open points stand here as literals, and percoder must
agree with them; the rest is walked out of percoder's table.
"""

import collections
import itertools
import os
import sys

from percoder import DEFAULTS, NEEDS_ONE, NOT_CARRIED, RANGES, TABLE, Writer, answer, pack, pieces, width, write
from plaintext import REFUSALS

P13 = '08' + '00' * 7 + '012c' + '00' * 4

LITERALS = [
    # 01, bench examples
    ('air 00', 'ok 00'),                    # P1
    ('ground 74', 'ok 74'),                 # P2
    ('air 4200', 'ok 4200'),                # P3
    ('ground 14', 'ok 14'),                 # P4
    ('air 3880', 'ok 3880'),                # P5
    ('air 2130', 'ok 2130'),                # P6
    ('ground 5840', 'ok 5840'),             # P7
    ('ground 3000', 'ok 3000'),             # P8
    ('ground 4080', 'ok 4080'),             # P9
    ('ground 640400', 'ok 640400'),         # P10
    ('ground 640420', 'ok 6000'),           # P11 (02, L5)
    ('air', 'refused 7'),                   # P12
    ('ground', 'refused 7'),
    ('air ' + P13, 'ok ' + P13),            # P13
    ('ground 7500', 'refused 14'),          # others
    ('ground 15', 'refused 13'),
    # Open points on reading
    ('air 281100', 'refused 12'),           # 1: a count over 16, the long form too
    ('air 288880', 'refused 12'),
    ('air 0840', 'refused 10'),             # 2: presence bits are one field
    ('ground 42', 'refused 7'),
    ('air 3c', 'refused 9'),                # 3: extension bit before what follows
    ('air 48', 'refused 8'),                # 4: index before content
    ('ground 1500', 'refused 13'),          # 7: 13 before 14
    ('air ' + 'ff' * 129, 'refused 16'),    # 8: 16 before all
    ('ground ' + '00' * 129, 'refused 16'),
    ('air ' + 'ff' * 128, 'refused 9'),
    ('ground ' + '00' * 128, 'refused 14'),
    ('air 280233', 'ok 280233'),            # 16: two equal entries
    ('air 28035100', 'ok 28035100'),        #     entries in any order: 5, 1, 0
    ('air 18c0', 'refused 8'),              # 17: event type 12; request type 7 reads
    ('air 3b80', 'ok 3b80'),
    # 5 minutes sent (02, L5): the form without them is written; behind them the rest is read
    ('ground 6000', 'ok 6000'),
    ('ground 66042000', 'ok 620000'),
    ('ground 660420', 'refused 7'),
    ('ground 648420', 'refused 7'),
    ('ground 6404', 'refused 7'),
    ('ground 6607fff8', 'refused 8'),       #     128 minutes, before a modulus of 256
    ('ground 660427f8', 'refused 8'),       #     a modulus of 256
    ('ground 640c20', 'refused 10'),        #     10 before the interval
    ('ground 640421', 'refused 13'),        #     13, 14 last
    ('ground 64042100', 'refused 13'),
    ('ground 64042000', 'refused 14'),
    # Vectors and weather: P13 with each (002), nothing in them
    ('air 0820' + '00' * 6 + '012c' + '00' * 5, 'ok 0820' + '00' * 6 + '012c' + '00' * 5),
    ('air 0810' + '00' * 6 + '012c' + '00' * 5, 'ok 0810' + '00' * 6 + '012c' + '00' * 5),
    ('air 0808' + '00' * 6 + '012c' + '00' * 5, 'ok 0808' + '00' * 6 + '012c' + '00' * 5),
    ('air 0838' + '00' * 6 + '012c' + '00' * 6, 'ok 0838' + '00' * 6 + '012c' + '00' * 6),
    ('air 0804', 'refused 10'),             #     the other three elements
    ('air 0802', 'refused 10'),
    ('air 083c', 'refused 10'),
    # An event contract with no element, and 7 before 15
    ('ground 4000', 'refused 15'),
    ('ground 4000ff', 'refused 15'),
    ('ground 40', 'refused 7'),
    # Its elements, each alone, worked out by hand: the lowest, the highest and one above (002)
    ('ground 44000000', 'ok 44000000'),     # lateral deviation 0, 2000, 2001 in 11 bits
    ('ground 4400fa00', 'ok 4400fa00'),
    ('ground 4400fa20', 'refused 8'),
    ('ground 42000000', 'ok 42000000'),     # vertical rate -3000, 3000, 3001: 0, 6000, 6001 in 13 bits
    ('ground 4200bb80', 'ok 4200bb80'),
    ('ground 4200bb88', 'refused 8'),
    ('ground 410000000000', 'ok 410000000000'),     # ceiling and floor -75; both 10000, 10075 in 14 bits; one of them 10001
    ('ground 41009d6e75b0', 'ok 41009d6e75b0'),
    ('ground 41009d7275b0', 'refused 8'),
    ('ground 41009d6e75c0', 'refused 8'),
    ('ground 410000027590', 'ok 410000027590'),     # 56: a ceiling below the floor
    ('ground 40400000', 'ok 40400000'),     # Mach 1, 255, 256 in 8 bits behind a 0
    ('ground 40407f00', 'ok 40407f00'),
    ('ground 40407f80', 'refused 8'),
    ('ground 40408000', 'ok 40408000'),     # IAS 1, 700, 701 in 10 bits behind a 1
    ('ground 4040d760', 'ok 4040d760'),
    ('ground 4040d780', 'refused 8'),
    ('ground 40200000', 'ok 40200000'),     # ground speed 0, 300, 301 in 9 bits
    ('ground 40209600', 'ok 40209600'),
    ('ground 40209680', 'refused 8'),
    ('ground 40100000', 'ok 40100000'),     # heading 1, 3600, 3601 in 12 bits
    ('ground 4010e0f0', 'ok 4010e0f0'),
    ('ground 4010e100', 'refused 8'),
    ('ground 400800', 'ok 400800'),         # 56: time 1, 80, 81, 128 in 7 bits behind a 0
    ('ground 40084f', 'ok 40084f'),
    ('ground 400850', 'refused 8'),
    ('ground 40087f', 'refused 8'),
    ('ground 400880', 'ok 400880'),         # points 1, 80, 81, 128 in 7 bits behind a 1
    ('ground 4008cf', 'ok 4008cf'),
    ('ground 4008d0', 'ok 4008d0'),
    ('ground 4008ff', 'ok 4008ff'),
    ('ground 40020000', 'ok 40020000'),     # track angle, as heading
    ('ground 4002e0f0', 'ok 4002e0f0'),
    ('ground 4002e100', 'refused 8'),
    ('ground 40010000', 'ok 40010000'),     # level change 1, 500, 501 in 9 bits
    ('ground 4001f980', 'ok 4001f980'),
    ('ground 4001fa00', 'refused 8'),
    ('ground 4400', 'refused 7'),           # 7 before 8
    ('ground 4400ff', 'refused 7'),
    # The longest readable line; the PDU is then over-long
    ('air ' + '00' * 2046, 'refused 16'),
    ('ground ' + '00' * 2044, 'refused 16'),
]

UNREADABLE = [
    # other words, nothing, no space, not the word alone
    b'', b' ', b'00', b'a', b'airs 00', b'ai 00', b'groun 74', b'data 00', b'req 3000', b'end-cnf', b'air00',
    # upper case, odd digits, no digits
    b'AIR 00', b'Air 00', b'GROUND 74', b'ground 3B80', b'air 3B80', b'air 3bFF', b'air 0', b'ground 140',
    b'air 0x00', b'air -0', b'air +0', b'air 0g', b'air gg', b'air 00,',
    # spaces, tabs, CR, NUL
    b'air ', b'ground ', b'air 4200 ', b'air  00', b'ground  74', b' air 00', b'air 42 00', b'air 00 ground 74',
    b'\t', b'air\t00', b'air 00\t', b'\r', b'air 00\r', b'air\r', b'ground\r', b'\0', b'air 00\0', b'air\0',
    # octets above 127; digits that are not ASCII
    b'\xff', b'air \x80\x80', b'air\xa000', b'\xe1ir 00', b'ground 74\xff',
    b'air \xd9\xa0\xd9\xa0', b'ground \xef\xbc\x91\xef\xbc\x94',
    # over 4,096 octets, and words of that length
    b'air ' + b'00' * 2047, b'ground ' + b'00' * 2045, b'air ' + b'0' * 4093, b'x' * 4096, b'x' * 4097, b'0' * 9000,
]


def middle(name):
    """A number whose raw bits are mixed, so that a misplaced field shows."""
    low, high = RANGES[name]
    return low + (high - low) * 5 // 7


def longest(form, values):
    """The first of those that take the most bits."""
    def bits(value):
        writer = Writer()
        writer.write(form, value)
        return sum(piece.width for piece in writer.pieces)

    return max(values, key=bits)


def patterns(form, optional):
    """Parts that are there together: all, each alone in each of its shapes, none; of up to four every set of them, of more all with one in another shape or
    without one, and each two neighbours."""
    full = {name: longest(content, values) for name, content, values in optional}
    yield full
    yield from ({name: value} for name, _, values in optional for value in values)
    if len(optional) <= 4:
        for count in range(2, len(optional)):
            yield from ({name: full[name] for name in names} for names in itertools.combinations(full, count))
    else:
        yield from ({**full, name: value} for name, _, values in optional for value in values if value != full[name])
        yield from ({name: full[name] for name in full if name != other} for other in full)
        yield from ({name: full[name] for name in pair} for pair in zip(list(full), list(full)[1:]))
    if form not in NEEDS_ONE:
        yield {}


def shapes(form):
    """Values with middle numbers: every alternative, parts there or not, lists of 1, 0, 15 and 16 entries. The fullest comes first."""
    form = form.rstrip('*')
    if form == 'null':
        return [None]
    if form in RANGES:
        return [middle(form)]
    kind, *parts = TABLE[form]
    if kind == 'choice':
        return [(name, value) for name, content in parts[1] for value in shapes(content)]
    if kind == 'list':
        return [shapes(parts[0]) * count for count in (1, 0, 15, 16)]
    if kind == 'eight':
        return [tuple(middle(parts[0]) + place for place in range(8))]
    optional, required = parts
    optional = [(name, content, shapes(content)) for name, content in optional if content != NOT_CARRIED]
    base = [dict(zip([name for name, _ in required], values))
            for values in itertools.product(*(shapes(content) for _, content in required))]
    values = [{**need, **may} for may in patterns(form, optional) for need in base]
    return list({repr(value): value for value in values}.values())     # each once, or those of the whole would be many times as many


def numbers(seen, family, value):
    """Every field of a message once: lowest, highest, about zero, and one above (8) where the bits hold it, the input ending with it too."""
    sent, nth, end = pieces(family, value), collections.Counter(), 0
    for place, piece in enumerate(sent):
        end += piece.width
        if piece.kind not in ('number', 'index'):
            continue
        nth[piece.name] += 1
        key = (family, value[0], piece.name, nth[piece.name])
        if key in seen:
            continue
        seen.add(key)
        low, high = RANGES[piece.name]
        if piece.kind == 'number':                              # another index is another shape
            yield replaced(sent, place, 0), 'ok'
            yield replaced(sent, place, high - low), 'ok'
            if low < 0:
                yield from ((replaced(sent, place, number - low), 'ok') for number in (-1, 0, 1))
        if high - low + 1 < 1 << piece.width:
            yield replaced(sent, place, high - low + 1), 'refused 8'
            yield replaced(sent, place, high - low + 1)[:(end + 7) // 8], 'refused 8'


def ends(family, value):
    """All numbers at their lowest, and all at their highest."""
    sent = pieces(family, value)
    for top in (False, True):
        yield pack([piece._replace(sent=(RANGES[piece.name][1] - RANGES[piece.name][0]) * top) if piece.kind == 'number' else piece for piece in sent])


def cuts(seen, family, value):
    """Every field of two bits or more of a message once with the input ending inside it."""
    sent = pieces(family, value)
    octets, end = pack(sent), 0
    for piece in sent:
        start, end = end, end + piece.width
        key = (family, value[0], piece.kind, piece.name)
        if key not in seen and start < (end - 1) // 8 * 8:
            seen.add(key)
            yield octets[:(end - 1) // 8], 'refused 7'


def replaced(sent, place, raw):
    return pack(sent[:place] + [sent[place]._replace(sent=raw)] + sent[place + 1:])


def edges(family, value):
    """Bits no value sends: extension bits, elements not carried, long lists, filling; cuts; more octets."""
    sent = pieces(family, value)
    octets = pack(sent)
    bits = sum(piece.width for piece in sent)
    end = 0
    for place, piece in enumerate(sent):
        end += piece.width
        if piece.kind == 'extension':
            yield replaced(sent, place, 1)
            yield replaced(sent, place, 1)[:(end + 7) // 8]     # the input ends with its octet
        if piece.kind == 'presence':
            for bit in range(piece.width):
                if TABLE[piece.name][1][piece.width - 1 - bit][1] == NOT_CARRIED:
                    yield replaced(sent, place, piece.sent | 1 << bit)
        if piece.kind == 'count':
            yield from (replaced(sent, place, raw) for raw in (17, 127, 128, 255))
            if piece.sent == 16:                                # seventeen whole entries
                entry = sent[place + 1:place + 1 + len(sent[place + 1:]) // 16]
                yield replaced(sent + entry, place, 17)
    for bit in range(-bits % 8):
        yield octets[:-1] + bytes([octets[-1] | 1 << bit])
    yield from (octets[:size] for size in range(len(octets)))
    yield from (octets + more for more in (b'\0', b'\x80', b'\xff\xff'))


def defaults():
    """The default interval sent, with every other part of the contract there or not: it is written without it. Cut, badly filled and too long it is
    refused; an interval that is another by one bit is written as it is."""
    for (form, name), default in DEFAULTS.items():
        for value in shapes(form):
            value = (form, {**value, name: default})
            octets = write('ground', value, with_default=True)
            yield octets, 'ok ' + write('ground', value).hex()
            yield octets[:-1], 'refused 7'
            yield octets[:-1] + bytes([octets[-1] | 1]), 'refused 13'
            yield octets + b'\0', 'refused 14'
            sent = pieces('ground', value, with_default=True)
            place, = [place for place, piece in enumerate(sent) if piece.name == 'interval-minutes']
            for bit in range(sent[place].width):
                octets = replaced(sent, place, sent[place].sent ^ 1 << bit)
                yield octets, 'ok ' + octets.hex()


def walked():
    """(family, octets, how the answer begins)"""
    seen, cut, whole = set(), set(), set()
    for family in ('air', 'ground'):
        for value in shapes(family):
            yield family, write(family, value), 'ok'
            for octets, wanted in itertools.chain(numbers(seen, family, value), cuts(cut, family, value)):
                yield family, octets, wanted
            if (family, value[0]) not in whole or any(piece.kind == 'count' for piece in pieces(family, value)):
                whole.add((family, value[0]))
                for octets in ends(family, value):
                    yield family, octets, 'ok'
                for octets in edges(family, value):
                    yield family, octets, 'refused'
    for octets, wanted in defaults():
        yield 'ground', octets, wanted
    inside = {name for _, _, _, name in cut}
    missed = [name for form in ('ground-vector', 'air-vector', 'weather', 'event-contract') for name in parts_of(form) if name not in inside]
    assert not missed, missed


def parts_of(form):
    """A group, a choice or a number and what is in it: the names of pieces of two bits or more."""
    if form in RANGES:
        yield from [form] * (width(form) > 1)
    elif form != 'null':
        kind, *parts = TABLE[form]
        if kind == 'choice':
            index, contents = parts
            yield from parts_of(index)
        else:
            yield from [form] * (len(parts[0]) > 1)
            contents = parts[0] + parts[1]
        for _, content in contents:
            yield from parts_of(content)


def main():
    if len(sys.argv) != 2:
        sys.exit('usage: coder_vectors.py OUTDIR')
    lines = {}
    for line, wanted in LITERALS:
        assert answer(line.encode())[0] == wanted, line
        lines[line.encode()] = wanted
    for line in UNREADABLE:
        assert answer(line)[0] == 'refused 17', line
        lines[line] = 'refused 17'
    for family, octets, wanted in walked():
        line = (f'{family} {octets.hex()}' if octets else family).encode()
        lines[line] = answer(line)[0]
        assert lines[line].startswith(wanted), (line, lines[line], wanted)
    tally = collections.Counter(lines.values())
    assert all(tally[f'refused {number}'] >= 2 for number in REFUSALS) and not tally['refused 11'], tally
    os.makedirs(sys.argv[1], exist_ok=True)
    with open(os.path.join(sys.argv[1], 'stdin'), 'wb') as file:
        file.write(b''.join(line + b'\n' for line in lines))
    with open(os.path.join(sys.argv[1], 'stdout'), 'w', newline='\n') as file:
        file.write(''.join(text + '\n' for text in lines.values()))
    print(f'{len(lines)} vectors')


if __name__ == '__main__':
    main()
