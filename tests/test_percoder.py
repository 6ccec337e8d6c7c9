"""Checks of percoder.py against page 01, the vectors, weather and event contracts of 002 and L5 of 02: examples, encodings worked out by hand, refusals."""

import random
import sys

from compare_coder import random_value
from percoder import PRESENCE, Refused, answer, read, write

checks = failures = 0


def check(what, got, wanted):
    global checks, failures
    checks += 1
    if got != wanted:
        failures += 1
        print(f'{what}: got {got!r}, wanted {wanted!r}')


def refusal(call, *args):
    try:
        return call(*args)
    except Refused as refused:
        return refused.number


def same(what, family, value, octets):
    check(what + ' written', refusal(write, family, value), octets)
    check(what + ' read', refusal(read, family, octets), value)


def bits(text):
    """Octets of bits written out field by field, filled with zeros."""
    text = text.replace(' ', '')
    text += '0' * (-len(text) % 8)
    return bytes(int(text[place:place + 8], 2) for place in range(0, len(text), 8))


def report(level=0, **more):
    """The report of P13: all zero, 1996-01-01 00:00, no seconds."""
    zero = {'sign': 0, 'degrees': 0, 'minutes': 0, 'tenths': 0}
    return {'position': {'latitude': zero, 'longitude': zero, 'level': level},
            'time': {'date': {'year': 1996, 'month': 1, 'day': 1}, 'clock': {'hours': 0, 'minutes': 0}},
            'merit': {'accuracy': 0, 'first': 0, 'second': 0}, **more}


FIVE = ('minutes', 5)

# P1 to P13 (01, bench examples).
same('P1', 'air', ('cancel-emergency', None), bytes.fromhex('00'))
same('P2', 'ground', ('provider-abort', 4), bytes.fromhex('74'))
same('P3', 'air', ('provider-abort', 4), bytes.fromhex('42 00'))
same('P4', 'ground', ('cancel-contract', 1), bytes.fromhex('14'))
same('P5', 'air', ('positive-ack', 1), bytes.fromhex('38 80'))
same('P6', 'air', ('negative-ack', {'request': 2, 'reason': ('reason-3', None)}), bytes.fromhex('21 30'))
same('P7', 'ground', ('modify-emergency', FIVE), bytes.fromhex('58 40'))
same('P8', 'ground', ('demand-contract', {}), bytes.fromhex('30 00'))
same('P9', 'ground', ('event-contract', {'waypoint-change': None}), bytes.fromhex('40 80'))
same('P10', 'ground', ('periodic-contract', {'interval': ('minutes', 1)}), bytes.fromhex('64 04 00'))
check('P11', refusal(read, 'ground', bytes.fromhex('64 04 20')), ('periodic-contract', {'interval': FIVE}))       # 02, L5
check('P12', refusal(read, 'air', b''), 7)
check('P12', refusal(read, 'ground', b''), 7)
same('P13', 'air', ('demand-report', {'report': report()}), bytes.fromhex('08' + '00' * 7 + '01 2c' + '00' * 4))
check('others', refusal(read, 'ground', bytes.fromhex('75 00')), 14)
check('others', refusal(read, 'ground', bytes.fromhex('15')), 13)

# Worked out by hand, one field after the other. Latitude -45 07' 59.9", longitude +180 59' 00.1",
# level 10000, 2095-12-31 23:59:58, merit 5 with the second boolean, address abcdef.
FULL = {
    'position': {'latitude': {'sign': 1, 'degrees': 45, 'minutes': 7, 'tenths': 599},
                 'longitude': {'sign': 0, 'degrees': 180, 'minutes': 59, 'tenths': 1}, 'level': 10000},
    'time': {'date': {'year': 2095, 'month': 12, 'day': 31}, 'clock': {'hours': 23, 'minutes': 59, 'seconds': 58}},
    'merit': {'accuracy': 5, 'first': 0, 'second': 1}, 'address': 0xabcdef}
FULL_BITS = ('1 0101101 000111 1001010111  0 10110100 111011 0000000001  10011101011011'
             '  1100011 1011 11110  1 10111 111011 111010  101 0 1  101010111100110111101111')
# Lowest of everything: level -75 goes as 0.
LOW_BITS = '0' * (24 + 25 + 14 + 16 + 1 + 11 + 5)

# Vectors and weather (002): presence bits, then what is there. Signed numbers go plus 50, 3000, 400.
SWIFT = {'track': 2715, 'speed': 450, 'rate': -120}
SWIFT_BITS = '111 101010011010 000111110100 0101101000000'
SLOW = {'track': 1, 'speed': -50, 'rate': -3000}
SLOW_BITS = '111 000000000000 000000000000 0000000000000'
FAST = {'track': 3600, 'speed': 2200, 'rate': 3000}
FAST_BITS = '111 111000001111 100011001010 1011101110000'
CLIMB = {'heading': 900, 'speed': ('both', {'mach': 825, 'ias': 280}), 'rate': 150}
CLIMB_BITS = '111 001110000011 10 000101000101 00100011000 0110001001110'
COLD = {'speed': 45, 'direction': 250, 'temperature': -226, 'turbulence': 7}
COLD_BITS = '1111 000101101 011111001 0010101110 0111'
ALL = {'ground-vector': SWIFT, 'air-vector': CLIMB, 'weather': COLD}
VECTORS = [
    (ALL, '0011100', SWIFT_BITS + CLIMB_BITS + COLD_BITS),
    ({'ground-vector': SLOW}, '0010000', SLOW_BITS),
    ({'ground-vector': FAST}, '0010000', FAST_BITS),
    ({'ground-vector': {}}, '0010000', '000'),
    ({'ground-vector': {'track': 3600}}, '0010000', '100 111000001111'),
    ({'ground-vector': {'speed': -1}}, '0010000', '010 000000110001'),
    ({'ground-vector': {'speed': 0}}, '0010000', '010 000000110010'),
    ({'ground-vector': {'rate': 0}}, '0010000', '001 0101110111000'),
    ({'ground-vector': {'rate': -1}}, '0010000', '001 0101110110111'),
    ({'air-vector': {}}, '0001000', '000'),
    ({'air-vector': {'heading': 1}}, '0001000', '100 000000000000'),
    ({'air-vector': {'heading': 3600}}, '0001000', '100 111000001111'),
    ({'air-vector': {'speed': ('mach', 500)}}, '0001000', '010 00 000000000000'),
    ({'air-vector': {'speed': ('mach', 4000)}}, '0001000', '010 00 110110101100'),
    ({'air-vector': {'speed': ('ias', 0)}}, '0001000', '010 01 00000000000'),
    ({'air-vector': {'speed': ('ias', 1100)}}, '0001000', '010 01 10001001100'),
    ({'air-vector': {'speed': ('both', {'mach': 4000, 'ias': 0})}}, '0001000', '010 10 110110101100 00000000000'),
    ({'air-vector': {'heading': 1, 'rate': 3000}}, '0001000', '101 000000000000 1011101110000'),
    ({'weather': {}}, '0000100', '0000'),
    ({'weather': {'speed': 300}}, '0000100', '1000 100101100'),
    ({'weather': {'direction': 1}}, '0000100', '0100 000000000'),
    ({'weather': {'direction': 360}}, '0000100', '0100 101100111'),
    ({'weather': {'temperature': -400}}, '0000100', '0010 0000000000'),
    ({'weather': {'temperature': 0}}, '0000100', '0010 0110010000'),
    ({'weather': {'temperature': 400}}, '0000100', '0010 1100100000'),
    ({'weather': {'turbulence': 15}}, '0000100', '0001 1111'),
    ({'ground-vector': {'rate': 1}, 'weather': {'speed': 0}}, '0010100', '001 0101110111001 1000 000000000'),
    ({'air-vector': {}, 'weather': {}}, '0001100', '000 0000'),
]

# Elements of an event contract (002): eleven presence bits, then what is there. Numbers go less their lowest: 25 as 25; -120 as 2880; levels plus 75, 3300 as
# 3375; Mach 4 as 3; IAS 20 as 19; 50 as 50; 100 as 99; 4 quarters of an hour as 3; 3 points as 2; 50 as 49; 30 as 29.
LEAVING = {'lateral-deviation': 25, 'vertical-rate': -120, 'level-range': {'ceiling': 3300, 'floor': 2900}, 'waypoint-change': None,
           'air-speed': ('mach', 4), 'ground-speed': 50, 'heading': 100, 'extended-profile': ('time', 4), 'merit-change': None, 'track': 50, 'level': 30}
LEAVING_BITS = '00000011001 0101101000000 00110100101111 00101110011111 0 00000011 000110010 000001100011 0 0000011 000000110001 000011101'
LOWEST = {'lateral-deviation': 0, 'vertical-rate': -3000, 'level-range': {'ceiling': -75, 'floor': -75}, 'waypoint-change': None,
          'air-speed': ('mach', 1), 'ground-speed': 0, 'heading': 1, 'extended-profile': ('time', 1), 'merit-change': None, 'track': 1, 'level': 1}
HIGHEST = {'lateral-deviation': 2000, 'vertical-rate': 3000, 'level-range': {'ceiling': 10000, 'floor': 10000}, 'waypoint-change': None,
           'air-speed': ('ias', 700), 'ground-speed': 300, 'heading': 3600, 'extended-profile': ('points', 128), 'merit-change': None, 'track': 3600, 'level': 500}
HIGHEST_BITS = '11111010000 1011101110000 10011101011011 10011101011011 1 1010111011 100101100 111000001111 1 1111111 111000001111 111110011'
EVENTS = [
    (LEAVING, '11111111111', LEAVING_BITS),
    (LOWEST, '11111111111', '0' * (11 + 13 + 28 + 9 + 9 + 12 + 8 + 12 + 9)),
    (HIGHEST, '11111111111', HIGHEST_BITS),
    ({'lateral-deviation': 25}, '10000000000', '00000011001'),
    ({'vertical-rate': -1}, '01000000000', '0101110110111'),
    ({'vertical-rate': 0}, '01000000000', '0101110111000'),
    ({'vertical-rate': 1}, '01000000000', '0101110111001'),
    ({'level-range': {'ceiling': 10000, 'floor': -75}}, '00100000000', '10011101011011 00000000000000'),
    ({'level-range': {'ceiling': -75, 'floor': 10000}}, '00100000000', '00000000000000 10011101011011'),   # below its floor, and good
    ({'level-range': {'ceiling': -1, 'floor': 0}}, '00100000000', '00000001001010 00000001001011'),
    ({'air-speed': ('mach', 255)}, '00001000000', '0 11111110'),
    ({'air-speed': ('ias', 1)}, '00001000000', '1 0000000000'),
    ({'air-speed': ('ias', 255)}, '00001000000', '1 0011111110'),
    ({'ground-speed': 300}, '00000100000', '100101100'),
    ({'heading': 3600}, '00000010000', '111000001111'),
    ({'extended-profile': ('time', 80)}, '00000001000', '0 1001111'),
    ({'extended-profile': ('points', 1)}, '00000001000', '1 0000000'),
    ({'extended-profile': ('points', 81)}, '00000001000', '1 1010000'),
    ({'track': 1}, '00000000010', '000000000000'),
    ({'level': 500}, '00000000001', '111110011'),
    ({'heading': 2, 'track': 3}, '00000010010', '000000000001 000000000010'),
    ({'lateral-deviation': 2000, 'waypoint-change': None, 'level': 1}, '10010000001', '11111010000 000000000'),
]

HAND = [
    # air: extension bit, 4 bits of index
    ('air', ('cancel-emergency', None), '0 0000'),
    ('air', ('demand-report', {'ack': None, 'report': FULL}), '0 0001  0 1  0 1000000' + FULL_BITS),
    ('air', ('demand-report', {'report': report(-75)}), '0 0001  0 0  0 0000000' + LOW_BITS),
    ('air', ('emergency', {'ack': None, 'report': FULL}), '0 0010  0 1  10' + FULL_BITS),
    ('air', ('emergency', {'report': report(-75)}), '0 0010  0 0  00' + LOW_BITS),
    ('air', ('event-report', {'ack': None, 'event-type': 11, 'report': FULL}),
     '0 0011  0 1  0 1011  0 1000000' + FULL_BITS),
    ('air', ('event-report', {'event-type': 0, 'report': report(-75)}),
     '0 0011  0 0  0 0000  0 0000000' + LOW_BITS),
    ('air', ('negative-ack', {'request': 7, 'reason': ('reason-0', None)}), '0 0100  0 111  0 00'),
    ('air', ('negative-ack', {'request': 1, 'reason': ('reason-2', [])}), '0 0100  0 001  0 10  00000000'),
    ('air', ('negative-ack', {'request': 0, 'reason': ('reason-2', [(65, 66, 67, 48, 32, 0, 127, 64)])}),
     '0 0100  0 000  0 10  00000001'
     '  1000001 1000010 1000011 0110000 0100000 0000000 1111111 1000000'),
    ('air', ('noncompliance', ('demand', [6, 0])), '0 0101  0 00  00000010  0 110  0 000'),
    ('air', ('noncompliance', ('event', [10])), '0 0101  0 01  00000001  0 1010'),
    ('air', ('noncompliance', ('periodic', [7] * 16)), '0 0101  0 10  00010000' + '  0 111' * 16),
    ('air', ('periodic-report', {'report': FULL}), '0 0110  0 0  0 1000000' + FULL_BITS),
    ('air', ('positive-ack', 7), '0 0111  0 111'),
    ('air', ('provider-abort', 7), '0 1000  0 111'),
    # ground: extension bit, 3 bits of index
    ('ground', ('cancel-all', None), '0 000'),
    ('ground', ('cancel-contract', 0), '0 001  0 0'),
    ('ground', ('cancel-emergency-ack', None), '0 010'),
    ('ground', ('demand-contract', {'address': None, 'weather': None}), '0 011  0 1000100'),
    ('ground', ('demand-contract', dict.fromkeys(
        ['address', 'projected-profile', 'ground-vector', 'air-vector', 'weather'])), '0 011  0 1111100'),
    ('ground', ('event-contract', {'merit-change': None}), '0 100  0 00000000100'),
    ('ground', ('event-contract', {'waypoint-change': None, 'merit-change': None}), '0 100  0 00010000100'),
    ('ground', ('modify-emergency', ('seconds', 59)), '0 101  0 111010'),
    ('ground', ('modify-emergency', ('minutes', 120)), '0 101  1 1110111'),
    ('ground', ('periodic-contract', {'interval': FIVE}), '0 110  0 00000000'),
    ('ground', ('periodic-contract', {'interval': ('seconds', 5), 'address': 1, 'weather': 255}),
     '0 110  0 11000100  0 000100  00000000 11111110'),
    ('ground', ('periodic-contract', {'interval': FIVE, 'projected-profile': 2, 'ground-vector': 3, 'air-vector': 4}),
     '0 110  0 00111000  00000001 00000010 00000011'),
    ('ground', ('provider-abort', 2), '0 111  0 010'),
]
for family, value, text in HAND:
    same(f'{family} {value[0]}', family, value, bits(text))
for elements, presence, text in VECTORS:
    for kind, before, more in (('demand-report', '0 0001  0 0', {}), ('periodic-report', '0 0110  0 0', {}),
                               ('event-report', '0 0011  0 0  0 1011', {'event-type': 11})):
        same(f'{kind} {elements}', 'air', (kind, {**more, 'report': report(-75, **elements)}), bits(before + '0' + presence + LOW_BITS + text))
    addressed = {'ack': None, 'report': {**FULL, **elements}}
    same(f'address {elements}', 'air', ('periodic-report', addressed), bits('0 0110  0 1  0 1' + presence[1:] + FULL_BITS + text))
    if list(elements) == ['ground-vector']:
        same(f'emergency {elements}', 'air', ('emergency', {'report': report(-75, **elements)}), bits('0 0010  0 0  01' + LOW_BITS + text))
        same(f'emergency, address {elements}', 'air', ('emergency', addressed), bits('0 0010  0 1  11' + FULL_BITS + text))
check('octets of all three', len(write('air', ('demand-report', {'report': report(**ALL)}))), 30)
for elements, presence, text in EVENTS:
    same(f'event contract {elements}', 'ground', ('event-contract', elements), bits('0 100  0' + presence + text))
check('octets of all eleven', [len(write('ground', ('event-contract', elements))) for elements in (LEAVING, HIGHEST)], [16, 17])
check('kinds by hand', len({(family, value[0]) for family, value, _ in HAND}), 9 + 8)

# An interval of 5 minutes is never sent, absent or named.
check('no interval', refusal(write, 'ground', ('periodic-contract', {})), bits('0 110  0 00000000'))
# One that is sent is read, and written back without (02, L5). Other intervals are written back as they are.
SENT = [
    ({}, '0 110  0 10000000  1 0000100', '0 110  0 00000000'),
    ({'address': 1}, '0 110  0 11000000  1 0000100  00000000', '0 110  0 01000000  00000000'),
    ({'weather': 255}, '0 110  0 10000100  1 0000100  11111110', '0 110  0 00000100  11111110'),
    ({'projected-profile': 2, 'ground-vector': 3, 'air-vector': 4}, '0 110  0 10111000  1 0000100  00000001 00000010 00000011',
     '0 110  0 00111000  00000001 00000010 00000011'),
]
for more, sent, written in SENT:
    value = ('periodic-contract', {'interval': FIVE, **more})
    check(f'5 minutes sent, {more}', refusal(read, 'ground', bits(sent)), value)
    check(f'5 minutes sent, {more}, asked for', write('ground', value, with_default=True), bits(sent))
    check(f'5 minutes sent, {more}, written', write('ground', value), bits(written))
    check(f'5 minutes sent, {more}, written back', answer(f'ground {bits(sent).hex()}'.encode())[0], f'ok {bits(written).hex()}')
    check(f'5 minutes not sent, {more}', answer(f'ground {bits(written).hex()}'.encode())[0], f'ok {bits(written).hex()}')
    check(f'5 minutes sent, {more}, cut', refusal(read, 'ground', bits(sent)[:-1]), 7)
    check(f'5 minutes sent, {more}, badly filled', refusal(read, 'ground', bits(sent + '1')), 13)
    check(f'5 minutes sent, {more}, and more', refusal(read, 'ground', bits(sent) + b'\0'), 14)
for text in ('1 0000011', '1 0000101', '1 0000000', '0 000100', '0 000101'):       # 4, 6 and 1 minutes, 5 and 6 seconds
    octets = bits('0 110  0 10000000' + text)
    check(f'interval {text}', answer(f'ground {octets.hex()}'.encode())[0], f'ok {octets.hex()}')
check('modify to 5 minutes', answer(b'ground 5840')[0], 'ok 5840')
check('5 minutes sent, a modulus of 256', refusal(read, 'ground', bits('0 110  0 11000000  1 0000100  11111111')), 8)
check('5 minutes sent, an element not carried', refusal(read, 'ground', bits('0 110  0 10000010  1 0000100')), 10)


def without_default(octets):
    """Octets of a periodic contract that sends 5 minutes, bit by bit: its presence bit 0, the interval gone."""
    text = ''.join(f'{octet:08b}' for octet in octets)
    return bits(text[:5] + '0' + text[6:13] + text[21:]) if text[:6] == '011001' and text[13:21] == '10000100' else octets


# Minus zero stays.
minus = report()
minus['position'] = dict(minus['position'], latitude={'sign': 1, 'degrees': 0, 'minutes': 0, 'tenths': 0})


def plain(value):
    return ('demand-report', {'report': value})


same('minus zero', 'air', plain(minus), bits('0 0001  0 0  0 0000000  1' + '0' * 48 + '00000001001011' + '0' * 33))


def names(count, name=(0,) * 8, request=0):
    return ('negative-ack', {'request': request, 'reason': ('reason-2', [name] * count)})


# Refusals of writing, with the order in which fields are sent.
for what, family, value, wanted in [
        ('level -76', 'air', plain(report(-76)), 5),
        ('level 10001', 'air', plain(report(10001)), 5),
        ('address', 'air', plain(report(address=2 ** 24)), 5),
        ('seconds 60', 'ground', ('modify-emergency', ('seconds', 60)), 5),
        ('minutes 0', 'ground', ('modify-emergency', ('minutes', 0)), 5),
        ('minutes 121', 'ground', ('periodic-contract', {'interval': ('minutes', 121)}), 5),
        ('modulus 0', 'ground', ('periodic-contract', {'address': 0}), 5),
        ('cancel-contract 2', 'ground', ('cancel-contract', 2), 5),
        ('unused index', 'air', ('no-such-message', None), 5),
        ('unused index', 'air', ('noncompliance', ('no-such-list', [])), 5),
        ('boolean 2', 'air', plain(report(merit={'accuracy': 0, 'first': 2, 'second': 0})), 5),
        ('sign 2', 'air', plain(report(position=dict(minus['position'], latitude={
            'sign': 2, 'degrees': 0, 'minutes': 0, 'tenths': 0}))), 5),
        ('abort reason 8', 'ground', ('provider-abort', 8), 5),
        ('event type 11 in a list', 'air', ('noncompliance', ('event', [11])), 5),
        ('character 128', 'air', names(1, (0,) * 7 + (128,)), 5),
        *((f'report element {name}', 'air', plain(report(**{name: None})), 10)
          for name in ('projected-profile', 'short-term-intent', 'extended-profile')),
        ('presence before a vector', 'air', plain(report(**{'ground-vector': {'track': 0}, 'short-term-intent': None})), 10),
        ('demand element', 'ground', ('demand-contract', {'short-term-intent': None}), 10),
        ('periodic element', 'ground', ('periodic-contract', {'extended-profile': 1}), 10),
        ('no such change of air speed', 'ground', ('event-contract', {'air-speed': ('both', 4)}), 5),
        ('no such profile', 'ground', ('event-contract', {'extended-profile': ('distance', 4)}), 5),
        ('17 names', 'air', names(17), 12),
        ('17 types', 'air', ('noncompliance', ('demand', [0] * 17)), 12),
        ('no element', 'ground', ('event-contract', {}), 15),
        ('presence before level', 'air', plain(report(20000, **{'extended-profile': None})), 10),
        ('event type before presence', 'air', ('event-report', {'event-type': 12, 'report': report(**{'extended-profile': None})}), 5),
        ('count before entry', 'air', ('noncompliance', ('demand', [9] * 17)), 12),
        ('count before character', 'air', names(17, (200,) * 8), 12),
        ('request type before count', 'air', names(17, request=8), 5),
        ('presence before interval', 'ground',
         ('periodic-contract', {'interval': ('seconds', 0), 'extended-profile': 1}), 10)]:
    check(what, refusal(write, family, value), wanted)

# One step beyond each end of each number of a vector or weather, to write (5); where its bits hold it, to read (8).
ENDS = [('ground-vector', 'track', 1, 3600), ('ground-vector', 'speed', -50, 2200), ('ground-vector', 'rate', -3000, 3000),
        ('air-vector', 'heading', 1, 3600), ('air-vector', 'rate', -3000, 3000), ('weather', 'speed', 0, 300),
        ('weather', 'direction', 1, 360), ('weather', 'temperature', -400, 400), ('weather', 'turbulence', 0, 15)]
for element, name, low, high in ENDS:
    for number in (low - 1, high + 1):
        check(f'{element} {name} {number}', refusal(write, 'air', plain(report(**{element: {name: number}}))), 5)
    for number in (low, high):
        value = plain(report(**{element: {name: number}}))
        check(f'{element} {name} {number}', refusal(read, 'air', write('air', value)), value)
for kind, low, high in (('mach', 500, 4000), ('ias', 0, 1100)):
    for number in (low - 1, high + 1):
        both = {'mach': 500, 'ias': 0, kind: number}
        for speed in ((kind, number), ('both', both)):
            check(f'{speed}', refusal(write, 'air', plain(report(**{'air-vector': {'speed': speed}}))), 5)
check('no such air speed', refusal(write, 'air', plain(report(**{'air-vector': {'speed': ('neither', 600)}}))), 5)
for what, presence, text, wanted in [
        ('track', '0010000', '100 111000010000', 8), ('ground speed', '0010000', '010 100011001011', 8),
        ('rate', '0010000', '001 1011101110001', 8), ('heading', '0001000', '100 111000010000', 8),
        ('mach', '0001000', '010 00 110110101101', 8), ('ias', '0001000', '010 01 10001001101', 8),
        ('ias of both', '0001000', '010 10 000000000000 10001001101', 8), ('air rate', '0001000', '001 1011101110001', 8),
        ('wind speed', '0000100', '1000 100101101', 8), ('wind direction', '0000100', '0100 101101000', 8),
        ('temperature', '0000100', '0010 1100100001', 8),
        ('air speed index', '0001000', '010 11', 8), ('air speed index before a rate', '0001000', '011 11 1111111111111', 8),
        ('a track before a weather', '0010100', '100 111000010000 1000 111111111', 8)]:
    check(f'read {what}', refusal(read, 'air', bits('0 0001  0 0  0' + presence + LOW_BITS + text)), wanted)
for presence, wanted in (('0100000', 10), ('0000010', 10), ('0000001', 10), ('0111111', 10), ('0010010', 10)):
    check(f'presence {presence}', refusal(read, 'air', bits('0 0001  0 0  0' + presence + LOW_BITS)), wanted)
# An input that ends anywhere in the three elements, or in the eleven of an event contract.
for family, value in (('air', ('demand-report', {'report': report(**ALL)})), ('ground', ('event-contract', LEAVING)), ('ground', ('event-contract', HIGHEST))):
    whole = write(family, value)
    for size in range(len(whole)):
        check(f'{size} octets of {len(whole)}', refusal(read, family, whole[:size]), 7)

# One step beyond each end of each number of an event contract: to write, alone and with the other ten (5); where its bits hold it, to read (8).
STEPS = [('lateral-deviation', lambda number: number, 0, 2000), ('vertical-rate', lambda number: number, -3000, 3000),
         ('level-range', lambda number: {'ceiling': number, 'floor': 0}, -75, 10000),
         ('level-range', lambda number: {'ceiling': 0, 'floor': number}, -75, 10000),
         ('air-speed', lambda number: ('mach', number), 1, 255), ('air-speed', lambda number: ('ias', number), 1, 700),
         ('ground-speed', lambda number: number, 0, 300), ('heading', lambda number: number, 1, 3600),
         ('extended-profile', lambda number: ('time', number), 1, 80), ('extended-profile', lambda number: ('points', number), 1, 128),
         ('track', lambda number: number, 1, 3600), ('level', lambda number: number, 1, 500)]
for name, element, low, high in STEPS:
    for number in (low - 1, high + 1):
        for others in ({}, LEAVING):
            check(f'event {name} {number}', refusal(write, 'ground', ('event-contract', {**others, name: element(number)})), 5)
    for number in (low, high):
        value = ('event-contract', {name: element(number)})
        check(f'event {name} {number}', refusal(read, 'ground', write('ground', value)), value)
for what, presence, text, wanted in [
        ('lateral deviation 2001', '10000000000', '11111010001', 8), ('vertical rate 3001', '01000000000', '1011101110001', 8),
        ('ceiling 10001', '00100000000', '10011101011100 00000000000000', 8), ('floor 10001', '00100000000', '00000000000000 10011101011100', 8),
        ('mach 256', '00001000000', '0 11111111', 8), ('ias 701', '00001000000', '1 1010111100', 8), ('ground speed 301', '00000100000', '100101101', 8),
        ('heading 3601', '00000010000', '111000010000', 8), ('time 81', '00000001000', '0 1010000', 8), ('time 128', '00000001000', '0 1111111', 8),
        ('track 3601', '00000000010', '111000010000', 8), ('level change 501', '00000000001', '111110100', 8),
        ('a ceiling before the floor is there', '00100000000', '10011101011100', 8), ('no element', '00000000000', '', 15),
        ('no element, and more', '00000000000', '1', 15)]:
    check(f'read {what}', refusal(read, 'ground', bits('0 100  0' + presence + text)), wanted)
check('extension bit of an event contract', refusal(read, 'ground', bits('0 100  1 00000000000')), 9)

# Presence bits as one number, as a host gives them: judged whole at their place, and what they do not announce is no part of the value.
WITH_BITS = {PRESENCE: 64, **FULL, 'weather': {PRESENCE: 15, 'turbulence': 16}}
check('presence bits', refusal(write, 'air', plain(WITH_BITS)), write('air', plain(FULL)))
check('presence bits, one absent', refusal(write, 'air', plain(report(**{PRESENCE: 0, 'address': 2 ** 24}))), write('air', plain(report())))
for what, family, value, wanted in [
        ('presence bit not carried', 'air', plain({**WITH_BITS, PRESENCE: 2}), 10),
        ('presence bits of weather that do not fit', 'air', plain(report(**{PRESENCE: 4, 'weather': {PRESENCE: 16}})), 5),
        ('presence bits of a vector that do not fit', 'air', plain(report(**{PRESENCE: 16, 'ground-vector': {PRESENCE: 8}})), 5),
        ('presence bits that do not fit', 'air', plain({**WITH_BITS, PRESENCE: 128}), 5),
        ('presence bits that do not fit, one not carried', 'air', plain({**WITH_BITS, PRESENCE: 130}), 5),
        ('presence bits below 0', 'air', plain({**WITH_BITS, PRESENCE: -1}), 5),
        ('presence bits before level', 'air', plain(report(20000, **{PRESENCE: 2})), 10),
        ('ack before presence bits', 'air', ('demand-report', {PRESENCE: 2, 'ack': None, 'report': report(**{PRESENCE: 2})}), 5),
        ('no presence bit', 'ground', ('event-contract', {PRESENCE: 0}), 15),
        ('eleven presence bits', 'ground', ('event-contract', {PRESENCE: 2048}), 5)]:
    check(what, refusal(write, family, value), wanted)

rng = random.Random(691)
for _ in range(1000):
    for family in ('air', 'ground'):
        value = random_value(rng, family)
        check('round trip', refusal(read, family, write(family, value)), value)
        octets = write(family, value, with_default=True)
        check('round trip, a default sent', refusal(read, family, octets), value)
        check('written back', write(family, value), without_default(octets) if family == 'ground' else octets)

if failures:
    print(f'percoder: {failures} of {checks} checks failed')
    sys.exit(1)
print(f'percoder: {checks} checks passed')
