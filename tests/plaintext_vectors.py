"""Writes the fixed vectors of pdutext: OUTDIR/stdin, one line per PDU, and OUTDIR/stdout, the text due to each.

    plaintext_vectors.py OUTDIR

Each kind of PDU, each name of each table, the ends of the ranges and what is easily shown wrong; then lines that are
refused. A few texts stand here as literals, and plaintext.py must agree with them.
"""

import itertools
import os
import sys

import plaintext
from coder_vectors import LITERALS, P13, UNREADABLE
from percoder import answer, write

WRITTEN = {
    'air 00': 'air: cancel emergency',
    'ground 74': 'ground: provider abort 4 (timer expiry)',
    'air 4200': 'air: provider abort 4 (timer expiry)',
    'ground 14': 'ground: cancel periodic contract',
    'air 3880': 'air: positive ack to periodic contract',
    'air 2130': 'air: negative ack to demand contract: undefined reason',
    'ground 5840': 'ground: modify emergency contract every 5 minutes',
    'ground 3000': 'ground: demand contract',
    'ground 4080': 'ground: event contract, waypoint change',
    # each element of an event contract, and all of them: packed by hand from 002
    'ground 44000320': 'ground: event contract, lateral deviation change 2.5 nm',
    'ground 42005a00': 'ground: event contract, vertical rate change -1200 ft/min',
    'ground 410034bcb9f0': 'ground: event contract, level range, ceiling 33000 ft, floor 29000 ft',
    'ground 40400180': 'ground: event contract, air speed change, mach 0.02',
    'ground 40407f00': 'ground: event contract, air speed change, mach 1.275',
    'ground 40408260': 'ground: event contract, air speed change, ias 20 kt',
    'ground 40201900': 'ground: event contract, ground speed change 50 kt',
    'ground 40100630': 'ground: event contract, heading change 10.0 degrees',
    'ground 400803': 'ground: event contract, extended projected profile change, time interval 60 minutes',
    'ground 400882': 'ground: event contract, extended projected profile change, waypoints 3',
    'ground 4004': 'ground: event contract, figure of merit change',
    'ground 40020310': 'ground: event contract, track angle change 5.0 degrees',
    'ground 40010e80': 'ground: event contract, level change 300 ft',
    'ground 47ff032b4034bcb9f018c818c0c0c43a':
        'ground: event contract, lateral deviation change 2.5 nm, vertical rate change -1200 ft/min, level range, ceiling 33000 ft, floor 29000 ft, '
        'waypoint change, air speed change, mach 0.02, ground speed change 50 kt, heading change 10.0 degrees, '
        'extended projected profile change, time interval 60 minutes, figure of merit change, track angle change 5.0 degrees, level change 300 ft',
    'ground 640400': 'ground: periodic contract every 1 minute',
    'ground 640420': 'ground: periodic contract every 5 minutes',
    'ground 6000': 'ground: periodic contract every 5 minutes',
    'ground 66042008': 'ground: periodic contract every 5 minutes, aircraft address every 2nd report',
    'air': 'refused 7 (input ends inside a field)',
    'air ' + P13: 'air: demand report, 00 00 00.0 N, 000 00 00.0 E, level 0 ft, 1996-01-01 00:00, '
                  'accuracy 0 (complete loss), multiple units no, acas no',
    # P13 with vectors and weather, packed by hand from 002; an emergency report with a ground speed and a rate of -1; half of an air vector and of weather
    'air 0838000000000000012c00000001ea687d1681ce0e145230c4ef16be4ae7':
        'air: demand report, 00 00 00.0 N, 000 00 00.0 E, level 0 ft, 1996-01-01 00:00, accuracy 0 (complete loss), multiple units no, acas no, '
        'ground vector, track 271.5, ground speed 450 kt, vertical rate -1200 ft/min, air vector, heading 90.0, mach 0.825, ias 280 kt, '
        'vertical rate 1500 ft/min, weather, wind 250 at 45 kt, temperature -56.5 C, turbulence 7',
    'air 10800000000000004b0000000030315db8':
        'air: emergency report, 00 00 00.0 N, 000 00 00.0 E, level 0 ft, 1996-01-01 00:00, accuracy 0 (complete loss), multiple units no, acas no, '
        'ground vector, ground speed -1 kt, vertical rate -10 ft/min',
    'air 3018000000000000012c00000000800060031e':
        'air: periodic report, 00 00 00.0 N, 000 00 00.0 E, level 0 ft, 1996-01-01 00:00, accuracy 0 (complete loss), multiple units no, acas no, '
        'air vector, mach 0.50, weather, wind 1, temperature -0.25 C',
}


def angle(sign, degrees, minutes, tenths):
    return {'sign': sign, 'degrees': degrees, 'minutes': minutes, 'tenths': tenths}


def report(latitude=angle(0, 47, 12, 345), longitude=angle(0, 8, 45, 67), level=3500, date=(2026, 11, 15),
           clock=(12, 34, 56), merit=(3, 1, 0), address=None, **elements):
    value = {
        'position': {'latitude': latitude, 'longitude': longitude, 'level': level},
        'time': {'date': dict(zip(('year', 'month', 'day'), date)), 'clock': dict(zip(('hours', 'minutes', 'seconds'), clock))},
        'merit': dict(zip(('accuracy', 'first', 'second'), merit)),
        **{name.replace('_', '-'): value for name, value in elements.items()},
    }
    return value if address is None else dict(value, address=address)


def reports():
    for kind, more in (('demand-report', {}), ('periodic-report', {}), ('emergency', {}), ('event-report', {'event-type': 3})):
        for ack in ({}, {'ack': None}):
            for address in (None, 0x4b1234):
                yield kind, {**ack, **more, 'report': report(address=address)}
    yield from (('event-report', {'event-type': number, 'report': report()}) for number in range(12))
    for parts in (
            [{'latitude': angle(*value)} for value in ((1, 0, 0, 0), (0, 0, 0, 0), (0, 90, 59, 599), (1, 90, 59, 599), (1, 9, 9, 9))] +
            [{'longitude': angle(*value)} for value in ((1, 0, 0, 0), (0, 0, 0, 0), (0, 180, 59, 599), (1, 180, 59, 599), (1, 99, 0, 100))] +
            [{'level': level} for level in (-75, -74, -1, 0, 1, 9999, 10000)] +
            [{'date': date} for date in ((2026, 2, 31), (1996, 1, 1), (2095, 12, 31))] +
            [{'clock': clock} for clock in ((0, 0), (0, 0, 0), (23, 59), (23, 59, 59), (9, 5, 7))] +
            [{'merit': (accuracy, 0, 1)} for accuracy in range(8)] +
            [{'merit': (7, first, second)} for first in (0, 1) for second in (0, 1)] +
            [{'address': address} for address in (0, 10, 0x0a0b0c, 0xffffff)]):
        yield 'periodic-report', {'report': report(**parts)}


TRACKS = (1, 9, 10, 11, 900, 2715, 3599, 3600)
RATES = (-3000, -2999, -120, -1, 0, 1, 10, 2999, 3000)
SPEEDS = [('mach', number) for number in (500, 501, 510, 825, 820, 999, 1000, 1001, 1010, 1100, 3999, 4000)] + [
    ('ias', number) for number in (0, 1, 10, 280, 1099, 1100)] + [
    ('both', {'mach': number, 'ias': other}) for number in (500, 1000, 4000) for other in (0, 280, 1100)]
# What has to be shown rightly where it is: each number of each part.
GROUND_PARTS = {'track': TRACKS, 'speed': (-50, -49, -1, 0, 1, 450, 2199, 2200), 'rate': RATES}
AIR_PARTS = {'heading': TRACKS, 'speed': SPEEDS, 'rate': RATES}
WEATHER_PARTS = {'speed': (0, 1, 45, 300), 'direction': (1, 99, 250, 360),
                 'temperature': (-400, -399, -398, -397, -227, -226, -225, -224, -5, -4, -3, -2, -1, 0, 1, 2, 3, 4, 5, 399, 400),
                 'turbulence': range(16)}


def parted(parts):
    """Each number of each part, alone; each set of parts."""
    yield from ({name: number} for name, numbers in parts.items() for number in numbers)
    for count in range(len(parts) + 1):
        for names in itertools.combinations(parts, count):
            yield {name: parts[name][len(parts[name]) // 2] for name in names}


def elements():
    """Vectors and weather: each alone, with each of its values; each set of them; the least and the most."""
    middle = {'ground_vector': {'track': 2715, 'speed': 450, 'rate': -120},
              'air_vector': {'heading': 900, 'speed': ('both', {'mach': 820, 'ias': 280}), 'rate': 0},
              'weather': {'speed': 45, 'direction': 250, 'temperature': -226, 'turbulence': 7}}
    for name, parts in (('ground_vector', GROUND_PARTS), ('air_vector', AIR_PARTS), ('weather', WEATHER_PARTS)):
        yield from ({name: value} for value in parted(parts))
    for count in range(len(middle) + 1):
        for names in itertools.combinations(middle, count):
            yield {name: middle[name] for name in names}
            yield dict.fromkeys(names, {})
    yield {'ground_vector': {'track': 1, 'speed': -50, 'rate': -3000}, 'weather': {'speed': 0, 'direction': 1, 'temperature': -400, 'turbulence': 0},
           'air_vector': {'heading': 1, 'speed': ('both', {'mach': 500, 'ias': 0}), 'rate': -3000}}
    yield {'ground_vector': {'track': 3600, 'speed': 2200, 'rate': 3000}, 'weather': {'speed': 300, 'direction': 360, 'temperature': 399, 'turbulence': 15},
           'air_vector': {'heading': 3600, 'speed': ('both', {'mach': 3999, 'ias': 1100}), 'rate': 3000}}
    yield {'ground_vector': {'track': 3600, 'speed': 2200, 'rate': -3000}, 'weather': {'speed': 300, 'direction': 360, 'temperature': -399, 'turbulence': 15},
           'air_vector': {'heading': 3600, 'speed': ('both', {'mach': 3999, 'ias': 1100}), 'rate': -3000}}


def vectors():
    for parts in elements():
        yield 'demand-report', {'report': report(**parts)}
    for kind, more in (('periodic-report', {}), ('event-report', {'event-type': 7})):
        for parts in list(elements())[-18:]:
            yield kind, {'ack': None, **more, 'report': report(address=0x4b1234, **parts)}
    for value in parted(GROUND_PARTS):
        yield 'emergency', {'ack': None, 'report': report(address=0x4b1234, ground_vector=value)}
        yield 'emergency', {'report': report(ground_vector=value)}


def named(*names):
    return [tuple(name.encode('latin-1')) for name in names]


def acks():
    yield from (('positive-ack', number) for number in range(8))
    for request in range(8):
        yield from (('negative-ack', {'request': request, 'reason': (f'reason-{number}', None)}) for number in (0, 1, 3))
        yield 'negative-ack', {'request': request, 'reason': ('reason-2', named('LSZHADSC', 'EDDFADSC', 'LFPGADSC'))}
    every = [tuple(range(first, first + 8)) for first in range(0, 128, 8)]
    for names in ([], named('LSZHADSC'), named('a,b c\\dn', '\\x41BCD\n', '        ', ',,,,,,,,'), every, named('AAAAAAAA') * 15):
        yield 'negative-ack', {'request': 1, 'reason': ('reason-2', names)}
    yield 'negative-ack', {'request': 5, 'reason': ('reason-2', named('\x7f' * 8) * 16)}    # the longest line


def noncompliances():
    for kind, top in (('demand', 6), ('event', 10), ('periodic', 7)):
        for entries in ([], *([entry] for entry in range(top + 1)), list(range(top + 1)), [top, 0, 0, top], [top] * 16):
            yield 'noncompliance', (kind, entries)


INTERVALS = [('seconds', number) for number in (1, 2, 5, 59)] + [('minutes', number) for number in (1, 2, 5, 120)]
MODULI = (1, 2, 3, 4, 10, 11, 12, 13, 14, 20, 21, 22, 23, 24, 100, 101, 102, 103, 110, 111, 112, 113, 121, 211, 212, 213, 221, 255)


LEVELS = (-75, -74, -1, 0, 1, 3300, 9999, 10000)
# What an event contract may ask for, at the ends and where it is easily shown wrong.
CHANGES = {
    'lateral-deviation': (0, 1, 9, 10, 25, 99, 100, 1999, 2000),
    'vertical-rate': RATES,
    'level-range': [{'ceiling': ceiling, 'floor': floor} for ceiling in LEVELS for floor in (-75, -1, 0, 2900, 10000)],
    'waypoint-change': (None,),
    'air-speed': [('mach', number) for number in (1, 2, 3, 4, 19, 20, 21, 199, 200, 201, 220, 254, 255)] + [
        ('ias', number) for number in (1, 2, 20, 255, 699, 700)],
    'ground-speed': (0, 1, 50, 299, 300),
    'heading': TRACKS,
    'extended-profile': [('time', number) for number in (1, 2, 4, 79, 80)] + [('points', number) for number in (1, 2, 80, 81, 127, 128)],
    'merit-change': (None,),
    'track': TRACKS,
    'level': (1, 2, 30, 499, 500),
}


def changes():
    """Each element with each of its values; each two; all but one; all, with the shortest and the longest text."""
    middle = {name: values[len(values) // 2] for name, values in CHANGES.items()}
    yield from ({name: value} for name, values in CHANGES.items() for value in values)
    yield from ({name: middle[name] for name in names} for names in itertools.combinations(middle, 2))
    yield from ({name: middle[name] for name in middle if name != other} for other in middle)
    yield {**middle, 'vertical-rate': -3000, 'level-range': {'ceiling': 10000, 'floor': 10000}, 'lateral-deviation': 2000, 'heading': 3600, 'track': 3600,
           'extended-profile': ('time', 80), 'ground-speed': 300, 'level': 500, 'air-speed': ('ias', 700)}
    for pick, place in ((min, 0), (max, -1)):
        ends = {name: values[place] for name, values in CHANGES.items()}
        for speed, profile in itertools.product(('mach', 'ias'), ('time', 'points')):
            yield {**ends, 'air-speed': pick(value for value in CHANGES['air-speed'] if value[0] == speed),
                   'extended-profile': pick(value for value in CHANGES['extended-profile'] if value[0] == profile)}


def grounds():
    yield from (('cancel-all', None), ('cancel-contract', 0), ('cancel-contract', 1), ('cancel-emergency-ack', None))
    elements = plaintext.ELEMENTS
    yield from (('demand-contract', dict.fromkeys(some)) for some in ([], elements, elements[1::2], *([name] for name in elements)))
    yield from (('event-contract', value) for value in changes())
    yield from (('modify-emergency', interval) for interval in INTERVALS)
    yield from (('periodic-contract', {'interval': interval}) for interval in INTERVALS)
    yield from (('periodic-contract', {'interval': ('minutes', 5), 'air-vector': number}) for number in MODULI)
    yield from (('periodic-contract', {'interval': ('seconds', 30), name: 2}) for name in elements)
    yield 'periodic-contract', {'interval': ('minutes', 5), **{name: place + 1 for place, name in enumerate(elements)}}
    yield 'periodic-contract', {'interval': ('minutes', 120), **dict.fromkeys(elements, 255)}


def values():
    for make in (reports, vectors, acks, noncompliances):
        yield from (('air', value) for value in make())
    yield 'air', ('cancel-emergency', None)
    yield from (('ground', value) for value in grounds())
    yield from ((family, ('provider-abort', number)) for family in ('air', 'ground') for number in range(8))


def main():
    if len(sys.argv) != 2:
        sys.exit('usage: plaintext_vectors.py OUTDIR')
    lines = {line.encode(): None for line in WRITTEN}
    lines.update((f'{family} {write(family, value).hex()}'.encode(), None) for family, value in values())
    lines.update((f'ground {write("ground", value, with_default=True).hex()}'.encode(), None) for value in grounds())
    lines.update((line.encode(), None) for line, _ in LITERALS)
    lines.update((line, None) for line in UNREADABLE)
    lines = {line: plaintext.answer(line) for line in lines}
    for line, text in WRITTEN.items():
        assert lines[line.encode()] == text, (line, lines[line.encode()])
    told = {(line.split()[0], answer(line)[0]): text for line, text in lines.items() if not text.startswith('refused')}
    assert len(told) == len(set(told.values())), 'two values have one text'
    for table, texts in plaintext.WORDS.items():
        for place, text in enumerate(texts):                # each name of each table is met
            texts[place] = text + ' or not'
            assert not text or any(plaintext.answer(line) != due for line, due in lines.items()), (table, text)
            texts[place] = text
    os.makedirs(sys.argv[1], exist_ok=True)
    with open(os.path.join(sys.argv[1], 'stdin'), 'wb') as file:
        file.write(b''.join(line + b'\n' for line in lines))
    with open(os.path.join(sys.argv[1], 'stdout'), 'w', newline='\n') as file:
        file.write(''.join(text + '\n' for text in lines.values()))
    print(f'{len(lines)} vectors')


if __name__ == '__main__':
    main()
