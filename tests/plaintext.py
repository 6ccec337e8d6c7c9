"""A PDU as a line for a person: what the program pdutext has to print, written from 01, 002 and 003.

    answer(line) -> the text due to one line (octets without LF)

It shares nothing with the program; percoder.py reads the PDU. NAMES holds the names as the drafts
spell them, and OTHERWISE those that are shown in other words.
"""

import contextlib
import re

import percoder

# Numbered from 0, in the order of the ASN.1 modules. 002, but 003 for the last request type and the
# second reason, which 002 lacks or leaves undefined.
NAMES = {
    'abort-reason': 'communications-service-failure unrecoverable-system-error invalid-PDU sequence-error timer-expiry '
                    'cannot-establish-contact undefined-error dialogue-end-not-accepted',
    'request-type': 'event-contract periodic-contract demand-contract cancel-event-contract cancel-periodic-contract '
                    'modify-emergency-contract cancel-all-contracts end-forward-contract',
    'reason': 'aDS-service-unavailable cannot-meet-reporting-rate maximum-capacity-exceeded undefined-reason',
    'event-type': 'lateral-deviation-change vertical-rate-change level-threshold way-point-change air-speed-change '
                  'ground-speed-change heading-change extended-projected-profile-change fom-change track-angle-change '
                  'level-change baseline',
    'report-type': 'aircraft-address projected-profile ground-vector air-vector met-info short-term-intent '
                   'extended-projected-profile reporting-rate',
    'accuracy': 'complete-loss under30nm under15nm under8nm under4nm under1nm under-25nm under-05nm',
}
OTHERWISE = {
    'aDS-service-unavailable': 'ADS service unavailable',
    'way-point-change': 'waypoint change',              # 01
    'fom-change': 'figure of merit change',             # 01 and 002's text
    'met-info': 'weather',                              # 01 and 003
    'short-term-intent': 'short-term intent',           # 01
    'under-25nm': 'under 0.25 nm',                      # the comment beside it
    'under-05nm': 'under 0.05 nm',
}
REFUSALS = {                                            # 01, refusal numbers; 11 is retired (02, L5)
    7: 'input ends inside a field', 8: 'sent value above its range or index unused', 9: 'extension bit set',
    10: 'presence bit of an element not carried', 12: 'list over 16',
    13: 'filling not zero', 14: 'octets after the PDU', 15: 'event contract with no element',
    16: 'input over 128 octets', 17: 'line not readable',
}


def words(name):
    if name in OTHERWISE:
        return OTHERWISE[name]
    return re.sub(r'(\d+)nm', r' \1 nm', name).replace('-', ' ')


WORDS = {table: [words(name) for name in names.split()] for table, names in NAMES.items()}
WORDS['refusal'] = [REFUSALS.get(number, '') for number in range(18)]
# In the order in which contracts and reports name their elements, and percoder's names of them.
ELEMENTS = ['address', 'projected-profile', 'ground-vector', 'air-vector', 'weather']
CONTRACTS = {'demand': 2, 'event': 0, 'periodic': 1}    # as request types


def angle(value, width, hemispheres):
    seconds, tenth = divmod(value['tenths'], 10)
    return f'{value["degrees"]:0{width}} {value["minutes"]:02} {seconds:02}.{tenth} {hemispheres[value["sign"]]}'


def stamp(date, clock):
    text = f'{date["year"]}-{date["month"]:02}-{date["day"]:02} {clock["hours"]:02}:{clock["minutes"]:02}'
    return text + (f':{clock["seconds"]:02}' if 'seconds' in clock else '')


def times_ten(number):
    return f'{number * 10}'                             # 002: units of 10 feet per minute


def tenths(number):
    return f'{number // 10}.{number % 10}'              # 002: units of 0.1 degree or nautical mile; never below 0


def mach(number):
    """002: units of 0.001; two or three decimals."""
    text = f'{number // 1000}.{number % 1000:03}'
    return text[:-1] if text.endswith('0') else text


def quarters(number):
    """002: units of 0.25 degree."""
    sign = '-' if number < 0 else ''
    return f'{sign}{abs(number) // 4}' + ('', '.25', '.5', '.75')[abs(number) % 4]


def ground_vector(value):
    yield 'ground vector'
    if 'track' in value:
        yield f'track {tenths(value["track"])}'
    if 'speed' in value:
        yield f'ground speed {value["speed"]} kt'
    if 'rate' in value:
        yield f'vertical rate {times_ten(value["rate"])} ft/min'


def air_vector(value):
    yield 'air vector'
    if 'heading' in value:
        yield f'heading {tenths(value["heading"])}'
    if 'speed' in value:
        kind, number = value['speed']
        speeds = number if kind == 'both' else {kind: number}
        if 'mach' in speeds:
            yield f'mach {mach(speeds["mach"])}'
        if 'ias' in speeds:
            yield f'ias {speeds["ias"]} kt'
    if 'rate' in value:
        yield f'vertical rate {times_ten(value["rate"])} ft/min'


def weather(value):
    yield 'weather'
    if 'direction' in value:
        yield f'wind {value["direction"]}' + (f' at {value["speed"]} kt' if 'speed' in value else '')
    elif 'speed' in value:
        yield f'wind speed {value["speed"]} kt'
    if 'temperature' in value:
        yield f'temperature {quarters(value["temperature"])} C'
    if 'turbulence' in value:
        yield f'turbulence {value["turbulence"]}'


def report(value):
    position, merit = value['position'], value['merit']
    yield angle(position['latitude'], 2, 'NS')
    yield angle(position['longitude'], 3, 'EW')
    yield f'level {position["level"] * 10} ft'          # 002: units of 10 feet
    yield stamp(value['time']['date'], value['time']['clock'])
    yield f'accuracy {merit["accuracy"]} ({WORDS["accuracy"][merit["accuracy"]]})'
    yield f'multiple units {("no", "yes")[merit["first"]]}'
    yield f'acas {("no", "yes")[merit["second"]]}'
    if 'address' in value:
        yield f'aircraft {value["address"]:06x}'
    for name, told in (('ground-vector', ground_vector), ('air-vector', air_vector), ('weather', weather)):
        yield from told(value[name]) if name in value else ()


def acked(kind, value):
    return [kind] + ['positive ack'] * ('ack' in value) + list(report(value['report']))


def listed(before, texts):
    return before + ': ' * bool(texts) + ', '.join(texts)


def character(code):
    return chr(code) if 33 <= code <= 126 and chr(code) not in ',\\' else f'\\x{code:02x}'


def negative(value):
    name, names = value['reason']
    number = int(name[len('reason-'):])
    yield f'negative ack to {WORDS["request-type"][value["request"]]}: {WORDS["reason"][number]}'
    if number == 2:
        yield listed(f'used by {len(names)}', [''.join(map(character, text)) for text in names])


def noncompliance(value):
    kind, entries = value
    table = WORDS['event-type' if kind == 'event' else 'report-type']
    yield f'noncompliance with {WORDS["request-type"][CONTRACTS[kind]]}'
    yield listed(f'{len(entries)} not met', [table[entry] for entry in entries])


def interval(value):
    scale, number = value
    return f'every {number} {scale if number > 1 else scale[:-1]}'


def modulus(number):
    if number == 1:
        return 'every report'
    ending = 'th' if number % 100 in (11, 12, 13) else {1: 'st', 2: 'nd', 3: 'rd'}.get(number % 10, 'th')
    return f'every {number}{ending} report'


def contract(kind, value):
    yield WORDS['request-type'][CONTRACTS[kind]] + (' ' + interval(value['interval']) if kind == 'periodic' else '')
    for number, name in enumerate(ELEMENTS):
        if name in value:
            yield WORDS['report-type'][number] + (' ' + modulus(value[name]) if kind == 'periodic' else '')


def air_speed_change(value):
    kind, number = value
    return f'mach {mach(number * 5)}' if kind == 'mach' else f'ias {number} kt'     # 002: units of 0.005 Mach


def profile_change(value):
    kind, number = value
    return f'time interval {number * 15} minutes' if kind == 'time' else f'waypoints {number}'


# An event contract's elements in 002's order and units (02, L7). Each is called what the event is called, but for the level range.
CHANGES = {
    'lateral-deviation': lambda value: f'{WORDS["event-type"][0]} {tenths(value)} nm',
    'vertical-rate': lambda value: f'{WORDS["event-type"][1]} {times_ten(value)} ft/min',
    'level-range': lambda value: f'level range, ceiling {times_ten(value["ceiling"])} ft, floor {times_ten(value["floor"])} ft',
    'waypoint-change': lambda value: WORDS['event-type'][3],
    'air-speed': lambda value: f'{WORDS["event-type"][4]}, {air_speed_change(value)}',
    'ground-speed': lambda value: f'{WORDS["event-type"][5]} {value} kt',
    'heading': lambda value: f'{WORDS["event-type"][6]} {tenths(value)} degrees',
    'extended-profile': lambda value: f'{WORDS["event-type"][7]}, {profile_change(value)}',
    'merit-change': lambda value: WORDS['event-type'][8],
    'track': lambda value: f'{WORDS["event-type"][9]} {tenths(value)} degrees',
    'level': lambda value: f'{WORDS["event-type"][10]} {times_ten(value)} ft',
}


def event_contract(value):
    yield WORDS['request-type'][CONTRACTS['event']]
    yield from (told(value[name]) for name, told in CHANGES.items() if name in value)


def told(kind, value):
    """The fields of a PDU's line."""
    request = WORDS['request-type']
    if kind in ('demand-report', 'periodic-report'):
        return acked(kind.replace('-', ' '), value)
    if kind == 'emergency':
        return acked('emergency report', value)
    if kind == 'event-report':
        return acked('event report: ' + WORDS['event-type'][value['event-type']], value)
    if kind == 'negative-ack':
        return negative(value)
    if kind == 'noncompliance':
        return noncompliance(value)
    if kind == 'event-contract':
        return event_contract(value)
    if kind in ('demand-contract', 'periodic-contract'):
        return contract(kind.split('-')[0], value)
    return [{
        'cancel-emergency': lambda: 'cancel emergency',
        'cancel-emergency-ack': lambda: 'cancel emergency ack',
        'cancel-all': lambda: request[6],
        'cancel-contract': lambda: request[3 + value],
        'modify-emergency': lambda: f'{request[5]} {interval(value)}',
        'positive-ack': lambda: f'positive ack to {request[value]}',
        'provider-abort': lambda: f'provider abort {value} ({WORDS["abort-reason"][value]})',
    }[kind]()]


def answer(line):
    coded, read = percoder.answer(line)
    word, octets = coded.split()
    if read is None:
        return f'{coded} ({WORDS["refusal"][int(octets)]})'
    family = read[0]
    return f'{family}: ' + ', '.join(told(*percoder.read(family, bytes.fromhex(octets))))


@contextlib.contextmanager
def reworded(text):
    """One text of the tables changed, to test that a comparison finds it, and then put back."""
    table, place = next((table, texts.index(text)) for table, texts in WORDS.items() if text in texts)
    WORDS[table][place] += ' or not'
    try:
        yield
    finally:
        WORDS[table][place] = text
