"""Checks of hostmodel.py against pages 01 and 02 and include/adsc.h: answers worked out by hand.

    test_hostmodel.py [FOLDER]

With a folder the lines and their answers are written there as stdin and stdout: `rt` holds the program hostcall to them.
"""

import pathlib
import sys

from hostmodel import answer

stored, failures = [], 0


def check(what, line, wanted):
    global failures
    stored.append((line, wanted))
    got = answer(line.encode())
    if got != wanted:
        failures += 1
        print(f'{what}: got {got!r}, wanted {wanted!r}')


A5 = 'a5' * 6

# Writing. P1, P2, P7, P9, P10 (01, bench examples) from their numbers, at the front of an output whose other octets stay; other buffers stay.
check('P1', f'write_air 77  {A5} 0', '0 1 77 00a5a5a5a5a5')
check('P2', f'write_ground   {A5} 7 4', '0 1  74a5a5a5a5a5')
check('P7', f'write_ground   {A5} 5 0 1 5', '0 2  5840a5a5a5a5')
check('P9', f'write_ground   {A5} 4 128', '0 2  4080a5a5a5a5')
check('P10', f'write_ground   {A5} 6 0 1 1', '0 3  640400a5a5a5')
check('P13', 'write_air   ' + 'a5' * 15 + ' 1' + ' 0' * 13 + ' 1996 1 1', '0 14  08000000000000' + '00012c00000000a5')
check('5 minutes are not sent', f'write_ground   {A5} 6 0 1 5', '0 2  6000a5a5a5a5')
check('no room', 'write_ground   a5a5 6 0 1 1', '6 999  a5a5')
check('just room', 'write_ground   a5a5a5 6 0 1 1', '0 3  640400')
check('no such kind', f'write_ground   {A5} 8', f'5 999  {A5}')
check('no such scale', f'write_ground   {A5} 5 0 2 5', f'5 999  {A5}')
check('not carried', f'write_ground   {A5} 3 2', f'10 999  {A5}')
check('bits that do not fit', f'write_ground   {A5} 3 130', f'5 999  {A5}')
check('not carried before an interval', f'write_ground   {A5} 6 1 0 0', f'10 999  {A5}')
check('an interval before a modulus', f'write_ground   {A5} 6 64 0 60 0', f'5 999  {A5}')
check('no element', f'write_ground   {A5} 4 0', f'15 999  {A5}')
check('a list of 17', f'write_air  00 {A5} 5 0 0 17', f'12 999  {A5}')
check('a list of 2^32 - 1', f'write_air  00 {A5} 5 0 0 4294967295', f'12 999  {A5}')
check('a request type before the list', f'write_air  00 {A5} 4 8 2 17', f'5 999  {A5}')
check('a list before its entries', f'write_air  ff {A5} 5 0 0 17', f'12 999  {A5}')
check('two entries, one of them missing', f'write_air  06 {A5} 5 0 0 2', '0 3  280260a5a5a5')
for level, number in ((-76, 5), (-75, 0), (10000, 0), (10001, 5)):
    wanted = f'5 999  {A5}' if number else f'6 999  {A5}'       # 6 comes last: the report has 14 octets
    check(f'level {level}', f'write_air   {A5} 1' + ' 0' * 12 + f' {level % 2 ** 32} 1996 1 1', wanted)

# Vectors and weather, numbers 25 to 39: P13 with all three and with some parts (the octets are packed by hand from 002), each end and one step beyond it.
FIX, VECTORS = ' 0' * 8 + ' 0 1996 1 1' + ' 0' * 8, [0] * 15


def report(kind, elements, numbers, room=31):
    """A line that writes P13 with these elements and numbers."""
    n = [number % 2 ** 32 for number in numbers]
    return f'write_air   {"a5" * room} {kind} 0 0 0 {elements}{FIX} {" ".join(map(str, n))}'


def wrote(octets, room=31):
    return f'0 {len(octets) // 2}  {octets}' + 'a5' * (room - len(octets) // 2)


check('all three', report(1, 28, [7, 2715, 450, -120, 7, 900, 2, 825, 280, 150, 15, 45, 250, -226, 7]),
      wrote('0838000000000000012c00000001ea687d1681ce0e145230c4ef16be4ae7'))
check('below zero, in an emergency', report(2, 1, [3, 0, -1, -1]), wrote('10800000000000004b0000000030315db8'))
check('what is not announced is not looked at', report(6, 12, [9, 0, 99999, 9, 2, 0, 0, 500, 9999, 9999, 6, 999, 1, -1, 99]),
      wrote('3018000000000000012c00000000800060031e'))
check('nothing in them', report(1, 28, VECTORS), wrote('0838000000000000012c000000000000'))
check('25 numbers', report(1, 28, []).rstrip(), wrote('0838000000000000012c000000000000'))
check('6 comes last', report(1, 28, VECTORS, 15), '6 999  ' + 'a5' * 15)
for what, elements in (('projected profile', 32), ('short-term intent', 2), ('extended profile', 1), ('one of two', 20 + 2)):
    check(f'{what} is not carried', report(1, elements, [8] * 15), '10 999  ' + 'a5' * 31)
for element, parts, bit, place, low, high in (
        (16, 25, 4, 26, 1, 3600), (16, 25, 2, 27, -50, 2200), (16, 25, 1, 28, -3000, 3000), (8, 29, 4, 30, 1, 3600), (8, 29, 1, 34, -3000, 3000),
        (4, 35, 8, 36, 0, 300), (4, 35, 4, 37, 1, 360), (4, 35, 2, 38, -400, 400), (4, 35, 1, 39, 0, 15)):
    for number in (low - 1, low, high, high + 1):
        numbers = list(VECTORS)
        numbers[parts - 25], numbers[place - 25] = bit, number
        check(f'number {place}: {number}', report(1, element, numbers, 13), ('6' if low <= number <= high else '5') + ' 999  ' + 'a5' * 13)
for kind, mach, ias, number in ((0, 499, 0, 5), (0, 500, 9999, 6), (0, 4001, 0, 5), (1, 9999, 1100, 6), (1, 500, 1101, 5), (1, 500, -1, 5),
                                (2, 499, 0, 5), (2, 4000, 1100, 6), (2, 4000, 1101, 5), (3, 500, 0, 5), (2 ** 31, 500, 0, 5)):
    check(f'air speed {kind} {mach} {ias}', report(1, 8, [0] * 4 + [2, 0, kind, mach, ias], 13), f'{number} 999  ' + 'a5' * 13)
for parts, element, over in ((25, 16, 8), (29, 8, 8), (35, 4, 16)):
    check(f'number {parts}: bits that do not fit', report(1, element, [over if place == parts else 1 for place in range(25, 40)]), '5 999  ' + 'a5' * 31)

# Event contracts, numbers 9 to 20: all eleven elements at the lowest, between and at the highest, each alone, each end and one step beyond it. The octets are
# packed by hand from 002.
LEAVING = [25, -120, 3300, 2900, 0, 4, 50, 100, 0, 4, 50, 30]
LOWEST, HIGHEST = [0, -3000, -75, -75, 0, 1, 0, 1, 0, 1, 1, 1], [2000, 3000, 10000, 10000, 1, 700, 300, 3600, 1, 128, 3600, 500]
LEAVING_SENT, HIGHEST_SENT = '47ff032b4034bcb9f018c818c0c0c43a', '47fffa17709d6e75bd772ce0fffe0ff980'


def event(elements, numbers, room=18):
    n = [number % 2 ** 32 for number in numbers]
    return f'write_ground   {"a5" * room} 4 {elements}' + ' 7' * 7 + ''.join(f' {number}' for number in n)


check('all eleven', event(2047, LEAVING), wrote(LEAVING_SENT, 18))
check('all eleven, lowest', event(2047, LOWEST), wrote('47ff' + '00' * 14, 18))
check('all eleven, highest', event(2047, HIGHEST), wrote(HIGHEST_SENT, 18))
check('all eleven, just room', event(2047, HIGHEST, 17), wrote(HIGHEST_SENT, 17))
check('all eleven, no room', event(2047, HIGHEST, 16), '6 999  ' + 'a5' * 16)
for element, octets in ((1024, '44000320'), (512, '42005a00'), (256, '410034bcb9f0'), (128, '4080'), (64, '40400180'), (32, '40201900'), (16, '40100630'),
                        (8, '400803'), (4, '4004'), (2, '40020310'), (1, '40010e80')):
    check(f'element {element} alone', event(element, LEAVING), wrote(octets, 18))
    announced = {1024: [9], 512: [10], 256: [11, 12], 64: [13, 14], 32: [15], 16: [16], 8: [17, 18], 2: [19], 1: [20]}.get(element, [])
    others = [number if place in announced else 99999 for place, number in enumerate(LEAVING, 9)]
    check(f'element {element}: the others are not looked at', event(element, others), wrote(octets, 18))
check('IAS', event(64, [0, 0, 0, 0, 1, 20]), wrote('40408260', 18))
check('way points', event(8, [0] * 8 + [1, 3]), wrote('400882', 18))
check('a ceiling below its floor', event(256, [0, 0, -75, 10000]), wrote('4100000275b0', 18))
check('9 numbers, the others count as 0', event(1024, []), wrote('44000000', 18))
for element, place, low, high in ((1024, 9, 0, 2000), (512, 10, -3000, 3000), (256, 11, -75, 10000), (256, 12, -75, 10000), (32, 15, 0, 300),
                                  (16, 16, 1, 3600), (2, 19, 1, 3600), (1, 20, 1, 500)):
    for number in (low - 1, low, high, high + 1):
        numbers = [0] * 12
        numbers[place - 9] = number
        check(f'number {place}: {number}', event(element, numbers, 1), ('6' if low <= number <= high else '5') + ' 999  a5')
for element, place, kinds in ((64, 13, ((0, 1, 255), (1, 1, 700))), (8, 17, ((0, 1, 80), (1, 1, 128)))):
    for kind, low, high in kinds:
        for number in (low - 1, low, high, high + 1):
            numbers = [0] * 12
            numbers[place - 9:place - 7] = kind, number
            check(f'number {place + 1}, kind {kind}: {number}', event(element, numbers, 1), ('6' if low <= number <= high else '5') + ' 999  a5')
    for kind in (2, 2 ** 31, 2 ** 32 - 1):
        numbers = [0] * 12
        numbers[place - 9:place - 7] = kind, 1
        check(f'number {place}: {kind} names nothing', event(element, numbers, 1), '5 999  a5')
        check(f'number {place}: {kind} is not looked at', event(128, numbers), wrote('4080', 18))
check('twelve bits', event(2048, LEAVING), '5 999  ' + 'a5' * 18)
check('no element, whatever the numbers', event(0, [99999] * 12), '15 999  ' + 'a5' * 18)

# Records: ten settings of 60, the seconds left, the states of DC, EC, PC, EM and LI, the interval asked for and the one in force.
NONE, OUT = [0] * 10, 'a5' * 31


def record(left, states, settings=(60,) * 10, intervals=(0, 0)):
    return ''.join([*(f'{number:08x}' for number in (*settings, *left)), *(f'{state:02x}' for state in states), *(f'{number:08x}' for number in intervals)])


def left(place, seconds):
    return [seconds if at == place else 0 for at in range(10)]


FRESH, PENDING = record(NONE, (0, 0, 0, 0, 0)), record(left(0, 60), (1, 0, 0, 0, 1))
check('open', 'open ' + 'a5' * 93 + '   ' + ' '.join(['60'] * 10), f'0 999 {FRESH} ')
check('open: a setting', f'open {FRESH}   ' + ' '.join(['86401'] * 10), f'3 999 {FRESH} ')
for count in (8, 9, 11, 20):
    check(f'open: {count} settings', f'open {FRESH}   ' + ' '.join(['60'] * count), f'3 999 {FRESH} ')
for setting, number in ((0, 3), (1, 0), (86400, 0), (86401, 3)):
    opened = FRESH if number else record(NONE, (0, 0, 0, 0, 0), (60,) * 9 + (setting,))
    check(f'open: LI1 of {setting}', f'open {FRESH}   ' + '60 ' * 9 + str(setting), f'{number} 999 {opened} ')
for size in (0, 85, 92, 94):
    octets = 'a5' * size
    check(f'open: {size} octets', f'open {octets}   ' + ' '.join(['60'] * 10), f'6 999 {octets} ')
check('a demand contract', f'request {FRESH}  {OUT} 3', f'0 999 {PENDING} ' + '00000000 02 0120000000000000 02 3000'.replace(' ', '') + '00' * 15)
check('59 seconds', f'elapse {PENDING}  {OUT} 59', '0 999 ' + record(left(0, 1), (1, 0, 0, 0, 1)) + ' ' + '00' * 31)
check('60 seconds', f'elapse {PENDING}  {OUT}ff 60', f'0 999 {FRESH} ' + '00000004 03 1004060000000000 01 74'.replace(' ', '') + '00' * 16 + 'ff')
check('all eleven asked for', f'request {FRESH}  {OUT}ff 4 2047' + ' 0' * 7 + ''.join(f' {number}' for number in HIGHEST),
      '0 999 ' + record(left(2, 60), (0, 1, 0, 0, 1)) + ' ' + '00000000 02 0122000000000000 11 '.replace(' ', '') + HIGHEST_SENT + 'ff')
for what, bad in {
        'DC1 does not run': record(NONE, (1, 0, 0, 0, 1)), 'DC2 runs too': record([60, 1] + [0] * 8, (1, 0, 0, 0, 1)),
        '61 left': record(left(0, 61), (1, 0, 0, 0, 1)), 'a setting of 0': record(NONE, (0, 0, 0, 0, 0), (60,) * 9 + (0,)),
        'a setting of 86,401': record(NONE, (0, 0, 0, 0, 0), (86401,) + (60,) * 9), 'IDLE': record(left(0, 60), (1, 0, 0, 0, 0)),
        'END': record([60] + [0] * 8 + [60], (1, 0, 0, 0, 3)), 'no state': record(NONE, (3, 0, 0, 0, 1)), 'no state of LI': record(NONE, (0, 0, 0, 0, 4)),
        'PC2 in an emergency': record([0] * 5 + [1, 0, 1, 0, 0], (0, 0, 3, 1, 2), intervals=(0, 60)), '92 octets': PENDING[2:], '94 octets': PENDING + '00',
        '85 octets': PENDING[:-16], '85 octets of before L8': ('0000003c' * 9) + '00' * 49, 'nothing': ''}.items():
    for call in ('elapse {}  {} 86401', 'user_abort {}  {}', 'end_confirm {}  {}', 'data {} 00 {}', 'request {}  {} 3 130'):
        for out in (OUT, ''):
            check(f'29: {what}', call.format(bad, out), f'29 999 {bad} {out}')
check('START with all IDLE is good', 'elapse ' + record(NONE, (0, 0, 0, 0, 1)) + f'  {OUT} 1', '0 999 ' + record(NONE, (0, 0, 0, 0, 1)) + ' ' + '00' * 31)
check('4 before 6', f'elapse {FRESH}   86401', f'4 999 {FRESH} ')
check('1 before a field', f'request {PENDING}  {OUT} 3 130', f'1 999 {PENDING} {OUT}')
check('a field before 6', f'request {FRESH}   3 130', f'5 999 {FRESH} ')
check('6 last', f'request {FRESH}   3 0', f'6 999 {FRESH} ')
check('no line', 'elapse', 'refused 17')

# Intervals (02, L2). Records with PC at a state and seconds left of its timer, the interval asked for and the one in force.
IDLE, START_PENDING, CHANGE, ACTIVE, CANCEL = range(5)
TIMER = {START_PENDING: 4, CHANGE: 4, ACTIVE: 5, CANCEL: 6}


def periodic(state, seconds=0, asked=0, force=0, li=2):
    return record(left(TIMER.get(state), seconds), (0, 0, state, 0, li), intervals=(asked, force))


def answered(actions, sent='', reason=0):
    return f'{reason:08x}{len(actions):02x}{bytes(actions).hex():0<16}{len(sent) // 2:02x}{sent:0<34}'


def becomes(what, call, before, after, *said):
    """A call with its octets or numbers, the record before and after it, and the answer."""
    word, _, more = call.partition(' ')
    octets, numbers = (more, '') if word in ('data', 'start_confirm') else ('', f' {more}' if more else '')
    check(what, f'{word} {before} {octets} {OUT}{numbers}', f'0 999 {after} {answered(*said)}')


def stays(what, link):
    becomes(what, 'elapse 0', link, link, [])


def bad(what, link):
    check(f'29: {what}', f'elapse {link}   86401', f'29 999 {link} ')


stays('octets 85 to 92', '0000003c' * 10 + '00000000' * 4 + '0000003b' + '00000000' * 5 + '0000020002' + '00000102' + '00001c20')
# A report every two hours is asked for (64 07 b8) and agreed: PC2 runs for 7,200 and 60 seconds, and each report starts it anew.
PLAIN, WITH_ACK = '3000000000000000012c00000000', '3200000000000000012c00000000'
TWO_HOURS = periodic(ACTIVE, 7260, 0, 7200)
becomes('two hours', 'request 6 0 1 120', FRESH, periodic(START_PENDING, 60, 7200, li=1), [1, 36], '6407b8')
becomes('agreed', 'start_confirm 3880', periodic(START_PENDING, 1, 7200, li=1), TWO_HOURS, [20, 5, 37])
becomes('a minute', 'elapse 60', TWO_HOURS, periodic(ACTIVE, 7200, 0, 7200), [])
becomes('the last second but one', 'elapse 7259', TWO_HOURS, periodic(ACTIVE, 1, 0, 7200), [])
becomes('the last second', 'elapse 7260', TWO_HOURS, FRESH, [21, 4, 6], '74', 4)
becomes('a report', f'data {PLAIN}', periodic(ACTIVE, 1, 0, 7200), TWO_HOURS, [21, 5, 37])
# Other intervals: seconds from 1 to 59, and the default, which is not sent.
for numbers, seconds, sent in (('0 1', 1, '640000'), ('0 59', 59, '6403a0'), ('1 1', 60, '640400'), ('1 5', 300, '6000')):
    becomes(f'{seconds} seconds', f'request 6 0 {numbers}', FRESH, periodic(START_PENDING, 60, seconds, li=1), [1, 36], sent)
# A change: the old interval is in force until an answer, and then the new one, unless it is a negative ack.
CHANGING = periodic(CHANGE, 9, 30, 7200)
becomes('a change', 'request 6 0 0 30', TWO_HOURS, periodic(CHANGE, 60, 30, 7200), [21, 2, 36], '6401d0')
becomes('a plain report is no answer', f'data {PLAIN}', CHANGING, CHANGING, [5])
becomes('negative ack', 'data 20b0', CHANGING, TWO_HOURS, [20, 5, 37])
for what, octets in (('positive ack', '3880'), ('report with ack', WITH_ACK), ('noncompliance', '2a00'), ('noncompliance with the interval', '2a0170')):
    becomes(what, f'data {octets}', CHANGING, periodic(ACTIVE, 90, 0, 30), [20, 5, 37])
    becomes(f'{what} at the start', f'data {octets}', periodic(START_PENDING, 9, 30), periodic(ACTIVE, 90, 0, 30), [20, 5, 37])
# In an emergency (EM1 has 7 seconds left) the new one is in force at the answer, and PC2 starts with it at the end.
URGENT = [0] * 7 + [7, 0, 0]
becomes('an answer in an emergency', 'data 3880', record([0] * 4 + [9, 0, 0, 7, 0, 0], (0, 0, CHANGE, 1, 2), intervals=(30, 7200)),
        record(URGENT, (0, 0, ACTIVE, 1, 2), intervals=(0, 30)), [20, 5])
becomes('the end of an emergency', 'data 00', record(URGENT, (0, 0, ACTIVE, 1, 2), intervals=(0, 30)), periodic(ACTIVE, 90, 0, 30), [23, 5, 2, 37], '20')
# A cancel leaves it in force; where PC goes IDLE there is none. LI1, number 9, starts with the end request (02, L8).
ENDING = record(left(9, 60), (0, 0, 0, 0, 3))
becomes('a cancel', 'request 1 1', TWO_HOURS, periodic(CANCEL, 60, 0, 7200), [21, 2, 38], '14')
becomes('cancelled', 'data 3a00', periodic(CANCEL, 9, 0, 7200), ENDING, [22, 5, 3, 41])
becomes('refused', 'start_confirm 20b0', periodic(START_PENDING, 9, 30, li=1), ENDING, [20, 5, 3, 41])
becomes('rejected', 'start_rejected', periodic(START_PENDING, 9, 30, li=1), FRESH, [20, 6], '', 5)
becomes('cancel-all', 'request 0', CHANGING, ENDING, [20, 3, 41], '00')
becomes('user abort', 'user_abort', CHANGING, FRESH, [20, 4])
becomes('down', 'down', CHANGING, FRESH, [20, 6])
becomes('not due', 'data 3a00', CHANGING, FRESH, [20, 4, 6], '73', 3)
# 29: which states have which interval, 1 to 7,200.
for state, has_asked, has_force in ((IDLE, 0, 0), (START_PENDING, 1, 0), (CHANGE, 1, 1), (ACTIVE, 0, 1), (CANCEL, 0, 1)):
    for seconds in (0, 1, 7200, 7201, 2 ** 32 - 1):
        judge = stays if seconds in (1, 7200) else bad
        (judge if has_asked else bad if seconds else stays)(f'asked {seconds} at {state}', periodic(state, 60, seconds, 60 * has_force))
        (judge if has_force else bad if seconds else stays)(f'force {seconds} at {state}', periodic(state, 60, 60 * has_asked, seconds))
# 29: PC2 has no more left than interval plus setting, the others no more than their setting.
for setting, force in ((60, 7200), (60, 1), (1, 1), (86400, 7200)):
    settings = [setting] * 10
    for seconds in (1, setting, setting + 1, setting + force):
        stays(f'{seconds} of {setting} + {force}', record(left(5, seconds), (0, 0, ACTIVE, 0, 2), settings, (0, force)))
    bad(f'one more than {setting} + {force}', record(left(5, setting + force + 1), (0, 0, ACTIVE, 0, 2), settings, (0, force)))
bad('PC1', periodic(START_PENDING, 61, 7200))
bad('PC1 of a change', periodic(CHANGE, 61, 7200, 7200))
bad('PC3', periodic(CANCEL, 61, 0, 7200))
bad('EM1', record([0] * 7 + [61, 0, 0], (0, 0, ACTIVE, 1, 2), intervals=(0, 7200)))

# END (02, L8): LI1 runs there and nowhere else, from the end request to its confirmation, an abort or its end; late data leaves it.


def ending(seconds, li=3, settings=(60,) * 10):
    return record(left(9, seconds), (0, 0, 0, 0, li), settings)


stays('octets 36 to 39 and 76 to 79', '0000003c' * 9 + '00000102' + '00000000' * 9 + '00000101' + '0000000003' + '00' * 8)
becomes('a demand answered', 'start_confirm 2130', PENDING, ENDING, [16, 5, 3, 41])
becomes('59 seconds in END', 'elapse 59', ENDING, ending(1), [])
becomes('one more', 'elapse 1', ending(1), FRESH, [25, 4, 6], '74', 4)
becomes('60 seconds in END', 'elapse 60', ENDING, FRESH, [25, 4, 6], '74', 4)
becomes('a day in END', 'elapse 86400', ENDING, FRESH, [25, 4, 6], '74', 4)
becomes('no time in END', 'elapse 0', ending(1), ending(1), [])
for octets in ('', '00', PLAIN, 'ff'):
    becomes(f'late data {octets}', f'data {octets}', ending(1), ending(1), [8])
becomes('the end confirmed', 'end_confirm', ending(1), FRESH, [25])
becomes('user abort in END', 'user_abort', ending(1), FRESH, [25, 4])
becomes('down in END', 'down', ending(1), FRESH, [25, 6])
becomes('peer abort in END', 'peer_abort', ending(1), FRESH, [25, 7])
check('air abort in END', f'air_abort {ending(1)} 4200 {OUT}', f'0 999 {FRESH} ' + answered([25, 6], '', 4))
for call in ('request {}  {} 3', 'request {}  {} 0'):
    check('1 in END', call.format(ENDING, OUT), f'1 999 {ENDING} {OUT}')
for call in ('start_confirm {} 2130 {}', 'start_rejected {}  {}'):
    check('2 in END', call.format(ENDING, OUT), f'2 999 {ENDING} {OUT}')
for setting in (1, 60, 86400):
    settings = (60,) * 9 + (setting,)
    for seconds in (1, setting):
        stays(f'{seconds} of {setting} in END', ending(seconds, 3, settings))
    for seconds in (0, setting + 1, 2 ** 32 - 1):
        bad(f'{seconds} of {setting} in END', ending(seconds, 3, settings))
    for li in (0, 1, 2):
        stays(f'LI1 of {setting} rests in LI {li}', ending(0, li, settings))
        bad(f'LI1 of {setting} runs in LI {li}', ending(1, li, settings))
for setting in (0, 86401, 2 ** 32 - 1):
    bad(f'LI1 of {setting}', ending(0, 0, (60,) * 9 + (setting,)))
    bad(f'LI1 of {setting} in END', ending(1, 3, (60,) * 9 + (setting,)))
bad('another timer in END', record([0] * 8 + [60, 60], (0, 0, 0, 0, 3)))
bad('EM2 in place of LI1', record([0] * 8 + [60, 0], (0, 0, 0, 0, 3)))

# Blocks of the flight log (02, L6). The checks are summed by hand: each octet times its place.
ZEROS, ANY = '00' * 93, 'a5' * 512


def block(number, payload='', check=0, length=None):
    payload = payload.replace(' ', '')
    return f'{number:08x}{len(payload) // 2 if length is None else length:04x}{payload:0<1008}{check:04x}'


def kept(what, before, call, after, data=''):
    check(what, f'block_append {before} {data}  {call}', f'0 999 {after} ')


def not_kept(what, number, link, call, data=''):
    check(what, f'block_append {link} {data}  {call}', f'{number} 999 {link} ')


# The settings stand at places 13 to 52, each with its 60 at a fourth of them: 16 + .. + 52 = 340, and 288 without the last.
EMPTY, SETTINGS = block(0), block(0, '00 00000000 28' + '0000003c' * 10, 1 + 46 * 6 + 40 * 12 + 60 * 340)
OLD_SETTINGS = block(0, '00 00000000 24' + '0000003c' * 9, 1 + 42 * 6 + 36 * 12 + 60 * 288)
check('block 0', f'block_open {ANY}  77 0', f'0 999 {EMPTY} 77')
check('block 1', f'block_open {ANY}   1', '0 999 ' + block(1) + ' ')
check('the last block', f'block_open {ANY}   16777215', '0 999 ' + block(0xffffff) + ' ')
check('no block behind it', f'block_open {ANY}   16777216', f'5 999 {ANY} ')
check('a block of 511', f'block_open {ANY[2:]}   0', f'6 999 {ANY[2:]} ')
check('5 before 6', f'block_open {ANY}a5   4294967295', f'5 999 {ANY}a5 ')
kept('settings', EMPTY, '0 0', block(0, '00 00000000 28' + '0000003c' * 10), '0000003c' * 10)
kept('seconds', EMPTY, '3 258', block(0, '03 00000102 00'))
kept('data', block(1), '6 0', block(1, '06 00000000 02 2130'), '2130')
kept('the first 129 octets', EMPTY, '9 0', block(0, '09 00000000 81' + '00' * 129), '00' * 129 + 'ff')
kept('behind another, and the check stays', block(0, '0a 00000000 00', 7), '7 0', block(0, '0a 00000000 00 07 00000000 00', 7))
kept('what stands behind it stays', block(0, '00' * 503 + '01', 0, 0), '2 0', block(0, '02' + '00' * 502 + '01', 0, 6))
kept('a kind is one octet', EMPTY, '266 0', block(0, '0a 00000000 00'))
FULL = block(0, '00' * 498)
kept('to the last octet', FULL, '10 0', block(0, '00' * 498 + '0a 00000000 00'))
not_kept('one octet more', 6, FULL, '6 0', '00')
for what, call, data in (('kind 11', '11 0', ''), ('kind 255', '255 0', ''), ('seconds of data', '6 1', '00'), ('data of an elapse', '3 1', '00'),
                         ('data of down', '10 0', '00'), ('36 octets of settings', '0 0', '0000003c' * 9), ('39', '0 0', '00' * 39), ('41', '0 0', '00' * 41), ('no settings', '0 0', '')):
    not_kept(what, 5, EMPTY, call, data)
    not_kept(f'{what}, before 6', 5, FULL, call, data)
for what, wrong in (('511 octets', EMPTY[2:]), ('513 octets', EMPTY + '00'), ('a payload of 505', block(0, '', 0, 505)), ('block 2^24', block(1 << 24)), ('nothing', '')):
    not_kept(f'{what}, before 5', 20, wrong, '11 0')
    check(f'finish: {what}', f'block_finish {wrong}  ', f'20 999 {wrong} ')


def finished(what, number, payload, total, behind=''):
    """The check is 1 and this sum."""
    payload = payload.replace(' ', '')
    before, after = block(number, payload + behind, 0xa5a5, len(payload) // 2), block(number, payload, (1 + total) % 65521)
    check(f'finish: {what}', f'block_finish {before}  ', f'0 999 {after} ')
    check(f'finish again: {what}', f'block_finish {after}  77', f'0 999 {after} 77')


finished('block 0', 0, '', 0)
finished('the last block', 0xffffff, '', 255 * (2 + 3 + 4))
finished('settings', 0, '00 00000000 28' + '0000003c' * 10, 46 * 6 + 40 * 12 + 60 * 340)
finished('settings of before L8', 0, '00 00000000 24' + '0000003c' * 9, 42 * 6 + 36 * 12 + 60 * 288)
finished('seconds', 0, '03 00000102 00', 6 * 6 + 3 * 7 + 1 * 10 + 2 * 11)
finished('zeros behind', 1, '06 00000000 02 2130', 4 + 8 * 6 + 6 * 7 + 2 * 12 + 0x21 * 13 + 0x30 * 14, behind='a5' * 496)
finished('a full block', 0, 'ff' * 504, 1 * 5 + 0xf8 * 6 + 255 * (130305 - 21))       # 7 + .. + 510

REQUEST = block(1, '01 00000000 02 3000', 1 + 4 + 8 * 6 + 7 + 2 * 12 + 0x30 * 13)
check('settings played', f'block_play {ZEROS} {SETTINGS}  0', f'0 999 {FRESH} ')
check('36 octets of settings played: LI1 is 86,400', f'block_play {ZEROS} {OLD_SETTINGS}  0', f'0 999 {record(NONE, (0, 0, 0, 0, 0), (60,) * 9 + (86400,))} ')
check('a request played', f'block_play {FRESH} {REQUEST} 77 1', f'0 999 {PENDING} 77')
check('no record', f'block_play {ZEROS} {EMPTY[:-2]}01  0', f'0 999 {ZEROS} ')
for what, number, link, octets, turn in (
        ('settings twice', 20, FRESH, SETTINGS, 0), ('settings twice, 36 octets', 20, FRESH, OLD_SETTINGS, 0), ('no settings', 20, ZEROS, REQUEST, 1), ('out of turn', 19, FRESH, REQUEST, 0),
        ('not permitted', 20, PENDING, REQUEST, 1), ('check wrong', 18, FRESH, REQUEST[:-2] + '00', 1), ('18 before 19', 18, FRESH, REQUEST[:-2] + '00', 7),
        ('511 octets', 20, FRESH, REQUEST[2:], 1), ('29 before the block', 29, FRESH[:-2] + '01', REQUEST[2:], 1), ('92 zeros', 29, ZEROS[2:], SETTINGS, 0), ('85 zeros', 29, ZEROS[16:], OLD_SETTINGS, 0),
        ('19 before 20', 19, PENDING, REQUEST, 2), ('a block behind the last', 19, FRESH, block(1 << 24, '', 1 + 1), 1 << 24)):
    check(f'play: {what}', f'block_play {link} {octets}  {turn}', f'{number} 999 {link} ')

# Settings of another length are 20, though each number is 60, what is left of the last too.
for size in (0, 4, 32, 35, 37, 38, 39, 41, 44):
    sixties = [*range(16, 13 + size, 4), *([12 + size] if size % 4 else [])]
    payload = f'00 00000000 {size:02x}' + ''.join('3c' if place in sixties else '00' for place in range(13, 13 + size))
    octets = block(0, payload, 1 + (6 + size) * 6 + size * 12 + 60 * sum(sixties))
    check(f'play: {size} octets of settings', f'block_play {ZEROS} {octets}  0', f'20 999 {ZEROS} ')

if failures:
    print(f'hostmodel: {failures} of {len(stored)} checks failed')
    sys.exit(1)
for folder in sys.argv[1:]:
    for name, texts in zip(('stdin', 'stdout'), zip(*stored)):
        pathlib.Path(folder, name).write_text(''.join(text + '\n' for text in texts))
print(f'hostmodel: {len(stored)} checks passed')
