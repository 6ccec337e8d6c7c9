"""Checks of logmodel.py against L6 and L8 of page 02: octets, checks and refusals worked out by hand, and what is stored in tests/logs."""

import dataclasses

import logs
from byhand import Checks
from logmodel import RULES, block_of, check, log, packed, play

CHECKS = Checks('logmodel', None)
SET = 'set 1 2 3 4 5 6 7 8 86400 9\n'

# "1 plus the sum of each of the first 510 octets times its place counted from 1, modulo 65,521"
SUMS = {
    'nothing': ({}, 1),
    'the first octet': ({0: 7}, 1 + 7 * 1),
    'block 1': ({3: 1}, 1 + 1 * 4),
    'the last one that counts': ({509: 255}, (1 + 255 * 510) % 65521),
    'the check itself does not count': ({510: 255, 511: 255}, 1),
    'one below the modulus': ({256: 254, 240: 1}, 65520),           # 1 + 254 * 257 + 241
    'the modulus, with the 1': ({256: 254, 241: 1}, 0),
    'all octets 255': (dict.fromkeys(range(512), 255), (1 + 255 * 130305) % 65521),     # 1 + .. + 510 = 130305
}

# The call, and its record.
RECORDS = {
    SET: '00 00000000 28 00000001 00000002 00000003 00000004 00000005 00000006 00000007 00000008 00015180 00000009',
    'elapse 258\n': '03 00000102 00',
    'elapse 0\n': '03 00000000 00',
    'req 3000\n': '01 00000000 02 3000',
    'req 640420\n': '01 00000000 02 6000',
}


def octets(places):
    return bytes(places.get(place, 0) for place in range(512))


def ended(text):
    return text.decode().split('\n')[-2]


def sums():
    for what, (places, wanted) in SUMS.items():
        CHECKS.check(what, check(octets(places)), wanted)


def records():
    for call, wanted in RECORDS.items():
        script = (call if call == SET else SET + call).encode()
        payload = log(script)[6:510].rstrip(b'\0')
        spelt = bytes.fromhex(wanted).rstrip(b'\0')
        CHECKS.check(call.strip(), payload if call == SET else payload[46:], spelt)


def packing():
    """"A record that doesn't fit opens the next block." """
    for sizes, wanted in (((), []), ((504,), [504]), ((500, 4), [504]), ((500, 5), [500, 5]), ((46, 135, 135, 135, 54), [451, 54]), ((499, 6, 5), [499, 11])):
        CHECKS.check(f'records of {sizes}', [len(payload) for payload in packed([bytes(size) for size in sizes])], wanted)


def last_block():
    """With 2 blocks at most in place of 2^24: what would open a third is not written, nor what comes later and had room, and a third is not read."""
    few = dataclasses.replace(RULES, last=1)
    elapses = 'elapse 0\n' * (76 + 83)
    script = (SET + elapses + 'req 3000\nelapse 5\n').encode()
    CHECKS.check('a third block', len(log(script)), 3 * 512)
    CHECKS.check('no third block', log(script, few), log((SET + elapses).encode()))
    CHECKS.check('a third block read', ended(play(log(script), few)), 'refused 19 block 2')
    CHECKS.check('two blocks read', ended(play(log(script)[:1024], few)), 'end 160')


def turns():
    """Block numbers go most significant octet first, from 0."""
    setting = log(SET.encode())
    for number, wanted in ((1, 'end 1'), (0, 'refused 19 block 1'), (2, 'refused 19 block 1'), (2 ** 24 + 1, 'refused 19 block 1'), (2 ** 25, 'refused 19 block 1')):
        CHECKS.check(f'block {number} behind 0', ended(play(setting + block_of(number, b''))), wanted)


def settings():
    """"a settings record in the log holds forty octets; logs with thirty-six are read with LI1 at 86,400" (L8): END then lasts a day and no longer. Other lengths are 20."""
    closing = b'\x01\0\0\0\0\x02\x30\0' + b'\x04\0\0\0\0\x02\x21\x30'
    for octets, before, left in ((40, 9, 8), (36, 86400, 86399)):
        record = bytes([0, 0, 0, 0, 0, octets]) + b''.join(number.to_bytes(4, 'big') for number in (60, 60, 60, 60, 60, 60, 60, 60, 60, 9))[:octets]
        for seconds, wanted in ((left, '4 ok'), (before, '4 ok stop LI1 abort-req 74 ind abort 4')):
            text = play(block_of(0, record + closing + b'\x03' + seconds.to_bytes(4, 'big') + b'\0')).decode().split('\n')
            CHECKS.check(f'{octets} octets, {seconds} seconds in END', text[3:], ['3 ok stop DC1 ind 2130 end-req start LI1', wanted, 'end 4', ''])
    for octets in (0, 4, 32, 35, 37, 38, 39, 41, 44, 80):
        record = bytes([0, 0, 0, 0, 0, octets]) + (60).to_bytes(4, 'big') * 20
        CHECKS.check(f'{octets} octets of settings', ended(play(block_of(0, record[:6 + octets]))), 'refused 20 block 0')
    for number, wanted in ((0, 'refused 20 block 0'), (1, 'end 1'), (86400, 'end 1'), (86401, 'refused 20 block 0')):
        record = bytes([0, 0, 0, 0, 0, 40]) + (60).to_bytes(4, 'big') * 9 + number.to_bytes(4, 'big')
        CHECKS.check(f'LI1 of {number}', ended(play(block_of(0, record))), wanted)


def stored():
    for name, octets, due, script in logs.stored():
        CHECKS.check(f'{name}.play', play(octets), due)
        if script is not None:
            CHECKS.check(f'{name}.log', log(script), octets)


for part in (sums, records, packing, last_block, turns, settings, stored):
    part()
CHECKS.end()
