"""Checks of airmodel.py against 000, 002 and L4 of 02: their tables cell by cell, and traces, records and lines worked out by hand."""

from airmodel import LI_STATES, MODULES, RULES, STATES, Box, Link, trace
from byhand import Checks, spelled

CHECKS = Checks('airmodel', trace)
SET = 'set 360'

# The tables of 000 (5-11, 5-13, 5-15, 5-17) and 002 (2.2.1.5-66, -68, -70, -72), with LI in ACTIVE. A cell is the next state, 1 for "Not
# permitted" or `abort` for "request AB to abort"; what is asked is sent and what comes is shown, unless the actions stand behind it.
TABLES = {
    'DC': '''
        what       | IDLE    | PENDING | ACTIVE
        req 2130   | 1       | IDLE    | 1
        req 280130 | 1       | ACTIVE  | 1
        req DEM+   | 1       | IDLE    | 1
        req DEM    | 1       | 1       | IDLE
        data 3000  | PENDING | abort   | abort''',
    'EC': '''
        what       | IDLE    | PENDING | ACTIVE                   | ACTIVE-PENDING
        req 3800   | 1       | ACTIVE  | 1                        | ACTIVE
        req 290140 | 1       | ACTIVE  | 1                        | ACTIVE
        req 2030   | 1       | IDLE    | 1                        | ACTIVE
        req EVT+   | 1       | ACTIVE  | 1                        | ACTIVE
        req EVT    | 1       | 1       | ACTIVE                   | 1
        data 4080  | PENDING | abort   | ACTIVE-PENDING           | abort
        data 10    | abort   | abort   | IDLE ind 10 data-req 3980 | abort''',
    'PC': '''
        what       | IDLE    | PENDING | ACTIVE                   | ACTIVE-PENDING
        req 3880   | 1       | ACTIVE  | 1                        | ACTIVE
        req 2a0170 | 1       | ACTIVE  | 1                        | ACTIVE
        req 20b0   | 1       | IDLE    | 1                        | ACTIVE
        req PER+   | 1       | ACTIVE  | 1                        | ACTIVE
        req PER    | 1       | 1       | ACTIVE                   | 1
        data 640400 | PENDING | abort  | ACTIVE-PENDING           | abort
        data 640420 | PENDING | abort  | ACTIVE-PENDING           | abort
        data 14    | abort   | abort   | IDLE ind 14 data-req 3a00 | abort''',
    'EM': '''
        what       | IDLE    | ACTIVE                       | MODIFY | CANCEL
        req EMG    | ACTIVE  | ACTIVE                       | 1      | 1
        req EMG+   | 1       | 1                            | ACTIVE | 1
        req 00     | 1       | CANCEL data-req 00 start EM3 | 1      | 1
        req 22b0   | 1       | 1                            | ACTIVE | 1
        data 20    | abort   | abort                        | abort  | IDLE stop EM3
        data 5840  | abort   | MODIFY                       | abort  | CANCEL -''',
}

# How a module comes to a state, with LI in ACTIVE and the others IDLE.
WAYS = {
    ('DC', 'PENDING'): ['data 3000'], ('DC', 'ACTIVE'): ['data 3000', 'req 2800'],
    ('EC', 'PENDING'): ['data 4080'], ('EC', 'ACTIVE'): ['data 4080', 'req 3800'],
    ('EC', 'ACTIVE-PENDING'): ['data 4080', 'req 3800', 'data 4004'],
    ('PC', 'PENDING'): ['data 6000'], ('PC', 'ACTIVE'): ['data 6000', 'req 3880'],
    ('PC', 'ACTIVE-PENDING'): ['data 6000', 'req 3880', 'data 640400'],
    ('EM', 'ACTIVE'): ['req EMG'], ('EM', 'MODIFY'): ['req EMG', 'data 5840'], ('EM', 'CANCEL'): ['req EMG', 'req 00'],
}
ANY_WAY = ['start-ind 3000', 'req 2130']

# "Requests to stop operation" (000:83, 205, 407, 529): what ends the link, the entries, those with EM3 running.
ENDS = {
    'end-ind 00': ('ind 00 end-rsp 3b00', 'ind 00 end-rsp 3b00 stop EM3'),
    'end-ind': ('end-rsp', 'end-rsp stop EM3'),
    'end-ind 3000': ('abort-req 4100 ind abort 2', 'stop EM3 abort-req 4100 ind abort 2'),
    'data 00': ('abort-req 4100 ind abort 2', 'stop EM3 abort-req 4100 ind abort 2'),
    'user-abort': ('abort-req', 'stop EM3 abort-req'),
    'peer-abort': ('ind peer-abort', 'stop EM3 ind peer-abort'),
    'ground-abort 75': ('ind abort 5', 'stop EM3 ind abort 5'),
    'ground-abort 5840': ('ind abort 6', 'stop EM3 ind abort 6'),
    'down': ('ind abort 0', 'stop EM3 ind abort 0'),
}

# LI (000, 5-19; 002, 2.2.1.5-74 and its text), with an event contract: IDLE; START, where EC waits; ACTIVE, with the contract agreed.
LI_WAYS = {'IDLE': [], 'START': ['start-ind 4080'], 'ACTIVE': ['start-ind 4080', 'req 3800']}
LI_TABLE = '''
    what            | IDLE                                  | START                        | ACTIVE
    start-ind 3000  | START ind 3000                        | 2                            | 2
    start-ind 4080  | START ind 4080                        | 2                            | 2
    start-ind 6000  | START ind 6000                        | 2                            | 2
    start-ind 640420 | START ind 640420                     | 2                            | 2
    start-ind 640421 | IDLE abort-req 4100 ind abort 2      | 2                            | 2
    start-ind       | IDLE abort-req 4100 ind abort 2       | 2                            | 2
    start-ind 00    | IDLE abort-req 4100 ind abort 2       | 2                            | 2
    start-ind 20    | IDLE abort-req 4100 ind abort 2       | 2                            | 2
    start-ind 74    | IDLE abort-req 4100 ind abort 2       | 2                            | 2
    start-ind 4000  | IDLE abort-req 4100 ind abort 2       | 2                            | 2
    req 3800        | 1                                     | ACTIVE start-rsp 3800        | 1
    req 2900        | 1                                     | ACTIVE start-rsp 2900        | 1
    req 2030        | 1                                     | ACTIVE start-rsp 2030        | 1
    req EVT+        | 1                                     | ACTIVE start-rsp EVT+        | 1
    req EVT         | 1                                     | 1                            | ACTIVE data-req EVT
    req EMG         | 1                                     | 1                            | ACTIVE data-req EMG
    req 00          | 1                                     | 1                            | 1
    req 3900        | 1                                     | 1                            | 1
    req 4200        | 1                                     | 1                            | 1
    data 3000       | 2                                     | 2                            | ACTIVE ind 3000
    data 6000       | 2                                     | 2                            | ACTIVE ind 6000
    data 14         | 2                                     | 2                            | IDLE abort-req 4180 ind abort 3
    data            | 2                                     | 2                            | IDLE abort-req 4100 ind abort 2
    data 00         | 2                                     | 2                            | IDLE abort-req 4100 ind abort 2
    data 74         | 2                                     | 2                            | IDLE abort-req 4100 ind abort 2
    data 640420     | 2                                     | 2                            | ACTIVE ind 640420
    data 64042000   | 2                                     | 2                            | IDLE abort-req 4100 ind abort 2
    end-ind         | 2                                     | 2                            | IDLE end-rsp
    end-ind 00      | 2                                     | 2                            | IDLE ind 00 end-rsp 3b00
    end-ind 0000    | 2                                     | 2                            | IDLE abort-req 4100 ind abort 2
    end-ind 74      | 2                                     | 2                            | IDLE abort-req 4100 ind abort 2
    user-abort      | 1                                     | IDLE abort-req               | IDLE abort-req
    peer-abort      | 2                                     | IDLE ind peer-abort          | IDLE ind peer-abort
    ground-abort 70 | 2                                     | IDLE ind abort 0             | IDLE ind abort 0
    ground-abort 77 | 2                                     | IDLE ind abort 7             | IDLE ind abort 7
    ground-abort    | 2                                     | IDLE ind abort 6             | IDLE ind abort 6
    ground-abort 00 | 2                                     | IDLE ind abort 6             | IDLE ind abort 6
    down            | 2                                     | IDLE ind abort 0             | IDLE ind abort 0
    elapse 86400    | IDLE -                                | START -                      | ACTIVE -
    elapse 86401    | 4                                     | 4                            | 4'''

# what: calls after SET, each with the answer due
CASES = {
    'a periodic contract of a minute, an emergency modified, its end crossed by a modify (figures 29, 30), a cancel': '''
        start-ind 640400 | ok ind 640400
        req 3880        | ok start-rsp 3880
        req EMG         | ok data-req EMG
        data 5840       | ok ind 5840
        req EMG+        | ok data-req EMG+
        req 00          | ok data-req 00 start EM3
        data 5840       | ok
        elapse 359      | ok
        data 20         | ok stop EM3
        data 14         | ok ind 14 data-req 3a00
        end-ind         | ok end-rsp
        data 3000       | refused 2''',
    'LI stays ACTIVE after the last contract': '''
        start-ind 3000  | ok ind 3000
        req DEM+        | ok start-rsp DEM+
        elapse 86400    | ok
        data 3000       | ok ind 3000
        req 2130        | ok data-req 2130
        req EMG         | ok data-req EMG
        end-ind         | ok end-rsp
        req EMG         | refused 1''',
    'a modify refused with each reason; a positive ack is none': '''
        start-ind 6000  | ok ind 6000
        req 3880        | ok start-rsp 3880
        req EMG         | ok data-req EMG
        data 5840       | ok ind 5840
        req 3a80        | refused 1
        req 2280        | ok data-req 2280
        data 5840       | ok ind 5840
        req 2290        | ok data-req 2290
        data 5840       | ok ind 5840
        req 22b0        | ok data-req 22b0''',
    'EM3 has its setting anew at each start, and nothing else loads it': '''
        start-ind 4080  | ok ind 4080
        req 3800        | ok start-rsp 3800
        req EMG         | ok data-req EMG
        req 00          | ok data-req 00 start EM3
        elapse 300      | ok
        data 20         | ok stop EM3
        req EMG         | ok data-req EMG
        req 00          | ok data-req 00 start EM3
        elapse 300      | ok
        data 5840       | ok
        req EVT         | ok data-req EVT
        req 00          | refused 1
        elapse 59       | ok
        elapse 0        | ok
        elapse 86401    | refused 4
        elapse 1        | ok stop EM3 abort-req 4200 ind abort 4
        elapse 86400    | ok''',
    'EM3 ends at its last second': '''
        start-ind 4080  | ok ind 4080
        req 3800        | ok start-rsp 3800
        req EMG         | ok data-req EMG
        elapse 86400    | ok
        req 00          | ok data-req 00 start EM3
        elapse 360      | ok stop EM3 abort-req 4200 ind abort 4
        user-abort      | refused 1''',
    'requests that do not read, and 17 before 1': '''
        req             | refused 17
        req 3c          | refused 17
        req 380000      | refused 17
        req 4200        | refused 1
        start-ind 3000  | ok ind 3000
        req 281100      | refused 17
        req 3800        | refused 1''',
}

# Records: LI's state, a module that is not IDLE and its state, EM3's seconds left of 360, or of another setting; and whether that is good
# by refusal 29.
RECORDS = [
    ('IDLE', 'DC', 'IDLE', 0, 360, True), ('START', 'DC', 'IDLE', 0, 360, True), ('ACTIVE', 'DC', 'IDLE', 0, 360, True),
    *(('IDLE', module, state, 360 if state == 'CANCEL' else 0, 360, False) for module in MODULES for state in STATES[module][1:]),
    *((li, module, state, 0, 360, True) for li in ('START', 'ACTIVE') for module in MODULES for state in STATES[module][1:]
      if state != 'CANCEL'),
    *((li, 'EM', 'CANCEL', left, 360, good) for li in ('START', 'ACTIVE')
      for left, good in ((0, False), (1, True), (359, True), (360, True), (361, False))),
    *(('ACTIVE', 'EM', state, 1, 360, False) for state in ('IDLE', 'ACTIVE', 'MODIFY')), ('ACTIVE', 'PC', 'ACTIVE', 1, 360, False),
    *(('ACTIVE', 'EM', 'IDLE', 0, setting, good) for setting, good in ((0, False), (1, True), (86400, True), (86401, False))),
]

# Whole scripts and traces, and lines (01, script words; F75).
WHOLE = {
    'no line': (b'', b'adsc air trace 1\nend 0\n'),
    'an empty line': (b'\n', b'adsc air trace 1\n1 refused 17\nend 1\n'),
    'no last LF': (b'set 1\ndown', b'adsc air trace 1\n1 ok\n2 refused 2\nend 2\n'),
}
LINES = [
    ('set', 17), ('set 0', 3), ('set 86401', 3), ('elapse 0', 17), ('set 4294967296', 17), ('set 4294967295', 3), ('set 01', 17),
    ('set 1 ', 17), ('set 1 1', 17), ('set 0 0', 17), ('start-ind 3000', 17), ('set 86400', None), ('set 1', 17), ('set 0', 17),
    ('elapse 4294967295', 4), ('elapse 4294967296', 17), ('elapse 00', 17), ('elapse -0', 17), ('elapse', 17),
    ('data', 2), ('data 9999999999', 2), ('data ', 17), ('data 0', 17), ('data 3B80', 17), ('data  00', 17), (' data 00', 17),
    ('end-ind', 2), ('end-ind ', 17), ('end-ind 0', 17), ('start-ind ', 17), ('ground-abort', 2), ('ground-abort ', 17),
    ('down ', 17), ('down\r', 17), ('down 00', 17), ('Down', 17), ('down\0', 17), ('down\xff', 17), ('peer-abort 00', 17),
    ('start-cnf 2130', 17), ('start-rej', 17), ('end-cnf', 17), ('air-abort 4200', 17), ('start-rsp 2130', 17), ('ind 00', 17),
    ('ground-abort ' + '00' * 2041, 2), ('ground-abort ' + '00' * 2042, 17), ('data ' + '00' * 2045, 2), ('data ' + '00' * 2046, 17),
]


def cells(table):
    """(what, state, cell) each."""
    head, *rows = [[part.strip() for part in line.split('|')] for line in table.strip().split('\n')]
    return [(row[0], state, cell) for row in rows for state, cell in zip(head[1:], row[1:])]


def led(calls):
    box = Box()
    for call in [SET, *calls]:
        answer = box.answer(spelled(call).encode())
        assert answer.startswith('ok'), (call, answer)
    return box


def due(call, cell):
    """The answer and the next state of a cell."""
    if cell.isdigit():
        return f'refused {cell}', None
    state, _, entries = cell.partition(' ')
    plain = ('data-req ' if call.startswith('req') else 'ind ') + call.split()[-1]
    return spelled('ok ' + (entries or plain)).removesuffix(' -'), state


def check_module(module, call, state, cell):
    box = led([*ANY_WAY, *WAYS.get((module, state), [])])
    others = {**box.link.state, module: None}
    answer = box.answer(spelled(call).encode())
    if cell == 'abort':
        stop = 'stop EM3 ' if state == 'CANCEL' else ''
        CHECKS.check(f'{module} {state}, {call}', (answer, box.link.li), (f'ok {stop}abort-req 4180 ind abort 3', 'IDLE'))
        return
    wanted, after = due(call, cell)
    CHECKS.check(f'{module} {state}, {call}', (answer, box.link.state, box.link.li), (wanted, {**others, module: after or state}, 'ACTIVE'))
    CHECKS.check(f'{module} {state}, {call}: EM3', box.link.left, {'EM3': 360} if box.link.state['EM'] == 'CANCEL' else {})


def check_end(module, state, call):
    box = led([*ANY_WAY, *WAYS.get((module, state), [])])
    answer = box.answer(call.encode())
    CHECKS.check(f'{module} {state}, {call}', answer, 'ok ' + ENDS[call][state == 'CANCEL'])
    CHECKS.check(f'{module} {state}, {call}: after', (box.link.li, box.link.all_idle(), box.link.left), ('IDLE', True, {}))


def check_li(call, state, cell):
    box = led(LI_WAYS[state])
    wanted, after = due(call, cell)
    answer = box.answer(spelled(call).encode())
    CHECKS.check(f'LI {state}, {call}', (answer, box.link.li), (wanted, after or state))


def record(li, module, state, left, setting):
    link = Link(RULES, [setting])
    link.li, link.state[module] = li, state
    link.left = {'EM3': left} if left else {}
    return link


for module, table in TABLES.items():
    for call, state, cell in cells(table):
        check_module(module, call, state, cell)
    for state in STATES[module]:
        for call in ENDS:
            check_end(module, state, call)
assert {state for _, state, _ in cells(LI_TABLE)} == set(LI_STATES)
for call, state, cell in cells(LI_TABLE):
    check_li(call, state, cell)
CHECKS.wholes(WHOLE)
CHECKS.cases(CASES, SET)
CHECKS.lines(LINES)
for *numbers, wanted in RECORDS:
    CHECKS.check(f'record {numbers}', record(*numbers).good(), wanted)
CHECKS.end()
