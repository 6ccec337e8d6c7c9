"""Checks of linkmodel.py against page 01 and L2, L5 and L8 of 02: the page's example, and traces and records worked out by hand."""

from byhand import Checks
from linkmodel import RULES, Link, trace

CHECKS = Checks('linkmodel', trace)
SET = 'set 10 20 30 40 50 60 70 80 90 100'

# what: calls after SET, each with the answer due
CASES = {
    'an event contract': '''
        req 4080        | ok start-req 4080 start EC1
        start-cnf 3800  | ok stop EC1 ind 3800
        data EVT        | ok ind EVT
        req 4004        | ok data-req 4004 start EC1
        data EVT        | ok ind EVT
        data 2000       | ok stop EC1 ind 2000
        req 10          | ok data-req 10 start EC2
        data EVT        | ok ind EVT
        req 10          | refused 1
        data 3980       | ok stop EC2 ind 3980 end-req start LI1
        data EVT        | ok late
        data            | ok late
        req 4080        | refused 1
        end-cnf         | ok stop LI1
        end-cnf         | refused 2''',
    'a periodic contract, PC2 last': '''
        req 6000        | ok start-req 6000 start PC1
        start-cnf 2a00  | ok stop PC1 ind 2a00 start PC2
        data PER        | ok stop PC2 ind PER start PC2
        req 640400      | ok stop PC2 data-req 640400 start PC1
        data PER        | ok ind PER
        data 20b0       | ok stop PC1 ind 20b0 start PC2
        req 14          | ok stop PC2 data-req 14 start PC3
        data 3a00       | ok stop PC3 ind 3a00 end-req start LI1''',
    'no PC2 on an acknowledgement during an emergency': '''
        req 6000        | ok start-req 6000 start PC1
        start-cnf EMG   | ok ind EMG start EM1
        data 3880       | ok stop PC1 ind 3880
        data PER        | ok ind PER
        req 6000        | ok data-req 6000 start PC1
        data PER+       | ok stop PC1 ind PER+
        data 00         | ok stop EM1 ind 00 data-req 20 start PC2
        data EMG        | ok stop PC2 ind EMG start EM1
        req 14          | ok data-req 14 start PC3''',
    'EM1 is not restarted in MODIFY': '''
        req 3000        | ok start-req 3000 start DC1
        start-cnf EMG   | ok ind EMG start EM1
        req 5840        | ok stop EM1 data-req 5840 start EM2
        data EMG        | ok ind EMG
        data 3a80       | ok stop EM2 ind 3a80 start EM1
        req 5840        | ok stop EM1 data-req 5840 start EM2
        data EMG+       | ok stop EM2 ind EMG+ start EM1
        data EMG        | ok stop EM1 ind EMG start EM1
        data 2130       | ok stop DC1 ind 2130
        data 00         | ok stop EM1 ind 00 data-req 20 end-req start LI1''',
    'the negative ack to a modify is not listed': '''
        req 3000        | ok start-req 3000 start DC1
        start-cnf EMG   | ok ind EMG start EM1
        req 5840        | ok stop EM1 data-req 5840 start EM2
        data 22b0       | ok stop DC1 stop EM2 abort-req 73 ind abort 3''',
    'a demand contract with noncompliance': '''
        req 3000        | ok start-req 3000 start DC1
        start-cnf 2800  | ok stop DC1 ind 2800 start DC2
        req 3000        | refused 1
        data DEM        | ok stop DC2 ind DEM end-req start LI1''',
    'a plain report in PENDING': '''
        req 3000        | ok start-req 3000 start DC1
        start-cnf DEM   | ok stop DC1 abort-req 73 ind abort 3
        data DEM        | refused 2''',
    'the start confirm': '''
        req 3000        | ok start-req 3000 start DC1
        req 6000        | refused 1
        data 2130       | refused 2
        end-cnf         | refused 2
        start-rej       | ok stop DC1 ind abort 5
        start-rej       | refused 2
        req 3000        | ok start-req 3000 start DC1
        start-cnf       | ok stop DC1 abort-req 72 ind abort 2
        req 3000        | ok start-req 3000 start DC1
        start-cnf 4200  | ok stop DC1 abort-req 73 ind abort 3''',
    'stops in watch order, cancel-all': '''
        req 6000        | ok start-req 6000 start PC1
        start-cnf 3880  | ok stop PC1 ind 3880 start PC2
        data EMG        | ok stop PC2 ind EMG start EM1
        req 4080        | ok data-req 4080 start EC1
        req 3000        | ok data-req 3000 start DC1
        req 6000        | ok data-req 6000 start PC1
        req 00          | ok stop DC1 stop EC1 stop PC1 stop EM1 end-req 00 start LI1
        elapse 99       | ok
        req 00          | refused 1
        user-abort      | ok stop LI1 abort-req''',
    'aborts': '''
        user-abort      | refused 1
        down            | refused 2
        peer-abort      | refused 2
        air-abort 4200  | refused 2
        req 00          | refused 1
        req 3000        | ok start-req 3000 start DC1
        user-abort      | ok stop DC1 abort-req
        req 3000        | ok start-req 3000 start DC1
        down            | ok stop DC1 ind abort 0
        req 3000        | ok start-req 3000 start DC1
        peer-abort      | ok stop DC1 ind peer-abort
        req 3000        | ok start-req 3000 start DC1
        air-abort 4200  | ok stop DC1 ind abort 4
        req 3000        | ok start-req 3000 start DC1
        air-abort 00    | ok stop DC1 ind abort 6
        req 3000        | ok start-req 3000 start DC1
        air-abort       | ok stop DC1 ind abort 6''',
    'the clock': '''
        elapse 86400    | ok
        req 3000        | ok start-req 3000 start DC1
        elapse 9        | ok
        elapse 0        | ok
        elapse 86401    | refused 4
        elapse 1        | ok stop DC1 abort-req 74 ind abort 4
        req 4080        | ok start-req 4080 start EC1
        start-cnf 3800  | ok stop EC1 ind 3800
        elapse 86400    | ok
        req 3000        | ok data-req 3000 start DC1
        req 4080        | ok data-req 4080 start EC1
        elapse 9        | ok
        data 2130       | ok stop DC1 ind 2130
        elapse 20       | ok
        req 3000        | ok data-req 3000 start DC1
        elapse 1        | ok stop DC1 stop EC1 abort-req 74 ind abort 4''',
    'requests that are none, and 17 before 1': '''
        req 20          | refused 1
        req 74          | refused 1
        req             | refused 17
        req 640421      | refused 17
        req 64042000    | refused 17
        req 3000        | ok start-req 3000 start DC1
        req 20          | refused 1
        req 4000        | refused 17''',
}

# Intervals (02, L2): PC2 is set to 60, and runs for the interval in force and those.
CASES.update({
    f'PC2 after {asked}': f"""
        req {asked}             | ok start-req {asked} start PC1
        start-cnf 3880          | ok stop PC1 ind 3880 start PC2
        elapse {interval + 59}  | ok
        data PER                | ok stop PC2 ind PER start PC2
        elapse {interval + 59}  | ok
        elapse 1                | ok stop PC2 abort-req 74 ind abort 4"""
    for asked, interval in (('640000', 1), ('6403a0', 59), ('640400', 60), ('6000', 300), ('6407b8', 7200))})
# 5 minutes that are sent go as they are written, without them (02, L5).
CASES['5 minutes sent'] = '''
        req 640420      | ok start-req 6000 start PC1
        req 640420      | refused 1
        start-cnf 3880  | ok stop PC1 ind 3880 start PC2
        elapse 359      | ok
        data PER        | ok stop PC2 ind PER start PC2
        elapse 360      | ok stop PC2 abort-req 74 ind abort 4
        req 640400      | ok start-req 640400 start PC1
        start-cnf 3880  | ok stop PC1 ind 3880 start PC2
        req 67e4200008101820 | ok stop PC2 data-req 63e00008101820 start PC1
        data PER+       | ok stop PC1 ind PER+ start PC2
        elapse 359      | ok
        req 00          | ok stop PC2 end-req 00 start LI1
        req 640420      | refused 1
        end-cnf         | ok stop LI1'''
CHANGES = (('6407b8', 'PER+', 7200), ('640000', '3880', 1), ('6000', '2a00', 300), ('6407b8', '20b0', 60))
CASES.update({
    f'a change answered with {answer}': f"""
        req 640400              | ok start-req 640400 start PC1
        start-cnf 3880          | ok stop PC1 ind 3880 start PC2
        req {asked}             | ok stop PC2 data-req {asked} start PC1
        data PER                | ok ind PER
        data {answer}           | ok stop PC1 ind {answer} start PC2
        elapse {interval + 59}  | ok
        data PER                | ok stop PC2 ind PER start PC2
        elapse {interval + 60}  | ok stop PC2 abort-req 74 ind abort 4"""
    for asked, answer, interval in CHANGES})
CASES.update({
    f'a change answered with {answer} in an emergency': f"""
        req 640400              | ok start-req 640400 start PC1
        start-cnf 3880          | ok stop PC1 ind 3880 start PC2
        data EMG                | ok stop PC2 ind EMG start EM1
        req {asked}             | ok data-req {asked} start PC1
        data {answer}           | ok stop PC1 ind {answer}
        data 00                 | ok stop EM1 ind 00 data-req 20 start PC2
        elapse {interval + 59}  | ok
        elapse 1                | ok stop PC2 abort-req 74 ind abort 4"""
    for asked, answer, interval in CHANGES})
CASES['a change accepted and one refused in an emergency; the modify has an interval of its own'] = '''
        req 640400      | ok start-req 640400 start PC1
        start-cnf 3880  | ok stop PC1 ind 3880 start PC2
        data EMG        | ok stop PC2 ind EMG start EM1
        req 6000        | ok data-req 6000 start PC1
        data 3880       | ok stop PC1 ind 3880
        req 6407b8      | ok data-req 6407b8 start PC1
        data 20b0       | ok stop PC1 ind 20b0
        req 5000        | ok stop EM1 data-req 5000 start EM2
        data 3a80       | ok stop EM2 ind 3a80 start EM1
        elapse 79       | ok
        data 00         | ok stop EM1 ind 00 data-req 20 start PC2
        elapse 359      | ok
        elapse 1        | ok stop PC2 abort-req 74 ind abort 4'''

# END (02, L8): LI1 is set to 100, starts with the end request, and neither late data nor refused calls move it.
DEMAND = '''
        req 3000        | ok start-req 3000 start DC1
        start-cnf DEM+  | ok stop DC1 ind DEM+ end-req start LI1'''
CANCEL_ALL = '''
        req 6000        | ok start-req 6000 start PC1
        start-cnf 3880  | ok stop PC1 ind 3880 start PC2
        req 00          | ok stop PC2 end-req 00 start LI1'''
CANCELLED = '''
        req 4080        | ok start-req 4080 start EC1
        start-cnf 3800  | ok stop EC1 ind 3800
        req 10          | ok data-req 10 start EC2
        data 3980       | ok stop EC2 ind 3980 end-req start LI1'''
EXPIRED = 'ok stop LI1 abort-req 74 ind abort 4'
for how, closing in (('an answer to the start', DEMAND), ('cancel-all', CANCEL_ALL), ('data', CANCELLED)):
    CASES.update({
        f'END after {how}: one second is left, then none': f'''{closing}
        elapse 99       | ok
        elapse 0        | ok
        elapse 1        | {EXPIRED}
        end-cnf         | refused 2
        elapse 86400    | ok''',
        f'END after {how}: at its end': f'''{closing}
        elapse 100      | {EXPIRED}
        data DEM        | refused 2
        user-abort      | refused 1''',
        f'END after {how}: beyond its end': f'''{closing}
        elapse 101      | {EXPIRED}
        req 3000        | ok start-req 3000 start DC1
        elapse 9        | ok''',
        f'END after {how}: a day': f'''{closing}
        elapse 86401    | refused 4
        elapse 86400    | {EXPIRED}''',
        f'END after {how}: late data, refused calls': f'''{closing}
        elapse 60       | ok
        data EMG        | ok late
        data            | ok late
        data ff         | ok late
        elapse 39       | ok
        req 3000        | refused 1
        req 00          | refused 1
        start-cnf 2130  | refused 2
        start-rej       | refused 2
        elapse 86401    | refused 4
        data DEM        | ok late
        elapse 1        | {EXPIRED}''',
        f'END after {how}: confirmed at the last second': f'''{closing}
        elapse 99       | ok
        end-cnf         | ok stop LI1
        elapse 86400    | ok
        end-cnf         | refused 2
        req 3000        | ok start-req 3000 start DC1
        elapse 9        | ok''',
        f'END after {how}: LI1 loads anew': f'''{closing}
        elapse 99       | ok
        end-cnf         | ok stop LI1
        req 3000        | ok start-req 3000 start DC1
        start-cnf 2130  | ok stop DC1 ind 2130 end-req start LI1
        elapse 99       | ok
        elapse 1        | {EXPIRED}''',
    })
    CASES.update({
        f'END after {how}: {call}': f'''{closing}
        elapse 99       | ok
        {call}          | ok stop LI1 {said}
        elapse 86400    | ok'''
        for call, said in (('user-abort', 'abort-req'), ('down', 'ind abort 0'), ('peer-abort', 'ind peer-abort'), ('air-abort 4200', 'ind abort 4'),
                           ('air-abort', 'ind abort 6'))})
CASES['LI1 runs in END alone'] = '''
        req 4080        | ok start-req 4080 start EC1
        start-cnf 3800  | ok stop EC1 ind 3800
        elapse 86400    | ok
        data EMG        | ok ind EMG start EM1
        data 00         | ok stop EM1 ind 00 data-req 20
        elapse 86400    | ok
        user-abort      | ok abort-req'''
CASES['an abort at the last data is no end request'] = '''
        req 3000        | ok start-req 3000 start DC1
        start-cnf DEM   | ok stop DC1 abort-req 73 ind abort 3
        elapse 86400    | ok
        req 3000        | ok start-req 3000 start DC1
        start-cnf       | ok stop DC1 abort-req 72 ind abort 2
        elapse 86400    | ok'''

# Records: PC's state, the interval asked for, the one in force, PC2's seconds left of its 60 and those, whether there is an
# emergency; and whether that is good by refusal 29.
RECORDS = [
    # "an interval missing from its state, foreign to it, or over 7,200" (02, L2)
    ('IDLE', 0, 0, 0, False, True), ('IDLE', 1, 0, 0, False, False), ('IDLE', 0, 1, 0, False, False),
    ('START-PENDING', 1, 0, 0, False, True), ('START-PENDING', 7200, 0, 0, False, True), ('START-PENDING', 0, 0, 0, False, False),
    ('START-PENDING', 7201, 0, 0, False, False), ('START-PENDING', 1, 1, 0, False, False),
    ('PENDING', 1, 7200, 0, False, True), ('PENDING', 7200, 1, 0, True, True), ('PENDING', 0, 1, 0, False, False),
    ('PENDING', 1, 0, 0, False, False), ('PENDING', 7201, 1, 0, False, False), ('PENDING', 1, 7201, 0, False, False),
    ('CANCEL', 0, 1, 0, False, True), ('CANCEL', 0, 7200, 0, True, True), ('CANCEL', 0, 0, 0, False, False), ('CANCEL', 1, 1, 0, False, False),
    ('CANCEL', 0, 7201, 0, False, False),
    ('ACTIVE', 0, 1, 0, True, True), ('ACTIVE', 0, 0, 0, True, False), ('ACTIVE', 0, 7201, 0, True, False), ('ACTIVE', 1, 1, 0, True, False),
    # ""no more than interval plus grace" for PC2"
    ('ACTIVE', 0, 1, 1, False, True), ('ACTIVE', 0, 1, 61, False, True), ('ACTIVE', 0, 1, 62, False, False), ('ACTIVE', 0, 7200, 7260, False, True),
    ('ACTIVE', 0, 7200, 7261, False, False), ('ACTIVE', 0, 7201, 60, False, False), ('ACTIVE', 1, 1, 60, False, False),
    ('ACTIVE', 0, 1, 0, False, False), ('ACTIVE', 0, 1, 60, True, False),
]

# Whole scripts and traces: the example of 01 with ten settings (02, L8), and lines (its script words).
WHOLE = {
    'the example': (
        b'set 60 60 60 60 60 60 60 60 60 60\nreq 3000\nstart-cnf 2130\nend-cnf\nelapse 86401\n',
        b'adsc trace 1\n1 ok\n2 ok start-req 3000 start DC1\n3 ok stop DC1 ind 2130 end-req start LI1\n4 ok stop LI1\n5 refused 4\nend 5\n'),
    'no line': (b'', b'adsc trace 1\nend 0\n'),
    'an empty line': (b'\n', b'adsc trace 1\n1 refused 17\nend 1\n'),
    'no last LF': (b'down\ndown', b'adsc trace 1\n1 refused 17\n2 refused 17\nend 2\n'),
}
LINES = [
    ('set 1 1 1 1 1 1 1 1 1', 17), ('set 1 1 1 1 1 1 1 1 0', 17), ('set 1 1 1 1 1 1 1 1 1 1 1', 17), ('set 1 1 1 1 1 1 1 1 1 0', 3),
    ('set 1 1 1 1 1 1 1 1 1 86401', 3), ('set 1 1 1 1 1 1 1 1 0 1', 3), ('elapse 0', 17),
    ('set 1 1 1 1 1 1 1 1 4294967296 0', 17), ('set 0 1 1 1 1 1 1 1 1 4294967295', 3), ('set 1 1 1 1 1 1 1 1 1 01', 17),
    ('set 1 1 1 1 1 1 1 1 1 1 ', 17), ('set 86400 1 1 1 1 1 1 1 1 86400', None), ('set 1 1 1 1 1 1 1 1 1 1', 17), ('set 0 1', 17),
    ('elapse 4294967295', 4), ('elapse 4294967296', 17), ('elapse 00', 17), ('elapse -0', 17), ('elapse', 17),
    ('data', 2), ('data 9999999999', 2), ('data ', 17), ('data 0', 17),
    ('data 3B80', 17), ('data  00', 17), (' data 00', 17), ('data\t00', 17),
    ('down ', 17), ('down\r', 17), ('down 00', 17), ('Down', 17), ('down\0', 17), ('down\xff', 17), ('ind 00', 17),
    ('air-abort ' + '00' * 2043, 2), ('air-abort ' + '00' * 2044, 17), ('data ' + '00' * 2045, 2), ('data ' + '00' * 2046, 17),
]


def record(pc, asked, force, left, emergency):
    """A link with its other timers fresh."""
    link = Link(RULES, range(10, 110, 10))
    link.li = 'IDLE' if pc == 'IDLE' else 'ACTIVE'
    link.state.update(PC=pc, EM='ACTIVE' if emergency else 'IDLE')
    link.asked, link.force = asked, force
    link.left = {timer: link.settings[timer] for timer in link.watched() if timer != 'PC2'} | ({'PC2': left} if left else {})
    return link


# Records of LI: its state, LI1's seconds left of 100; all modules are IDLE. "runs exactly in END" (02, L8).
LI_RECORDS = [('END', 1, True), ('END', 100, True), ('END', 0, False), ('END', 101, False), ('IDLE', 0, True), ('IDLE', 1, False), ('START', 100, False),
              ('ACTIVE', 100, False), ('ACTIVE', 0, True)]


def li_record(li, left):
    link = Link(RULES, range(10, 110, 10))
    link.li, link.left = li, {'LI1': left} if left else {}
    return link


CHECKS.wholes(WHOLE)
CHECKS.cases(CASES, SET)
CHECKS.lines(LINES)
for *numbers, wanted in RECORDS:
    CHECKS.check(f'record {numbers}', record(*numbers).good(), wanted)
for *numbers, wanted in LI_RECORDS:
    CHECKS.check(f'record {numbers}', li_record(*numbers).good(), wanted)
CHECKS.end()
