"""Checks of flightmodel.py against docs/FLIGHT.md, worked out by hand."""

from byhand import Checks, spelled
from flightmodel import MOST, heard, trace

CHECKS = Checks('flightmodel', trace)

G, A = 'ground set 60 60 60 60 60 60 60 60 60 60', 'air set 60'

# What: lines, each with its answer behind `|`, and behind that what came or was lost; behind `=` the states of the ground, those of the aircraft where they are others,
# and how much is under way, 0 if nothing stands there. Both ends have their settings.
FLIGHTS = {
    'agreed, reported, cancelled': '''
        ground req 640400 | ground ok start-req 640400 start PC1
        deliver           | ok | air start-ind 640400 ok ind 640400
        air req 3880      | air ok start-rsp 3880
        air req PER       | air ok data-req PER
        deliver           | ok | ground start-cnf 3880 ok stop PC1 ind 3880 start PC2 | ground data PER ok stop PC2 ind PER start PC2
        ground req 14     | ground ok stop PC2 data-req 14 start PC3
        deliver           | ok | air data 14 ok ind 14 data-req 3a00
        deliver           | ok | ground data 3a00 ok stop PC3 ind 3a00 end-req start LI1
        deliver           | ok | air end-ind ok end-rsp
        deliver           | ok | ground end-cnf ok stop LI1
        = LI-IDLE DC-IDLE EC-IDLE PC-IDLE EM-IDLE''',
    'the oldest first, whichever way it goes': '''
        ground req 4080   | ground ok start-req 4080 start EC1
        deliver 1         | ok | air start-ind 4080 ok ind 4080
        air req 3800      | air ok start-rsp 3800
        deliver 1         | ok | ground start-cnf 3800 ok stop EC1 ind 3800
        ground req 3000   | ground ok data-req 3000 start DC1
        air req EVT       | air ok data-req EVT
        ground req 4004   | ground ok data-req 4004 start EC1
        deliver 2         | ok | air data 3000 ok ind 3000 | ground data EVT ok ind EVT
        air req 2130      | air ok data-req 2130
        deliver 1         | ok | air data 4004 ok ind 4004
        = LI-ACTIVE DC-PENDING EC-PENDING PC-IDLE EM-IDLE = LI-ACTIVE DC-IDLE EC-ACTIVE-PENDING PC-IDLE EM-IDLE = 1''',
    'what is sent meanwhile waits': '''
        ground req 3000   | ground ok start-req 3000 start DC1
        deliver           | ok | air start-ind 3000 ok ind 3000
        air req 2130      | air ok start-rsp 2130
        deliver           | ok | ground start-cnf 2130 ok stop DC1 ind 2130 end-req start LI1
        deliver 2         | refused 17
        = LI-END DC-IDLE EC-IDLE PC-IDLE EM-IDLE = LI-ACTIVE DC-IDLE EC-IDLE PC-IDLE EM-IDLE = 1''',
    'cancel-all, and a report that crosses it': '''
        ground req 640400 | ground ok start-req 640400 start PC1
        deliver           | ok | air start-ind 640400 ok ind 640400
        air req 3880      | air ok start-rsp 3880
        deliver           | ok | ground start-cnf 3880 ok stop PC1 ind 3880 start PC2
        air req PER       | air ok data-req PER
        ground req 00     | ground ok stop PC2 end-req 00 start LI1
        deliver           | ok | ground data PER ok late | air end-ind 00 ok ind 00 end-rsp 3b00
        deliver           | ok | ground end-cnf ok stop LI1
        = LI-IDLE DC-IDLE EC-IDLE PC-IDLE EM-IDLE''',
    'an emergency ack goes before the end': '''
        ground req 3000   | ground ok start-req 3000 start DC1
        deliver           | ok | air start-ind 3000 ok ind 3000
        air req 2800      | air ok start-rsp 2800
        air req EMG       | air ok data-req EMG
        air req DEM       | air ok data-req DEM
        air req 00        | air ok data-req 00 start EM3
        deliver           | ok | ground start-cnf 2800 ok stop DC1 ind 2800 start DC2 | ground data EMG ok ind EMG start EM1 | ground data DEM ok stop DC2 ind DEM | ground data 00 ok stop EM1 ind 00 data-req 20 end-req start LI1
        deliver           | ok | air data 20 ok stop EM3 | air end-ind ok end-rsp
        lose              | ok | ground end-cnf lost
        = LI-END DC-IDLE EC-IDLE PC-IDLE EM-IDLE = LI-IDLE DC-IDLE EC-IDLE PC-IDLE EM-IDLE''',
    'users abort': '''
        ground req 3000   | ground ok start-req 3000 start DC1
        ground user-abort | ground ok stop DC1 abort-req
        deliver           | ok | air start-ind 3000 ok ind 3000 | air peer-abort ok ind peer-abort
        ground req 3000   | ground ok start-req 3000 start DC1
        deliver           | ok | air start-ind 3000 ok ind 3000
        air user-abort    | air ok abort-req
        deliver           | ok | ground peer-abort ok stop DC1 ind peer-abort
        air user-abort    | air refused 1
        = LI-IDLE DC-IDLE EC-IDLE PC-IDLE EM-IDLE''',
    'a timer of the ground is used up, at both ends a second later': '''
        ground req 3000   | ground ok start-req 3000 start DC1
        elapse 59         | ground ok air ok
        elapse 0          | ground ok air ok
        elapse 1          | ground ok stop DC1 abort-req 74 ind abort 4 air ok
        deliver           | ok | air start-ind 3000 ok ind 3000 | air ground-abort 74 ok ind abort 4
        elapse 86401      | refused 4
        = LI-IDLE DC-IDLE EC-IDLE PC-IDLE EM-IDLE''',
    'both clocks end a wait: the ground is asked first': '''
        ground req 640400 | ground ok start-req 640400 start PC1
        deliver           | ok | air start-ind 640400 ok ind 640400
        air req 3880      | air ok start-rsp 3880
        air req EMG       | air ok data-req EMG
        deliver           | ok | ground start-cnf 3880 ok stop PC1 ind 3880 start PC2 | ground data EMG ok stop PC2 ind EMG start EM1
        air req 00        | air ok data-req 00 start EM3
        elapse 60         | ground ok stop EM1 abort-req 74 ind abort 4 air ok stop EM3 abort-req 4200 ind abort 4
        deliver 1         | ok | ground data 00 over
        deliver           | ok | air ground-abort 74 over | ground air-abort 4200 over
        = LI-IDLE DC-IDLE EC-IDLE PC-IDLE EM-IDLE''',
    'the aircraft aborts': '''
        ground req 640400 | ground ok start-req 640400 start PC1
        deliver           | ok | air start-ind 640400 ok ind 640400
        air req 3880      | air ok start-rsp 3880
        air req EMG       | air ok data-req EMG
        air req 00        | air ok data-req 00 start EM3
        elapse 59         | ground ok air ok
        deliver           | ok | ground start-cnf 3880 ok stop PC1 ind 3880 start PC2 | ground data EMG ok stop PC2 ind EMG start EM1 | ground data 00 ok stop EM1 ind 00 data-req 20 start PC2
        elapse 1          | ground ok air ok stop EM3 abort-req 4200 ind abort 4
        deliver           | ok | air data 20 over | ground air-abort 4200 ok stop PC2 ind abort 4
        = LI-IDLE DC-IDLE EC-IDLE PC-IDLE EM-IDLE''',
    'an answer to an old start is none to the new one': '''
        ground req 3000   | ground ok start-req 3000 start DC1
        deliver           | ok | air start-ind 3000 ok ind 3000
        air req 2800      | air ok start-rsp 2800
        ground user-abort | ground ok stop DC1 abort-req
        ground req 3000   | ground ok start-req 3000 start DC1
        air req DEM       | air ok data-req DEM
        air user-abort    | air ok abort-req
        deliver 1         | ok | ground start-cnf 2800 over
        deliver 1         | ok | air peer-abort over
        deliver 3         | ok | air start-ind 3000 ok ind 3000 | ground data DEM over | ground peer-abort over
        air req DEM+      | air ok start-rsp DEM+
        deliver           | ok | ground start-cnf DEM+ ok stop DC1 ind DEM+ end-req start LI1
        = LI-END DC-IDLE EC-IDLE PC-IDLE EM-IDLE = LI-ACTIVE DC-IDLE EC-IDLE PC-IDLE EM-IDLE = 1''',
    'a user who aborts an ending link hears no confirm': '''
        ground req 3000   | ground ok start-req 3000 start DC1
        deliver           | ok | air start-ind 3000 ok ind 3000
        air req 2130      | air ok start-rsp 2130
        deliver           | ok | ground start-cnf 2130 ok stop DC1 ind 2130 end-req start LI1
        ground user-abort | ground ok stop LI1 abort-req
        deliver 1         | ok | air end-ind ok end-rsp
        deliver           | ok | air peer-abort over | ground end-cnf over
        = LI-IDLE DC-IDLE EC-IDLE PC-IDLE EM-IDLE''',
    'a lost end request: LI1 ends the link at both ends': '''
        ground req 3000   | ground ok start-req 3000 start DC1
        deliver           | ok | air start-ind 3000 ok ind 3000
        air req 2130      | air ok start-rsp 2130
        deliver           | ok | ground start-cnf 2130 ok stop DC1 ind 2130 end-req start LI1
        lose              | ok | air end-ind lost
        elapse 59         | ground ok air ok
        ground req 3000   | ground refused 1
        elapse 1          | ground ok stop LI1 abort-req 74 ind abort 4 air ok
        deliver           | ok | air ground-abort 74 ok ind abort 4
        = LI-IDLE DC-IDLE EC-IDLE PC-IDLE EM-IDLE''',
    'a lost end confirm: the aircraft has ended, and hears no abort': '''
        ground req 3000   | ground ok start-req 3000 start DC1
        deliver           | ok | air start-ind 3000 ok ind 3000
        air req 2130      | air ok start-rsp 2130
        deliver           | ok | ground start-cnf 2130 ok stop DC1 ind 2130 end-req start LI1
        deliver           | ok | air end-ind ok end-rsp
        lose              | ok | ground end-cnf lost
        elapse 60         | ground ok stop LI1 abort-req 74 ind abort 4 air ok
        deliver           | ok | air ground-abort 74 over
        = LI-IDLE DC-IDLE EC-IDLE PC-IDLE EM-IDLE''',
    'reports that come late, an emergency too, give the end no more time': '''
        ground req 640400 | ground ok start-req 640400 start PC1
        deliver           | ok | air start-ind 640400 ok ind 640400
        air req 3880      | air ok start-rsp 3880
        deliver           | ok | ground start-cnf 3880 ok stop PC1 ind 3880 start PC2
        ground req 00     | ground ok stop PC2 end-req 00 start LI1
        lose              | ok | air end-ind 00 lost
        elapse 30         | ground ok air ok
        air req PER       | air ok data-req PER
        deliver           | ok | ground data PER ok late
        elapse 29         | ground ok air ok
        air req EMG       | air ok data-req EMG
        deliver           | ok | ground data EMG ok late
        elapse 1          | ground ok stop LI1 abort-req 74 ind abort 4 air ok
        deliver           | ok | air ground-abort 74 ok ind abort 4
        = LI-IDLE DC-IDLE EC-IDLE PC-IDLE EM-IDLE''',
    'LI1 and EM3 at once': '''
        ground req 640400 | ground ok start-req 640400 start PC1
        deliver           | ok | air start-ind 640400 ok ind 640400
        air req 3880      | air ok start-rsp 3880
        air req EMG       | air ok data-req EMG
        deliver           | ok | ground start-cnf 3880 ok stop PC1 ind 3880 start PC2 | ground data EMG ok stop PC2 ind EMG start EM1
        ground req 00     | ground ok stop EM1 end-req 00 start LI1
        air req 00        | air ok data-req 00 start EM3
        elapse 60         | ground ok stop LI1 abort-req 74 ind abort 4 air ok stop EM3 abort-req 4200 ind abort 4
        deliver           | ok | air end-ind 00 over | ground data 00 over | air ground-abort 74 over | ground air-abort 4200 over
        = LI-IDLE DC-IDLE EC-IDLE PC-IDLE EM-IDLE''',
    'an end that is cut': '''
        ground req 3000   | ground ok start-req 3000 start DC1
        deliver           | ok | air start-ind 3000 ok ind 3000
        air req 2130      | air ok start-rsp 2130
        deliver           | ok | ground start-cnf 2130 ok stop DC1 ind 2130 end-req start LI1
        cut               | ground ok stop LI1 ind abort 0 air ok ind abort 0 | air end-ind lost
        elapse 86400      | ground ok air ok
        = LI-IDLE DC-IDLE EC-IDLE PC-IDLE EM-IDLE''',
    'a lost abort: the aircraft stays in the old dialogue': '''
        ground req 4080   | ground ok start-req 4080 start EC1
        deliver           | ok | air start-ind 4080 ok ind 4080
        ground user-abort | ground ok stop EC1 abort-req
        lose              | ok | air peer-abort lost
        ground req 3000   | ground ok start-req 3000 start DC1
        deliver           | ok | air start-ind 3000 refused 2
        air req 3800      | air ok start-rsp 3800
        deliver           | ok | ground start-cnf 3800 over
        elapse 60         | ground ok stop DC1 abort-req 74 ind abort 4 air ok
        deliver           | ok | air ground-abort 74 over
        = LI-IDLE DC-IDLE EC-IDLE PC-IDLE EM-IDLE = LI-ACTIVE DC-IDLE EC-ACTIVE PC-IDLE EM-IDLE''',
    'a lost start response: what follows cannot occur': '''
        ground req 640400 | ground ok start-req 640400 start PC1
        deliver           | ok | air start-ind 640400 ok ind 640400
        air req 3880      | air ok start-rsp 3880
        air req PER       | air ok data-req PER
        lose 1            | ok | ground start-cnf 3880 lost
        deliver           | ok | ground data PER refused 2
        = LI-START DC-IDLE EC-IDLE PC-START-PENDING EM-IDLE = LI-ACTIVE DC-IDLE EC-IDLE PC-ACTIVE EM-IDLE''',
    'cut': '''
        cut               | ground refused 2 air refused 2
        ground req 3000   | ground ok start-req 3000 start DC1
        cut               | ground ok stop DC1 ind abort 0 air refused 2 | air start-ind 3000 lost
        ground req 3000   | ground ok start-req 3000 start DC1
        deliver           | ok | air start-ind 3000 ok ind 3000
        air req 2800      | air ok start-rsp 2800
        air req EMG       | air ok data-req EMG
        cut               | ground ok stop DC1 ind abort 0 air ok ind abort 0 | ground start-cnf 2800 lost | ground data EMG lost
        = LI-IDLE DC-IDLE EC-IDLE PC-IDLE EM-IDLE''',
    'what the flight refuses changes nothing': '''
        deliver           | refused 17
        lose              | refused 17
        ground req 3000   | ground ok start-req 3000 start DC1
        deliver 0         | refused 17
        deliver 2         | refused 17
        lose 01           | refused 17
        lose -1           | refused 17
        deliver 1 1       | refused 17
        deliver 4294967297 | refused 17
        cut 1             | refused 17
        elapse            | refused 17
        ground elapse 60  | ground refused 17
        ground start-cnf 2130 | ground refused 17
        ground down       | ground refused 17
        ground            | ground refused 17
        air               | air refused 17
        air start-ind 3000 | air refused 17
        air set 60        | air refused 17
        air req           | air refused 17
        air req 2130      | air refused 1
        ground req 2      | ground refused 17
        ground req 4080   | ground refused 1
        req 3000          | refused 17
        sea user-abort    | refused 17
        = LI-START DC-PENDING EC-IDLE PC-IDLE EM-IDLE = LI-IDLE DC-IDLE EC-IDLE PC-IDLE EM-IDLE = 1''',
}

# Sixteen are under way; then a user's line that sends is refused, and with fifteen a minute that ends both waits.
OPEN = '''
        ground req 640400 | ground ok start-req 640400 start PC1
        deliver           | ok | air start-ind 640400 ok ind 640400
        air req 3880      | air ok start-rsp 3880
        air req EMG       | air ok data-req EMG
        deliver           | ok | ground start-cnf 3880 ok stop PC1 ind 3880 start PC2 | ground data EMG ok stop PC2 ind EMG start EM1'''
REPORT = '''
        air req PER       | air ok data-req PER'''
FLIGHTS['sixteen under way'] = OPEN + REPORT * MOST + '''
        air req PER       | air refused 17
        air user-abort    | air refused 17
        ground req 3000   | ground refused 17
        elapse 59         | ground ok air ok
        elapse 1          | refused 17
        elapse 1          | refused 17
        deliver 1         | ok | ground data PER ok ind PER
        ground req 3000   | ground ok data-req 3000 start DC1
        = LI-ACTIVE DC-PENDING EC-IDLE PC-ACTIVE EM-ACTIVE = LI-ACTIVE DC-IDLE EC-IDLE PC-ACTIVE EM-ACTIVE = 16'''
FLIGHTS['fifteen under way'] = OPEN + REPORT * (MOST - 2) + '''
        air req 00        | air ok data-req 00 start EM3
        elapse 60         | refused 17
        lose 1            | ok | ground data PER lost
        elapse 60         | ground ok stop EM1 abort-req 74 ind abort 4 air ok stop EM3 abort-req 4200 ind abort 4
        = LI-IDLE DC-IDLE EC-IDLE PC-IDLE EM-IDLE = LI-IDLE DC-IDLE EC-IDLE PC-IDLE EM-IDLE = 16'''

# Whole outputs.
WHOLE = {
    'nothing': (b'', b'adsc flight 1\nground not set\nair not set\nunder way 0\nend 0\n'),
    'before the settings': (
        b'elapse 1\nair set 0\nground set 60 60 60 60 60 60 60 60 60 60\nground req 3000\ndeliver\nlose\ncut\nelapse 1\nground set 60 60 60 60 60 60 60 60 60 60\nair set 60 60\nair set 60\ndeliver',
        b'adsc flight 1\n1 refused 17\n2 air refused 3\n3 ground ok\n4 ground ok start-req 3000 start DC1\n5 refused 17\n6 refused 17\n7 refused 17\n8 refused 17\n9 ground refused 17\n'
        b'10 air refused 17\n11 air ok\n12 ok\n12.1 air start-ind 3000 ok ind 3000\nground LI-START DC-PENDING EC-IDLE PC-IDLE EM-IDLE\nair LI-START DC-PENDING EC-IDLE PC-IDLE EM-IDLE\n'
        b'under way 0\nend 12\n'),
    'lines that are none': (
        b'\n' + b'ground req ' + b'00' * 2043 + b'\nelapse\r\n\xff\nground set 60 60 60 60 60 60 60 60 60\n',
        b'adsc flight 1\n1 refused 17\n2 refused 17\n3 refused 17\n4 refused 17\n5 ground refused 17\nground not set\nair not set\nunder way 0\nend 5\n'),
}

HEARD = {
    ('ground', 'start-req', '3000'): 'start-ind 3000', ('ground', 'data-req', '20'): 'data 20', ('ground', 'end-req', ''): 'end-ind',
    ('ground', 'end-req', '00'): 'end-ind 00', ('ground', 'abort-req', '74'): 'ground-abort 74', ('ground', 'abort-req', ''): 'peer-abort',
    ('air', 'start-rsp', '3880'): 'start-cnf 3880', ('air', 'data-req', '00'): 'data 00', ('air', 'end-rsp', ''): 'end-cnf',
    ('air', 'end-rsp', '3b00'): 'end-cnf', ('air', 'abort-req', '4200'): 'air-abort 4200', ('air', 'abort-req', ''): 'peer-abort',
}


def whole(text):
    """The script of a flight and its output."""
    calls, *ends = text.split('=')
    steps = [[spelled(part) for part in line.split('|')] for line in calls.strip().split('\n')]
    output = ['adsc flight 1', '1 ground ok', '2 air ok']
    for number, (_, answer, *behind) in enumerate(steps, 3):
        output += [f'{number} {answer}', *(f'{number}.{place} {text}' for place, text in enumerate(behind, 1))]
    ground, air, count = ((*map(str.strip, ends), *[None] * 2)[:3])
    if air is None or air.isdigit():
        air, count = ground, air
    output += [f'ground {ground}', f'air {air}', f'under way {count or 0}', f'end {len(steps) + 2}', '']
    script = '\n'.join([G, A, *(call for call, *_ in steps), ''])
    return script.encode(), '\n'.join(output).encode()


for what, text in FLIGHTS.items():
    script, wanted = whole(text)
    got, wanted = trace(script).decode().split('\n'), wanted.decode().split('\n')
    CHECKS.check(f'{what}: lines', len(got), len(wanted))
    for one, other in zip(got, wanted):
        CHECKS.check(what, one, other)
CHECKS.wholes(WHOLE)
for sent, wanted in HEARD.items():
    CHECKS.check(sent, heard(*sent), wanted)
CHECKS.end()
