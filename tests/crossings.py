"""Which links are dropped though nobody was wrong? A search over the models of both ends of a link.

    crossings.py [--most N]     searches; docs/CROSSINGS.md and tests/flights have to tell what it finds, no less and no more
    crossings.py --write        writes tests/flights anew
    crossings.py --duty         searches with an aircraft that begins an emergency only where it has an event or a periodic contract

Users do what their own end permits and never abort, the channel keeps the order each way and loses
nothing, and no time passes. Every state of both ends is gone through that such flights lead to with
at most N under way each way (3). Nothing is left out of the states: all four modules and LI at each
end, and what is under way. One PDU stands for all of its kind, as the tables tell no more of it.
First every order of deliveries is tried, one queue going ahead of the other as it may; then each
thing found gets its shortest flight in the order of sending, as `flight` delivers.
"""

import argparse
import collections
import dataclasses
import functools
import pathlib
import re
import sys

import airmodel
import flightmodel
import linkmodel
from byhand import PDUS
from sidemodel import MODULES, aircraft_pdu, ground_pdu

ROOT = pathlib.Path(__file__).resolve().parent.parent
PAGE, FLIGHTS = ROOT / 'docs/CROSSINGS.md', ROOT / 'tests/flights'

# The tables that the ends go by.
RULES = {'ground': linkmodel.RULES, 'air': airmodel.RULES}

DUTY = False

SETTINGS = {'ground': 'set 360 210 360 360 360 240 360 240 360 360', 'air': 'set 360'}

# A request of each kind that an end permits in some state; the search is told by the models in which.
REQUESTS = {
    'ground': ['3000', '4080', '640400', '10', '14', '53a0', '00'],
    'air': ['2130', '280140', PDUS['DEM+'], PDUS['DEM'],
            '3800', '290140', '2030', PDUS['EVT+'], PDUS['EVT'],
            '3880', '2a0170', '20b0', PDUS['PER+'], PDUS['PER'],
            PDUS['EMG'], PDUS['EMG+'], '00', '2290'],
}
KNOWN = {'ground': {event.removeprefix('req/') for event, kind in linkmodel.REQUESTS.items() if kind != 'no request'},
         'air': {event.removeprefix('req/') for _, _, event in airmodel.RULES.rows if event.startswith('req/')}}
NAMED = {'ground': ground_pdu, 'air': aircraft_pdu}

IDLE = ('IDLE',) * 5

# Both ends: LI and the modules of each. `way` is what was sent and has not come: (sender, entry) each, the oldest first.
World = collections.namedtuple('World', 'ground air way')
Step = collections.namedtuple('Step', 'world end line answer')
# What the search finds, and the step that shows it.
Found = collections.namedtuple('Found', 'name kind before step')


# One end

def led(end, states):
    """A box of an end at its states. Timers have a second left, and intervals a minute: no time passes."""
    box = flightmodel.ENDS[end](RULES[end])
    box.answer(SETTINGS[end].encode())
    link = box.link
    link.li, link.state = states[0], dict(zip(MODULES, states[1:]))
    link.left = dict.fromkeys(link.watched(), 1)
    if end == 'ground':
        link.asked, link.force = (60 * (link.state['PC'] in linkmodel.INTERVAL_STATES[which]) for which in ('asked', 'force'))
    return box


@functools.lru_cache(maxsize=None)
def answered(end, states, line):
    """An end's answer, its states then, and what it sends."""
    box = led(end, states)
    answer = box.answer(line.encode())
    after = (box.link.li, *box.link.state.values())
    sent = [' '.join(filter(None, entry)) for entry in flightmodel.SENT.findall(answer)]
    return answer, after, tuple((end, entry) for entry in sent)


@functools.lru_cache(maxsize=None)
def heard(entry):
    """What the other end hears of an entry of an answer."""
    sender, text = entry
    return flightmodel.heard(sender, *text.partition(' ')[::2])


# The search

def stepped(world, end, move, way):
    line, answer, after, sent = move
    ground, air = (after, world.air) if end == 'ground' else (world.ground, after)
    return Step(World(ground, air, way + sent), end, line, answer)


@functools.lru_cache(maxsize=None)
def permitted(end, states):
    """What the user may do at an end."""
    moves = [(line, *answered(end, states, line)) for line in map('req {}'.format, REQUESTS[end])]
    return [move for move in moves if move[1].startswith('ok') and not (DUTY and end == 'air' and begins_idly(states, move[2]))]


def begins_idly(states, after):
    """002, 2.2.1.7.6.1: an emergency is for those with whom there is an event or a periodic contract."""
    return states[4] == 'IDLE' != after[4] and not {'ACTIVE', 'ACTIVE-PENDING'} & set(states[2:4])


def asked(world):
    for end, states in (('ground', world.ground), ('air', world.air)):
        for move in permitted(end, states):
            yield stepped(world, end, move, world.way)


def delivered(world, ordered):
    """What may come: the oldest, or the oldest of each way."""
    senders = [sender for sender, _ in world.way]
    for place in {senders.index(sender) for sender in (senders[:1] if ordered else senders)}:
        end, line = flightmodel.OTHER[senders[place]], heard(world.way[place])
        move = (line, *answered(end, getattr(world, end), line))
        yield stepped(world, end, move, world.way[:place] + world.way[place + 1:])


@functools.lru_cache(maxsize=None)
def by_way(way):
    """The two queues one behind the other: how they lie in time is left out."""
    return tuple(sorted(way, key=lambda entry: entry[0]))


@functools.lru_cache(maxsize=None)
def fits(way, most):
    senders = [sender for sender, _ in way]
    return max(map(senders.count, flightmodel.ENDS)) <= most


def search(most, ordered, until=None):
    """What is found, each with the first step that it was met at, and where each world came from. Ends when all of `until` are met."""
    start = World(IDLE, IDLE, ())
    came, found, waiting = {start: None}, {}, collections.deque([start])
    while waiting and (until is None or not until <= set(found)):
        world = waiting.popleft()
        for step in [*asked(world), *delivered(world, ordered)]:
            what = judged(world, step)
            if what and what.name not in found:
                found[what.name] = what
            if what and what.kind == 'abort' or not fits(step.world.way, most):
                continue
            after = step.world if ordered else World(step.world.ground, step.world.air, by_way(step.world.way))
            if after not in came:
                came[after] = ordered and (world, step)         # the way to it is asked for in the order of sending alone
                waiting.append(after)
    return found, came


# What is found

@functools.lru_cache(maxsize=None)
def event_of(end, line):
    octets = bytes.fromhex((line.split(' ') + [''])[1])
    return NAMED[flightmodel.OTHER[end]](octets)


def event(step):
    """The PDU that came."""
    return event_of(step.end, step.line)


GROUPS = {'emergency': 'emergency', 'emergency+ack': 'emergency', 'cancel-emergency': 'emergency', 'negative-ack/modify-emergency': 'emergency'}


def why_ended(world):
    """Why LI is in END: its end request is under way, or the answer to it."""
    return 'cancel-all' if any(re.match('end-(req|rsp) ', text) for _, text in world.way) else 'end'


def judged(world, step):
    """What a delivery shows: an abort or a refusal, something set aside or passed over."""
    states = getattr(world, step.end)
    if step.line.startswith('req '):
        return None
    if 'abort' in step.answer or step.answer.startswith('refused'):
        module = next((f'{name}-{state}' for name, state in zip(MODULES, states[1:]) if name == owner(event(step))), f'LI-{states[0]}')
        return Found(f'{step.end}-aborts-{event(step).replace("/", "-")}-in-{module}', 'abort', world, step)
    if step.answer == 'ok late':
        group = GROUPS.get(event(step), 'answer-or-report')
        return Found(f'late-{group}-after-{why_ended(world)}', 'late', world, step)
    if step.answer == 'ok' and step.line.startswith('data'):
        return Found(f'unanswered-{event(step)}', 'unanswered', world, step)
    return None


def owner(pdu):
    """The module that lists a PDU."""
    tables = [*linkmodel.RULES.rows, *airmodel.RULES.rows]
    listed = {module for module, _, name in tables if name.removeprefix('req/') == pdu}
    return listed.pop() if listed else None


# Flights

def way_to(world, came):
    steps = []
    while came[world]:
        world, step = came[world]
        steps.append((world, step))
    return reversed(steps)


def flight(found, came):
    """The script that leads to a step; then all that is under way comes."""
    lines = [f'{end} {setting}' for end, setting in SETTINGS.items()]
    for world, step in [*way_to(found.before, came), (found.before, found.step)]:
        if step.line.startswith('req '):
            lines.append(f'{step.end} {step.line}')
        else:
            lines.append('deliver' if len(world.way) == 1 else 'deliver 1')
    world = flightmodel.World()
    for line in lines:
        world.line(line.encode())
    while world.under_way:
        world.line(b'deliver')
        lines.append('deliver')
    return '\n'.join(lines).encode() + b'\n'


def written(flights):
    """Each flight with its output, by the names of their files."""
    return {FLIGHTS / f'{name}{suffix}': octets for name, script in flights.items()
            for suffix, octets in (('.flight', script), ('.trace', flightmodel.trace(script)))}


def faults(flights):
    """Where the page and the stored flights are not what was found."""
    stored = {path: path.read_bytes() for path in FLIGHTS.glob('*') if path.is_file()}
    due = written(flights)
    for path in sorted({*stored, *due}):
        if stored.get(path) != due.get(path):
            yield f'{path.relative_to(ROOT)} is not what the search finds'
    told = set(re.findall(r'\| `tests/flights/([\w+-]+)\.flight`', PAGE.read_text(encoding='utf-8')))
    for name in sorted(told ^ set(flights)):
        yield f'docs/CROSSINGS.md: {name} is {"not found" if name in told else "missing"}'


# A test of the test: rows that crossings alone need. Without one the search has to find an abort more.
NEEDED = [('ground', ('EC', 'PENDING', 'event-report')), ('ground', ('PC', 'CANCEL', 'periodic-report')), ('ground', ('EM', 'MODIFY', 'emergency')),
          ('ground', ('EM', 'MODIFY', 'cancel-emergency')), ('ground', ('PC', 'PENDING', 'periodic-report')), ('air', ('EM', 'CANCEL', 'modify-emergency'))]


def blind_to(needed, found):
    """The rows without which no more is found than with them; one PDU each way shows it."""
    for end, row in needed:
        kept = RULES[end]
        RULES[end] = dataclasses.replace(kept, rows={key: kept.rows[key] for key in kept.rows if key != row})
        forget()
        if {name for name, what in search(1, False)[0].items() if what.kind == 'abort'} <= set(found):
            yield f'without {end} {row} no other abort is found'
        RULES[end] = kept
        forget()


def forget():
    answered.cache_clear()
    permitted.cache_clear()


def whole():
    """Whether a request stands for each kind that an end permits."""
    return all({NAMED[end](bytes.fromhex(octets)) for octets in requests} == KNOWN[end] for end, requests in REQUESTS.items())


def main():
    parser = argparse.ArgumentParser(usage=__doc__.split('\n\n')[1])
    parser.add_argument('--most', type=int, default=3)
    parser.add_argument('--write', action='store_true')
    parser.add_argument('--duty', action='store_true')
    options = parser.parse_args()
    assert whole()
    global DUTY
    DUTY = options.duty
    found, came = search(options.most, False)
    print(f'{len(came)} states of both ends and what is under way, at most {options.most} each way; found {len(found)}')
    if options.duty:
        print(*found, sep='\n')
        return 0
    in_order, ways = search(options.most, True, set(found))
    flights = {name: flight(what, ways) for name, what in in_order.items()}
    for name, script in sorted(flights.items(), key=lambda pair: (in_order[pair[0]].kind, len(pair[1].split(b'\n')))):
        print(f'{in_order[name].kind}: {name}, {len(script.splitlines())} lines')
    wrong = [f'{name} has no flight in the order of sending' for name in found if name not in flights]
    if options.write:
        FLIGHTS.mkdir(exist_ok=True)
        for path, octets in written(flights).items():
            path.write_bytes(octets)
        return 0
    wrong += [*faults(flights), *blind_to(NEEDED, found)]
    print(*wrong, f'{len(wrong)} faults', sep='\n')
    return 1 if wrong else 0


if __name__ == '__main__':
    sys.exit(main())
