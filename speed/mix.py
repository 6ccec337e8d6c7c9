#!/usr/bin/env python3
"""mix.py: the PDUs that both codecs read and write, the same in every run.

A line `# NAME` opens a group; its PDUs follow as `air HEX` or `ground HEX`. Values are drawn over the whole
message table, as tests/percoder.py has it, and written by it: so none sends an interval of 5 minutes,
which the archive would not write back.
"""

import pathlib
import random
import sys

sys.path.insert(0, str(pathlib.Path(__file__).resolve().parents[1] / 'tests'))
import percoder     # noqa: E402

# Reports with the address at most, event contracts with what has no number; and with every part of every element.
PLAIN = {'report': ['address'], 'emergency-report': ['address'], 'event-contract': ['waypoint-change', 'merit-change']}
WHOLE = {'whole': ['report', 'ground-vector', 'air-vector', 'weather', 'event-contract'], 'air-speed-index': 2}

# name, how many, family, PDU, what is fixed in it: numbers; the parts that a group of fields may have; groups that have all of theirs
GROUPS = [
    ('demand report', 200, 'air', 'demand-report', PLAIN),
    ('emergency report', 200, 'air', 'emergency', PLAIN),
    ('event report', 200, 'air', 'event-report', PLAIN),
    ('periodic report', 200, 'air', 'periodic-report', PLAIN),
    ('negative ack, 16 names', 100, 'air', 'negative-ack', {'negative-reason': 2, 'count': 16}),
    ('negative ack, any', 100, 'air', 'negative-ack', {}),
    ('noncompliance', 200, 'air', 'noncompliance', {}),
    ('other aircraft PDU', 100, 'air', ('cancel-emergency', 'positive-ack', 'provider-abort'), {}),
    ('demand contract', 100, 'ground', 'demand-contract', {}),
    ('event contract', 100, 'ground', 'event-contract', PLAIN),
    ('periodic contract', 200, 'ground', 'periodic-contract', {}),
    ('other ground PDU', 100, 'ground',
     ('cancel-all', 'cancel-contract', 'cancel-emergency-ack', 'modify-emergency', 'provider-abort'), {}),
    # behind the others, whose draws stay
    ('report, all elements', 200, 'air', ('demand-report', 'event-report', 'periodic-report'), WHOLE),
    ('report, any elements', 200, 'air', ('demand-report', 'emergency', 'event-report', 'periodic-report'), {}),
    ('event, all elements', 100, 'ground', 'event-contract', WHOLE),
    ('event, any elements', 100, 'ground', 'event-contract', {}),
]


class Draw:
    def __init__(self):
        self.random = random.Random(9705).random    # the one generator that Python promises to keep

    def below(self, n):
        return int(self.random() * n)

    def number(self, name, fixed):
        low, high = percoder.RANGES[name]
        return fixed.get(name, low + self.below(high - low + 1))

    def value(self, form, fixed):
        form = form.rstrip('*')
        if form == 'null':
            return None
        if form in percoder.RANGES:
            return self.number(form, fixed)
        kind, *parts = percoder.TABLE[form]
        return getattr(self, kind)(form, fixed, *parts)

    def choice(self, form, fixed, index, alternatives):
        name, content = alternatives[self.number(index, fixed)]
        return name, self.value(content, fixed)

    def fields(self, form, fixed, optional, required):
        carried = [part for part in optional if part[1] != percoder.NOT_CARRIED and part[0] in fixed.get(form, [part[0]])]
        there = carried if form in fixed.get('whole', []) else [part for part in carried if self.below(2)]
        if form in percoder.NEEDS_ONE and not there:
            there = carried
        return {name: self.value(content, fixed) for name, content in required + there}

    def list(self, form, fixed, content):
        return [self.value(content, fixed) for _ in range(self.number('count', fixed))]

    def eight(self, form, fixed, content):
        return tuple(self.value(content, fixed) for _ in range(8))

    def pdu(self, family, names, fixed):
        names = [names] if isinstance(names, str) else names
        name = names[self.below(len(names))]
        return name, self.value(dict(percoder.TABLE[family][2])[name], fixed)


def main():
    draw = Draw()
    for title, count, family, names, fixed in GROUPS:
        print('#', title)
        for _ in range(count):
            print(family, percoder.write(family, draw.pdu(family, names, fixed)).hex())


main()
