"""test_ladder.py [--write]: draws every stored flight. Each thing sent is an arrow with its words, no words lie over others or outside the page, and the pictures in docs/ are those of
their flights; --write draws these anew.
"""

import itertools
import pathlib
import re
import sys
import xml.etree.ElementTree as ElementTree

import ladder
import traces

ROOT = pathlib.Path(__file__).resolve().parent.parent
SHOWN = {'examples/flight/emergency.flight': 'docs/flight.svg',
         'tests/flights/ground-aborts-negative-ack-modify-emergency-in-EM-MODIFY.flight': 'docs/crossing.svg'}
SENT = re.compile('(?:start-req|start-rsp|data-req|end-req|end-rsp|abort-req)')
WIDE = 0.52         # of a letter, by its size


def texts(picture):
    """The box of each text of a picture: left, top, right, bottom."""
    for element in picture.iter('{http://www.w3.org/2000/svg}text'):
        x, y, size = (float(element.get(name)) for name in ('x', 'y', 'font-size'))
        width = WIDE * size * len(element.text or '')
        left = x - width * {'start': 0, 'middle': 0.5, 'end': 1}[element.get('text-anchor')]
        if element.text:
            yield left, y - size * 0.75, left + width, y, element.text


def overlap(one, other):
    return one[0] < other[2] and other[0] < one[2] and one[1] < other[3] and other[1] < one[3]


def faults(name, drawn, output):
    picture = ElementTree.fromstring(drawn)
    boxes = list(texts(picture))
    arrows = sum('paint-order' in line for line in drawn.split('\n'))
    if arrows != len(SENT.findall(output)):
        yield f'{name}: {arrows} arrows, {len(SENT.findall(output))} were sent'
    for one, other in itertools.combinations(boxes, 2):
        if overlap(one, other):
            yield f'{name}: "{one[4]}" lies over "{other[4]}"'
    for box in boxes:
        if not (0 <= box[0] and box[2] <= float(picture.get('width')) and box[3] <= float(picture.get('height'))):
            yield f'{name}: "{box[4]}" is not on the page'


def main(words):
    found, flights = [], [pair for place in traces.PLACES['flight'] for pair in traces.pairs_in(place)]
    for script, trace in flights:
        drawn = ladder.svg(script.read_text(), trace.read_text())
        found += faults(script.name, drawn, trace.read_text())
        picture = SHOWN.get(str(script.relative_to(ROOT)))
        if picture and words == ['--write']:
            (ROOT / picture).write_text(drawn)
        elif picture and (ROOT / picture).read_text() != drawn:
            found.append(f'{picture} is not what is drawn of {script.name}')
    # a test of the test: words that are moved over others, or off the page, are found
    moved = drawn.replace('text-anchor="start"', 'text-anchor="end"')
    if not list(faults('moved', moved, trace.read_text())):
        found.append('words outside the page are not found')
    print(*found, f'{len(flights)} flights drawn, {len(found)} faults', sep='\n')
    return 1 if found else 0


if __name__ == '__main__':
    sys.exit(main(sys.argv[1:]))
