"""ladder.py SCRIPT [OUTPUT] > picture.svg: draws a flight as a ladder. OUTPUT, or else standard input, is what `flight` printed for SCRIPT, of which the seconds are read.

Two ends, an arrow for all that went from one to the other, with its PDU in words, a bar for the time that a timer ran, the ground's on the left and the aircraft's on the right. An end's
line is thick while it has a link. Aborts are red; what was lost, late or over is grey, and so is what the user was refused. A bar that ends in red was used up.
"""

import dataclasses
import re
import sys
from xml.sax.saxutils import escape

import plaintext
from percoder import Refused, read
from sidemodel import REPORTS

# The page, from left to right: the time, the ground's timers, both ends, the aircraft's timers; a row for each thing that happens.
CLOCK, TIMERS, SPAN, MARGIN = 20, 104, 470, 104
NEAR, LANE, BAR = 44, 42, 9
TOP, ROW, MORE, BOTTOM = 70, 28, 10, 56
OTHER = {'ground': 'air', 'air': 'ground'}
INWARD = {'ground': 1, 'air': -1}
ANCHOR = {1: 'start', -1: 'end'}
INK, GREY, PALE, RED = '#1f2933', '#7b8794', '#cbd2d9', '#c81e1e'
COLOUR = {'ground': '#1d4ed8', 'air': '#0f766e'}
TIMER = {'PC2': '#93b4f5', 'EM1': '#f5b97a', 'EM2': '#f5b97a', 'EM3': '#f5b97a'}
WAIT = '#c3cfe2'            # timers of a wait for an answer

ENTRY = re.compile(r'(start-req|start-rsp|data-req|end-req|end-rsp|abort-req|ind abort|ind peer-abort|ind|late|start|stop)(?: ([0-9a-f]+|[A-Z]{2}\d))?(?= |$)')
SERVICE = {'start-req': 'start request', 'start-rsp': 'start response', 'data-req': '', 'end-req': 'end request', 'end-rsp': 'end response', 'abort-req': 'abort'}
BEHIND = re.compile(r'(ground|air) ([a-z-]+)(?: [0-9a-f]+)? ((?:ok|refused|over|lost).*)')
LONGEST = 62


# Words

def pdu_words(sender, octets):
    """A PDU in words, of a report what it is, and not where the aircraft was."""
    try:
        name, value = read(sender, bytes.fromhex(octets))
    except (Refused, ValueError):
        return f'req {octets}'[:LONGEST]
    fields = list(plaintext.told(name, value))
    if name in REPORTS:
        fields = fields[:2] if 'ack' in value else fields[:1]
    text = ', '.join(fields)
    return text if len(text) <= LONGEST else ', '.join(fields[:1])


def words(sender, service, octets):
    parts = [SERVICE[service], pdu_words(sender, octets) if octets else '']
    if service == 'abort-req':
        return parts[1] or 'user abort'
    return ': '.join(filter(None, parts))


def asked(end, line):
    """What the user of an end asked for."""
    word, _, octets = line.removeprefix(f'{end} ').partition(' ')
    return pdu_words(end, octets) if word == 'req' else line


# What happened

@dataclasses.dataclass
class Arrow:
    sender: str
    text: str
    sent: float
    abort: bool
    came: float = None
    outcome: str = 'under way'


@dataclasses.dataclass
class Bar:
    end: str
    timer: str
    begun: float
    again: bool                 # it starts anew where it stopped
    ended: float = None
    used_up: bool = False
    lane: int = 0


class Flight:
    """Reads the output line by line, and gives everything its height on the page."""

    def __init__(self, script, output):
        self.script = dict(enumerate(script.split('\n'), 1))
        self.height, self.clock, self.shown = TOP, 0, None
        self.arrows, self.under_way = [], []
        self.bars, self.running = [], {}
        self.links, self.open = [], {}
        self.marks, self.times, self.states = [], [], {}
        lines = output.split('\n')
        if lines[0] != 'adsc flight 1':
            sys.exit('ladder.py: this is no output of flight')
        for line in lines[1:]:
            self.line(line)
        self.close()
        self.x = {'ground': TIMERS + LANE * self.lanes('ground')}
        self.x['air'] = self.x['ground'] + SPAN
        self.width = self.x['air'] + MARGIN + LANE * max(0, self.lanes('air') - 1)

    def line(self, line):
        place, _, text = line.partition(' ')
        if '.' in place:
            self.arrives(text)
        elif place.isdigit():
            self.happens(self.script[int(place)], text)
        elif place in INWARD:
            self.states[place] = text

    def row(self, height=ROW):
        self.height += height
        if self.clock != self.shown:
            self.times.append((self.height, self.clock))
            self.shown = self.clock

    def happens(self, line, text):
        """A line of the script, and its answers."""
        elapsed = int(line.split(' ')[1]) if line.startswith('elapse ') and 'refused' not in text else 0
        self.clock += elapsed
        self.height += MORE if elapsed > 30 else 0
        for end, answer in re.findall('(ground|air) ((?:(?! air ).)+)', text):
            if answer.startswith('refused'):
                self.row()
                self.mark(end, f'{asked(end, line)}: {answer}', True)
            elif answer != 'ok':
                self.row()
                self.acts(end, answer, used_up=elapsed > 0)

    def arrives(self, text):
        """Something that was under way, or was thrown away."""
        end, call, outcome = BEHIND.fullmatch(text).groups()
        if outcome == 'refused 17':
            return
        self.row()
        arrow = self.under_way.pop(0)
        arrow.came, arrow.outcome = self.height, outcome
        if outcome.startswith('ok'):
            self.acts(end, outcome, delivered=True)
            if call == 'end-cnf':
                self.ends(end, self.height)
        elif outcome != 'lost':
            self.mark(end, outcome, False)

    def acts(self, end, answer, used_up=False, delivered=False):
        """The entries of an answer: timers stop and start, something goes, the user is told. What goes in answer to a delivery has a row of its own."""
        here, stopped, waits = self.height, set(), delivered
        for entry, rest in ENTRY.findall(answer):
            if entry == 'stop':
                stopped.add(rest)
                self.stop(rest, here, used_up)
            elif entry == 'start':
                self.start(end, rest, here, rest in stopped)
            elif entry in SERVICE:
                self.row(ROW * 0.8 if waits else 0)
                self.sends(end, entry, rest, here)
                waits = True
            elif entry == 'ind':
                self.open.setdefault(end, here)
            elif entry == 'late':
                self.mark(end, 'late', False)
            else:
                self.marks.append((end, here, f'abort {rest}' if rest else 'peer abort', 'abort'))
                self.ends(end, here)

    def sends(self, end, service, octets, here):
        if service == 'start-req':
            self.open.setdefault(end, self.height)
        self.under_way.append(Arrow(end, words(end, service, octets), self.height, service == 'abort-req'))
        self.arrows.append(self.under_way[-1])
        if service in ('end-rsp', 'abort-req'):
            self.ends(end, here)

    # Timers and links

    def start(self, end, timer, height, again):
        self.running[timer] = Bar(end, timer, height, again)
        self.bars.append(self.running[timer])

    def stop(self, timer, height, used_up):
        bar = self.running.pop(timer)
        bar.ended, bar.used_up = height, used_up

    def ends(self, end, height):
        if end in self.open:
            self.links.append((end, self.open.pop(end), height))

    def mark(self, end, text, inward):
        self.marks.append((end, self.height, text, 'inward' if inward else 'outward'))

    def close(self):
        self.height += ROW
        for end in list(self.open):
            self.ends(end, self.height)
        for bar in self.running.values():
            bar.ended = self.height
        for place, bar in enumerate(self.bars):         # the first lane that is free
            taken = {other.lane for other in self.bars[:place] if other.end == bar.end and other.ended > bar.begun}
            bar.lane = next(lane for lane in range(9) if lane not in taken)

    def lanes(self, end):
        return max([bar.lane + 1 for bar in self.bars if bar.end == end], default=0)


# The picture

def text(x, y, words, size=13, colour=INK, anchor='start', more=''):
    return f'<text x="{x:.0f}" y="{y:.1f}" font-size="{size}" fill="{colour}" text-anchor="{anchor}"{more}>{escape(words)}</text>'


def line(x1, y1, x2, y2, colour, width, more=''):
    return f'<line x1="{x1:.1f}" y1="{y1:.1f}" x2="{x2:.1f}" y2="{y2:.1f}" stroke="{colour}" stroke-width="{width}"{more}/>'


def box(x, y, width, height, radius, colour):
    return f'<rect x="{x:.1f}" y="{y:.1f}" width="{width:.1f}" height="{height:.1f}" rx="{radius}" fill="{colour}"/>'


def drawn_arrow(arrow, x, aborts):
    """Where an end shows an abort, its arrows keep clear of the words."""
    towards, clear = INWARD[arrow.sender], 40
    begin = x[arrow.sender] + towards * (clear - 8 if (arrow.sender, arrow.sent) in aborts else 5)
    end = x[OTHER[arrow.sender]] - towards * (clear - 2 if (OTHER[arrow.sender], arrow.came) in aborts else 5)
    pale = arrow.outcome in ('over', 'lost', 'under way') or arrow.outcome.endswith(' late')
    colour = GREY if pale else RED if arrow.abort else COLOUR[arrow.sender]
    dashed = ' stroke-dasharray="5 4"' if pale else ''
    if arrow.outcome in ('lost', 'under way'):
        end, height = begin + SPAN * 0.6 * towards, arrow.sent + ROW * 0.5
        yield line(begin, arrow.sent, end, height, colour, 1.6, dashed)
        yield text(end + 14 * towards, height + 4, arrow.outcome, 11, GREY, ANCHOR[towards], ' font-style="italic"')
    else:
        yield line(begin, arrow.sent, end - 6 * towards, arrow.came, colour, 1.6, dashed)
        yield f'<path d="M{end} {arrow.came:.1f}l{-10 * towards} -4.5v9z" fill="{colour}"/>'
    if arrow.outcome == 'lost':
        yield f'<path d="M{end - 5:.1f} {height - 5:.1f}l10 10m0 -10l-10 10" stroke="{GREY}" stroke-width="2" fill="none"/>'
    near = any(end == arrow.sender and 0 <= arrow.sent - height < ROW for end, height in aborts)
    yield text(x[arrow.sender] + (clear if near else 14) * towards, arrow.sent - 5, arrow.text, 13, RED if colour == RED else GREY if pale else INK, ANCHOR[towards],
               ' paint-order="stroke" stroke="#fff" stroke-width="4" stroke-linejoin="round"')


def drawn_bar(bar, x):
    outward = -INWARD[bar.end]
    left = x[bar.end] + outward * (NEAR + LANE * bar.lane) - BAR / 2
    gap = 2 if bar.again else 0
    yield box(left, bar.begun + gap, BAR, max(4, bar.ended - bar.begun - gap - 1), 3, TIMER.get(bar.timer, WAIT))
    if bar.used_up:
        yield box(left - 3, bar.ended - 4, BAR + 6, 5, 2, RED)
    if not bar.again:
        yield text(left - 4 if outward == -1 else left + BAR + 4, bar.begun + 10, bar.timer, 11, GREY, ANCHOR[outward])


def drawn_mark(end, height, words, kind, x):
    if kind == 'abort':
        width = 14 + 6.5 * len(words)
        yield box(x[end] - width / 2, height - 9, width, 18, 9, RED)
        yield text(x[end], height + 4, words, 11, '#fff', 'middle', ' font-weight="bold"')
    else:
        side = INWARD[end] if kind == 'inward' else -INWARD[end]
        yield text(x[end] + 9 * side, height + 4, words, 11, GREY, ANCHOR[side], ' font-style="italic"')


def clock_text(seconds):
    hours, rest = divmod(seconds, 3600)
    return f'{hours}:{rest // 60:02}:{rest % 60:02}' if hours else f'{rest // 60}:{rest % 60:02}'


def drawn(flight):
    bottom, x = flight.height, flight.x
    yield box(0, 0, flight.width, bottom + BOTTOM, 10, '#fff')
    yield text(CLOCK, 44, 'min:s', 11, GREY)
    for end, name in (('ground', 'Ground'), ('air', 'Aircraft')):
        yield box(x[end] - 54, 22, 108, 34, 8, COLOUR[end])
        yield text(x[end], 44, name, 15, '#fff', 'middle', ' font-weight="bold"')
        yield line(x[end], 56, x[end], bottom, PALE, 2)
        busy = [state for state in flight.states[end].split(' ') if not state.endswith('-IDLE')] or ['idle']
        yield text(x[end], bottom + 20, busy[0], 12, GREY, 'middle')
        yield text(x[end], bottom + 37, ' '.join(busy[1:]), 12, GREY, 'middle')
    for end, begun, ended in flight.links:
        yield line(x[end], begun, x[end], ended, COLOUR[end], 6, ' stroke-linecap="round"')
    for height, seconds in flight.times:
        yield text(CLOCK, height + 4, clock_text(seconds), 11, GREY)
    for bar in flight.bars:
        yield from drawn_bar(bar, x)
    aborts = {(end, height) for end, height, _, kind in flight.marks if kind == 'abort'}
    for arrow in flight.arrows:
        yield from drawn_arrow(arrow, x, aborts)
    for mark in flight.marks:
        yield from drawn_mark(*mark, x)


def svg(script, output):
    flight = Flight(script, output)
    height = round(flight.height + BOTTOM)
    opening = (f'<svg xmlns="http://www.w3.org/2000/svg" width="{flight.width}" height="{height}" viewBox="0 0 {flight.width} {height}" '
               'font-family="Helvetica, Arial, \'Liberation Sans\', \'DejaVu Sans\', sans-serif">')
    return '\n'.join([opening, *drawn(flight), '</svg>', ''])


def main(arguments):
    if len(arguments) not in (1, 2):
        sys.exit(__doc__)
    script = open(arguments[0], encoding='latin-1', newline='\n').read()
    output = open(arguments[1], encoding='latin-1', newline='\n').read() if len(arguments) == 2 else sys.stdin.read()
    sys.stdout.write(svg(script, output))


if __name__ == '__main__':
    main(sys.argv[1:])
