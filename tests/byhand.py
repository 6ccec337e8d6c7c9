"""What the checks of both sides' models share: short names of reports, scripts and answers written by hand, the count of checks."""

import sys

from percoder import write

ZERO = {'sign': 0, 'degrees': 0, 'minutes': 0, 'tenths': 0}
REPORT = {'position': {'latitude': ZERO, 'longitude': ZERO, 'level': 0},
          'time': {'date': {'year': 1996, 'month': 1, 'day': 1}, 'clock': {'hours': 0, 'minutes': 0}},
          'merit': {'accuracy': 0, 'first': 0, 'second': 0}}


def report(name, **more):
    return write('air', (name, {'report': REPORT, **more})).hex()


# Short names in scripts: a report, and `+` for one with a positive ack.
PDUS = {
    'DEM': report('demand-report'), 'DEM+': report('demand-report', ack=None),
    'EVT': report('event-report', **{'event-type': 0}), 'EVT+': report('event-report', ack=None, **{'event-type': 0}),
    'PER': report('periodic-report'), 'PER+': report('periodic-report', ack=None),
    'EMG': report('emergency'), 'EMG+': report('emergency', ack=None),
}


def spelled(text):
    return ' '.join(PDUS.get(word, word) for word in text.split())


class Checks:
    """Of a model: its name, and its trace function."""

    def __init__(self, name, trace):
        self.name, self.trace = name, trace
        self.count = self.failures = 0

    def check(self, what, got, wanted):
        self.count += 1
        if got != wanted:
            self.failures += 1
            print(f'{what}: got {got!r}, wanted {wanted!r}')

    def answers(self, lines):
        """The answers without their numbers."""
        script = '\n'.join(lines).encode('latin-1') + b'\n'
        return [line.split(' ', 1)[1] for line in self.trace(script).decode().split('\n')[1:-2]]

    def wholes(self, whole):
        """what: a script and its trace"""
        for what, (script, wanted) in whole.items():
            self.check(what, self.trace(script), wanted)

    def cases(self, cases, opening):
        """what: calls after the opening, each with the answer due behind `|`"""
        for what, text in cases.items():
            steps = [[spelled(part) for part in line.split('|')] for line in text.strip().split('\n')]
            for (call, wanted), got in zip(steps, self.answers([opening] + [call for call, _ in steps])[1:]):
                self.check(f'{what}, {call}', got, wanted)

    def lines(self, lines):
        """Lines of one script, each with its refusal, None where it is accepted without an action."""
        for (line, number), got in zip(lines, self.answers([line for line, _ in lines])):
            self.check(ascii(line[:60]), got, f'refused {number}' if number else 'ok')

    def end(self):
        if self.failures:
            print(f'{self.name}: {self.failures} of {self.count} checks failed')
            sys.exit(1)
        print(f'{self.name}: {self.count} checks passed')
