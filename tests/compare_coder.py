"""Compares a program's reading and writing of PDUs with percoder.py, on fresh random inputs.

    compare_coder.py [--count N] [--seed S] [--text] [--mutate NAME|all] -- PROGRAM [ARGS..]
    compare_coder.py [--text] --list

PROGRAM gets one line per PDU, `air HEX` or `ground HEX` (just `air` or `ground` when empty), and
answers each with `ok HEX`, the octets written back from the value read, or `refused N`; with
--text, with the line for a person of plaintext.py, and no two values with the same one. What is
written back is the same octets unless the default was sent, and then the form without it.
--mutate changes one thing of the model, all of them each alone with `all`: the upper end of a range
of percoder's table by one, another rule of it, or a text of plaintext's tables. Then the comparison
must fail. --list prints their names; an offset shows with --text alone, how a default was sent
without it. Exit 0: no differences, and everything was exercised; with `all`, every changed model
was told apart.
"""

import argparse
import collections
import contextlib
import functools
import random
import subprocess
import sys

import percoder
import plaintext
from percoder import DEFAULTS, NEEDS_ONE, NOT_CARRIED, RANGES, TABLE, pack, pieces, width

REFUSALS = plaintext.REFUSALS


# Values

def random_number(rng, name):
    low, high = RANGES[name]
    return rng.choice((low, high, rng.randint(low, high), rng.randint(low, high)))


def random_value(rng, form):
    form = form.rstrip('*')
    if form == 'null':
        return None
    if form in RANGES:
        return random_number(rng, form)
    kind, *parts = TABLE[form]
    if kind == 'choice':
        name, content = rng.choice(parts[1])
        return name, random_value(rng, content)
    if kind == 'list':
        top = RANGES['count'][1]
        count = rng.choice((0, 1, top - 1, top, rng.randint(0, top)))
        return [random_value(rng, parts[0]) for _ in range(count)]
    if kind == 'eight':
        return tuple(random_value(rng, parts[0]) for _ in range(8))
    optional, required = parts
    value = {name: random_value(rng, content) for name, content in required}
    chance = rng.choice((0.1, 0.5, 0.9))
    there = [(name, content) for name, content in optional if content != NOT_CARRIED and rng.random() < chance]
    if form in NEEDS_ONE and not there:
        there = [rng.choice([pair for pair in optional if pair[1] != NOT_CARRIED])]
    value.update((name, random_value(rng, content)) for name, content in there)
    for (group, name), default in DEFAULTS.items():
        if group == form:
            value.setdefault(name, default)     # absent reads as the default
    return value


def random_pieces(rng, family, wanted=lambda sent: True):
    """A default is sent now and then."""
    while True:
        sent = pieces(family, random_value(rng, family), with_default=rng.random() < 0.3)
        if wanted(sent):
            return sent


# Damages: each gives (family, octets) from a family drawn before.

def altered(rng, sent, place, raw):
    """One field sent otherwise; now and then the input ends in the octet where it ends, or before."""
    octets = pack(sent[:place] + [sent[place]._replace(sent=raw)] + sent[place + 1:])
    if rng.random() < 0.3:
        end = sum(piece.width for piece in sent[:place + 1])
        octets = octets[:max(0, (end + 7) // 8 - rng.randint(0, 1))]
    return octets


def places(sent, test):
    return [place for place, piece in enumerate(sent) if test(piece)]


def spare(name):
    """Raw numbers that fit the bits of a range but lie above it."""
    low, high = RANGES[name]
    return range(high - low + 1, 1 << width(name))


def flip(rng, family):
    octets = bytearray(pack(random_pieces(rng, family)))
    for _ in range(rng.randint(1, 3)):
        octets[rng.randrange(len(octets))] ^= 1 << rng.randrange(8)
    return family, bytes(octets)


def cut(rng, family):
    octets = pack(random_pieces(rng, family))
    return family, octets[:rng.randrange(len(octets))]


def extra(rng, family):
    count = rng.choice((1, 1, 2, 3, rng.randint(1, 100)))
    return family, pack(random_pieces(rng, family)) + rng.choice((bytes(count), rng.randbytes(count)))


def extension(rng, family):
    sent = random_pieces(rng, family)
    return family, altered(rng, sent, rng.choice(places(sent, lambda piece: piece.kind == 'extension')), 1)


def filling(rng, family):
    sent = random_pieces(rng, family, lambda sent: sum(piece.width for piece in sent) % 8)
    octets = bytearray(pack(sent))
    octets[-1] |= rng.randrange(1, 1 << 8 - sum(piece.width for piece in sent) % 8)
    return family, bytes(octets) + rng.choice((b'', b'', b'\0', b'\x01'))


def above(rng, family):
    """The range is drawn first, or fields of rare messages would hardly be met."""
    names = [name for name in RANGES if name not in ('octets', 'count') and spare(name)]
    name, found = rng.choice(names), []
    while not found:
        family = rng.choice(('air', 'ground'))
        sent = pieces(family, random_value(rng, family))
        found = places(sent, lambda piece: piece.name == name and piece.kind in ('number', 'index'))
    raws = spare(name)
    return family, altered(rng, sent, rng.choice(found), rng.choice((raws[0], raws[0], raws[-1], rng.choice(raws))))


def count(rng, family):
    sent = random_pieces(rng, 'air', lambda sent: any(piece.kind == 'count' for piece in sent))
    place, = places(sent, lambda piece: piece.kind == 'count')
    return 'air', altered(rng, sent, place, rng.choice((17, 17, 18, 127, 128, 255, rng.randint(17, 255))))


def presence(rng, family):
    sent = random_pieces(rng, family, lambda sent: any(piece.kind == 'presence' for piece in sent))
    place = rng.choice(places(sent, lambda piece: piece.kind == 'presence'))
    piece = sent[place]
    raw = rng.choice((piece.sent ^ 1 << rng.randrange(piece.width), rng.randrange(1 << piece.width), 0))
    return family, altered(rng, sent, place, raw)


def default(rng, family):
    """An interval of 5 minutes sent in a periodic contract, whole or not."""
    value = dict(random_value(rng, 'periodic-contract'), interval=('minutes', 5))
    sent = pieces('ground', ('periodic-contract', value), with_default=True)
    place, = places(sent, lambda piece: piece.name == 'interval-minutes')
    return 'ground', altered(rng, sent, place, sent[place].sent)


def octets(rng, family):
    some = bytearray(rng.randbytes(rng.randint(0, 140)))
    if some and rng.random() < 0.8:
        some[0] &= 0x7f                         # past the first extension bit
    return family, bytes(some)


def long(rng, family):
    size = rng.choice((127, 128, 129, 200))
    rest = rng.choice((bytes(size), rng.randbytes(size)))
    return family, (pack(random_pieces(rng, family)) + rest)[:size]


DAMAGES = [flip, flip, cut, cut, extra, extension, filling, above, above, count, presence, presence, default,
           octets, long]


# Lines

def unreadable(rng, family):
    """A line that is no call. Most are a readable one with one thing wrong."""
    word = family.encode()
    digits = pack(random_pieces(rng, family)).hex().encode()
    line = word + b' ' + digits
    place = rng.randrange(len(line) + 1)
    odd = bytes([rng.choice([value for value in range(256) if value not in b'\n 0123456789abcdef'])])
    full = b'0' * ((4096 - len(word) - 1) // 2 * 2)
    return rng.choice((
        word + b' ' + digits[:-1], line + b'0', line + b' ', line + b'\r', line + b'\t', b' ' + line,
        word + b'  ' + digits, word + b'\t' + digits, word + digits, word + b' ', word + b'\r', b'', b' ',
        word.upper() + b' ' + digits, word.title() + b' ' + digits, digits, word[:-1] + b' ' + digits,
        b'data ' + digits, b'end', word + b' 0x' + digits, word + b' ' + digits[:2] + b' ' + digits[2:] + b'00',
        word + b' ' + digits + b'AF', word + b' ' + digits + b'aF', word + b' ' + digits + b'g0',
        line[:place] + odd + line[place:], line + b'\x80\x80', word + b'\xa0' + digits, line + b'\0',
        word + b' ' + full + b'00', word + b' ' + full + b'0000'))


def random_line(rng):
    """(how it was made, line)"""
    family = rng.choice(('air', 'ground'))
    draw = rng.random()
    if draw < 0.03:
        return 'unreadable', unreadable(rng, family)
    if draw < 0.033:                            # the longest readable lines: 4,096 and 4,095 octets
        size = (4096 - len(family) - 1) // 2
        return 'longest', f'{family} {rng.randbytes(size).hex()}'.encode()
    if draw < 0.5:
        made, octets = 'whole', pack(random_pieces(rng, family))
    else:
        damage = rng.choice(DAMAGES)
        made, (family, octets) = damage.__name__, damage(rng, family)
    return made, (f'{family} {octets.hex()}' if octets else family).encode()


# Models with one thing changed

REWORDED = ('timer expiry', 'ground vector', 'baseline', 'under 8 nm', 'list over 16')


def mutants(text):
    """name -> what changes a model while it lasts"""
    changes = {name: change for name, change in percoder.CHANGES.items() if name not in (percoder.SENDING if text else percoder.OFFSETS)}
    changes.update({} if text else {f'{name}.one-more': functools.partial(percoder.shift, name) for name in RANGES})
    return {**{name: functools.partial(percoder.changed, change) for name, change in changes.items()},
            **{f'text.{name}': functools.partial(plaintext.reworded, name) for name in (REWORDED if text else ())}}


def coded(line):
    return percoder.answer(line)[0]


def told_apart(change, answer, cases):
    """Whether a line tells a changed model apart."""
    with change():
        return any(answer(line) != text for line, text in cases)


def mutate_all(changes, answer, cases):
    """Each changed model against the program's answers, up to the first that differs. Then all is put back, and none does."""
    missed = [name for name, change in changes.items() if not told_apart(change, answer, cases)]
    print(f'changed models {len(changes)}, told apart {len(changes) - len(missed)}')
    faults = ['the plain model is told apart'] if told_apart(contextlib.nullcontext, answer, cases) else []
    return faults + [f'not told apart: {name}' for name in missed]


# Runs

def run(program, lines):
    """Its answers, and what is wrong with it."""
    try:
        ended = subprocess.run(program, input=b''.join(line + b'\n' for line in lines), stdout=subprocess.PIPE)
    except OSError as error:
        return [], [f'cannot run the program: {error}']
    answers = ended.stdout.decode('latin-1').split('\n')
    faults = [] if answers.pop() == '' else ['the last answer has no line end']
    faults += [f'the program ended with {ended.returncode}'] if ended.returncode else []
    return answers, faults + ([f'{len(answers)} answers to {len(lines)} lines'] if len(answers) != len(lines) else [])


def unexercised(lines, texts, met):
    """What the lines did not lead to; prints what they did."""
    kinds = {(family, name) for family in ('air', 'ground') for name, _ in TABLE[family][2]}
    defaults = sum(text.startswith('ok') and line.split()[1].decode() != text.split()[1] for line, text in zip(lines, texts))
    tally = collections.Counter(text.split()[0] if text.startswith('ok') else int(text.split()[1]) for text in texts)
    print('expected ok', tally['ok'], *(f'refused-{number} {tally[number]}' for number in sorted(number for number in tally if number != 'ok')),
          f'kinds {len(kinds & met)}/{len(kinds)} defaults-sent {defaults}')
    faults = ['no default that was sent was accepted'] if not defaults else []
    faults += [f'refusal {number} was never exercised' for number in REFUSALS if not tally[number]]
    return faults + [f'no {family} {name} was accepted' for family, name in sorted(kinds - met)]


def compare(made, lines, answers, text):
    """Prints differences, and gives what is wrong."""
    coded, kinds = zip(*map(percoder.answer, lines))
    assert all((how == 'unreadable') == (due == 'refused 17') for how, due in zip(made, coded))
    expected = list(map(plaintext.answer, lines)) if text else coded
    faults = unexercised(lines, coded, set(kinds))
    answers = answers + ['(none)'] * (len(lines) - len(answers))
    said = {(line.split()[0], due): answer for line, due, answer in zip(lines, coded, answers) if due.startswith('ok')}
    if text and len(set(said.values())) < len(said):
        faults.append('two values have the same answer')
    wrong = [place for place in range(len(lines)) if answers[place] != expected[place]]
    print(f'differences {len(wrong)}')
    for place in wrong[:5]:
        print(f'line {place + 1} ({made[place]}): {lines[place].decode("latin-1")!r}')
        print(f'  expected {expected[place]}\n  got      {answers[place]}')
    return faults + ([f'{len(wrong)} differences'] if wrong else [])


def parse():
    arguments, program = sys.argv[1:], []
    if '--' in arguments:
        place = arguments.index('--')
        arguments, program = arguments[:place], arguments[place + 1:]
    parser = argparse.ArgumentParser(usage=__doc__.split('\n\n')[1])
    parser.add_argument('--count', type=int, default=20000)
    parser.add_argument('--seed', type=int, default=None)
    parser.add_argument('--text', action='store_true')
    parser.add_argument('--mutate', metavar='NAME')
    parser.add_argument('--list', action='store_true')
    options = parser.parse_args(arguments)
    if options.mutate not in (None, 'all', *mutants(options.text)):
        parser.error(f'there is no {options.mutate} (--list)')
    if not options.list and not program:
        parser.error('no program to compare with')
    return options, program


def main():
    options, program = parse()
    changes = mutants(options.text)
    if options.list:
        print('\n'.join(changes))
        return 0
    seed = random.SystemRandom().randrange(1 << 32) if options.seed is None else options.seed
    rng = random.Random(seed)
    made, lines = zip(*(random_line(rng) for _ in range(options.count)))
    print(f'seed {seed}' + (f', changed: {options.mutate}' if options.mutate else '') + f'\nlines {len(lines)}')
    answers, faults = run(program, lines)
    if options.mutate == 'all':
        faults += mutate_all(changes, plaintext.answer if options.text else coded, list(zip(lines, answers)))
    else:
        with changes.get(options.mutate, contextlib.nullcontext)():
            faults += compare(made, lines, answers, options.text)
    for fault in faults:
        print(f'fault: {fault}')
    return 1 if faults else 0


if __name__ == '__main__':
    sys.exit(main())
