#!/usr/bin/env python3
"""book.py START..: checks books of tools/book against the ephemeris between their nodes and against data/books. ask and strip, started by
START.., read them. One line for each check; the exit status is 1 if one failed."""
import math
import pathlib
import random
import struct
import sys
import tempfile

import checks
from checks import ROOT, WORK, check, ran
from de405 import Ephemeris, Unreadable
from fit import sight
from moments import moment_of
from pages import NUMBERS

START = sys.argv[1:]
BOOK = 'tools/book/book'
BODIES = list(NUMBERS)
NEAR, SLOW = 5e-6, 1e-8  # km and km/s: the greatest differences from the ephemeris
KIN = 5e-5, 1e-8  # the same for data/books, whose own errors are up to 10 mm


def made(name, *words):
    """A book in a file, and the messages about it."""
    status, out, told = ran(BOOK, *words)
    (WORK / name).write_bytes(out)
    return status, told


def asked(name, questions):
    """Answers of ask under a book: position and velocity, or the text of the refusal."""
    lines = ''.join(f'body {NUMBERS[body]} {moment}\n' for body, moment in questions).encode()
    answers = ran(*START, 'target/bin/ask', name, given=lines)[1].decode().splitlines()
    return [answer if answer.startswith('REFUSED') else struct.unpack('>6d', bytes.fromhex(answer)) for answer in answers]


def apart(answers, expected):
    """The greatest distance and difference of velocity; infinite if an answer is missing or a refusal."""
    if len(answers) != len(expected) or any(isinstance(answer, str) for answer in answers):
        return math.inf, math.inf
    return tuple(max(math.dist(a[i:i + 3], b[i:i + 3]) for a, b in zip(answers, expected)) for i in (0, 3))


def between(ephemeris):
    """Nine days of 1969: at their ends and at random moments between; a wrong ephemeris must be detected."""
    first, end = moment_of('1969-07-16T13:32'), moment_of('1969-07-25')
    status, told = made('week', '1969-07-16T13:32', '1969-07-25', 'jupiter', 'moon', 'mars', 'sun', 'venus')
    check('a book of nine days, a line a body', status == 0 and [line.split(':')[0] for line in told] == BODIES, told)
    random.seed(1)
    for body in BODIES:
        questions = [(body, t) for t in [first, end - 1] + [random.randrange(first, end) for _ in range(300)]]
        answers = asked('target/own/week', questions)
        far, fast = apart(answers, [sum(sight(ephemeris, *question), []) for question in questions])
        check(f'{body} by ask beside the ephemeris: {far:.9f} km, {fast:.12f} km/s', far < NEAR and fast < SLOW, answers[:1])
        late = [sum(sight(ephemeris, name, t + 50), []) for name, t in questions]
        check(f'{body} 50 ms late is seen', apart(answers, late)[0] > NEAR)
    refused = asked('target/own/week', [('moon', first - 1), ('moon', end), ('sun', end)])
    check('no cover before it and at its end', refused == ['REFUSED 6'] * 3, refused)


def kin():
    """The span of data/books/book31all.bin, which was made in another way."""
    made('month', '1963-01-13', '1963-02-14', *BODIES)
    random.seed(2)
    first, end = moment_of('1963-01-13'), moment_of('1963-02-14')
    for body in BODIES:
        questions = [(body, random.randrange(first, end)) for _ in range(300)]
        far, fast = apart(asked('target/own/month', questions), asked('data/books/book31all.bin', questions))
        check(f'{body} beside data/books: {far:.9f} km, {fast:.12f} km/s', far < KIN[0] and fast < KIN[1])
    order = (ROOT / 'data/orders/check-case-1.order').read_bytes()
    lines = ran(*START, 'target/bin/strip', given=order + (WORK / 'month').read_bytes())[1].decode().splitlines()
    stored = (ROOT / 'target/flight.listing').read_text().splitlines()
    far = math.dist(*(struct.unpack('>3d', bytes.fromhex(''.join(text[-2].split()[1:4]))) for text in (lines, stored)))
    good = lines[-1] == stored[-1] and far < 0.01
    check(f"strip flies check case 1 under it: {far:.9f} km from ./flight's last position", good, lines[-1])


def limits():
    status, told = made('long', '1963-01-01', '1964-03-16', 'moon', 'sun')
    size = (WORK / 'long').stat().st_size
    answer = asked('target/own/long', [('moon', moment_of('1964-03-15')), ('sun', moment_of('1963-01-01'))])
    check(f'440 days of Moon and Sun pass: {size} bytes', status == 0 and size <= 61440 and apart(answer, answer)[0] == 0, told)
    for words, part in [
            (['1963-01-01', '1964-03-17', 'moon', 'sun'], 'too long: '), (['1963-01-01', '1964-03-17', 'moon', 'sun'], 'at most 440 days'),
            (['1959-12-09', '1959-12-20', 'moon'], 'the ephemeris has 1959-12-10'), (['1949-12-31', '1950-01-20', 'moon'], 'within 1950'),
            (['2049-12-31', '2050-01-01T00:00:00.001', 'moon'], 'within 1950'), (['1963-01-01', '1963-01-01', 'moon'], 'is not after'),
            (['1963-01-02', '1963-01-01', 'moon'], 'is not after'), (['1963-02-29', '1963-03-01', 'moon'], 'day is out of range'),
            (['1963', '1964', 'moon'], 'is no time'), (['1963-01-01', '1963-01-02', 'earth'], "'earth' is no body of a book"),
            (['1963-01-01', '1963-01-02', 'moon', 'pluto'], "'pluto'"), (['1963-01-01', '1963-01-02', 'sun', 'sun'], 'twice')]:
        status, out, told = ran(BOOK, *words)
        good = (status, out, len(told)) == (1, b'', 1) and told[0].startswith('book: ') and part in told[0]
        check(f'told, {part}: {" ".join(words)}', good, told)
    status, told = made('last', '2049-12-31T23:59:59.999', '2050-01-01', *reversed(BODIES))
    check('the last millisecond of 2049', status == 0 and 'REFUSED' not in str(asked('target/own/last', [('mars', 3155759999999)])), told)
    for words in ([], ['1963-01-01', '1963-01-02']):
        status, out, told = ran(BOOK, *words)
        check(f'use told: {words}', (status, out, told) == (2, b'', ['use: book FROM TO BODY.. > BOOK']), told)
    status, _, told = ran('sh', '-c', f'{BOOK} 1963-01-01 1963-01-02 moon >/dev/full')
    check('a full disk told', status == 1 and told[-1] == 'book: cannot write the book: No space left on device', told)


def other_tables(ephemeris):
    """A table that is missing, cut short or of another form is an error."""
    for name, change in (('cut short', lambda data: data[:-8]), ('with another array', lambda data: data[:8176] + b'\2' + data[8177:])):
        with tempfile.TemporaryDirectory() as folder:
            for end in ('f0', 'dat'):
                (pathlib.Path(folder) / f'table.{end}').symlink_to(f'/usr/share/casacore/data/ephemerides/DE405/table.{end}')
            (pathlib.Path(folder) / 'table.f0i').write_bytes(change(ephemeris.data))
            check(f'a table {name} is told', told_by(folder) and 'knows' in told_by(folder), told_by(folder))
    check('a missing table is told', 'casacore-data-jpl-de405' in str(told_by(WORK)), told_by(WORK))


def told_by(folder):
    try:
        Ephemeris(pathlib.Path(folder))
    except Unreadable as told:
        return str(told)
    return None


WORK.mkdir(parents=True, exist_ok=True)
whole = Ephemeris()
between(whole)
kin()
limits()
other_tables(whole)
sys.exit(checks.failed)
