#!/usr/bin/env python3
"""flights.py: checks ./flight ORDER BOOK on flights of every length: its output against the listing of strip, its picture, and its errors.
A line of TAP for each check; the exit status is 1 if one failed."""
import math
import re
import sys

import checks
from checks import ROOT, WORK, check, ran
import form
from moments import iso

BOOK = 'data/books/book31all.bin'
TEXT = (ROOT / 'tools/order/moonshot.txt').read_text()
NUMBER = re.compile(r'-?\d+\.\d+')


def ordered(name, text):
    """An order's file from a text."""
    (WORK / f'{name}.txt').write_text(text)
    status, out, told = ran('tools/order/order', WORK / f'{name}.txt')
    if status:
        sys.exit(f'not ok - {name}: {told}')
    (WORK / f'{name}.order').write_bytes(out)
    return WORK / f'{name}.order'


def states():
    """Range and speed by time, from the listing that ./flight left."""
    lines = (ROOT / 'target/flight-own.listing').read_text().splitlines()[1:-1]
    rows = {}
    for moment, *words in map(str.split, lines):
        six = [form.number(int(word, 16)) for word in words]
        rows[iso(int(moment))] = math.hypot(*six[:3]), math.hypot(*six[3:])
    return rows


def shown(out):
    """Rows of the table: time, range, speed, latitude and longitude."""
    rows = {}
    for line in out.decode().splitlines():
        cells = [cell.strip() for cell in line.split('|')]
        if len(cells) >= 3 and NUMBER.match(cells[0]):
            rows[cells[0].split()[1]] = [float(cell) if cell else None for cell in cells[1:]]
    return rows


def flight(name, text, outcome, rows):
    order = ordered(name, text)
    status, out, told = ran('./flight', order, BOOK)
    lines = out.decode().splitlines()
    check(f'{name}: it ends with {outcome}', status == 0 and lines[-2:-1] == [outcome], f'{status} {lines[-3:]} {told[-3:]}')
    table, listed = shown(out), states()
    good = len(table) == rows and all(abs(listed[time][0] - row[0]) < 6e-4 and abs(listed[time][1] - row[1]) < 6e-7 for time, row in table.items())
    check(f'{name}: {rows} rows of the listing', good, f'{len(table)} {list(table.items())[:2]}')
    ends = {min(listed), max(listed)}
    check(f'{name}: the first state and the last are shown', ends <= set(table), ends)
    svg = (ROOT / 'target/flight-own.svg').read_text()
    check(f'{name}: its picture', svg.startswith('<svg') and svg.count('class="craft"') == 3 and 'nan' not in svg, len(svg))
    return table, svg


WORK.mkdir(parents=True, exist_ok=True)
_, far = flight('own-65-h', TEXT, 'ARRIVED 3900', 12)
check('a flight to the Moon is drawn with it', 'Moon after' in far)
_, near = flight('own-1-h', TEXT.replace('+65 h', '+1 h'), 'ARRIVED 60', 13)
check('a flight near the Earth is drawn without the Moon', 'Moon' not in near)
flight('own-1-min', TEXT.replace('+65 h', '+1 min'), 'ARRIVED 1', 2)
flight('own-0', TEXT.replace('+65 h', '+0 s'), 'ARRIVED 0', 1)
flight('own-12-d', TEXT.replace('+65 h', '+12 d'), 'ARRIVED 17280', 13)
plain = ''.join(line + '\n' for line in TEXT.splitlines() if line[:2] not in ('J ', 'A ', 'K '))
flight('own-120-bytes', plain.replace('+65 h', '+6 h'), 'ARRIVED 360', 13)
flight('own-past-the-book', TEXT.replace('+65 h', '+40 d'), 'REFUSED 6 44957', 8)
launch = ordered('own-launch', (ROOT / 'tools/order/launch.txt').read_text())
row = shown(ran('./flight', launch, BOOK)[1])['1963-01-13T00:00:35.000']
check('the ground point of a launch is where it was said to be', row[2:] == [28.309, 279.457], row)
for words, status, told in ((['one'], 2, 'use: ./flight'), (['--none', 'x'], 2, 'use: ./flight'), ([WORK / 'nothing', BOOK], 1, 'flight: cannot read'),
                            ([BOOK, BOOK], 1, 'is no order: an order has 120 or 144 bytes')):
    answer = ran('./flight', *words)
    check(f'told: {words[0]}', answer[0] == status and answer[1] == b'' and any(told in line for line in answer[2]), answer)
refused = ran('./flight', ordered('own-refused', TEXT), 'tools/order/moonshot.txt')
check('a flight that cannot begin is told', refused[0] == 1 and 'nothing was flown: REFUSED 1' in refused[2][-1], refused)
status, out, told = ran('./flight', '--help')
check('help', status == 0 and out.startswith(b'use: ./flight'), told)
sys.exit(checks.failed)
