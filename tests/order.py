#!/usr/bin/env python3
"""order.py START..: checks tools/order both ways, its wrong texts, injections as launch crews speak them and times in UT. strip, strip144
and ask, started by START.., read its orders. A line of TAP for each check; the exit status is 1 if one failed."""
import random
import struct
import sys
from fractions import Fraction

import checks
from checks import ROOT, WORK, check, ran
import form
import reading
import writing
from spoken import question as spoken_question
from values import float_bits

START = sys.argv[1:]
ORDER = 'tools/order/order'
TEXT = (ROOT / 'tools/order/moonshot.txt').read_text()
LAUNCH = (ROOT / 'tools/order/launch.txt').read_text()
BOOK = (ROOT / 'data/books/book31all.bin').read_bytes()
EDGES = [0, 1 << 63, 1, 0x7ff0000000000000, 0xfff0000000000000, 0x7ff8000000000000, 0x7ff0000000000001, 0xffffffffffffffff,
         0x7fefffffffffffff, 0x0010000000000000, 0x000fffffffffffff, 0x4340000000000000]


def written(text, *options):
    """The output of the program for a text."""
    (WORK / 'text').write_bytes(text if isinstance(text, bytes) else text.encode())
    return ran(ORDER, *options, WORK / 'text')


def instead(key, line, text=TEXT):
    """An example's text with another line for a key, and the number of that line."""
    lines = text.splitlines()
    place = next(i for i, old in enumerate(lines) if old.split()[:1] == [key])
    lines[place] = line
    return '\n'.join(lines) + '\n', place + 1


def pattern():
    return random.choice(EDGES) if random.random() < 0.2 else random.getrandbits(64)


def any_bytes():
    """An order of any bits, allowed or not, of either length."""
    plain = [pattern() for _ in range(6)] + [random.getrandbits(random.randrange(1, 65))] + [pattern() for _ in range(6)]
    plain += [random.getrandbits(random.randrange(1, 33)), random.getrandbits(random.randrange(1, 33)), random.getrandbits(64)]
    data = form.PLAIN.pack(*plain)
    return data + form.WHOLE.pack(pattern(), pattern(), pattern()) if random.random() < 0.5 else data


def allowed_bytes():
    """An order that the engine accepts, as far as a text can show."""
    positive = [form.bits(random.uniform(0, 10 ** random.randrange(-3, 12))) for _ in range(9)]
    step, count = 2 * random.randrange(1, 43200001), random.randrange(0, 100)
    start = random.randrange(0, 3155760000000 - step * count)
    state = [form.bits(random.uniform(-1, 1) * 10 ** random.randrange(-9, 9)) for _ in range(6)]
    data = form.PLAIN.pack(*positive[:6], start, *state, step, random.randrange(100001), start + step * count)
    return data + form.WHOLE.pack(*positive[6:]) if random.random() < 0.5 else data


def both_ways():
    random.seed(24)
    for name, make, any_order in (('any bits', any_bytes, True), ('allowed', allowed_bytes, False)):
        orders = [make() for _ in range(4000)]
        read = [reading.read(writing.text_of(form.unpack(data)).encode(), any_order) for data in orders]
        wrong = [told for order, told in read if order is None]
        other = sum(order is not None and form.pack(order) != data for (order, _), data in zip(read, orders))
        check(f'4000 orders, {name}: bytes, text, bytes', not wrong and not other, f'{wrong[:1]} {other}')
    for data in (any_bytes(), any_bytes(), allowed_bytes()):
        (WORK / 'order').write_bytes(data)
        text = ran(ORDER, '--back', WORK / 'order')[1]
        check(f'{len(data)} bytes both ways by the program', written(text, '--any') == (0, data, []), text)
    (WORK / 'order').write_bytes(data)
    text = ran(ORDER, '--back', WORK / 'order')[1]
    kept = writing.text_of(form.unpack(written(text)[1])).encode()
    check('text, bytes, text', kept == text, kept)


def nearest():
    """Decimals against exact fractions: no float is nearer."""
    random.seed(7)
    worse = []
    for _ in range(3000):
        whole, rest, power = random.randrange(10 ** random.randrange(1, 25)), random.randrange(10 ** 9), random.randrange(-40, 40)
        word = f'{random.choice(["", "-"])}{whole}.{rest}e{power}'
        value = form.number(float_bits(word))
        around = [form.number(form.bits(value) + step) for step in (-1, 1)]
        near = abs(Fraction(word) - Fraction(value))
        worse += [word for other in around if value and abs(Fraction(word) - Fraction(other)) < near]
    check('3000 decimals: the nearest float', not worse, worse[:3])


def stored():
    plain = ''.join(line + '\n' for line in TEXT.splitlines() if line[:2] not in ('J ', 'A ', 'K '))
    for name, text in (('order144', TEXT), ('order', plain)):
        data = (ROOT / f'data/orders/check-case-1.{name}').read_bytes()
        status, out, told = written(text)
        check(f"the example's text is check-case-1.{name}", (status, out, told) == (0, data, []), told)
        back = ran(ORDER, '--back', ROOT / f'data/orders/check-case-1.{name}')
        check(f'check-case-1.{name} both ways', back[0] == 0 and written(back[1]) == (0, data, []), back[2])
        strip = 'strip' + name[5:]
        flown = ran(*START, f'target/bin/{strip}', given=out + BOOK)[1]
        listing = (ROOT / f'target/flight{name[5:]}.listing').read_bytes()
        check(f"{strip} flies it as ./flight's listing has it", flown == listing and len(listing) > 400000, len(flown))


WRONG = [  # a key, the line in its place, a part of the message
    ('start', 'start 1963-13-13T18:42:36.297', 'month'), ('start', 'start 1963-02-29', 'day'),
    ('start', 'start 1949-12-31', 'within 1950'), ('start', 'start 2050-01-01', 'within 1950'),
    ('start', 'start 1963-01-13T24:00', 'hour'), ('start', 'start 1963-01-13T18:42:60', 'second'),
    ('start', 'start 1963-01-13T18:42:36.2971', 'three decimals'), ('start', 'start 1963-01-13T18:42:36Z', 'no zone'),
    ('start', 'start', 'no time'), ('start', 'start -1 ms', 'no length'), ('start', 'start 1.5 ms', 'whole number'),
    ('start', 'start 18446744073709551616 ms', 'no room'), ('target', 'target + -65 h', 'no length'),
    ('target', 'target -65 h', 'no time'), ('target', 'target +65', 'no length'),
    ('target', 'target +18446744073709551615 ms', 'no room'), ('step', 'step 60', 'no length'),
    ('step', 'step 60 s s', 'no length'), ('step', 'step 0.0005 s', 'whole number'), ('step', 'step 4294967296 ms', 'no room'),
    ('step', 'step -60 s', 'never negative'), ('dut', 'dut 1 y', 'no length'),
    ('position', 'position 1 2 3', 'wanted: 3 numbers and km'), ('position', 'position 1 2 km', 'wanted'),
    ('position', 'position 1 2 3 m', 'wanted'), ('position', 'position 1 2 3 4 km', 'wanted'),
    ('position', 'position 1 2 3,5 km', "'3,5'"), ('velocity', 'velocity 1 2 3 km', 'wanted'),
    ('velocity', 'velocity 1 nan 3 km/s', "'nan'"), ('velocity', 'velocity 1 1e999 3 km/s', 'too large'),
    ('velocity', 'velocity 1 1_0 3 km/s', "'1_0'"), ('velocity', 'velocity 1 0x7 3 km/s', "'0x7'"),
    ('velocity', 'velocity 1 ٣ 3 km/s', "'٣'"), ('earth', 'earth', 'wanted'), ('earth', 'earth nominal km3/s2', 'nominal'),
    ('earth', 'Earth nominal', 'no key'), ('moon', 'mond 1 km3/s2', 'no key'), ('mars', 'sun nominal', 'stands in line'),
    ('K', 'K nominal', 'wanted: one number and km3/s2'),
]
REFUSED = [  # the same, with the number by which the engine refuses such an order
    ('earth', 'earth 0 km3/s2', 4), ('earth', 'earth -0.0 km3/s2', 4), ('moon', 'moon -1 km3/s2', 4),
    ('sun', 'sun 0x7ff0000000000000 km3/s2', 4), ('mars', 'mars 0x7ff8000000000000 km3/s2', 4), ('J', 'J -1e-300', 4),
    ('A', 'A 0xfff0000000000000 km', 4), ('K', 'K -5e-324 km3/s2', 4), ('dut', 'dut 100.001 s', 4),
    ('start', 'start 3155760000000 ms', 3), ('target', 'target 3155760000000 ms', 3),
    ('position', 'position 0x7ff0000000000000 0 0 km', 7), ('velocity', 'velocity 0 0 0x7ff8000000000000 km/s', 7),
    ('step', 'step 3 ms', 2), ('step', 'step 0 s', 2), ('step', 'step 86400.002 s', 2),
    ('target', 'target 1963-01-13T18:42:36.296', 5), ('target', 'target +61 s', 5),
]


WRONG_LAUNCH = [  # for the launch's text: a key, the line in its place, a part of the message
    ('latitude', 'latitude 28.309', 'wanted: one number and deg'), ('latitude', 'latitude 28,309 deg', 'wanted'),
    ('latitude', 'latitude 1e1 deg', 'wanted'), ('latitude', 'latitude 28.30900000001 deg', 'more than ten decimals'),
    ('azimuth', 'azimuth 90 deg deg', 'wanted'), ('path', 'path nan deg', 'wanted'), ('radius', 'radius 6570', 'wanted: one number and km'),
    ('speed', 'speed 10.9 km', 'wanted'), ('rule', 'rule 2', 'wanted: 0'), ('path', 'position 1 2 3 km', 'give one of the two'),
    ('latitude', 'latitude 90.0000000001 deg', 'refused by 12'), ('path', 'path -90.0000000001 deg', 'refused by 12'),
    ('longitude', 'longitude 360 deg', 'refused by 12'), ('azimuth', 'azimuth -0.0000000001 deg', 'refused by 12'),
    ('radius', 'radius 0x7ff0000000000000 km', 'refused by 7'), ('speed', 'speed 0x7ff8000000000000 km/s', 'refused by 7'),
    ('radius', 'radius 0 km', 'refused by 7'), ('radius', 'radius -6570 km', 'refused by 7'),
    ('start', 'start 34999 ms', 'refused by 3'),
    ('start', 'start 1963-01-13T00:00:00 UTC', 'no time'), ('start', 'start 2049-12-31T23:59:59.999 UT', 'refused by 3'),
    ('target', 'target +3 h UT', 'no length'), ('dut', 'dut 35', 'no length'),
]


def launch_text(key=None, line=None):
    """The launch's text, which has a line for the rule too, with another line for a key."""
    text = LAUNCH + 'rule 0\n'
    return instead(key, line, text) if key else (text, 0)


def spoken():
    """The launch by the program, against the answer of ask itself; the same with its times in ephemeris time."""
    status, out, told = written(LAUNCH)
    check('a launch in UT is an order', (status, len(out), told) == (0, 120, []), told)
    order = form.unpack(out)
    start = 4760 * 86400000 + 35000
    check('UT is earlier than the moment by DUT', (order['start'], order['target']) == (start, start + 3 * 3600000), order)
    question = f'sphere 0 35000 {start} {form.bits(6570.0):016x} 283090000000 2794570000000 {form.bits(10.9):016x} 0 900000000000'
    answer = ran(*START, 'target/bin/ask', given=f'{question}\n'.encode())[1].decode().split()
    made = [f'{pattern:016x}' for pattern in (*order['position'], *order['velocity'])]
    check("position and velocity are ask's own", answer == [str(start), *made], f'{answer} {made}')
    in_et = LAUNCH.replace('T00:00:00 UT', 'T00:00:35').replace('T03:00:00 UT', 'T03:00:35 ET')
    check('the same times in ephemeris time give the same order', written(in_et) == (0, out, []))
    other = written(LAUNCH + 'rule 1\n')
    check('the rule of 1982 gives another position', other[0] == 0 and other[1] != out and other[1][:56] == out[:56], other[2])
    flown = ran(*START, 'target/bin/strip', given=out + BOOK)[1]
    check('strip flies the launch for 180 steps', flown.endswith(b'\nARRIVED 180\n'), flown[-40:])
    for key, line, words in WRONG_LAUNCH:
        text, place = launch_text(key, line)
        answer = written(text)
        check(f"told by line: '{line}'", told_at(place, words, answer), answer)
    # on the equator, along an axis and with the turning Earth: the largest speed and the Earth's own are above all floats
    parts = -int(ran(*START, 'target/bin/ask', given=f'hour {start} 35000\n'.encode())[1]) % 3600000000000
    text = LAUNCH.replace('6570 km', '1.7976931348623157e308 km').replace('10.9 km/s', '1.7976931348623157e308 km/s')
    text = text.replace('28.309 deg', '0 deg').replace('279.457 deg', f'{parts // 10 ** 10}.{parts % 10 ** 10:010} deg')
    place = 1 + next(i for i, line in enumerate(text.splitlines()) if line.startswith('radius'))
    answer = written(text)
    check('what the proved call alone refuses is told', told_at(place, 'refuses this injection: refused by 7', answer), answer)
    lines = [line for line in LAUNCH.splitlines() if not line.startswith(('azimuth', 'speed'))]
    status, out, told = written('\n'.join(lines) + '\n')
    missing = sorted(one.rsplit(': ')[-1] for one in told)
    check('what is missing of a launch', (status, out, missing) == (1, b'', ['azimuth is missing', 'speed is missing']), told)


def many_spoken():
    """Angles, sizes and times from a seed reach the proved call as they are written."""
    random.seed(35)
    wrong, questions, seen = [], [], []
    for _ in range(500):
        parts = [random.randrange(-900000000000, 900000000001), random.randrange(3600000000000), random.randrange(-900000000000, 900000000001),
                 random.randrange(3600000000000)]
        radius, speed = random.uniform(6378, 9000), random.uniform(0, 12)
        dut, ut = random.randrange(100001), random.randrange(3155760000000 - 100001)
        degrees = [f'{"-" if part < 0 else ""}{abs(part) // 10 ** 10}.{abs(part) % 10 ** 10:010} deg' for part in parts]
        text = (f'start {writing.moment_text(ut)} UT\ndut {dut} ms\nradius {radius!r} km\nspeed {speed!r} km/s\nlatitude {degrees[0]}\n'
                f'longitude {degrees[1]}\npath {degrees[2]}\nazimuth {degrees[3]}\nstep 60 s\ntarget +0 s\nearth nominal\n')
        _, told = reading.read(text.encode(), False, lambda order: (questions.append(spoken_question(order)), ([0] * 3, [0] * 3))[1])
        wrong += told
        seen.append(f'sphere 0 {dut} {ut + dut} {form.bits(radius):016x} {parts[0]} {parts[1]} {form.bits(speed):016x} {parts[2]} {parts[3]}')
    check('500 injections reach the proved call as they are written', questions == seen and not wrong, wrong[:2])
    answers = ran(*START, 'target/bin/ask', given='\n'.join([*questions, '']).encode())[1].decode().splitlines()
    floats = [struct.unpack('>6d', bytes.fromhex(''.join(answer.split()[1:]))) for answer in answers if len(answer.split()) == 7]
    far = [six for six in floats if not 6377 < sum(x * x for x in six[:3]) ** 0.5 < 9001]
    check('and each has its radius in the answer', len(floats) == 500 and not far, answers[:1])


def told_at(place, words, answer):
    """Whether this message is printed for this line, and no order is written."""
    status, out, told = answer
    return (status, out) == (1, b'') and any(one.startswith(f'{WORK / "text"}:{place}: ') and words in one for one in told)


def wrong_texts():
    for key, line, words in WRONG:
        text, place = instead(key, line)
        answer = written(text)
        check(f"told by line: '{line}'", told_at(place, words, answer), answer)
    for key, line, number in REFUSED:
        text, place = instead(key, line)
        answer, data = written(text), written(text, '--any')[1]
        flown = ran(*START, 'target/bin/strip144', given=data + BOOK)[1]
        good = told_at(place, f'refused by {number}', answer) and flown == b'REFUSED %d\n' % number
        check(f"told, and refused by {number}: '{line}'", good, f'{answer} {flown}')


def many_lines():
    """Each wrong line is reported, in order; a missing key is reported after the last line."""
    text = TEXT.replace('step ', 'stop ').replace('earth ', 'earth x').encode() + b'\xff\nmoon nominal\n'
    status, out, told = written(text)
    places = [int(one.split(':')[1]) for one in told]
    end = text.count(b'\n')
    lines = {text.decode(errors='replace').splitlines().index(line) + 1 for line in text.decode(errors='replace').splitlines()
             if line.startswith(('stop', 'earth x'))}
    good = (status, out) == (1, b'') and places == sorted(places) and set(places) == lines | {end - 1, end, end + 1}
    check('every wrong line is told, in order', good and 'UTF-8' in told[-3] and told[-1].endswith('step is missing'), told)
    status, out, told = written('')
    check('an empty text: all that is missing', (status, out, len(told)) == (1, b'', 7) and all(':1: ' in one for one in told), told)
    status, out, told = written(TEXT.replace('\nJ ', '\n#'))
    check('J missing beside A and K', (status, out) == (1, b'') and len(told) == 1 and told[0].endswith('J is missing'), told)


def use():
    status, out, told = ran(ORDER, '--help')
    check('help names every key', (status, told) == (0, []) and all(key.encode() in out for key in reading.READERS), told)
    for words in ([], ['--back'], ['one', 'two'], ['--none', 'x'], ['-']):
        status, out, told = ran(ORDER, *words)
        check(f'use told: {words}', (status, out) == (2, b'') and told[0].startswith('use: order'), told)
    for words, start in ((['target/own/nothing'], 'order: cannot read target/own/nothing: No such file'),
                         (['target'], 'order: cannot read target: Is a directory'),
                         (['--back', 'tools/order/moonshot.txt'], 'tools/order/moonshot.txt: ')):
        status, out, told = ran(ORDER, *words)
        check(f'told: {words}', (status, out, len(told)) == (1, b'', 1) and told[0].startswith(start), told)
    status, _, told = ran('sh', '-c', f'{ORDER} tools/order/moonshot.txt >/dev/full')
    check('a full disk told', status == 1 and told == ['order: cannot write: No space left on device'], told)


WORK.mkdir(parents=True, exist_ok=True)
stored()
both_ways()
nearest()
spoken()
many_spoken()
wrong_texts()
many_lines()
use()
sys.exit(checks.failed)
