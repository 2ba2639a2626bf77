"""Night folders with random flights for the on-air service, and what it has to show of them, for tests/fuzz.

A flight is a dict from file names to bytes; LINK, PIPE and FOLDER stand for what is no regular file. Books in `later/` come while the service
runs. What has to be shown follows from the listing of `strip` or `strip144`, and between two of its states from the pane's formulas in
docs/RULES.md."""
import base64
import bisect
import functools
import hashlib
import json
import math
import os
import pathlib
import re
import struct
import subprocess
import tempfile
import time
import unicodedata

from lib.changed import bytes_changed, order_text
from onair_desk import BOOK, DAY, INJECTION, ORDER, ROOT, Service, bits, bound, checked, entries, floats, iso, put

END = 3_155_760_000_000
LONGEST = 61_440
STEPS = 400
FLIGHTS = 40
LINK, PIPE, FOLDER = 'link', 'pipe', 'folder'
WHITE = ' \t\n\x0b\x0c\r\x85\xa0\u1680\u2028\u2029\u202f\u205f\u3000' + ''.join(map(chr, range(0x2000, 0x200b)))
ABOUT = [['title Ranger 5', 'title: <b>"A" & co</b>', 'title = ', f'title {"x" * 250}'], ['rule 0', 'rule 1', 'rule: 1', 'rule=0'],
         ['et_minus_utc_ms 35000'], ['# x', '', '  ']]
ABOUT_WRONG = ['rule 2', 'rules 1', 'rule', 'rule -0', 'et_minus_utc_ms -1', 'et_minus_utc_ms 1000001', 'what', 'Title x', '=', 'rule 0\nrule 0']
NO_FLIGHTS = ['Upper', 'a b', 'x' * 33, 'health', 'metrics', 'clock', 'now', 'under_score', '.hidden', 'ü']


# ---- flights at random

def some_float(chance):
    kind = chance.randrange(8)
    if kind == 0:
        return chance.choice([0.0, -0.0, 1e308, -1e308, 5e-324, math.inf, math.nan, 1e150])
    if kind == 1:
        return struct.unpack('<d', chance.randbytes(8))[0]
    return chance.uniform(-1, 1) * 10 ** chance.uniform(-3, 9)


def some_order(chance, moment):
    """An order whose flight is near a moment."""
    h = chance.choice([2, 1000, 60_000, 3_600_000, 86_400_000, 2 * chance.randrange(1, 100_000)])
    steps = chance.randrange(chance.choice([2, 8, STEPS, STEPS]))
    start = moment - chance.randrange(-1, steps + 2) * h - chance.choice([0, 0, 1, chance.randrange(h)])
    start = min(max(start, 0), END - 1)
    coefficients = [x * chance.choice([1, 1, 0]) for x in struct.unpack_from('<5d', ORDER, 8)]
    motion = struct.unpack_from('<6d', ORDER, 56) if chance.randrange(5) else [some_float(chance) for _ in range(6)]
    terms = struct.unpack_from('<3d', ORDER, 120) if chance.randrange(12) else [some_float(chance) for _ in range(3)]
    made = ORDER[:8] + struct.pack('<5dQ6dIIQ3d', *coefficients, start, *motion, h, chance.choice([0, 35_000]), start + steps * h, *terms)
    if chance.randrange(8) == 0:
        wrong = [(104, '<I', h + 1), (104, '<I', 0), (108, '<I', 100_001), (112, '<Q', start + steps * h + 1), (112, '<Q', END), (48, '<Q', END)]
        at, form, value = chance.choice(wrong)
        made = made[:at] + struct.pack(form, value) + made[at + struct.calcsize(form):]
    made = made[:chance.choice([120, 144, 144])]
    return made if chance.randrange(10) else bytes_changed(chance, made)


def ends_soon(order):
    """Whether its listing is short: an order of millions of steps is left out."""
    if len(order) not in (120, 144):
        return True
    (start,), (h, _, target) = struct.unpack_from('<Q', order, 48), struct.unpack_from('<IIQ', order, 104)
    return (target - start) // max(h, 1) <= STEPS


def some_book(chance, start, end):
    """A book around a stretch of time. The records of one body may end in it, or be missing."""
    width, parts, short = max(end - start, 1000), [], chance.randrange(2, 12)
    for body in range(2, 7):
        if body == short and chance.randrange(4) == 0:
            continue
        first = max(0, start - chance.choice([0, chance.randrange(width)]))
        last = min(END, max(first + 1, end + (-chance.randrange(width) if body == short else chance.choice([1, width]))))
        cuts = sorted({first, last, *(chance.randrange(first, last) for _ in range(chance.randrange(4)))})
        size = 4e5 if body == 2 else 1e8
        for a, b in zip(cuts, cuts[1:]):
            n = chance.randrange(2, 17)
            parts.append((body, n, a, b - a, struct.pack(f'<{3 * n}d', *(chance.uniform(-size, size) / 8 ** k for _ in range(3) for k in range(n)))))
    return bound(parts)


def another_book(chance, book):
    """A book beside one that passes: fuller, lacking an entry, damaged, too long, or the same."""
    parts, kind = entries(book), chance.choice([0, 0, 1, 2, 3, 4])
    if kind == 0 and parts:
        ends = {body: start + span for body, _, start, span, _ in parts}
        body, end = min(ends.items(), key=lambda item: item[1])
        n, block = chance.choice([(n, block) for _, n, _, _, block in parts])
        more = min(chance.choice([1000, 3_600_000, DAY]), END - end)
        return bound(sorted([*parts, (body, n, end, more, block)])) if more else book
    if kind == 1 and parts:
        parts.pop(chance.randrange(len(parts)))
        return bound(parts)
    if kind == 2:
        return book + bytes(LONGEST + 1 - len(book))
    return book if kind == 3 else bytes_changed(chance, book)


def some_flight(chance, moment):
    """The files of a flight."""
    order = some_order(chance, moment)
    while not ends_soon(order):
        order = some_order(chance, moment)
    files = {'order.bin': order}
    (start,), (target,) = struct.unpack_from('<Q', order.ljust(144, b'\0'), 48), struct.unpack_from('<Q', order.ljust(144, b'\0'), 112)
    start, target = min(start, END - 1), min(max(start, target), END - 1)
    kind = chance.randrange(24)
    if kind == 0:
        files = {'order.txt': some_text(chance, moment)}
    elif kind == 1:
        files = chance.choice([{}, {'order.bin': LINK}, {'order.bin': FOLDER}, {'order.bin': PIPE}, {'order.txt': LINK}, {'order.bin': order, 'order.txt': b''}])
    first = BOOK if chance.randrange(3) == 0 and start in range(INJECTION, INJECTION + 30 * DAY) else some_book(chance, min(start, moment), max(target, moment))
    books = [another_book(chance, first) if chance.randrange(4) == 0 else first]
    books += [another_book(chance, first) for _ in range(chance.choice([0, 0, 1, 3]))]
    names = ['001.book', '002.book', '01.book', 'A_b-C.book', 'x' * 59 + '.book']
    places = ['books', *[chance.choice(['books', 'later'])] * 3]
    files.update(zip((f'{place}/{name}' for place, name in zip(places, chance.sample(names, len(books)))), books if chance.randrange(15) else []))
    if chance.randrange(10) == 0:
        files[f'books/{chance.choice(["a b.book", "x" * 60 + ".book", ".x.book", "x.txt"])}'] = first
        files['books/odd.book'] = chance.choice([LINK, PIPE, FOLDER])
    if chance.randrange(2):
        lines = [chance.choice(lines) for lines in chance.sample(ABOUT, chance.randrange(5))] + ([chance.choice(ABOUT_WRONG)] if chance.randrange(12) == 0 else [])
        about = '\n'.join(chance.sample(lines, len(lines))).encode()
        files['flight.txt'] = bytes_changed(chance, about) if chance.randrange(12) == 0 else about
    return files


def some_text(chance, moment):
    lines = (ROOT / 'tools' / 'order' / 'moonshot.txt').read_text().splitlines()
    start = max(0, moment - chance.randrange(4_000_000))
    lines = [f'start {iso(start)}' if line.startswith('start') else 'target +3 h' if line.startswith('target') else line for line in lines]
    text = order_text(chance, lines)
    return text if ends_soon(made_of(text)) else '\n'.join(lines).encode()


def some_night(chance):
    """Three moments in rising order, and flights by their names."""
    first = chance.choice([*[INJECTION + chance.randrange(3 * DAY)] * 5, chance.randrange(END), chance.randrange(END), 0, END - 1])
    moments = [first]
    for _ in range(2):
        moments.append(min(END - 1, moments[-1] + chance.choice([0, 1, 500, 60_000, 3_600_000, chance.randrange(2 * DAY)])))
    flights = {f'f-{number}': some_flight(chance, chance.choice(moments)) for number in range(FLIGHTS)}
    flights.update({name: some_flight(chance, first) for name in chance.sample(NO_FLIGHTS, 2)})
    return moments, flights


# ---- what has to be shown

class Listings:
    """Listings of strip and strip144, each worked out once. Spoiled, the last bit of each x is wrong."""

    def __init__(self, started, spoil=False):
        self.started, self.spoil, self.known = started, spoil, {}

    def of(self, order, book):
        """The states, as moments and bits, and the number of the refusal at their end."""
        name = 'strip' if len(order) == 120 else 'strip144'
        key = hashlib.sha256(order + book).digest()
        if key not in self.known:
            said = subprocess.run([*self.started(name)], input=order + book, stdout=subprocess.PIPE, check=True, cwd=ROOT).stdout.decode()
            lines = [line.split() for line in said.splitlines()]
            states = [(int(t), [f'{int(x, 16) ^ self.spoil:016x}', *rest]) for t, x, *rest in lines[1:-1]]
            self.known[key] = states, int(lines[-1][1]) if lines[-1][0] == 'REFUSED' else None
        return self.known[key]


def between(older, newer, t):
    """The six at a moment between two states, by the pane's formulas."""
    (t0, bits0), (t1, bits1) = older, newer
    if t in (t0, t1):
        return floats(bits0 if t == t0 else bits1)
    a, b, d, s = floats(bits0), floats(bits1), float(t1 - t0) / 1000, float(t - t0) / float(t1 - t0)
    positions, velocities = [], []
    for p0, v0, p1, v1 in zip(a[:3], a[3:], b[:3], b[3:]):
        m0, m1, e = d * v0, d * v1, p1 - p0
        c2, c3 = (3 * e - 2 * m0) - m1, (m0 + m1) - 2 * e
        positions.append(p0 + s * (m0 + s * (c2 + s * c3)))
        velocities.append((m0 + s * (2 * c2 + s * (3 * c3))) / d)
    return positions + velocities


def shown(start, states, refusal, moment):
    """Word, lateness, refusal and the six of a frame, from a listing."""
    if moment < start:
        return 'EMPTY', None, None, None
    if len(states) < 2:
        return 'EMPTY', None, refusal, None
    last = states[-1][0]
    if moment > last:
        return 'LATE', moment - last, refusal, None
    at = min(bisect.bisect_right([t for t, _ in states], moment), len(states) - 1)
    six = between(states[at - 1], states[at], moment)
    if not all(map(math.isfinite, six)):
        return 'REFUSED', None, 7, None
    return 'CURRENT', None, refusal if moment == last else None, six


def about(data):
    """The title that flight.txt gives, and whether it can be read."""
    title, seen = None, set()
    for line in data.decode(errors='replace').split('\n'):
        line = line.strip(WHITE)
        if not line or line.startswith('#'):
            continue
        key = re.match('[a-z_]*', line)[0]
        value = re.sub('^[:=]', '', line[len(key):].lstrip(WHITE)).strip(WHITE)
        most = {'title': None, 'rule': 1, 'et_minus_utc_ms': 1_000_000}
        if key not in most or key in seen or key != 'title' and not (re.fullmatch('[0-9]+', value) and int(value) <= most[key]):
            return None, False
        seen.add(key)
        if key == 'title':
            title = ''.join(c for c in value if unicodedata.category(c) != 'Cc')[:200]
    return title, True


@functools.cache
def made_of(text):
    """What the order maker makes of a text."""
    made = subprocess.run([ROOT / 'tools' / 'order' / 'order', '/dev/stdin'], input=text, capture_output=True)
    return made.stdout if made.returncode == 0 else b''


def order_of(files):
    """The order's bytes, or none if it cannot be read."""
    text, made = files.get('order.txt'), files.get('order.bin')
    if text is not None and made is not None or isinstance(text, str) or isinstance(made, str):
        return None
    made = made_of(text) if text is not None else made
    return made if made is not None and len(made) in (120, 144) else None


class Wanted:
    """What the service has to make of a flight's folder."""

    def __init__(self, name, files, listings):
        self.listings, self.book, self.taken, self.told = listings, None, set(), []
        title, readable = about(files.get('flight.txt', b''))
        self.title = name if title is None else title
        self.order = order_of(files) if readable else None
        if self.order is None:
            return
        self.start, self.target = struct.unpack_from('<Q', self.order, 48)[0], struct.unpack_from('<Q', self.order, 112)[0]
        for path in sorted(path for path in files if re.fullmatch(r'books/[^.].*\.book', path)):
            self.arrives(path[6:], files[path])

    def arrives(self, name, book):
        """A book as it is judged: one that strip refuses by 1 does not pass."""
        fits = isinstance(book, bytes) and len(book) <= LONGEST and re.fullmatch(r'[A-Za-z0-9._-]{1,64}', name)
        if fits and book in self.taken:
            return
        passes = fits and self.listings.of(self.order, book) != ([], 1)
        if passes and (self.book is None or set(entries(self.book[1])) <= set(entries(book))):
            self.book = name, book
            self.taken.add(book)
        else:
            self.told.append(name)

    def at(self, moment):
        """The fields of a frame that are compared."""
        frame = {'title': self.title, 'clock': None, 'word': 'EMPTY', 'late_ms': None, 'refusal': None, 'state': None, 'book': None, 'healthy': False}
        if self.order is None:
            return frame
        frame['clock'] = moment
        if self.book is None:
            return frame
        word, late, refusal, six = shown(self.start, *self.listings.of(self.order, self.book[1]), moment)
        healthy = word == 'CURRENT' or not self.start <= moment <= self.target
        state = six and [bits(x) for x in six]
        return {**frame, 'word': word, 'late_ms': late, 'refusal': refusal, 'state': state, 'book': self.book[0], 'healthy': healthy}


def length(x, y, z):
    n = (x * x + y * y) + z * z
    return math.sqrt(n) if math.isfinite(n) else None


def fault(wanted, frame, healthy, moment):
    """What is wrong with a frame, in words."""
    seen = {
        'title': frame['title'], 'clock': frame['clock'] and frame['clock']['moment'], 'word': frame['word'], 'late_ms': frame['late_ms'],
        'refusal': frame['refusal'] and frame['refusal']['number'], 'state': frame['state'] and frame['state']['bits'],
        'book': frame['book'] and frame['book']['name'], 'healthy': healthy}
    right = wanted.at(moment)
    if differ := [key for key in right if seen[key] != right[key]]:
        return '; '.join(f'{key} is {seen[key]}, wanted {right[key]}' for key in differ)
    if (frame['figures'] is None or frame['text'] is None) == (right['word'] == 'CURRENT'):
        return 'figures are there without CURRENT, or are not'
    if right['state']:
        six = floats(right['state'])
        sizes = [length(*six[:3]), length(*six[3:])]
        texts = [None if x is None else f'{x:.{places}f}' for x, places in zip(sizes, (3, 6))]
        if [frame[key][name] for key in ('figures', 'text') for name in ('range_km', 'speed_km_s')] != sizes + texts:
            return f'range and speed are {frame["figures"]}, {frame["text"]}, wanted {sizes} {texts}'
    if wanted.order is None and not frame['notices']:
        return 'no notice tells why there is no order'
    untold = [name for name in wanted.told[:20] if not any(name in notice for notice in frame['notices'])]
    return untold and f'no notice tells of {untold}'


# ---- the service over a night

def write(folder, files):
    for name, data in files.items():
        if name.startswith('later/'):
            continue
        path = folder / name
        path.parent.mkdir(parents=True, exist_ok=True)
        if isinstance(data, bytes):
            path.write_bytes(data)
        elif data == LINK:
            path.symlink_to(ROOT / 'data' / 'orders' / 'check-case-1.order144')
        elif data == PIPE:
            os.mkfifo(path)
        else:
            path.mkdir()
    folder.mkdir(parents=True, exist_ok=True)


def compared(service, wanted, moment, patience):
    """Every frame beside what it has to be; what is wrong, by flight. A walk may need a while to get there."""
    end = time.monotonic() + patience
    while True:
        frames = {frame['flight']: frame for frame in service.get('now.json')}
        health = {one['flight']: one['healthy'] for one in service.get('health')['flights']}
        wrong = {name: words for name, w in wanted.items() if name in frames and (words := fault(w, frames[name], health[name], moment))}
        if frames.keys() != wanted.keys():
            wrong[''] = f'flights are {sorted(frames.keys() ^ wanted.keys())} more or less than wanted'
        if not wrong or time.monotonic() > end:
            return wrong
        time.sleep(0.1)


def arrive(night, flights, wanted):
    """The books that come while the service runs, in the order of their names."""
    for name, files in flights.items():
        (night / name / 'books').mkdir(exist_ok=True)
        for path in sorted(path for path in files if path.startswith('later/')):
            put(night / name, path[6:], files[path])
            if name in wanted and wanted[name].order is not None:
                wanted[name].arrives(path[6:], files[path])


def paths(service, wanted, moment):
    """Points of a path that are no states of the listing."""
    wrong = {}
    for name, w in wanted.items():
        states = dict(w.listings.of(w.order, w.book[1])[0]) if w.order and w.book else {}
        points = service.get(f'{name}/path.json')['points']
        odd = [p[0] for p in points if p[0] > moment or states and [bits(x) for x in p[1:4]] != states.get(p[0], [])[:3]]
        if odd or points and w.book is None:
            wrong[name] = f'points of the path that are no states: {odd[:3]}'
    return wrong


def followed(moments, flights, started, spoil=False):
    """Starts the service over flights at the first moment, lets more books come, sets the second moment, and starts it again at the third. How
    many frames were compared, and what was wrong, by flight; '' is for what is wrong with no flight of its own."""
    listings, count, wrong, patience = Listings(started, spoil), 0, {}, 1 if spoil else 10
    wanted = {name: Wanted(name, files, listings) for name, files in flights.items() if name not in NO_FLIGHTS}
    # In memory, because the service flushes each copy that it keeps to disk.
    with tempfile.TemporaryDirectory(prefix='belfrywool-', dir='/dev/shm' if os.path.isdir('/dev/shm') else None) as work:
        night = pathlib.Path(work) / 'night'
        for name, files in flights.items():
            write(night / name, files)
        for start, following in ((moments[0], moments[1]), (moments[2], None)):
            try:
                service = Service(night, '--from', iso(start), '--hand')
            except RuntimeError as told:
                Service.end_all()
                wrong[''] = f'it does not start: {told}'
                break
            try:
                wrong |= compared(service, wanted, start, patience)
                if following is not None:
                    arrive(night, flights, wanted)
                    wrong |= compared(service, wanted, start, patience)
                    if (status := service.set(following)) != 200:
                        wrong[''] = f'POST /clock to {following} gave {status}'
                    wrong |= compared(service, wanted, following, patience)
                wrong |= paths(service, wanted, following or start)
                count += len(wanted) * (1 if following is None else 3)
                if (status := service.stop()) != 0:
                    wrong[''] = f'it ended with {status}'
            except (OSError, ValueError, KeyError) as told:
                wrong[''] = f'no answer: {type(told).__name__}: {told}'
            finally:
                if service in Service.alive:
                    service.kill()
            if 'panicked' in service.said():
                wrong[''] = service.said()[-1000:]
        if list((night / 'log').glob('*.log')):
            status, lines = checked(night)
            differ = {found[1]: f'--check: {line}' for line in lines if (found := re.fullmatch(r'(\S+): \d+ lines, [1-9]\d* differ', line))}
            wrong |= differ or ({'': f'--check ended with {status}'} if status else {})
    return count, wrong


def kept_form(moments, flights):
    """A night as bytes for tests/found."""
    coded = {name: {path: data if isinstance(data, str) else [base64.b64encode(data).decode()] for path, data in files.items()} for name, files in flights.items()}
    return json.dumps({'moments': moments, 'flights': coded}, indent=1, sort_keys=True).encode() + b'\n'


def replay(data, started):
    """What is wrong with a kept night now."""
    read = json.loads(data)
    flights = {name: {path: what if isinstance(what, str) else base64.b64decode(what[0]) for path, what in files.items()} for name, files in read['flights'].items()}
    return [f'{name}: {words}' for name, words in followed(read['moments'], flights, started)[1].items()]


def fuzz(chance, until, least, started, spoil):
    """How many frames were compared, and what was wrong: words and an input to keep."""
    count, wrong = 0, []
    while len(wrong) < 5 and (count < least or time.monotonic() < until):
        moments, flights = some_night(chance)
        more, faults = followed(moments, flights, started, spoil)
        count += more
        for name, words in faults.items():
            # A fault of one flight is kept with that flight alone.
            wrong.append((f'{name}: {words}', kept_form(moments, {name: flights[name]} if name in flights else flights)))
    return count, wrong
