"""Shared by the tests of the on-air service: TAP lines, how the service is started, and night folders. Python's standard library only."""
import argparse
import json
import os
import pathlib
import random
import shutil
import signal
import struct
import subprocess
import sys
import tempfile
import time
import urllib.error
import urllib.request

sys.dont_write_bytecode = True
ROOT = pathlib.Path(__file__).resolve().parent.parent
PROGRAM = ROOT / 'target' / 'onair' / 'release' / 'onair'
ORDER = (ROOT / 'data' / 'orders' / 'check-case-1.order144').read_bytes()
BOOK = (ROOT / 'data' / 'books' / 'book31all.bin').read_bytes()
INJECTION = 411_331_356_297
DAY = 86_400_000
JSON = {'Content-Type': 'application/json'}


# ---- TAP

class Tap:
    """One line for each check; --spoil WORD makes the expectation wrong in every check whose name contains the word."""

    def __init__(self, about):
        words = argparse.ArgumentParser(description=about)
        words.add_argument('--seed', type=int, default=1)
        words.add_argument('--count', type=int, default=None, help='how many moments or rounds; each part has its own default')
        words.add_argument('--spoil', nargs='?', const='', default=None, metavar='WORD', help='make the checks fail whose name holds WORD')
        words.add_argument('--only', default=None, metavar='PART', help='one part alone')
        self.words = words.parse_args()
        self.random = random.Random(self.words.seed)
        self.count = self.failed = 0

    def check(self, name, good, seen=''):
        if self.words.spoil is not None and self.words.spoil in name:
            good, seen = not good, '(spoiled)'
        self.count += 1
        print(f'{"ok" if good else "not ok"} {self.count} - {name}', flush=True)
        if not good:
            self.failed += 1
            for line in str(seen).splitlines()[:12] or ['']:
                print(f'# {line[:600]}', flush=True)

    def same(self, name, seen, wanted):
        self.check(name, seen == wanted, f'seen   {seen!r}\nwanted {wanted!r}')

    def run(self, parts):
        """Runs every part, each with its own work folder."""
        for part in parts:
            if self.words.only in (None, part.__name__):
                with tempfile.TemporaryDirectory(prefix='onair-test-') as work:
                    try:
                        part(self, pathlib.Path(work))
                    except Exception as fault:
                        self.check(f'{part.__name__} goes through', False, f'{type(fault).__name__}: {fault}')
                    finally:
                        Service.end_all()
        print(f'1..{self.count}')
        sys.exit(1 if self.failed or not self.count else 0)


# ---- the service

def build():
    """Builds by the launcher."""
    done = subprocess.run([ROOT / 'onair', '--version'], capture_output=True, text=True)
    if done.returncode:
        sys.exit(f'Bail out! ./onair --version ended with {done.returncode}:\n{done.stderr[-2000:]}')


class Service:
    """The program on a free port."""
    alive = []

    def __init__(self, *words, before=(), listen=True, env=None, **more):
        listening = ['--listen', '127.0.0.1:0'] if listen else []
        self.log = tempfile.TemporaryFile()
        self.process = subprocess.Popen(
            [*map(str, before), str(PROGRAM), *map(str, words), *listening], stdout=subprocess.PIPE, stderr=self.log,
            env={**os.environ, 'BELFRYWOOL_HOUSE': str(ROOT), **(env or {})}, start_new_session=True, **more)
        Service.alive.append(self)
        self.page = self.process.stdout.readline().decode().strip()
        if not self.page:
            raise RuntimeError(f'no address: {self.said()}')
        self.port = int(self.page.rstrip('/').rsplit(':', 1)[1])

    def said(self):
        self.log.seek(0)
        return self.log.read().decode(errors='replace')

    def ask(self, path, data=None, headers=(), method=None, patience=20):
        """Status, headers and bytes."""
        request = urllib.request.Request(self.page + path, data=data, headers=dict(headers), method=method)
        try:
            with urllib.request.urlopen(request, timeout=patience) as answer:
                return answer.status, answer.headers, answer.read()
        except urllib.error.HTTPError as answer:
            with answer:
                return answer.code, answer.headers, answer.read()

    def status(self, path, **more):
        return self.ask(path, **more)[0]

    def get(self, path):
        return json.loads(self.ask(path)[2])

    def now(self, name):
        return self.get(f'{name}/now.json')

    def set(self, to):
        """Sets a clock that is set by hand."""
        return self.status('clock', data=json.dumps({'to': to if isinstance(to, str) else iso(to)}).encode(), headers=JSON)

    def until(self, name, what, patience=8):
        """The first frame that meets a condition, or the last one."""
        end = time.monotonic() + patience
        while not what(frame := self.now(name)) and time.monotonic() < end:
            time.sleep(0.03)
        return frame

    def kill(self):
        self.process.send_signal(signal.SIGKILL)
        self.gone()

    def stop(self):
        """Ends the service as Ctrl-C or a service manager does; returns the exit status."""
        self.process.send_signal(signal.SIGTERM)
        return self.gone()

    def gone(self):
        status = self.process.wait(timeout=20)
        self.process.stdout.close()
        if self in Service.alive:
            Service.alive.remove(self)
        return status

    @classmethod
    def end_all(cls):
        for service in list(cls.alive):
            service.kill()


def told(*words, timeout=60, **more):
    """Status, standard output and standard error of the program."""
    done = subprocess.run([str(PROGRAM), *map(str, words)], capture_output=True, text=True, timeout=timeout,
                          env={**os.environ, 'BELFRYWOOL_HOUSE': str(ROOT)}, **more)
    return done.returncode, done.stdout, done.stderr


def checked(night, *words):
    """The result of --check: status, and its lines."""
    status, out, _ = told('--check', night, *words)
    return status, out.splitlines()


# ---- times, orders, books and folders

def iso(moment):
    import datetime
    return (datetime.datetime(1950, 1, 1) + datetime.timedelta(milliseconds=moment)).isoformat(timespec='milliseconds')


def at(clock, day=4761):
    """A moment on 1963 January 14, or another day."""
    hours, minutes, seconds = clock.split(':')
    return day * DAY + (int(hours) * 60 + int(minutes)) * 60_000 + round(float(seconds) * 1000)


def order(step=1000, target=None):
    """Check case 1 with another step and target."""
    made = bytearray(ORDER)
    made[104:108] = struct.pack('<I', step)
    if target is not None:
        made[112:120] = struct.pack('<Q', target)
    return bytes(made)


def entries(book):
    """Each entry with its block: body, count, start, span, bytes."""
    def entry(i):
        body, n, offset, start, span = struct.unpack_from('<HHIQQ', book, 8 + 24 * i)
        return body, n, start, span, book[offset:offset + 24 * n]
    return [entry(i) for i in range(struct.unpack_from('<I', book, 4)[0])]


def bound(parts):
    """The book of such entries."""
    place = 8 + 24 * len(parts)
    head, blocks = [struct.pack('<II', place + sum(len(p[4]) for p in parts), len(parts))], []
    for body, n, start, span, block in parts:
        head.append(struct.pack('<HHIQQ', body, n, place, start, span))
        place += len(block)
        blocks.append(block)
    return b''.join(head + blocks)


def night_books():
    """The two books of the rehearsal: the Moon's record ends at 02:10 in the first."""
    return [(ROOT / 'examples' / 'night' / name).read_bytes() for name in ('first.book', 'fuller.book')]


def flight(night, name, order_bytes=None, books=(), text=None, about=None):
    """Makes a flight's folder."""
    folder = pathlib.Path(night) / name
    (folder / 'books').mkdir(parents=True)
    if text is not None:
        (folder / 'order.txt').write_bytes(text)
    if order_bytes is not None:
        (folder / 'order.bin').write_bytes(order_bytes)
    if about is not None:
        (folder / 'flight.txt').write_text(about)
    for number, book in enumerate(books, 1):
        (folder / 'books' / f'{number:03}.book').write_bytes(book)
    return folder


def put(folder, name, book):
    """A book as it should arrive: written under another name, then renamed."""
    early = folder / f'{name}.coming'
    early.write_bytes(book)
    early.rename(folder / 'books' / name)


def listing(order_bytes, book, spoil=False):
    """strip144's lines: the bits of the six numbers by moment, and the last line. If spoiled, one digit of each line is wrong."""
    done = subprocess.run([ROOT / 'run', 'strip144'], input=order_bytes + book, capture_output=True, check=True)
    lines = done.stdout.decode().splitlines()
    states = {int(words[0]): words[1:7] for words in map(str.split, lines[1:-1])}
    if spoil:
        states = {t: [*words[:5], words[5][:15] + f'{int(words[5][15], 16) ^ 1:x}'] for t, words in states.items()}
    return states, lines[-1]


class Ask:
    """`ask` with a book, one line at a time."""

    def __init__(self, book, work):
        self.path = work / 'asked.book'
        self.path.write_bytes(book)

    def say(self, *lines):
        done = subprocess.run([ROOT / 'run', 'ask', str(self.path)], input='\n'.join(lines) + '\n', capture_output=True, text=True, check=True)
        return done.stdout.splitlines()


def floats(words):
    return [struct.unpack('>d', bytes.fromhex(word))[0] for word in words]


def bits(x):
    return struct.pack('>d', x).hex()


def copied(folder, to):
    shutil.copytree(folder, to)
    return to
