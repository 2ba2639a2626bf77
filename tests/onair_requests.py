"""Requests at random for the on-air service over raw sockets, and what has to be answered, for tests/fuzz.

A talk is what is sent on one connection, with PORT for the port, and what is wanted: for each request its statuses, method and path. A talk
of which bytes were changed wants nothing: each of its answers has to be a well-formed one with a status of docs/ONAIR.md."""
import datetime
import json
import os
import pathlib
import re
import selectors
import socket
import time
import urllib.parse

from lib.changed import bytes_changed
from lib.tap import temporary
from onair_desk import BOOK, INJECTION, ORDER, ROOT, Service, flight, iso
from onair_folders import Listings, Wanted, fault

PORT = b'@PORT@'
TOKEN = 'token-of-the-night'
BEARER = {'Authorization': f'Bearer {TOKEN}'}
START = INJECTION + 3_600_000
AT_ONCE = 40
BATCHES = 50
STATUSES = {200, 308, 400, 401, 403, 404, 405, 408, 409, 413, 414, 415, 421, 431, 503}
SHEETS = {f'/page/{file.name}': file.read_bytes() for file in (ROOT / 'service' / 'page').iterdir()}
# The flight b has no book, and so /health is 503.
GET = {'/': 200, '/now.json': 200, '/health': 503, '/metrics': 200, '/overlay.css': 200, '/clock': 405, '/a': 308, '/b': 308, '/b/book': 404, '/a/book': 200,
       **{f'/{name}/{rest}': 200 for name in 'ab' for rest in ('', 'overlay', 'now.json', 'path.json', 'feed')}, **{path: 200 for path in SHEETS}}
MISSING = ['/c/', '/c/now.json', '/a/nothing', '//', '//a/', '/a//', '/a/../a/now.json', '/%61/now.json', '/a%2Fnow.json', '/page/', '/page/../Cargo.toml',
           '/page/%2e%2e/x', '/a/../../etc/passwd', '/log/a.log', '/a/order.bin', '/a/books/001.book', '/now', '/A/now.json', '/a/now.json/', '/' + 'a' * 3000,
           '/;', '/a/now.json;x', '/*']
HOSTS = ['127.0.0.1:@PORT@', 'localhost:@PORT@', 'LocalHost:@PORT@', 'localhost', '127.0.0.1', 'air.example', 'Air.Example:443']
NO_HOSTS = ['', 'evil.example', 'evil.example:@PORT@', '127.0.0.1:1', 'localhost:0', 'localhost:65536', 'localhost:x', 'localhost:', 'localhost:+@PORT@',
            '127.0.0.1:@PORT@x', '127.0.0.1.evil.example', '127.0.0.2:@PORT@', '[::1]:@PORT@', 'localhost:@PORT@@evil.example', 'user@localhost:@PORT@',
            'localhost@PORT@', 'xlocalhost', 'air.example.evil']
METHODS = ['POST', 'PUT', 'DELETE', 'OPTIONS', 'PATCH', 'TRACE', 'get', 'BREW']
HEADERS = ['Accept: */*', 'X-Long: ' + 'y' * 3000, 'Cookie: onair_token=x; a=b', 'Range: bytes=0-3', 'If-None-Match: *', 'Accept-Encoding: gzip', 'X:']
TYPES = {'application/json': True, 'application/json; charset=utf-8': True, 'text/plain': False, 'application/jsonx': False, '': False}
ORIGINS = [None, None, None, 'http://@HOST@', 'https://@HOST@', 'http://evil.example', 'null', '']
NUMBERS = ['0', '1', '5', '25', '60', '61', '007', '-1', '%2B5', '+5', '5%20', '%35', '%', '%3', '%zz', '1e1', '5.0', '0x5', 'nan', '', '4294967297',
           '18446744073709551615', '18446744073709551616', '9' * 40, '%D9%A3', '5&hz=99', '5;', '5%00']
BODIES = ['{"to": "TIME"}', '{"to":"TIME"}', ' {"to": "TIME"} \n', '{"to": "TIME", "x": 1}', '{"to": "TIME", "to": "TIME"}', '["TIME"]', '"TIME"',
          '{"to": ["TIME"]}', '{"To": "TIME"}', '{}', '[]', '', 'null', '{"to": null}', '{"to": 5}', '{"to": "TIME"', '{"to": "TIME"}}', "{'to': 'TIME'}",
          '{"\\u0074o": "TIME"}', '\ufeff{"to": "TIME"}', 'to=TIME', '[' * 900, '{"to": "TIME"}' + ' ' * 1100, '{"to": NaN}']
TIMES = ['1963-01-13', '20:00:00', '1963-01-13T24:00:00', '1963-02-29T00:00:00', '1949-12-31T23:59:59', '2050-01-01T00:00:00', '1963-01-13T20:00:60',
         '1963-01-13T20:00:00Z', '1963-01-13T20:00:00.1', '1963-01-13T20:00:00.0000', '-963-01-13T20:00:00', '١٩٦٣-01-13T20:00:00', '1950-01-01T00:00:00',
         '1963-01-13T18:00:00', '1963-01-13t20:00:00', '\\u0031', '']
# Instead of a path.
TARGETS = [b'*', b'a', b'a:80', b'http://127.0.0.1:@PORT@/a/now.json', b'http://evil/', b'http://', b'://', b'', b'\\a', b'?x', b'/\xc3\xa4']
LENGTHS = [b'0', b'-1', b'5, 5', b'99999', b'+5', b'18446744073709551616', b'x']


# ---- requests at random

def is_host(text):
    return bool(re.fullmatch(r'(?ai)(localhost|127\.0\.0\.1)(:0*@PORT@)?|air\.example(:\d+)?', text))


def number_in(query, key):
    """The number that a query gives a key; -1 if it is none."""
    given = next((value for name, sign, value in (pair.partition('=') for pair in query.split('&')) if name == key and sign), None)
    if given is None:
        return None
    text = urllib.parse.unquote_plus(given)
    return int(text) if re.fullmatch('[0-9]+', text) else -1


def time_in(body):
    """Whether a body for /clock is a time."""
    try:
        read = json.loads(body.decode(), object_pairs_hook=tuple)
        (key, text), = read if isinstance(read, tuple) else ()
        good = key == 'to' and re.fullmatch(r'\d{4}-\d\d-\d\dT\d\d:\d\d:\d\d(\.\d{3})?', text, re.A)
        return bool(good) and 1950 <= datetime.datetime.fromisoformat(text).year < 2050
    except (ValueError, TypeError, RecursionError):
        return False


class Request:
    def __init__(self, chance, moment, last, token):
        self.token = chance.choice(['bearer'] * 6 + ['query', 'cookie', 'wrong', 'none']) if token else ''
        self.method = chance.choice(['GET'] * 6 + ['HEAD'] * 2) if not last or chance.randrange(5) else chance.choice(METHODS)
        self.path = chance.choice([*GET]) if chance.randrange(3) else chance.choice(MISSING)
        self.query = chance.choice(['', '', 'x', 'token=1', f'hz={chance.choice(NUMBERS)}', f'from={chance.choice(NUMBERS)}'])
        right, wrong = chance.choice(HOSTS), chance.choice(NO_HOSTS)
        self.hosts = [right] if chance.randrange(5) else chance.choice([[], [wrong], [wrong], [right, wrong], [wrong, right]])
        self.origin, self.body, self.kind, self.last = None, None, None, last
        self.more = [chance.choice(HEADERS)] * chance.randrange(2)
        if last and chance.randrange(3) == 0:
            self.method, self.path, self.hosts = 'POST', '/clock', self.hosts if chance.randrange(3) == 0 else HOSTS[:1]
            self.origin = chance.choice(ORIGINS)
            self.kind = chance.choice([*TYPES] + ['application/json'] * 8)
            later = chance.choice([-1, 0, 0, 0, chance.randrange(60_000), -chance.randrange(10**9)])
            given = chance.choice(TIMES) if chance.randrange(2) else iso(max(0, moment + later))
            self.body = chance.choice(BODIES[:3] * 4 + BODIES).replace('TIME', given).encode()
            self.body = self.body if chance.randrange(4) else bytes_changed(chance, self.body)
            self.chunked, self.expect = chance.randrange(4) == 0, chance.randrange(8) == 0

    def is_feed(self):
        return self.path.endswith('/feed') and self.statuses() == [200] and self.method == 'GET'

    def statuses(self):
        """The statuses that are right; for a time that is one, the clock decides."""
        if len(self.hosts) != 1 or not is_host(self.hosts[0]):
            return [421]
        if self.token in ('wrong', 'none'):
            return [401]
        if self.method == 'POST' and self.origin is not None and not self.origin.endswith('@HOST@'):
            return [403]
        if self.path == '/clock' and self.method == 'POST':
            if not TYPES.get(self.kind):
                return [415]
            return [413] if len(self.body) > 1024 else [200, 409] if time_in(self.body) else [400]
        if self.path == '/clock' or self.method not in ('GET', 'HEAD'):
            return [405]
        key, low, high = ('hz', 1, 60) if self.path.endswith('/feed') else ('from', 0, 2**64 - 1)
        given = number_in(self.query, key) if self.path.endswith(('/feed', '/path.json')) else None
        if GET.get(self.path) == 200 and given is not None and not low <= given <= high:
            return [400]
        return [GET.get(self.path, 404)]

    def data(self):
        query = f'token={TOKEN}&{self.query}' if self.token == 'query' else self.query
        told = {'bearer': f'Authorization: Bearer {TOKEN}', 'cookie': f'Cookie: a=b; onair_token={TOKEN}', 'wrong': f'Authorization: Bearer {TOKEN}s'}
        tokens = [told[self.token]] if self.token in told else []
        lines = [f'{self.method} {self.path}{"?" * bool(query)}{query} HTTP/1.1', *(f'Host: {host}' for host in self.hosts), *tokens, *self.more]
        lines += ['Connection: close'] * (self.last and not self.is_feed())
        if self.origin is not None:
            lines.append(f'Origin: {self.origin.replace("@HOST@", self.hosts[0] if self.hosts else "x")}')
        if self.kind:
            lines.append(f'Content-Type: {self.kind}')
        body = self.body or b''
        if self.body is not None:
            lines.append('Transfer-Encoding: chunked' if self.chunked else f'Content-Length: {len(body)}')
            lines += ['Expect: 100-continue'] * self.expect
            if self.chunked:
                parts = [part for part in (body[:7], body[7:]) if part]
                body = b''.join(b'%x\r\n%s\r\n' % (len(part), part) for part in parts) + b'0\r\n\r\n'
        return '\r\n'.join([*lines, '', '']).encode() + body


def some_talk(chance, moment, token):
    """One to four requests on a connection; in one of three talks bytes are changed."""
    count = chance.choice([1, 1, 1, 2, 4])
    requests = [Request(chance, moment, number == count - 1, token) for number in range(count)]
    requests = [request for request in requests if request.last or not request.is_feed()]
    data = b''.join(request.data() for request in requests)
    if chance.randrange(3):
        return data, [(request.statuses(), request.method, request.path) for request in requests]
    kind = chance.randrange(8)
    if kind == 0:
        data = data.replace(b'Host:', b'X-Long: %s\r\nHost:' % (b'z' * chance.choice([9_000, 16_300, 17_000, 60_000])), 1)
    elif kind == 1:
        data = data.replace(b'Host:', b'X: y\r\n' * chance.choice([60, 99, 101, 2000]) + b'Host:', 1)
    elif kind == 2:
        data = re.sub(rb'^(\S+) \S+', lambda found: found[1] + b' ' + chance.choice(TARGETS), data)
    elif kind == 3:
        data = data.replace(b'HTTP/1.1', chance.choice([b'HTTP/1.0', b'HTTP/0.9', b'HTTP/2.0', b'http/1.1', b'HTTP/1.1 x', b'']), 1)
    elif kind == 4:
        data = re.sub(rb'(Content-Length: )\d+', lambda found: found[1] + chance.choice(LENGTHS), data)
    elif kind == 5:
        data = data.replace(b'\r\n', chance.choice([b'\n', b'\r', b'\r\n ', b'\r\n\r\n']), chance.choice([1, 99]))
    else:
        data = bytes_changed(chance, data)
    return data, None


# ---- answers

def answers(said):
    """The answers in what a connection said: status, headers, body. What is none raises ValueError."""
    while said:
        head, end, rest = said.partition(b'\r\n\r\n')
        first, *lines = head.split(b'\r\n')
        found = re.fullmatch(rb'HTTP/1\.[01] ([1-5]\d\d) [ -~]*', first)
        if not found or not end or not all(re.fullmatch(rb'[a-z0-9-]+: [\x20-\xff]*', line) for line in lines):
            raise ValueError(f'no head of an answer: {head[:200]}')
        status, headers = int(found[1]), dict(line.split(b': ', 1) for line in lines)
        size, body = int(headers.get(b'content-length', b'0')), b''
        if headers.get(b'transfer-encoding') == b'chunked' and not rest.startswith(b'HTTP/1.'):
            while chunk := re.match(rb'([0-9A-Fa-f]+)\r\n', rest):
                size = int(chunk[1], 16)
                body, rest = body + rest[chunk.end():chunk.end() + size], rest[chunk.end() + size + 2:]
                if not size:
                    break
            else:
                rest = b''  # A feed has no end.
        elif headers.get(b'content-type') == b'text/event-stream' and b'content-length' not in headers and not rest.startswith(b'HTTP/1.'):
            body, rest = rest, b''
        # The answer to a HEAD has a length and no body.
        elif rest and not rest.startswith(b'HTTP/1.'):
            body, rest = rest[:size], rest[size:]
            if len(body) < size:
                raise ValueError(f'{len(body)} of {size} bytes of a body')
        said = rest
        if status >= 200:
            yield status, headers, body


def talked(port, talks):
    """Sends every talk on a connection of its own, in two halves; what came back on each. One that stays open is read for a while."""
    said, links = [b''] * len(talks), [socket.create_connection(('127.0.0.1', port), timeout=20) for _ in talks]
    for half in (0, 1):
        for link, (data, _) in zip(links, talks):
            data = data.replace(PORT, b'%d' % port)
            try:
                link.sendall(data[len(data) // 2:] if half else data[:len(data) // 2])
            except OSError:
                pass  # It was closed before the end.
    began = time.monotonic()
    with selectors.DefaultSelector() as waiting:
        for number, (link, (data, wanted)) in enumerate(zip(links, talks)):
            ends = wanted is not None and b'Connection: close' in data
            waiting.register(link, selectors.EVENT_READ, [number, ends, began])
        while waiting.get_map():
            for key, _ in waiting.select(0.05):
                try:
                    part = key.fileobj.recv(1 << 16)
                except OSError:
                    part = b''
                said[key.data[0]] += part
                key.data[2] = time.monotonic()
                if not part:
                    waiting.unregister(key.fileobj)
                    key.fileobj.close()
            now = time.monotonic()
            for key in list(waiting.get_map().values()):
                _, ends, last = key.data
                if now > began + 20 if ends else now > last + 0.12 or now > began + 0.4:
                    waiting.unregister(key.fileobj)
                    key.fileobj.close()
    return said


class Night:
    """A service over a good flight `a`, and a flight `b` without a book, by hand; with a token or without."""

    def __init__(self, work, started, token):
        folder, file = pathlib.Path(work) / 'night', pathlib.Path(work) / 'token'
        flight(folder, 'a', ORDER, [BOOK])
        flight(folder, 'b', ORDER)
        file.write_text(TOKEN)
        self.token = ['--token-file', file] if token else []
        self.service = Service(folder, '--from', iso(START), '--hand', '--host', 'air.example', *self.token)
        listings = Listings(started)
        self.wanted = {name: Wanted(name, {'order.bin': ORDER, **books}, listings) for name, books in (('a', {'books/001.book': BOOK}), ('b', {}))}
        self.frames, self.moment, self.files = {}, START, self.open_files()

    def open_files(self):
        return len(os.listdir(f'/proc/{self.service.process.pid}/fd'))

    def left(self):
        """Connections that are still open a while after the last one was closed."""
        end = time.monotonic() + 8
        while (more := self.open_files() - self.files) > 0 and time.monotonic() < end:
            time.sleep(0.05)
        return more > 0 and f'{more} connections stay open'

    def frame_fault(self, frame):
        """A frame has to be strip144's, and the same each time at a moment."""
        name, moment = frame['flight'], frame['clock']['moment']
        if moment < self.moment:
            return f'the clock went back from {self.moment} to {moment}'
        if words := fault(self.wanted[name], frame, self.wanted[name].at(moment)['healthy'], moment):
            return words
        text = json.dumps({**frame, 'notices': None})
        return self.frames.setdefault((name, moment), text) != text and f'another frame of {name} at {moment} than before'

    def body_fault(self, path, headers, body):
        """What is wrong with the body of a 200."""
        kind = headers.get(b'content-type', b'')
        frames = []
        if kind == b'application/json':
            read = json.loads(body)
            frames = read if isinstance(read, list) else [read] if 'flight' in read else []
            if 'moment' in read and not self.moment <= read['moment']:
                return f'the clock was set back to {read["moment"]}'
            if 'points' in read and (len(read['points']) > 4096 or read['next'] != read['from'] + len(read['points'])):
                return f'a path from {read["from"]} to {read["next"]} with {len(read["points"])} points'
        elif kind == b'text/event-stream':
            events = body.split(b'\n\n')[:-1]
            if not all(event.startswith(b'event: frame\ndata: {') for event in events):
                return f'an event of another form: {body[:100]}'
            frames = [json.loads(event.partition(b'data: ')[2]) for event in events]
        elif path in SHEETS or path == '/a/book':
            return body != SHEETS.get(path, BOOK) and 'another file'
        elif path == '/metrics' and not re.fullmatch(rb'(# (HELP|TYPE) [ -~]+\n|onair_\w+(\{[^}]+\})? \d+\n)+', body):
            return f'metrics of another form: {body[:100]}'
        return next(filter(None, map(self.frame_fault, frames)), None)

    def talk_fault(self, data, wanted, said):
        """What is wrong with what came back, in words."""
        try:
            came = list(answers(said))
            if strange := [status for status, _, _ in came if status not in STATUSES]:
                return f'status {strange}'
            if wanted is not None and not (not came and wanted[-1][0] == [413]):
                if len(came) != len(wanted):
                    return f'{len(came)} answers to {len(wanted)} requests: {said[:300]}'
                for (status, headers, body), (right, method, path) in zip(came, wanted):
                    if status not in right:
                        return f'{method} {path}: status {status}, wanted {right}'
                    if method != 'HEAD' and not body and int(headers.get(b'content-length', b'0')):
                        return f'{method} {path}: no body'
                    if b"default-src 'none'" not in headers.get(b'content-security-policy', b''):
                        return f'{method} {path}: no policy'
            hosts = [host.strip().decode('latin-1') for host in re.findall(rb'(?mi)^host:(.*)$', data)]
            for number, (status, headers, body) in enumerate(came):
                if status == 200 and hosts and not any(map(is_host, hosts)):
                    return f'status 200 for a wrong Host: {body[:100]}'
                if status == 200 and self.token and TOKEN.encode() not in data:
                    return f'status 200 without the token: {body[:100]}'
                if status in (200, 503) and body and (words := self.body_fault(wanted[number][2] if wanted else '', headers, body)):
                    return words
                if status != 200 and b'range_km' in body:
                    return f'figures with status {status}'
        except (ValueError, KeyError, TypeError) as told:
            return f'{type(told).__name__}: {told}'
        return None

    def batch(self, talks):
        """What was wrong with each talk, by its number; None is for the service afterwards."""
        said = talked(self.service.port, talks)
        wrong = {number: words for number, talk in enumerate(talks) if (words := self.talk_fault(*talk, said[number]))}
        try:
            frame = json.loads(self.service.ask('a/now.json', headers=BEARER)[2])
            if words := self.frame_fault(frame):
                wrong[None] = f'afterwards: {words}'
            self.moment = frame['clock']['moment']
        except (OSError, ValueError) as told:
            wrong[None] = f'afterwards no answer: {told}'
        if self.service.process.poll() is not None or 'panicked' in self.service.said():
            wrong[None] = f'it fell: {self.service.said()[-500:]}'
        return wrong


def kept_form(talks):
    return json.dumps([[data.decode('latin-1'), wanted] for data, wanted in talks], indent=1).encode() + b'\n'


def replay(data, started):
    talks = [(text.encode('latin-1'), wanted) for text, wanted in json.loads(data)]
    with temporary() as work:
        try:
            return list(Night(work, started, any(TOKEN.encode() in data for data, _ in talks)).batch(talks).values())
        finally:
            Service.end_all()


def fuzz(chance, until, least, started, spoil):
    """How many talks there were, and what was wrong: words and an input to keep."""
    count, wrong, nights = 0, [], 0
    going = lambda: not wrong and (count < least or time.monotonic() < until)
    while going():
        nights += 1
        with temporary() as work:
            try:
                night, batches = Night(work, started, nights % 2), 0
                # Past its target the flight has no figure any more.
                while going() and batches < BATCHES and night.moment < night.wanted['a'].target:
                    batches += 1
                    talks = [some_talk(chance, night.moment, nights % 2) for _ in range(AT_ONCE)]
                    if spoil and (first := next((talk for talk in talks if talk[1]), None)):
                        first[1][0][0][:] = [418]
                    count += len(talks)
                    for number, words in night.batch(talks).items():
                        wrong.append((words, kept_form(talks if number is None else [talks[number]])))
                if not wrong and (words := night.left()):
                    wrong.append((words, kept_form(talks)))
            finally:
                Service.end_all()
    return count, wrong
