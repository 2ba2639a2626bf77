"""job.py NAME: runs tests/NAME for `prove`. NAME--spoil or NAME--spoil-N is a run with spoiled answers, which must fail.

Passes the TAP lines on and keeps everything in a log. Writes a record of what was counted. Ends every process that the test leaves behind.
A TAP line counts once. If `# compared N` follows it, it counts as N things, and `# differ M` says how many of these failed."""
import json
import os
import re
import signal
import subprocess
import sys
import threading
import time

sys.dont_write_bytecode = True
import headers
import processes

FOLDER = os.environ['TEST_FOLDER']
JOB = sys.argv[1]
NAME, _, SPOIL = JOB.partition('--')
LINE = re.compile(r'(not )?ok\b(.*)')
COUNT = re.compile(r'# (compared|differ) (\d+)\s*$')


class Counts:
    """What the TAP lines of a test say."""

    def __init__(self):
        self.lines, self.plan = [], None

    def take(self, line):
        if found := LINE.match(line):
            self.lines.append({'good': not found[1], 'compared': 0 if '# SKIP' in line else 1, 'differ': 0})
        elif found := re.match(r'1\.\.(\d+)', line):
            self.plan = int(found[1])
        elif (found := COUNT.match(line)) and self.lines:
            self.lines[-1][found[1]] = int(found[2])

    def failed(self):
        return sum(line['differ'] if line['good'] else max(line['differ'], 1) for line in self.lines)

    def passed(self):
        return sum(line['compared'] for line in self.lines) - self.failed()


def say(text):
    print(text, flush=True)


def wait_for_proofs(head):
    """Waits until what the test needs is there, if the proofs are part of this run: they leave a file for each stage that they have passed
    (tests/proofs), and a record when they end."""
    if not os.environ.get('TEST_PROOFS') or NAME == 'proofs':
        return
    signs = [os.path.join(FOLDER, sign) for sign in ('begun' if head.is_early() else 'proved', 'proofs.json')]
    until = time.monotonic() + headers.read('proofs').limit()
    while not any(map(os.path.exists, signs)) and time.monotonic() < until:
        time.sleep(0.2)


def main():
    processes.adopt()
    processes.end_with_parent()
    head = headers.read(NAME)
    wait_for_proofs(head)
    options = head.quick if os.environ.get('TEST_QUICK') else os.environ.get('TEST_OPTIONS', '')
    words = [str(headers.TESTS / NAME)] + (['--spoil', *SPOIL.split('-')[1:]] if SPOIL else options.split())
    begun, counts = time.monotonic(), Counts()
    log = open(os.path.join(FOLDER, JOB + '.log'), 'ab', buffering=0)
    test = subprocess.Popen(words, stdin=subprocess.DEVNULL, stdout=subprocess.PIPE, stderr=log, cwd=headers.ROOT, start_new_session=True)

    def interrupted(number, _):
        processes.end_below(os.getpid())
        os._exit(128 + number)
    for number in (signal.SIGINT, signal.SIGTERM, signal.SIGHUP):
        signal.signal(number, interrupted)

    late = threading.Event()

    def too_long():
        late.set()
        processes.end_below(os.getpid())
    timer = threading.Timer(head.limit(), too_long)
    timer.start()

    for raw in test.stdout:
        log.write(raw)
        line = raw.decode(errors='replace').rstrip('\n')
        if not SPOIL:
            say(line)
        counts.take(line)
    status = test.wait()
    timer.cancel()
    left = processes.end_below(os.getpid()) if not late.is_set() else []
    extra = [] if head.found else [f'tests/{NAME} has a header (tests/lib/headers.py)']
    if late.is_set():
        extra.append(f'{NAME} ends within {head.limit():.0f} s')
    if left:
        extra.append(f'{NAME} leaves no process behind: {"; ".join(left)[:300]}')
    if SPOIL:
        seen = status == 1 and any(not line['good'] for line in counts.lines)
        counts = Counts()
        text = f'{"ok" if seen else "not ok"} 1 - {NAME} sees a spoiled answer' + ('' if seen else f' (it ended with {status})')
        for line in (text, '1..1'):
            say(line)
            counts.take(line)
        status = 0 if seen else 1
    for what in extra:
        say(f'not ok {len(counts.lines) + 1} - {what}')
        log.write(f'not ok - {what}\n'.encode())
        counts.take('not ok')
        status = status or 1
    failed = counts.failed()
    if not failed and (status or counts.plan != len(counts.lines)):
        failed = 1
        log.write(f'{NAME} ended with {status}; {len(counts.lines)} TAP lines, {counts.plan} planned\n'.encode())
    if failed and not status:
        status = 1
    with open(os.path.join(FOLDER, JOB + '.json'), 'w') as file:
        json.dump({'job': JOB, 'seconds': time.monotonic() - begun, 'passed': counts.passed(), 'failed': failed}, file)
    return status if 0 <= status < 256 else 1


sys.exit(main())
