"""Shared by the tests: their options, TAP lines, and how programs of the repository are built and started.

Every test takes --seed N, --count N and --spoil [N]. A test ignores an option that it does not use. --spoil changes an expected answer (the
Nth), and the test must fail. The exit status is 0 if all checks pass, 1 if one fails, and 2 if the test could not run."""
import argparse
import atexit
import os
import pathlib
import re
import shutil
import subprocess
import sys
import tempfile

ROOT = pathlib.Path(__file__).resolve().parent.parent.parent
RELEASE = ROOT / 'target' / 'cargo' / 'release'
BOOK = 'data/books/book31all.bin'
ORDER = 'data/orders/check-case-1.order'
lines, failed = 0, 0
os.chdir(ROOT)


def options(doc, seed=1, count=0, spoil=1, more=None):
    """The options that a test was given."""
    parser = argparse.ArgumentParser(description=doc, formatter_class=argparse.RawDescriptionHelpFormatter)
    parser.add_argument('--seed', type=int, default=seed, help=f'inputs are made from this number ({seed})')
    parser.add_argument('--count', type=int, default=count, help=f'how many ({count})')
    parser.add_argument('--spoil', type=int, nargs='?', const=spoil, default=0, help='the Nth expected answer is wrong: the test must fail')
    if more:
        more(parser)
    return parser.parse_args()


def note(text):
    for line in str(text).splitlines():
        print(f'# {line}'.rstrip(), flush=True)


def check(name, good, *seen):
    """One TAP line. If the check failed, the actual values are shown."""
    global lines, failed
    lines += 1
    failed += not good
    print(f'{"ok" if good else "not ok"} {lines} - {name}', flush=True)
    if not good:
        for what in seen:
            note(str(what)[:2000])
    return bool(good)


def compared(name, count, differ, *seen):
    """One TAP line for `count` things, of which `differ` are wrong."""
    good = check(name, count > 0 and not differ, *seen)
    note(f'compared {count}')
    if differ:
        note(f'differ {differ}')
    return good


def done():
    print(f'1..{lines}', flush=True)
    sys.exit(1 if failed else 0)


def give_up(text):
    """The test could not run."""
    print(text, file=sys.stderr)
    sys.exit(2)


def ran(words, given=None, **more):
    """Starts a program and takes both its outputs."""
    return subprocess.run([str(word) for word in words], input=given, stdout=subprocess.PIPE, stderr=subprocess.PIPE, check=False, **more)


def shell(script, *words):
    """A few lines of bash that use tools/build; gives up if they fail."""
    done = ran(['bash', '-c', f'set -eu; {script}', 'tests', *words])
    if done.returncode:
        give_up(done.stderr.decode(errors='replace') or f'{script}: ended with {done.returncode}')
    return done.stdout.decode()


def start():
    """The words before the path of a proved program on this machine."""
    return shell('. tools/build/programs.sh; echo "$start"').split()


def program(name):
    """A proved program, built if it is not there, as words to start it."""
    shell('. tools/build/programs.sh; built "$1"', name)
    return [*start(), f'target/bin/{name}']


def cargo(*words, **environment):
    """Cargo on this machine; gives up if it fails."""
    done = ran(['cargo', *words], env=dict(os.environ, **environment))
    if done.returncode:
        give_up(done.stderr.decode(errors='replace'))
    return done


def reference():
    cargo('build', '--release', '--quiet', '-j1', '-p', 'reference')


def driver(title, name, given, *programs, **words):
    """A comparing program of reference/: it gets the proved programs, and its last line is 'N compared, M differ'."""
    reference()
    command = [RELEASE / 'trial', name]
    for each in programs:
        command += [f'--{each}', ' '.join(program(each))]
    for key, value in words.items():
        for one in value if isinstance(value, list) else [value]:
            command += [f'--{key}', one]
    if given.spoil:
        command += ['--spoil', given.spoil]
    told = ran(command)
    text = (told.stdout + told.stderr).decode(errors='replace')
    last = re.search(r'^(\d+) compared, (\d+) differ$', text, re.M)
    note(text)
    if not last:
        give_up(f'{name} ended with {told.returncode} and compared nothing')
    compared(title, int(last[1]), int(last[2]) or int(told.returncode != 0))


def archives():
    """The archives of the exported calls, made for this machine if a source is newer. Returns their folder."""
    return pathlib.Path(shell('tools/build/archives').strip())


def compiled(name, source, *words):
    """A C program of tests/, compiled into target/."""
    program = ROOT / 'target' / 'c' / name
    program.parent.mkdir(parents=True, exist_ok=True)
    # Under a name of its own first: the test's spoiled run may start the program at the same time.
    new = program.with_suffix(f'.{os.getpid()}')
    told = ran(['gcc', '-std=c99', '-Wall', '-Wextra', '-Werror', '-O2', '-o', new, source, *words])
    if told.returncode:
        give_up(told.stderr.decode(errors='replace'))
    return new.rename(program)


def folder(name):
    """A new folder below target/ for this run, removed at its end: a test and its spoiled run may run at the same time."""
    (ROOT / 'target').mkdir(exist_ok=True)
    path = pathlib.Path(tempfile.mkdtemp(prefix=f'{name}-', dir=ROOT / 'target'))
    path.chmod(0o755)
    atexit.register(shutil.rmtree, path, ignore_errors=True)
    return path


def temporary():
    return tempfile.TemporaryDirectory(prefix='belfrywool-')
