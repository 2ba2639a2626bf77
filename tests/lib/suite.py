"""use: ./test [OPTION..] [NAME..]

Without a NAME every test runs. A test is an executable in tests/; its header says what it does (tests/lib/headers.py).
The last line is 'N passed, M failed'. The status is 1 if M is not 0.

  --list        one line for each test, with its usual time, and run nothing
  --quick       a selection that takes less than a minute after a build, each test with its own options for this
  --no-install  if Debian packages are missing, name them and stop; without this option they are installed
  --no-spoil    leave out the runs whose answers are spoiled
  --seed N, --count N   passed on to the tests"""
import argparse
import itertools
import json
import os
import pathlib
import re
import shutil
import signal
import subprocess
import sys
import tempfile

import headers
import processes

JOB = pathlib.Path(__file__).with_name('job.py')
KEPT = headers.ROOT / 'target' / 'test'


def words():
    parser = argparse.ArgumentParser(prog='./test', usage=argparse.SUPPRESS, description=__doc__, add_help=False,
                                     formatter_class=argparse.RawDescriptionHelpFormatter)
    for name in ('help', 'list', 'quick', 'no-install', 'no-spoil'):
        parser.add_argument('--' + name, action='store_true')
    for name in ('seed', 'count'):
        parser.add_argument('--' + name, type=int)
    parser.add_argument('names', nargs='*')
    try:
        given = parser.parse_args()
    except SystemExit:
        print(__doc__, file=sys.stderr)
        sys.exit(2)
    if given.help:
        print(__doc__)
        sys.exit(0)
    return given


def chosen(given):
    tests = headers.every()
    known = {test.name: test for test in tests}
    if strange := [name for name in given.names if name not in known]:
        sys.exit(f'./test: there is no test {", ".join(strange)}; ./test --list names them all')
    if given.names:
        tests = [known[name] for name in given.names]
    if given.quick:
        tests = [test for test in tests if 'quick' in test.values]
    return tests


def listed(tests):
    for test in tests:
        print(f'{test.name:18} {test.seconds():5.0f} s  {test.test}')


def installed(tests, may_install):
    """Names the packages that are missing, and installs them if that is allowed."""
    missing = sorted({package for test in tests for package in test.missing()})
    if not missing:
        return
    print(f'Debian packages that are missing: {" ".join(missing)}', flush=True)
    if not may_install:
        sys.exit(f'./test: install them first: apt-get install {" ".join(missing)}')
    quiet = dict(os.environ, DEBIAN_FRONTEND='noninteractive')
    for command in (['apt-get', 'update', '-qq'], ['apt-get', 'install', '-y', '-qq', '--no-install-recommends', *missing]):
        if subprocess.run(command, env=quiet, stdout=subprocess.DEVNULL).returncode:
            sys.exit(f'./test: {" ".join(command)} failed')


class Run:
    def __init__(self, folder, options):
        self.folder = folder
        self.good = True
        self.environment = dict(os.environ, TEST_FOLDER=str(folder), NO_INSTALL='1', **options)

    def prove(self, groups, at_once=1):
        """Runs groups of jobs by prove. The first groups start first; of a group only one job runs at a time."""
        jobs = [job for group in groups for job in group]
        if not jobs:
            return
        (self.folder / 'jobs').mkdir(exist_ok=True)
        for job in jobs:
            (self.folder / 'jobs' / job).touch()
        command = ['prove', '--norc', '--timer', '--jobs', str(at_once), '--exec', f'{sys.executable} -B {JOB}']
        # Rules of one form: prove takes jobs of another form first.
        command += [f'--rules=seq={{{",".join(group)}}}' for group in groups]
        ran = subprocess.run(command + jobs, cwd=self.folder / 'jobs', env=self.environment, preexec_fn=processes.end_with_parent)
        self.good = self.good and ran.returncode == 0

    def all(self, tests, spoil):
        """The proofs, and beside them the tests that may run together, as soon as what they need is proved (job.py waits for it). Then the
        tests that run alone."""
        first = [test for test in tests if test.name == 'proofs']
        beside = [test for test in tests if test not in first and test.beside not in ('', 'no')]
        alone = [test for test in tests if test not in first and test not in beside]
        self.environment['TEST_PROOFS'] = 'yes' if first else ''
        groups = {}
        for test in sorted(beside, key=lambda test: -test.seconds()):
            for job in test.jobs(spoil):
                groups.setdefault(job if test.beside == 'yes' else f'beside {test.beside}', []).append((job, test))

        def rank(group):
            return not all(test.is_early() for _, test in group), -sum(test.seconds() for job, test in group if job == test.name)
        others = [[job for job, _ in group] for group in sorted(groups.values(), key=rank)]
        self.prove([[job] for test in first for job in test.jobs(spoil)] + others, 2)
        self.prove([[job] for test in alone for job in test.jobs(spoil)])

    def records(self):
        return [json.loads(path.read_text()) for path in sorted(self.folder.glob('*.json'))]


def crates(folder):
    """Seconds that each crate took in the proofs, with its must-fail edits."""
    took = {}
    log = folder / 'proofs.log'
    for line in log.read_text(errors='replace').splitlines() if log.exists() else []:
        if found := re.search(r'rt: (?:must-fail )?(\w+)(?:/\S+)?:? (?:proved|refused|NOT REFUSED).*?\b(\d+) s\)', line):
            took[found[1]] = took.get(found[1], 0) + int(found[2])
    return took


def longest(what, took):
    if took:
        five = itertools.islice(sorted(took.items(), key=lambda item: -item[1]), 5)
        print(f'{what} that took longest: ' + ', '.join(f'{name} {seconds:.0f} s' for name, seconds in five))


def close(run, jobs, stopped):
    """What failed, what took longest, and the count of everything. Returns the status."""
    records = {record['job']: record for record in run.records()}
    failed = {job for job in jobs if records.get(job, {'failed': 1})['failed']}
    for job in sorted(failed):
        log = run.folder / f'{job}.log'
        lines = log.read_text(errors='replace').splitlines() if log.exists() else []
        if job not in records and not lines:
            print(f'{job}: it did not run')
            continue
        wrong = [line for line in lines if line.startswith(('not ok', 'FAILED'))][:10]
        print(f'\n{job} failed (target/test/{job}.log):', *wrong, '  ..', *lines[-15:], sep='\n  ')
    KEPT.mkdir(parents=True, exist_ok=True)
    for log in run.folder.glob('*.log'):
        shutil.copy(log, KEPT)
    print()
    longest('tests', {job: record['seconds'] for job, record in records.items()})
    longest('crates', crates(run.folder))
    good = sum(record['passed'] for record in records.values())
    bad = sum(record['failed'] for record in records.values()) + sum(job not in records for job in jobs)
    if stopped or not run.good or not good:
        bad = bad or 1
    print(f'{good} passed, {bad} failed', flush=True)
    return 1 if bad else 0


class Stopped(Exception):
    pass


def main():
    given = words()
    tests = chosen(given)
    if given.list:
        listed(tests)
        return 0
    installed(tests, not given.no_install)
    processes.adopt()

    def stop(number, _):
        for each in (signal.SIGINT, signal.SIGTERM, signal.SIGHUP):
            signal.signal(each, signal.SIG_IGN)
        raise Stopped(signal.Signals(number).name)
    for number in (signal.SIGINT, signal.SIGTERM, signal.SIGHUP):
        signal.signal(number, stop)
    handed = [f'--{name} {value}' for name in ('seed', 'count') if (value := getattr(given, name)) is not None]
    options = {'TEST_OPTIONS': ' '.join(handed), 'TEST_QUICK': '1' if given.quick else ''}
    spoil = not (given.no_spoil or given.quick)
    jobs = [job for test in tests for job in test.jobs(spoil)]
    folder, stopped = pathlib.Path(tempfile.mkdtemp(prefix='test-')), None
    run = Run(folder, options)
    try:
        run.all(tests, spoil)
    except Stopped as told:
        stopped = told
        print(f'\n./test: stopped by {told}; the tests that were running are ended')
    processes.end_below(os.getpid())
    status = close(run, jobs, stopped)
    shutil.rmtree(folder, ignore_errors=True)
    return status


sys.exit(main())
