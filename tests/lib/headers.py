"""The header of a test: comment lines of the form `# key: value` near the top of an executable in tests/.

  test    what it tests, in one line
  time    its usual time in seconds, after a build
  beside  `yes`: it may run at the same time as any other; `no`: it runs alone; a word: not with tests of the same word
  starts  `at once`: it needs nothing that is proved; without this line it starts when `rt ci` has passed and the archives are made
  needs   Debian packages, as PACKAGE, PACKAGE=COMMAND or PACKAGE=/FILE
  spoil   `yes`, or the numbers of the answers to spoil: it must fail with each
  quick   its options in a quick run; without this line it is not part of one"""
import pathlib
import re
import shutil
import subprocess

ROOT = pathlib.Path(__file__).resolve().parent.parent.parent
TESTS = ROOT / 'tests'
KEYS = ('test', 'time', 'beside', 'starts', 'needs', 'spoil', 'quick')


class Header:
    def __init__(self, name, found, values):
        self.name, self.found, self.values = name, found, values

    def __getattr__(self, key):
        if key in KEYS:
            return self.values.get(key, '')
        raise AttributeError(key)

    def seconds(self):
        return float(re.sub(r'[^0-9.]', '', self.time) or 60)

    def is_early(self):
        return self.starts == 'at once'

    def limit(self):
        """The time limit in seconds: six times the usual time, and at least ten minutes."""
        return max(600.0, 6 * self.seconds())

    def jobs(self, spoil=True):
        """The runs of a test: NAME, and NAME--spoil or NAME--spoil-N for those that must fail."""
        wrong = [''] if self.spoil == 'yes' else [f'-{n}' for n in self.spoil.split()]
        return [self.name] + [f'{self.name}--spoil{n}' for n in wrong if spoil]

    def missing(self):
        """Packages that it needs and that are missing."""
        return [need.partition('=')[0] for need in self.needs.split() if not there(*need.partition('=')[::2])]


def there(package, sign):
    if sign.startswith('/'):
        return pathlib.Path(sign).exists()
    if shutil.which(sign or package):
        return True
    if sign:
        return False
    asked = subprocess.run(['dpkg-query', '-W', '-f', '${Status}', package], capture_output=True, text=True)
    return asked.stdout.endswith(' installed')


def read(name):
    values = {}
    with open(TESTS / name, errors='replace') as file:
        for line in [next(file, '') for _ in range(30)]:
            if (found := re.match(r'# (\w+): ?(.*)', line)) and found[1] in KEYS:
                values[found[1]] = found[2].strip()
    return Header(name, 'test' in values, values if 'test' in values else {'test': '(it has no header)', 'beside': 'no'})


def every():
    """All tests: executables in tests/ without an ending, proofs first, the others by name."""
    names = [path.name for path in TESTS.iterdir() if path.is_file() and path.stat().st_mode & 0o100 and '.' not in path.name]
    return [read(name) for name in sorted(names, key=lambda name: (name != 'proofs', name))]
