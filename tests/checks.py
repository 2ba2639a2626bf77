"""Shared by the checks of tools/: TAP lines, and how a program of tools/ is started."""
import pathlib
import subprocess
import sys

ROOT = pathlib.Path(__file__).resolve().parent.parent
WORK = ROOT / 'target' / 'own'
sys.dont_write_bytecode = True
sys.path.extend(str(ROOT / 'tools' / folder) for folder in ('', 'order', 'book'))
failed = 0


def check(name, good, seen=''):
    """One line; if the check failed, the actual values follow."""
    global failed
    if good:
        print(f'ok - {name}', flush=True)
    else:
        failed = 1
        print(f'not ok - {name}\n# {seen}', flush=True)


def ran(*words, given=b''):
    """Status, standard output and the lines of standard error."""
    done = subprocess.run([str(word) for word in words], input=given, stdout=subprocess.PIPE, stderr=subprocess.PIPE, cwd=ROOT)
    return done.returncode, done.stdout, done.stderr.decode(errors='replace').splitlines()
