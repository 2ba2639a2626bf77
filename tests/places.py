#!/usr/bin/env python3
"""places.py: checks that every definition named in docs/ARCHITECTURE.md is in the named file, and every named crate in crates.txt. The
README must have the output of ./flight (target/flight.printed). One line for each check; the exit status is 1 if one failed."""
import re
import sys

import checks
from checks import ROOT, check

ROW = re.compile(r'`(\w+)/(\w+)`: ((?:`[\w-]+`(?:, )?)+)')


def lost(page):
    """Definitions that are not where the page says, and how many it names."""
    missing, count = [], 0
    for crate, file, names in ROW.findall(page):
        path = ROOT / 'crates' / crate / 'specs' / f'{file}.antt'
        text = path.read_text() if path.exists() else ''
        for name in re.findall(r'[\w-]+', names):
            count += 1
            if not re.search(rf'\b{re.escape(name)} :|\b(data|record) {re.escape(name)}\b', text):
                missing.append(f'{crate}/{file}: {name}')
    return missing, count


page = (ROOT / 'docs/ARCHITECTURE.md').read_text()
missing, count = lost(page)
check(f'{count} definitions stand where docs/ARCHITECTURE.md says', count > 100 and not missing, missing)
check('a definition that is not there is seen', len(lost(page.replace('`covers`', '`coves`').replace('book_series/Series', 'series/Row'))[0]) > 4)
crates = [line.split(':')[0] for line in (ROOT / 'crates.txt').read_text().splitlines()]
way = re.findall(r'^\d+\. `(\w+)`', page, re.M)
check(f'the {len(way)} crates of the way stand in crates.txt', len(way) == 13 and set(way) <= set(crates), set(way) - set(crates))
shown = (ROOT / 'target/flight.printed').read_text().splitlines()
block = '\n'.join(f'    {line}'.rstrip() for line in shown)
check('the README has what ./flight prints', len(shown) > 12 and block in (ROOT / 'README.md').read_text())
sys.exit(checks.failed)
