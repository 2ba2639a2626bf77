#!/usr/bin/python3
"""picture.py: checks that target/flight.svg and docs/architecture.svg, rendered, show something in each of their parts, and that blank ones
are detected. The copies in docs/ must be current. One line for each check; the exit status is 1 if one failed."""
import collections
import hashlib
import re
import sys

from PIL import Image

import checks
from checks import ROOT, WORK, check, ran

# colours, and the least number of pixels of each in a part
CRAFT, EARTH, JPL, ARROW = ((0x1f, 0x5f, 0xa8), 45), ((0x2e, 0x8b, 0x57), 50), ((0xd2, 0x60, 0x1a), 15), ((0x1f, 0x5f, 0xa8), 100)
# parts of a picture: left, top, right and bottom as fractions of it, and the colours that it must have
FLIGHT = {'the path': ((0, 0, 1, 0.65), (CRAFT, EARTH)), 'the range': ((0, 0.67, 0.5, 1), (CRAFT, JPL)),
          'the speed': ((0.5, 0.67, 1, 1), (CRAFT, JPL))}
FAMILIES = {'the upper families': ((0, 0.06, 1, 0.55), (ARROW,)), 'the lower families': ((0, 0.55, 1, 1), (ARROW,))}


# the width of a rendered picture: that of the families has smaller print
NARROW, WIDE = 460, 560


def rendered(name, svg, width=NARROW):
    (WORK / f'{name}.svg').write_text(svg)
    status, _, told = ran('rsvg-convert', '-w', str(width), WORK / f'{name}.svg', '-o', WORK / f'{name}.png')
    if status:
        sys.exit(f'FAILED {name} is rendered: {told}')
    picture = Image.open(WORK / f'{name}.png').convert('RGB')
    points = list(picture.getdata())
    return [points[i:i + picture.width] for i in range(0, len(points), picture.width)]


def near(a, b):
    return max(abs(x - y) for x, y in zip(a, b)) < 40


def lacking(rows, part):
    """What a part of a picture lacks: any ink, shades, or one of its colours."""
    (left, top, right, bottom), colours = part
    height, width = len(rows), len(rows[0])
    counts = collections.Counter(pixel for row in rows[int(top * height):int(bottom * height)]
                                 for pixel in row[int(left * width):int(right * width)])
    ground, _ = counts.most_common(1)[0]
    ink = sum(count for pixel, count in counts.items() if not near(pixel, ground))
    lost = ['ink'] if ink < 400 else []
    lost += ['shades'] if len(counts) < 40 else []
    found = {colour: sum(n for pixel, n in counts.items() if near(pixel, colour)) for colour, _ in colours}
    return lost + [f'colour {colour}: {found[colour]}' for colour, least in colours if found[colour] < least]


def shown(name, svg, parts, width=NARROW):
    rows = rendered(name, svg, width)
    for part, where in parts.items():
        lost = lacking(rows, where)
        check(f'{name}.svg shows {part}', not lost, lost)
    rows = rendered(f'{name}-blank', re.sub(r'(?m)^<(polyline|circle|path|text|line|rect x|polygon (?!fill="#fafaf7")).*', '', svg), width)
    check(f'{name}.svg with nothing on its ground is seen as blank', all(lacking(rows, where) for where in parts.values()))


def main():
    svg = (ROOT / 'target/flight.svg').read_text()
    shown('flight', svg, FLIGHT)
    curve = [match.start() for match in re.finditer('class="craft"', svg)][-1]
    cut = svg[:svg.rindex('<', 0, curve)] + svg[svg.index('\n', curve):]
    lost = [part for part, where in FLIGHT.items() if lacking(rendered('cut', cut), where)]
    check('flight.svg without its speed curve is seen', lost == ['the speed'], lost)
    drawn = (ROOT / 'docs/architecture.svg').read_text()
    shown('architecture', drawn, FAMILIES, WIDE)
    check('docs/flight.svg is what ./flight draws', (ROOT / 'docs/flight.svg').read_text() == svg, 'cp target/flight.svg docs/')
    status, out, told = ran('docs/draw-architecture', '--dot')
    fresh = status == 0 and drawn.endswith(f'<!-- {hashlib.sha256(out).hexdigest()} -->\n')
    check('docs/architecture.svg is that of crates.txt', fresh, told or 'docs/draw-architecture > docs/architecture.svg')
    size = len(svg)
    check(f'docs/flight.svg is small: {size} bytes', size < 60000)


WORK.mkdir(parents=True, exist_ok=True)
main()
sys.exit(checks.failed)
