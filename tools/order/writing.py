"""An order as a text that `reading` turns back into the same bytes."""
import math

from form import BODIES, TERMS, number
from moments import END, iso

UNITS = {'position': 'km', 'velocity': 'km/s', 'A': 'km', 'K': 'km3/s2', **{body: 'km3/s2' for body in BODIES}}


def float_text(pattern):
    """The shortest decimal that reads back as this float; by its bits if it is not finite."""
    value = number(pattern)
    return repr(value) if math.isfinite(value) else f'0x{pattern:016x}'


def moment_text(moment):
    return iso(moment) if moment < END else f'{moment} ms'


def length_text(length):
    return f'{length} ms' if length % 1000 else f'{length // 1000} s'


def text_of(order):
    """A line for each field, in an order that is easy to read."""
    said = {'start': moment_text(order['start']), 'target': moment_text(order['target'])}
    said.update((key, length_text(order[key])) for key in ('step', 'dut'))
    for key, unit in [(key, UNITS.get(key, '')) for key in ('position', 'velocity', *BODIES, *TERMS) if key in order]:
        said[key] = ' '.join([*map(float_text, order[key]), unit]).rstrip()
    keys = ['start', 'position', 'velocity', 'step', 'target', 'dut', *BODIES, *(term for term in TERMS if term in order)]
    return ''.join(f'{key:<9} {said[key]}\n' for key in keys)
