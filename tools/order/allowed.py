"""What the engine would refuse in an order with any book, by document 01's refusal numbers."""
import math

from form import BODIES, TERMS, number
from moments import END
from values import PARTS

QUARTER, CIRCLE = 90 * PARTS, 360 * PARTS


def not_allowed(pattern):
    """Coefficients, J, A and K are finite and not negative; -0.0 is not negative."""
    value = number(pattern)
    return not math.isfinite(value) or value < 0


def float_faults(order):
    """Refusals 4 and 7, for the fields that could be read."""
    for key in (*BODIES, *TERMS):
        if key in order and not_allowed(order[key][0]):
            yield key, f'{key} is not finite or is negative: refused by 4'
    if 'earth' in order and number(order['earth'][0]) == 0:
        yield 'earth', "the Earth's coefficient is not above 0: refused by 4"
    for key in ('position', 'velocity'):
        if not all(math.isfinite(number(pattern)) for pattern in order.get(key, ())):
            yield key, f'{key} is not finite: refused by 7'


def spoken_faults(order):
    """Refusals 12 and 7 of an injection as launch crews speak it, and refusal 3 of its time."""
    for key in ('latitude', 'path'):
        if abs(order.get(key, 0)) > QUARTER:
            yield key, f'{key} is not from -90 to 90 degrees: refused by 12'
    for key in ('longitude', 'azimuth'):
        if not 0 <= order.get(key, 0) < CIRCLE:
            yield key, f'{key} is not from 0 up to but not including 360 degrees: refused by 12'
    for key in ('radius', 'speed'):
        if key in order and not math.isfinite(number(order[key][0])):
            yield key, f'{key} is not finite: refused by 7'
        elif key == 'radius' and key in order and not number(order[key][0]) > 0:
            yield key, 'the radius is not above 0: refused by 7'
    if 'radius' in order and isinstance(order.get('start'), int) and order['start'] < order.get('dut', 0):
        yield 'start', 'the UT of the start is before 1950: refused by 3'


def faults(order):
    """Pairs of a key and what is wrong with it. Fields that could not be read are left out."""
    start, target, step = (order.get(key) for key in ('start', 'target', 'step'))
    yield from float_faults(order)
    yield from spoken_faults(order)
    for key, moment in (('start', start), ('target', target)):
        if isinstance(moment, int) and moment >= END:
            yield key, f'{key} is not within 1950 to 2049: refused by 3'
    if order.get('dut', 0) > 100000:
        yield 'dut', 'dut is more than 100 s: refused by 4'
    step_allowed = step is not None and step % 2 == 0 and 2 <= step <= 86400000
    if step is not None and not step_allowed:
        yield 'step', 'a step is an even number of milliseconds, 2 ms to 24 h: refused by 2'
    if start is not None and isinstance(target, int):
        if target < start:
            yield 'target', 'the target is before the start: refused by 5'
        elif step_allowed and (target - start) % step:
            yield 'target', 'the target is no whole number of steps after the start: refused by 5'
