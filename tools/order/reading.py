"""Turns a text into an order. Errors name their line."""
from allowed import faults
from form import BODIES, SPOKEN, TERMS
from spoken import converted
from values import UT, angle, floats, moment, rule, short, target

READERS = {
    'start': moment, 'position': floats(3, 'km'), 'velocity': floats(3, 'km/s'), 'step': short, 'target': target, 'dut': short,
    **{body: floats(1, 'km3/s2', body) for body in BODIES},
    'J': floats(1, '', 'J'), 'A': floats(1, 'km', 'A'), 'K': floats(1, 'km3/s2'),
    'radius': floats(1, 'km'), 'latitude': angle, 'longitude': angle, 'speed': floats(1, 'km/s'), 'path': angle, 'azimuth': angle,
    'rule': rule,
}
ALWAYS = ('start', 'step', 'target', 'dut', 'earth')
CARTESIAN = ('position', 'velocity')


def words_of(line):
    """The words of a line without its comment."""
    try:
        return line.decode().split('#')[0].split()
    except UnicodeDecodeError:
        raise ValueError('not UTF-8 text') from None


def fields_of(lines):
    """The words of each key, its line, and the errors, as pairs of line and message."""
    order, places, wrong = {}, {}, []
    for place, line in enumerate(lines, 1):
        try:
            words = words_of(line)
            if not words:
                continue
            key = words[0]
            if key not in READERS:
                raise ValueError(f"'{key}' is no key; the keys are {', '.join(READERS)}")
            if key in places:
                raise ValueError(f'{key} stands in line {places[key]} already')
            places[key] = place
            order[key] = READERS[key](words[1:])
        except ValueError as fault:
            wrong.append((place, str(fault)))
    return order, places, wrong


def in_ephemeris_time(order, places, wrong):
    """Times in UT become moments. One that cannot is removed: the error is reported at its DUT."""
    for key in ('start', 'target'):
        if isinstance(order.get(key), UT):
            moment = order.pop(key)
            if 'dut' in order:
                order[key] = moment + order['dut']
                if order[key] >= 2 ** 64:
                    wrong.append((places[key], f'the {key} is too late: it has no room in the order'))


def settle(order, places, wrong):
    """Times become moments, also a target counted from the start; bodies that are not named have the coefficient 0."""
    in_ephemeris_time(order, places, wrong)
    if isinstance(order.get('target'), tuple) and 'start' in order:
        order['target'] = order['start'] + order['target'][0]
        if order['target'] >= 2 ** 64:
            wrong.append((places['target'], 'the target is too late: it has no room in the order'))
    for body in BODIES:
        if body not in places:
            order[body] = [0]


def wanted(places):
    """The keys that a text needs, and those that it must not have with them."""
    spoken = [key for key in (*SPOKEN, 'rule') if key in places]
    keys = ALWAYS + (SPOKEN if spoken else CARTESIAN) + (TERMS if any(term in places for term in TERMS) else ())
    return keys, CARTESIAN if spoken else ()


def read(data, any_order, convert=converted):
    """The order of a text, or None; and the errors, as sorted pairs of line and message. Unless `any_order` is set, values that the
    engine would refuse are errors too. `convert` turns an injection as launch crews speak it into position and velocity."""
    lines = data.split(b'\n')
    if not lines[-1]:
        lines.pop()
    order, places, wrong = fields_of(lines)
    needed, other = wanted(places)
    wrong += [(len(lines) + 1, f'{key} is missing') for key in needed if key not in places]
    wrong += [(places[key], f'{key} stands beside an injection as launch crews speak it (radius, latitude, ..): give one of the two')
              for key in other if key in places]
    settle(order, places, wrong)
    if not any_order:
        wrong += [(places[key], words) for key, words in faults(order) if key in places]
    if not wrong and 'radius' in places:
        try:
            order['position'], order['velocity'] = convert(order)
        except ValueError as fault:
            wrong.append((places['radius'], str(fault)))
    return (None if wrong else order), sorted(wrong, key=lambda fault: fault[0])
