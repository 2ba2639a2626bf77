"""The values after a key: turns words into moments, lengths of time, angles and floats. A ValueError says what is wrong."""
import math
import re
from fractions import Fraction

from form import NOMINAL, bits
from moments import moment_of

UNITS = {'ms': 1, 's': 1000, 'min': 60000, 'h': 3600000, 'd': 86400000}
LENGTH = re.compile(r'(\d{1,20}(?:\.\d{1,20})?) ?(ms|s|min|h|d)', re.ASCII)
DECIMAL = re.compile(r'[+-]?(\d+\.?\d*|\.\d+)([eE][+-]?\d+)?', re.ASCII)
PATTERN = re.compile(r'0x[0-9a-fA-F]{16}', re.ASCII)
DEGREES = re.compile(r'[+-]?\d{1,9}(\.\d{1,20})?', re.ASCII)
PARTS = 10 ** 10  # parts of a degree, the unit of the proved call


def length_of(text, limit):
    """A length of time in whole milliseconds, below `limit`."""
    found = LENGTH.fullmatch(text)
    if not found:
        raise ValueError(f"'{text}' is no length of time such as 60 s, 500 ms, 1.5 h (ms, s, min, h or d; never negative)")
    exact = Fraction(found[1]) * UNITS[found[2]]
    if exact.denominator != 1:
        raise ValueError(f"'{text}' is no whole number of milliseconds")
    if exact >= limit:
        raise ValueError(f"'{text}' is too long: it has no room in the order")
    return int(exact)


def short(words):
    return length_of(' '.join(words), 2 ** 32)


class UT(int):
    """Milliseconds of universal time since 0h 1950 January 1: the moment is later by DUT."""


def moment(words):
    """An ISO time, in ephemeris time or with UT after it; or milliseconds since 1950, so that every moment of 64 bits has a text."""
    if words[1:] == ['UT']:
        return UT(moment_of(words[0]))
    if words[1:] == ['ET']:
        return moment_of(words[0])
    text = ' '.join(words)
    return length_of(text, 2 ** 64) if text.endswith('ms') else moment_of(text)


def target(words):
    """A moment; or a length of time after +, counted from the start: then the result is a tuple of one."""
    text = ' '.join(words)
    return (length_of(text[1:].lstrip(), 2 ** 64),) if text.startswith('+') else moment(words)


def angle(words):
    """Degrees in decimals, exactly, as parts of 10^-10 degree."""
    if len(words) != 2 or words[1] != 'deg' or not DEGREES.fullmatch(words[0]):
        raise ValueError('wanted: one number and deg, such as 28.309 deg')
    parts = Fraction(words[0]) * PARTS
    if parts.denominator != 1:
        raise ValueError(f"'{words[0]}' has more than ten decimals: the proved call takes no finer angle")
    return int(parts)


def rule(words):
    """The rule of the hour angle for the conversion of a launch crew's injection."""
    if words not in (['0'], ['1']):
        raise ValueError("wanted: 0 (document 01's rule of the hour angle) or 1 (that of 1982)")
    return int(words[0])


def float_bits(word):
    """A decimal, converted by Python to the nearest float; or 0x and the 16 digits of a float's bits."""
    if PATTERN.fullmatch(word):
        return int(word, 16)
    if not DECIMAL.fullmatch(word):
        raise ValueError(f"'{word}' is no decimal number (nor 0x and 16 hexadecimal digits)")
    value = float(word)
    if math.isinf(value):
        raise ValueError(f"'{word}' is too large for a float")
    return bits(value)


def floats(count, unit, key=None):
    """A reader for that many floats and their unit; a key with a nominal value may have that word instead."""
    def read(words):
        if words == ['nominal'] and key in NOMINAL:
            return [bits(float(NOMINAL[key]))]
        if len(words) != count + len(unit.split()) or ' '.join(words[count:]) != unit:
            nominal = ", or 'nominal'" if key in NOMINAL else ''
            numbers = 'one number' if count == 1 else f'{count} numbers'
            raise ValueError(f'wanted: {numbers}{" and " + unit if unit else ""}{nominal}')
        return [float_bits(word) for word in words[:count]]
    return read
