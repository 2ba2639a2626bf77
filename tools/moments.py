"""Moments, whole milliseconds of ephemeris time since 0h 1950 January 1, as ISO text and back."""
import datetime
import re

END = 3155760000000  # document 01: moments are 0 up to but not including this
FIRST = datetime.datetime(1950, 1, 1)
FORM = re.compile(r'(\d{4})-(\d\d)-(\d\d)(?:T(\d\d):(\d\d)(?::(\d\d)(?:\.(\d{1,3}))?)?)?', re.ASCII)


def moment_of(text, end=END):
    """The moment, below `end`, that a text names; a ValueError says what is wrong with the text."""
    found = FORM.fullmatch(text)
    if not found:
        raise ValueError(f"'{text}' is no time such as 1963-01-13T18:42:36.297 (ephemeris time, at most three decimals, no zone)")
    *whole, decimals = found.groups('0')
    try:
        date = datetime.datetime(*map(int, whole), int(decimals.ljust(3, '0')) * 1000)
    except ValueError as wrong:
        raise ValueError(f"'{text}': {wrong}") from None
    moment = (date - FIRST) // datetime.timedelta(milliseconds=1)
    if not 0 <= moment < end:
        raise ValueError(f"'{text}' is not within 1950 to 2049")
    return moment


def iso(moment):
    """A moment of 1950 to 2049 as text."""
    return (FIRST + datetime.timedelta(milliseconds=moment)).isoformat(timespec='milliseconds')
