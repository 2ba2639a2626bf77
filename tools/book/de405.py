"""JPL's ephemeris DE405 from Debian's package casacore-data-jpl-de405: the position of a body from the Earth, on DE405's own axes.

The package has it as a casacore table. table.f0i has one array of 1018 floats for every 32 days, all of one length, one after the
other. table.f0 has the day on which each begins. table.dat has the place of each body in an array, and the constants. The numbers below
are compared with the table, and a table of another form is an error."""
import pathlib
import struct

FOLDER = pathlib.Path('/usr/share/casacore/data/ephemerides/DE405')
DAY = 86400000
START = (36912 - 33282) * DAY  # the first record begins on MJD 36912; moment 0 is MJD 33282
RECORD = 32 * DAY
HEAD, ARRAY, EVERY = 16, 12, 8160  # bytes before the first array, before an array's floats, from array to array
FLOATS = 1018
EARTH_BY_MOON = 81.30056  # EMRAT, the Earth's mass divided by the Moon's
PLACES = (3, 171, 231, 309, 342, 366, 387, 405, 423, 441, 753, 819, 899)  # counted from 1, after two floats that the table leaves out
COUNTS = (14, 10, 13, 11, 8, 7, 6, 6, 6, 13, 11, 10, 10)
PARTS = (4, 2, 2, 1, 1, 1, 1, 1, 1, 8, 2, 4, 4)
NUMBERS = {'venus': 1, 'barycentre': 2, 'mars': 3, 'jupiter': 4, 'moon': 9, 'sun': 10}  # the barycentre of Earth and Moon


class Unreadable(Exception):
    pass


def series(coefficients, w):
    """A Chebyshev series by Clenshaw, and its slope."""
    b, b2, d, d2 = 0.0, 0.0, 0.0, 0.0
    for c in reversed(coefficients[1:]):
        b, b2, d, d2 = 2 * w * b - b2 + c, b, 2 * b + 2 * w * d - d2, d
    return w * b - b2 + coefficients[0], b + w * d - d2


class Ephemeris:
    def __init__(self, folder=FOLDER):
        try:
            self.data, index, description = ((folder / f'table.{end}').read_bytes() for end in ('f0i', 'f0', 'dat'))
        except OSError as fault:
            raise Unreadable(f'cannot read {fault.filename}: {fault.strerror} '
                             "(Debian's package casacore-data-jpl-de405 brings it)") from None
        count = (len(self.data) - HEAD + 4) // EVERY
        heads = {self.data[HEAD + EVERY * i:][:ARRAY] for i in range(count)}
        layout = struct.pack('>39i', *PLACES, *COUNTS, *PARTS)
        if (len(self.data) != HEAD + EVERY * count - 4 or heads != {struct.pack('<3i', 1, 1, FLOATS)}
                or struct.pack('<dq', 36912.0, HEAD) not in index
                or struct.pack('>d', EARTH_BY_MOON) not in description or layout not in description):
            raise Unreadable(f'{folder}: not the table that this program knows')
        self.end = START + RECORD * count

    def own(self, name, moment, later):
        """A body as in the ephemeris: the Moon from the Earth, all others from the barycentre of the solar system, in km and km/s."""
        place, count, parts = (column[NUMBERS[name]] for column in (PLACES, COUNTS, PARTS))
        record, offset = divmod(moment - START, RECORD)
        span = RECORD // parts
        part, offset = divmod(offset + later, span)
        record, part = record + int(part // parts), int(part % parts)
        w = 2 * offset / span - 1
        first = HEAD + ARRAY + EVERY * record + 8 * (place - 3 + 3 * count * part)
        pairs = [series(struct.unpack_from(f'<{count}d', self.data, first + 8 * count * i), w) for i in range(3)]
        return [value for value, _ in pairs], [slope * 2000 / span for _, slope in pairs]

    def motion(self, name, moment, later=0.0):
        """Position (km) and velocity (km/s) from the Earth, at a whole moment plus some milliseconds."""
        moon = self.own('moon', moment, later)
        if name == 'moon':
            return moon
        both, body = self.own('barycentre', moment, later), self.own(name, moment, later)
        return tuple([x - (b - m / (1 + EARTH_BY_MOON)) for x, b, m in zip(*parts)] for parts in zip(body, both, moon))
