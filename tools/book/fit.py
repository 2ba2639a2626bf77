"""An entry of a book: the Chebyshev series of a body over a span, and its difference from the ephemeris."""
import math

from axes import to_1950
from de405 import series

BETWEEN = 60  # the number of moments at which an entry is compared, evenly spaced, with the first and the last


def sight(ephemeris, name, moment, later=0.0):
    """Position and velocity from the Earth on the axes of 1950.0."""
    return [to_1950(vector) for vector in ephemeris.motion(name, moment, later)]


def fitted(ephemeris, name, start, span, count):
    """The coefficients of X, Y and Z through the positions at the `count` nodes of the span."""
    angles = [math.pi * (j + 0.5) / count for j in range(count)]
    places = [sight(ephemeris, name, start, (math.cos(angle) + 1) / 2 * span)[0] for angle in angles]
    blocks = []
    for values in zip(*places):
        sums = [math.fsum(v * math.cos(k * angle) for v, angle in zip(values, angles)) for k in range(count)]
        blocks.append([sums[0] / count] + [2 * s / count for s in sums[1:]])
    return blocks


def errors(ephemeris, name, start, span, blocks):
    """The greatest distance (km) and difference of velocity (km/s) between the entry and the ephemeris at moments of the span."""
    far = fast = 0.0
    for i in range(BETWEEN):
        moment = start + (span - 1) * i // (BETWEEN - 1)
        pairs = [series(block, (2 * (moment - start) - span) / span) for block in blocks]
        place, velocity = sight(ephemeris, name, moment)
        far = max(far, math.dist(place, [value for value, _ in pairs]))
        fast = max(fast, math.dist(velocity, [slope * 2000 / span for _, slope in pairs]))
    return far, fast
