"""The times in the picture and the table of a flight, and the ends of the axes."""
import dataclasses
import math

from flown import HOUR

SECOND, MINUTE, DAY = 1000, 60000, 86400000
# spaces between the rows of a table and between the figures of a time axis, in milliseconds
SPACES = [n * unit for unit, counts in ((1, (1, 2, 5, 10, 20, 50, 100, 200, 500)), (SECOND, (1, 2, 5, 10, 15, 30)), (MINUTE, (1, 2, 5, 10, 15, 30)),
                                        (HOUR, (1, 2, 3, 4, 6, 12)), (DAY, (1, 2, 5, 10, 20, 50, 100, 200, 500, 1000, 2000, 5000))) for n in counts]
UNITS = [(5 * DAY, DAY, 'days', 'd'), (3 * HOUR, HOUR, 'hours', 'h'), (3 * MINUTE, MINUTE, 'minutes', 'min'), (3 * SECOND, SECOND, 'seconds', 's'),
         (0, 1, 'milliseconds', 'ms')]
FAR = 100000  # km: a flight that goes this far from the Earth is drawn with the Moon


def space(length, most):
    """The least step of the list with at most that many steps in a length."""
    return next((one for one in SPACES if length <= most * one), SPACES[-1])


def rounded(least):
    """1, 2 or 5 times a power of ten, not below a number above 0."""
    power = 10.0 ** math.floor(math.log10(least))
    return next(power * n for n in (1, 2, 5, 10) if power * n >= least * 0.999999)


def whole(number):
    """A number without decimals if it has none."""
    return int(number) if number == int(number) else number


def ticks(greatest):
    """Figures of an axis from 0 to a bit above the greatest value, and its end."""
    step = rounded(max(greatest, 1e-300) / 4)
    places = max(0, -math.floor(math.log10(step)))
    return [whole(round(i * step, places)) for i in range(int(greatest / step) + 1)], greatest * 1.05 or 1.0


@dataclasses.dataclass
class View:
    """How a flight is shown. Lengths are in km, times in milliseconds after the injection."""
    title: str
    edge: float       # around what is drawn
    points: list      # what else must be within the picture of the path
    marks: list       # times that are marked on the path
    bar: float        # the length of the bar that gives the scale
    unit: tuple       # of the time axis: milliseconds, name, short name
    end: float        # of the time axis, in that unit
    times: list       # figures of the time axis
    distances: tuple  # figures and end
    speeds: tuple     # figures and end


CHECK_CASE = View('The path to the Moon: mean equator of 1950.0 seen from the north, to scale', 30000, [],
                  [hours * HOUR for hours in (6, 12, 24, 36, 48, 60)], 100000, (HOUR, 'hours', 'h'), 66, list(range(0, 67, 12)),
                  (range(0, 420001, 100000), 420000), (range(0, 11, 2), 11.5))


def unit_of(last):
    return next((unit, name, short) for least, unit, name, short in UNITS if last >= least)


def nearest(flight, times):
    """For each time the first state at it or after it, each once."""
    kept = sorted(flight.states)
    found, i = [], 0
    for time in times:
        while i < len(kept) and kept[i] < time:
            i += 1
        if i < len(kept) and (not found or kept[i] > found[-1]):
            found.append(kept[i])
    return found


def rows(flight, most=12):
    """Times for a table: evenly spaced over the flight, with its first and its last."""
    last = max(flight.states)
    every = space(last, most)
    times = nearest(flight, range(0, last + 1, every))
    return times if times[-1] == last else [*times, last]


def view_of(flight, earth_radius):
    """A view that fits any flight."""
    last = max(flight.states)
    unit, name, short = unit_of(last)
    reach = max(abs(axis) for state in flight.states.values() for axis in state[:2])
    every = space(max(last, 1), 6)
    edge = max(reach, earth_radius) * 0.15
    points = [(side * earth_radius, side * earth_radius) for side in (-1, 1)]
    marks = nearest(flight, range(every, last, every)) if last else []
    return View('The path: mean equator of 1950.0 seen from the north, to scale', edge, points, marks, rounded(max(reach, earth_radius) / 3),
                (unit, name, short), max(last, 1) / unit * 1.02, [whole(time / unit) for time in range(0, last + 1, every)],
                ticks(max(map(flight.range, flight.states))), ticks(max(map(flight.speed, flight.states))))


def goes_far(flight):
    return max(map(flight.range, flight.states)) >= FAR
