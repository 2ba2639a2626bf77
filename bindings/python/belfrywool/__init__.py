"""Belfrywool for Python: the proved calls of a trajectory engine.

A call that cannot answer raises Refusal, whose number says why. Runs and frames do not raise: their answer has the number. A book and
an order are bytes. Moments are whole milliseconds of ephemeris time since 0h 1950 January 1.

>>> import belfrywool as bw
>>> setting = bw.Setting((8.0, 0.0, 0.0, 0.0, 0.0, 0.0))
>>> injection = bw.Coordinates(bw.Moment(0), bw.Body.EARTH, (2.0, 0.0, 0.0), (0.0, 4.0, 0.0))
>>> state = bw.inject(bw.EMPTY_BOOK, setting, injection)
>>> state.acceleration[0]
-2.0
>>> flown = bw.fly(bw.EMPTY_BOOK, setting, state, 1000, bw.Moment(60000))
>>> flown.arrived, flown.steps
(True, 60)
>>> [s.moment for s in bw.states(bw.EMPTY_BOOK, setting, state, 1000, bw.Moment(3000))]
[0, 1000, 2000, 3000]
>>> bw.root(-1.0)
Traceback (most recent call last):
belfrywool.refusal.Refusal: refusal 11: a root of a negative number, or of one that is not finite
"""
from ._library import CALLS, VERSION
from .calls import (ENTRIES, MOST_BYTES, acceleration, book_holds, book_passes, conic, date, day, earth_fixed, environment, fly,
                    from_sphere, hour_angle, inject, length, move, orbit, position, pull, repair, root, run, sidereal, sine_cosine,
                    single_step, states, turn, twice_julian_date, version)
from .figures import ground_point, rows
from .pane import Frame, Pane
from .refusal import Number, Refusal, meaning
from .values import (EMPTY, EMPTY_BOOK, GOING, IAU_1982, LATE, NO_GUESSES, NOMINAL, NOT_HELD, OLD, UNCHANGED, Body, Bytes, Conic,
                     Coordinates, EarthCoordinates, EarthFlown, EarthSetting, Environment, Flown, Guesses, Kind, Moment, Motion, Order,
                     Parts, Repair, Setting, Sphere, State, Vector)

__version__ = VERSION
__all__ = [name for name in globals() if not name.startswith('_')]
