"""Figures for people, and rows for numpy."""
from __future__ import annotations

import math
from array import array
from collections.abc import Iterable
from typing import Any

from .calls import turn
from .values import Setting, State


def ground_point(setting: Setting, state: State) -> tuple[float, float]:
    """Geocentric latitude and eastward longitude, 0 to 360, of the point below a state about the Earth, in degrees. Refusals: 4, 14, 3,
    7."""
    x, y, z = turn(setting.rule, setting.dut, state).position
    return math.degrees(math.atan2(z, math.hypot(x, y))), math.degrees(math.atan2(y, x)) % 360


def rows(states: Iterable[State]) -> tuple[Any, Any]:
    """The moments of states and their nine coordinates. With numpy they are numpy arrays of the shapes (n,) and (n, 9). Without it they
    are an array of whole numbers and a list of arrays of floats."""
    kept = list(states)
    moments, coordinates = [state.moment for state in kept], [state.nine for state in kept]
    try:
        import numpy
    except ImportError:
        return array('Q', moments), [array('d', row) for row in coordinates]
    return numpy.array(moments, dtype=numpy.uint64), numpy.array(coordinates, dtype=numpy.float64).reshape(len(kept), 9)
