"""Numbers, vectors, settings, states and answers. Only the range of each number type is checked here: the calls check the rest."""
from __future__ import annotations

import enum
import struct
from collections.abc import Iterable
from dataclasses import dataclass
from typing import NewType, Optional, Union

Moment = NewType('Moment', int)  # milliseconds of ephemeris time since 0h 1950 January 1
Parts = NewType('Parts', int)    # an angle in parts of 10^-10 degree
Bytes = Union[bytes, bytearray, memoryview]
Vector = tuple[float, float, float]

GOING, UNCHANGED, LATE, EMPTY, NOT_HELD = 100, 101, 102, 103, 104
OLD, IAU_1982 = 0, 1             # rules of the hour angle
EMPTY_BOOK = bytes([8, 0, 0, 0, 0, 0, 0, 0])


class Body(enum.IntEnum):
    EARTH = 1
    MOON = 2
    SUN = 3
    VENUS = 4
    MARS = 5
    JUPITER = 6


def vector(values: Iterable[float]) -> Vector:
    """Three floats, from any row of three: a list, a tuple, an array of numpy."""
    x, y, z = map(float, values)
    return x, y, z


@dataclass(frozen=True)
class Setting:
    """The setting of a flight: coefficients of the bodies 1 to 6 in km3/s2, oblateness j with its radius a in km, sunlight k in km3/s2.
    Also DUT in milliseconds and the rule of the hour angle."""
    coefficients: tuple[float, float, float, float, float, float]
    j: float = 0.0
    a: float = 0.0
    k: float = 0.0
    dut: int = 0
    rule: int = OLD


NOMINAL = Setting((398603.20, 4900.7589, 132715440000.0, 324769.50, 42977.799, 126710600.0), 0.001623450, 6378.1650)


@dataclass(frozen=True)
class EarthSetting:
    """The setting of the calls about the Earth, which take no j, a, k and rule."""
    coefficients: tuple[float, float, float, float, float, float]
    dut: int = 0


@dataclass(frozen=True)
class Motion:
    """km and km/s."""
    position: Vector
    velocity: Vector


@dataclass(frozen=True)
class Coordinates:
    """A state without its acceleration, for example an injection; km and km/s from the centre."""
    moment: Moment
    centre: int
    position: Vector
    velocity: Vector


@dataclass(frozen=True)
class EarthCoordinates:
    """Coordinates of the calls about the Earth, which take no centre."""
    moment: Moment
    position: Vector
    velocity: Vector


@dataclass(frozen=True)
class State:
    """A whole state: with the acceleration there in km/s2, which inject, fly and move keep equal to the rule's."""
    moment: Moment
    centre: int
    position: Vector
    velocity: Vector
    acceleration: Vector

    @property
    def nine(self) -> tuple[float, ...]:
        return (*self.position, *self.velocity, *self.acceleration)

    @property
    def coordinates(self) -> Coordinates:
        return Coordinates(self.moment, self.centre, self.position, self.velocity)


Guesses = tuple[int, int, int, int, int]
NO_GUESSES: Guesses = (0, 0, 0, 0, 0)


@dataclass(frozen=True)
class Flown:
    """The answer of a run. `outcome` is 0 if it arrived, GOING if the budget is spent, else a refusal. `state` is the last one
    reached."""
    outcome: int
    state: State
    steps: int
    guesses: Guesses

    @property
    def arrived(self) -> bool:
        return self.outcome == 0


@dataclass(frozen=True)
class EarthFlown:
    """The answer of a run about the Earth."""
    outcome: int
    state: EarthCoordinates
    steps: int
    guesses: Guesses


class Kind(enum.IntEnum):
    ELLIPSE = 1
    HYPERBOLA = 2


@dataclass(frozen=True)
class Conic:
    """Half axis a in km, eccentricity e, parameter p and nearest distance q in km; `last` is the far distance in km of an ellipse, or
    the root of c3 in km/s of a hyperbola."""
    centre: int
    kind: Kind
    a: float
    e: float
    p: float
    q: float
    last: float


@dataclass(frozen=True)
class Sphere:
    """An injection as launch crews speak it, Earth-fixed: km, km/s, and angles in parts of 10^-10 degree."""
    radius: float
    latitude: int
    longitude: int
    speed: float
    path_angle: int
    azimuth: int


@dataclass(frozen=True)
class Repair:
    """The report of a repair: the new book, a fate for each entry looked at, how many are kept, and whether total, count, order and
    offsets changed. A fate is the new number, or 3001 to 3005: why the entry was dropped."""
    book: bytes
    fates: tuple[int, ...]
    kept: int
    total_changed: bool
    count_changed: bool
    order_changed: bool
    offsets_changed: bool


@dataclass(frozen=True)
class Environment:
    """Whether the floating-point environment of the calling thread is the one that the proofs assume."""
    rounds_to_nearest: bool
    keeps_subnormals: bool

    @property
    def is_as_proved(self) -> bool:
        return self.rounds_to_nearest and self.keeps_subnormals


_ORDER = struct.Struct('<6dQ3d3dIIQ')
_TERMS = struct.Struct('<3d')


@dataclass(frozen=True)
class Order:
    """Setting, injection, step length in milliseconds, and target."""
    setting: Setting
    injection: Coordinates
    h: int
    target: Moment

    @staticmethod
    def of_bytes(data: Bytes) -> Optional[Order]:
        """The order of 120 bytes, or of 144 with J, A and K; another length gives None. Nothing else is checked."""
        if len(data) not in (_ORDER.size, _ORDER.size + _TERMS.size):
            return None
        field = _ORDER.unpack_from(data)
        j, a, k = _TERMS.unpack_from(data, _ORDER.size) if len(data) > _ORDER.size else (0.0, 0.0, 0.0)
        earth, moon, sun, venus, mars, jupiter = field[:6]
        setting = Setting((earth, moon, sun, venus, mars, jupiter), j, a, k, dut=field[14])
        injection = Coordinates(Moment(field[6]), Body.EARTH, vector(field[7:10]), vector(field[10:13]))
        return Order(setting, injection, field[13], Moment(field[15]))
