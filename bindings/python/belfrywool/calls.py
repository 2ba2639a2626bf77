"""The proved calls for Python values. Each makes one call of the library and raises Refusal if it cannot answer."""
from __future__ import annotations

from collections.abc import Iterable, Iterator
from ctypes import Array, byref, c_double, c_uint8, c_uint16, c_uint32, c_uint64
from typing import Optional

from . import _arrays as mem
from ._library import library
from .refusal import accepted
from .values import (GOING, NO_GUESSES, NOT_HELD, Bytes, Conic, Coordinates, EarthCoordinates, EarthFlown, EarthSetting, Environment,
                     Flown, Guesses, Kind, Moment, Motion, Parts, Repair, Setting, Sphere, State, Vector)

ENTRIES, MOST_BYTES = 2559, 61440  # as many entries and bytes as a book can have


def version() -> str:
    """The version of the library."""
    return library.belfry_version().decode()


def environment() -> Environment:
    """Tests the floating-point environment of the calling thread."""
    wrong = library.belfry_environment()
    return Environment(not wrong & 1, not wrong & 2)


# ---- without book and state

def date(day: int) -> tuple[int, int, int]:
    """Year, month and day of a day counted from 1950 January 1, which is 0. Refusals: 8."""
    out = mem.no_words(3)
    accepted(library.belfry_date(mem.u64(day), out))
    return out[0], out[1], out[2]


def day(year: int, month: int, day_of_month: int) -> int:
    """The day of a date. Refusals: 8."""
    out = mem.no_words(1)
    accepted(library.belfry_day(mem.u64(year), mem.u64(month), mem.u64(day_of_month), out))
    return out[0]


def twice_julian_date(day: int) -> int:
    """Twice the Julian date at 0h of a day. Refusals: 8."""
    out = mem.no_words(1)
    accepted(library.belfry_twice_julian_date(mem.u64(day), out))
    return out[0]


def hour_angle(moment: Moment, dut: int) -> Parts:
    """The hour angle by rule 0. Refusals: 4, 3."""
    out = mem.no_words(1)
    accepted(library.belfry_hour_angle(mem.u64(moment), mem.u32(dut), out))
    return Parts(out[0])


def sidereal(rule: int, moment: Moment, dut: int) -> Parts:
    """The hour angle by a rule. Refusals: 4, 3."""
    out = mem.no_words(1)
    accepted(library.belfry_sidereal(mem.u64(rule), mem.u64(moment), mem.u32(dut), out))
    return Parts(out[0])


def root(x: float) -> float:
    """The square root. Refusals: 11."""
    out = c_double()
    accepted(library.belfry_root(x, byref(out)))
    return out.value


def sine_cosine(parts: Parts) -> tuple[float, float]:
    """Sine and cosine of an angle below one circle. Refusals: 12."""
    out = mem.no_floats(2)
    accepted(library.belfry_sine_cosine(mem.u64(parts), out))
    return out[0], out[1]


def length(values: Iterable[float]) -> float:
    """The length of a vector, for example range or speed: the root of (x*x + y*y) + z*z. Refusals: 11, if that sum is not finite."""
    out = c_double()
    accepted(library.bw_length(mem.floats(values, 3), byref(out)))
    return out.value


# ---- books

def book_passes(book: Bytes) -> None:
    """Raises refusal 1 if a book does not pass."""
    accepted(library.belfry_book_passes(*mem.book_of(book)))


def book_holds(first: Bytes, second: Bytes) -> Optional[int]:
    """None if the second book holds every entry of the first: then it changes no figure. Otherwise the number of the first missing
    entry, counted from 0. Refusals: 1."""
    missing = mem.no_words(1)
    number = library.belfry_book_holds(*mem.book_of(first), *mem.book_of(second), missing)
    if number == NOT_HELD:
        return missing[0]
    accepted(number)
    return None


def position(book: Bytes, body: int, moment: Moment) -> Motion:
    """The position of a body, seen from the Earth, and its velocity. Refusals: 1, 3, 6, 7."""
    out = mem.no_floats(6)
    accepted(library.belfry_position(*mem.book_of(book), mem.u64(body), mem.u64(moment), out))
    return Motion(mem.three(out), mem.three(out, 3))


def repair(damaged: Bytes, room: int = MOST_BYTES) -> Repair:
    """Saves what can be saved of a damaged book: a book that passes, of at most `room` bytes. Refusals: 16, 1."""
    output, fates, report = (c_uint8 * max(room, 1))(), (c_uint16 * ENTRIES)(), mem.no_words(7)
    accepted(library.belfry_repair(*mem.book_of(damaged), output, mem.u64(room), fates, report))
    looked, kept, written, *changed = report
    return Repair(bytes(output[:written]), tuple(fates[:looked]), kept, *map(bool, changed))


# ---- flights about any centre, under the whole setting

def _state(moment: int, centre: int, nine: Array[c_double]) -> State:
    return State(Moment(moment), centre, mem.three(nine), mem.three(nine, 3), mem.three(nine, 6))


def _where(state: State | Coordinates) -> tuple[int, int]:
    return mem.u64(state.moment), mem.u64(state.centre)


def _six(state: State | Coordinates | EarthCoordinates) -> Array[c_double]:
    return mem.floats((*state.position, *state.velocity), 6)


def pull(book: Bytes, setting: Setting, moment: Moment, centre: int, place: Iterable[float]) -> Vector:
    """The acceleration in km/s2 at a position from the centre in km. Refusals: 1, 4, 14, 3, 7, 6."""
    out = mem.no_floats(3)
    accepted(library.belfry_pull(*mem.book_of(book), *mem.setting_of(setting), mem.u64(moment), mem.u64(centre), mem.floats(place, 3), out))
    return mem.three(out)


def inject(book: Bytes, setting: Setting, injection: Coordinates) -> State:
    """The state of an injection: its coordinates with the acceleration there. Refusals: 1, 4, 14, 3, 7, 6."""
    out = mem.no_floats(9)
    accepted(library.belfry_inject(*mem.book_of(book), *mem.setting_of(setting), *_where(injection), _six(injection), out))
    return _state(injection.moment, injection.centre, out)


def move(book: Bytes, setting: Setting, state: State, centre: int) -> State:
    """The same craft about another centre. Refusals: 1, 4, 14, 3, 7, 6."""
    out = mem.no_floats(9)
    accepted(library.belfry_move(*mem.book_of(book), *mem.setting_of(setting), *_where(state), mem.floats(state.nine, 9), mem.u64(centre), out))
    return _state(state.moment, centre, out)


def fly(book: Bytes, setting: Setting, state: State, h: int, target: Moment, budget: int = 2 ** 32 - 1,
        guesses: Guesses = NO_GUESSES) -> Flown:
    """A run of steps of h milliseconds to the target. It does not raise: look at `outcome`. A refusal there is one of 1, 4, 14, 3, 7, 6,
    15, 2, 5, and for a step 6 or 7."""
    reached, there, entries, steps = c_uint64(), mem.no_floats(9), mem.no_words(5), c_uint32()
    number = library.belfry_fly(*mem.book_of(book), *mem.setting_of(setting), *_where(state), mem.floats(state.nine, 9), mem.u32(h),
                                mem.u64(target), mem.u32(budget), mem.words(guesses, 5), byref(reached), there, entries, byref(steps))
    return Flown(number, _state(reached.value, state.centre, there), steps.value, mem.five(entries))


def states(book: Bytes, setting: Setting, state: State, h: int, target: Moment, every: int = 1) -> Iterator[State]:
    """The states of a run: the given one, then one for every `every` steps, and the one at the target. If a step is refused, raises its
    refusal after the last state before it."""
    guesses = NO_GUESSES
    yield state
    while True:
        flown = fly(book, setting, state, h, target, every, guesses)
        state, guesses = flown.state, flown.guesses
        if flown.steps:
            yield state
        if flown.outcome != GOING:
            accepted(flown.outcome)
            return


def turn(rule: int, dut: int, coordinates: State | Coordinates) -> Motion:
    """Position and velocity in axes that turn with the Earth, which must be the centre. Refusals: 4, 14, 3, 7."""
    out = mem.no_floats(6)
    accepted(library.belfry_turn(mem.u64(rule), mem.u32(dut), *_where(coordinates), _six(coordinates), out))
    return Motion(mem.three(out), mem.three(out, 3))


def _conic(number: int, names: Array[c_uint64], figures: Array[c_double]) -> Conic:
    accepted(number)
    a, e, p, q, last = figures
    return Conic(names[0], Kind(names[1]), a, e, p, q, last)


def orbit(m: float, coordinates: State | Coordinates) -> Conic:
    """The conic about the centre, whose coefficient is m. Refusals: 4, 14, 7, 9, 10."""
    names, figures = mem.no_words(2), mem.no_floats(5)
    return _conic(library.belfry_orbit(m, *_where(coordinates), _six(coordinates), names, figures), names, figures)


# ---- flights about the Earth, with neither oblateness nor sunlight, by rule 0

def acceleration(book: Bytes, setting: EarthSetting, moment: Moment, place: Iterable[float]) -> Vector:
    """The acceleration in km/s2 at a position from the Earth in km. Refusals: 1, 4, 3, 7, 6."""
    out = mem.no_floats(3)
    accepted(library.belfry_acceleration(*mem.book_of(book), mem.floats(setting.coefficients, 6), mem.u32(setting.dut), mem.u64(moment),
                                         mem.floats(place, 3), out))
    return mem.three(out)


def _earth_flown(number: int, reached: c_uint64, there: Array[c_double], entries: Array[c_uint64], steps: c_uint32) -> EarthFlown:
    state = EarthCoordinates(Moment(reached.value), mem.three(there), mem.three(there, 3))
    return EarthFlown(number, state, steps.value, mem.five(entries))


def run(book: Bytes, setting: EarthSetting, start: EarthCoordinates, h: int, target: Moment, budget: int = 2 ** 32 - 1,
        guesses: Guesses = NO_GUESSES) -> EarthFlown:
    """A run that starts with the acceleration that the rule gives. It does not raise: look at `outcome`. A refusal there is one of 1, 4,
    3, 7, 6, 2, 5, and for a step 6 or 7."""
    reached, there, entries, steps = c_uint64(), mem.no_floats(6), mem.no_words(5), c_uint32()
    number = library.belfry_run(*mem.book_of(book), mem.floats(setting.coefficients, 6), mem.u32(setting.dut), mem.u64(start.moment),
                                _six(start), mem.u32(h), mem.u64(target), mem.u32(budget), mem.words(guesses, 5), byref(reached), there,
                                entries, byref(steps))
    return _earth_flown(number, reached, there, entries, steps)


def single_step(book: Bytes, setting: EarthSetting, start: EarthCoordinates, h: int, guesses: Guesses = NO_GUESSES) -> EarthFlown:
    """A run of one step, to the moment one step on; as `run`."""
    reached, there, entries, steps = c_uint64(), mem.no_floats(6), mem.no_words(5), c_uint32()
    number = library.belfry_single_step(*mem.book_of(book), mem.floats(setting.coefficients, 6), mem.u32(setting.dut),
                                        mem.u64(start.moment), _six(start), mem.u32(h), mem.words(guesses, 5), byref(reached), there,
                                        entries, byref(steps))
    return _earth_flown(number, reached, there, entries, steps)


def earth_fixed(coordinates: EarthCoordinates, dut: int) -> Motion:
    """Position and velocity in axes that turn with the Earth. Refusals: 4, 3, 7."""
    out = mem.no_floats(6)
    accepted(library.belfry_earth_fixed(mem.u64(coordinates.moment), _six(coordinates), mem.u32(dut), out))
    return Motion(mem.three(out), mem.three(out, 3))


def conic(m: float, coordinates: EarthCoordinates) -> Conic:
    """The conic about the Earth, whose coefficient is m. Refusals: 4, 7, 9, 10."""
    names, figures = mem.no_words(2), mem.no_floats(5)
    return _conic(library.belfry_conic(m, mem.u64(coordinates.moment), _six(coordinates), names, figures), names, figures)


def from_sphere(rule: int, moment: Moment, dut: int, sphere: Sphere) -> EarthCoordinates:
    """The coordinates of a launch crew's injection in 1950.0 axes. Refusals: 4, 3, 12, 7."""
    out, sizes = mem.no_floats(6), mem.floats((sphere.radius, sphere.speed), 2)
    angles = mem.signed((sphere.latitude, sphere.longitude, sphere.path_angle, sphere.azimuth), 4)
    accepted(library.belfry_from_sphere(mem.u64(rule), mem.u64(moment), mem.u32(dut), sizes, angles, out))
    return EarthCoordinates(moment, mem.three(out), mem.three(out, 3))
