"""Converts between Python values and the memory that the calls read and write. A number that does not fit raises OverflowError."""
from __future__ import annotations

from collections.abc import Iterable
from ctypes import Array, c_double, c_int64, c_uint64

from .values import Bytes, Guesses, Setting, Vector


def u64(number: int) -> int:
    if not 0 <= number < 2 ** 64:
        raise OverflowError(f'{number} is not a whole number from 0 to 2^64 - 1')
    return number


def u32(number: int) -> int:
    if not 0 <= number < 2 ** 32:
        raise OverflowError(f'{number} is not a whole number from 0 to 2^32 - 1')
    return number


def floats(values: Iterable[float], count: int) -> Array[c_double]:
    given = tuple(map(float, values))
    if len(given) != count:
        raise ValueError(f'{len(given)} floats instead of {count}')
    return (c_double * count)(*given)


def words(values: Iterable[int], count: int) -> Array[c_uint64]:
    given = tuple(map(u64, values))
    if len(given) != count:
        raise ValueError(f'{len(given)} numbers instead of {count}')
    return (c_uint64 * count)(*given)


def signed(values: Iterable[int], count: int) -> Array[c_int64]:
    given = tuple(values)
    for number in given:
        if not -2 ** 63 <= number < 2 ** 63:
            raise OverflowError(f'{number} has no room in 64 bits')
    return (c_int64 * count)(*given)


def no_floats(count: int) -> Array[c_double]:
    return (c_double * count)()


def no_words(count: int) -> Array[c_uint64]:
    return (c_uint64 * count)()


def book_of(book: Bytes) -> tuple[bytes, int]:
    data = book if isinstance(book, bytes) else bytes(book)
    return data, len(data)


def setting_of(setting: Setting) -> tuple[Array[c_double], Array[c_double], int, int]:
    extras = floats((setting.j, setting.a, setting.k), 3)
    return floats(setting.coefficients, 6), extras, u32(setting.dut), u64(setting.rule)


def three(values: Array[c_double], start: int = 0) -> Vector:
    return values[start], values[start + 1], values[start + 2]


def five(values: Array[c_uint64]) -> Guesses:
    return values[0], values[1], values[2], values[3], values[4]
