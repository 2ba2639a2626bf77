"""The refusal numbers."""
from __future__ import annotations

import enum

from ._library import library


class Number(enum.IntEnum):
    """The refusals by name."""
    BOOK = 1
    STEP = 2
    MOMENT = 3
    SETTING = 4
    TARGET = 5
    COVER = 6
    NOT_FINITE = 7
    DATE = 8
    PARABOLA = 9
    STRAIGHT_LINE = 10
    ROOT = 11
    ANGLE = 12
    LISTING = 13
    CENTRE = 14
    STORED = 15
    SHORT = 16
    LARGE = 17
    NOT_NEXT = 18


def meaning(number: int) -> str:
    """The meaning of a number that a call returned, in a plain sentence."""
    return library.belfry_meaning(number).decode() if 0 <= number < 2 ** 64 else 'no call returns this number'


class Refusal(Exception):
    """A call refused to answer. `number` says why; compare it with `Number`."""

    def __init__(self, number: int):
        super().__init__(number)
        self.number = Number(number)

    @property
    def meaning(self) -> str:
        return meaning(self.number)

    def __str__(self) -> str:
        return f'refusal {int(self.number)}: {self.meaning}'


def accepted(number: int) -> None:
    """Raises the refusal of a number that is not 0."""
    if number:
        raise Refusal(number)
