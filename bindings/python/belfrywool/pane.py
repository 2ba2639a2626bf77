"""The live pane: the last two states reached, and what it shows at a moment."""
from __future__ import annotations

from collections.abc import Sequence
from ctypes import byref, c_uint64
from dataclasses import dataclass
from typing import Optional

from . import _arrays as mem
from ._library import library
from .refusal import accepted
from .values import UNCHANGED, Flown, Moment, State, Vector


@dataclass(frozen=True)
class Frame:
    """What a pane shows: `word` is 0 (current), LATE, EMPTY or refusal 7. `position` (km from the centre) and `velocity` (km/s) are
    None unless the frame is current. `late` is in milliseconds, and 0 unless it is late."""
    word: int
    position: Optional[Vector]
    velocity: Optional[Vector]
    late: int

    @property
    def current(self) -> bool:
        return self.word == 0


class Pane:
    """The last two states reached. A new one is empty."""

    def __init__(self, numbers: Sequence[int] = (0,) * 5, places: Sequence[float] = (0.0,) * 18):
        """Any memory is a pane. numbers: the number of states, then moment and centre of the older and of the newer. places: the nine
        coordinates of both."""
        self._numbers, self._places = mem.words(numbers, 5), mem.floats(places, 18)

    @property
    def memory(self) -> tuple[tuple[int, ...], tuple[float, ...]]:
        return tuple(self._numbers), tuple(self._places)

    def clear(self) -> None:
        """Makes it empty: it then takes a state about any centre."""
        accepted(library.belfry_clear(self._numbers, self._places))

    def take(self, state: State) -> None:
        """Takes a state, if its centre is that of the newer one and its moment is later. Refusals: 18."""
        accepted(library.belfry_take(mem.u64(state.moment), mem.u64(state.centre), mem.floats(state.nine, 9), self._numbers, self._places))

    def feed(self, flown: Flown) -> bool:
        """Takes the state of a run's answer. False if the run was refused: then the pane is unchanged. Refusals: 18."""
        state = flown.state
        number = library.belfry_feed(mem.u64(flown.outcome), mem.u64(state.moment), mem.u64(state.centre), mem.floats(state.nine, 9),
                                     self._numbers, self._places)
        if number == UNCHANGED:
            return False
        accepted(number)
        return True

    def frame(self, moment: Moment) -> Frame:
        """The position at a moment, by the cubic through both states. The frame has no velocity."""
        out, late = mem.no_floats(3), c_uint64()
        word = library.belfry_frame(self._numbers, self._places, mem.u64(moment), out, byref(late))
        return Frame(word, None if word else mem.three(out), None, late.value)

    def frame_motion(self, moment: Moment) -> Frame:
        """Position and velocity at a moment, by the same cubic."""
        out, late = mem.no_floats(6), c_uint64()
        word = library.belfry_frame_motion(self._numbers, self._places, mem.u64(moment), out, byref(late))
        return Frame(word, None if word else mem.three(out), None if word else mem.three(out, 3), late.value)
