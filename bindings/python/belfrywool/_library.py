"""Where the library is, and its functions with the types of their arguments."""
from __future__ import annotations

import ctypes
import os
import pathlib
from ctypes import POINTER, c_char_p, c_double, c_int64, c_size_t, c_uint, c_uint8, c_uint16, c_uint32, c_uint64

VERSION = '0.2.0'
CALLS = 2  # the number after libbelfrywool.so, from bindings/c/belfrywool.h
NAME = f'libbelfrywool.so.{CALLS}'

_words, _floats, _book = POINTER(c_uint64), POINTER(c_double), (c_char_p, c_size_t)
_setting = (_floats, _floats, c_uint32, c_uint64)  # coefficients, extras, DUT, rule
_pane, _run = (_words, _floats), (c_uint32, c_uint64, c_uint32, _words)
_ran = (_words, _floats, _words, POINTER(c_uint32))
_ARGUMENTS: dict[str, tuple[type, ...]] = {
    'date': (c_uint64, _words),
    'day': (c_uint64, c_uint64, c_uint64, _words),
    'twice_julian_date': (c_uint64, _words),
    'hour_angle': (c_uint64, c_uint32, _words),
    'sidereal': (c_uint64, c_uint64, c_uint32, _words),
    'root': (c_double, _floats),
    'sine_cosine': (c_uint64, _floats),
    'book_passes': _book,
    'book_holds': (*_book, *_book, _words),
    'position': (*_book, c_uint64, c_uint64, _floats),
    'repair': (*_book, POINTER(c_uint8), c_size_t, POINTER(c_uint16), _words),
    'acceleration': (*_book, _floats, c_uint32, c_uint64, _floats, _floats),
    'run': (*_book, _floats, c_uint32, c_uint64, _floats, *_run, *_ran),
    'single_step': (*_book, _floats, c_uint32, c_uint64, _floats, c_uint32, _words, *_ran),
    'earth_fixed': (c_uint64, _floats, c_uint32, _floats),
    'from_sphere': (c_uint64, c_uint64, c_uint32, _floats, POINTER(c_int64), _floats),
    'conic': (c_double, c_uint64, _floats, _words, _floats),
    'pull': (*_book, *_setting, c_uint64, c_uint64, _floats, _floats),
    'inject': (*_book, *_setting, c_uint64, c_uint64, _floats, _floats),
    'move': (*_book, *_setting, c_uint64, c_uint64, _floats, c_uint64, _floats),
    'fly': (*_book, *_setting, c_uint64, c_uint64, _floats, *_run, *_ran),
    'turn': (c_uint64, c_uint32, c_uint64, c_uint64, _floats, _floats),
    'orbit': (c_double, c_uint64, c_uint64, _floats, _words, _floats),
    'clear': _pane,
    'take': (c_uint64, c_uint64, _floats, *_pane),
    'feed': (c_uint64, c_uint64, c_uint64, _floats, *_pane),
    'frame': (*_pane, c_uint64, _floats, _words),
    'frame_motion': (*_pane, c_uint64, _floats, _words),
}


def places() -> list[str]:
    """The places of the library. If BELFRYWOOL_LIB (a file or a folder) is set, only that. Otherwise, in this order: next to the
    package, the folder lib that the package is installed under, target/library of a repository, and the library folders of the
    system."""
    given = os.environ.get('BELFRYWOOL_LIB')
    if given:
        return [os.path.join(given, NAME) if os.path.isdir(given) else given]
    here = pathlib.Path(__file__).resolve().parent
    above = list(here.parents)
    folders = [here, *above[2:3], *(place / 'target' / 'library' for place in above[2:3])]
    return [str(folder / NAME) for folder in folders if (folder / NAME).is_file()] + [NAME]


def _open() -> ctypes.CDLL:
    wrong = []
    for place in places():
        try:
            return ctypes.CDLL(place)
        except OSError as fault:
            wrong.append(str(fault))
    raise ImportError(f'{NAME} was not found ({"; ".join(wrong)}). Install it with ./install, or name its folder in BELFRYWOOL_LIB.')


library = _open()
for _name, _arguments in _ARGUMENTS.items():
    _call = getattr(library, f'belfry_{_name}')
    _call.argtypes, _call.restype = _arguments, c_uint64
library.belfry_meaning.argtypes, library.belfry_meaning.restype = (c_uint64,), c_char_p
library.belfry_version.argtypes, library.belfry_version.restype = (), c_char_p
library.belfry_environment.argtypes, library.belfry_environment.restype = (), c_uint
library.bw_length.argtypes, library.bw_length.restype = (_floats, _floats), c_uint64
