"""use: python3 -m belfrywool ORDER BOOK

Flies an order under a book and prints a line for each hour: ephemeris time, then range in km and speed in km/s from the Earth. Then
come latitude and eastward longitude in degrees of the point below. The last line is the outcome. The exit status is 1 if the flight
does not reach its target."""
from __future__ import annotations

import pathlib
import sys

import belfrywool as bw

HOUR = 3600000
HEADING = 'time                           range km     km/s   latitude  longitude'


def time_text(moment: bw.Moment) -> str:
    year, month, day = bw.date(moment // 86400000)
    seconds, ms = divmod(moment % 86400000, 1000)
    return f'{year}-{month:02}-{day:02}T{seconds // 3600:02}:{seconds // 60 % 60:02}:{seconds % 60:02}.{ms:03}'


def line(order: bw.Order, state: bw.State) -> str:
    latitude, longitude = bw.ground_point(order.setting, state)
    return f'{time_text(state.moment)}  {bw.length(state.position):14.3f} {bw.length(state.velocity):8.4f} {latitude:10.4f} {longitude:10.4f}'


def show(order: bw.Order, book: bytes) -> int:
    """Prints the flight, as far as it goes."""
    steps, every = 0, max(1, HOUR // max(1, order.h))
    try:
        injected = bw.inject(book, order.setting, order.injection)
        print(HEADING)
        for state in bw.states(book, order.setting, injected, order.h, order.target, every):
            print(line(order, state))
            steps = (state.moment - injected.moment) // order.h
    except bw.Refusal as refusal:
        print(f'REFUSED {int(refusal.number)} {steps}: {refusal.meaning}')
        return 1
    print(f'ARRIVED {steps}')
    return 0


def content(name: str) -> bytes:
    try:
        return pathlib.Path(name).read_bytes()
    except OSError as fault:
        sys.exit(f'belfrywool: cannot read {name}: {fault.strerror}')


def main(words: list[str]) -> int:
    if words in (['-h'], ['--help']):
        print(__doc__)
        return 0
    if len(words) != 2:
        print(__doc__.split('\n\n')[0], file=sys.stderr)
        return 2
    order = bw.Order.of_bytes(content(words[0]))
    if order is None:
        sys.exit(f'belfrywool: {words[0]} is no order: an order has 120 or 144 bytes')
    return show(order, content(words[1]))


if __name__ == '__main__':
    try:
        sys.exit(main(sys.argv[1:]))
    except BrokenPipeError:
        sys.stderr.close()
        sys.exit(1)
