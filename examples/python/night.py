"""night.py ORDER BOOK FULLER: the Moon's record ends at 02:10, and at 02:13 a fuller book comes. Two frames for each minute."""
import pathlib
import sys

import belfrywool as bw

MINUTE = 60000
TWO = bw.Moment(411357600000)  # 1963-01-14T02:00


def show(pane, moment):
    second = moment // 1000 % 86400
    time, frame = f'{second // 3600:02}:{second // 60 % 60:02}:{second % 60:02}', pane.frame(moment)
    if frame.current:
        print(f'{time} {bw.length(frame.position):10.1f} km')
    else:
        print(f'{time}        --- km  {bw.meaning(frame.word)}')


def night(text, book, fuller):
    order, pane, guesses = bw.Order.of_bytes(text), bw.Pane(), bw.NO_GUESSES
    if order is None or not bw.environment().is_as_proved:
        sys.exit('night: no order, or the floating-point environment is not that of the proofs')
    state = bw.inject(book, order.setting, order.injection)
    for target in range(TWO, order.target + 1, MINUTE):
        flown = bw.fly(book, order.setting, state, order.h, target, 1000, guesses)
        state, guesses = flown.state, flown.guesses
        if not pane.feed(flown):
            print(f'         {bw.meaning(flown.outcome)}')
        show(pane, target - MINUTE // 2)
        show(pane, target)
        if target == TWO + 13 * MINUTE and bw.book_holds(book, fuller) is None:
            book = fuller


if len(sys.argv) != 4:
    sys.exit('use: night.py ORDER BOOK FULLER')
night(*(pathlib.Path(name).read_bytes() for name in sys.argv[1:]))
