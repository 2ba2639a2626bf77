#!/usr/bin/env python3
"""caller.py QUESTIONS: asks the library each question of a file through the Python package, and prints the answers."""
import struct
import sys

import belfrywool as bw

NAN = 0x7ff8000000000000
REFUSED = object()


def reals(words):
    return struct.unpack(f'<{len(words)}d', struct.pack(f'<{len(words)}Q', *words))


def bits(values):
    values = tuple(values)
    words = struct.unpack(f'<{len(values)}Q', struct.pack(f'<{len(values)}d', *values))
    return [NAN if value != value else word for value, word in zip(values, words)]


def real(word):
    return reals([word])[0]


def motion(m):
    return bits((*m.position, *m.velocity))


def setting(w):
    return bw.Setting(reals(w[:6]), *reals(w[6:9]), w[9], w[10])


def coordinates(w):
    return bw.Coordinates(w[0], w[1], reals(w[2:5]), reals(w[5:8]))


def state(w):
    return bw.State(w[0], w[1], reals(w[2:5]), reals(w[5:8]), reals(w[8:11]))


def earth_setting(w):
    return bw.EarthSetting(reals(w[:6]), w[6])


def earth(w):
    return bw.EarthCoordinates(w[0], reals(w[1:4]), reals(w[4:7]))


def run(w):
    return w[0], w[1], w[2], tuple(w[3:8])


def pane(w):
    return bw.Pane(w[:5], reals(w[5:23]))


def laid(p):
    numbers, places = p.memory
    return [*numbers, *bits(places)]


def flown(answer, told):
    return [answer.outcome, answer.state.moment, *told, *answer.guesses, answer.steps]


def earth_flown(answer):
    return flown(answer, motion(answer.state))


def whole(s):
    return [s.centre, *bits(s.nine)]


def conic(c):
    return [c.centre, c.kind, *bits((c.a, c.e, c.p, c.q, c.last))]


def byte_sum(data):
    value = 0xcbf29ce484222325
    for byte in data:
        value = (value ^ byte) * 0x100000001b3 % 2 ** 64
    return value


def repaired(book, room):
    r = bw.repair(book, room)
    changed = [int(c) for c in (r.total_changed, r.count_changed, r.order_changed, r.offsets_changed)]
    return [len(r.fates), r.kept, len(r.book), *changed, *r.fates, byte_sum(r.book)]


def held(first, second):
    missing = bw.book_holds(first, second)
    return [0] if missing is None else [bw.NOT_HELD, missing]


def cleared(w):
    p = pane(w)
    p.clear()
    return [0, *laid(p)]


def taken(w):
    p = pane(w[11:])
    try:
        p.take(state(w))
        word = 0
    except bw.Refusal as refusal:
        word = refusal.number
    return [word, *laid(p)]


def fed(w):
    p, answer = pane(w[12:]), bw.Flown(w[0], state(w[1:]), 0, bw.NO_GUESSES)
    try:
        word = 0 if p.feed(answer) else bw.UNCHANGED
    except bw.Refusal as refusal:
        word = refusal.number
    return [word, *laid(p)]


def framed(w):
    frame = pane(w[1:]).frame(w[0])
    return [frame.word, *(bits(frame.position) if frame.current else [NAN] * 3), frame.late]


def framed_motion(w):
    frame = pane(w[1:]).frame_motion(w[0])
    return [frame.word, *(motion(frame) if frame.current else [NAN] * 6), frame.late]


def signed(word):
    return word - 2 ** 64 if word >> 63 else word


def launched(w):
    latitude, longitude, path, azimuth = map(signed, w[5:9])
    return motion(bw.from_sphere(w[0], w[1], w[2], bw.Sphere(real(w[3]), latitude, longitude, real(w[4]), path, azimuth)))


# Calls whose first word is the 0 of an answer.
ANSWERS = {
    'date': lambda w, b, s: bw.date(w[0]),
    'day': lambda w, b, s: [bw.day(*w)],
    'twice': lambda w, b, s: [bw.twice_julian_date(w[0])],
    'hour': lambda w, b, s: [bw.hour_angle(*w)],
    'sidereal': lambda w, b, s: [bw.sidereal(*w)],
    'root': lambda w, b, s: bits([bw.root(real(w[0]))]),
    'sincos': lambda w, b, s: bits(bw.sine_cosine(w[0])),
    'length': lambda w, b, s: bits([bw.length(reals(w))]),
    'passes': lambda w, b, s: bw.book_passes(b) or [],
    'position': lambda w, b, s: motion(bw.position(b, w[0], w[1])),
    'repair': lambda w, b, s: repaired(b, w[0]),
    'acceleration': lambda w, b, s: bits(bw.acceleration(b, earth_setting(w), w[7], reals(w[8:11]))),
    'fixed': lambda w, b, s: motion(bw.earth_fixed(earth(w), w[7])),
    'conic': lambda w, b, s: conic(bw.conic(real(w[0]), earth(w[1:]))),
    'sphere': lambda w, b, s: launched(w),
    'inject': lambda w, b, s: bits(bw.inject(b, setting(w), coordinates(w[11:])).nine),
    'pull': lambda w, b, s: bits(bw.pull(b, setting(w), w[11], w[12], reals(w[13:16]))),
    'move': lambda w, b, s: whole(bw.move(b, setting(w), state(w[11:]), w[22])),
    'turn': lambda w, b, s: motion(bw.turn(w[0], w[1], coordinates(w[2:]))),
    'orbit': lambda w, b, s: conic(bw.orbit(real(w[0]), coordinates(w[1:]))),
}


def fly(w, book):
    answer = bw.fly(book, setting(w), state(w[11:]), *run(w[22:]))
    return flown(answer, whole(answer.state))


# Calls that return more than an answer or a refusal.
WHOLE = {
    'holds': lambda w, b, s: held(b, s),
    'run': lambda w, b, s: earth_flown(bw.run(b, earth_setting(w), earth(w[7:]), *run(w[14:]))),
    'step': lambda w, b, s: earth_flown(bw.single_step(b, earth_setting(w), earth(w[7:]), w[14], tuple(w[15:20]))),
    'fly': lambda w, b, s: fly(w, b),
    'clear': lambda w, b, s: cleared(w),
    'take': lambda w, b, s: taken(w),
    'feed': lambda w, b, s: fed(w),
    'frame': lambda w, b, s: framed(w),
    'motion': lambda w, b, s: framed_motion(w),
}


def answer(name, words, book, second):
    try:
        if name in ANSWERS:
            return [0, *ANSWERS[name](words, book, second)]
        return WHOLE[name](words, book, second)
    except bw.Refusal as refusal:
        return [refusal.number]


def main(path):
    book = second = b''
    told = []
    with open(path) as file:
        for line in file:
            name, rest = line.rstrip('\n').split(' ', 1)
            if name == 'book':
                book = bytes.fromhex(rest)
            elif name == 'second':
                second = bytes.fromhex(rest)
            else:
                told.append(' '.join(f'{int(word):x}' for word in answer(name, [int(word, 16) for word in rest.split()], book, second)))
    sys.stdout.write('\n'.join(told) + '\n')


if len(sys.argv) != 2:
    sys.exit('use: caller.py QUESTIONS')
main(sys.argv[1])
