"""The data of a flight: listings, answers of ask, and the file of JPL's figures."""
import math
import struct
import subprocess

HOUR = 3600000
STILL = ' 0000000000000000' * 3  # a turn does not read the acceleration of a state


def floats(words):
    return struct.unpack(f'>{len(words)}d', bytes.fromhex(''.join(words)))


class Flight:
    """A listing by the milliseconds after its injection: position and velocity, and the line itself."""
    def __init__(self, path):
        with open(path) as file:
            text = file.read().splitlines()
        if len(text) < 3:
            raise ValueError(f'nothing was flown: {" ".join(text)} ({path})')
        _, *lines, self.outcome = text
        words = [line.split() for line in lines]
        self.start = int(words[0][0])
        self.states = {int(moment) - self.start: floats(rest) for moment, *rest in words}
        self.lines = {int(moment) - self.start: ' '.join([moment, '1', *rest]) for moment, *rest in words}

    def range(self, after):
        return math.hypot(*self.states[after][:3])

    def speed(self, after):
        return math.hypot(*self.states[after][3:])


def asked(command, questions):
    """The answers of ask, each as floats; None for one that is refused."""
    ran = subprocess.run(command, input='\n'.join(questions) + '\n', stdout=subprocess.PIPE, text=True, check=True)
    answers = ran.stdout.splitlines()
    for question, answer in zip(questions, answers, strict=True):
        if answer == 'UNREADABLE':
            raise ValueError(f"ask answers {answer} to '{question}'")
    return [None if answer.startswith('REFUSED') else floats(answer.split()) for answer in answers]


def below(x, y, z):
    return math.degrees(math.atan2(z, math.hypot(x, y))), math.degrees(math.atan2(y, x)) % 360


def ground(command, flight, dut, times):
    """Geocentric latitude and eastward longitude of the point below the craft, in degrees, from Earth-fixed coordinates; (None, None)
    if there are none, or no command to ask."""
    if not command:
        return {after: (None, None) for after in times}
    answers = asked(command, [f'turn 0 {dut} {flight.lines[after]}{STILL}' for after in times])
    return {after: below(*answer[:3]) if answer else (None, None) for after, answer in zip(times, answers)}


def moon(command, flight, times):
    """The Moon's position from the Earth, for the times that the book covers."""
    answers = asked(command, [f'body 2 {flight.start + after}' for after in times])
    return {after: answer[:3] for after, answer in zip(times, answers) if answer}


def printed(path):
    """JPL's figures by milliseconds after injection: range, speed, latitude and longitude, None if there is none."""
    with open(path) as file:
        rows = [line.split() for line in file if not line.startswith('#')]
    return {int(hours) * HOUR: [None if word == '-' else float(word) for word in rest] for hours, *rest in rows}
