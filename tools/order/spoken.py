"""An injection as launch crews speak it (request R-4), converted to position and velocity by the proved call: the program ask."""
import pathlib
import subprocess

ROOT = pathlib.Path(__file__).resolve().parent.parent.parent
ASK = (str(ROOT / 'run'), 'ask')


def question(order):
    """The line for ask: rule, DUT, moment, radius, latitude, longitude, speed, path angle, azimuth."""
    radius, speed = (f'{order[key][0]:016x}' for key in ('radius', 'speed'))
    return (f"sphere {order.get('rule', 0)} {order['dut']} {order['start']} {radius} {order['latitude']} {order['longitude']} {speed} "
            f"{order['path']} {order['azimuth']}")


def converted(order, ask=ASK):
    """Position and velocity, each as three floats by their bits. A ValueError says why there are none."""
    line = question(order)
    try:
        ran = subprocess.run(ask, input=f'{line}\n'.encode(), stdout=subprocess.PIPE, check=True)
    except (OSError, subprocess.CalledProcessError) as fault:
        raise ValueError(f"the proved conversion could not be asked for: {' '.join(ask)}: {fault}") from None
    words = ran.stdout.decode().split()
    if words[:1] == ['REFUSED']:
        raise ValueError(f'the proved conversion refuses this injection: refused by {words[1]}')
    if len(words) != 7 or words[0] != str(order['start']):
        raise ValueError(f"the proved conversion answers '{' '.join(words)}' to '{line}'")
    coordinates = [int(word, 16) for word in words[1:]]
    return coordinates[:3], coordinates[3:]
