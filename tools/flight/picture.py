"""The picture of a flight: its path with Earth and Moon, and range and speed over time."""
from drawing import Frame, axes, box, disc, line, text
from scale import CHECK_CASE, whole

WIDTH, HEIGHT = 920, 872
TALLEST = 560  # of the picture of the path
EARTH, MOON = 6378.165, 1738.09  # radii in km: document 02's A, and document 000's Moon
STYLE = """
text { font-family: 'DejaVu Sans', Verdana, sans-serif; font-size: 13px; fill: #222 }
.figure { font-size: 12px; fill: #555 } .title { font-weight: bold } .moon { fill: #777 }
.box { fill: #fff; stroke: #bbb } .grid { fill: none; stroke: #e4e4e4 } .bar { fill: none; stroke: #222; stroke-width: 2 }
.craft { fill: none; stroke: #1f5fa8; stroke-width: 2 } .orbit { fill: none; stroke: #999; stroke-width: 1.5; stroke-dasharray: 5 4 }
.earth { fill: #2e8b57 } .body { fill: #777 } .early { fill: #fff; stroke: #777 } .mark { fill: #1f5fa8 }
.jpl { fill: none; stroke: #d2601a; stroke-width: 2 }
"""


def plane(flight, moons, view):
    """A frame as wide as the picture, to scale, around everything that is drawn."""
    points = [state[:2] for state in flight.states.values()] + [place[:2] for place in moons.values()] + view.points
    low, high = ([edge(point[i] for point in points) for i in (0, 1)] for edge in (min, max))
    edge, width = view.edge, WIDTH - 40
    across, up = high[0] - low[0] + 2 * edge, high[1] - low[1] + 2 * edge
    wider = max(0, up * width / TALLEST - across) / 2  # a tall flight gets room on both sides
    height = round(width * up / (across + 2 * wider))
    return Frame(20, 44, width, height, (low[0] - edge - wider, high[0] + edge + wider), (low[1] - edge, high[1] + edge))


def count(time, unit):
    """A time in its unit, with two decimals at most."""
    return whole(round(time / unit, 2))


def moon_path(frame, moons, view, pixel):
    """The path of the Moon, and its position at both ends."""
    first, last = min(moons), max(moons)
    then, now = frame.at(*moons[first][:2]), frame.at(*moons[last][:2])
    unit, _, short = view.unit
    return [line([frame.at(*place[:2]) for place in moons.values()], 'orbit')], [
        disc(then, MOON * pixel, 'early'), disc(now, MOON * pixel, 'body')], [
        text((then[0] + 12, then[1] + 4), 'Moon at injection', 'moon'),
        text((now[0] + 4, now[1] + 24), f'Moon after {count(last, unit)} {short}', 'moon')]


def path(flight, moons, view):
    """The plane of the 1950.0 equator, seen from the north: Earth, Moon and craft, all to one scale."""
    frame = plane(flight, moons, view)
    pixel = frame.width / (frame.x[1] - frame.x[0])
    earth = frame.at(0, 0)
    way, discs, names = moon_path(frame, moons, view, pixel) if moons else ([], [], [])
    below = min(earth[1] + max(30, EARTH * pixel + 16), frame.top + frame.height - 6)
    parts = [box(frame), *way, line([frame.at(*state[:2]) for state in flight.states.values()], 'craft'),
             disc(earth, EARTH * pixel, 'earth'), *discs, text((earth[0], below), 'Earth', '', 'middle'), *names]
    unit, _, short = view.unit
    for after in view.marks:
        if after in flight.states:
            place = frame.at(*flight.states[after][:2])
            parts += [disc(place, 3, 'mark'), text((place[0], place[1] - 10), f'{count(after, unit)} {short}', 'figure', 'middle')]
    right, low = frame.left + frame.width - 20, frame.top + frame.height - 20
    parts.append(line([(right - view.bar * pixel, low), (right, low)], 'bar'))
    parts.append(text((right, low - 8), f'{view.bar:,.0f} km', 'figure', 'end'))
    return parts + [text((frame.left, frame.top - 10), view.title, 'title')], frame.top + frame.height


def curve(frame, flight, figure, unit, style='craft'):
    return line([frame.at(after / unit, figure(after)) for after in flight.states], style)


def picture(flight, moons, jpl, view=CHECK_CASE):
    """The whole picture as SVG text. `jpl` has JPL's figures for comparison, if there are any."""
    parts, low = path(flight, moons, view)
    (unit, name, _), times, top = view.unit, (0, view.end), low + 44
    height, label = HEIGHT - top - 50, f'{name} after injection'
    distance = Frame(78, top, 360, height, times, (0, view.distances[1]))
    speed = Frame(520, top, 380, height, times, (0, view.speeds[1]))
    parts += axes(distance, view.times, view.distances[0], 'Range from the Earth, km', label)
    parts.append(curve(distance, flight, flight.range, unit))
    parts += [disc(distance.at(after / unit, figures[0]), 4, 'jpl') for after, figures in jpl.items()]
    if jpl:
        key = (distance.left + 214, top + height - 18)
        parts += [disc(key, 4, 'jpl'), text((key[0] + 10, key[1] + 4), "JPL's figures", 'figure')]
    parts += axes(speed, view.times, view.speeds[0], 'Speed from the Earth, km/s', label)
    parts.append(curve(speed, flight, flight.speed, unit))
    parts += [disc(speed.at(after / unit, figures[1]), 4, 'jpl') for after, figures in jpl.items() if figures[1] is not None]
    head = f'<svg xmlns="http://www.w3.org/2000/svg" width="{WIDTH}" height="{HEIGHT}" viewBox="0 0 {WIDTH} {HEIGHT}">'
    ground = f'<rect width="{WIDTH}" height="{HEIGHT}" fill="#fafaf7"/>'
    return '\n'.join([head, f'<style>{STYLE}</style>', ground, *parts, '</svg>']) + '\n'
