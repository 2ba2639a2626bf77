"""Parts of an SVG picture, as text: a plane with a scale, and the things that are drawn on it."""


class Frame:
    """A rectangle of the picture, and the figures at its edges."""
    def __init__(self, left, top, width, height, x, y):
        self.left, self.top, self.width, self.height = left, top, width, height
        self.x, self.y = x, y

    def at(self, x, y):
        """The place of a point of the plane; y goes up."""
        across = (x - self.x[0]) / (self.x[1] - self.x[0])
        up = (y - self.y[0]) / (self.y[1] - self.y[0])
        return self.left + across * self.width, self.top + (1 - up) * self.height


def box(frame):
    return f'<rect x="{frame.left}" y="{frame.top}" width="{frame.width}" height="{frame.height}" class="box"/>'


def line(places, style):
    """A line through places of the picture, without those less than a pixel from the last one drawn."""
    kept = [places[0]]
    for x, y in places[1:-1]:
        if abs(x - kept[-1][0]) + abs(y - kept[-1][1]) >= 1:
            kept.append((x, y))
    kept.append(places[-1])
    return f'<polyline points="{" ".join(f"{x:.1f},{y:.1f}" for x, y in kept)}" class="{style}"/>'


def disc(place, radius, style):
    return f'<circle cx="{place[0]:.1f}" cy="{place[1]:.1f}" r="{radius:.2f}" class="{style}"/>'


def text(place, words, style='', anchor='start'):
    return f'<text x="{place[0]:.1f}" y="{place[1]:.1f}" text-anchor="{anchor}" class="{style}">{words}</text>'


def axes(frame, xs, ys, y_label, x_label='hours after injection'):
    """Grid lines with their figures: `xs` along the bottom, `ys` on the left."""
    parts = [box(frame)]
    for x in xs:
        place = frame.at(x, frame.y[0])
        parts += [line([place, frame.at(x, frame.y[1])], 'grid'), text((place[0], place[1] + 16), f'{x}', 'figure', 'middle')]
    for y in ys:
        place = frame.at(frame.x[0], y)
        parts += [line([place, frame.at(frame.x[1], y)], 'grid'), text((place[0] - 6, place[1] + 4), f'{y:,}', 'figure', 'end')]
    middle = frame.left + frame.width / 2
    parts.append(text((middle, frame.top + frame.height + 34), x_label, 'figure', 'middle'))
    return parts + [text((frame.left, frame.top - 8), y_label, 'title')]
