"""The balance of a flight in a picture: the three envelopes with the three points of a loadsheet."""

import math
import re
import tomllib

from .hold import round_step
from .svg import OUTLINE, Picture, text_width
from .texts import Unfit, decimal, read_text, whole

POINTS = (
    ("zero_fuel", "ZERO FUEL", "LIZFW", "MACZFW"),
    ("take_off", "TAKE OFF", "LITOW", "MACTOW"),
    ("landing", "LANDING", "LILAW", "MACLAW"),
)
KINDS = tuple(kind for kind, *_ in POINTS)


class Aircraft:
    """What the chart needs of an aircraft's file."""

    def __init__(self, name):
        try:
            text = tomllib.loads(read_text(name))
        except tomllib.TOMLDecodeError as error:
            raise Unfit(f"{name} is no TOML document.") from error
        try:
            self.registration = text["registration"]
            self.corners = {
                kind: [
                    [(int(mass), float(index)) for mass, index in text["envelope"][kind][side]]
                    for side in ("forward", "aft")
                ]
                for kind in KINDS
            }
            self.band = (float(text["trim"]["low"]), float(text["trim"]["high"]))
            self.chord = {key: float(text["chord"][key]) for key in ("k", "c", "reference", "lemac", "mac")}
            self.certified = {kind: int(text["limits"][kind]) for kind in KINDS}
            self.fuel = [(int(mass), float(index)) for mass, index in text["fuel"]["rows"]]
        except (KeyError, TypeError, ValueError) as error:
            raise Unfit(f"{name} is no aircraft file: it lacks what the chart needs ({error}).") from error


class Point:
    """A mass with its index, its percent MAC and its greatest mass, as a loadsheet has them."""

    def __init__(self, mass, most, index, percent):
        self.mass = mass
        self.most = most
        self.index = index
        self.percent = percent


def read_loadsheet(name):
    """The heading of a loadsheet, its edition and its three points."""
    lines = read_text(name).splitlines()
    if len(lines) < 4 or lines[0] != "LOADSHEET" or lines[-1] != "END":
        raise Unfit(f"{name} is no loadsheet: it does not begin with LOADSHEET and end with END.")
    masses, figures = {}, {}
    for line in lines:
        words = line.split()
        for _, title, *_ in POINTS:
            found = re.fullmatch(rf"{title} WEIGHT (\S+) MAX (\S+)( L)?", line)
            if found:
                masses[title] = [whole(word, name, line) for word in found.groups()[:2]]
        if words and (words[0] == "DOI" or words[0].startswith("MAC")):
            figures |= {key: decimal(value, name, line) for key, value in zip(words[::2], words[1::2])}
    try:
        points = {kind: Point(*masses[title], figures[index], figures[mac]) for kind, title, index, mac in POINTS}
    except KeyError as error:
        raise Unfit(f"{name} is no loadsheet: it has no {error.args[0]}.") from error
    return lines[1], lines[2].split()[-1], points


def between(rows, at):
    """What a table of points says at a value, in a straight line from one to the next, and the same beyond its ends."""
    if at <= rows[0][0]:
        return rows[0][1]
    for (low, first), (high, last) in zip(rows, rows[1:]):
        if at <= high:
            return first + (last - first) * (at - low) / (high - low)
    return rows[-1][1]


def fuel_path(aircraft, points):
    """The masses and indices from take-off to landing, as the fuel is burnt."""
    empty = points["zero_fuel"].mass
    start, end = (points[kind].mass - empty for kind in ("take_off", "landing"))
    offset = points["take_off"].index - between(aircraft.fuel, start)
    stages = [start, *(mass for mass, _ in aircraft.fuel[::-1] if end < mass < start), end]
    return [(empty + fuel, offset + between(aircraft.fuel, fuel)) for fuel in stages]


def nearest_limits(aircraft, kind, point):
    """How far a point is from the nearest greatest mass and from the nearest end of its envelope, in words."""
    word = "regulated" if point.most < aircraft.certified[kind] else "certified"
    room = min(point.most, aircraft.certified[kind]) - point.mass
    mass = f"{abs(room)} kg {'below' if room >= 0 else 'above'} the {word} mass"
    forward, aft = (between(side, point.mass) for side in aircraft.corners[kind])
    inside, end = min((point.index - forward, "forward"), (aft - point.index, "aft"))
    where = "inside" if inside >= 0 else "outside"
    return f"{mass}, {abs(inside):.2f} index units {where} the {end} limit"


class Chart:
    """Where masses and indices lie in the picture."""

    left, top, width, height = 90, 92, 700, 560

    def __init__(self, masses, indices):
        self.low_mass, self.high_mass = masses
        self.low, self.high = indices

    def x(self, index):
        return self.left + self.width * (index - self.low) / (self.high - self.low)

    def y(self, mass):
        return self.top + self.height * (self.high_mass - mass) / (self.high_mass - self.low_mass)

    def at(self, mass, index):
        return self.x(index), self.y(mass)


def chart_of(aircraft, points, name):
    """The chart with room for all that is drawn. A point far outside has no place in it."""
    ends = [corner for sides in aircraft.corners.values() for side in sides for corner in side]
    masses, indices = [mass for mass, _ in ends], [index for _, index in ends] + list(aircraft.band)
    tall, wide = max(masses) - min(masses) or 1, max(indices) - min(indices) or 1
    for kind, point in points.items():
        if not (min(masses) - tall / 2 <= point.mass <= max(masses) + tall / 2
                and min(indices) - wide / 2 <= point.index <= max(indices) + wide / 2):
            what = f"the {kind.replace('_', '-')} point, {point.mass} kg at {point.index:.2f}"
            raise Unfit(f"{name}: {what}, lies far outside of the envelopes.")
    masses += [point.mass for point in points.values()]
    indices += [point.index for point in points.values()]
    return Chart(
        (min(masses) - 0.04 * tall, max(masses) + 0.04 * tall),
        (min(indices) - 0.06 * wide, max(indices) + 0.06 * wide),
    )


def draw_axes(picture, chart):
    picture.rect(chart.left, chart.top, chart.width, chart.height, OUTLINE)
    step = round_step(chart.high_mass - chart.low_mass, 10)
    mass = -int(-chart.low_mass // step) * step
    while mass <= chart.high_mass:
        picture.line(chart.left - 6, chart.y(mass), chart.left, chart.y(mass), 'stroke="black"')
        picture.text(chart.left - 10, chart.y(mass) + 4, f"{mass:g}", 11, "end")
        mass += step
    step = round_step(chart.high - chart.low, 12)
    index = -int(-chart.low // step) * step
    bottom = chart.top + chart.height
    while index <= chart.high:
        picture.line(chart.x(index), bottom, chart.x(index), bottom + 6, 'stroke="black"')
        picture.text(chart.x(index), bottom + 20, f"{index:g}", 11, "middle")
        index += step
    picture.text(chart.left + chart.width / 2, bottom + 42, "index, in index units; aft is to the right", 12, "middle")
    picture.text(chart.left - 66, chart.top - 12, "mass, kg", 12)


def index_of(chord, percent, mass):
    """The index at which a mass has its centre of gravity at this percent of the mean aerodynamic chord."""
    moment = mass * (percent * chord["mac"] / 100 - (chord["reference"] - chord["lemac"])) / 1000
    return chord["k"] + moment / chord["c"]


def draw_chord_lines(picture, chart, chord):
    """Lines of equal percent of the mean aerodynamic chord, named where they leave the chart at the top."""
    percents = [
        100 * ((index - chord["k"]) * chord["c"] * 1000 / chart.high_mass + chord["reference"] - chord["lemac"])
        / chord["mac"]
        for index in (chart.low, chart.high)
    ]
    step = round_step(percents[1] - percents[0], 12)
    percent = -int(-percents[0] // step) * step
    while percent <= percents[1]:
        ends = [(mass, index_of(chord, percent, mass)) for mass in (chart.high_mass, chart.low_mass)]
        style = 'stroke="#aaa" stroke-width="0.8" clip-path="url(#chart)"'
        picture.line(*chart.at(*ends[0]), *chart.at(*ends[1]), style)
        picture.text(chart.x(ends[0][1]), chart.top - 6, f"{percent:g}", 10, "middle")
        percent += step
    picture.text(chart.left + chart.width, chart.top - 24, "percent MAC", 11, "end")


STYLES = {
    "zero_fuel": ('stroke="black" stroke-width="1.6" stroke-dasharray="2 4"', "zero-fuel"),
    "take_off": ('stroke="black" stroke-width="2.2"', "take-off"),
    "landing": ('stroke="black" stroke-width="1.6" stroke-dasharray="10 5"', "landing"),
}


BAND = 'fill="#ddd" stroke="#999"'
FUEL = 'fill="none" stroke="black" stroke-width="1.4" stroke-dasharray="1 3"'


def draw_mark(picture, kind, x, y):
    style = 'fill="white" stroke="black" stroke-width="2"'
    if kind == "zero_fuel":
        picture.circle(x, y, 6, style)
    elif kind == "take_off":
        picture.shape("polygon", [(x - 6, y - 6), (x + 6, y - 6), (x + 6, y + 6), (x - 6, y + 6)], style)
    else:
        picture.shape("polygon", [(x, y - 7), (x + 7, y + 5), (x - 7, y + 5)], style)
    picture.circle(x, y, 1.5, 'fill="black"')


def draw_masses(picture, chart, aircraft, points):
    """The certified and the regulated masses as lines across the chart, named on its right."""
    named = {}
    for kind, point in points.items():
        words = STYLES[kind][1]
        if point.most == aircraft.certified[kind]:
            named.setdefault(point.most, []).append(f"{words}, certified")
        else:
            named.setdefault(aircraft.certified[kind], []).append(f"{words}, certified")
            named.setdefault(point.most, []).append(f"{words}, regulated")
    right, lowest = chart.left + chart.width, 0
    for mass in sorted(named, reverse=True):
        if chart.low_mass <= mass <= chart.high_mass:
            y = chart.y(mass)
            picture.line(chart.left, y, right, y, 'stroke="black" stroke-width="0.8" stroke-dasharray="12 3 2 3"')
            for words in named[mass]:
                lowest = max(y + 4, lowest + 14)
                picture.line(right, y, right + 14, lowest - 4, 'stroke="black" stroke-width="0.6"')
                picture.text(right + 17, lowest, f"{mass} kg: {words}", 11)


def draw_fuel(picture, chart, path):
    """The path from take-off to landing, with an arrow halfway."""
    at = [chart.at(*stage) for stage in path]
    picture.shape("polyline", at, FUEL)
    (x1, y1), (x2, y2) = at[0], at[1]
    x, y, long = (x1 + x2) / 2, (y1 + y2) / 2, math.hypot(x2 - x1, y2 - y1)
    if long:
        u, v = (x2 - x1) / long, (y2 - y1) / long
        tip = [(x + 6 * u, y + 6 * v), (x - 5 * u - 4 * v, y - 5 * v + 4 * u), (x - 5 * u + 4 * v, y - 5 * v - 4 * u)]
        picture.shape("polygon", tip, 'fill="black"')


def apart(one, other):
    return one[2] <= other[0] or other[2] <= one[0] or one[3] <= other[1] or other[3] <= one[1]


def draw_percents(picture, chart, points):
    """The percent MAC beside each point, on white, none over another."""
    marks = [chart.at(point.mass, point.index) for point in points.values()]
    taken = [(x - 9, y - 9, x + 9, y + 9) for x, y in marks]
    for (kind, point), (x, y) in zip(points.items(), marks):
        words = f"{STYLES[kind][1]} {point.percent:.2f} % MAC"
        wide = text_width(words, 11) + 6
        tried = [(left, y + up) for up in (-8, -27, 11, -46, 30) for left in (x + 12, x - 12 - wide)]
        boxes = [(left, top, left + wide, top + 16) for left, top in tried]
        box = next((it for it in boxes if all(apart(it, other) for other in taken)), boxes[0])
        taken.append(box)
        picture.rect(box[0], box[1], wide, 16, 'fill="white"')
        picture.text(box[0] + 3, box[1] + 12, words, 11)


def draw_key(picture, chart, aircraft, points):
    """What each line and each mark stands for, with the figures of the points and their nearest limits."""
    y = chart.top + chart.height + 72
    for kind, point in points.items():
        style, words = STYLES[kind]
        picture.line(chart.left - 66, y - 4, chart.left - 16, y - 4, style)
        draw_mark(picture, kind, chart.left + 4, y - 4)
        said = f"{words}: {point.mass} kg at index {point.index:.2f}, {point.percent:.2f} % MAC; "
        picture.text(chart.left + 20, y, said + nearest_limits(aircraft, kind, point), 11)
        y += 24
    picture.rect(chart.left - 66, y - 13, 50, 14, BAND)
    picture.text(chart.left + 20, y, "ideal band of the take-off index", 11)
    picture.line(chart.left + 270, y - 4, chart.left + 320, y - 4, FUEL)
    picture.text(chart.left + 330, y, "fuel burnt from take-off to landing", 11)


def balance_picture(aircraft_name, loadsheet):
    aircraft = Aircraft(aircraft_name)
    heading, edition, points = read_loadsheet(loadsheet)
    if f".{aircraft.registration}." not in heading:
        raise Unfit(f"{loadsheet} is of another aircraft than {aircraft_name}, which is {aircraft.registration}.")
    chart = chart_of(aircraft, points, loadsheet)
    picture = Picture()
    picture.parts.append(
        f'<clipPath id="chart"><rect x="{chart.left}" y="{chart.top}" width="{chart.width}" height="{chart.height}"/>'
        "</clipPath>"
    )
    picture.text(chart.left, 34, f"Balance of {heading}, edition {edition}", 18, bold=True)
    left, right = (chart.x(index) for index in aircraft.band)
    bottom = chart.top + chart.height
    picture.shape("polygon", [(left, chart.top), (right, chart.top), (right, bottom), (left, bottom)], BAND)
    draw_chord_lines(picture, chart, aircraft.chord)
    draw_axes(picture, chart)
    draw_masses(picture, chart, aircraft, points)
    for kind, sides in aircraft.corners.items():
        outline = [chart.at(*corner) for corner in sides[0] + sides[1][::-1]]
        picture.shape("polygon", outline, f'fill="none" {STYLES[kind][0]}')
    draw_fuel(picture, chart, fuel_path(aircraft, points))
    draw_percents(picture, chart, points)
    for kind, point in points.items():
        draw_mark(picture, kind, *chart.at(point.mass, point.index))
    draw_key(picture, chart, aircraft, points)
    return picture.svg(1010, bottom + 164, f"Balance of {heading}")
