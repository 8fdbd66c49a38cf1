"""The hold in a picture: deck by deck from nose to tail, with what stands where and how full each limit is."""

from pathlib import Path

from .decks import MARGIN, SPLIT_IDENTITY, Sheet, lanes_of
from .svg import OUTLINE, Picture, fitting, text_width, wrapped
from .texts import flight_title, listed

NAME, WORDS, STEP = 11, 10, 12


# A position ----------------------------------------------------------------------------------------


def words_size(wide):
    """The size of what stands on a card."""
    return 9.5 if wide < SPLIT_IDENTITY + 6 else WORDS


def card_words(task, place, wide, offered):
    """The lines of a card beneath its name."""
    room, size = wide - 4, words_size(wide)
    going = [fitting([f"to {place.to}", place.to], room, size)] if place.to else []
    mass = fitting([f"{place.mass} kg", str(place.mass)], room, size)
    if place.container:
        identity = [place.container]
        if text_width(place.container, size) > room:
            identity = [place.container[:3], place.container[3:]]
        full = place.fullness()
        share = fitting([f"{place.container[:3]}, {full} full", f"{full} full", full], room, size)
        return [*identity, mass, share, *going]
    if place.bulk:
        return [fitting(["loose load", "bulk"], room, size), mass, *going]
    closers = task.closed_by(place)
    if closers:
        return wrapped(["by", *closers], room, size)
    if offered:
        return [
            fitting([f"{kind} to {most} kg", f"{kind} {most}", kind], room, size) for kind, most in place.kinds.items()
        ]
    return ["empty"]


def card_style(task, place, grey):
    """How a position is drawn. All of it can be told in black and white."""
    fill = "#ddd" if grey else "white"
    if place.bulk:
        return f'fill="{fill}" stroke="black" stroke-width="1.5" stroke-dasharray="2 3"'
    if place.container:
        return f'fill="{fill}" stroke="black" stroke-width="1.8"'
    return 'fill="white" stroke="#777" stroke-width="1"'


def draw_card(picture, task, place, words, box, grey):
    x, y, wide, high = box
    picture.rect(*box, card_style(task, place, grey))
    if task.closed_by(place):
        for start, end in ((y, y + high), (y + high, y)):
            picture.line(x, start, x + wide, end, 'stroke="#999" stroke-width="1"')
    picture.text(x + 2.5, y + 12, place.name, NAME, bold=True)
    for number, line in enumerate(words[: int((high - 17) / STEP)]):
        picture.text(x + 2.5, y + 24 + STEP * number, line, words_size(wide))


# A deck --------------------------------------------------------------------------------------------


def draw_compartments(picture, sheet, deck, y):
    """A bracket over each compartment. Where the next thing may stand."""
    numbers = sorted({place.compartment for place in deck.places})
    spans = [sheet.reach([it for it in deck.places if it.compartment == number]) for number in numbers]
    lanes = lanes_of(spans)
    for number, (left, right), lane in zip(numbers, spans, lanes):
        at = y + 18 * lane
        words = fitting([f"compartment {number}", f"cpt {number}", number], right - left, WORDS)
        picture.text((left + right) / 2, at + 10, words, WORDS, "middle")
        picture.shape("polyline", [(left, at + 18), (left, at + 14), (right, at + 14), (right, at + 18)], OUTLINE)
    return y + 18 * (max(lanes) + 1) + 2


def round_step(span, most):
    """A round step of which at most so many fit into the span."""
    step = 1
    while True:
        for factor in (1, 2, 5):
            if span / (step * factor) <= most:
                return step * factor
        step *= 10


def draw_scale(picture, sheet, deck, y):
    """The influences beneath a deck, with a tick for each position. Where the next thing may stand."""
    left, right = sheet.x(sheet.first), sheet.x(sheet.first + sheet.spread)
    picture.line(left, y, right, y, 'stroke="black" stroke-width="0.8"')
    for place in deck.places:
        picture.line(sheet.x(place.influence), y - 5, sheet.x(place.influence), y, 'stroke="black" stroke-width="0.8"')
    step = round_step(sheet.spread, 10)
    at = -(-sheet.first // step) * step
    while at <= sheet.first + sheet.spread:
        picture.line(sheet.x(at), y, sheet.x(at), y + 4, 'stroke="black" stroke-width="0.8"')
        picture.text(sheet.x(at), y + 13, f"{at / 100:g}", 9, "middle")
        at += step
    return y + 18


def draw_deck(picture, task, sheet, deck, y, greys, offered):
    """A deck with its compartments and its scale. Where the next thing may stand."""
    words = {place.name: card_words(task, place, sheet.width(place), offered) for place in deck.places}
    high = 22 + STEP * max(2, *(len(words[it.name]) for it in deck.places if not task.closed_by(it)), 2)
    top = draw_compartments(picture, sheet, deck, y)
    for place in deck.places:
        first, rows = deck.row_of[place.name]
        left, right = sheet.span(place)
        box = (left, top + first * (high + 4), right - left, rows * (high + 4) - 4)
        draw_card(picture, task, place, words[place.name], box, place.name in greys)
    bottom = top + deck.rows * (high + 4) - 4
    return draw_scale(picture, sheet, deck, bottom + 8)


def deck_title(deck):
    numbers = sorted({place.compartment for place in deck.places})
    title = f"Compartment{'s' * (len(numbers) > 1)} {listed(numbers)}"
    return title + (": right-hand side on top, left-hand side at the bottom" if deck.has_sides() else "")


def draw_ways(picture, sheet, deck, behind, y):
    """An arrow beneath a deck from each point to one before it on the way to the door. Where the next thing may stand.

    Pairs that lie at the same points, as a left and a right one, share an arrow."""
    places = {place.name: place for place in deck.places}
    pairs = [tuple(places[it].influence for it in pair) for pair in behind if set(pair) <= set(places)]
    pairs = [pair for pair in dict.fromkeys(pairs) if pair[0] != pair[1]]
    if not pairs:
        return y
    points = {point for pair in pairs for point in pair}
    ends = {}
    for point in points:
        # Those that go left, the nearest first; then those that go right, the farthest first. So no two cross.
        others = {pair: sum(pair) - point for pair in pairs if point in pair}
        ends[point] = sorted(others, key=lambda pair: (others[pair] > point, -others[pair]))

    def x(point, pair):
        share = (ends[point].index(pair) + 1) / (len(ends[point]) + 1)
        return sheet.x(point) + (share - 0.5) * min(sheet.card, 60)

    spans = [tuple(sorted(x(point, pair) for point in pair)) for pair in pairs]
    lanes = lanes_of(spans)
    for pair, lane in zip(pairs, lanes):
        to, start = (x(point, pair) for point in pair)
        at = y + 14 + 9 * lane
        picture.shape("polyline", [(start, y), (start, at), (to, at), (to, y + 6)], OUTLINE)
        picture.shape("polygon", [(to, y), (to + 4, y + 7), (to - 4, y + 7)], 'fill="black"')
    return y + 20 + 9 * max(lanes)


# Limits --------------------------------------------------------------------------------------------


def limit_title(task, limit):
    """The limit in few words: whole compartments by their numbers, and positions by their names."""
    if limit.reach:
        return limit.reach
    numbers = sorted({task.places[name].compartment for name in limit.names})
    inside = {place.name for place in task.places.values() if place.compartment in numbers}
    if inside == set(limit.names):
        return f"cpt {' '.join(numbers)}" if len(inside) > 1 else limit.names[0]
    if len(limit.names) > 6:
        return f"{len(limit.names)} from {limit.names[0]} to {limit.names[-1]}"
    return " ".join(limit.names)


class Bracket:
    """A limit as a bracket: from where to where, at which points its positions stand, and its label."""

    def __init__(self, task, sheet, limit):
        places = [task.places[name] for name in limit.names]
        load = task.load(limit)
        self.left, self.right = sheet.reach(places)
        self.points = sorted({sheet.x(place.influence) for place in places})
        title = limit_title(task, limit)
        self.words = [f"{title}: {load} of {limit.most} kg, room {limit.most - load}"]
        if text_width(self.words[0], WORDS) > 1.3 * (self.right - self.left):
            self.words = [title, f"{load} of {limit.most}", f"room {limit.most - load}"]
        wide = max(text_width(line, WORDS) for line in self.words)
        self.middle = (self.left + self.right) / 2
        self.middle = min(max(self.middle, MARGIN + wide / 2), sheet.wide - MARGIN - wide / 2)
        self.extent = (min(self.left, self.middle - wide / 2) - 3, max(self.right, self.middle + wide / 2) + 3)

    def draw(self, picture, y):
        picture.shape("polyline", [(self.left, y), (self.left, y + 5), (self.right, y + 5), (self.right, y)], OUTLINE)
        for x in self.points:
            picture.line(x, y + 1, x, y + 5, 'stroke="black" stroke-width="2"')
        for number, line in enumerate(self.words):
            picture.text(self.middle, y + 16 + STEP * number, line, WORDS, "middle")


def draw_brackets(picture, task, sheet, limits, y):
    """The limits as brackets, the narrow ones first, none over another. Where the next thing may stand."""
    brackets = [Bracket(task, sheet, limit) for limit in limits]
    for lines in (3, 1):
        some = [bracket for bracket in brackets if len(bracket.words) == lines]
        lanes = lanes_of([bracket.extent for bracket in some])
        for bracket, lane in zip(some, lanes):
            bracket.draw(picture, y + lane * (12 + STEP * lines))
        y += (max(lanes, default=-1) + 1) * (12 + STEP * lines)
    return y


def draw_lateral(picture, task, y):
    """The masses left and right, and their difference between its two limits. Where the next thing may stand."""
    left, right = (sum(it.mass for it in task.places.values() if it.side == side) for side in ("left", "right"))
    apart = right - left
    room = task.lateral - abs(apart)
    words = f"lateral: {right} kg right, {left} kg left, difference {apart} of at most {task.lateral} kg, room {room}"
    x, wide = MARGIN + 60, 220
    picture.text(MARGIN, y + 10, "left", WORDS)
    picture.text(x + wide + 10, y + 10, "right", WORDS)
    for edge, inner in ((x, x + 5), (x + wide, x + wide - 5)):
        picture.shape("polyline", [(inner, y), (edge, y), (edge, y + 12), (inner, y + 12)], OUTLINE)
    picture.line(x, y + 6, x + wide, y + 6, 'stroke="black" stroke-width="0.8"')
    picture.line(x + wide / 2, y + 2, x + wide / 2, y + 10)
    at = x + wide / 2 * (1 + max(-1, min(1, apart / (task.lateral or 1))))
    picture.circle(at, y + 6, 4, 'fill="black"')
    picture.text(x + wide + 50, y + 10, words, WORDS)
    return y + 26


# The hold ------------------------------------------------------------------------------------------


def draw_hold(picture, task, sheet, y, greys=(), offered=False, behind=()):
    """All decks with the limits on them, and then those over several decks. Where the next thing may stand."""
    picture.text(MARGIN, y + 10, "NOSE", NAME, bold=True)
    picture.text(sheet.wide - MARGIN, y + 10, "TAIL", NAME, "end", bold=True)
    picture.text(sheet.wide - MARGIN - 50, y + 10, "scale: index units for 1000 kg; all masses in kg", 9, "end")
    rest = list(task.limits)
    for deck in sheet.decks:
        picture.text(MARGIN + 50, y + 10, deck_title(deck), NAME)
        names = {place.name for place in deck.places}
        y = draw_deck(picture, task, sheet, deck, y + 16, greys, offered)
        y = draw_ways(picture, sheet, deck, behind, y)
        own = [limit for limit in rest if set(limit.names) <= names]
        rest = [limit for limit in rest if limit not in own]
        y = draw_brackets(picture, task, sheet, own, y + 4) + 8
    if rest:
        picture.text(MARGIN, y + 10, "Limits over the decks together", NAME)
        y = draw_brackets(picture, task, sheet, rest, y + 18) + 8
    return draw_lateral(picture, task, y) if task.lateral is not None else y


def hold_title(task, flight):
    return f"Hold of {flight_title(flight)}" if flight else f"Hold of {Path(task.name).name}"


def what_is_said(task, answer):
    """The figures of a plan, or why there is none."""
    if answer.without == "NONE":
        return "NONE: no placement of all containers keeps every limit. Something has to give: the hold is still empty."
    if answer.without == "NO PLAN YET":
        return "no plan yet: the hold is still empty."
    if answer.without:
        kind, number = answer.without.split()
        why = "partial plans are near" if kind == "BUDGET" else "looks do not decide it"
        more = "More than " if kind == "BUDGET" else ""
        return (
            f"{answer.without}: {more.lower()}{number} {why}, and the search gave up. "
            "There may be a plan or none: the hold is still empty."
        )
    said = answer.figures
    words = f"take-off index {said['index']}, {said['distance']} index units from the ideal"
    if "lateral" in said:
        words += f", lateral difference {said['lateral']} kg of at most {task.lateral} kg"
    return words


def plan_picture(task, answer, flight="", words="", greys=()):
    """The hold with what stands where. The words are said of it too."""
    picture, sheet = Picture(), Sheet(task)
    inner = sheet.wide - 2 * MARGIN
    title = hold_title(task, flight)
    y = picture.paragraph(MARGIN, 30, title, inner, 18, bold=True)
    said = what_is_said(task, answer)
    y = picture.paragraph(MARGIN, y, f"{Path(answer.name).name}: {said}", inner, 12, bold=bool(answer.without))
    if words:
        y = picture.paragraph(MARGIN, y, words, inner)
    y = draw_hold(picture, task, sheet, y + 2, greys, bool(answer.without))
    if answer.without:
        offer = ", ".join(f"{item} {mass} kg" for item, mass in task.items.items()) or "no container"
        y = picture.paragraph(MARGIN, y + 12, f"On offer: {offer}", inner, NAME)
    return picture.svg(sheet.wide, y + 8, title)


def transit_picture(task, answer, flight, stays):
    words = f"{flight}: in grey what came in and stays, with where it goes; in white what is loaded here."
    return plan_picture(task, answer, "", words, stays)
