"""Where the positions of a hold stand in a picture: decks one above the other, each from nose to tail, true to scale.

A task names no decks. Two compartments whose ranges of influence meet cannot lie one behind the other, so they lie on
different decks: in the order of their numbers, each compartment goes to the first deck where it meets no other one.
"""

MARGIN, GAP = 16, 3
NARROW_PAGE, WIDE_PAGE, PAGE_STEP = 1040, 1400, 60
WHOLE_IDENTITY, SPLIT_IDENTITY, BULK = 74, 46, 34


class Deck:
    """Compartments behind each other, with the rows in which their positions stand: those on the right on top, those on
    the left at the bottom, as seen from above with the nose to the left."""

    def __init__(self):
        self.spans = []
        self.places = []
        self.rows = []
        self.row_of = {}

    def has_sides(self):
        return any(place.side for place in self.places)


def meet(one, other):
    return one[0] <= other[1] and other[0] <= one[1]


def span_of(places):
    return min(place.influence for place in places), max(place.influence for place in places)


def decks_of(places):
    """The decks, the one with the lowest compartment last, since it lies lowest."""
    decks = []
    for number in sorted({place.compartment for place in places}):
        own = [place for place in places if place.compartment == number]
        span = span_of(own)
        deck = next((deck for deck in decks if not any(meet(span, it) for it in deck.spans)), None)
        if deck is None:
            deck = Deck()
            decks.append(deck)
        deck.spans.append(span)
        deck.places += own
    for deck in decks:
        deck.places.sort(key=lambda place: place.influence)
    return decks[::-1]


def lanes_of(spans):
    """A lane for each span, the shorter first, so that no two in a lane meet."""
    lanes, taken = [0] * len(spans), []
    for at in sorted(range(len(spans)), key=lambda at: (spans[at][1] - spans[at][0], spans[at])):
        lane = free_row(taken, spans[at])
        if lane == len(taken):
            taken.append([])
        taken[lane].append(spans[at])
        lanes[at] = lane
    return lanes


def free_row(rows, span):
    """The first of the rows in which the span meets nothing, or the one behind the last."""
    return next((at for at, row in enumerate(rows) if not any(meet(span, it) for it in row)), len(rows))


def closest(places, most):
    """The least distance of two of the places on one side that do not stand at the same point."""
    distances = [most]
    for side in {place.side for place in places}:
        points = sorted({place.influence for place in places if place.side == side})
        distances += [right - left for left, right in zip(points, points[1:])]
    return min(distances)


class Sheet:
    """The hold on a page: how wide it is, where an influence lies, and in which rows of its deck a position stands."""

    def __init__(self, task):
        self.decks = decks_of(list(task.places.values()))
        self.first, last = span_of(task.places.values())
        self.spread = last - self.first or 1
        containers = [closest([it for it in deck.places if not it.bulk], self.spread) for deck in self.decks]
        bulks = [closest([it for it in deck.places if it.bulk], self.spread) for deck in self.decks]
        for self.wide in range(NARROW_PAGE, WIDE_PAGE + 1, PAGE_STEP):
            self.card = self.fitting(min(containers), WHOLE_IDENTITY, WHOLE_IDENTITY + 36)
            if self.card > WHOLE_IDENTITY:
                break
        else:
            self.card = self.fitting(min(containers), SPLIT_IDENTITY, WHOLE_IDENTITY)
        self.bulk_card = max(BULK, min(self.card, self.step(min(bulks), self.card) - GAP))
        for deck in self.decks:
            self.set_rows(deck)

    def step(self, distance, card):
        """How far apart two positions at this distance stand, where cards are so wide."""
        return distance * (self.wide - 2 * MARGIN - card) / self.spread

    def fitting(self, distance, least, most):
        """The widest card, within these, with which two at this distance do not meet, or the least."""
        return next((card for card in range(most, least, -1) if self.step(distance, card) >= card + GAP), least)

    def x(self, influence):
        return MARGIN + self.card / 2 + self.step(influence - self.first, self.card)

    def width(self, place):
        return self.bulk_card if place.bulk else self.card

    def span(self, place):
        middle, half = self.x(place.influence), self.width(place) / 2
        return middle - half, middle + half

    def reach(self, places):
        """From the left edge of the first to the right edge of the last."""
        spans = [self.span(place) for place in places]
        return min(left for left, _ in spans), max(right for _, right in spans)

    def set_rows(self, deck):
        """Gives each position its rows. What stands across the aircraft has all rows, unless it meets another."""
        groups = {"right": [], "": [], "left": []}
        row_of = {}
        for place in deck.places:
            span = self.span(place)
            others = [it for it in deck.places if it is not place and meet(span, self.span(it))]
            if place.side or others:
                rows = groups[place.side]
                at = free_row(rows, span)
                if at == len(rows):
                    rows.append([])
                rows[at].append(span)
                row_of[place.name] = (place.side, at)
        firsts = {"right": 0, "": len(groups["right"]), "left": len(groups["right"]) + len(groups[""])}
        deck.rows = max(1, sum(len(rows) for rows in groups.values()))
        for place in deck.places:
            side, at = row_of.get(place.name, (None, 0))
            first = 0 if side is None else firsts[side] + at
            deck.row_of[place.name] = (first, deck.rows if side is None else 1)
