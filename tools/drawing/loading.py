"""The loading instruction of a plan: a table in the order of loading, with boxes to sign, as a picture or plain text.

The order: the lower deck first; on a deck the compartments from nose to tail, so that the aircraft does not tip onto
its tail; and in a compartment first what has the greatest influence to either side, so what stands farthest from the
middle of the aircraft. That is right where the door is at the end towards the middle, as the task names no doors.
"""

from pathlib import Path

from .decks import decks_of
from .svg import OUTLINE, Picture
from .texts import flight_title

COLUMNS = ("no", "position", "load", "kind", "kg", "to", "loaded", "locked")
LEFTS = (28, 66, 140, 270, 330, 400, 470, 610)
RIGHT, ROW = 766, 19


class Section:
    """The loads of a compartment in the order of loading, and its empty positions."""

    def __init__(self, title, places, stays):
        self.title = title
        self.places = [place for place in places if place.mass or place.container]
        self.empty = [place.name for place in places if not (place.mass or place.container)]
        self.stays = stays

    def mass(self):
        return sum(place.mass for place in self.places)

    def rows(self, number):
        """The words of each line, numbered from here on. What stays aboard has no number and no boxes."""
        for place in self.places:
            stays = place.name in self.stays
            if not stays:
                number += 1
            load, kind = (place.container, place.container[:3]) if place.container else ("loose load", "-")
            yield ("-" if stays else str(number), place.name, load, kind, str(place.mass), place.to or "-"), stays

    def count(self):
        return sum(place.name not in self.stays for place in self.places)


def sections(task, stays):
    """The compartments in the order of loading."""
    order = {name: at for at, name in enumerate(task.places)}
    decks = decks_of(list(task.places.values()))[::-1]
    found = []
    for number, deck in enumerate(decks, 1):
        by_compartment = {}
        for place in deck.places:
            by_compartment.setdefault(place.compartment, []).append(place)
        for compartment, places in by_compartment.items():
            places.sort(key=lambda place: (-abs(place.influence), order[place.name]))
            where = f"deck {number}, compartment {compartment}" if len(decks) > 1 else f"compartment {compartment}"
            found.append(Section(where[0].upper() + where[1:], places, stays))
    return found


class Instruction:
    """What a loading instruction says, for both forms."""

    def __init__(self, task, answer, flight, stays):
        self.title = f"Loading instruction: {flight_title(flight) if flight else Path(task.name).name}"
        self.source = f"{Path(answer.name).name}, take-off index {answer.figures['index']}"
        self.sections = sections(task, stays)
        places = [place for place in task.places.values() if place.name not in stays]
        containers = [place for place in places if place.container]
        loose = sum(place.mass for place in places if place.bulk)
        mass = sum(place.mass for place in containers)
        counted = f"{len(containers)} container{'s' * (len(containers) != 1)}"
        self.total = f"To load: {counted} with {mass} kg, {loose} kg loose, {mass + loose} kg in all"
        if stays:
            self.total += f"; {sum(task.places[name].mass for name in stays)} kg stay aboard"

    def numbered(self):
        """The sections with the number of loads before each."""
        number = 0
        for section in self.sections:
            yield section, number
            number += section.count()


SIGNED = ("loaded by", "checked by", "time")


def loading_text(task, answer, flight="", stays=()):
    instruction = Instruction(task, answer, flight, stays)
    form = "{:>3}  {:<8}  {:<10}  {:<4}  {:>5}  {:<3}  {:<6}  {:<6}"
    lines = [instruction.title, instruction.source, "", form.format(*COLUMNS)]
    for section, number in instruction.numbered():
        lines += ["", f"{section.title}: {section.mass()} kg"]
        for words, stay in section.rows(number):
            lines.append(form.format(*words, *(("stays", "") if stay else ("[    ]", "[    ]"))).rstrip())
        if section.empty:
            lines.append("     empty: " + " ".join(section.empty))
    lines += ["", instruction.total, "", "   ".join(f"{words} {'_' * 14}" for words in SIGNED)]
    return "\n".join(lines) + "\n"


def draw_row(picture, words, stays, y):
    """A line of the table, ruled, with a box for each signature."""
    for left, word in zip(LEFTS, words):
        picture.text(left, y, word, 11, bold=left == LEFTS[1])
    if stays:
        picture.text(LEFTS[6], y, "stays aboard", 11)
    else:
        picture.rect(LEFTS[6], y - 13, LEFTS[7] - LEFTS[6] - 10, ROW - 3)
        picture.rect(LEFTS[7], y - 13, RIGHT - LEFTS[7], ROW - 3)
    picture.line(LEFTS[0], y + 5, LEFTS[6] - 8, y + 5, 'stroke="#999" stroke-width="0.6"')


def draw_section(picture, section, number, y):
    """A compartment with its lines. Where the next thing may stand."""
    picture.text(LEFTS[0], y, f"{section.title}: {section.mass()} kg", 12, bold=True)
    picture.line(LEFTS[0], y + 5, RIGHT, y + 5, 'stroke="black" stroke-width="1.2"')
    y += ROW + 2
    for words, stays in section.rows(number):
        draw_row(picture, words, stays, y)
        y += ROW
    if section.empty:
        y = picture.paragraph(LEFTS[1], y, "empty: " + " ".join(section.empty), RIGHT - LEFTS[1], 11)
    return y + 8


def loading_picture(task, answer, flight="", stays=()):
    instruction, picture = Instruction(task, answer, flight, stays), Picture()
    y = picture.paragraph(LEFTS[0], 36, instruction.title, RIGHT - LEFTS[0], 18, bold=True)
    y = picture.paragraph(LEFTS[0], y, instruction.source, RIGHT - LEFTS[0]) + 6
    for left, words in zip(LEFTS, COLUMNS):
        picture.text(left, y, words, 10)
    y += 22
    for section, number in instruction.numbered():
        y = draw_section(picture, section, number, y)
    y = picture.paragraph(LEFTS[0], y + 8, instruction.total, RIGHT - LEFTS[0], 12, bold=True) + 6
    for words, left, right in zip(SIGNED, (28, 290, 552), (280, 542, 766)):
        picture.rect(left, y - 12, right - left, 40, OUTLINE)
        picture.text(left + 5, y, words, 10)
    return picture.svg(794, y + 44, instruction.title)
