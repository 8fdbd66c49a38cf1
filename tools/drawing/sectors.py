"""A flight with stops in a picture: its hold on each sector, with what leaves, and what is behind what."""

from pathlib import Path

from .decks import MARGIN, Sheet
from .hold import draw_hold
from .svg import Picture
from .texts import Unfit, listed


def sector_lines(flight, figures, number):
    """What is said of a sector above its hold, and the containers that leave at its end while others stay."""
    ideal = f", {figures['distance']} index units from the ideal" if number == 1 else ""
    lines = [f"take-off index {figures['index' if number == 1 else f'sector {number}']}{ideal}"]
    leaving = [item for item, last in flight.leaves.items() if last == number < len(flight.sectors)]
    if leaving:
        lines.append(f"{listed(leaving)} leave{'s' * (len(leaving) == 1)} at its end")
    return lines, leaving


def sectors_picture(flight, answer):
    for number in range(2, len(flight.sectors) + 1):
        if f"sector {number}" not in answer.figures:
            raise Unfit(f"{answer.name} has no index of sector {number} of {flight.name}.")
    picture, wide = Picture(), Sheet(flight.sectors[0]).wide
    inner = wide - 2 * MARGIN
    title = f"Hold of {Path(flight.name).name}"
    picture.text(MARGIN, 30, title, 18, bold=True)
    words = f"{Path(answer.name).name}: in grey what leaves at the end of a sector."
    if flight.behind:
        words += " An arrow leads from a position to one before it on the way to the door."
    y = picture.paragraph(MARGIN, 52, words, inner)
    for number, task in enumerate(flight.sectors, 1):
        lines, leaving = sector_lines(flight, answer.figures, number)
        y += 8
        picture.text(MARGIN, y, f"Sector {number}", 14, bold=True)
        y += 16
        for line in lines:
            y = picture.paragraph(MARGIN, y, line, inner)
        greys = [place.name for place in task.places.values() if place.container in leaving]
        y = draw_hold(picture, task, Sheet(task), y, greys, behind=flight.behind) + 8
    return picture.svg(wide, y, title)
