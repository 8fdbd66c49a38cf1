"""The parts of an SVG, and how wide a text is in it."""

from html import escape

FONT = "DejaVu Sans, Verdana, sans-serif"
OUTLINE = 'fill="none" stroke="black" stroke-width="1"'

# How wide the characters from the space to the tilde are, in thousandths of the size of the font.
REGULAR = (
    318, 401, 460, 838, 636, 950, 780, 275, 390, 390, 500, 838, 318, 361, 318, 337, 636, 636, 636, 636, 636, 636, 636,
    636, 636, 636, 337, 337, 838, 838, 838, 531, 1000, 684, 686, 698, 770, 632, 575, 775, 752, 295, 295, 656, 557, 863,
    748, 787, 603, 787, 695, 635, 611, 732, 684, 989, 685, 611, 685, 390, 337, 390, 838, 500, 500, 613, 635, 550, 635,
    615, 352, 635, 634, 278, 278, 579, 278, 974, 634, 612, 635, 635, 411, 521, 392, 634, 592, 818, 592, 592, 525, 636,
    337, 636, 838,
)
BOLD = (
    348, 456, 521, 838, 696, 1002, 872, 306, 457, 457, 523, 838, 380, 415, 380, 365, 696, 696, 696, 696, 696, 696, 696,
    696, 696, 696, 400, 400, 838, 838, 838, 580, 1000, 774, 762, 734, 830, 683, 683, 821, 837, 372, 372, 775, 637, 995,
    837, 850, 733, 850, 770, 720, 682, 812, 774, 1103, 771, 724, 725, 457, 365, 457, 838, 500, 500, 675, 716, 593, 716,
    678, 435, 716, 712, 343, 343, 665, 343, 1042, 712, 687, 716, 716, 493, 595, 478, 712, 652, 924, 645, 652, 582, 712,
    365, 712, 838,
)


def text_width(words, size, bold=False):
    """How wide an ASCII text is, in the unit of the size of its font."""
    table = BOLD if bold else REGULAR
    return sum(table[ord(letter) - 32] for letter in words) * size / 1000


def wrapped(words, wide, size, bold=False):
    """The words in lines that are at most so wide, where no single word is wider."""
    lines = [""]
    for word in words:
        longer = f"{lines[-1]} {word}" if lines[-1] else word
        if lines[-1] and text_width(longer, size, bold) > wide:
            lines.append(word)
        else:
            lines[-1] = longer
    return lines


def fitting(texts, wide, size, bold=False):
    """The first of the texts that is at most so wide, or nothing."""
    return next((it for it in texts if text_width(it, size, bold) <= wide), "")


class Picture:
    """The parts of an SVG, in the order in which they are drawn."""

    def __init__(self):
        self.parts = []

    def rect(self, x, y, width, height, style=OUTLINE):
        self.parts.append(f'<rect x="{x:.1f}" y="{y:.1f}" width="{width:.1f}" height="{height:.1f}" {style}/>')

    def line(self, x1, y1, x2, y2, style='stroke="black"'):
        self.parts.append(f'<line x1="{x1:.1f}" y1="{y1:.1f}" x2="{x2:.1f}" y2="{y2:.1f}" {style}/>')

    def shape(self, tag, points, style):
        at = " ".join(f"{x:.1f},{y:.1f}" for x, y in points)
        self.parts.append(f'<{tag} points="{at}" {style}/>')

    def circle(self, x, y, radius, style):
        self.parts.append(f'<circle cx="{x:.1f}" cy="{y:.1f}" r="{radius:g}" {style}/>')

    def text(self, x, y, words, size=12, anchor="start", bold=False):
        weight = ' font-weight="bold"' if bold else ""
        self.parts.append(
            f'<text x="{x:.1f}" y="{y:.1f}" font-size="{size}" text-anchor="{anchor}"{weight}>{escape(words)}</text>'
        )

    def paragraph(self, x, y, words, wide, size=12, bold=False):
        """A text in as many lines as it takes. Where the next one may stand."""
        for line in wrapped(words.split(), wide, size, bold):
            self.text(x, y, line, size, bold=bold)
            y += size + 4
        return y

    def svg(self, width, height, title):
        head = (
            f'<svg xmlns="http://www.w3.org/2000/svg" width="{width:.0f}" height="{height:.0f}" '
            f'viewBox="0 0 {width:.0f} {height:.0f}" font-family="{FONT}">\n'
            f"<title>{escape(title)}</title>\n"
            '<rect width="100%" height="100%" fill="white"/>\n'
        )
        return head + "\n".join(self.parts) + "\n</svg>\n"
