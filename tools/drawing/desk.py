"""A flight of a running desk: its row, its task and its documents, fetched over HTTP."""

import json
import urllib.error
import urllib.request

from .texts import Unfit, decimal, whole

WAIT = 10  # seconds
TICKS = 100_000


class Row:
    """What the row of a flight says, as far as a picture needs it."""

    def __init__(self, name, text):
        self.name = name
        self.leg = []
        self.edition = 0
        self.stage = ""
        self.plan = None
        lines = text.splitlines()
        if not lines or lines[0] != "FLIGHT 2" or lines[-1] != "END":
            raise Unfit(f"{name} is no row of a flight.")
        for line in lines[1:-1]:
            self.read_line(line, line.split())
        if len(self.leg) != 5 or not self.edition or not self.stage:
            raise Unfit(f"{name} stops before its leg, its edition or its stage.")

    def read_line(self, line, words):
        kind, *rest = words or [""]
        if kind == "leg":
            self.leg = rest
        elif kind == "edition" and len(rest) == 1:
            self.edition = whole(rest[0], self.name, line)
        elif kind == "stage" and len(rest) == 1:
            self.stage = rest[0]
        elif kind == "plan":
            self.plan = rest

    def flight(self):
        """The flight as a loadsheet spells it."""
        name, day, registration, origin, destination = self.leg
        return f"{name}/{day}.{registration}.{origin}.{destination}"


def said(body):
    """What the desk says in an answer that is no success."""
    try:
        return json.loads(body)["error"]
    except (ValueError, KeyError, TypeError):
        return "no word that can be read"


def fetch(url, path):
    """The text at a path of the desk."""
    try:
        with urllib.request.urlopen(f"{url.rstrip('/')}{path}", timeout=WAIT) as answer:
            return answer.read().decode("ascii")
    except urllib.error.HTTPError as error:
        raise Unfit(f"the desk answers {error.code} to {path}: {said(error.read())}.") from error
    except (OSError, ValueError) as error:
        raise Unfit(f"no desk answers at {url}{path}: {getattr(error, 'reason', error)}.") from error


def ticks_of(word, name, line):
    return round(decimal(word, name, line) * TICKS)


def spelled(ticks):
    """Ticks as the texts of the program spell an index."""
    sign = "-" if ticks < 0 else ""
    return f"{sign}{abs(ticks) // TICKS}.{abs(ticks) % TICKS:05}"


def branch_order(task):
    """The containers as a plan has them: heaviest first, equal masses in the order of the offer."""
    return sorted(task.items, key=lambda item: -task.items[item])


def indices_in(task_text, name):
    """The base and the ideal band of a task, in ticks."""
    found = {}
    for line in task_text.splitlines():
        kind, *words = line.split()
        if kind in ("base", "ideal"):
            found[kind] = [ticks_of(word, name, line) for word in words]
    if len(found.get("base", [])) != 1 or len(found.get("ideal", [])) != 2:
        raise Unfit(f"{name} stops before its base and its ideal band.")
    return found["base"][0], found["ideal"]


def answer_of(task, task_text, row):
    """The plan of a row as an answer has it: the containers with their positions, the take-off index, and its distance
    from the ideal. Without a plan nothing is said."""
    placed = list(zip(branch_order(task), row.plan))
    if len(placed) != len(task.items) or len(placed) != len(row.plan):
        raise Unfit(f"{row.name} has a plan for {len(row.plan)} containers, and {len(task.items)} are offered.")
    loads = [(place.influence, place.mass) for place in task.places.values() if place.mass]
    loads += [(task.place(name, row.name).influence, task.items[item]) for item, name in placed]
    base, (low, high) = indices_in(task_text, task.name)
    index = base + sum(influence * mass for influence, mass in loads)
    lines = ["PLAN", *(f"place {item} {name}" for item, name in placed)]
    lines += [f"index {spelled(index)}", f"distance {spelled(max(low - index, index - high, 0))}"]
    if task.lateral is not None:
        lines.append(f"lateral {difference(task, placed)}")
    return "\n".join([*lines, "END", ""])


def difference(task, placed):
    """By how many kilograms the right side is heavier than the left one."""
    side = {"right": 1, "left": -1, "": 0}
    loose = sum(side[place.side] * place.mass for place in task.places.values())
    return loose + sum(side[task.places[name].side] * task.items[item] for item, name in placed)
