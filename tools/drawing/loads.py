"""Tasks with their answers: what stands where, over one sector, over several, and around what stays."""

import re

from .texts import Unfit, whole


class Place:
    """A position of the hold, with what the answer puts on it."""

    def __init__(self, name, compartment, influence, kinds):
        self.name = name
        self.compartment = compartment
        self.influence = influence
        self.kinds = kinds
        self.side = ""
        self.excludes = []
        self.container = None
        self.mass = 0
        self.to = None

    @property
    def bulk(self):
        return self.kinds is None

    def fullness(self):
        """How full the position is in percent, for a container of this kind."""
        return f"{100 * self.mass / self.kinds[self.container[:3]]:.1f} %"


class Limit:
    """A greatest mass on some positions together."""

    def __init__(self, reach, names, most):
        self.reach = reach
        self.names = names
        self.most = most


class Task:
    """The text of a task."""

    def __init__(self, name):
        self.name = name
        self.places = {}
        self.items = {}
        self.limits = []
        self.lateral = None

    def place(self, name, line):
        if name not in self.places:
            raise Unfit(f"{self.name}: '{line}' names the position {name}, which the task does not have.")
        return self.places[name]

    def closed_by(self, place):
        """The positions with a container that exclude this one, where it has none itself."""
        return [] if place.container else [name for name in place.excludes if self.places[name].container]

    def load(self, limit):
        return sum(self.places[name].mass for name in limit.names)

    def read(self, text):
        lines = text.splitlines()
        if not lines or lines[0] not in ("TASK 1", "TASK 2") or lines[-1] != "END":
            raise Unfit(f"{self.name} is not the text of a task: it does not begin with TASK and end with END.")
        for line in lines[1:-1]:
            try:
                self.read_line(line, line.split())
            except IndexError as error:
                raise Unfit(f"{self.name}: '{line}' stops too early.") from error
        if not self.places:
            raise Unfit(f"{self.name} has no position.")
        self.read_sides()
        return self

    def read_line(self, line, words):
        kind = words[0] if words else ""
        if kind in ("position", "bulk"):
            self.read_position(line, words)
        elif kind == "exclude":
            self.place(words[1], line).excludes.append(words[2])
            self.place(words[2], line).excludes.append(words[1])
        elif kind == "combined":
            names = [self.place(name, line).name for name in words[2:]]
            self.limits.append(Limit("", names, whole(words[1], self.name, line)))
        elif kind == "cumulative":
            self.read_cumulative(line, words)
        elif kind == "side":
            self.place(words[1], line).side = words[2]
        elif kind == "lateral":
            self.lateral = whole(words[1], self.name, line)
        elif kind == "item":
            self.items[words[1]] = whole(words[2], self.name, line)
        elif kind == "loose":
            self.place(words[1], line).mass = whole(words[2], self.name, line)
        elif kind not in ("base", "window", "ideal"):
            raise Unfit(f"{self.name}: '{line}' is no line of a task.")

    def read_position(self, line, words):
        kinds = None
        if words[0] == "position":
            kinds = {kind: whole(most, self.name, line) for kind, most in zip(words[4::2], words[5::2])}
        self.places[words[1]] = Place(words[1], words[2], whole(words[3], self.name, line), kinds)

    def read_cumulative(self, line, words):
        names = list(self.places)
        at = names.index(self.place(words[2], line).name)
        forward = words[1] == "forward"
        names = names[: at + 1] if forward else names[at:]
        reach = f"up to {words[2]}" if forward else f"from {words[2]} on"
        self.limits.append(Limit(reach, names, whole(words[3], self.name, line)))

    def read_sides(self):
        """Without lines of sides, two positions whose names differ by a last L and R are left and right."""
        if any(place.side for place in self.places.values()):
            return
        for name, place in self.places.items():
            if name[-1] in "LR" and {name[:-1] + "L", name[:-1] + "R"} <= set(self.places):
                place.side = "left" if name[-1] == "L" else "right"


class Answer:
    """What an answer says before its certificate: its containers with their positions, and its figures; or that there
    is no plan, in the words of the answer."""

    def __init__(self, name, text):
        self.name = name
        self.text = text
        self.placed = []
        self.figures = {}
        lines = text.split("CERTIFICATE")[0].splitlines()
        without = lines and re.fullmatch(r"NONE|NO PLAN YET|(BUDGET|UNDECIDED) [0-9]+", lines[0])
        self.without = lines[0] if without else None
        if self.without:
            return
        if not lines or lines[0] != "PLAN":
            raise Unfit(f"{name} is no answer with a plan.")
        for line in lines[1:]:
            self.read_line(line, line.split())
        if "index" not in self.figures or "distance" not in self.figures:
            raise Unfit(f"{name} stops before its index and its distance.")

    def read_line(self, line, words):
        if len(words) == 3 and words[0] == "place":
            self.placed.append((words[1], words[2]))
        elif len(words) == 3 and words[0] == "sector":
            self.figures[f"sector {words[1]}"] = words[2]
        elif len(words) == 2 and words[0] in ("index", "distance", "lateral"):
            self.figures[words[0]] = words[1]
        elif line != "END":
            raise Unfit(f"{self.name}: '{line}' is no line of an answer.")

    def needs_plan(self):
        if self.without:
            raise Unfit(f"{self.name} has no plan: its answer is {self.without}.")
        return self


def put_plan(task, name, placed):
    """Puts the containers where the answer says."""
    for item, position in placed:
        put_container(task, name, item, position)
    seen = {place.container for place in task.places.values()}
    for item in task.items:
        if item not in seen:
            raise Unfit(f"{name} has no position for the container {item} of {task.name}.")


def put_container(task, name, item, position):
    if item not in task.items:
        raise Unfit(f"{name} places the container {item}, which {task.name} does not have.")
    if position not in task.places:
        raise Unfit(f"{name} places {item} on {position}, a position that {task.name} does not have.")
    place = task.places[position]
    if place.container or place.bulk:
        raise Unfit(f"{name} places {item} on {position}, which is not free for it.")
    set_container(place, name, item, task.items[item])


def set_container(place, name, item, mass):
    if not place.kinds.get(item[:3]):
        raise Unfit(f"{name} places {item} on {place.name}, which does not accept its kind.")
    place.container = item
    place.mass = mass


# Over several sectors ------------------------------------------------------------------------------


class Flight:
    """A task for each sector, the last sector of each container, and pairs of which the second is behind the first."""

    def __init__(self, name):
        self.name = name
        self.leaves = {}
        self.behind = []
        self.sectors = []

    def read(self, text):
        head, *tasks = re.split(r"^(?=TASK )", text, flags=re.M)
        lines = head.splitlines()
        if not lines or lines[0] != "STOPS 1" or len(tasks) not in (2, 3):
            raise Unfit(
                f"{self.name} is no flight with stops: it does not begin with STOPS and have two tasks or three."
            )
        for number, task in enumerate(tasks, 1):
            self.sectors.append(Task(f"sector {number} of {self.name}").read(task))
        for line in lines[1:]:
            self.read_line(line, line.split())
        for item in self.sectors[0].items:
            if item not in self.leaves:
                raise Unfit(f"{self.name} does not say where the container {item} leaves.")
        return self

    def read_line(self, line, words):
        if len(words) == 3 and words[0] == "leave":
            self.leaves[words[1]] = whole(words[2], self.name, line)
        elif len(words) == 3 and words[0] == "behind":
            self.behind.append(tuple(self.sectors[0].place(name, line).name for name in words[1:]))
        else:
            raise Unfit(f"{self.name}: '{line}' is no line of a flight with stops.")

    def put_plan(self, name, placed):
        """Puts the containers where the answer says, on each sector those that are aboard."""
        for number, task in enumerate(self.sectors, 1):
            put_plan(task, name, [it for it in placed if self.leaves.get(it[0], number) >= number])


# Around what stays ---------------------------------------------------------------------------------


def read_onward(name, text):
    """The container message behind a plan: the flight, and what is on each position, as words between slashes."""
    lines = text.partition("\nEND\n")[2].splitlines()
    if len(lines) < 3 or lines[0] != "CPM":
        raise Unfit(f"{name} has no container message behind its plan.")
    entries = []
    for line in lines[2:]:
        words = line[1:].split("/")
        if not line.startswith("-") or len(words) not in (2, 3, 4):
            raise Unfit(f"{name}: '{line}' is no line of a container message.")
        entries.append((line, words))
    return lines[1].partition(".")[0], entries


def put_onward(task, name, placed, entries):
    """Puts what the message says where it says it, and names the positions of which the task knew nothing: what is on
    them came in and stays."""
    stays = []
    for line, words in entries:
        place = task.place(words[0], line)
        if len(words) == 2:
            continue
        stood = len(words) == 4
        new = (words[1], words[0]) in placed if stood else bool(place.mass)
        if place.container or place.bulk == stood:
            raise Unfit(f"{name}: '{line}' is on a position that is not free for it.")
        place.to, mass = words[-2], whole(words[-1], name, line)
        if stood:
            set_container(place, name, words[1], mass)
        place.mass = mass
        if not new:
            stays.append(place.name)
    aboard = {place.container for place in task.places.values()}
    for item in [item for item, _ in placed] + list(task.items):
        if item not in aboard:
            raise Unfit(f"{name} does not say in its container message where {item} is.")
    return stays
