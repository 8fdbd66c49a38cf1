#!/usr/bin/env python3
"""loads.py PROGRAM [--count N] [--seed S] [--band TICKS] [--lateral KG] [--kinds f12,f24] [--seconds S] [--keep DIR]

Random loads of real size, and how many of them PROGRAM's `best` answers: narrow body (n), wide body with LD3 (w) and with
pallets (p), freighter (f); the number is that of the containers. The ideal band (100000 ticks, 1.00000 index units, where
--band is absent) lies at the middle of random sound placements, the window is 12 units to each side. Each answer is judged
by `bestcheck`. Printed: for each kind the answered and the slowest.
"""
import argparse, os, random, subprocess, sys, tempfile, time

def index(t):
    return f"{'-' if t < 0 else ''}{abs(t) // 100000}.{abs(t) % 100000:05d}"


class Hold:
    def __init__(self):
        self.pos = []        # (name, compartment, influence, [(kind, most)])
        self.excl, self.comb, self.cum = [], [], []

    def add(self, name, comp, infl, fits):
        self.pos.append((name, comp, infl, fits))

    def sort(self):
        """Nose to tail, stable."""
        self.pos.sort(key=lambda p: p[2])

    def at(self, name):
        return next(i for i, p in enumerate(self.pos) if p[0] == name)

    def exclude(self, a, b):
        self.excl.append((a, b))

    def combined(self, most, names):
        self.comb.append((most, sorted(names, key=self.at)))

    def cumulative(self, way, *limits):
        """What may be loaded from an end up to each of some positions."""
        self.cum += [(way, name, most) for name, most in limits]

    def over_containers(self, pallets):
        """Each pallet position takes the rows of containers below it, and some take each other."""
        for name, comp, infl, rows in pallets:
            for row in rows:
                for side in "LR":
                    self.exclude(name, row + side)

    def bulk(self, *positions):
        for name, infl in positions:
            self.add(name, 5, infl, [])

    def in_compartments(self, *limits):
        """What some compartments may be loaded with together."""
        for most, comps in limits:
            self.combined(most, [name for name, comp, infl, fits in self.pos if comp in comps])

    # what follows is used to find some sound placements
    def prepare(self):
        self.n = {p[0]: i for i, p in enumerate(self.pos)}
        m = len(self.pos)
        self.limits = []
        for most, names in self.comb:
            self.limits.append((most, {self.n[x] for x in names}))
        for way, x, most in self.cum:
            p = self.n[x]
            self.limits.append((most, set(range(p + 1)) if way == "forward" else set(range(p, m))))
        self.of = [[l for l, (_, s) in enumerate(self.limits) if p in s] for p in range(m)]
        self.blocks = [set() for _ in range(m)]
        for a, b in self.excl:
            self.blocks[self.n[a]].add(self.n[b])
            self.blocks[self.n[b]].add(self.n[a])

    def ready(self, items, loose):
        self.loads0, self.hold0 = [0] * len(self.limits), 0
        for x, mass in loose:
            self.hold0 += mass * self.pos[self.n[x]][2]
            for l in self.of[self.n[x]]:
                self.loads0[l] += mass
        self.takes = [1 << p | sum(1 << q for q in self.blocks[p]) for p in range(len(self.pos))]
        self.order = sorted(range(len(items)), key=lambda i: (-items[i][1], i))
        self.fit = [[p for p in range(len(self.pos)) if any(k == i[:3] and m <= most for k, most in self.pos[p][3])]
                    for i, m in items]

    def try_random(self, rng, items):
        loads, hold, blocked, path = self.loads0[:], self.hold0, 0, {}
        room = [most for most, _ in self.limits]
        for i in self.order:
            mass = items[i][1]
            full = {l for l in range(len(room)) if loads[l] + mass > room[l]}
            ps = [p for p in self.fit[i] if not blocked >> p & 1 and full.isdisjoint(self.of[p])]
            if not ps:
                return None
            p = rng.choice(ps)
            blocked |= self.takes[p]
            path[i] = p
            hold += mass * self.pos[p][2]
            for l in self.of[p]:
                loads[l] += mass
        return hold, path

    def sample(self, rng, items, loose, count=60, tries=40000):
        self.prepare()
        self.ready(items, loose)
        got = []
        for _ in range(tries):
            r = self.try_random(rng, items)
            if r:
                got.append(r[0])
                if len(got) == count:
                    break
        return sorted(got)

    def text(self, items, loose, base, window, ideal):
        out = ["TASK 1"]
        for name, comp, infl, fits in self.pos:
            if fits:
                out.append(f"position {name} {comp} {infl} " + " ".join(f"{k} {m}" for k, m in fits))
            else:
                out.append(f"bulk {name} {comp} {infl}")
        out += [f"exclude {a} {b}" for a, b in self.excl]
        out += [f"combined {m} " + " ".join(n) for m, n in self.comb]
        out += [f"cumulative {w} {n} {m}" for w, n, m in self.cum]
        out += [f"item {i} {m}" for i, m in items]
        out += [f"loose {n} {m}" for n, m in loose]
        out.append(f"base {index(base)}")
        out.append(f"window {index(window[0])} {index(window[1])}")
        out.append(f"ideal {index(ideal[0])} {index(ideal[1])}")
        return "\n".join(out + ["END", ""])


def ids(kind, n, start):
    return [f"{kind}{start + i}XX" for i in range(n)]


# ---------------------------------------------------------------- airframes

def narrow():
    """Seven container positions, three bulk positions; C = 1000 kg m."""
    h = Hold()
    ake = [("AKH", 1134), ("AKG", 1134)]
    for name, comp, infl in (("11", 1, -707), ("12", 1, -554), ("13", 1, -401),
                             ("31", 3, 283), ("32", 3, 436), ("41", 4, 589), ("42", 4, 742)):
        h.add(name, comp, infl, ake)
    h.bulk(("51", 905), ("52", 985), ("53", 1065))
    h.combined(3402, ["11", "12", "13"])
    h.combined(2268, ["31", "32"])
    h.combined(2110, ["41", "42"])
    h.combined(4178, ["31", "32", "41", "42"])
    h.combined(1497, ["51", "52", "53"])
    h.cumulative("forward", ("11", 1134), ("12", 2200))
    h.cumulative("aft", ("41", 3400), ("31", 5500))
    return h


def wide():
    """26 LD3 positions (7 rows fore, 6 aft), 8 pallet positions over them,
    two bulk positions; C = 2500 kg m."""
    h = Hold()
    rows = [("11", 1, -684), ("12", 1, -623), ("13", 1, -562), ("21", 2, -501), ("22", 2, -440),
            ("23", 2, -379), ("24", 2, -318),
            ("31", 3, 241), ("32", 3, 302), ("33", 3, 363), ("41", 4, 424), ("42", 4, 485), ("43", 4, 546)]
    for name, comp, infl in rows:
        for side in "LR":
            h.add(name + side, comp, infl, [("AKE", 1587), ("AKN", 1587)])
    pallets = [("11P", 1, -665, ["11", "12"]), ("12P", 1, -572, ["12", "13"]),
               ("21P", 2, -479, ["21", "22"]), ("22P", 2, -386, ["22", "23"]),
               ("31P", 3, 260, ["31", "32"]), ("32P", 3, 353, ["32", "33"]),
               ("41P", 4, 446, ["41", "42"]), ("42P", 4, 539, ["42", "43"])]
    for name, comp, infl, over in pallets:
        h.add(name, comp, infl, [("PMC", 5103), ("PAG", 4626)])
    h.bulk(("52", 641), ("53", 690))
    h.sort()
    h.over_containers(pallets)
    h.exclude("11P", "12P")
    h.exclude("21P", "22P")
    h.exclude("31P", "32P")
    h.exclude("41P", "42P")
    h.in_compartments((9525, [1]), (12700, [2]), (18869, [1, 2]), (9525, [3]), (9525, [4]), (15241, [3, 4]), (3468, [5]))
    for row in rows:
        h.combined(3100, [row[0] + "L", row[0] + "R"])
    h.cumulative("forward", ("11R", 3100), ("12R", 6000), ("13R", 9100), ("22R", 14500))
    h.cumulative("aft", ("43L", 6100), ("42L", 9200), ("41L", 12200), ("31L", 18000))
    return h


def freighter():
    """Main deck 30 pallet positions, lower deck 9 pallet positions over 22 LD3
    positions, three bulk positions: 64. C = 5000 kg m."""
    h = Hold()
    main = [("A1", -596), ("A2", -548), ("B1", -500), ("BL", -452), ("BR", -452)]
    x = -404
    for row in "CDEFGHJKLMPQ":
        main += [(row + "L", x), (row + "R", x)]
        x += 62
    main += [("T1", x)]
    heavy = [("PMC", 6804), ("PGA", 11340), ("PMH", 6804)]
    for name, infl in main:
        comp = 6 if infl < -300 else 7 if infl < 100 else 8
        h.add(name, comp, infl, heavy)
    ld3 = [("11", 1, -430), ("12", 1, -388), ("13", 1, -346), ("21", 2, -304), ("22", 2, -262), ("23", 2, -220),
           ("31", 3, 130), ("32", 3, 172), ("33", 3, 214), ("41", 4, 256), ("42", 4, 298)]
    for name, comp, infl in ld3:
        for side in "LR":
            h.add(name + side, comp, infl, [("AKE", 1587)])
    low = [("11P", 1, -420, ["11", "12"]), ("12P", 1, -356, ["12", "13"]), ("21P", 2, -292, ["21", "22"]),
           ("22P", 2, -228, ["22", "23"]), ("31P", 3, 140, ["31", "32"]), ("32P", 3, 204, ["32", "33"]),
           ("41P", 4, 268, ["41", "42"]), ("42P", 4, 332, []), ("43P", 4, 396, [])]
    for name, comp, infl, over in low:
        h.add(name, comp, infl, [("PMC", 5034), ("PLA", 3174)])
    h.bulk(("52", 440), ("53", 470), ("54", 500))
    h.sort()
    h.over_containers(low)
    h.exclude("11P", "12P")
    h.exclude("21P", "22P")
    h.exclude("31P", "32P")
    h.in_compartments((22000, [1, 2]), (18000, [3, 4]), (4000, [5]), (52000, [6]), (62000, [7]), (42000, [8]), (114000, [6, 7, 8]))
    for row in "CDEFGHJKLMPQ":
        h.combined(11200, [row + "L", row + "R"])
    h.cumulative("forward", ("A2", 11000), ("BR", 26000), ("DR", 48000), ("FR", 74000))
    h.cumulative("aft", ("T1", 9000), ("QL", 24000), ("PL", 34000), ("ML", 46000))
    return h


# ------------------------------------------------------------------- tasks


KINDS = {
    "n3": ("narrow", [("AKH", 3, 400, 1050, 1)], [("51", 300)]),
    "n5": ("narrow", [("AKH", 5, 400, 900, 1)], [("51", 300)]),
    "n7": ("narrow", [("AKH", 7, 400, 780, 1)], [("51", 300)]),
    "w8": ("wide", [("AKE", 8, 500, 1400, 1)], [("52", 400)]),
    "w10": ("wide", [("AKE", 10, 500, 1400, 1)], [("52", 400)]),
    "w12": ("wide", [("AKE", 12, 500, 1300, 1)], [("52", 400)]),
    "w16": ("wide", [("AKE", 16, 500, 1250, 1)], [("52", 400)]),
    "w20": ("wide", [("AKE", 20, 450, 1200, 1)], [("52", 400)]),
    "w26": ("wide", [("AKE", 26, 400, 1000, 1)], [("52", 400)]),
    "p10": ("wide", [("AKE", 8, 500, 1400, 1), ("PMC", 2, 1800, 3600, 1)], [("52", 400)]),
    "p15": ("wide", [("AKE", 12, 500, 1200, 1), ("PMC", 2, 1800, 3200, 1), ("PAG", 1, 1500, 2600, 1)], [("52", 400)]),
    "f12": ("freighter", [("PMC", 8, 1800, 4600, 1), ("AKE", 4, 500, 1400, 1)], [("52", 600)]),
    "f24": ("freighter", [("PMC", 16, 1800, 4600, 1), ("AKE", 8, 500, 1400, 1)], [("52", 600)]),
    "f36": ("freighter", [("PMC", 24, 1400, 4000, 1), ("AKE", 12, 500, 1400, 1)], [("52", 600)]),
    "f48": ("freighter", [("PMC", 32, 1200, 3300, 1), ("AKE", 16, 500, 1400, 1)], [("52", 500)]),
}


def task_text(kind, rng, band):
    make, counts, loose = KINDS[kind]
    for _ in range(30):
        hold = globals()[make]()
        items, serial = [], 10001
        for k, n, lo, hi, step in counts:
            items += [(i, rng.randrange(lo, hi + 1, step)) for i in ids(k, n, serial)]
            serial += n
        rng.shuffle(items)
        got = hold.sample(rng, items, loose, count=31, tries=4000)
        if got:
            mid = got[len(got) // 2]
            base, centre = 5_000_000, 5_000_000 + mid
            return hold.text(items, loose, base, (mid - 1_200_000, mid + 1_200_000),
                             (centre - band // 2, centre - band // 2 + band))
    raise SystemExit(f"{kind}: no sound placement found at random")


def with_lateral(text, most):
    """The same load as TASK 2: positions whose names end in L or R lie on that side, or every second one does."""
    lines = text.split("\n")
    lines[0] = "TASK 2"
    names = [l.split()[1] for l in lines if l.startswith(("position", "bulk"))]
    sides = {n: "left" if n.endswith("L") else "right" for n in names if n[-1] in "LR"}
    if not sides:
        sides = {n: ("left", "right")[i % 2] for i, n in enumerate(n for n in names)}
    at = next(i for i, l in enumerate(lines) if l.startswith("item"))
    lines[at:at] = ["side %s %s" % (n, sides[n]) for n in names if n in sides] + ["lateral %d" % most]
    return "\n".join(lines)


def arguments():
    ap = argparse.ArgumentParser()
    ap.add_argument("program")
    ap.add_argument("--count", type=int, default=20)
    ap.add_argument("--seed", default="1")
    ap.add_argument("--band", type=int, default=100000)
    ap.add_argument("--lateral", type=int)
    ap.add_argument("--kinds", default=",".join(KINDS))
    ap.add_argument("--seconds", type=float, default=60)
    ap.add_argument("--keep")
    return ap.parse_args()


def answer_of(program, task, answer, seconds):
    """What `best` says of a task, how long it takes, and whether `bestcheck` rejects it."""
    begun = time.time()
    try:
        out = subprocess.run([program, "best", task], capture_output=True, timeout=seconds).stdout
    except subprocess.TimeoutExpired:
        return "no answer in time", time.time() - begun, False
    took = time.time() - begun
    said = out.split(b"\n")[0].decode()
    if not out.startswith((b"PLAN", b"NONE")):
        return said, took, False
    with open(answer, "wb") as f:
        f.write(out)
    judged = subprocess.run([program, "bestcheck", task, answer], capture_output=True).stdout
    return said, took, not judged.startswith(b"GOOD")


def main():
    a = arguments()
    total = answered = bad = 0
    with tempfile.TemporaryDirectory() as there:
        for kind in a.kinds.split(","):
            ok, slowest, left = 0, 0.0, []
            for i in range(a.count):
                text = task_text(kind, random.Random("%s-%s-%d" % (a.seed, kind, i)), a.band)
                text = text if a.lateral is None else with_lateral(text, a.lateral)
                task = os.path.join(a.keep or there, "%s_%02d.task" % (kind, i))
                with open(task, "w") as f:
                    f.write(text)
                said, took, rejected = answer_of(a.program, task, os.path.join(there, "answer"), a.seconds)
                slowest = max(slowest, took)
                ok += said.startswith(("PLAN", "NONE"))
                bad += rejected
                if rejected or not said.startswith(("PLAN", "NONE")):
                    left.append("%d: %s" % (i, "rejected" if rejected else said))
            total, answered = total + a.count, answered + ok
            told = "; " + ", ".join(left) if left else ""
            print("%-4s %d of %d, slowest %.2f s%s" % (kind, ok, a.count, slowest, told), flush=True)
    print("%d of %d answered, %d rejected" % (answered, total, bad))
    return 1 if bad else 0


sys.exit(main())
