#!/usr/bin/env python3
"""Runs random sessions by 1, 2 and 8 workers and judges each report: stress.py PROGRAM [COUNT [SEED]].

A session has up to eight analysts and a small raster with weights, a mask, tiles of some side and one of the rules. Two of
three have an expected ramp, about which differences are wrapped, and half a steepness above 1, by which each further cycle of
a departure costs more than its first. How threads take turns decides which history is reported, so
a report is not compared with another: it is judged by itself. It has version 2 exactly if there is a ramp or a steepness. Its entries have to be a legal and complete history of the session, and each surface that is published has to be certified at
the mask of its revision: congruent with the phase at open pixels and NODATA at masked ones, equal to the phase at the first
open pixel, with faces and flows that prove that no other surface, and no other offsets, cost less, and with its true costs.
The judge is written from docs/DEFINITIONS.md and docs/FORMATS.md, and shares no code with the program.

First the judge is tried on five reports by hand and on spoiled copies of them; without PROGRAM nothing else is done. The last
line is 'N passed, M failed', for sessions; the status is 1 where one failed.
"""
import random
import re
import subprocess
import sys

CYCLE = 65536
NODATA = -(2**63)
WORKERS = (1, 2, 8)
SIGNED = re.compile(rb"0|-?[1-9][0-9]*")


class Refused(Exception):
    """Why a report is not one of the session."""


def demand(holds, why):
    if not holds:
        raise Refused(why)


class Session:
    """Planes as lists in row order, and for each analyst a list of commands: ('mask', x0, y0, x1, y1), 'settle', ..

    `ramp` has the slopes to the right and downwards that are expected, from -32768 to 32767, in units a pixel; `steep`, from 1
    to 16, is how many times as much as the first cycle of a departure each further one costs.
    """

    def __init__(self, width, height, phase, weights, maxval, opened, side, rule, scripts, ramp=(0, 0), steep=1):
        self.width, self.height, self.phase = width, height, phase
        self.weights, self.maxval, self.opened = weights, maxval, opened
        self.side, self.rule, self.scripts, self.ramp, self.steep = side, rule, scripts, ramp, steep

    def options(self):
        """The words of the side, the rule, the ramp and the steepness. A slope below 0 is told by 65536 more."""
        found = ["--tile", str(self.side), "--rule", self.rule]
        for name, slope in zip(("--ramp-x", "--ramp-y"), self.ramp):
            found += [name, str(slope % CYCLE)] if slope else []
        return found + (["--steep", str(self.steep)] if self.steep > 1 else [])

    def is_plain(self):
        """Whether no ramp is expected and all cycles cost the same, so that a report of version 1 can be of this session."""
        return self.ramp == (0, 0) and self.steep == 1

    def steps(self, cycles):
        """What a departure of so many cycles counts for."""
        return abs(cycles) and 1 + self.steep * (abs(cycles) - 1)

    def tile(self, x, y):
        return y // self.side * (-(-self.width // self.side)) + x // self.side

    def tiles(self):
        return -(-self.width // self.side) * -(-self.height // self.side)

    def window(self, tile):
        columns = -(-self.width // self.side)
        x0, y0 = tile % columns * self.side, tile // columns * self.side
        return x0, y0, min(x0 + self.side, self.width) - 1, min(y0 + self.side, self.height) - 1

    def edges(self):
        """Each edge as (x, y, end's x, end's y), in edge order."""
        for y in range(self.height):
            for x in range(self.width):
                if x + 1 < self.width:
                    yield x, y, x + 1, y
                if y + 1 < self.height:
                    yield x, y, x, y + 1

    def at(self, plane, x, y):
        return plane[y * self.width + x]

    def difference(self, x, y, u, v):
        """The difference of the phase, wrapped to the half cycles about the slope: from slope - 32768 to slope + 32767."""
        slope = self.ramp[0] if u > x else self.ramp[1]
        turned = self.at(self.phase, u, v) - self.at(self.phase, x, y)
        return slope + (turned - slope + CYCLE // 2) % CYCLE - CYCLE // 2

    def residue(self, x, y):
        around = (
            self.difference(x, y, x + 1, y)
            + self.difference(x + 1, y, x + 1, y + 1)
            - self.difference(x, y + 1, x + 1, y + 1)
            - self.difference(x, y, x, y + 1)
        )
        return around // CYCLE

    def weight(self, opened, x, y, u, v):
        """An edge's weight under a mask."""
        if not (self.at(opened, x, y) and self.at(opened, u, v)):
            return 0
        a, b = self.at(self.weights, x, y), self.at(self.weights, u, v)
        return {"least": min(a, b), "mean": (a + b) // 2, "product": a * b // self.maxval}[self.rule]

    def regions(self, opened):
        """A number for each open pixel's region, and -1 at masked ones."""
        labels, count = [-1] * len(opened), 0
        for start in range(len(opened)):
            if not opened[start] or labels[start] >= 0:
                continue
            labels[start], todo = count, [start]
            while todo:
                x, y = (place := todo.pop()) % self.width, place // self.width
                for u, v in ((x - 1, y), (x + 1, y), (x, y - 1), (x, y + 1)):
                    if not (0 <= u < self.width and 0 <= v < self.height):
                        continue
                    near = v * self.width + u
                    if opened[near] and labels[near] < 0 and self.tile(u, v) == self.tile(x, y):
                        labels[near] = count
                        todo.append(near)
            count += 1
        return labels, count

    def bytes_of(self, dice):
        """The session as bytes, its planes raw or plain."""

        def plane(maxval, samples):
            head = b"%s\n%d %d\n%d\n" % (b"P5" if (raw := dice.random() < 0.5) else b"P2", self.width, self.height, maxval)
            if raw:
                return head + b"".join(sample.to_bytes(1 if maxval < 256 else 2, "big") for sample in samples)
            return head + " ".join(map(str, samples)).encode() + b"\n"

        text = plane(65535, self.phase) + plane(self.maxval, self.weights) + plane(1, self.opened)
        for script in self.scripts:
            text += b"analyst\n"
            for command in script:
                text += (" ".join(map(str, command)) if isinstance(command, tuple) else command).encode() + b"\n"
        return text + b"end\n"


class Lines:
    """The lines of a report, one after another."""

    def __init__(self, text):
        demand(text.endswith(b"\n"), "the last line is cut")
        self.lines, self.place = text.split(b"\n")[:-1], 0

    def next(self):
        demand(self.place < len(self.lines), f"line {self.place + 1} is missing")
        self.place += 1
        return self.lines[self.place - 1]

    def expect(self, line):
        found = self.next()
        demand(found == line, f"line {self.place} is {found[:60]!r} and not {line!r}")

    def numbers(self, line, count=None):
        """The signed numbers of a text, each in its one spelling, parted by single spaces."""
        parts = line.split(b" ") if line else []
        demand(all(SIGNED.fullmatch(part) for part in parts), f"line {self.place} has no plain numbers")
        demand(count is None or len(parts) == count, f"line {self.place} has {len(parts)} numbers and not {count}")
        return [int(part) for part in parts]

    def labelled(self, label, count=None):
        """The numbers behind a label."""
        line = self.next()
        demand(line == label or line.startswith(label + b" "), f"line {self.place} does not begin with {label!r}")
        demand(line != label + b" ", f"line {self.place} ends with a space")
        return self.numbers(line[len(label) + 1 :], count)


class Surface:
    """A published surface as it is written."""

    def __init__(self, session, lines):
        self.tile_cost, self.seam_cost = lines.labelled(b"costs", 2)
        demand(min(self.tile_cost, self.seam_cost) >= 0, "a cost is below 0")
        lines.expect(b"ncols %d" % session.width)
        lines.expect(b"nrows %d" % session.height)
        for line in (b"xllcorner 0", b"yllcorner 0", b"cellsize 1", b"NODATA_value %d" % NODATA):
            lines.expect(line)
        self.values = []
        for _ in range(session.height):
            self.values += lines.numbers(lines.next(), session.width)
        self.faces = [lines.labelled(b"faces %d" % tile) for tile in range(session.tiles())]
        self.flows = lines.labelled(b"flows")


def judge_surface(session, opened, surface):
    """A surface is certified at a mask, and its costs are the counted ones."""
    is_open = lambda x, y: session.at(opened, x, y)
    for place, (value, phase) in enumerate(zip(surface.values, session.phase)):
        where = f"value {place % session.width} {place // session.width}"
        if opened[place]:
            demand(value != NODATA and (value - phase) % CYCLE == 0, f"{where} is not congruent")
        else:
            demand(value == NODATA, f"{where} is masked and not NODATA")
    if 1 in opened:
        first = opened.index(1)
        demand(surface.values[first] == session.phase[first], "the anchor is missed")

    def departure(x, y, u, v):
        rest = session.at(surface.values, u, v) - session.at(surface.values, x, y) - session.difference(x, y, u, v)
        demand(rest % CYCLE == 0, "a departure is no whole cycle")
        return rest // CYCLE

    costs, above = [0] * session.tiles(), [0] * session.tiles()
    seams, seam_cost, bound = [], 0, 0
    labels, count = session.regions(opened)
    balance = [0] * count
    faces = []
    for tile, written in enumerate(surface.faces):
        x0, y0, x1, y1 = session.window(tile)
        demand(len(written) == (x1 - x0) * (y1 - y0), f"tile {tile} shape")
        faces.append({(x, y): written[(y - y0) * (x1 - x0) + x - x0] for y in range(y0, y1) for x in range(x0, x1)})
    for edge in session.edges():
        x, y, u, v = edge
        weight = session.weight(opened, *edge)
        counted = weight * session.steps(departure(*edge)) if is_open(x, y) and is_open(u, v) else 0
        tile = session.tile(x, y)
        if tile == session.tile(u, v):
            costs[tile] += counted
            here = faces[tile].get((x, y), 0)
            there = faces[tile].get((x, y - 1) if u > x else (x - 1, y), 0)
            demand(abs(here - there) <= session.steep * weight, f"tile {tile} face {edge}")
            above[tile] += max(abs(here - there) - weight, 0)
        else:
            seam_cost += counted
            seams.append(edge)
    for tile, cells in enumerate(faces):
        proved = sum(face * session.residue(x, y) for (x, y), face in cells.items()) - above[tile]
        demand(proved == costs[tile], f"tile {tile} costs {costs[tile]} and {proved} is proved")
    demand(len(surface.flows) == len(seams), "seams shape")
    for (x, y, u, v), flow in zip(seams, surface.flows):
        weight = session.weight(opened, x, y, u, v)
        demand(abs(flow) <= session.steep * weight, f"flow {x, y, u, v}")
        bound -= max(abs(flow) - weight, 0)
        if is_open(x, y) and is_open(u, v):
            balance[session.at(labels, x, y)] -= flow
            balance[session.at(labels, u, v)] += flow
            bound += flow * departure(x, y, u, v)
    demand(not any(balance), f"unbalanced {[region for region in range(count) if balance[region]]}")
    demand(bound == seam_cost, f"the seams cost {seam_cost} and {bound} is proved")
    demand(surface.tile_cost == sum(costs), f"tile cost {surface.tile_cost} is written, {sum(costs)} counted")
    demand(surface.seam_cost == seam_cost, f"seam cost {surface.seam_cost} is written, {seam_cost} counted")


class History:
    """What follows from the entries so far."""

    def __init__(self, session):
        self.session, self.opened = session, list(session.opened)
        self.revision, self.newest = 0, None
        self.cursors = [0] * len(session.scripts)
        self.stamps, self.kept = [0] * session.tiles(), [False] * session.tiles()

    def does(self, analyst, wanted):
        """The analyst's next command is the wanted one, and is done."""
        demand(1 <= analyst <= len(self.cursors), f"there is no analyst {analyst}")
        script, cursor = self.session.scripts[analyst - 1], self.cursors[analyst - 1]
        demand(cursor < len(script) and script[cursor] == wanted, f"the next command of analyst {analyst} is another")
        self.cursors[analyst - 1] += 1

    def revised(self, analyst, edit):
        self.does(analyst, edit)
        word, x0, y0, x1, y1 = edit
        self.revision += 1
        for y in range(y0, y1 + 1):
            for x in range(x0, x1 + 1):
                place, is_open = y * self.session.width + x, int(word == "unmask")
                if self.opened[place] != is_open:
                    self.opened[place] = is_open
                    tile = self.session.tile(x, y)
                    self.stamps[tile], self.kept[tile] = self.revision, False

    def keeps(self, tile, stamp):
        demand(tile < len(self.kept), f"there is no tile {tile}")
        demand(stamp == self.stamps[tile] and not self.kept[tile], f"tile {tile} is not to be kept")
        self.kept[tile] = True

    def published(self, analyst, revision, surface):
        self.does(analyst, "settle")
        demand(revision == self.revision and all(self.kept) and self.newest != revision, "nothing is to be published")
        self.newest = revision
        judge_surface(self.session, self.opened, surface)

    def settled(self, analyst, revision):
        self.does(analyst, "settle")
        demand(revision == self.revision == self.newest, "the revision is not published")

    def shown(self, analyst, revision):
        self.does(analyst, "show")
        demand(revision == self.newest, "another surface is the newest")

    def is_complete(self):
        return self.cursors == [len(script) for script in self.session.scripts]


def head_of(session, version):
    """The first lines of a report of a session. Version 1 is of no ramp and no steepness, and does not tell them."""
    found = [b"insar-report %d" % version, b"size %d %d" % (session.width, session.height)]
    found += [b"tile %d" % session.side, b"rule %s" % session.rule.encode()]
    return found if version == 1 else found + [b"ramp %d %d" % session.ramp, b"steep %d" % session.steep]


def judge(session, text):
    """Raises Refused where a text is no certified report of a session."""
    lines = Lines(text)
    version = 2 if text.startswith(b"insar-report 2\n") else 1
    for line in head_of(session, version):
        lines.expect(line)
    demand(version == 2 or session.is_plain(), "a report of version 1 has no ramp and no steepness")
    history = History(session)
    while (line := lines.next()) != b"end":
        word, *fields = line.split(b" ")
        if word == b"revised":
            demand(len(fields) == 6 and fields[1] in (b"mask", b"unmask"), f"line {lines.place}: {line!r}")
            analyst, *rect = lines.numbers(b" ".join(fields[:1] + fields[2:]), 5)
            history.revised(analyst, (fields[1].decode(), *rect))
        elif word == b"shown" and fields[1:] == [b"none"]:
            history.shown(lines.numbers(fields[0], 1)[0], None)
        else:
            demand(word in (b"kept", b"published", b"settled", b"shown"), f"line {lines.place}: {line!r}")
            one, other = lines.numbers(b" ".join(fields), 2)
            demand(min(one, other) >= 0, f"line {lines.place}: {line!r}")
            if word == b"kept":
                history.keeps(one, other)
            elif word == b"published":
                history.published(one, other, Surface(session, lines))
            elif word == b"settled":
                history.settled(one, other)
            else:
                history.shown(one, other)
    demand(history.is_complete(), "a script is not at its end")
    demand(lines.place == len(lines.lines), "a line stands after the end")


def random_slope(dice):
    """An expected slope: mostly any, and now and then the least, the greatest, none, or one beside them."""
    if dice.random() < 0.7:
        return dice.randrange(-CYCLE // 2, CYCLE // 2)
    return dice.choice((-CYCLE // 2, -CYCLE // 2 + 1, -1, 0, 0, 1, CYCLE // 2 - 1))


def random_ramp(dice):
    """None in a third of the sessions, otherwise along one side or both."""
    ramp = random_slope(dice), random_slope(dice)
    return dice.choice(((0, 0), (0, 0), (ramp[0], 0), (0, ramp[1]), ramp, ramp))


def random_phase(dice, width, height, ramp):
    """A slope with noise, now and then so much that it is random altogether. Half of the slopes are near to the ramp."""
    across, down = dice.randrange(-30000, 30000), dice.randrange(-30000, 30000)
    if dice.random() < 0.5:
        across, down = ramp[0] + across // 4, ramp[1] + down // 4
    noise = dice.choice((0, 3000, 12000, 40000))
    return [
        (across * x + down * y + dice.randint(-noise, noise)) % CYCLE for y in range(height) for x in range(width)
    ]


def random_scripts(dice, width, height):
    def rect():
        x, u = sorted((dice.randrange(width), dice.randrange(width)))
        y, v = sorted((dice.randrange(height), dice.randrange(height)))
        return x, y, u, v

    def command():
        word = dice.choice(("mask", "unmask", "settle", "settle", "show"))
        return (word, *rect()) if word.endswith("mask") else word

    return [[command() for _ in range(dice.randrange(7))] for _ in range(dice.randint(1, 8))]


def random_session(dice, longest=11):
    width, height = dice.randint(1, longest), dice.randint(1, longest)
    pixels = width * height
    maxval = dice.choice((1, 9, 255, 300, 65535))
    masked = dice.choice((0, 0.1, 0.3, 0.6))
    ramp = random_ramp(dice)
    return Session(
        width,
        height,
        random_phase(dice, width, height, ramp),
        [dice.randint(0, maxval) for _ in range(pixels)],
        maxval,
        [int(dice.random() >= masked) for _ in range(pixels)],
        dice.choice((2, 2, 3, 3, 4, 5, 7, 128)),
        dice.choice(("least", "mean", "product")),
        random_scripts(dice, width, height),
        ramp,
        dice.choice((1, 1, 1, 1, 2, 3, 4, dice.randint(1, 16))),
    )


def answer(program, words, text):
    """What the program writes of a text, which it has to take."""
    try:
        done = subprocess.run([program, *words], input=text, capture_output=True, timeout=60)
    except subprocess.TimeoutExpired:
        raise Refused("it did not end within a minute") from None
    demand(done.returncode == 0 and not done.stderr, f"status {done.returncode}: {done.stderr!r}")
    return done.stdout


def run(program, session, text, workers):
    """The report of a session by so many workers."""
    report = answer(program, ["unwrap", *session.options(), "--workers", str(workers)], text)
    version = 1 if session.is_plain() else 2
    demand(report.startswith(b"insar-report %d\n" % version), f"the report's version is not {version}")
    return report


def asked_of(words, count, seed):
    """The program, how many sessions are tried, and their seed, of words PROGRAM [COUNT [SEED]]; None if they are others."""
    if not 1 <= len(words) <= 3 or not all(word.isdigit() for word in words[1:]):
        return None
    numbers = [*map(int, words[1:]), *(count, seed)[len(words) - 1 :]]
    return words[0], numbers[0], numbers[1]


# A line of four pixels, and its report.
LINE = Session(4, 1, [0, 20000, 40000, 60000], [1] * 4, 1, [1] * 4, 64, "least", [["settle", "show"]])
LINE_REPORT = b"""insar-report 1
size 4 1
tile 64
rule least
kept 0 0
published 1 0
costs 0 0
ncols 4
nrows 1
xllcorner 0
yllcorner 0
cellsize 1
NODATA_value -9223372036854775808
0 20000 40000 60000
faces 0
flows
shown 1 0
end
"""

# A full turn whose first pixel is masked by the script, and its report.
TURN = Session(
    2, 2, [0, 16384, 49152, 32768], [1] * 4, 1, [1] * 4, 64, "least", [[("mask", 0, 0, 0, 0), "settle", "show"]]
)
TURN_REPORT = b"""insar-report 1
size 2 2
tile 64
rule least
revised 1 mask 0 0 0 0
kept 0 1
published 1 1
costs 0 0
ncols 2
nrows 2
xllcorner 0
yllcorner 0
cellsize 1
NODATA_value -9223372036854775808
-9223372036854775808 16384
49152 32768
faces 0 0
flows
shown 1 1
end
"""

# A line that rises by 40000 a pixel, as only the expected slope tells, in two tiles; and its report.
STEEP = Session(4, 1, [0, 40000, 14464, 54464], [1] * 4, 1, [1] * 4, 2, "least", [["settle", "show"]], (30000, 0))
STEEP_REPORT = b"""insar-report 2
size 4 1
tile 2
rule least
ramp 30000 0
steep 1
kept 1 0
kept 0 0
published 1 0
costs 0 0
ncols 4
nrows 1
xllcorner 0
yllcorner 0
cellsize 1
NODATA_value -9223372036854775808
0 40000 80000 120000
faces 0
faces 1
flows 0
shown 1 0
end
"""

# The turn with nothing masked. About a slope of 30000 to the right its lower edge rises by 49152, so the cell has no residue.
OPEN = Session(2, 2, TURN.phase, [5, 5, 3, 9], 9, [1] * 4, 64, "least", [["settle", "show"]], (30000, 0))
OPEN_REPORT = b"""insar-report 2
size 2 2
tile 64
rule least
ramp 30000 0
steep 1
kept 0 0
published 1 0
costs 0 0
ncols 2
nrows 2
xllcorner 0
yllcorner 0
cellsize 1
NODATA_value -9223372036854775808
0 16384
-16384 32768
faces 0 0
flows
shown 1 0
end
"""

# Two tiles beside each other whose seam has edges of weight 9, 1 and 4. Departures of 0, 1 and 2 cost 1 + 4 * 2 without steepness,
# which is the least, and 1 + 4 * (1 + 3) with the steepness 3, where -1, 0 and 1 cost 9 + 4.
TORN = Session(
    4,
    3,
    [0, 0, 0, 0, 33536, 33536, 33536, 32000, 1536, 1536, 1536, 64000],
    [9] * 4 + [1] * 4 + [4] * 4,
    9,
    [1] * 12,
    3,
    "least",
    [["settle"]],
    steep=3,
)
TORN_REPORT = b"""insar-report 2
size 4 3
tile 3
rule least
ramp 0 0
steep 3
kept 0 0
kept 1 0
published 1 0
costs 0 13
ncols 4
nrows 3
xllcorner 0
yllcorner 0
cellsize 1
NODATA_value -9223372036854775808
0 0 0 -65536
-32000 -32000 -32000 -33536
-64000 -64000 -64000 -1536
faces 0 0 0 0 0
faces 1
flows -9 0 9
end
"""


def second_version(report):
    """A report of version 1 as one of version 2, which is not written, and right."""
    return report.replace(b"report 1\n", b"report 2\n", 1).replace(b"least\n", b"least\nramp 0 0\nsteep 1\n", 1)


# What a spoiled copy of a report has in place of a part, and the judge's word for it.
SPOILED = [
    (LINE, LINE_REPORT, b"0 20000 40000 60000", b"0 20000 40000 -5536", "costs 1 and 0 is proved"),
    (LINE, LINE_REPORT, b"0 20000 40000 60000", b"65536 85536 105536 125536", "anchor"),
    (LINE, LINE_REPORT, b"flows\n", b"flows 0\n", "seams shape"),
    (LINE, LINE_REPORT, b"kept 0 0\n", b"kept 0 0\nkept 0 0\n", "not to be kept"),
    (LINE, LINE_REPORT, b"shown 1 0\n", b"shown 1 none\n", "newest"),
    (LINE, LINE_REPORT, b"shown 1 0\n", b"", "not at its end"),
    (LINE, LINE_REPORT, b"shown 1 0\n", b"shown 1 0\nshown 1 0\n", "is another"),
    (LINE, LINE_REPORT, b"end\n", b"end\nend\n", "after the end"),
    (LINE, LINE_REPORT, b"0 20000", b"-0 20000", "no plain numbers"),
    (TURN, TURN_REPORT, b"faces 0 0", b"faces 0 1", "face (0, 0, 1, 0)"),
    (TURN, TURN_REPORT, b"faces 0 0", b"faces 0", "tile 0 shape"),
    (TURN, TURN_REPORT, b"kept 0 1\n", b"", "nothing is to be published"),
    (TURN, TURN_REPORT, b"kept 0 1\n", b"kept 0 0\n", "not to be kept"),
    (TURN, TURN_REPORT, b"808 16384", b"808 16385", "value 1 0 is not congruent"),
    (TURN, TURN_REPORT, b"-9223372036854775808 16384", b"0 16384", "value 0 0 is masked"),
    (TURN, TURN_REPORT, b"costs 0 0", b"costs 1 0", "tile cost 1 is written, 0 counted"),
    (TURN, TURN_REPORT, b"costs 0 0", b"costs 0 1", "seam cost 1 is written, 0 counted"),
    (TURN, TURN_REPORT, b"end\n", b"", "line 20 is missing"),
    (STEEP, STEEP_REPORT, b"0 40000 80000 120000", b"0 40000 80000 54464", "costs 1 and 0 is proved"),
    (STEEP, STEEP_REPORT, b"0 40000 80000 120000", b"0 40000 14464 54464", "the seams cost 1 and 0 is proved"),
    (STEEP, STEEP_REPORT, b"ramp 30000 0", b"ramp 0 30000", "line 5 is"),
    (STEEP, STEEP_REPORT, b"ramp 30000 0", b"ramp 29999 0", "line 5 is"),
    (STEEP, STEEP_REPORT, b"steep 1", b"steep 2", "line 6 is"),
    (STEEP, STEEP_REPORT, b"steep 1\n", b"", "line 6 is"),
    (STEEP, STEEP_REPORT, b"report 2", b"report 1", "version 1 has no ramp and"),
    (OPEN, OPEN_REPORT, b"-16384 32768", b"49152 32768", "costs 6 and 0 is proved"),
    (TORN, TORN_REPORT, b"flows -9 0 9", b"flows -5 1 4", "the seams cost 13 and 9 is proved"),
    (TORN, TORN_REPORT, b"flows -9 0 9", b"flows -13 0 13", "flow (2, 2, 3, 2)"),
    (TORN, TORN_REPORT, b"steep 3", b"steep 1", "line 6 is"),
    (LINE, second_version(LINE_REPORT), b"ramp 0 0", b"ramp 0 1", "line 5 is"),
    (LINE, second_version(LINE_REPORT), b"ramp 0 0\nsteep 1\n", b"", "line 5 is"),
]


def try_the_judge():
    for session, report in ((LINE, LINE_REPORT), (TURN, TURN_REPORT), (STEEP, STEEP_REPORT), (OPEN, OPEN_REPORT), (TORN, TORN_REPORT)):
        judge(session, report)
        assert session.is_plain() or session.options()[4:] in (["--ramp-x", "30000"], ["--steep", "3"])
    judge(LINE, second_version(LINE_REPORT))
    judge(TURN, second_version(TURN_REPORT))
    for session, report, old, new, word in SPOILED:
        assert report.count(old) == 1, old
        try:
            judge(session, report.replace(old, new))
        except Refused as why:
            assert word in str(why), f"{new!r} is refused by {why}"
        else:
            raise AssertionError(f"{new!r} in place of {old!r} is accepted")


def main():
    try_the_judge()
    if len(sys.argv) < 2:
        return 0
    if (asked := asked_of(sys.argv[1:], 500, 7)) is None:
        print("stress.py: the words are PROGRAM [COUNT [SEED]], as in stress.py PROGRAM 500 7", file=sys.stderr)
        return 2
    program, count, seed = asked
    failed = 0
    for number in range(count):
        dice = random.Random(f"{seed} {number}")
        session = random_session(dice)
        text = session.bytes_of(dice)
        try:
            for workers in WORKERS:
                judge(session, run(program, session, text, workers))
        except Refused as why:
            failed += 1
            print(f"session {number} of the seed {seed}, workers {workers}: {why}", flush=True)
    print(f"{count - failed} passed, {failed} failed")
    return int(failed > 0)


if __name__ == "__main__":
    sys.exit(main())
