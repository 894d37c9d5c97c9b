"""What bytes are, by docs/FORMATS.md: the session or the grids that they spell or the line that refuses them, the first line that
no report has, and the whole text that they are. It shares no code with the program, and is made for inputs far below the limit of
bytes.
"""
import pathlib
import re
import sys
from typing import NamedTuple

sys.path.insert(0, str(pathlib.Path(__file__).resolve().parent.parent))
import stress  # noqa: E402

WHITE = re.compile(rb"[ \t\n\v\f\r]*")
DIGITS = re.compile(rb"[0-9]+")
COMMENT_END = re.compile(rb"[\n\r]")
TOP = 2**32 - 1
PLAIN = rb"(0|[1-9][0-9]*)"
CHANGE = re.compile(rb"(mask|unmask) " + b" ".join([PLAIN] * 4))
SETTLED_PIXELS, CHANGED_TILES = 67_108_864, 16_777_216


class Refused(Exception):
    """Bytes are no session, or no grids. It carries the line of standard error, without its LF."""


def capped(digits):
    """The number of decimal digits, at most 4,294,967,295."""
    digits = digits.lstrip(b"0")
    return TOP if len(digits) > 10 else min(int(digits or b"0"), TOP)


class Source:
    """Bytes that are read from the left. `place` counts from 0 at the first byte."""

    def __init__(self, data):
        self.data, self.place = data, 0

    def peek(self):
        """The next byte, or none at the end."""
        return self.data[self.place : self.place + 1]

    def skip(self, pattern):
        """The bytes that match the pattern here, which are taken."""
        match = pattern.match(self.data, self.place)
        found = match.group() if match else b""
        self.place += len(found)
        return found

    def number(self):
        """The decimal number here, capped, or None if no digit stands here."""
        digits = self.skip(DIGITS)
        return capped(digits) if digits else None


class PlaneReader:
    """Reads a plane of a role: `phase`, `weight` or `mask`."""

    def __init__(self, source, role):
        self.source, self.role = source, role

    def refuse(self, number, name, rest=""):
        raise Refused(f"input fault {number} {name} {self.role}{rest}")

    def form(self, place=None):
        """Refuses the byte at a place, or the next one."""
        self.refuse(2, "form", f" byte {self.source.place if place is None else place}")

    def gap(self):
        """White space, and comments after it."""
        if not self.source.skip(WHITE):
            self.form()
        while self.source.peek() == b"#":
            end = COMMENT_END.search(self.source.data, self.source.place)
            self.source.place = end.end() if end else len(self.source.data)
            self.source.skip(WHITE)

    def header_number(self):
        """The number after a gap, and the place of its first digit."""
        self.gap()
        place = self.source.place
        number = self.source.number()
        if number is None:
            self.form()
        return number, place

    def header(self):
        """Whether the raster is raw, its width and height in pixels, and its maxval."""
        magic = self.source.data[self.source.place : self.source.place + 2]
        if magic not in (b"P5", b"P2"):
            self.refuse(1, "magic")
        self.source.place += 2
        width, height = self.header_number()[0], self.header_number()[0]
        maxval, place = self.header_number()
        if not WHITE.fullmatch(self.source.peek()) or not self.source.peek():
            self.form()
        self.source.place += 1
        if not (1 <= width <= 4096 and 1 <= height <= 4096 and width * height <= 4_194_304):
            self.refuse(3, "size", f" {width} {height}")
        if self.role == "phase" and maxval != 65535:
            raise Refused(f"input fault 4 maxval {maxval}")
        if not 1 <= maxval <= 65535:
            self.form(place)
        return magic == b"P5", width, height, maxval

    def judge(self, index, value, maxval):
        """Refuses a sample above maxval."""
        if value > maxval:
            self.refuse(5, "sample", f" index {index} value {value}")

    def raw(self, count, maxval):
        """So many samples of one byte, or of two from maxval 256 on."""
        size = 1 if maxval < 256 else 2
        piece = self.source.data[self.source.place : self.source.place + count * size]
        samples = [int.from_bytes(piece[i : i + size], "big") for i in range(0, len(piece) - size + 1, size)]
        for index, value in enumerate(samples):
            self.judge(index, value, maxval)
        if len(samples) < count:
            self.refuse(6, "short", f" samples {len(samples)}")
        self.source.place += count * size
        return samples

    def plain(self, count, maxval):
        """So many samples in digits, and the white space after them."""
        samples = []
        for index in range(count):
            self.source.skip(WHITE)
            if not self.source.peek():
                self.refuse(6, "short", f" samples {index}")
            value = self.source.number()
            if value is None:
                self.form()
            self.judge(index, value, maxval)
            if not WHITE.fullmatch(self.source.peek()):
                self.form()
            samples.append(value)
        self.source.skip(WHITE)
        return samples

    def plane(self):
        """The width and height in pixels, the maxval and the samples in row order."""
        is_raw, width, height, maxval = self.header()
        samples = (self.raw if is_raw else self.plain)(width * height, maxval)
        return width, height, maxval, samples


class ScriptReader:
    """Reads the script part of a raster's session. Lines count from 1."""

    def __init__(self, source, width, height, side):
        self.source, self.width, self.height = source, width, height
        self.tiles = -(-width // side) * -(-height // side)
        self.scripts, self.line, self.settles, self.changes = [], 0, 0, 0

    def refuse(self, number, name):
        raise Refused(f"input fault {number} {name}line {self.line}")

    def next_line(self):
        """The next line, without its LF."""
        data, start = self.source.data, self.source.place
        self.line += 1
        end = data.find(b"\n", start, start + 65)
        if end < 0 and len(data) - start >= 65:
            self.refuse(9, "")
        if end < 0:
            raise Refused("input fault 14 no end")
        self.source.place = end + 1
        return data[start:end]

    def command(self, text):
        """The command of a line: `settle`, `show`, or an edit and its box, both corners included."""
        if text in (b"settle", b"show"):
            return text.decode()
        match = CHANGE.fullmatch(text)
        if not match:
            self.refuse(9, "")
        return match.group(1).decode(), *(capped(match.group(i)) for i in range(2, 6))

    def judge(self, command):
        """Refuses a command beyond the limits or the raster."""
        if len(self.scripts[-1]) >= 4096:
            self.refuse(12, "commands ")
        if isinstance(command, tuple):
            _, x0, y0, x1, y1 = command
            if not (x0 <= x1 < self.width and y0 <= y1 < self.height):
                self.refuse(10, "outside ")
        self.settles += command == "settle"
        self.changes += isinstance(command, tuple)
        if self.settles * self.width * self.height > SETTLED_PIXELS:
            self.refuse(13, "settles ")
        if self.changes * self.tiles > CHANGED_TILES:
            self.refuse(16, "edits ")

    def take(self, text):
        """Takes a line that is not `end`."""
        if text == b"analyst":
            if len(self.scripts) == 8:
                self.refuse(11, "analysts ")
            self.scripts.append([])
            return
        command = self.command(text)
        if not self.scripts:
            self.refuse(9, "")
        self.judge(command)
        self.scripts[-1].append(command)

    def read(self):
        """The scripts up to the line `end`; `settle` and `show` if there is no section."""
        while (text := self.next_line()) != b"end":
            self.take(text)
        return self.scripts or [["settle", "show"]]


def read_planes(source):
    """The phase plane, the weights and the mask, each with its width, height, maxval and samples."""
    width, height, maxval, phase = PlaneReader(source, "phase").plane()
    planes = [(width, height, maxval, phase), (width, height, 1, [1] * len(phase)), (width, height, 1, [1] * len(phase))]
    for place, role in ((1, "weight"), (2, "mask")):
        if source.peek() != b"P":
            break
        planes[place] = PlaneReader(source, role).plane()
        if planes[place][:2] != (width, height):
            raise Refused(f"input fault 8 sizes {role}")
    return planes


def read_session(data, side, rule, alone, ramp=(0, 0), steep=1):
    """The session of bytes, and the bytes after it, if it need not stand alone. Raises Refused.

    `side` is in pixels, `ramp` the expected slopes to the right and downwards, and `steep` the steepness of costs.
    """
    source = Source(data)
    (width, height, _, phase), (_, _, maxval, weights), (_, _, _, mask) = read_planes(source)
    if alone and not source.peek():
        scripts = [["settle", "show"]]
    else:
        scripts = ScriptReader(source, width, height, side).read()
    if alone and source.peek():
        raise Refused(f"input fault 15 after end byte {source.place}")
    opened = [int(sample > 0) for sample in mask]
    found = stress.Session(width, height, phase, weights, maxval, opened, side, rule, scripts, ramp, steep)
    return found, data[source.place :]


class GridsReader:
    """Reads grids, one after another. Grids and their lines count from 1."""

    def __init__(self, data: bytes) -> None:
        self.data, self.place, self.number, self.line = data, 0, 0, 0

    def demand(self, holds: bool) -> None:
        if not holds:
            raise Refused(f"input fault 19 grid {self.number} line {self.line}")

    def next_line(self) -> bytes:
        """The next line, without its LF. One that the end of the input cuts is no line."""
        self.line += 1
        start, end = self.place, self.data.find(b"\n", self.place)
        self.demand(end >= 0)
        self.place = end + 1
        return self.data[start:end]

    def side(self, label: bytes) -> int:
        match = re.fullmatch(label + b" " + PLAIN, self.next_line())
        self.demand(match is not None and fits(match[1], 1, 4096))
        assert match
        return int(match[1])

    def row(self, width: int) -> list[int]:
        parts = self.next_line().split(b" ")
        self.demand(len(parts) == width)
        self.demand(all(stress.SIGNED.fullmatch(part) and fits(part, -(2**63), 2**63 - 1) for part in parts))
        return [int(part) for part in parts]

    def grid(self) -> list[list[int]]:
        """The rows of the next grid."""
        self.number, self.line = self.number + 1, 0
        width, height = self.side(b"ncols"), self.side(b"nrows")
        self.demand(width * height <= 4_194_304)
        for line in (b"xllcorner 0", b"yllcorner 0", b"cellsize 1", b"NODATA_value %d" % stress.NODATA):
            self.demand(self.next_line() == line)
        return [self.row(width) for _ in range(height)]


def read_grids(data: bytes, count: int) -> list[list[list[int]]]:
    """The rows of so many grids, after which the bytes end. Raises Refused."""
    reader, grids = GridsReader(data), []
    for number in range(1, count + 1):
        grids.append(reader.grid())
        if (len(grids[-1][0]), len(grids[-1])) != (len(grids[0][0]), len(grids[0])):
            raise Refused(f"input fault 21 grid {number} sizes")
    if reader.place < len(data):
        raise Refused(f"input fault 22 after grids byte {reader.place}")
    return grids


class Broken(Exception):
    """A text is no report. It carries the number of its first broken line, from 1."""


ENTRY = re.compile(
    rb"(?:revised N (?:mask|unmask) N N N N|kept N N|published N N|settled N N|shown N (?:N|none))".replace(b"N", PLAIN)
)


def fits(text: bytes, low: int, high: int) -> bool:
    """Whether the number of a text in plain spelling lies between two bounds."""
    return len(text) <= 40 and low <= int(text) <= high


class LineReader:
    """Reads the lines of a text and raises Broken at the first that breaks its form."""

    SIDE, PIXELS = 4096, 4_194_304  # the most of a raster in tiles

    def __init__(self, text):
        self.lines = text.split(b"\n")
        self.cut, self.place = self.lines.pop(), 0

    def next(self):
        """The next line, without its LF."""
        self.place += 1
        if self.place > len(self.lines):
            raise Broken(self.place)
        return self.lines[self.place - 1]

    def demand(self, holds):
        if not holds:
            raise Broken(self.place)

    def expect(self, line):
        self.demand(self.next() == line)

    def finish(self):
        """Nothing is left."""
        if self.place < len(self.lines) or self.cut:
            raise Broken(self.place + 1)

    def match(self, pattern):
        """The groups of a line that has this form, N being a plain number."""
        match = re.fullmatch(pattern.replace(b"N", PLAIN), self.next())
        self.demand(match)
        return match.groups()

    def signed(self, text):
        """The signed numbers of 64 bits of a text, parted by single spaces."""
        parts = text.split(b" ")
        self.demand(all(stress.SIGNED.fullmatch(part) and fits(part, -(2**63), 2**63 - 1) for part in parts))
        return list(map(int, parts))

    def labelled(self, label):
        """The signed numbers after a label, as many as there are."""
        line = self.next()
        if line == label:
            return []
        self.demand(line.startswith(label + b" "))
        return self.signed(line[len(label) + 1 :])

    def size(self):
        """The width and height in pixels."""
        sides = self.match(rb"size N N")
        self.demand(all(fits(side, 1, self.SIDE) for side in sides))
        width, height = map(int, sides)
        self.demand(width * height <= self.PIXELS)
        return width, height

    def terms(self):
        """The ramp, and how much more a departure of several cycles costs."""
        slopes = self.match(rb"ramp (S) (S)".replace(b"S", stress.SIGNED.pattern))
        self.demand(all(fits(slope, -32768, 32767) for slope in slopes))
        (steepness,) = self.match(rb"steep N")
        self.demand(fits(steepness, 1, 16))
        return tuple(map(int, slopes)), int(steepness)

    def costs(self, pattern):
        """The numbers of a line of costs, which have at most 128 bits."""
        found = self.match(pattern)
        self.demand(all(fits(cost, 0, 2**128 - 1) for cost in found))
        return list(map(int, found))

    def grid(self, width, height):
        """The values of a grid of this size, in row order."""
        for line in (b"ncols %d" % width, b"nrows %d" % height, b"xllcorner 0", b"yllcorner 0", b"cellsize 1"):
            self.expect(line)
        self.expect(b"NODATA_value %d" % stress.NODATA)
        values = []
        for _ in range(height):
            values += self.row(self.signed(self.next()), width)
        return values

    def row(self, numbers, count):
        """The numbers of a line, which are so many."""
        self.demand(len(numbers) == count)
        return numbers


class ReportReader(LineReader):
    """Reads the lines of a report."""

    def head(self):
        """The width and height in pixels and the number of tiles."""
        (version,) = self.match(rb"insar-report (1|2)")
        width, height = self.size()
        (side,) = self.match(rb"tile N")
        self.demand(fits(side, 2, 128))
        self.match(rb"rule (?:least|mean|product)")
        if version == b"2":
            self.terms()
        return width, height, -(-width // int(side)) * -(-height // int(side))

    def surface(self, width, height, tiles):
        """The lines after `published`."""
        self.costs(rb"costs N N")
        self.grid(width, height)
        for label in [b"faces %d" % tile for tile in range(tiles)] + [b"flows"]:
            self.labelled(label)

    def read(self):
        """Reads the whole report."""
        width, height, tiles = self.head()
        while (line := self.next()) != b"end":
            match = ENTRY.fullmatch(line)
            self.demand(match and all(fits(number, 0, TOP) for number in match.groups() if number is not None))
            if line.startswith(b"published"):
                self.surface(width, height, tiles)
        self.finish()


def broken_line(text):
    """The number of the first line, from 1, with which a text is no report; None if it is one."""
    try:
        ReportReader(text).read()
    except Broken as broken:
        return broken.args[0]
    return None


class WholeText(NamedTuple):
    """A whole text. `values` are those of the pixels in row order, `faces` those of the cells."""

    width: int
    height: int
    rule: str
    ramp: tuple[int, int]
    steep: int
    cost: int
    values: list[int]
    faces: list[int]


class WholeReader(LineReader):
    """Reads the lines of a whole text."""

    SIDE, PIXELS = 65_535, 268_435_456

    def read(self):
        self.expect(b"insar-whole 1")
        width, height = self.size()
        (rule,) = self.match(rb"rule (least|mean|product)")
        ramp, steep = self.terms()
        (cost,) = self.costs(rb"cost N")
        values, faces = self.grid(width, height), []
        for _ in range(height - 1 if width > 1 else 0):
            faces += self.row(self.labelled(b"faces"), width - 1)
        self.expect(b"end")
        self.finish()
        return WholeText(width, height, rule.decode(), ramp, steep, cost, values, faces)


def read_whole(text: bytes) -> WholeText:
    """The whole text that bytes are. Raises Broken with the number of the first broken line."""
    return WholeReader(text).read()
