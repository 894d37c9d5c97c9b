#!/usr/bin/python3
"""Reads a report of the program, or a whole text, into NumPy arrays. It needs this one file and NumPy.

    from wundjeska.report_reader import read_report
    report = read_report("report")
    report.surfaces[-1].cycles()        # the last surface, float64, (rows, columns), NaN at masked pixels

Reports have version 1, or version 2, which tells an expected ramp and a steepness besides. A whole text is what the command `whole`
writes: it is read as a report of one tile with one surface. The reader is strict: it reads the
one spelling that docs/FORMATS.md gives, to the end of the input, and raises BrokenLine with the number of the first line with
which no report begins. It reads and does not judge: whether the numbers of a report
certify its surfaces, and whether there is a face for each cell, is what the program's `check` and `check-whole` tell.

Arrays have the shape (rows, columns), and row 0 is the top one. Values are in units of 1/65536 cycle.
"""
import argparse
import io
import os
import re
import sys
from dataclasses import dataclass, field
from typing import BinaryIO, Dict, Iterator, List, NoReturn, Optional, Pattern, Tuple, Union

import numpy as np

PathLike = Union[str, "os.PathLike[str]"]
CYCLE = 65536  # units in a cycle
NODATA = -(2**63)  # the value of a masked pixel
WHOLE_SIDE, WHOLE_PIXELS = 65535, 268435456  # that a raster may have which is solved at once
TILED_SIDE, TILED_PIXELS = 4096, 4194304  # the same of one in tiles, and of a grid
NUMBER = rb"(0|[1-9][0-9]{0,%d})"
SMALL, COST = NUMBER % 9, NUMBER % 38  # with as many digits as 2^32 and 2^128
SIGNED = rb"(?:0|-?[1-9][0-9]{0,18})"
NUMBERS = re.compile(SIGNED + rb"(?: " + SIGNED + rb")*")
LONG = re.compile(rb"-?[0-9]{19}")
HEAD = (
    rb"insar-(report 1|report 2|whole 1)",
    rb"size %b %b" % (SMALL, SMALL),
    rb"tile %b" % SMALL,
    rb"rule (least|mean|product)",
)
SLOPE = rb"(0|-?[1-9][0-9]{0,4})"
RAMP, STEEP = rb"ramp %b %b" % (SLOPE, SLOPE), rb"steep %b" % SMALL
MAX_STEEPNESS = 16
COSTS = re.compile(rb"costs %b %b" % (COST, COST))
ONE_COST = re.compile(rb"cost %b" % COST)
REVISED = re.compile(rb"revised %b (mask|unmask) %b %b %b %b" % ((SMALL,) * 5))
PLAIN_ENTRY = re.compile(rb"(kept|published|settled|shown) %b %b" % (SMALL, SMALL))
SHOWN_NONE = re.compile(rb"shown %b none" % SMALL)


class BrokenLine(ValueError):
    """The line of this number, from 1, is the first with which no report begins."""

    def __init__(self, number: int, why: str):
        super().__init__(f"line {number}: {why}")
        self.number = number


@dataclass
class Surface:
    """A published surface, or that of a whole text, whose one tile costs what it costs in all.

    values  int64, (height, width), in units of 1/65536 cycle; NODATA at masked pixels
    faces   for each tile an int64 array: the faces of its cells in row order (Report.face_grid gives them their shape)
    flows   int64: the flow of each seam edge, in row order of first pixels, the right edge before the down edge
    """

    analyst: int
    revision: int
    tile_cost: int
    seam_cost: int
    values: np.ndarray
    faces: List[np.ndarray]
    flows: np.ndarray

    def opened(self) -> np.ndarray:
        """True at each pixel that has a value; bool, (height, width)."""
        return self.values != NODATA

    def cycles(self) -> np.ndarray:
        """The values in cycles; float64, (height, width), NaN at masked pixels."""
        return np.where(self.opened(), self.values / CYCLE, np.nan)


@dataclass
class Entry:
    """An entry of the history, with the number of its line.

    kind is 'revised', 'kept', 'published', 'settled' or 'shown'. What an entry has not is None; the revision of 'shown' is
    None if nothing was published yet. box is (x0, y0, x1, y1), both corners included.
    """

    kind: str
    line: int
    analyst: Optional[int] = None
    revision: Optional[int] = None
    tile: Optional[int] = None
    stamp: Optional[int] = None
    change: Optional[str] = None  # 'mask' or 'unmask'
    box: Optional[Tuple[int, int, int, int]] = None
    surface: Optional[Surface] = None


@dataclass
class Report:
    """A report: its head, and the history in order. width, height and side (of a tile) are in pixels.

    version    1, which is of no ramp and the steepness 1; or 2
    ramp       the slopes to the right and downwards about which differences are wrapped, in 1/65536 cycle a pixel
    steepness  how much each cycle of a departure after the first costs; the first costs 1
    is_whole   whether it is a whole text: its one tile is the raster, and its one entry is that of its surface
    """

    width: int
    height: int
    side: int
    rule: str
    entries: List[Entry] = field(default_factory=list)
    version: int = 1
    ramp: Tuple[int, int] = (0, 0)
    steepness: int = 1
    is_whole: bool = False

    @property
    def surfaces(self) -> List[Surface]:
        """The published surfaces in the order of the history."""
        return [entry.surface for entry in self.entries if entry.surface is not None]

    def tile_count(self) -> int:
        return -(-self.width // self.side) * -(-self.height // self.side)

    def window(self, tile: int) -> Tuple[int, int, int, int]:
        """The tile's first column and row, its width and its height."""
        row, column = divmod(tile, -(-self.width // self.side))
        x, y = column * self.side, row * self.side
        return x, y, min(self.side, self.width - x), min(self.side, self.height - y)

    def face_grid(self, surface: Surface, tile: int) -> np.ndarray:
        """The tile's faces as cells, int64, (height - 1, width - 1) of the tile. ValueError if they are not that many."""
        _, _, width, height = self.window(tile)
        return surface.faces[tile].reshape(height - 1, width - 1)

    def masks(self, first: np.ndarray) -> Iterator[np.ndarray]:
        """The mask of each revision from 0, bool, (height, width), True at open pixels. `first` is that of revision 0."""
        opened = np.array(first, dtype=bool)
        yield opened.copy()
        for entry in self.entries:
            if entry.box is not None:
                x0, y0, x1, y1 = entry.box
                opened[y0 : y1 + 1, x0 : x1 + 1] = entry.change == "unmask"
                yield opened.copy()


class Lines:
    """The lines of a file, counted from 1; `number` is that of the line taken last."""

    def __init__(self, file: BinaryIO):
        self.file, self.number = file, 0

    def take(self) -> bytes:
        """The next line without its LF."""
        line = self.file.readline()
        self.number += 1
        if not line.endswith(b"\n"):
            self.refuse("the input ends in this line" if line else "the input ends before this line")
        return line[:-1]

    def take_words(self, form: Union[bytes, Pattern[bytes]], what: str) -> Tuple[bytes, ...]:
        """What the groups of a form match in the next line."""
        found = re.fullmatch(form, self.take())
        if found is None:
            self.refuse(f"wanted {what}")
        return found.groups()

    def take_exactly(self, wanted: str) -> None:
        if self.take() != wanted.encode():
            self.refuse(f"wanted '{wanted}'")

    def take_end(self) -> None:
        """Nothing, at the end of the input."""
        if self.file.read(1):
            raise BrokenLine(self.number + 1, "a line stands after the last one")

    def refuse(self, why: str) -> NoReturn:
        raise BrokenLine(self.number, why)

    def check_size(self, width: int, height: int, is_whole: bool = False) -> None:
        """Refuses a size that a raster cannot have which is solved at once, or else one in tiles."""
        side, pixels = (WHOLE_SIDE, WHOLE_PIXELS) if is_whole else (TILED_SIDE, TILED_PIXELS)
        if not (0 < width * height <= pixels and max(width, height) <= side):
            what, more = ("a whole text", "") if is_whole else ("a raster in tiles", "; a whole text may be of more")
            self.refuse(f"{what} is of from 1 to {pixels} pixels, and of at most {side} a side{more}")

    def at_most(self, limit: int, *words: bytes) -> Tuple[int, ...]:
        """The words as numbers up to the limit."""
        numbers = tuple(int(word) for word in words)
        if any(number > limit for number in numbers):
            self.refuse(f"a number is above {limit}")
        return numbers

    def numbers(self, text: bytes) -> np.ndarray:
        """Numbers separated by one space; int64, (count)."""
        if not NUMBERS.fullmatch(text):
            self.refuse("wanted whole numbers separated by one space")
        if any(not -(2**63) <= int(word) < 2**63 for word in LONG.findall(text)):
            self.refuse("a number does not fit 64 bits")
        return np.fromstring(text, dtype=np.int64, sep=" ")

    def listed(self, words: str) -> np.ndarray:
        """What stands after these words in the next line, a space before each number; int64, (count), maybe none."""
        line = self.take()
        if line == words.encode():
            return np.zeros(0, dtype=np.int64)
        if not line.startswith(words.encode() + b" "):
            self.refuse(f"wanted '{words}' and numbers")
        return self.numbers(line[len(words) + 1 :])


def read_ramp(lines: Lines) -> Tuple[int, int]:
    """The line on the ramp of a report of version 2."""
    across, down = map(int, lines.take_words(RAMP, "'ramp X Y'"))
    if not all(-CYCLE // 2 <= slope < CYCLE // 2 for slope in (across, down)):
        lines.refuse(f"a slope is from {-CYCLE // 2} to {CYCLE // 2 - 1}")
    return across, down


def read_steepness(lines: Lines) -> int:
    """The line on the steepness of a report of version 2."""
    (steepness,) = lines.at_most(MAX_STEEPNESS, *lines.take_words(STEEP, "'steep Q'"))
    if steepness < 1:
        lines.refuse(f"the steepness is from 1 to {MAX_STEEPNESS}")
    return steepness


def read_side(lines: Lines) -> int:
    """The line on the side of tiles."""
    (side,) = lines.at_most(128, *lines.take_words(HEAD[2], "'tile SIDE'"))
    if side < 2:
        lines.refuse("a tile has a side of 2 to 128")
    return side


def read_head(lines: Lines) -> Report:
    """The first four lines, six if the report has version 2, or five of a whole text."""
    (kind,) = lines.take_words(HEAD[0], "'insar-report 1', 'insar-report 2' or 'insar-whole 1'")
    is_whole, has_terms = kind == b"whole 1", kind != b"report 1"
    width, height = map(int, lines.take_words(HEAD[1], "'size WIDTH HEIGHT'"))
    lines.check_size(width, height, is_whole)
    side = max(width, height) if is_whole else read_side(lines)
    (rule,) = lines.take_words(HEAD[3], "'rule least', 'rule mean' or 'rule product'")
    report = Report(width, height, side, rule.decode(), version=1 + has_terms, is_whole=is_whole)
    if has_terms:
        report.ramp, report.steepness = read_ramp(lines), read_steepness(lines)
    return report


def read_grid(lines: Lines, width: int, height: int) -> np.ndarray:
    """An Esri ASCII grid of this size; int64, (height, width), NODATA at masked pixels."""
    lines.take_exactly(f"ncols {width}")
    lines.take_exactly(f"nrows {height}")
    return read_values(lines, width, height)


def read_values(lines: Lines, width: int, height: int) -> np.ndarray:
    """What stands after the size of a grid."""
    for wanted in ("xllcorner 0", "yllcorner 0", "cellsize 1", f"NODATA_value {NODATA}"):
        lines.take_exactly(wanted)
    return np.array([read_row(lines, width) for _ in range(height)])


def read_row(lines: Lines, width: int) -> np.ndarray:
    """A row of a grid; int64, (width)."""
    row = lines.numbers(lines.take())
    if len(row) != width:
        lines.refuse(f"{len(row)} values where {width} are wanted")
    return row


def read_surface(lines: Lines, report: Report, analyst: int, revision: int) -> Surface:
    """What stands after a line `published`."""
    tile_cost, seam_cost = lines.at_most(2**128 - 1, *lines.take_words(COSTS, "'costs TILES SEAMS'"))
    values = read_grid(lines, report.width, report.height)
    faces = [lines.listed(f"faces {tile}") for tile in range(report.tile_count())]
    return Surface(analyst, revision, tile_cost, seam_cost, values, faces, lines.listed("flows"))


def read_whole_surface(lines: Lines, report: Report) -> Surface:
    """What stands after the head of a whole text."""
    (cost,) = lines.at_most(2**128 - 1, *lines.take_words(ONE_COST, "'cost COST'"))
    values = read_grid(lines, report.width, report.height)
    rows = report.height - 1 if report.width > 1 else 0
    none = np.zeros(0, dtype=np.int64)
    faces = np.concatenate([none, *(read_faces(lines, report.width - 1) for _ in range(rows))])
    lines.take_exactly("end")
    return Surface(1, 0, cost, 0, values, [faces], none)


def read_faces(lines: Lines, count: int) -> np.ndarray:
    """The faces of a row of cells; int64, (count)."""
    faces = lines.listed("faces")
    if len(faces) != count:
        lines.refuse(f"{len(faces)} faces where {count} are wanted")
    return faces


def entry_of(lines: Lines, line: bytes) -> Entry:
    """The entry of a line, without its surface."""
    if found := REVISED.fullmatch(line):
        first, change, *corners = found.groups()
        analyst, x0, y0, x1, y1 = lines.at_most(2**32 - 1, first, *corners)
        return Entry("revised", lines.number, analyst=analyst, change=change.decode(), box=(x0, y0, x1, y1))
    if found := SHOWN_NONE.fullmatch(line):
        (analyst,) = lines.at_most(2**32 - 1, *found.groups())
        return Entry("shown", lines.number, analyst=analyst)
    if found := PLAIN_ENTRY.fullmatch(line):
        kind, *words = found.groups()
        number, other = lines.at_most(2**32 - 1, *words)
        if kind == b"kept":
            return Entry("kept", lines.number, tile=number, stamp=other)
        return Entry(kind.decode(), lines.number, analyst=number, revision=other)
    lines.refuse("wanted an entry of the history, or 'end'")


def read_report_from(file: BinaryIO) -> Report:
    """Reads a report or a whole text from a binary file that is open, to its end. Raises BrokenLine."""
    lines = Lines(file)
    report = read_head(lines)
    if report.is_whole:
        surface = read_whole_surface(lines, report)
        report.entries.append(Entry("published", 6, analyst=1, revision=0, surface=surface))
    else:
        read_entries(lines, report)
    lines.take_end()
    return report


def read_entries(lines: Lines, report: Report) -> None:
    """Reads the entries of a report and its last line."""
    while (line := lines.take()) != b"end":
        entry = entry_of(lines, line)
        if entry.kind == "published" and entry.analyst is not None and entry.revision is not None:
            entry.surface = read_surface(lines, report, entry.analyst, entry.revision)
        report.entries.append(entry)


def read_grid_from(file: BinaryIO) -> np.ndarray:
    """Reads what the command `grid` wrote, to its end; int64, (rows, columns), NODATA at masked pixels. Raises BrokenLine."""
    lines = Lines(file)
    (width,) = lines.at_most(TILED_SIDE, *lines.take_words(rb"ncols %b" % SMALL, "'ncols WIDTH'"))
    (height,) = lines.at_most(TILED_SIDE, *lines.take_words(rb"nrows %b" % SMALL, "'nrows HEIGHT'"))
    lines.check_size(width, height)
    values = read_values(lines, width, height)
    lines.take_end()
    return values


def read_report(path: str) -> Report:
    """Reads the report in a file. Raises BrokenLine, or OSError if the file cannot be read."""
    with open(path, "rb") as file:
        return read_report_from(file)


def arrays_of(report: Report) -> Dict[str, np.ndarray]:
    """The arrays of a report by name, as --save writes them."""
    arrays = {"size": np.array([report.height, report.width]), "side": np.array(report.side)}
    arrays["ramp"] = np.array(report.ramp)
    for number, surface in enumerate(report.surfaces):
        arrays[f"values_{number}"] = surface.values
        arrays[f"faces_{number}"] = np.concatenate(surface.faces)
        arrays[f"faces_of_tiles_{number}"] = np.array([len(faces) for faces in surface.faces])
        arrays[f"flows_{number}"] = surface.flows
    return arrays


def summary_of(report: Report) -> Iterator[str]:
    """A line on the report, and one on each surface."""
    kinds = [entry.kind for entry in report.entries]
    counts = ", ".join(f"{kinds.count(kind)} {kind}" for kind in dict.fromkeys(kinds))
    terms = f", ramp {report.ramp[0]} {report.ramp[1]}" if report.ramp != (0, 0) else ""
    terms += f", steepness {report.steepness}" if report.steepness > 1 else ""
    tiles = "the whole raster at once" if report.is_whole else f"tiles of {report.side}"
    history = "" if report.is_whole else f"; history: {counts or 'none'}"
    yield f"{report.width} by {report.height} pixels, {tiles}, rule {report.rule}{terms}{history}"
    for surface in report.surfaces:
        opened = surface.values[surface.opened()]
        span = f"{opened.min() / CYCLE:.4f} to {opened.max() / CYCLE:.4f} cycles" if len(opened) else "no value"
        if report.is_whole:
            yield f"{len(opened)} open pixels, {span}, cost {surface.tile_cost}"
        else:
            yield (
                f"revision {surface.revision} by analyst {surface.analyst}: {len(opened)} open pixels, {span}, "
                f"tiles cost {surface.tile_cost}, seams {surface.seam_cost}"
            )


def words() -> argparse.ArgumentParser:
    found = argparse.ArgumentParser(
        description="Reads a report, and tells what is in it.",
        epilog="example: report_reader.py report --save arrays.npz. The status is 3 if the report breaks its form.",
    )
    found.add_argument("report", help="a file that `insar_unwrap unwrap` or `insar_unwrap whole` wrote")
    found.add_argument(
        "--save",
        metavar="FILE.npz",
        help="write the arrays of each surface, numbered from 0: values_0 (rows, columns) in 1/65536 cycle, faces_0 of all "
        "tiles one after the other, faces_of_tiles_0 (how many each tile has), flows_0; besides size, side and ramp",
    )
    return found


def npz_of(report: Report) -> bytes:
    """The arrays of a report as a file of NumPy."""
    arrays = io.BytesIO()
    np.savez_compressed(arrays, **arrays_of(report))
    return arrays.getvalue()


def tell(path: str, save: Optional[PathLike] = None) -> None:
    """Tells what is in a report, and saves its arrays in a file."""
    report = read_report(path)
    for line in summary_of(report):
        print(line)
    if save is not None:
        with open(save, "wb") as file:
            file.write(npz_of(report))


def main() -> int:
    asked = words().parse_args()
    try:
        tell(asked.report, asked.save)
    except BrokenLine as broken:
        print(f"{asked.report}: {broken}", file=sys.stderr)
        return 3
    except OSError as error:
        print(error, file=sys.stderr)
        return 5
    return 0


if __name__ == "__main__":
    sys.exit(main())
