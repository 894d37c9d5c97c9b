"""What a case is, and the inputs and undisturbed answers that the cases share.

A command is one of bash. `$P` is the program, and the files that it names stand in the folder where it runs. A status above
128 is that of a signal, less 128. The wanted values are those of docs/FORMATS.md and of the tables of the tests, or counted
by hand, never what the program was seen to do.
"""
import random
from typing import Callable, NamedTuple

from reading import stress
from wanted import NOTHING, Wanted, exactly

LINE = b"P5\n4 1\n65535\n\x00\x00\x4e\x20\x9c\x40\xea\x60"
GRID_HEAD = b"xllcorner 0\nyllcorner 0\ncellsize 1\nNODATA_value -9223372036854775808\n"
LINE_GRID = b"ncols 4\nnrows 1\n" + GRID_HEAD + b"0 20000 40000 60000\n"
TURN = b"P2\n2 2\n65535\n0 16384\n49152 32768\nanalyst\nmask 0 0 0 0\nsettle\nshow\nend\n"
TURN_GRID = b"ncols 2\nnrows 2\n" + GRID_HEAD + b"-9223372036854775808 16384\n49152 32768\n"
STEEP = b"P5\n4 1\n65535\n\x00\x00\x9c\x40\x38\x80\xd4\xc0"
STEEP_GRID = b"ncols 4\nnrows 1\n" + GRID_HEAD + b"0 40000 80000 120000\n"
OPEN = b"P2\n2 2\n65535\n0 16384\n49152 32768\nP2 2 2 9 5 5 3 9\n"
OPEN_GRID = b"ncols 2\nnrows 2\n" + GRID_HEAD + b"0 16384\n-16384 32768\n"
LINE_WATCHED = b"published 0\nreader 1 0\nreader 2 0\n"
LINE_WHOLE = b"insar-whole 1\nsize 4 1\nrule least\nramp 0 0\nsteep 1\ncost 0\n" + LINE_GRID + b"end\n"
# Without the ramp there is a residue. The edges at the left and below weigh 3, and the others 5.
OPEN_WHOLE = b"insar-whole 1\nsize 2 2\nrule least\nramp 0 0\nsteep 1\ncost 3\nncols 2\nnrows 2\n" + GRID_HEAD
OPEN_WHOLE += b"0 16384\n49152 32768\nfaces 3\nend\n"
FLAT = b"P2 2 1 65535 0 0\n"
SCRIPT = b"analyst\nsettle\nshow\nend\n"
# The pixel in the middle weighs less than 2, and stands alone among those that do not.
ISLAND = b"P5\n3 1\n65535\n" + bytes(6) + b"P5\n3 1\n9\n\5\1\5"
ISLAND_SCREENED = ISLAND + b"P5\n3 1\n1\n\1\0\1" + SCRIPT
TRIAL = b"pixels 4096\nresidues 450\nunmasked 3834\ncost 16469\n"
LARGE_SIDE = 256
MAGIC, READ, WRITE = b"input fault 1 magic phase\n", b"read fault\n", b"write fault\n"
NO_GRID = b"input fault 19 grid 1 line 1\n"
WORDS, MEMORY, ENDLESS = b"words refused\n", b"no memory\n", b"input fault 7 long\n"
SIGNAL = 128


class End(NamedTuple):
    """How a run may end: its status, and what it wrote."""

    status: int
    out: Wanted
    err: Wanted


class Row(NamedTuple):
    """A case. `into` is the file that standard output goes into, if it is not captured; `run` runs what is no command."""

    what: str
    command: str
    ends: tuple[End, ...]
    into: str = ""
    run: Callable | None = None


def row(what, command, status, out, err):
    """A case that may end in one way. What it writes is told by its bytes or as Wanted."""
    out, err = (text if isinstance(text, Wanted) else exactly(text) for text in (out, err))
    return Row(what, command, (End(status, out, err),))


def refused(what, command, status, line):
    """A case that writes nothing but a line on standard error."""
    return row(what, command, status, NOTHING, line)


def grid_text(rows):
    """The text of a grid of some rows of values."""
    rows = [list(row) for row in rows]
    lines = (" ".join(map(str, row)) + "\n" for row in rows)
    return b"ncols %d\nnrows %d\n" % (len(rows[0]), len(rows)) + GRID_HEAD + "".join(lines).encode()


# Three surfaces that do not close by a cycle in the last two pixels, and what is left around the loop.
LOOP = grid_text([[0, 10, 20, 30]]) + grid_text([[0, 0, 0, 0]]) + grid_text([[0, 10, -65516, -65506]])
LOOP_CLOSED = b"closure 4 2 1\npatch 2 0 2 1\n" + grid_text([[0, 0, 65536, 65536]]) + grid_text([[0, 0, 1, 1]])
# A surface that falls by 25536 a pixel, and this in nanometres by a wavelength of 56 mm.
FALL = grid_text([[0, -25536, -51072, -76608]])
FALL_DISPLACED = grid_text([[0, -10910157, -21820313, -32730469]])


# A line and a surface half a cycle or more away from its phase, and the nearest surface.
NEAR = LINE + b"end\n" + grid_text([[32768, -12768, 100000, -100000]])
NEAREST = grid_text([[0, -45536, 105536, -71072]])


# The line is one part.
LINE_PARTS = b"parts 1 0 1\npart 0 0 4\n" + grid_text([[1] * 4])


class Use(NamedTuple):
    """A command of the program with words and an input, its undisturbed answer, and the line that refuses an empty input."""

    name: str
    words: str
    file: str
    status: int
    out: bytes
    empty: bytes = MAGIC

    def reads(self):
        return self.name != "trial"

    def text(self):
        """The command, from its input, as bash takes it."""
        return f"exec $P {self.words} <{self.file}"

    def answered(self, what, command):
        """A case whose answer is undisturbed."""
        return row(f"{self.name}: {what}", command, self.status, self.out, NOTHING)

    def refused(self, what, command, status, line):
        """A case of this command that is refused with a line, which is empty if standard error takes none."""
        return refused(f"{self.name}: {what}", command, status, line)


USES = (
    Use("unwrap", "unwrap", "line", 0, stress.LINE_REPORT),
    Use("grid", "grid", "line", 0, LINE_GRID),
    Use("check", "check", "accepted", 0, b"accepted\n"),
    Use("check that refuses", "check", "refused", 1, b"refused history 2\n"),
    Use("screen", "screen --weight 2 --radius 1 --count 1 --tile 32", "island", 0, ISLAND_SCREENED),
    Use("closure", "closure", "loop", 0, LOOP_CLOSED, NO_GRID),
    Use("displacement", "displacement --wavelength 56000000", "fall", 0, FALL_DISPLACED, NO_GRID),
    Use("whole", "whole", "line", 0, LINE_WHOLE),
    Use("check-whole", "check-whole", "whole-accepted", 0, b"accepted\n"),
    Use("check-whole that refuses", "check-whole", "whole-refused", 1, b"refused told\n"),
    Use("parts", "parts", "whole-accepted", 0, LINE_PARTS),
    Use("parts that refuses", "parts", "whole-refused", 1, b"refused told\n"),
    Use("watch", "watch --readers 2", "line", 0, LINE_WATCHED),
    Use("nearest", "nearest", "near", 0, NEAREST),
    Use("trial", "trial 7 64 64 --tile 32", "empty", 0, TRIAL),
)
FURTHER_USES = _, CLOSURE, DISPLACEMENT = USES[4:7]
WHOLE_USES = tuple(use for use in USES if "whole" in use.words and use.status == 0)
READERS = tuple(use for use in USES if use.reads())
TRIAL_USE = USES[-1]


def raw_plane(side, maxval, samples):
    """A raw square plane of so many pixels a side."""
    size = 1 if maxval < 256 else 2
    return b"P5\n%d %d\n%d\n" % (side, side, maxval) + b"".join(sample.to_bytes(size, "big") for sample in samples)


def slope(side):
    """A slope of 300 and 700 units a pixel, without a residue."""
    return raw_plane(side, 65535, ((300 * x + 700 * y) % 65536 for y in range(side) for x in range(side)))


def noisy(side, share=0.95):
    """A session of one analyst on a slope with much noise, with weights and a mask, and an edit between two settles.

    About this share of the pixels is open.
    """
    dice = random.Random(side)
    phase = [(300 * x + 700 * y + dice.randint(-20000, 20000)) % 65536 for y in range(side) for x in range(side)]
    planes = raw_plane(side, 65535, phase) + raw_plane(side, 255, (dice.randint(1, 255) for _ in phase))
    planes += raw_plane(side, 1, (int(dice.random() < share) for _ in phase))
    return planes + b"analyst\nsettle\nmask 0 0 9 9\nsettle\nshow\nend\n"


def masked_whole(side):
    """The whole text of a square raster with each pixel masked: no surface costs anything, and no face but 0 fits."""
    head = b"insar-whole 1\nsize %d %d\nrule least\nramp 0 0\nsteep 1\ncost 0\n" % (side, side)
    faces = b"faces" + b" 0" * (side - 1) + b"\n"
    return head + grid_text([[stress.NODATA] * side] * side) + faces * (side - 1) + b"end\n"


def opened(side):
    """A plane of ones."""
    return raw_plane(side, 1, [1] * side**2)


def board(side):
    """Three surfaces that do not close at every other pixel, as the black squares of a board, and what is left around the loop."""
    squares = [[(x + y) % 2 for x in range(side)] for y in range(side)]
    left, zeros = ([[cycle * square for square in row] for row in squares] for cycle in (65536, 0))
    lines = "".join(f"patch {x} {y} 1 1\n" for y in range(side) for x in range(side) if squares[y][x]).encode()
    black = sum(map(sum, squares))
    counts = b"closure %d %d %d\n" % (side**2, black, black)
    return grid_text(left) + grid_text(zeros) * 2, counts + lines + grid_text(left) + grid_text(squares)


def steps(side):
    """A surface, which is its own displacement if a wavelength has as many nanometres as it has units."""
    return grid_text([[300 * x + 700 * y for x in range(side)] for y in range(side)])


def large_uses(answers):
    """The commands on large inputs, with the undisturbed answers of `unwrap` and `grid` to the file large."""
    yield from (Use(name, f"{name} --workers 1", "large", 0, data) for name, data in answers.items())
    screened = slope(LARGE_SIDE) + opened(LARGE_SIDE) * 2 + SCRIPT
    yield Use("screen", "screen --radius 9 --count 1", "large", 0, screened)
    yield Use("closure", "closure", "large-loop", 0, board(LARGE_SIDE)[1])
    yield Use("whole", "whole", "large-masked", 0, masked_whole(LARGE_SIDE))
    yield Use("displacement", "displacement --wavelength 131072", "large-grid", 0, steps(LARGE_SIDE))


def files():
    """The files that the commands read, by their names."""
    judged = LINE + b"end\n" + stress.LINE_REPORT
    return {
        "line": LINE,
        "accepted": judged,
        "refused": judged.replace(b"kept 0 0\n", b"kept 0 0\nkept 0 0\n"),
        "shown": LINE + b"analyst\nshow\nend\n",
        "broken": LINE + b"x\n",
        "empty": b"",
        "turn-report": stress.TURN_REPORT,
        "steep": STEEP,
        "steep-end": STEEP + b"end\n",
        "steep-report": stress.STEEP_REPORT,
        "line-end": LINE + b"end\n",
        "line-report": stress.second_version(stress.LINE_REPORT),
        "open": OPEN,
        "open-end": OPEN + b"end\n",
        "open-whole": OPEN_WHOLE,
        "whole-accepted": LINE + b"end\n" + LINE_WHOLE,
        "whole-refused": LINE + b"end\n" + LINE_WHOLE.replace(b"cost 0", b"cost 1"),
        "masked": noisy(96, 0),
        "masked-accepted": noisy(96, 0) + masked_whole(96),
        "large-masked": noisy(LARGE_SIDE, 0),
        "flat": FLAT,
        "head": b"".join(stress.LINE_REPORT.splitlines(True)[:4]),
        "island": ISLAND,
        "loop": LOOP,
        "fall": FALL,
        "near": NEAR,
        "large": slope(LARGE_SIDE),
        "large-loop": board(LARGE_SIDE)[0],
        "large-grid": steps(LARGE_SIDE),
        "noisy-loop": board(96)[0],
        "noisy-grid": steps(96),
        "noisy": noisy(160),
        **{f"turn-{length}": TURN[:length] for length in range(len(TURN) + 1)},
    }
