"""Certain parts: where every surface of nearly the least cost has the same cycles. NumPy alone.

The program's command `parts` finds them of a session and a whole text that its checker accepts. Inside a part every surface that
costs at most the margin more than the least one has the same cycles as that, up to one constant of the part. That is proved. That
these are the true cycles is not, and nothing is said of whole cycles between two parts.
"""
import io
from argparse import ArgumentParser, Namespace
from array import array
from dataclasses import dataclass
from typing import Callable, Optional, Tuple

import numpy as np
import numpy.typing as npt

from .planes import ended, highest_weight
from .program import Problem, call, first_line, program
from .report_reader import NODATA, SMALL, BrokenLine, Lines, read_grid
from .trouble import DISAGREES, REFUSED_WORDS, Trouble, warn
from .weights import HALF_RADIAN, LINEAR_HIGHEST, unit_of

COMMAND = "parts"
MARGIN, LEAST = 0.08, 100  # if nothing else is said: a share of the unit of weights, and pixels
MOST_LEAST = 4194304  # pixels, of what the program takes as the least size of a part
HEAD = rb"parts %b %b %b" % ((SMALL,) * 3)
PART = rb"part %b %b %b" % ((SMALL,) * 3)
PROVED = (
    "inside each all surfaces of the {phase} that cost at most {margin} more than {surface} have its cycles, up to one constant; "
    "that is proved, and not that they are true"
)
UNIT = f"{LINEAR_HIGHEST}, the weight of a coherence of 1, or with looks of {HALF_RADIAN}, that of a phase off by half a radian"


class NoParts(Trouble):
    """The program has no command that finds certain parts."""

    def __init__(self) -> None:
        line = f"{program()} has no command `{COMMAND}`, which finds certain parts; a newer program has it"
        super().__init__(line, REFUSED_WORDS)


def check_command() -> None:
    """Trouble if the program cannot find certain parts: it refuses words that it does not know."""
    if call([COMMAND], b"")[0] == REFUSED_WORDS:
        raise NoParts()


@dataclass(frozen=True)
class Bounds:
    """How much more than the least a surface may cost, as a share of the unit of weights, and how many pixels a part or a component
    has at least, None if that was not said."""

    margin: float = MARGIN
    least: Optional[int] = None

    @property
    def of_parts(self) -> int:
        """The fewest pixels of a certain part."""
        return LEAST if self.least is None else self.least

    @property
    def of_components(self) -> int:
        """The fewest pixels of a component of the mask."""
        return 1 if self.least is None else self.least


@dataclass(frozen=True)
class Parts:
    """Certain parts of a surface, or of the guide that it was made by.

    labels  uint32, (rows, columns): the number of each pixel's part, from 1 by falling size; 0 elsewhere
    sizes   int64, (parts): the pixels of each
    margin  what a surface may cost more: inside a part every such surface has the same cycles up to one constant
    unit    what the margin that was asked for is a share of: the weight of a coherence of 1, 255; with looks that of a phase that is
            off by half a radian, 105
    bounds  what was asked for
    opened  how many pixels are open
    """

    labels: npt.NDArray[np.uint32]
    sizes: npt.NDArray[np.int64]
    margin: int
    unit: int
    bounds: Bounds
    opened: int

    @property
    def share(self) -> float:
        """The share of the open pixels that lie in a part."""
        return int(self.sizes.sum()) / max(self.opened, 1)

    def told(self) -> str:
        """How many there are, and what they cover, in words."""
        count = len(self.sizes)
        what = f"{count or 'no'} certain part{'' if count == 1 else 's'}"
        cover = f" with {100 * self.share:.2f} % of the open pixels" if count else ""
        return f"{what}{cover} at a margin of {self.margin} ({self.bounds.margin:g} of {self.unit})"

    def proved(self, is_guided: bool) -> str:
        """What is proved of them, and what is not, in words."""
        whose = ("filtered phase", "the guide") if is_guided else ("phase", "this one")
        return PROVED.format(phase=whose[0], surface=whose[1], margin=self.margin)


@dataclass(frozen=True)
class Certified:
    """A session, the whole text of its least surface, and the problem that this solves."""

    session: bytes
    text: bytes
    problem: Problem

    def parts(self, bounds: Bounds, name: str) -> Parts:
        """The parts of the surface, by the program."""
        unit = unit_of(highest_weight(self.session))
        margin = int(bounds.margin * unit)
        least = min(bounds.of_parts, MOST_LEAST)
        words = [COMMAND, *self.problem.words(), "--margin", str(margin), "--least", str(least)]
        status, out, told = call(words, ended(self.session) + self.text)
        if status == REFUSED_WORDS:
            raise NoParts()
        if status != 0:
            raise Trouble(f"{name}: {COMMAND} ended with status {status}: {first_line(told or out)}", status % 256)
        try:
            return read_parts(out, self.size(), bounds, unit)
        except BrokenLine as broken:
            raise Trouble(f"{name}: {COMMAND}: {broken}", DISAGREES) from broken

    def size(self) -> Tuple[int, int]:
        """Rows and columns, by the text, whose second line tells them."""
        width, height = map(int, self.text.split(b"\n", 2)[1].split()[1:])
        return height, width


def read_parts(text: bytes, shape: Tuple[int, int], bounds: Bounds, unit: int) -> Parts:
    """Reads what `parts` wrote, without parts that are smaller than was asked for. Raises BrokenLine, or Trouble if its sizes are not
    those of its grid."""
    lines = Lines(io.BytesIO(text))
    count, margin, _ = map(int, lines.take_words(HEAD, "'parts COUNT MARGIN LEAST'"))
    told = array("q")  # there may be millions
    for _ in range(count):
        told.append(int(lines.take_words(PART, "'part X Y SIZE'")[2]))
    height, width = shape
    grid = read_grid(lines, width, height)
    lines.take_end()
    sizes, opened = np.array(told, dtype=np.int64), grid != NODATA
    labels = np.where(opened, grid, 0)
    if labels.min() < 0 or labels.max() > count or not np.array_equal(np.bincount(labels.ravel(), minlength=count + 1)[1:], sizes):
        raise Trouble(f"{COMMAND}: its sizes are not those of its grid", DISAGREES)
    order = np.argsort(-sizes, kind="stable")[: np.count_nonzero(sizes >= bounds.of_parts)]
    numbers = np.zeros(count + 1, dtype=np.uint32)
    numbers[order + 1] = np.arange(1, len(order) + 1)
    return Parts(numbers[labels], sizes[order], margin, unit, bounds, int(opened.sum()))


def certified_of(session: bytes, text: bytes, problem: Problem) -> Optional[Certified]:
    """What tells certain parts of a session and what the program made of it; None of tiles."""
    return Certified(session, text, problem) if problem.side is None else None


def parts_or_none(find: Callable[[], Optional[Parts]]) -> Optional[Parts]:
    """What is found, or None, with a warning, if the program cannot find parts."""
    try:
        return find()
    except NoParts as missing:
        warn(f"{missing}; components are those of the mask")
        return None


def bounds_for(asked: Namespace, is_whole: bool) -> Bounds:
    """What the words ask for. Trouble if they do not fit each other."""
    if asked.least_component is not None and asked.least_component < 1:
        raise Trouble("--least-component is 1 or more", REFUSED_WORDS)
    if not is_whole and (asked.parts or asked.margin is not None):
        word = "--parts" if asked.parts else "--margin"
        raise Trouble(f"{word} wants the whole raster at once: tiles have no certain parts", REFUSED_WORDS)
    return Bounds(margin_for(asked), asked.least_component)


def margin_for(asked: Namespace) -> float:
    """The margin that the words ask for, as a share of the unit of weights."""
    margin = MARGIN if asked.margin is None else float(asked.margin)
    if not 0 <= margin <= 1:
        raise Trouble(f"--margin is from 0 to 1, a share of {UNIT}", REFUSED_WORDS)
    return margin


def add_margin_word(words: ArgumentParser) -> None:
    words.add_argument(
        "--margin",
        type=float,
        metavar="SHARE",
        help="inside a certain part every surface that costs at most so much more than the least has the same cycles: from 0 to 1, a "
        f"share of {UNIT} (default: {MARGIN:g})",
    )
