"""Phases, weights and masks as whole numbers, and sessions of them. NumPy alone.

Arrays have the shape (rows, columns), and row 0 is the top one, in GDAL as in the program. Phases are whole numbers of
1/65536 cycle, from 0 to 65535.
"""
import math
import re
from dataclasses import dataclass
from typing import Iterator, List, Optional, Set, Tuple

import numpy as np

from .trouble import Trouble, warn

CYCLE = 65536  # units in a cycle
MAX_WEIGHT = 255  # of linear coherence
TURN = 2 * math.pi
STEEPEST = 32767  # slope that can be expected
Ramp = Tuple[int, int]  # the expected slopes to the right and downwards, in units a pixel
FARTHEST, SLACK, MANY = (
    1e5,
    0.01,
    10000,
)  # radians beyond which 32 bits hold no phase; of rounding; pixels that tell a unit


# Sizes


@dataclass(frozen=True)
class Limits:
    """How large a raster may be: pixels along a side, and in all. `what` is such a raster, and `larger` what is to be done with others."""

    side: int
    pixels: int
    what: str
    larger: str

    def hold(self, shape: Tuple[int, ...]) -> bool:
        """Whether a raster of this shape, (rows, columns), is within them."""
        return max(shape) <= self.side and shape[0] * shape[1] <= self.pixels

    def told(self) -> str:
        return f"{self.side} a side and {self.pixels} in all"

    def check(self, shape: Tuple[int, ...], name: str) -> None:
        """Trouble if a raster of this shape, (rows, columns), is beyond them."""
        if not self.hold(shape):
            has = f"{name} has {shape[1]} by {shape[0]} pixels"
            raise Trouble(f"{has}; {self.what} has at most {self.told()}. {self.larger}")

    def windows(self, shape: Tuple[int, ...]) -> Iterator[Tuple[slice, slice]]:
        """The rows and columns of parts of a raster of this shape that are within them, from the top."""
        wide = min(shape[1], self.side)
        high = min(self.side, self.pixels // wide)
        for row in range(0, shape[0], high):
            for column in range(0, shape[1], wide):
                yield slice(row, min(row + high, shape[0])), slice(column, min(column + wide, shape[1]))


IN_FRAMES = "`wundjeska frames` (recipes/frames.py) cuts larger rasters into frames"
WHOLE_LIMITS = Limits(65535, 268435456, "a raster", IN_FRAMES)  # of one that is solved at once
AT_ONCE = f"Without tiles it is solved at once, up to {WHOLE_LIMITS.told()}"
TILED_LIMITS = Limits(4096, 4194304, "a raster in tiles", AT_ONCE)  # and of what the program's other commands take


# Phases, weights and masks


def phases_of(values: np.ndarray) -> np.ndarray:
    """Phases of radians of whatever interval, or of complex numbers; uint16, to the nearest unit. Not finite: 0."""
    values = np.where(np.isfinite(values), values, 0)
    radians = np.angle(values) if np.iscomplexobj(values) else values.astype(np.float64)
    return (np.rint(radians * (CYCLE / TURN)).astype(np.int64) % CYCLE).astype(np.uint16)


def has_phase(values: np.ndarray) -> np.ndarray:
    """True where a phase is: at finite numbers, and of complex ones at those that are not 0."""
    with np.errstate(invalid="ignore"):  # of bytes in the wrong order some are NaN of another kind
        return np.isfinite(values) & (values != 0) if np.iscomplexobj(values) else np.isfinite(values)


def check_radians(
    values: np.ndarray, opened: np.ndarray, name: str, scaled: bool, wrap: bool, hint: str = "--wrap"
) -> None:
    """Trouble if these cannot be wrapped phases in radians, of any interval. `scaled` says that whole numbers had a scale.

    With `wrap`, which `hint` names, they may span more than a cycle. Complex numbers are phases whatever they are.
    """
    if np.iscomplexobj(values) or not opened.any():
        return
    if values.dtype.kind != "f" and not scaled:
        raise Trouble(
            f"{name} has whole numbers without a scale ({values.dtype}); phases are radians, or complex numbers"
        )
    low, high = float(np.min(values[opened])), float(np.max(values[opened]))
    if max(-low, high) > FARTHEST:
        raise Trouble(f"{name} has values from {low:g} to {high:g}, which are no phases in radians")
    if high - low > TURN + SLACK and not wrap:
        raise Trouble(
            f"{name} has values from {low:g} to {high:g}, more than a cycle of 6.28319 radians. Are they degrees? If they are "
            f"radians of an unwrapped phase, {hint} wraps them"
        )
    if 0.99 <= high - low <= 1.0 and opened.sum() >= MANY:
        warn(f"{name} has values from {low:g} to {high:g}: taken as radians, though they look like cycles")


# Units of what is no phase in radians.
LENGTHS = r"(kilo|centi|milli|micro|nano)?met(re|er)s?|[kcm\u00b5\u03bcun]?m|inch(es)?|in|foot|feet|ft"
NO_RADIANS = re.compile(rf"cycles?|{LENGTHS}|degrees?|deg|\u00b0", re.IGNORECASE)


def check_told(name: str, unit: str, product: Optional[str], wrap: bool) -> None:
    """Trouble if what is told of values says that they are no wrapped phase: their unit, or that they are a product in the unit
    `product`, which is None if they are none. A product in radians can be wrapped again."""
    if product is not None and not (wrap and product == "radians"):
        raise Trouble(f"{name} is a product of this program{f' in {product}' if product else ''}, and no wrapped phase")
    if NO_RADIANS.fullmatch(re.split(r"[\s/*^]", unit.strip())[0]):
        raise Trouble(f"{name} is in {unit.strip()}, by what it says itself; a wrapped phase is in radians, or complex")


def check_coherence(coherence: np.ndarray, name: str, highest: float, hint: str = "--coherence-max") -> None:
    """Trouble if a coherence, in parts of `highest`, which `hint` names, is not from 0 to 1."""
    low, high = float(coherence.min(initial=0)), float(coherence.max(initial=0))
    if not (low >= -0.001 and high <= 1.001):
        raise Trouble(
            f"{name} has values from {low * highest:g} to {high * highest:g}, wanted 0 to {highest:g}; if a greater number "
            f"stands for a coherence of 1, name it by {hint}"
        )


def as_stored(number: float, kind: np.dtype) -> np.ndarray:
    """A number as an array of this kind has it: rounded if that is of floats, else itself, which it may not be able to hold."""
    with np.errstate(over="ignore"):
        return np.array(number).astype(kind) if kind.kind in "fc" else np.array(number)


# Planes and sessions

RAMP_COMMENT = re.compile(rb"# wundjeska ramp([^\n\r]*)")
RAMP_SLOPES = re.compile(rb" (0|-?[1-9][0-9]{0,4}) (0|-?[1-9][0-9]{0,4})")
HEADER = re.compile(rb"P([25])" + rb"(?:\s+(?:#[^\n\r]*[\n\r]\s*)*)([0-9]+)" * 3 + rb"\s")
COMMENT = re.compile(rb"#[^\n\r]*[\n\r]")
PLAIN_RASTER = re.compile(rb"[\s0-9]*")


def plane_of(samples: np.ndarray, maxval: int, comment: bytes = b"") -> bytes:
    """A raw PGM plane of samples up to maxval. A comment is a line."""
    height, width = samples.shape
    wide = ">u2" if maxval > 255 else "u1"
    return b"P5\n%b%d %d\n%d\n" % (comment, width, height, maxval) + samples.astype(wide).tobytes()


def session_of(
    phase: np.ndarray,
    weights: np.ndarray,
    opened: np.ndarray,
    script: bytes = b"end\n",
    highest: int = MAX_WEIGHT,
    ramp: Optional[Ramp] = None,
) -> bytes:
    """A session: uint16 phases, weights up to `highest`, and a mask that is True at open pixels.

    The program skips the comment that tells the ramp; it is for `ramp_in`.
    """
    return plane_of(phase, CYCLE - 1, ramp_comment(ramp)) + plane_of(weights, highest) + plane_of(opened, 1) + script


def ramp_comment(ramp: Optional[Ramp]) -> bytes:
    """The line in a session that keeps a ramp, if one is expected."""
    return b"# wundjeska ramp %d %d\n" % ramp if ramp is not None else b""


def with_comments(text: bytes, comments: bytes) -> bytes:
    """A session that the program wrote, with comments, each a line, in the head of its first plane."""
    if not text.startswith(b"P5\n"):
        raise Trouble("what the program wrote is no session")
    return text[:3] + comments + text[3:]


def comments_of(text: bytes) -> bytes:
    """The comments in a session's head, each a line."""
    header = HEADER.match(text)
    return b"".join(COMMENT.findall(header.group())) if header else b""


def comments_in(text: bytes, form: "re.Pattern[bytes]") -> Set[bytes]:
    """What follows the form in the comments of a session's head."""
    header = HEADER.match(text)
    return set(form.findall(header.group())) if header else set()


def is_ramp(ramp: Ramp) -> bool:
    """Whether these are slopes that can be expected."""
    return all(-STEEPEST - 1 <= slope <= STEEPEST for slope in ramp)


def ramp_in(text: bytes) -> Optional[Ramp]:
    """The ramp that a comment in the head of a session's phase tells, or None. Trouble if it cannot be read."""
    comments = comments_in(text, RAMP_COMMENT)
    if not comments:
        return None
    slopes = RAMP_SLOPES.fullmatch(comments.pop())
    ramp = tuple(map(int, slopes.groups())) if slopes and not comments else (CYCLE, CYCLE)
    if not is_ramp((ramp[0], ramp[1])):
        raise Trouble("the session's comment `# wundjeska ramp` has not two slopes from -32768 to 32767")
    return ramp[0], ramp[1]


@dataclass
class Session:
    """The planes of a session, each (height, width), its script part as it stands, and the ramp that a comment tells."""

    phase: np.ndarray  # uint16
    weights: np.ndarray  # uint16
    opened: np.ndarray  # bool
    script: bytes
    ramp: Optional[Ramp] = None


def take_plane(text: bytes, start: int) -> Tuple[np.ndarray, int]:
    """The plane at this place of a session that the program has taken, and the place after it."""
    header = HEADER.match(text, start)
    if header is None:
        raise Trouble(f"byte {start}: no PGM plane begins here")
    kind, width, height, maxval = (int(word) for word in header.groups())
    if kind == 5:
        samples = np.dtype(">u2" if maxval > 255 else "u1")
        end = header.end() + width * height * samples.itemsize
        found = np.frombuffer(text[header.end() : end], dtype=samples) if end <= len(text) else np.zeros(0)
    else:
        raster = PLAIN_RASTER.match(text, header.end())
        end = raster.end() if raster else header.end()
        found = np.array(text[header.end() : end].split(), dtype=np.int64)
    if len(found) != width * height:
        raise Trouble(f"byte {start}: the plane has not {width} by {height} samples")
    return found.astype(np.uint16).reshape(height, width), end


def highest_weight(text: bytes) -> int:
    """The maxval of the weights of a session that the program has taken; 1 if it has none."""
    header = HEADER.match(text, take_plane(text, 0)[1])
    return int(header.group(4)) if header else 1


def ended(text: bytes) -> bytes:
    """A session that ends, as one does that something follows."""
    return text if read_session(text).script else text + b"end\n"


def shape_in(text: bytes) -> Tuple[int, int]:
    """Rows and columns of a session, by its first header."""
    header = HEADER.match(text)
    if header is None:
        raise Trouble("byte 0: no PGM plane begins here")
    return int(header.group(3)), int(header.group(2))


def read_session(text: bytes) -> Session:
    """Reads a session whose form is right; the program is the judge of that."""
    planes: List[np.ndarray] = []
    place = 0
    while not planes or (len(planes) < 3 and text[place : place + 1] == b"P"):
        try:
            plane, place = take_plane(text, place)
        except (ValueError, OverflowError) as error:  # a number is too large
            raise Trouble(f"byte {place}: no PGM plane begins here") from error
        planes.append(plane)
    ones = np.ones(planes[0].shape, dtype=np.uint16)
    phase, weights, mask = planes + [ones] * (3 - len(planes))
    return Session(phase, weights, mask > 0, text[place:], ramp_in(text))
