"""Maps as SVG, each with its picture inside: colours, round ticks, axes, a scale and a colour bar. NumPy alone.

A map is drawn 400 units wide and grows and shrinks with the page. Masked pixels are white, and no map has that colour. Beside its
colours a map may keep its values, which the script of `pages` reads out where one points.
"""
import base64
import math
import struct
import zlib
from dataclasses import dataclass
from html import escape
from typing import List, Optional, Sequence, Tuple, Union

import numpy as np

Colour = Tuple[int, int, int]

LONGEST = 1024  # pixels along a side of a picture; of a larger raster rows and columns are left out
MASKED: Colour = (255, 255, 255)
# Colours at equal steps: one round for phases, dark to bright for surfaces, and for weights.
ROUND: List[Colour] = [(200, 190, 205), (137, 173, 199), (97, 116, 186), (86, 49, 149), (47, 20, 54)]
ROUND += [(125, 33, 78), (180, 88, 79), (206, 161, 138), (200, 190, 205)]
BRIGHTER: List[Colour] = [(68, 1, 84), (72, 40, 120), (62, 74, 137), (49, 104, 142), (38, 130, 142)]
BRIGHTER += [(31, 158, 137), (53, 183, 121), (109, 205, 89), (180, 222, 44), (253, 231, 37)]
WARMER: List[Colour] = [(10, 20, 60), (80, 60, 120), (185, 85, 110), (240, 165, 110), (245, 215, 130)]
# Of components by falling size, the last one for all that are smaller.
NUMBERED: List[Colour] = [
    (68, 119, 170),
    (238, 102, 119),
    (34, 136, 51),
    (204, 187, 68),
    (102, 204, 238),
    (170, 51, 119),
]
NUMBERED += [(187, 107, 50), (90, 90, 90)]
PLAIN: Colour = (205, 210, 205)  # of pixels without anything to tell
# Of what has a sign: below 0 and above.
FALLING: List[Colour] = [(146, 197, 222), (67, 147, 195), (5, 48, 97)]
RISING: List[Colour] = [(244, 165, 130), (214, 96, 77), (103, 0, 31)]
SIGNED: List[Colour] = [*FALLING[::-1], (225, 225, 225), *RISING]
JUMP: Colour = (200, 30, 20)
SEAM: Colour = (20, 60, 200)

WIDE, LEFT, TOP, BELOW, RIGHT = 250, 58, 22, 58, 92  # of the picture, and what stands around it, in units
TALLEST = 330
NARROWEST, SEEN = 210, 3  # screen pixels that a picture is shown wide, at least, and that are seen
CODES = 65534  # steps that values are kept in; one more stands for no value


# Pictures


def png(colours: np.ndarray) -> bytes:
    """A PNG of colours; uint8, (rows, columns, 3)."""
    height, width, _ = colours.shape
    rows = np.concatenate([np.zeros((height, 1), dtype=np.uint8), colours.reshape(height, -1)], axis=1)

    def chunk(kind: bytes, data: bytes) -> bytes:
        return struct.pack(">I", len(data)) + kind + data + struct.pack(">I", zlib.crc32(kind + data))

    head = struct.pack(">IIBBBBB", width, height, 8, 2, 0, 0, 0)
    return (
        b"\x89PNG\r\n\x1a\n"
        + chunk(b"IHDR", head)
        + chunk(b"IDAT", zlib.compress(rows.tobytes(), 6))
        + chunk(b"IEND", b"")
    )


def uri(colours: np.ndarray) -> str:
    return "data:image/png;base64," + base64.b64encode(png(colours)).decode()


def coloured(parts: np.ndarray, colours: Sequence[Colour]) -> np.ndarray:
    """The colours of numbers from 0 to 1, that of masked pixels at NaN; uint8, (rows, columns, 3)."""
    steps = np.linspace(0, 1, len(colours))
    known = np.nan_to_num(parts)
    found = np.stack([np.interp(known, steps, [colour[i] for colour in colours]) for i in range(3)], axis=-1)
    return np.where(np.isnan(parts)[..., None], MASKED, np.rint(found)).astype(np.uint8)


def step_of(shape: Tuple[int, ...]) -> int:
    """Every how manyth row and column is shown."""
    return -(-max(shape[:2]) // LONGEST)


def thinned(raster: np.ndarray) -> np.ndarray:
    """Every nth row and column, such that the longest side is at most LONGEST."""
    step = step_of(raster.shape)
    return raster[::step, ::step]


def thinned_words(shape: Tuple[int, ...]) -> str:
    """What is to be said of maps of a raster of this shape, if they leave pixels out; else nothing."""
    step = step_of(shape)
    if step == 1:
        return ""
    size = " by ".join(str(-(-length // step)) for length in shape[1::-1])
    every = {2: "second", 3: "third", 4: "fourth"}.get(step, f"{step}th")
    return f" Maps are drawn from a reduced raster of {size} pixels, every {every} row and column; shares and counts are of all pixels."


def any_thinned(flags: np.ndarray) -> np.ndarray:
    """The same of flags, such that none that is set is left out."""
    step = step_of(flags.shape)
    rows = np.logical_or.reduceat(flags, np.arange(0, flags.shape[0], step), axis=0)
    return np.logical_or.reduceat(rows, np.arange(0, flags.shape[1], step), axis=1)


# Ticks


def round_step(span: float, most: int) -> float:
    """The least of 1, 2 and 5 times a power of 10 that cuts a span into at most so many parts."""
    if not span > 0:
        return 1.0
    power = 10.0 ** math.floor(math.log10(span / most))
    return next(factor * power for factor in (1, 2, 5, 10) if span / (factor * power) <= most * (1 + 1e-9))


def ticks_of(low: float, high: float, most: int) -> List[float]:
    """The round numbers from low to high, at most `most` + 1."""
    step = round_step(high - low, most)
    first = math.ceil(low / step - 1e-9)
    return [number * step for number in range(first, math.floor(high / step + 1e-9) + 1)]


def label_of(value: float, step: float) -> str:
    """A round number with as many places as its step has."""
    places = max(0, -math.floor(math.log10(step) + 1e-9)) if step > 0 else 0
    return f"{value + 0.0:.{places}f}".replace("-", "\N{MINUS SIGN}")


def reach_of(shape: Tuple[int, ...]) -> int:
    """By how many pixels on all sides a flag of a picture has to grow to be shown three screen pixels wide."""
    shown = min(1.0, TALLEST * shape[1] / (WIDE * shape[0])) * NARROWEST
    return max(0, math.ceil((SEEN * shape[1] / shown - 1) / 2))


def grown(flags: np.ndarray, reach: int) -> np.ndarray:
    """Flags that grew to the left and right."""
    found = flags.copy()
    for step in range(1, min(reach, flags.shape[1] - 1) + 1):
        found[:, step:] |= flags[:, :-step]
        found[:, :-step] |= flags[:, step:]
    return found


def enlarged(flags: np.ndarray) -> np.ndarray:
    """Flags of a picture, each so large that it is seen."""
    reach = reach_of(flags.shape)
    return grown(grown(flags, reach).T, reach).T


@dataclass(frozen=True)
class Axes:
    """Where the picture lies: the first and last number along each side, in a unit. `ground` is a unit in metres, if known,
    `system` the name of the coordinate system, and `shape` that of the raster, (rows, columns), if it is not the picture's."""

    left: float
    right: float
    upper: float
    lower: float
    unit: str
    ground: Optional[float] = None
    system: str = ""
    shape: Optional[Tuple[int, int]] = None


def pixel_axes(shape: Tuple[int, ...]) -> Axes:
    return Axes(0, shape[1], 0, shape[0], "pixels")


# Maps


def text(x: float, y: float, words: str, anchor: str = "middle", more: str = "") -> str:
    return f'<text x="{x:.1f}" y="{y:.1f}" text-anchor="{anchor}"{more}>{escape(words)}</text>'


def line(x1: float, y1: float, x2: float, y2: float, colour: str = "#333") -> str:
    return f'<line x1="{x1:.1f}" y1="{y1:.1f}" x2="{x2:.1f}" y2="{y2:.1f}" stroke="{colour}"/>'


def size_on_page(shape: Tuple[int, ...]) -> Tuple[float, float]:
    """The width and height of a picture in units."""
    height = WIDE * shape[0] / shape[1]
    scale = min(1.0, TALLEST / height)
    return max(1.0, WIDE * scale), max(1.0, height * scale)


def axis_marks(axes: Axes, wide: float, high: float) -> str:
    """Ticks below and to the left. What the script writes at the ends in their place, once the map is a part, is empty."""
    found = []
    across, down = axes.right - axes.left, axes.lower - axes.upper
    step = round_step(abs(across), 4)
    for value in ticks_of(min(axes.left, axes.right), max(axes.left, axes.right), 4):
        x = LEFT + wide * (value - axes.left) / across
        found += [line(x, TOP + high, x, TOP + high + 4), text(x, TOP + high + 15, label_of(value, step))]
    step = round_step(abs(down), 5)
    for value in ticks_of(min(axes.upper, axes.lower), max(axes.upper, axes.lower), 5):
        y = TOP + high * (value - axes.upper) / down
        found += [line(LEFT - 4, y, LEFT, y), text(LEFT - 6, y + 4, label_of(value, step), "end")]
    low = TOP + high
    ends = [text(LEFT, low + 15, ""), text(LEFT + wide, low + 15, ""), text(LEFT - 6, TOP + 9, "", "end"), text(LEFT - 6, low, "", "end")]
    return f'<g class="ticks">{"".join(found)}{scale_bar(axes, wide, high)}</g><g class="ends">{"".join(ends)}</g>'


def axis_names(axes: Axes, high: float) -> str:
    """What the axes count, and in which system."""
    found = text(LEFT, TOP - 8, axes.unit, "end")
    return found + (text(LEFT, TOP + high + BELOW - 4, axes.system, "start", ' class="system"') if axes.system else "")


def scale_bar(axes: Axes, wide: float, high: float) -> str:
    """A bar of a round length below the map."""
    across = abs(axes.right - axes.left) * (axes.ground or 1.0)
    length = round_step(across, 4)
    x, y = LEFT, TOP + high + 36
    end = x + wide * length / across
    unit = "pixels" if axes.ground is None else ("km" if length >= 1000 else "m")
    shown = length / 1000 if unit == "km" else length
    bar = line(x, y, end, y, "#000") + line(x, y - 3, x, y + 3, "#000") + line(end, y - 3, end, y + 3, "#000")
    return bar + text(end + 6, y + 4, f"{shown:g} {unit}", "start")


@dataclass(frozen=True)
class Bar:
    """A colour bar: an id of its own, its colours, the numbers at its ends, and what they count."""

    name: str
    colours: Sequence[Colour]
    low: float
    high: float
    title: str


def bar_marks(bar: Bar, wide: float, high: float) -> str:
    """A colour bar to the right of the map, the least number below."""
    x, tall = LEFT + wide + 12, max(high, 60.0)
    stops = "".join(
        f'<stop offset="{number / (len(bar.colours) - 1):.4f}" stop-color="rgb{colour}"/>'
        for number, colour in enumerate(bar.colours)
    )
    found = [
        f'<defs><linearGradient id="{bar.name}" x1="0" x2="0" y1="1" y2="0">{stops}</linearGradient></defs>',
        f'<rect x="{x}" y="{TOP}" width="14" height="{tall:.1f}" fill="url(#{bar.name})" stroke="#888"/>',
        text(x, TOP - 8, bar.title, "start"),
    ]
    span, step = bar.high - bar.low, round_step(bar.high - bar.low, 6)
    for value in ticks_of(bar.low, bar.high, 6) if span > 0 else [bar.low]:
        y = TOP + tall * (1 - ((value - bar.low) / span if span > 0 else 0.5))
        found += [line(x + 14, y, x + 18, y), text(x + 21, y + 4, label_of(value, step), "start")]
    return "".join(found)


def keys_of(keys: Sequence[Tuple[Colour, str]], wide: float) -> str:
    """What colours stand for, to the right of the map."""
    x = LEFT + wide + 12
    return "".join(
        f'<rect x="{x}" y="{TOP + 18 * number}" width="12" height="12" fill="rgb{colour}" stroke="#888"/>'
        + text(x + 17, TOP + 18 * number + 10, words, "start")
        for number, (colour, words) in enumerate(keys)
    )


@dataclass(frozen=True)
class Mark:
    """What is marked on a map: a box in parts of its sides, from 0 to 1, and what it is."""

    left: float
    upper: float
    right: float
    lower: float
    name: str


def mark_of(box: Sequence[int], shape: Tuple[int, ...], name: str) -> Mark:
    """A mark of a box of pixels, both corners included, in a raster of this shape."""
    return Mark(box[0] / shape[1], box[1] / shape[0], (box[2] + 1) / shape[1], (box[3] + 1) / shape[0], name)


def mark_lines(mark: Mark, wide: float, high: float) -> str:
    """The frame of a box and a cross about it, black on white, so that it is seen on any colour."""
    x, y = LEFT + wide * mark.left, TOP + high * mark.upper
    w, h = wide * (mark.right - mark.left), high * (mark.lower - mark.upper)
    middle, level = x + w / 2, y + h / 2
    path = f"M{x:.1f} {y:.1f} h{w:.1f} v{h:.1f} h{-w:.1f} z"
    path += f" M{x - 8:.1f} {level:.1f} h6 M{x + w + 2:.1f} {level:.1f} h6"
    path += f" M{middle:.1f} {y - 8:.1f} v6 M{middle:.1f} {y + h + 2:.1f} v6"
    lines = (
        f'<path d="{path}" fill="none" stroke="{colour}" stroke-width="{broad}"/>'
        for colour, broad in (("#fff", 4), ("#000", 1.5))
    )
    return f'<g class="mark"><title>{escape(mark.name)}</title>{"".join(lines)}</g>'


@dataclass(frozen=True)
class Values:
    """What a map reads out: the values of its picture, NaN where there is none, and their unit."""

    values: np.ndarray
    unit: str


def kept_values(kept: Values) -> str:
    """Values as attributes of a map: steps from the least value on, high bytes before low ones, deflated."""
    known = kept.values[~np.isnan(kept.values)]
    low, high = (float(known.min()), float(known.max())) if len(known) else (0.0, 0.0)
    step = (high - low) / CODES or 1.0
    codes = np.where(np.isnan(kept.values), CODES + 1, np.rint((np.nan_to_num(kept.values) - low) / step)).astype(np.uint16)
    planes = (codes >> 8).astype(np.uint8).tobytes() + (codes & 255).astype(np.uint8).tobytes()
    packed = base64.b64encode(zlib.compress(planes, 6)).decode()
    return f' data-values="{packed}" data-low="{low!r}" data-step="{step!r}" data-unit="{escape(kept.unit)}"'


def place_words(axes: Axes, shape: Tuple[int, ...]) -> str:
    """Where a map lies, as attributes: the shape of its picture, every how manyth pixel that shows, and the axes."""
    step = -(-max(axes.shape) // LONGEST) if axes.shape else 1
    ends = " ".join(f"{end!r}" for end in (axes.left, axes.right, axes.upper, axes.lower))
    return f' data-shape="{shape[0]} {shape[1]} {step}" data-ends="{ends}" data-axes="{escape(axes.unit)}"'


def map_of(
    colours: np.ndarray,
    axes: Axes,
    beside: Union[Bar, Sequence[Tuple[Colour, str]]],
    title: str,
    caption: str,
    mark: Optional[Mark] = None,
    values: Optional[Values] = None,
) -> str:
    """A <figure> of a map: its title, the picture with its axes, a colour bar or keys beside it, words below, a mark, and what it
    reads out."""
    wide, high = size_on_page(colours.shape)
    tall = max(high, 60.0 if isinstance(beside, Bar) else 18.0 * len(beside))
    marks = bar_marks(beside, wide, high) if isinstance(beside, Bar) else keys_of(beside, wide)
    place = f'x="{LEFT}" y="{TOP}" width="{wide:.1f}" height="{high:.1f}"'
    return (
        f'<figure class="map"{place_words(axes, colours.shape)}{kept_values(values) if values else ""}><h3>{escape(title)}</h3>'
        f'<svg viewBox="0 0 {LEFT + WIDE + RIGHT} {TOP + tall + BELOW:.0f}" role="img" aria-label="{escape(title)}">'
        f'<svg class="view" {place} viewBox="0 0 1000 1000" preserveAspectRatio="none">'
        f'<image width="1000" height="1000" preserveAspectRatio="none" href="{uri(colours)}"/></svg>'
        f'<rect class="frame" {place} fill="#fff" fill-opacity="0" stroke="#888"/>'
        f"{axis_marks(axes, wide, high)}{axis_names(axes, high)}{marks}{mark_lines(mark, wide, high) if mark else ''}</svg>"
        f"<output></output><figcaption>{escape(caption)}</figcaption></figure>"
    )


# Profiles

LONG, HIGH = WIDE + 60, 120  # of a profile, in units


def curve_of(x: np.ndarray, y: np.ndarray) -> str:
    """The path of a curve, with gaps where y is NaN."""
    known = ~np.isnan(y)
    starts = np.flatnonzero(known & ~np.append(False, known[:-1]))
    ends = np.flatnonzero(known & ~np.append(known[1:], False)) + 1
    parts = (" ".join(f"{a:.1f},{b:.1f}" for a, b in zip(x[start:end], y[start:end])) for start, end in zip(starts, ends))
    return "".join(f"M{part}" if " " in part else f"M{part}h.5" for part in parts)


def profile_marks(low: float, high: float, first: float, last: float) -> str:
    """Lines at round values, and ticks at round places."""
    span, found = (high - low) or 1.0, []
    step, across = round_step(span, 4), round_step(abs(last - first), 5)
    for value in ticks_of(low, high, 4):
        y = TOP + HIGH * (1 - (value - low) / span)
        found += [line(LEFT - 4, y, LEFT + LONG, y, "#ddd"), text(LEFT - 6, y + 4, label_of(value, step), "end")]
    for value in ticks_of(min(first, last), max(first, last), 5):
        x = LEFT + LONG * (value - first) / (last - first)
        found += [line(x, TOP + HIGH, x, TOP + HIGH + 4), text(x, TOP + HIGH + 15, label_of(value, across))]
    return "".join(found)


def profile_of(values: np.ndarray, places: Tuple[float, float, str], unit: str, title: str) -> str:
    """A <figure> of the values along a line, from the first to the last place, in a unit; gaps where there is no value."""
    known = values[~np.isnan(values)]
    low, high = (float(known.min()), float(known.max())) if len(known) else (0.0, 0.0)
    first, last, along = places
    x = LEFT + LONG * (np.arange(len(values)) + 0.5) / len(values)
    y = TOP + HIGH * (1 - (values - low) / ((high - low) or 1.0))
    return (
        f'<figure class="profile"><h3>{escape(title)}</h3><svg viewBox="0 0 {LEFT + WIDE + RIGHT} {TOP + HIGH + 32}" role="img" '
        f'aria-label="{escape(title)}">{profile_marks(low, high, first, last)}{text(LEFT, TOP - 8, unit, "end")}'
        f'{text(LEFT + LONG + 4, TOP + HIGH + 15, along, "start")}'
        f'<path d="{curve_of(x, y)}" fill="none" stroke="#31408e" stroke-width="1.2" stroke-linejoin="round"/></svg></figure>'
    )
