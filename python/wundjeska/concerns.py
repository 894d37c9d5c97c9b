"""A verdict in words: what is to be said of a surface besides that the checker accepted it. NumPy alone.

The checker says that no surface costs less. No cost tells whether the ground moved so. What is measured here are signs that a
surface may be wrong by whole cycles though none costs less, or that the phase was not what it was taken for:

  residues  the share of cells, of four open pixels, about which the wrapped differences do not add up to 0. It is 1/3 of what is
            random throughout, as a file is that was read by a wrong width. A filter takes those of noise away: after one they are
            no sign, and those that it leaves are
  seams     what the surface costs more than its tiles do. Where that is much, tiles were joined where they do not fit
  lines     where the surface departs from the wrapped differences along one line. Cuts through noise are short: of 512 by 512
            pixels of noise the longest had 9 pixels from end to end, and 17 where the noise had been smoothed over 5 by 5. At
            ruptures in speckle of 4 and 10 looks the longest had from 58 to 177. By a guide lines are those along which it departs
            from the filtered phase: on 512 by 512 pixels up to 61 without a tear, from 103 to 234 at ruptures and layover
  zeros     the share of open pixels whose phase is 0, as of files that have 0 where nothing is known, and do not say so
  slope     the commonest fringe rate. Beyond half a cycle a pixel a slope looks as if it fell, and noise brings that nearer
  parts     open pixels that do not touch; whole cycles between them are arbitrary
  filter    the share of cells that keep a residue when the phase is filtered, if it is. Noise about fringes has hardly any left;
            random phases keep 2 %, and files that were read by a wrong width from 2 to 14 %. Above 0.2 % the filter has broken down,
            unless the phase has few residues, below 2 %: those are of slopes that are too steep
  undecided parts to which the surface without the filter gives other cycles, and the filter cannot tell which are right; of the
            kind `decided`, and not bad, if it can
"""
import re
from dataclasses import dataclass
from typing import List, Optional, Sequence, Tuple

import numpy as np

from .components import connect, scattered
from .planes import CYCLE, Ramp
from .program import Problem
from .ramps import SIDE, Spectrum
from .report_reader import Surface

MANY_RESIDUES, MANY_ZEROS, MANY_OUTSIDE = 0.1, 0.01, 0.01  # shares, from which on they are bad
MANY_LEFT, FEW_BEFORE = 0.002, 0.02  # shares of residues: in a filtered phase, above which it is bad, and before, from which on
HIGH_SEAMS = 0.1  # of what the tiles cost
LONG_LINE = 24  # pixels from end to end: more than any cut through noise had, and less than any rupture
LONG_GUIDE_LINE = 70  # the same of a guide, whose cuts lead between the few residues that a filter leaves
STEEP_SLOPE = 0.3  # cycles a pixel
SAMPLED = 1048576  # pixels of which the fringe rate is taken, at most, or nearly
FEW = 100  # pixels or cells, of fewer of which a share says nothing

MUCH_NOISE = "much noise, or a file that was read by a wrong width, form or band"
NONE = "none"
NOTED = re.compile(r"([a-z]+)( \(bad\))?: (.*)")
UNCHECKED = "nothing certifies this surface"
GUIDE_ALONE = ", of the guide alone"
LEAST = {True: "the least cost was proved", False: "the least cost was proved, in each tile and at the seams"}


@dataclass(frozen=True)
class Concern:
    """What is to be known of a surface, in one line. It is bad if the surface may well be wrong by whole cycles because of it.

    kind  'residues', 'filter', 'undecided', 'decided', 'seams', 'lines', 'zeros', 'slope' or 'parts'
    """

    kind: str
    text: str
    is_bad: bool = True

    def __str__(self) -> str:
        return self.text


@dataclass(frozen=True)
class Lines:
    """The long lines along which a surface jumps: how many, and the longest of all and its box, corners included."""

    count: int = 0
    longest: int = 0
    box: Tuple[int, int, int, int] = (0, 0, 0, 0)


@dataclass(frozen=True)
class Signs:
    """What was measured of a surface. Shares are from 0 to 1, slopes in 1/65536 cycle a pixel.

    rate  the commonest fringe rate, to the right and downwards; None if none stands out
    ramp  the slopes that were expected
    left  the share of cells that keep a residue in the filtered phase; None without a filter
    apart  what is to be said of parts that are whole cycles apart from the surface without a filter
    """

    residues: float
    zeros: float
    tile_cost: int
    seam_cost: int
    lines: Lines
    rate: Optional[Ramp]
    ramp: Ramp
    parts: int
    outside: float
    left: Optional[float] = None
    apart: Tuple[Concern, ...] = ()

    def concerns(self) -> Tuple[Concern, ...]:
        """What is to be said of them, the bad ones first."""
        found = [
            *residues_concern(self),
            *filter_concern(self),
            *self.apart,
            *seams_concern(self),
            *lines_concern(self),
            *slope_concern(self),
            *zeros_concern(self),
            *parts_concern(self),
        ]
        return tuple(sorted(found, key=lambda concern: not concern.is_bad))


# What is said


def percent(share: float) -> str:
    """A share in words; one that is there is not told as none."""
    return f"{100 * share:.2f} %" if share == 0 or share >= 0.0001 else "under 0.01 %"


def residues_concern(signs: Signs) -> List[Concern]:
    if signs.residues < MANY_RESIDUES:
        return []
    what = f"{percent(signs.residues)} of the cells have a residue"
    if signs.left is not None:
        return [Concern("residues", f"{what}, and {percent(signs.left)} after the filter", False)]
    return [Concern("residues", f"{what}: {MUCH_NOISE}")]


def filter_concern(signs: Signs) -> List[Concern]:
    if signs.left is None or signs.left <= MANY_LEFT or signs.residues < FEW_BEFORE:
        return []
    what = f"{percent(signs.left)} of the cells keep a residue in the filtered phase"
    return [Concern("filter", f"{what}: the filter has broken down, and the surface may be wrong: {MUCH_NOISE}")]


def seams_concern(signs: Signs) -> List[Concern]:
    if signs.seam_cost <= HIGH_SEAMS * signs.tile_cost:
        return []
    times = f"{signs.seam_cost / signs.tile_cost:.2f} times" if signs.tile_cost else "more than"
    return [
        Concern(
            "seams", f"seams cost {times} what the tiles do: tiles may be joined wrong; the whole at once has no seams"
        )
    ]


def lines_concern(signs: Signs) -> List[Concern]:
    lines, (x0, y0, x1, y1) = signs.lines, signs.lines.box
    if not lines.count:
        return []
    what = "a long line" if lines.count == 1 else f"{lines.count} long lines"
    where = f"{lines.longest} pixels in columns {x0} to {x1}, rows {y0} to {y1}"
    return [
        Concern("lines", f"the surface jumps along {what}, the longest of {where}: a rupture, or cycles that are wrong")
    ]


def slope_concern(signs: Signs) -> List[Concern]:
    if signs.rate is None or max(abs(slope) for slope in signs.rate) <= STEEP_SLOPE * CYCLE:
        return []
    across, down = (f"{slope / CYCLE:.2f}" for slope in signs.rate)
    what = f"the commonest fringe rate is {across} cycle a pixel to the right, {down} downwards"
    if max(abs(wrapped(rate - slope)) for rate, slope in zip(signs.rate, signs.ramp)) > STEEP_SLOPE * CYCLE:
        return [Concern("slope", f"{what}: too near half a cycle, unless that ramp is expected")]
    return [Concern("slope", f"{what}, as was expected: a rate is known up to whole cycles a pixel alone", False)]


def zeros_concern(signs: Signs) -> List[Concern]:
    if signs.zeros < MANY_ZEROS:
        return []
    return [
        Concern("zeros", f"{percent(signs.zeros)} of the open pixels have the phase 0: is that no value, a NODATA?")
    ]


def parts_concern(signs: Signs) -> List[Concern]:
    if signs.parts < 2:
        return []
    what = (
        f"{signs.parts} components do not touch, with {percent(signs.outside)} of the open pixels outside the largest"
    )
    return [Concern("parts", f"{what}: whole cycles between them are arbitrary", signs.outside >= MANY_OUTSIDE)]


def judgement_of(concerns: Sequence[Concern], accepted: bool, is_whole: bool, is_guided: bool = False) -> str:
    """A sentence on a surface: how many signs are bad, and what was proved, of the surface or of its guide alone."""
    least = LEAST[is_whole] + (GUIDE_ALONE if is_guided else "")
    proved = f"{least}, and not that the surface is true" if accepted else UNCHECKED
    bad = sum(concern.is_bad for concern in concerns)
    if not bad:
        return proved
    return f"{bad} sign{'s' if bad > 1 else ''} that the surface may be wrong; {proved}"


def note_of(concerns: Sequence[Concern]) -> str:
    """Concerns as one line, for the metadata of a product."""
    lines = (f"{concern.kind}{' (bad)' if concern.is_bad else ''}: {concern.text}" for concern in concerns)
    return " | ".join(lines) or NONE


def read_note(note: str) -> Tuple[Concern, ...]:
    """The concerns that such a line has; what it has besides is left out."""
    found = (NOTED.fullmatch(part) for part in note.split(" | "))
    return tuple(Concern(match[1], match[3], match[2] is not None) for match in found if match)


# What is measured


def wrapped(slope: int) -> int:
    """A slope by whole cycles from -32768 to 32767."""
    return (slope + CYCLE // 2) % CYCLE - CYCLE // 2


def wrapped_differences(phase: np.ndarray, axis: int, slope: int = 0) -> np.ndarray:
    """From slope - 32768 to slope + 32767, of neighbours along an axis; int32. Numbers of 16 bits wrap by themselves."""
    rises = np.diff(phase.astype(np.uint16, copy=False), axis=axis) - np.uint16(slope % CYCLE)
    return rises.view(np.int16).astype(np.int32) + slope


def share_of(part: int, number: int) -> float:
    """A part of a number, or 0 if that is few."""
    return part / number if number >= FEW else 0.0


def both_open(opened: np.ndarray, axis: int) -> np.ndarray:
    """Whether both ends of each edge along an axis are open."""
    return (opened[:, 1:] & opened[:, :-1]) if axis else (opened[1:] & opened[:-1])


def residue_share(phase: np.ndarray, opened: np.ndarray, ramp: Ramp = (0, 0)) -> float:
    """The share of cells of four open pixels that have a residue; 0 if there are few such cells."""
    across, down = wrapped_differences(phase, 1, ramp[0]), wrapped_differences(phase, 0, ramp[1])
    around = across[:-1] + down[:, 1:] - across[1:] - down[:, :-1]
    cells = both_open(both_open(opened, 0), 1)
    return share_of(int((cells & (around != 0)).sum()), int(cells.sum()))


def departs(surface: Surface, phase: np.ndarray, axis: int, slope: int) -> np.ndarray:
    """Whether the surface departs from the wrapped differences at each edge along an axis."""
    opened = surface.opened()
    rises = np.diff(np.where(opened, surface.values, 0), axis=axis)
    return both_open(opened, axis) & (rises != wrapped_differences(phase, axis, slope))


def line_ends(surface: Surface, phase: np.ndarray, ramp: Ramp) -> Tuple[np.ndarray, np.ndarray]:
    """Each edge that departs as the piece of a line between its two pixels: the numbers of its ends, the corners of pixels, of
    which there is one more along a side than there are pixels."""
    corners = surface.values.shape[1] + 1
    rows, columns = np.nonzero(departs(surface, phase, 1, ramp[0]))
    upright = rows * corners + columns + 1
    rows, columns = np.nonzero(departs(surface, phase, 0, ramp[1]))
    level = (rows + 1) * corners + columns
    return np.concatenate([upright, level]), np.concatenate([upright + corners, level + 1])


def lines_of(surface: Surface, phase: np.ndarray, ramp: Ramp = (0, 0), long: int = LONG_LINE) -> Lines:
    """The lines of so many pixels along which a surface jumps: pieces of lines that touch at corners, by their longer extent."""
    one, other = line_ends(surface, phase, ramp)
    if not len(one):
        return Lines()
    corners, places = np.unique(np.concatenate([one, other]), return_inverse=True)
    roots = connect(len(corners), places[: len(one)], places[len(one) :])
    order = np.argsort(roots, kind="stable")
    starts = np.flatnonzero(np.diff(roots[order], prepend=-1))
    rows, columns = np.divmod(corners[order], surface.values.shape[1] + 1)
    low = [np.minimum.reduceat(places, starts) for places in (columns, rows)]
    high = [np.maximum.reduceat(places, starts) for places in (columns, rows)]
    extents = np.maximum(high[0] - low[0], high[1] - low[1])
    longest = int(np.argmax(extents))
    x0, y0, x1, y1 = (int(part[longest]) for part in (*low, *high))
    height, width = surface.values.shape
    box = (max(x0 - 1, 0), max(y0 - 1, 0), min(x1, width - 1), min(y1, height - 1))
    return Lines(int((extents >= long).sum()), int(extents[longest]), box)


def rate_of(phase: np.ndarray, weights: np.ndarray, opened: np.ndarray) -> Optional[Ramp]:
    """The commonest fringe rate of bands of rows at equal steps, or None if none stands out."""
    spectrum = Spectrum()
    step = SIDE * max(1, round(phase.size / SAMPLED))
    for row in range(0, len(phase), step):
        band = np.s_[row : row + SIDE]
        spectrum.add(phase[band], weights[band], opened[band])
    return spectrum.peak() if spectrum.is_distinct() else None


@dataclass(frozen=True)
class Guide:
    """What guides a surface: a surface that is least for the filtered phase, that phase, and what is to be said of parts to which no
    filter gives other cycles."""

    surface: Surface
    phase: np.ndarray
    apart: Tuple[Concern, ...] = ()


def signs_of(
    phase: np.ndarray, weights: np.ndarray, surface: Surface, problem: Problem, guide: Optional[Guide] = None
) -> Signs:
    """What is measured of a surface of these phases and weights, which is least for this problem, or whose guide is."""
    opened = surface.opened()
    parts, outside = scattered(opened)
    solved, solved_phase = (guide.surface, guide.phase) if guide else (surface, phase)
    long = LONG_GUIDE_LINE if guide else LONG_LINE
    return Signs(
        residues=residue_share(phase, opened, problem.ramp),
        zeros=share_of(int((opened & (phase == 0)).sum()), int(opened.sum())),
        tile_cost=surface.tile_cost,
        seam_cost=surface.seam_cost,
        lines=lines_of(solved, solved_phase, problem.ramp, long),
        rate=rate_of(phase, weights, opened),
        ramp=problem.ramp,
        parts=parts,
        outside=outside,
        left=residue_share(guide.phase, opened, problem.ramp) if guide else None,
        apart=guide.apart if guide else (),
    )
