"""Makes a page of a session and its report: one HTML file that asks for nothing else, to be opened in any browser.

It shows the verdict of `check` and what is to be said of the surface besides, the wrapped phase beside the surface, where the
surface jumps, two profiles, the certain parts, the coherence and the weights, the mask of each revision, each published surface
with its costs, and the history as a time line. Masked pixels are white. Maps are read out where one points, and a double click
shows a part of them. With --like the axes are in map units. Of a session that was screened, --unscreened shows which pixels were
dropped, and why. Of a filtered session the surface is a guide; --unfiltered names the session before the filter, and the surface
that is then shown is the one of the phase as given that is nearest to the guide. With --wavelength surfaces are shown as displacements along the line of sight, in centimetres if no --unit is
named, by the program's command `displacement`; the reference that is named is marked.
"""
import math
from argparse import ArgumentParser, Namespace, RawDescriptionHelpFormatter
from dataclasses import dataclass, replace
from functools import partial
from html import escape
from pathlib import Path
from typing import Dict, Iterator, List, Optional, Sequence, Tuple

import numpy as np

from .. import report_reader
from ..components import components_of
from ..concerns import Signs, judgement_of, signs_of, wrapped_differences
from ..displacements import LENGTHS, Sight, displaced, wavelength_of
from ..guide_maps import ByGuide, apart_map, filtered_map
from ..guiding import FOURIER, GUIDE, NO_FILTER, Chain, add_narrow_word, add_unfiltered_word, at_mask, is_filtered
from ..nearest import nearest
from ..outputs import Outputs, add_force_word
from ..pages import COMMON, HINT, end_of, footer, head_of, map_script, scaled, words_said
from ..pictures import (
    BRIGHTER,
    JUMP,
    LONGEST,
    MASKED,
    NUMBERED,
    PLAIN,
    ROUND,
    SEAM,
    SIGNED,
    WARMER,
    Axes,
    Bar,
    Colour,
    Values,
    any_thinned,
    coloured,
    map_of,
    mark_of,
    pixel_axes,
    profile_of,
    thinned,
    thinned_words,
)
from ..parts import Bounds, Parts, add_margin_word, certified_of, margin_for, parts_or_none
from ..planes import CYCLE, Ramp, Session, read_session
from ..program import check_report
from ..ramps import told
from ..references import Reference, add_reference_words, check_reference_words, level_of, reference_of
from ..screening import ISLAND, LONELY, WEAK, Screened, Terms, screened_by, terms_in
from ..trouble import DISAGREES, REFUSED_WORDS, Trouble, warn
from ..unwrapping import ACCEPTED, Solved, problem_of, read_report, signs_of_session, solved_again
from ..weights import weights_of

UNITS = {"cycles": "cycles", "radians": "rad", "nanometres": "nm", "millimetres": "mm", "centimetres": "cm", "metres": "m"}
TURN = {"cycles": 1.0, "radians": 2 * math.pi}  # what a cycle is in units that are no length
AWAY, TOWARDS = "away from the radar", "towards the radar"
MAX_MASKS, MAX_SURFACES = 12, 12
DROPPED: Dict[int, Colour] = {WEAK: (214, 96, 77), ISLAND: (146, 100, 190), LONELY: (20, 90, 160)}


@dataclass(frozen=True)
class Shown:
    """What a page is asked for: the radar's wavelength in metres, axes, the session before it was screened, what is 0, the unit, and
    whether the sign is turned; the coherence that the weights are made of, if it is known; the files that it is of, each with what it
    is; what was measured of the last surface, if that was done before; what is shown of a surface by a guide; and certain parts."""

    wavelength: Optional[float] = None
    axes: Optional[Axes] = None
    unscreened: Optional[bytes] = None
    reference: Reference = Reference()
    unit: Optional[str] = None
    turn: bool = False
    coherence: Optional[np.ndarray] = None
    files: Sequence[Tuple[str, str]] = ()
    signs: Optional[Signs] = None
    by_guide: Optional[ByGuide] = None
    parts: Optional[Parts] = None

    def unit_or_default(self) -> str:
        """The unit: as asked, or centimetres if there is a wavelength."""
        if self.unit is not None and self.unit != "cycles":
            return self.unit
        return "centimetres" if self.wavelength is not None else "cycles"


@dataclass(frozen=True)
class Picture:
    """What the page is of: the session's planes, the report with the surfaces that are shown, its place, and what is asked for.

    `signs` are what was measured of the last surface, `terms` those that the session was screened by, and `screening` is what that
    did, if it is known. `costed` is the surface that the last costs are of: the last one, or its guide. `chain` says how it came about.
    """

    session: Session
    report: report_reader.Report
    axes: Axes
    shown: Shown
    signs: Optional[Signs]
    costed: Optional[report_reader.Surface] = None
    chain: str = NO_FILTER
    terms: Optional[Terms] = None
    screening: Optional[Screened] = None

    @property
    def by_guide(self) -> Optional[ByGuide]:
        return self.shown.by_guide

    @property
    def solved(self) -> Session:
        """The planes that the costs are of: those of the filtered session by a guide."""
        return self.by_guide.smooth if self.by_guide else self.session

    @property
    def unit(self) -> str:
        return self.shown.unit_or_default()

    @property
    def reference(self) -> Reference:
        return self.shown.reference


# Sections


def phase_map(picture: Picture) -> str:
    session = picture.session
    cycles = np.where(session.opened, session.phase / CYCLE, np.nan)
    words = "Wrapped phase at the open pixels of revision 0"
    bar, values = Bar("phases", ROUND, 0, 1, "cycles"), Values(thinned(cycles), "cycles")
    return map_of(coloured(thinned(cycles), ROUND), picture.axes, bar, "Wrapped phase", words, values=values)


def is_known(picture: Picture, surface: report_reader.Surface) -> bool:
    """Whether the reference has a value."""
    x0, y0, x1, y1 = picture.reference.box or (0, 0, 0, 0)
    return picture.reference.box is not None and bool(surface.opened()[y0 : y1 + 1, x0 : x1 + 1].any())


def shown_values(picture: Picture, surface: report_reader.Surface) -> Tuple[np.ndarray, str]:
    """A surface in the page's unit, relative to the reference if that has a value, NaN where masked; and the unit."""
    level = level_of(surface.values, picture.reference.box if is_known(picture, surface) else None)
    sign = -1 if picture.shown.turn else 1
    if picture.unit in LENGTHS:
        found = displaced(surface.values, Sight(wavelength_of(picture.shown.wavelength or 0), level))
        return np.where(surface.opened(), sign * (found / LENGTHS[picture.unit]), np.nan), UNITS[picture.unit]
    return sign * TURN[picture.unit] * (surface.cycles() - float(level) / CYCLE), UNITS[picture.unit]


def sign_words(picture: Picture) -> str:
    """Which way a displacement points that is above 0."""
    plain, other = (TOWARDS, AWAY) if picture.shown.turn else (AWAY, TOWARDS)
    turned = "The sign is turned: above 0" if picture.shown.turn else "Above 0"
    return (
        f"{turned} the ground moved {plain}, if the phase grows with range, as ISCE 2, SNAP and GAMMA make it of a pair whose first "
        f"image is the earlier one; of ARIA's pairs it moved {other}."
    )


def came_of(picture: Picture, surface: report_reader.Surface) -> str:
    """Whose a surface is, and what it costs."""
    if picture.report.is_whole:
        what = "The surface nearest to the guide, which" if picture.by_guide else "The surface over the whole raster; it"
        return f"{what} costs {surface.tile_cost}"
    whose = "its guide's tiles" if picture.by_guide else "tiles"
    return (
        f"Revision {surface.revision}, published by analyst {surface.analyst}; {whose} cost {surface.tile_cost}, seams "
        f"{surface.seam_cost}"
    )


def surface_map(picture: Picture, number: int) -> str:
    """A surface with its colour bar; outliers do not stretch it."""
    surface = picture.report.surfaces[number - 1]
    values, unit = shown_values(picture, surface)
    known = values[surface.opened()]
    low, high = (float(part) for part in np.percentile(known, COMMON)) if len(known) else (0.0, 0.0)
    words = f"{came_of(picture, surface)}; {len(known)} pixels have a value"
    if len(known):
        words += f", from {known.min():.3f} to {known.max():.3f} {unit}; the colours range over those"
        words += f" from {COMMON[0]} to {COMMON[1]} %"
    mark, box = None, picture.reference.box
    if box is not None and is_known(picture, surface):
        words += f". The reference, which is 0, is marked: {picture.reference.note}"
        mark = mark_of(box, values.shape, f"reference: {picture.reference.note}")
    elif box is not None:
        words += ". The reference is masked here"
    title = f"{'Displacement of surface' if picture.unit in LENGTHS else 'Surface'} {number}"
    palette = BRIGHTER
    if picture.unit in LENGTHS and low < 0 < high:
        palette, high = SIGNED, max(-low, high)
        low = -high
    bar, colours = Bar(f"surface{number}", palette, low, high, unit), coloured(scaled(thinned(values), low, high), palette)
    return map_of(colours, picture.axes, bar, title, words, mark, Values(thinned(values), unit))


def first_section(picture: Picture) -> str:
    """The wrapped phase beside the last surface."""
    surfaces = picture.report.surfaces
    last = surface_map(picture, len(surfaces)) if surfaces else "<p>No surface was published.</p>"
    words = "Cycles are counted such that the first open pixel is within the first one. Masked pixels are white."
    if picture.reference.box is not None:
        words = "Surfaces are relative to the reference that is marked. Masked pixels are white."
    if picture.unit in LENGTHS:
        words += " Displacements are along the line of sight, half a wavelength a cycle, by the program's command displacement."
        words += f" {sign_words(picture)}"
    if picture.report.ramp != (0, 0):
        words += f" Differences of neighbours are taken to lie within half a cycle of the expected {told(picture.report.ramp)}."
    words += thinned_words(picture.session.phase.shape)
    hint = f'<p class="hint">{HINT}</p>'
    return f'<h2>Phase and surface</h2><p>{words}</p>{hint}<div class="row">{phase_map(picture)}{last}</div>'


def profile_section(picture: Picture) -> str:
    """The last surface along a row and a column: through the longest line along which it jumps, or through the middle."""
    if not picture.report.surfaces or picture.signs is None:
        return ""
    values, unit = shown_values(picture, picture.report.surfaces[-1])
    lines, axes = picture.signs.lines, picture.axes
    x0, y0, x1, y1 = lines.box if lines.count else (0, 0, values.shape[1] - 1, values.shape[0] - 1)
    row, column = (y0 + y1) // 2, (x0 + x1) // 2
    step = [-(-length // LONGEST) for length in values.shape]
    across = profile_of(values[row, :: step[1]], (axes.left, axes.right, axes.unit), unit, f"Along row {row}")
    down = profile_of(values[:: step[0], column], (axes.upper, axes.lower, axes.unit), unit, f"Along column {column}")
    where = "the middle of the longest line along which the surface jumps" if lines.count else "the middle of the raster"
    return f'<h2>Profiles</h2><p>Both go through {where}.</p><div class="row">{across}{down}</div>'


def departures(surface: report_reader.Surface, phase: np.ndarray, axis: int, slope: int = 0) -> np.ndarray:
    """By how many cycles the surface departs from the wrapped differences along an axis; 0 at masked ends."""
    values = np.where(surface.opened(), surface.values, 0)
    opened = surface.opened()
    both = (opened[:, 1:] & opened[:, :-1]) if axis else (opened[1:] & opened[:-1])
    return np.where(both, (np.diff(values, axis=axis) - wrapped_differences(phase, axis, slope)) // CYCLE, 0)


def at_ends(flags: np.ndarray, axis: int) -> np.ndarray:
    """The pixels at both ends of the edges along an axis."""
    before, after = [(0, 0), (0, 0)], [(0, 0), (0, 0)]
    before[axis], after[axis] = (0, 1), (1, 0)
    return np.pad(flags, before) | np.pad(flags, after)


@dataclass(frozen=True)
class Jumps:
    """The pixels at which a surface departs from the wrapped differences, inside tiles and across seams, and how many edges."""

    inside: np.ndarray
    across: np.ndarray
    inner_edges: int
    seam_edges: int


def jumps_of(surface: report_reader.Surface, phase: np.ndarray, side: int, ramp: Ramp = (0, 0)) -> Jumps:
    inside, across = np.zeros(phase.shape, dtype=bool), np.zeros(phase.shape, dtype=bool)
    counts = [0, 0]
    for axis in (0, 1):
        jump = departures(surface, phase, axis, ramp[1 - axis]) != 0
        seam = np.zeros(jump.shape, dtype=bool)
        np.moveaxis(seam, axis, 0)[side - 1 :: side] = True
        inside |= at_ends(jump & ~seam, axis)
        across |= at_ends(jump & seam, axis)
        counts = [counts[0] + int((jump & ~seam).sum()), counts[1] + int((jump & seam).sum())]
    return Jumps(inside, across, *counts)


def jump_words(picture: Picture, jumps: Jumps) -> str:
    """What a map of jumps shows."""
    whose = "guide departs from the wrapped differences of the filtered phase" if picture.by_guide else "surface departs from the wrapped differences"
    if picture.report.is_whole:
        where, cheaper = f"{jumps.inner_edges} edges", "No surface"
    else:
        where = f"{jumps.inner_edges} edges inside tiles and {jumps.seam_edges} across seams"
        cheaper = "Inside a tile no surface"
    return f"The {whose} at {where}. {cheaper} departs at less cost; long lines are where to look"


def jump_map(picture: Picture, surface: report_reader.Surface) -> str:
    """Where the surface that the costs are of jumps."""
    jumps = jumps_of(surface, picture.solved.phase, picture.report.side, picture.report.ramp)
    colours = np.where(thinned(surface.opened())[..., None], PLAIN, MASKED).astype(np.uint8)
    colours[any_thinned(jumps.inside)] = JUMP
    colours[any_thinned(jumps.across)] = SEAM
    keys = [(JUMP, "in a tile"), (SEAM, "at a seam"), (PLAIN, "none"), (MASKED, "masked")]
    if picture.report.is_whole:
        keys = [(JUMP, "departs"), *keys[2:]]
    title = f"Where the {'guide' if picture.by_guide else 'surface'} jumps"
    return map_of(colours, picture.axes, keys, title, jump_words(picture, jumps))


def component_map(picture: Picture) -> str:
    """The components of the last surface, if there are several."""
    numbers = components_of(picture.report.surfaces[-1].opened())
    count = int(numbers.max(initial=0))
    if count < 2:
        return ""
    colours, keys = numbered(numbers, count)
    sizes = np.bincount(numbers.ravel(), minlength=2)[1:]
    words = f"{count} components; whole cycles between them are arbitrary"
    words += f". The largest has {int(sizes.max(initial=0))} pixels"
    return map_of(colours, picture.axes, [*keys, (MASKED, "masked")], "Connected components of the mask", words)


def part_map(picture: Picture, parts: Parts) -> str:
    """The certain parts, the largest in colours of their own."""
    colours, keys = numbered(parts.labels, len(parts.sizes))
    colours[thinned(picture.session.opened & (parts.labels == 0))] = PLAIN
    said = parts.proved(picture.by_guide is not None)
    words = f"{parts.told().capitalize()}: {said}. Between two parts whole cycles may be wrong"
    return map_of(colours, picture.axes, [*keys, (PLAIN, "in none"), (MASKED, "masked")], "Certain parts", words)


def numbered(numbers: np.ndarray, count: int) -> Tuple[np.ndarray, List[Tuple[Colour, str]]]:
    """The colours of parts that are numbered by size, and what these stand for."""
    table = np.array([MASKED, *NUMBERED], dtype=np.uint8)
    keys = [(colour, str(number)) for number, colour in enumerate(NUMBERED[: min(count, len(NUMBERED))], 1)]
    if count > len(NUMBERED):
        keys[-1] = (NUMBERED[-1], "smaller")
    return table[np.minimum(thinned(numbers), len(NUMBERED))], keys


def weight_map(picture: Picture) -> str:
    session = picture.solved
    weights = np.where(session.opened, session.weights.astype(float), np.nan)
    known = weights[session.opened]
    low, high = (float(part) for part in np.percentile(known, COMMON)) if len(known) else (0.0, 1.0)
    if len(known) and known.min() == known.max():
        return f"<p>All open pixels have the weight {int(known[0])}.</p>"
    words = "The weights of the session, which are made of coherence"
    if picture.by_guide:
        words = "The weights of the guide, which are made of how well phase and filter agree, and of coherence, if there is one"
    colours, bar = coloured(scaled(thinned(weights), low, high), WARMER), Bar("weights", WARMER, low, high, "weight")
    return map_of(colours, picture.axes, bar, "Weights", words, values=Values(thinned(weights), ""))


def coherence_map(picture: Picture, coherence: np.ndarray, is_linear: bool) -> str:
    """The coherence from 0 to 1. Of linear weights it stands for them too."""
    session = picture.solved
    values, known = np.where(session.opened, coherence, np.nan), session.weights[session.opened]
    words = "The coherence that the weights are made of"
    if is_linear and len(known):
        words += f": they are 255 times as much, and at least 1, here from {known.min()} to {known.max()}"
    bar = Bar("coherence", WARMER, 0, 1, "coherence")
    colours = coloured(scaled(thinned(values), 0, 1), WARMER)
    return map_of(colours, picture.axes, bar, "Coherence", words, values=Values(thinned(values), ""))


def quality_maps(picture: Picture) -> List[str]:
    """The coherence and the weights, or one of both."""
    coherence, session = picture.shown.coherence, picture.solved
    if coherence is None:
        return [weight_map(picture)]
    is_linear = bool(np.array_equal(weights_of(coherence)[session.opened], session.weights[session.opened]))
    return [coherence_map(picture, coherence, is_linear), *([] if is_linear else [weight_map(picture)])]


def detail_section(picture: Picture) -> str:
    """Jumps, what a filter decides, certain parts, components and weights."""
    maps = [jump_map(picture, picture.costed)] if picture.costed else []
    if picture.by_guide:
        maps += [apart_map(picture.session.opened, picture.by_guide.apart, picture.axes)]
        maps += [filtered_map(picture.by_guide.smooth, picture.axes)]
    maps += [part_map(picture, picture.shown.parts)] if picture.shown.parts is not None else []
    maps += [component_map(picture)] if picture.costed else []
    return f'<h2>Where to look</h2><div class="row">{"".join([*maps, *quality_maps(picture)])}</div>'


def dropped_words(screening: Screened) -> str:
    """How many pixels were dropped, and why."""
    terms, stays = screening.terms, int(screening.stays().sum())
    weak, lonely, island = (screening.dropped(why) for why in (WEAK, LONELY, ISLAND))
    return (
        f"Of {stays + weak + lonely + island} open pixels {weak} were dropped as weak (a weight below {terms.weight}), "
        f"{lonely} as lonely (fewer than {terms.count} strong pixels within a radius of {terms.radius}) and {island} in "
        f"{screening.islands()} islands (patches below {terms.patch} pixels). {stays} stay open"
    )


def screen_map(picture: Picture, screening: Screened) -> str:
    """What became of each pixel."""
    colours = np.where(thinned(screening.stays())[..., None], PLAIN, MASKED).astype(np.uint8)
    for why, colour in DROPPED.items():
        colours[any_thinned(screening.fates == why)] = colour
    keys = [(DROPPED[WEAK], "weak"), (DROPPED[LONELY], "lonely"), (DROPPED[ISLAND], "island")]
    keys += [(PLAIN, "open"), (MASKED, "masked")]
    return map_of(colours, picture.axes, keys, "What the screen dropped", dropped_words(screening))


def screen_section(picture: Picture) -> str:
    """What was dropped before the first revision, if it was screened."""
    if picture.screening is not None:
        return f'<h2>Screening</h2><div class="row">{screen_map(picture, picture.screening)}</div>'
    if picture.terms is not None:
        words = f"The first mask was screened by {picture.terms.told()}. The session before tells what that dropped"
        return f"<h2>Screening</h2><p>{words} (--unscreened).</p>"
    return ""


def changes_of(report: report_reader.Report) -> Iterator[str]:
    """What made each revision, from 0."""
    yield "as the session has it"
    for entry in report.entries:
        if entry.box is not None:
            x0, y0, x1, y1 = entry.box
            verb = "masked" if entry.change == "mask" else "opened"
            yield f"analyst {entry.analyst} {verb} columns {x0} to {x1}, rows {y0} to {y1}"


def mask_map(picture: Picture, revision: int, opened: np.ndarray, change: str) -> str:
    colours = np.where(thinned(opened)[..., None], PLAIN, MASKED).astype(np.uint8)
    words = f"{change}; {(~opened).sum()} of {opened.size} pixels masked"
    return map_of(colours, picture.axes, [(PLAIN, "open"), (MASKED, "masked")], f"Revision {revision}", words)


def mask_section(picture: Picture) -> str:
    """The mask of each revision, if there is more than one."""
    masks = list(zip(picture.report.masks(picture.session.opened), changes_of(picture.report)))
    if len(masks) < 2:
        return ""
    figures = [mask_map(picture, revision, *what) for revision, what in enumerate(masks[:MAX_MASKS])]
    more = f"<p>{len(masks) - MAX_MASKS} more revisions are not shown.</p>" if len(masks) > MAX_MASKS else ""
    return f'<h2>Masks</h2><div class="row small">{"".join(figures)}</div>{more}'


def earlier_section(picture: Picture) -> str:
    """The surfaces before the last one."""
    count = len(picture.report.surfaces) - 1
    if count < 1:
        return ""
    figures = [surface_map(picture, number) for number in range(1, count + 1)[:MAX_SURFACES]]
    more = f"<p>{count - MAX_SURFACES} more surfaces are not shown.</p>" if count > MAX_SURFACES else ""
    return f'<h2>Earlier surfaces</h2><div class="row small">{"".join(figures)}</div>{more}'


A_COST = "A cost is weight times whole cycles, added over the edges at which {} departs from the wrapped differences{}. "


def cost_words(picture: Picture, accepted: bool) -> str:
    """What the costs say."""
    if not accepted:
        return "It was not accepted, so costs are what it says, and nothing is certified."
    guide = ("the guide", " of the filtered phase") if picture.by_guide else ("the surface", "")
    if picture.report.is_whole:
        of = "the filtered phase" if picture.by_guide else "the phase"
        return f"{A_COST.format(*guide)}No surface that differs from {of} by whole cycles costs less."
    return (
        f"{A_COST.format(*guide)}No congruent surface costs less than the tiles of a certified one do, so each is within its seam "
        "cost of the least."
    )


def cost_section(picture: Picture, accepted: bool) -> str:
    report, words = picture.report, cost_words(picture, accepted)
    if report.is_whole:
        what = "guide" if picture.by_guide else "surface"
        return f"<h2>Cost</h2><p>The {what} costs {report.surfaces[-1].tile_cost}. {words}</p>"
    rows = "".join(
        f"<tr><td>{number}</td><td>{surface.revision}</td><td>{surface.analyst}</td><td>{surface.opened().sum()}</td>"
        f"<td>{surface.tile_cost}</td><td>{surface.seam_cost}</td><td>{surface.tile_cost + surface.seam_cost}</td></tr>"
        for number, surface in enumerate(report.surfaces, 1)
    )
    head = "".join(
        f"<th>{name}</th>" for name in ("surface", "revision", "analyst", "open pixels", "tiles", "seams", "in all")
    )
    return f'<h2>Costs</h2><div class="wide"><table><tr>{head}</tr>{rows}</table></div><p>{words}</p>'


# The time line

MARKS = {
    "revised": '<rect x="{x0}" y="{y0}" width="10" height="10" fill="#b02a1c">{title}</rect>',
    "published": '<circle cx="{x}" cy="{y}" r="6" fill="#1a7a3a">{title}</circle>',
    "settled": '<circle cx="{x}" cy="{y}" r="5" fill="#fff" stroke="#1a7a3a" stroke-width="2">{title}</circle>',
    "shown": '<path d="M{x} {y0} l5 10 l-10 0 z" fill="#31688e">{title}</path>',
}
LEFT, RIGHT, LANE = 90, 1040, 34


def words_of(entry: report_reader.Entry) -> str:
    """An entry in words."""
    if entry.box is not None:
        return f"{entry.change} {' '.join(map(str, entry.box))}"
    if entry.kind == "shown":
        return "shown " + ("none" if entry.revision is None else f"revision {entry.revision}")
    return f"{entry.kind} revision {entry.revision}"


def mark(entry: report_reader.Entry, place: int, count: int, lanes: List[int]) -> str:
    """The mark of an analyst's entry."""
    x = LEFT + (RIGHT - LEFT) * place / max(1, count)
    y = LANE * (lanes.index(entry.analyst or 0) + 1)
    title = f"<title>entry {place}, analyst {entry.analyst}: {words_of(entry)}</title>"
    return MARKS[entry.kind].format(x=f"{x:.1f}", y=y, x0=f"{x - 5:.1f}", y0=y - 5, title=title)


def kept_bars(report: report_reader.Report, y: int) -> str:
    """How many results were kept along the time line, in 190 parts."""
    places = [place for place, entry in enumerate(report.entries, 1) if entry.kind == "kept"]
    counts, edges = np.histogram(places, bins=190, range=(0, max(1, len(report.entries))))
    heights = 22 * counts / max(1, counts.max())
    return "".join(
        f'<rect x="{LEFT + 5 * number}" y="{y - high:.1f}" width="4" height="{high:.1f}" fill="#777">'
        f"<title>{count} results kept, entries {int(edges[number]) + 1} to {int(edges[number + 1])}</title></rect>"
        for number, (count, high) in enumerate(zip(counts, heights))
        if count
    )


def history_section(report: report_reader.Report) -> str:
    """The history from left to right, a lane for each analyst and one for kept results. A whole text has none."""
    if report.is_whole:
        return ""
    told = [(place, entry) for place, entry in enumerate(report.entries, 1) if entry.kind != "kept"]
    lanes = sorted({entry.analyst or 0 for _, entry in told})
    count, bottom = len(report.entries), LANE * (len(lanes) + 1)
    names = [f'<text x="0" y="{LANE * n + 4}">analyst {lane}</text>' for n, lane in enumerate(lanes, 1)]
    lines = [
        f'<line x1="{LEFT}" x2="{RIGHT}" y1="{LANE * n}" y2="{LANE * n}" stroke="#ccc"/>'
        for n in range(1, len(lanes) + 1)
    ]
    marks = [mark(entry, place, count, lanes) for place, entry in told]
    kept = f'<text x="0" y="{bottom + 4}">results kept</text>{kept_bars(report, bottom + 6)}'
    axis = f'<text x="{LEFT}" y="{bottom + 26}">entry 1</text>'
    axis += f'<text x="{RIGHT}" y="{bottom + 26}" text-anchor="end">entry {count}</text>'
    listed = "".join(
        f"<li value='{place}'>analyst {entry.analyst}: {escape(words_of(entry))}</li>" for place, entry in told[:200]
    )
    return (
        f'<h2>History</h2><div class="wide"><svg class="history" viewBox="0 0 1060 {bottom + 36}" role="img" '
        f'aria-label="history">{"".join([*names, *lines, *marks, kept, axis])}</svg></div>'
        "<p>A red square revised the mask, a green disc published a surface, a green ring found it published, a blue triangle "
        "looked at the newest. Bars count results of tiles.</p>"
        f"<details><summary>As a list</summary><ol>{listed}</ol></details>"
    )


# The page


def judgement(picture: Picture, verdict: str, accepted: bool) -> str:
    """What the checker says, and what is to be said besides: green if nothing is, amber where the surface may be wrong."""
    concerns = picture.signs.concerns() if picture.signs else ()
    colour = "refused" if not accepted else "amber" if any(concern.is_bad for concern in concerns) else "accepted"
    proved = judgement_of(concerns, accepted, picture.report.is_whole, picture.chain != NO_FILTER)
    said = proved if picture.signs else "no surface was published"
    items = "".join(f'<li class="{"bad" if one.is_bad else "noted"}">{escape(one.text)}</li>' for one in concerns)
    listed = f'<ul class="concerns">{items}</ul>' if items else ""
    return f'<p><span class="verdict {colour}">check: {escape(verdict)}; {escape(said)}</span></p>{listed}'


def head_words(picture: Picture) -> str:
    """What the surface is of."""
    report = picture.report
    tiles = "the whole raster at once" if report.is_whole else f"tiles of side {report.side}"
    head = f"{report.width} by {report.height} pixels, {tiles}, rule {report.rule}"
    if picture.signs:
        head += f", residues at {100 * picture.signs.residues:.2f} % of the cells"
    if report.steepness > 1:
        head += f", steepness {report.steepness}"
    if picture.shown.wavelength is not None:
        head += f", wavelength {wavelength_of(picture.shown.wavelength) / LENGTHS['centimetres']:.9g} cm"
    return f"{head}. Filter: {picture.chain}"


def page_of(name: str, picture: Picture, verdict: str, accepted: bool) -> str:
    report, script = picture.report, map_script()
    return "\n".join(
        [
            head_of(name, script),
            f"<h1>{escape(name)}</h1><p>{escape(head_words(picture))}</p>{judgement(picture, verdict, accepted)}",
            first_section(picture),
            profile_section(picture),
            detail_section(picture),
            screen_section(picture),
            cost_section(picture, accepted),
            mask_section(picture),
            earlier_section(picture),
            history_section(report),
            footer(picture.shown.files, words_said()),
            end_of(script),
        ]
    )


def page_text(name: str, session: bytes, report: bytes, verdict: str, shown: Shown = Shown()) -> str:
    """The page of a session and its report as they stand."""
    planes, found = read_session(session), read_report(report, name)
    if planes.phase.shape != (found.height, found.width):
        raise Trouble(f"{name} is of {found.width} by {found.height} pixels, and its session has another size")
    terms = terms_in(session)
    screening = None
    if shown.unscreened is not None:
        if terms is None:
            raise Trouble("the session does not tell by which terms it was screened")
        after = with_mask_of(shown.unscreened, planes) if is_filtered(session) else session
        screening = screened_by(shown.unscreened, after, terms, "the session before")
    axes = replace(shown.axes or pixel_axes(planes.phase.shape), shape=(found.height, found.width))
    costed = found.surfaces[-1] if found.surfaces else None
    signs = shown.signs or (signs_of_session(session, costed, problem_of(found)) if costed else None)
    chain = shown.by_guide.chain if shown.by_guide else GUIDE if is_filtered(session) else NO_FILTER
    if shown.by_guide:
        found = with_values(found, shown.by_guide.values)
    if costed:
        level_of(found.surfaces[-1].values, shown.reference.box)  # Trouble if the last surface has no value there
    picture = Picture(planes, found, axes, shown, signs, costed, chain, terms, screening)
    return page_of(name, picture, verdict, verdict == ACCEPTED)


def with_mask_of(before: bytes, planes: Session) -> bytes:
    """A session with the mask of others: of a filtered one the mask alone is that of a screen."""
    return at_mask(before, planes.opened) if read_session(before).opened.shape == planes.opened.shape else before


def with_values(report: report_reader.Report, values: Sequence[np.ndarray]) -> report_reader.Report:
    """A report with other values of its surfaces, in their order."""
    left = iter(values)
    entries = [
        replace(entry, surface=replace(entry.surface, values=next(left))) if entry.surface is not None else entry
        for entry in report.entries
    ]
    return replace(report, entries=entries)


def axes_of(like: Optional[str], report: report_reader.Report) -> Optional[Axes]:
    """The axes of a raster that GDAL reads, which is of the report's size."""
    if like is None:
        return None
    from ..rasters import axes_of as axes_of_raster
    from ..rasters import open_raster, size_of

    raster = open_raster(like)
    if size_of(raster) != (report.width, report.height):
        raise Trouble(f"{like} has not the {report.width} by {report.height} pixels of the report")
    return axes_of_raster(raster)


def words() -> ArgumentParser:
    found = ArgumentParser(
        description=__doc__,
        formatter_class=RawDescriptionHelpFormatter,
        epilog="example: page session report --wavelength 0.0555 page.html\n"
        "The status is 0 if the page was written and `check` accepted, 1 if it was written and `check` refused, 2 for words "
        "that are refused, 3 if the session or the report breaks its form, 5 if a file cannot be read or written.",
    )
    found.add_argument("session", help="the session that the report is of")
    found.add_argument("report", help="what `insar_unwrap unwrap` or `insar_unwrap whole` wrote")
    found.add_argument(
        "--wavelength",
        type=float,
        metavar="METRES",
        help="of the radar, as 0.0555 for C band, from 1e-9 to 1, rounded to whole nanometres; shows centimetres of range",
    )
    found.add_argument("--unit", choices=tuple(UNITS), help="of surfaces (default: cycles, or centimetres with --wavelength)")
    found.add_argument("--turn", action="store_true", help="change the sign")
    add_reference_words(found)
    found.add_argument("--like", metavar="FILE", help="the raster of phases, for axes in map units")
    found.add_argument(
        "--unscreened", metavar="FILE", help="the session before it was screened, to show what that dropped, and why"
    )
    add_unfiltered_word(found, "the session before the filter, to show the surface that is nearest to the guide")
    add_narrow_word(found)
    add_margin_word(found)
    found.add_argument("--title", help="of the page (default: the report's name)")
    add_force_word(found)
    found.add_argument("page", help="the HTML file to write")
    return found


def check_words(asked: Namespace) -> None:
    """Trouble if arguments do not fit each other."""
    check_reference_words(asked)
    if asked.wavelength is not None:
        wavelength_of(asked.wavelength)
    if asked.unit in LENGTHS and asked.wavelength is None:
        raise Trouble(f"{asked.unit} want the --wavelength", REFUSED_WORDS)
    margin_for(asked)
    if asked.narrow and asked.unfiltered is None:
        raise Trouble("--narrow wants --unfiltered", REFUSED_WORDS)


@dataclass(frozen=True)
class Kept:
    """The texts that a page is of, and the verdict on the report."""

    session: bytes
    report: bytes
    verdict: str
    found: report_reader.Report

    @property
    def surfaces(self) -> List[report_reader.Surface]:
        return self.found.surfaces


def guided_again(asked: Namespace, kept: Kept) -> Optional[Solved]:
    """The surface by the guide that was kept, if the session before the filter is named."""
    if asked.unfiltered is None:
        return None
    if not kept.surfaces:
        raise Trouble(f"{asked.report}: no surface was published")
    last = Solved(kept.report, kept.surfaces[-1], kept.verdict)
    return solved_again(Path(asked.unfiltered).read_bytes(), kept.session, last, asked.narrow, asked.report)


def shown_by_guide(asked: Namespace, kept: Kept, solved: Solved) -> Tuple[ByGuide, Signs]:
    """What is shown of surfaces by guides, and what was measured of the last."""
    planes, found = read_session(Path(asked.unfiltered).read_bytes()), solved.guided
    assert found is not None
    before = [nearest(planes.phase, surface.values, surface.opened()) for surface in kept.surfaces[:-1]]
    chain = Chain(FOURIER, asked.narrow).told(kept.found.is_whole, kept.verdict == ACCEPTED)
    signs = signs_of(planes.phase, planes.weights, solved.surface, problem_of(kept.found), solved.guide)
    return ByGuide([*before, found.values], found.smooth, found.apart, chain), signs


def shown_parts(asked: Namespace, kept: Kept) -> Optional[Parts]:
    """The certain parts of a whole text that is accepted."""
    certified = certified_of(kept.session, kept.report, problem_of(kept.found))
    if certified is None or kept.verdict != ACCEPTED:
        return None
    return parts_or_none(partial(certified.parts, Bounds(margin_for(asked)), asked.report))


def shown_of(asked: Namespace, kept: Kept, solved: Optional[Solved]) -> Tuple[Shown, Reference]:
    """What the page is asked for, and what is 0 on it."""
    surface = solved.surface if solved else kept.surfaces[-1] if kept.surfaces else None
    session = Path(asked.unfiltered).read_bytes() if asked.unfiltered else kept.session
    reference = reference_of(asked, surface.values if surface else None, read_session(session).weights)
    files = [("session", asked.session), ("report", asked.report), ("place", asked.like or "")]
    files += [("session before the filter", asked.unfiltered or "")]
    unscreened = Path(asked.unscreened).read_bytes() if asked.unscreened else None
    by_guide, signs = shown_by_guide(asked, kept, solved) if solved else (None, None)
    axes = axes_of(asked.like, kept.found)
    words = (reference, asked.unit, asked.turn, None, files, signs, by_guide, shown_parts(asked, kept))
    return Shown(asked.wavelength, axes, unscreened, *words), reference


def main(asked: Namespace) -> int:
    check_words(asked)
    inputs = [asked.session, asked.report, asked.unscreened, asked.unfiltered, asked.like]
    with Outputs(inputs, asked.force) as outputs:
        made = outputs.beside(asked.page)
        session, report = Path(asked.session).read_bytes(), Path(asked.report).read_bytes()
        found = read_report(report, asked.report)
        accepted, verdict = check_report(session, report, problem_of(found))
        kept = Kept(session, report, verdict, found)
        shown, reference = shown_of(asked, kept, guided_again(asked, kept))
        name = asked.title or Path(asked.report).name
        planes = Path(asked.unfiltered).read_bytes() if asked.unfiltered else session
        outputs.fill(made, page_text(name, planes, report, verdict, shown).encode())
    print(f"{asked.page}: {verdict}")
    if is_filtered(planes):
        warn(f"{asked.page}: {GUIDE}; --unfiltered names the session before the filter")
    if asked.reference_auto:
        print(f"{asked.page}: reference: {reference.note}")
    return 0 if accepted else DISAGREES
