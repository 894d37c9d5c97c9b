"""Unwrapping of arrays: `unwrap` runs the proved program, has its report checked, and reads the surface back. NumPy alone."""
import io
import math
from dataclasses import dataclass, field, replace
from functools import cached_property
from pathlib import Path
from typing import Any, Iterator, Optional, Tuple, Union

import numpy as np
import numpy.typing as npt

from . import report_reader, screening
from .arguments import name_of_file, number, one_of, refused, whole_number, yes_or_no
from .arrays import PHASES, REALS, check_attributes, taken
from .components import components_of, warning_of
from .concerns import Concern, Guide, Signs, judgement_of, signs_of
from .guiding import FOURIER, Chain, Guided, Solvers, by_guide, check_before, guided, is_filtered
from .outputs import Outputs, beside
from .parts import MARGIN, Bounds, Certified, Parts, certified_of, parts_or_none
from .planes import (
    CYCLE,
    MAX_WEIGHT,
    TILED_LIMITS,
    WHOLE_LIMITS,
    Limits,
    Ramp,
    check_coherence,
    check_radians,
    has_phase,
    phases_of,
    ramp_in,
    read_session,
    session_of,
)
from .program import MAX_WORKERS, Problem, check_report, run_program, workers_or_default
from .progress import stage
from .ramps import Given, RampWord, checked, ramp_for
from .screening import Screen, Screened, screened, screened_by
from .trouble import DISAGREES, REFUSED_WORDS, Trouble, warn
from .undecided import Undecided, undecided_concerns
from .weights import highest_of, weights_of

ACCEPTED, NOT_CHECKED = "accepted", "not checked"
RULES = ("least", "mean", "product")
SIDE, SIDES = 128, (2, 128)  # of tiles, and the least and the greatest
WHOLE = True  # whether the whole raster is solved at once if nothing else is said
FILTER = FOURIER  # what filters the phase first if nothing else is said
MAX_STEEP = 16
LOOKS, HIGHEST, SHARE = "a number of 1 or more", "a number above 0", "a number from 0 to 1"

Path_ = Union[str, Path]


@dataclass(frozen=True)
class Settings:
    """How a session is unwrapped: the side of tiles in pixels, or None for the whole raster at once, the rule of weights, how many
    threads solve, and how much each cycle of a departure after the first costs."""

    side: Optional[int] = SIDE
    rule: str = RULES[0]
    workers: Optional[int] = None
    steep: int = 1

    @property
    def is_whole(self) -> bool:
        return self.side is None

    @property
    def limits(self) -> Limits:
        """How large a raster may be."""
        return WHOLE_LIMITS if self.is_whole else TILED_LIMITS

    def problem(self, ramp: Optional[Ramp]) -> Problem:
        """What is solved about an expected ramp."""
        return Problem(self.rule, self.side, ramp or (0, 0), self.steep)

    def check(self) -> None:
        if self.side is not None and not SIDES[0] <= self.side <= SIDES[1]:
            raise Trouble("the side of tiles is from 2 to 128", REFUSED_WORDS)
        if not 1 <= self.steep <= MAX_STEEP:
            raise Trouble(f"the steepness is from 1 to {MAX_STEEP}", REFUSED_WORDS)
        if self.rule not in RULES:
            raise Trouble(f"the rule is {', '.join(RULES[:-1])} or {RULES[-1]}", REFUSED_WORDS)
        if self.workers is not None and not 1 <= self.workers <= MAX_WORKERS:
            raise Trouble(f"there are from 1 to {MAX_WORKERS} workers", REFUSED_WORDS)


def side_for(tile: Optional[int], whole: Optional[bool]) -> Optional[int]:
    """The side of tiles that is asked for, None for the whole raster. Trouble if both are."""
    if tile is not None and whole:
        raise Trouble("the whole raster at once has no tiles, so no side of them", REFUSED_WORDS)
    if whole or (tile is None and whole is None and WHOLE):
        return None
    return SIDE if tile is None else tile


Plane = Tuple[np.ndarray, np.ndarray]  # numbers, and where they are there
Planes = Tuple[np.ndarray, np.ndarray, np.ndarray]  # phases, weights and open pixels


@dataclass(frozen=True)
class Making:
    """What a session is made of besides its planes. `masked_by` says which option masked by coherence, if one did."""

    name: str
    looks: Optional[float] = None
    ramp: RampWord = None
    screen: Optional[Screen] = None
    script: bytes = b"end\n"
    masked_by: Optional[str] = None
    has_coherence: bool = False


@dataclass(frozen=True)
class Input:
    """A session, its weights, open pixels and ramp, and whether its weights are made of coherence; if it was screened, the session
    before, and what that did."""

    session: bytes
    weights: np.ndarray
    opened: np.ndarray
    ramp: Optional[Ramp]
    before: bytes
    has_coherence: bool = False
    screening: Optional[Screened] = None


def input_of(planes: Planes, making: Making) -> Input:
    """The session of planes, screened if that is asked for. What is to be said of its mask is told."""
    phase, weights, opened = planes
    ramp = ramp_for(making.ramp, phase, weights, opened, making.name)
    before = session_of(phase, weights, opened, making.script, highest_of(making.looks), ramp)
    found = Input(before, weights, opened, ramp, before, making.has_coherence)
    if making.screen is not None:
        terms = making.screen.of(making.looks)
        session = screened(before, terms, making.name)
        screening = screened_by(before, session, terms, making.name)
        found = Input(session, weights, screening.stays(), ramp, before, making.has_coherence, screening)
        if not found.opened.any():
            raise Trouble(f"{making.name}: no pixel stays open of the screen by {screening.by_terms()}: {screening.told()}")
    line = warning_of(found.opened, "--screen" if making.screen is not None else making.masked_by)
    if line:
        warn(line)
    return found


@dataclass(frozen=True)
class Solved:
    """What the program wrote of a session: the report or the whole text as it stands, its last surface, and the verdict.

    By a guide the report and the verdict are the guide's, and so are the costs of the surface, whose values are those nearest to it.
    """

    report: bytes
    surface: report_reader.Surface
    verdict: str
    guided: Optional[Guided["Solved"]] = None

    @property
    def guide(self) -> Optional[Guide]:
        """What guides the surface, if there is a filter."""
        if self.guided is None:
            return None
        found = self.guided
        return Guide(found.guide.surface, found.smooth.phase, undecided_concerns(found.apart.parts))

    @property
    def undecided(self) -> Optional[Undecided]:
        """The parts of which nobody knows, if there is a filter."""
        return self.guided.apart.undecided() if self.guided else None

    def certified(self, session: bytes, problem: Problem) -> Optional[Certified]:
        """What tells certain parts: the whole text of this session, or of the one that the guide is of; None of tiles."""
        return certified_of(self.guided.session if self.guided else session, self.report, problem)


@dataclass(frozen=True)
class Unwrapped:
    """An unwrapped interferogram. As a pair it is (phase, components).

    Certain parts are found when `parts`, `components` or the pair is first asked for; the session and the text are kept for that.

    phase       radians, float32, (rows, columns), NaN at masked pixels
    values      the same exactly, int64, in 1/65536 cycle; report_reader.NODATA at masked pixels
    components  uint32: the number of each pixel's certain part, from 1 by falling size; 0 at masked pixels and elsewhere. Of tiles, and
                of a program that finds no certain parts, `mask_components`
    parts       the certain parts: their `labels`, `sizes` and `margin`, the `share` of the open pixels that they cover; None of tiles
    mask_components  uint32: the set of open pixels that touch each other, from 1 by falling size; 0 at masked pixels and in small ones
    bounds      the margin and the least size that parts and components were asked for by
    certified   the session and the whole text that parts are found of; None of tiles
    tile_cost   no surface that differs from the input by whole cycles costs less: the bound
    seam_cost   what the surface costs more than the bound: 0 if the whole raster was solved at once
    verdict     'accepted' if the program's checker accepted the report, else 'not checked'
    ramp        the expected slopes to the right and downwards, in 1/65536 cycle a pixel; None if none was asked for
    dropped     what a screen dropped: uint8, 1 at weak pixels, 2 at lonely ones, 3 in islands, else 0; None without a screen
    concerns    signs that the surface may be wrong though none costs less: each has a text, a kind, and is_bad
    chain       its `filter`, or None, and whether it was `narrow`. With a filter the costs and the verdict are those of the surface
                that guides, and what is proved is proved of it: `chain.told` says what
    undecided   parts of 500 pixels or more to which no filter gives other cycles, and nobody knows which are right: their `labels`,
                uint32, from 1 by falling size and 0 elsewhere, and `f` of each, below 0.75; None without a filter
    """

    phase: npt.NDArray[np.float32]
    values: npt.NDArray[np.int64]
    tile_cost: int
    seam_cost: int
    verdict: str
    settings: Settings
    ramp: Optional[Ramp] = None
    dropped: Optional[npt.NDArray[np.uint8]] = None
    concerns: Tuple[Concern, ...] = ()
    chain: Chain = Chain()
    undecided: Optional[Undecided] = None
    bounds: Bounds = Bounds()
    certified: Optional[Certified] = field(default=None, repr=False)

    @cached_property
    def parts(self) -> Optional[Parts]:
        """The certain parts of the surface, or of its guide; None of tiles. Trouble if the program cannot find them."""
        return self.certified.parts(self.bounds, "the interferogram") if self.certified else None

    @cached_property
    def mask_components(self) -> npt.NDArray[np.uint32]:
        """Sets of open pixels that touch each other."""
        return components_of(self.values != report_reader.NODATA, self.bounds.of_components)

    @cached_property
    def components(self) -> npt.NDArray[np.uint32]:
        """The certain parts, or what the mask leaves if there are none to be had."""
        found = parts_or_none(lambda: self.parts)
        return self.mask_components if found is None else found.labels

    @property
    def judgement(self) -> str:
        """What was proved, and how many concerns are bad, in words."""
        is_guided = self.chain.filter is not None
        return judgement_of(self.concerns, self.verdict == ACCEPTED, self.settings.is_whole, is_guided)

    @property
    def cost(self) -> int:
        """Weight times whole cycles, over the edges at which the surface departs from the wrapped differences."""
        return self.tile_cost + self.seam_cost

    @property
    def bound(self) -> int:
        """No surface that differs from the input by whole cycles costs less."""
        return self.tile_cost

    def __iter__(self) -> Iterator[np.ndarray]:
        return iter((self.phase, self.components))


def problem_of(report: report_reader.Report) -> Problem:
    """What a report or a whole text says that it solves."""
    side = None if report.is_whole else report.side
    return Problem(report.rule, side, report.ramp, report.steepness)


def read_report(text: bytes, name: str) -> report_reader.Report:
    """A report or a whole text. Trouble with the first broken line."""
    try:
        return report_reader.read_report_from(io.BytesIO(text))
    except report_reader.BrokenLine as broken:
        raise Trouble(f"{name}: {broken}") from broken


def last_surface(report: bytes, name: str) -> report_reader.Surface:
    """The last surface of a report."""
    surfaces = read_report(report, name).surfaces
    if not surfaces:
        raise Trouble(f"{name}: no surface was published")
    return surfaces[-1]


def solve(session: bytes, settings: Settings, check: bool = True, name: str = "the session") -> Solved:
    """Unwraps a session by the ramp that it tells and has the checker judge the report. Trouble if it is refused."""
    settings.check()
    problem = settings.problem(ramp_in(session))
    workers = str(workers_or_default(settings.workers))
    stage("solving")
    report = run_program([problem.solver, *problem.words(), "--workers", workers], session, name)
    verdict = NOT_CHECKED
    if check:
        stage("checking")
        accepted, verdict = check_report(session, report, problem)
        if not accepted:
            raise Trouble(f"{name}: {verdict}", DISAGREES)
    return Solved(report, last_surface(report, name), verdict)


def signs_of_session(session: bytes, surface: report_reader.Surface, problem: Problem) -> Signs:
    """What is measured of a surface of a session, which is a guide if the phase is filtered."""
    planes = read_session(session)
    guide = Guide(surface, planes.phase) if is_filtered(session) else None
    return signs_of(planes.phase, planes.weights, surface, problem, guide)


def solvers_of(settings: Settings, check: bool, name: str) -> Solvers[Solved]:
    """What solves sessions by these settings; a comparison is not checked."""
    return Solvers(
        lambda session: solve(session, settings, check, name), lambda session: solve(session, settings, False, name)
    )


def solved_by(found: Guided[Solved]) -> Solved:
    """A surface by a guide, with the report, the costs and the verdict of the guide."""
    guide = found.guide
    return Solved(guide.report, replace(guide.surface, values=found.values), guide.verdict, found)


def solve_by(chain: Chain, made: Input, settings: Settings, check: bool, name: str) -> Solved:
    """Unwraps what was made, by a guide if the chain has a filter."""
    solvers = solvers_of(settings, check, name)
    if chain.filter is None:
        return solvers.solve(made.session)
    workers = workers_or_default(settings.workers)
    return solved_by(guided(made.session, made.has_coherence, solvers, chain.narrow, workers))


def solved_again(before: bytes, session: bytes, kept: Solved, narrow: bool, name: str) -> Solved:
    """The surface of a session by the guide that was kept of it once it was filtered. Trouble if it is another session's."""
    check_before(before, session)
    problem = problem_of(read_report(kept.report, name))
    settings = Settings(problem.side, problem.rule, None, problem.steep)
    return solved_by(by_guide(before, session, kept, narrow, solvers_of(settings, True, name)))


def radians_of(values: np.ndarray) -> npt.NDArray[np.float32]:
    """The values of a surface in radians, NaN at masked pixels."""
    known = values != report_reader.NODATA
    return np.where(known, values * (2 * math.pi / CYCLE), np.nan).astype(np.float32)


@dataclass(frozen=True)
class Arrays:
    """What is given of an interferogram, each as `arrays.taken` takes it; coherence and mask may be wanting. `nodata` stands for no
    value in the first two, and `highest` for a coherence of 1. With `wrap` phases may span more than a cycle."""

    igram: Any
    coherence: Any = None
    mask: Any = None
    looks: Optional[float] = None
    nodata: Optional[float] = None
    wrap: bool = False
    highest: float = 1.0

    def interferogram(self, limits: Limits) -> Plane:
        """Its numbers, and where they are there. An array that tells its shape is refused by that alone."""
        shape = getattr(self.igram, "shape", None)
        if isinstance(shape, tuple) and len(shape) == 2:
            limits.check(shape, "the interferogram")
        values, there = taken(self.igram, "the interferogram", PHASES, self.nodata)
        check_attributes(self.igram, "the interferogram", self.wrap)
        if values.ndim != 2 or not values.size:
            raise Trouble(f"an interferogram has two dimensions and numbers; this one has the shape {values.shape}")
        limits.check(values.shape, "the interferogram")
        return values, there & has_phase(values)

    def like(self, given: Any, shape: Tuple[int, ...], name: str, nodata: Optional[float] = None) -> Plane:
        """Numbers that go with the interferogram, of its shape, and where they are there."""
        values, there = taken(given, name, REALS, nodata)
        if values.shape != shape:
            raise Trouble(f"{name} has the shape {values.shape}, the interferogram {shape}")
        return values, there

    def weights(self, shape: Tuple[int, ...]) -> Plane:
        """Weights, and where a coherence is there; all are the greatest without one."""
        if self.coherence is None:
            return np.full(shape, MAX_WEIGHT, dtype=np.uint16), np.ones(shape, dtype=bool)
        values, there = self.like(self.coherence, shape, "coherence", self.nodata)
        there &= np.isfinite(values)
        quality = np.where(there, values, 0).astype(np.float64) / self.highest
        check_coherence(quality, "coherence", self.highest, "coherence_max")
        return weights_of(quality, self.looks), there

    def planes(self, limits: Limits = WHOLE_LIMITS) -> Planes:
        """Phases, weights and open pixels of an interferogram that is within the limits."""
        values, opened = self.interferogram(limits)
        weights, there = self.weights(values.shape)
        opened &= there
        if self.mask is not None:
            kept, there = self.like(self.mask, values.shape, "mask")
            opened &= there & (kept != 0)
        check_radians(values, opened, "the interferogram", False, self.wrap, "wrap=True")
        if not opened.any():
            raise Trouble("the interferogram has no pixel that is open")
        return np.where(opened, phases_of(values), 0), weights, opened


def arrays_of(igram: Any, coherence: Any, mask: Any, looks: Any, nodata: Any, wrap: Any, coherence_max: Any) -> Arrays:
    """What is given of an interferogram. Trouble if it does not fit."""
    if looks is not None and not 1 <= number("looks", looks, LOOKS) < math.inf:
        raise refused("looks", LOOKS, looks)
    if coherence_max is not None and not 0 < number("coherence_max", coherence_max, HIGHEST) < math.inf:
        raise refused("coherence_max", HIGHEST, coherence_max)
    for name, value in (("looks", looks), ("coherence_max", coherence_max)):
        if value is not None and coherence is None:
            raise Trouble(f"{name} wants coherence", REFUSED_WORDS)
    missing = None if nodata is None else number("nodata", nodata, "a number")
    return Arrays(igram, coherence, mask, looks, missing, yes_or_no("wrap", wrap), float(coherence_max or 1.0))


def settings_of(whole: Any, tile: Any, rule: Any, steep: Any, workers: Any) -> Settings:
    """How it is solved. Trouble if an argument does not fit."""
    if whole is not None:
        yes_or_no("whole", whole)
    if not isinstance(rule, str) or rule not in RULES:
        raise refused("rule", f"{', '.join(map(repr, RULES[:-1]))} or {RULES[-1]!r}", rule)
    side = None if tile is None else whole_number("tile", tile, *SIDES)
    threads = None if workers is None else whole_number("workers", workers, 1, MAX_WORKERS)
    return Settings(side_for(side, whole), rule, threads, whole_number("steep", steep, 1, MAX_STEEP))


def bounds_of(margin: Any, least: Any, settings: Settings) -> Bounds:
    """What is asked for of parts and components. Trouble if an argument does not fit."""
    few = None if least is None else whole_number("least_component", least, 1)
    if margin is None:
        return Bounds(MARGIN, few)
    if not 0 <= number("margin", margin, SHARE) <= 1:
        raise refused("margin", SHARE, margin)
    if not settings.is_whole:
        raise Trouble("margin wants the whole raster at once: tiles have no certain parts", REFUSED_WORDS)
    return Bounds(float(margin), few)


def warn_of(concerns: Tuple[Concern, ...]) -> None:
    """Warns of the bad ones. That parts do not touch was said when the mask was made."""
    for concern in concerns:
        if concern.is_bad and concern.kind != "parts":
            warn(concern.text)


def unwrapped_of(
    made: Input, phase: np.ndarray, solved: Solved, settings: Settings, chain: Chain, bounds: Bounds
) -> Unwrapped:
    """What is returned."""
    surface, problem = solved.surface, settings.problem(made.ramp)
    signs = signs_of(phase, made.weights, surface, problem, solved.guide)
    warn_of(signs.concerns())
    return Unwrapped(
        radians_of(surface.values),
        surface.values,
        surface.tile_cost,
        surface.seam_cost,
        solved.verdict,
        settings,
        made.ramp,
        made.screening.dropped_at() if made.screening else None,
        signs.concerns(),
        chain,
        solved.undecided,
        bounds,
        solved.certified(made.session, problem),
    )


def unwrap(
    igram: npt.ArrayLike,
    coherence: Optional[npt.ArrayLike] = None,
    looks: Optional[float] = None,
    *,
    corr: Optional[npt.ArrayLike] = None,
    nlooks: Optional[float] = None,
    mask: Optional[npt.ArrayLike] = None,
    nodata: Optional[float] = None,
    wrap: bool = False,
    coherence_max: Optional[float] = None,
    whole: Optional[bool] = None,
    tile: Optional[int] = None,
    rule: str = RULES[0],
    steep: int = 1,
    workers: Optional[int] = None,
    report: Optional[Path_] = None,
    check: bool = True,
    least_component: Optional[int] = None,
    margin: Optional[float] = None,
    ramp: Given = None,
    screen: screening.Given = None,
    filter: Optional[str] = FILTER,
    narrow: bool = False,
) -> Unwrapped:
    """Unwraps an interferogram, (rows, columns), and has the result checked. It may have up to 65,535 pixels a side and 268,435,456 in
    all, in tiles 4,096 and 4,194,304.

    Arrays may be masked ones or xarray's; what is masked or missing in one is masked.

    igram            complex numbers, or wrapped phases in radians of any interval. NaN, infinite and complex 0 are masked
    coherence, corr  from 0 to 1: it makes the weights; NaN is masked. Both are names of it
    looks, nlooks    how many independent looks the coherence has: weights go by the variance of the phase. Both are names of it
    mask             0 or False at pixels to leave out, as water
    nodata           a number that stands for no value in igram and coherence, as 0
    wrap             take phases of more than a cycle, as an unwrapped one, and wrap them
    coherence_max    what stands for a coherence of 1, as 255
    whole            solve the whole raster at once: no surface that differs by whole cycles costs less (of a filter: than the guide)
    tile             solve tiles of this side, 2 to 128, one by one, and then how they join
    rule             how two weights give that of an edge: 'least', 'mean' or 'product'
    steep            how much each cycle of a departure after the first costs, 1 to 16
    workers          threads, 1 to 8; by default one for each processor
    report           a file to keep the report in, which can be checked again with its session (`wundjeska session`; of a filter, the
                     guide's with `wundjeska session --filter fourier`)
    check            have the proved checker judge the report; if it refuses, nothing is returned
    least_component  pixels of smaller components get the number 0, and keep their phase; by default those of fewer than 100 pixels of
                     certain parts, and none of components of the mask
    margin           inside a certain part every surface that costs at most so much more than the least has the same cycles up to one
                     constant: from 0 to 1, a share of 255, the weight of a coherence of 1, or with looks of 105, that of a phase
                     that is off by half a radian
    ramp             the expected slopes to the right and downwards, whole numbers of 1/65536 cycle a pixel, or 'auto': the
                     commonest fringe rate. Differences of neighbours are taken to lie within half a cycle of it
    screen           what a pixel needs to stay open, as {'coherence': 0.3, 'radius': 3, 'count': 20, 'patch': 50}: a coherence
                     (or a 'weight'), so many such pixels within a radius, and so many in its patch
    filter           'fourier': unwrap the phase after a windowed Fourier filter, by weights of how well both agree, and return the
                     whole cycles that bring the phase as given nearest to that surface, the guide, which is least of all and kept
                     by `report`. None: no filter, and what is returned is least of all itself
    narrow           with a filter, look for features narrower than 16 pixels by a second surface, too

    Raises Trouble, whose text is one line. What is to be said of a result warns as Caution, and stands in its concerns.
    """
    quality, many = one_of("coherence", coherence, "corr", corr), one_of("looks", looks, "nlooks", nlooks)
    arrays = arrays_of(igram, quality, mask, many, nodata, wrap, coherence_max)
    settings, asked = settings_of(whole, tile, rule, steep, workers), screening.checked(screen)
    bounds, is_checked = bounds_of(margin, least_component, settings), yes_or_no("check", check)
    chain = Chain(filter, yes_or_no("narrow", narrow))
    chain.check()
    kept = None if report is None else name_of_file("report", report)
    making = Making("the interferogram", arrays.looks, checked(ramp), asked, has_coherence=quality is not None)
    if asked is not None and asked.coherence is not None and quality is None:
        raise Trouble("a coherence of the screen wants coherence", REFUSED_WORDS)
    with Outputs([]) as outputs:
        place = beside(outputs, kept)
        planes = arrays.planes(settings.limits)
        made = input_of(planes, making)
        solved = solve_by(chain, made, settings, is_checked, making.name)
        if place is not None:
            outputs.fill(place, solved.report)
    return unwrapped_of(made, planes[0], solved, settings, chain, bounds)
