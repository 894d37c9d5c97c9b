"""Unwraps an interferogram in a file: makes the session, unwraps it, has the report checked, and writes a GeoTIFF.

With --whole, or nothing, the whole raster is solved at once, so that no surface costs less; with --tile or --no-whole tiles are, and
then how they join. It may have up to 65,535 pixels a side and 268,435,456 in all, in tiles 4,096 and 4,194,304.

The GeoTIFF has the pixels and the place of the phase, NODATA at masked pixels, and in its metadata the verdict, concerns, side,
rule, costs, unit, wavelength, reference and sign. If the check refuses, no file is written.

--components writes a second raster, of the certain parts, numbered from 1 by falling size: inside each every surface that costs at
most the --margin more than the least has the same cycles up to one constant, which is proved; that these are the true ones is not.
After a filter that is said of the guide. Of tiles it has the connected components of the mask, as --mask-components always does.

Beside `accepted` concerns are told: signs that the surface may be wrong by whole cycles though none costs less, as many
residues, dear seams, long lines along which it jumps, or a phase that is 0 in many places. They change no status.

A filter comes first if nothing else is said: the surface of the filtered phase is a guide, which the checker judges, and what is
written is the surface of the phase as given that lies nearest to it. --session and --report keep what the guide is of,
--unfiltered the session before. --undecided tells where no filter makes other cycles and nobody knows which are right.
With --no-filter what is written is least of all itself.
"""
from argparse import ArgumentParser, BooleanOptionalAction, Namespace, RawDescriptionHelpFormatter
from dataclasses import dataclass
from functools import partial
from pathlib import Path
from typing import Any, Dict, List, Optional, Sequence, Tuple

import numpy as np

from .. import report_reader
from ..components import components_of
from ..concerns import Concern, Signs, judgement_of, note_of, percent, signs_of
from ..guiding import FOURIER, Chain, add_filter_words, add_narrow_word, add_unfiltered_word
from ..needs import needs_of, tell_needs
from ..outputs import Outputs, add_force_word, beside, raster_beside
from ..parts import LEAST, Bounds, Certified, Parts, add_margin_word, bounds_for, check_command, parts_or_none
from ..planes import Ramp, read_session
from ..product import (
    NOTHING_CERTIFIES,
    add_unit_words,
    check_unit_words,
    write_components,
    write_parts,
    write_product,
    write_undecided,
)
from ..program import show
from ..progress import add_quiet_word, shown, stage
from ..ramps import add_ramp_words
from ..ramps import told as ramp_told
from ..rasters import Scene, add_scene_words, axes_of, scene_of, shape_of
from ..references import Reference, add_reference_words, reference_of
from ..screening import add_screen_words, check_screen_words
from ..trouble import REFUSED_WORDS, Trouble, warn
from ..undecided import Undecided, count_of
from ..unwrapping import ACCEPTED, FILTER, MAX_STEEP, RULES, SIDE, WHOLE, Input, Settings, Solved, side_for, solve_by
from .session import input_for, screen_line


def add_solver_words(words: ArgumentParser) -> None:
    """The arguments that settings_of reads."""
    words.add_argument("--tile", type=int, metavar="N", help=f"pixels along a side of a tile (default: {SIDE})")
    words.add_argument("--rule", choices=RULES, default=RULES[0], help="of weights (default: least)")
    words.add_argument(
        "--workers", type=int, metavar="N", help="threads that solve, 1 to 8 (default: one for each processor)"
    )
    words.add_argument(
        "--steep",
        type=int,
        default=1,
        metavar="Q",
        help=f"how much each cycle of a departure after the first costs, 1 to {MAX_STEEP} (default: 1)",
    )


def add_whole_word(found: ArgumentParser, what: str) -> None:
    """The word by which `what` is solved at once."""
    found.add_argument(
        "--whole",
        action=BooleanOptionalAction,
        help=f"solve {what} at once; otherwise tiles (default: {'at once, without --tile' if WHOLE else 'tiles'})",
    )


def add_component_words(found: ArgumentParser) -> None:
    """The words on certain parts and on components of the mask."""
    found.add_argument(
        "--components",
        metavar="FILE",
        help="write the certain parts, or of tiles the connected components of the mask, a GeoTIFF of whole numbers",
    )
    found.add_argument("--parts", metavar="FILE", help="write the certain parts, and nothing else in their place")
    found.add_argument("--mask-components", metavar="FILE", help="write the connected components of the mask")
    add_margin_word(found)
    found.add_argument(
        "--least-component",
        type=int,
        metavar="N",
        help=f"parts and components of fewer pixels get the number 0 (default: {LEAST} of parts, 1 of components of the mask)",
    )


def add_undecided_word(found: ArgumentParser, order: str) -> None:
    found.add_argument(
        "--undecided",
        metavar="FILE",
        help=f"write the parts, numbered from 1 {order}, to which no filter gives other cycles, and nobody knows which are right",
    )


def settings_of(asked: Namespace, whole: Optional[bool]) -> Settings:
    settings = Settings(side_for(asked.tile, whole), asked.rule, asked.workers, asked.steep)
    settings.check()
    return settings


def words() -> ArgumentParser:
    found = ArgumentParser(
        description=__doc__,
        formatter_class=RawDescriptionHelpFormatter,
        epilog="example: wundjeska phase.tif --coherence coherence.tif --components components.tif cycles.tif\n"
        "The status is 0 if the GeoTIFF was written, 1 if the check refused, 2 for words that are refused, 3 if the rasters do "
        "not fit, 5 if a file cannot be read or written, else that of the program.",
    )
    add_scene_words(found)
    add_ramp_words(found)
    add_screen_words(found)
    add_filter_words(
        found,
        "unwrap the phase after a windowed Fourier filter, and take the whole cycles that bring the phase as given nearest to that "
        "surface",
        FILTER,
    )
    add_narrow_word(found)
    add_solver_words(found)
    add_whole_word(found, "the whole raster")
    add_reference_words(found)
    add_unit_words(found)
    add_component_words(found)
    add_undecided_word(found, "by size")
    found.add_argument("--page", metavar="FILE", help="write a page to look at, an HTML file")
    found.add_argument("--session", metavar="FILE", help="keep the session that the report is of, the program's input")
    found.add_argument(
        "--report", metavar="FILE", help="keep the report or the whole text, which `check` accepts after the session"
    )
    add_unfiltered_word(found, "keep the session before the filter, by which `page` and `surface` make the surface of a guide")
    found.add_argument(
        "--no-check", action="store_true", help="do not have the report checked, and say so in the GeoTIFF"
    )
    add_force_word(found)
    add_quiet_word(found)
    found.add_argument("geotiff", help="the file to write")
    return found


def chain_of(asked: Namespace, **files: Optional[str]) -> Chain:
    """The chain that is asked for. Trouble if its words, or files that a filter alone can fill, do not fit it."""
    found = Chain(asked.filter, asked.narrow)
    found.check()
    for option, name in files.items():
        if name is not None and found.filter is None:
            raise Trouble(f"--{option} wants a filter: --filter {FOURIER}", REFUSED_WORDS)
    return found


def filter_notes(told: str, undecided: Optional[Undecided]) -> Dict[str, Any]:
    """What is told of a chain."""
    return {"FILTER": told, **({} if undecided is None else {"UNDECIDED": count_of(undecided)})}


def notes_of(solved: Solved, settings: Settings, scene: Scene, components: np.ndarray) -> Dict[str, Any]:
    """What the product tells of how it came about."""
    return {
        "VERDICT": solved.verdict if solved.verdict == ACCEPTED else NOTHING_CERTIFIES,
        **cost_notes(settings.side, solved.surface),
        "RULE": settings.rule,
        "WEIGHTS": weights_note(scene, solved.guided is not None),
        "COMPONENTS": int(components.max(initial=0)),
        **steep_note(settings.steep),
    }


def cost_notes(side: Optional[int], surface: report_reader.Surface) -> Dict[str, Any]:
    """What is told of the costs of a surface, solved by tiles of a side, or over the whole raster if that is None."""
    if side is None:
        return {"COST": surface.tile_cost, "SOLVED": "the whole raster at once"}
    return {"TILE_SIDE": side, "TILE_COST": surface.tile_cost, "SEAM_COST": surface.seam_cost}


def steep_note(steep: int) -> Dict[str, Any]:
    """What is told of a steepness of costs."""
    return {"STEEPNESS": steep} if steep > 1 else {}


def ramp_note(ramp: Optional[Ramp]) -> Dict[str, Any]:
    """What is told of an expected ramp."""
    return {} if ramp is None else {"RAMP": f"{show(ramp)} in 1/65536 cycle a pixel"}


def parts_note(parts: Optional[Parts]) -> Dict[str, Any]:
    """What is told of certain parts."""
    return {} if parts is None else {"PARTS": parts.told()}


def screen_note(made: Input) -> Dict[str, Any]:
    """What is told of a screen."""
    if made.screening is None:
        return {}
    return {"SCREEN": made.screening.by_terms(), "DROPPED": made.screening.told()}


def signs_note(signs: Signs) -> Dict[str, Any]:
    """What is told of signs that the surface may be wrong."""
    left = {} if signs.left is None else {"RESIDUES_LEFT": f"{percent(signs.left)} of the cells of the filtered phase"}
    return {"RESIDUES": f"{percent(signs.residues)} of the cells", **left, "CONCERNS": note_of(signs.concerns())}


def weights_note(scene: Scene, is_guided: bool) -> str:
    found = "linear in coherence" if scene.looks is None else f"by the variance of {scene.looks:g} looks"
    agreed = "the squared agreement of phase and filter"
    if scene.coherence is None:
        return agreed if is_guided else "equal"
    return f"{found}, times {agreed}" if is_guided else found


@dataclass(frozen=True)
class Told:
    """What is told of a surface: what was measured of it, what is 0, how it came about, how many components the mask leaves, and the
    certain parts, if they were found."""

    signs: Signs
    reference: Reference
    chain: str
    count: int
    parts: Optional[Parts] = None


def page_of(asked: Namespace, made: Input, solved: Solved, scene: Scene, told: Told) -> bytes:
    from ..guide_maps import by_guide_of
    from .page import Shown, page_text

    unscreened, axes = made.before if made.screening else None, axes_of(scene.phase.raster)
    files = [("phase", asked.phase), ("coherence", asked.coherence or ""), ("mask", asked.mask or "")]
    shown = Shown(
        asked.wavelength, axes, unscreened, told.reference, asked.unit, asked.turn, scene.coherence_shown(), files, told.signs,
        by_guide_of(solved.guided, told.chain) if solved.guided else None, told.parts,
    )
    return page_text(Path(asked.geotiff).name, made.session, solved.report, solved.verdict, shown).encode()


def check_words(asked: Namespace) -> None:
    """Trouble if arguments do not fit each other."""
    check_unit_words(asked)
    if asked.reference_auto and not asked.coherence:
        raise Trouble("--reference auto wants --coherence", REFUSED_WORDS)


def stages_of(asked: Namespace, settings: Settings, chain: Chain) -> int:
    """How many stages are shown: what is read and written, solved and checked. The surface without a filter is not checked."""
    solved, guided = 1 + chain.narrow, 2 if chain.filter else 0  # the filter, and the surface without
    parts = wants_parts(asked) and settings.is_whole
    return 2 + guided + (solved if asked.no_check else 2 * solved) + parts + (asked.page is not None)


def tell_what_it_needs(asked: Namespace, scene: Scene, settings: Settings, chain: Chain) -> None:
    """Says what the raster needs, unless it is refused for its size."""
    shape = shape_of(scene.phase.raster)
    if not settings.limits.hold(shape):
        return
    pixels, is_filtered = shape[0] * shape[1], chain.filter is not None
    remedy = "`wundjeska frames --side 1024 --jobs 1` takes less" + (", as does --no-filter" if is_filtered else "")
    needs = needs_of(pixels, pixels, is_filtered, asked.page is not None, shape[1])
    tell_needs(asked.phase, pixels, needs, asked.quiet, remedy)


def main(asked: Namespace) -> int:
    check_words(asked)
    settings = settings_of(asked, asked.whole)
    bounds = bounds_for(asked, settings.is_whole)
    scene = scene_of(asked)
    check_screen_words(asked.screen, asked.unscreened, scene.coherence)
    chain = chain_of(asked, undecided=asked.undecided, unfiltered=asked.unfiltered)
    if asked.parts:
        check_command()
    with Outputs(scene.files(), asked.force) as outputs:
        place = outputs.raster(asked.geotiff)
        places = places_for(asked, outputs)
        names = (asked.page, asked.session, asked.report, asked.unscreened, asked.unfiltered)
        page, *kept = (beside(outputs, name) for name in names)
        tell_what_it_needs(asked, scene, settings, chain)
        with shown(stages_of(asked, settings, chain), asked.quiet):
            made, solved, parts = solved_scene(asked, scene, settings, chain, bounds)
            stage("writing")
            told = write_surface(asked, place, scene, settings, chain, made, solved, parts)
            write_labels(places, scene, made, solved, bounds, parts)
            fill(outputs, kept, made, solved)
            if page:
                stage("drawing the page")
                outputs.fill(page, page_of(asked, made, solved, scene, told))
    tell(asked, settings, solved, made, told)
    return 0


def fill(outputs: Outputs, kept: List[Optional[Path]], made: Input, solved: Solved) -> None:
    """Writes the session, the report and the sessions before a screen and a filter, where they are asked for."""
    session = solved.guided.session if solved.guided else made.session
    for path, text in zip(kept, (session, solved.report, made.before, made.session)):
        if path:
            outputs.fill(path, text)


def solved_scene(
    asked: Namespace, scene: Scene, settings: Settings, chain: Chain, bounds: Bounds
) -> Tuple[Input, Solved, Optional[Parts]]:
    """What a scene is made into, its surface, and its certain parts."""
    stage("reading")
    made = input_for(scene, asked, settings.limits)
    solved = solve_by(chain, made, settings, not asked.no_check, asked.phase)
    return made, solved, certain_parts(asked, bounds, solved.certified(made.session, settings.problem(made.ramp)))


def write_surface(
    asked: Namespace,
    place: Path,
    scene: Scene,
    settings: Settings,
    chain: Chain,
    made: Input,
    solved: Solved,
    parts: Optional[Parts],
) -> Told:
    """Writes the GeoTIFF; what is told of it."""
    components = components_of(made.opened, asked.least_component or 1)
    phase, problem = read_session(made.session).phase, settings.problem(made.ramp)
    signs = signs_of(phase, made.weights, solved.surface, problem, solved.guide)
    came = chain.told(settings.is_whole, solved.verdict == ACCEPTED)
    notes = {**notes_of(solved, settings, scene, components), **ramp_note(made.ramp), **screen_note(made)}
    notes.update({**signs_note(signs), **filter_notes(came, solved.undecided), **parts_note(parts)})
    reference = reference_of(asked, solved.surface.values, made.weights)
    write_product(place, scene.phase.raster, solved.surface.values, asked, reference, notes)
    return Told(signs, reference, came, int(components.max(initial=0)), parts)


@dataclass(frozen=True)
class Places:
    """Where rasters of numbers are written, None where they are not asked for."""

    components: Optional[Path]
    parts: Optional[Path]
    mask_components: Optional[Path]
    undecided: Optional[Path]


def places_for(asked: Namespace, outputs: Outputs) -> Places:
    names = (asked.components, asked.parts, asked.mask_components, asked.undecided)
    return Places(*(raster_beside(outputs, name) for name in names))


def wants_parts(asked: Namespace) -> bool:
    """Whether certain parts are asked for or shown."""
    return bool(asked.parts or asked.components or asked.page)


def certain_parts(asked: Namespace, bounds: Bounds, certified: Optional[Certified]) -> Optional[Parts]:
    """The certain parts, if they are asked for or shown, and if there are any to be had."""
    if certified is None or not wants_parts(asked):
        return None
    stage("finding certain parts")
    find = partial(certified.parts, bounds, asked.phase)
    return find() if asked.parts else parts_or_none(find)


def write_labels(places: Places, scene: Scene, made: Input, solved: Solved, bounds: Bounds, parts: Optional[Parts]) -> None:
    """Writes the rasters of parts, of components and of what is undecided that are asked for."""
    like, least = scene.phase.raster, bounds.of_components
    for place in (places.parts, places.components):
        if place and parts:
            write_parts(place, like, parts, solved.guided is not None)
    for place in (None if parts else places.components, places.mask_components):
        if place:
            write_components(place, like, components_of(made.opened, least), least)
    if places.undecided and solved.undecided:
        write_undecided(places.undecided, like, solved.undecided)


def costs_line(settings: Settings, solved: Solved) -> str:
    """What a surface costs, in words."""
    surface, whose = solved.surface, "its guide's " if solved.guided else ""
    if not settings.is_whole:
        return f"{whose}tiles cost {surface.tile_cost}, seams {surface.seam_cost}"
    return f"{whose}cost {surface.tile_cost}" + (", the least of all" if solved.verdict == ACCEPTED else "")


def judgement_lines(concerns: Sequence[Concern], settings: Settings, solved: Solved) -> List[str]:
    """What was proved, and each sign that the surface may be wrong."""
    proved = judgement_of(concerns, solved.verdict == ACCEPTED, settings.is_whole, solved.guided is not None)
    return [proved, *(f"{'concern' if concern.is_bad else 'note'}: {concern}" for concern in concerns)]


def part_lines(asked: Namespace, settings: Settings, solved: Solved, parts: Optional[Parts]) -> List[str]:
    """What is told of certain parts, or what stands in their place."""
    if parts is not None:
        return [f"{asked.geotiff}: {parts.told()}: {parts.proved(solved.guided is not None)}"]
    if asked.components and not settings.is_whole:
        return [f"{asked.components}: the connected components of the mask, since tiles have no certain parts"]
    return []


def verdict_line(solved: Solved, made: Input, told: Told) -> str:
    """The verdict, how many concerns stand beside it, and what was unwrapped."""
    height, width = made.opened.shape
    bad = sum(concern.is_bad for concern in told.signs.concerns())
    beside_it = f" with {bad} concern{'' if bad == 1 else 's'}" if bad else ""
    plural = "" if told.count == 1 else "s"
    pixels = f"{width} by {height} pixels, {made.opened.sum()} open in {told.count} component{plural}"
    left = "" if told.signs.left is None else f" and {percent(told.signs.left)} after the filter"
    return f"{solved.verdict}{beside_it}, {pixels}, {percent(told.signs.residues)} residues{left}"


def tell(asked: Namespace, settings: Settings, solved: Solved, made: Input, told: Told) -> None:
    if solved.verdict != ACCEPTED:
        warn(f"{asked.geotiff}: {NOTHING_CERTIFIES}")
    undecided = f", {count_of(solved.undecided)}" if solved.undecided else ""
    print(f"{asked.geotiff}: {verdict_line(solved, made, told)}, {costs_line(settings, solved)}{undecided}")
    for line in judgement_lines(told.signs.concerns(), settings, solved):
        print(f"{asked.geotiff}: {line}")
    print(f"{asked.geotiff}: filter {told.chain}")
    for line in part_lines(asked, settings, solved, told.parts):
        print(line)
    if made.screening is not None:
        print(f"{asked.geotiff}: {screen_line(made.screening)}")
    if made.ramp is not None:
        print(f"{asked.geotiff}: {ramp_told(made.ramp)}")
    if asked.reference_auto:
        print(f"{asked.geotiff}: reference: {told.reference.note}")
