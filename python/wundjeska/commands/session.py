"""Makes a session of GeoTIFFs (or whatever GDAL reads): phase, coherence and mask as PGM planes.

A phase in radians or the angle of a complex number becomes the nearest unit of 1/65536 cycle, so it is off by half a unit
at most, 0.00005 radians. A coherence becomes a weight. A pixel is masked where the phase or the coherence is NODATA, NaN or
infinite, a complex number is 0, --mask is 0, or the coherence is below --least-coherence. The first row of the raster is the
first row of the planes, whichever way it points. Scales and offsets of bands are applied.

--screen has the program's command `screen` mask what is noise. The session keeps the terms in a comment, and the mask is compared
with one that is made here by the same rule; of a raster that is too large for tiles that one is taken. Edits of --script come after
it, so `unmask` opens what it dropped.

A session may have up to 65,535 pixels a side and 268,435,456 in all, which `whole` and `parts` take; with --script 4,096 and 4,194,304,
since scripts are run in tiles.

A session is of the phase as given if nothing else is said. --filter makes the one of the filtered phase, whose report
`unwrap --report` keeps.

An expected --ramp is told, as the words that the program wants, and kept in a comment of the session, where the other verbs find
it. `auto` is the peak of the spectrum of fringe rates. It is known up to whole cycles a pixel alone, so what rises by 0.8 cycle
a pixel looks as if it fell by 0.2.
"""
from argparse import ArgumentParser, Namespace, RawDescriptionHelpFormatter
from pathlib import Path

from ..outputs import Outputs, add_force_word, beside
from ..planes import TILED_LIMITS, WHOLE_LIMITS, Limits
from ..program import ramp_words
from ..ramps import add_ramp_words, told
from ..rasters import Scene, add_scene_words, name_of, scene_of, shape_of, whole
from ..screening import Screened, add_screen_words, check_screen_words
from ..trouble import Trouble
from ..guiding import GUIDE, add_filter_words, filtered_session
from ..unwrapping import Input, Making, Planes, input_of


def words() -> ArgumentParser:
    found = ArgumentParser(
        description=__doc__,
        formatter_class=RawDescriptionHelpFormatter,
        epilog="example: session phase.tif --coherence coherence.tif session\n"
        "The status is 0 if the session was written, 2 for words that are refused, 3 if the rasters do not fit, 5 if one "
        "cannot be read.",
    )
    add_scene_words(found)
    add_ramp_words(found)
    add_screen_words(found)
    add_filter_words(found, "make the session of the phase after a windowed Fourier filter, whose surface is a guide", None)
    found.add_argument(
        "--script",
        metavar="FILE",
        help="the analysts' scripts, with `end` as their last line (default: that line alone: the surface is published once)",
    )
    add_force_word(found)
    found.add_argument("session", help="the file to write")
    return found


def read_scene(scene: Scene, limits: Limits) -> Planes:
    """Phases, weights and open pixels of a scene that is within the limits."""
    raster = scene.phase.raster
    limits.check(shape_of(raster), name_of(raster))
    planes = scene.read(whole(raster))
    if not planes[2].any():
        raise Trouble(f"{name_of(raster)} has no pixel that is open")
    return planes


def input_for(scene: Scene, asked: Namespace, limits: Limits, script: bytes = b"end\n") -> Input:
    """The session that the words ask for, before a filter, of a raster within the limits."""
    masked_by = "--least-coherence" if scene.least > 0 else None
    has_coherence = scene.coherence is not None
    making = Making(asked.phase, scene.looks, asked.ramp, asked.screen, script, masked_by, has_coherence)
    return input_of(read_scene(scene, limits), making)


def screen_line(screening: Screened) -> str:
    """What was dropped, and by which terms."""
    return f"screened by {screening.by_terms()}, which dropped {screening.told()}"


def main(asked: Namespace) -> int:
    scene = scene_of(asked)
    check_screen_words(asked.screen, asked.unscreened, scene.coherence)
    with Outputs([*scene.files(), asked.script], asked.force) as outputs:
        made, unscreened = outputs.beside(asked.session), beside(outputs, asked.unscreened)
        script = Path(asked.script).read_bytes() if asked.script else b"end\n"
        found = input_for(scene, asked, TILED_LIMITS if asked.script else WHOLE_LIMITS, script)
        outputs.fill(made, filtered_session(found.session, found.has_coherence) if asked.filter else found.session)
        if unscreened:
            outputs.fill(unscreened, found.before)
    height, width = found.opened.shape
    print(f"{asked.session}: {width} by {height} pixels, {found.opened.sum()} open, {(~found.opened).sum()} masked")
    if asked.filter:
        print(f"{asked.session}: filter {asked.filter}: the surface of this session is {GUIDE}")
    if found.screening is not None:
        print(f"{asked.session}: {screen_line(found.screening)}")
    if found.ramp is not None:
        words = " ".join(ramp_words(found.ramp)) or "no words for it"
        print(f"{asked.session}: {told(found.ramp)}; the program wants {words}")
    return 0
