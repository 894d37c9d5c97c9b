"""Makes a GeoTIFF of a surface: of what `insar_unwrap grid` or `whole` wrote, or of a report, whose last surface is taken.

With --session the report is checked first, and a report that `check` refuses gives no GeoTIFF. Without it the GeoTIFF says
that nothing certifies the surface. Of a filtered session the surface is a guide; with --unfiltered, the session before the
filter, what is written is the surface of the phase as given that is nearest to it. It has the pixels, the place and the system of --like, NODATA at masked pixels, and one of
these units:

  cycles        one cycle is half a wavelength of range
  radians       2 pi a cycle
  nanometres, millimetres, centimetres, metres
                of range, which the program's command `displacement` computes in whole nanometres, rounded down; --turn comes after

Range is along the line of sight. Whether it grows or shrinks with the phase is the convention of whatever made the
interferogram; --turn changes the sign. A surface is known up to one whole number of cycles, the same everywhere;
--reference makes a pixel of known displacement 0, --reference-window the mean of a box, --reference auto that of the most
coherent block that is open everywhere, by the weights of --session. A mean is subtracted to the nearest nanometre.

With --block the GeoTIFF has a pixel for each block of B by B of a length: the mean of those that have a value. Its first
pixel has the upper left corner of the raster, and blocks that the raster's right or lower edge cuts are as large as the
others on the map.
"""
import sys
from argparse import ArgumentParser, Namespace, RawDescriptionHelpFormatter
from dataclasses import dataclass
from pathlib import Path
from typing import Any, Dict, Optional

import numpy as np

from .. import report_reader
from ..displacements import read_grid
from ..concerns import signs_of
from ..guiding import FOURIER, GUIDE, Chain, add_narrow_word, add_unfiltered_word, is_filtered
from ..outputs import Outputs, add_force_word
from ..planes import read_session
from ..product import NOTHING_CERTIFIES, add_unit_words, check_unit_words, write_product
from ..program import check_report
from ..rasters import files_of, name_of, open_raster, shape_of
from ..references import Reference, add_reference_words, reference_of
from ..trouble import DISAGREES, REFUSED_WORDS, Trouble, warn
from ..unwrapping import ACCEPTED, Solved, problem_of, read_report, signs_of_session, solved_again
from .unwrap import cost_notes, filter_notes, ramp_note, signs_note, steep_note


def words() -> ArgumentParser:
    found = ArgumentParser(
        description=__doc__,
        formatter_class=RawDescriptionHelpFormatter,
        epilog="examples: insar_unwrap grid <session | surface - --like phase.tif cycles.tif\n"
        "  surface report --session session --like phase.tif --unit metres --wavelength 0.0555 --block 4 range.tif\n"
        "The status is 0 if the GeoTIFF was written, 1 if `check` refused the report, 2 for words that are refused, 3 if the "
        "input does not fit, 5 if a file cannot be read or written.",
    )
    found.add_argument("surface", help="a grid, a report or a whole text; - is standard input")
    found.add_argument("--session", metavar="FILE", help="the session that the report is of, to check it")
    add_unfiltered_word(found, "the session before the filter, to write the surface that is nearest to the guide")
    add_narrow_word(found)
    found.add_argument(
        "--like", metavar="FILE", required=True, help="the raster of phases that the session was made of"
    )
    add_reference_words(found)
    add_unit_words(found)
    add_force_word(found)
    found.add_argument("geotiff", help="the file to write")
    return found


@dataclass
class Found:
    """The values of a surface, int64, (rows, columns), what is known of them, and the report that they are of."""

    values: np.ndarray
    notes: Dict[str, Any]
    report: Optional[report_reader.Report] = None


def read_text(path: str) -> bytes:
    text = sys.stdin.buffer.read() if path == "-" else Path(path).read_bytes()
    if not text:
        raise Trouble(f"{path} is empty: no surface was published, or the program refused its input")
    return text


def verdict_of(report: report_reader.Report, text: bytes, session: Optional[str]) -> str:
    """What the checker says of a report, by its own side, rule, ramp and steepness. Trouble if it refuses."""
    if session is None:
        return NOTHING_CERTIFIES
    accepted, verdict = check_report(Path(session).read_bytes(), text, problem_of(report))
    if not accepted:
        raise Trouble(f"check: {verdict}", DISAGREES)
    return verdict


def found_in(text: bytes, path: str, session: Optional[str]) -> Found:
    """The values of a grid, or of a report's last surface."""
    if not text.startswith(b"insar-"):
        if session is not None:
            raise Trouble(f"{path} is a grid, which has no certificates to check by --session", REFUSED_WORDS)
        return Found(read_grid(text, path), {"VERDICT": NOTHING_CERTIFIES})
    report = read_report(text, path)
    if not report.surfaces:
        raise Trouble(f"{path}: no surface was published")
    notes = {"VERDICT": verdict_of(report, text, session), **notes_of(report)}
    return Found(report.surfaces[-1].values, notes, report)


def notes_of(report: report_reader.Report) -> Dict[str, Any]:
    """What a product tells of the report that it is of."""
    last, problem = report.surfaces[-1], problem_of(report)
    ramp = ramp_note(report.ramp if report.version > 1 else None)
    revision = {} if report.is_whole else {"REVISION": last.revision}
    return {**cost_notes(problem.side, last), "RULE": report.rule, **revision, **steep_note(report.steepness), **ramp}


def with_signs(found: Found, session: bytes) -> Found:
    """The same with what is told of signs that a surface of this session may be wrong, and that it is a guide if it is one."""
    if found.report is not None:
        signs = signs_of_session(session, found.report.surfaces[-1], problem_of(found.report))
        found.notes.update(signs_note(signs))
    if is_filtered(session):
        found.notes["FILTER"] = GUIDE
    return found


def by_guide(found: Found, text: bytes, session: bytes, asked: Namespace) -> Found:
    """The surface of the session before the filter by the guide that was found."""
    report, before = found.report, Path(asked.unfiltered).read_bytes()
    if report is None:
        raise Trouble(f"{asked.surface} is a grid, and --unfiltered wants a report", REFUSED_WORDS)
    kept = Solved(text, report.surfaces[-1], str(found.notes["VERDICT"]))
    solved, planes = solved_again(before, session, kept, asked.narrow, asked.surface), read_session(before)
    signs = signs_of(planes.phase, planes.weights, solved.surface, problem_of(report), solved.guide)
    told = Chain(FOURIER, asked.narrow).told(report.is_whole, kept.verdict == ACCEPTED)
    notes = {**found.notes, **signs_note(signs), **filter_notes(told, solved.undecided)}
    return Found(solved.surface.values, notes, report)


def found_by(asked: Namespace) -> Found:
    """What is written, with all that is told of it."""
    text = read_text(asked.surface)
    found = found_in(text, asked.surface, asked.session)
    if asked.session is None:
        return found
    session = Path(asked.session).read_bytes()
    return by_guide(found, text, session, asked) if asked.unfiltered else with_signs(found, session)


def check_words(asked: Namespace) -> None:
    """Trouble if arguments do not fit each other."""
    check_unit_words(asked)
    if asked.reference_auto and not asked.session:
        raise Trouble("--reference auto wants --session, whose weights are made of coherence", REFUSED_WORDS)
    if asked.unfiltered and not asked.session:
        raise Trouble("--unfiltered wants --session, which was filtered", REFUSED_WORDS)
    if asked.narrow and not asked.unfiltered:
        raise Trouble("--narrow wants --unfiltered", REFUSED_WORDS)


def main(asked: Namespace) -> int:
    check_words(asked)
    like = open_raster(asked.like)
    inputs = [None if asked.surface == "-" else asked.surface, asked.session, asked.unfiltered, *files_of(like)]
    with Outputs(inputs, asked.force) as outputs:
        made = outputs.raster(asked.geotiff)
        found = found_by(asked)
        if found.values.shape != shape_of(like):
            height, width = found.values.shape
            raise Trouble(
                f"the surface has {width} by {height} pixels, {name_of(like)} {like.RasterXSize} by {like.RasterYSize}"
            )
        session = asked.unfiltered or asked.session
        weights = read_session(Path(session).read_bytes()).weights if session else None
        reference = reference_of(asked, found.values, weights)
        write_product(made, like, found.values, asked, reference, found.notes)
    tell(asked, found, reference)
    return 0


def tell(asked: Namespace, found: Found, reference: Reference) -> None:
    if asked.reference_auto:
        print(f"{asked.geotiff}: reference: {reference.note}")
    if found.notes["VERDICT"] == NOTHING_CERTIFIES:
        warn(f"{asked.geotiff}: {NOTHING_CERTIFIES}; a report is checked by --session")
    if found.notes.get("FILTER") == GUIDE:
        warn(f"{asked.geotiff}: {GUIDE}; --unfiltered names the session before the filter")
