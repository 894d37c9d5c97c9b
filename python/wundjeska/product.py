"""The GeoTIFF of a surface: its unit, its reference, and what it tells of how it came about."""
import math
from argparse import ArgumentParser, Namespace
from fractions import Fraction
from pathlib import Path
from typing import Any, Dict, Iterable, Union

import numpy as np
from osgeo import gdal

from . import __version__
from .build_info import with_proofs
from .displacements import LENGTHS, MAX_BLOCK, ROUNDED, Sight, displaced, wavelength_of
from .parts import Parts
from .planes import CYCLE
from .rasters import NODATA, close, create_like, put_array, put_values
from .references import Reference, block_of, check_reference_words, level_of, warn_of_components
from .report_reader import NODATA as MASKED
from .trouble import REFUSED_WORDS, Trouble
from .undecided import Undecided
from .unwrapping import NOT_CHECKED

NOTHING_CERTIFIES = f"{NOT_CHECKED}: nothing certifies this surface"
CYCLES: Dict[str, float] = {"cycles": 1.0, "radians": 2 * math.pi}  # what a cycle is in units that are no length


def add_unit_words(words: ArgumentParser, blocks: bool = True) -> None:
    """The arguments that say what is written."""
    words.add_argument("--unit", choices=(*CYCLES, *LENGTHS), default="cycles", help="of what is written (default: cycles)")
    words.add_argument(
        "--wavelength",
        type=float,
        metavar="METRES",
        help="of the radar, as 0.0555 for C band: from 1e-9 to 1, rounded to whole nanometres",
    )
    if blocks:
        words.add_argument(
            "--block",
            type=int,
            default=1,
            metavar="B",
            help=f"write the mean of each B by B pixels, 1 to {MAX_BLOCK}, of a unit of length; blocks at the right and lower "
            "edge are cut (default: 1)",
        )
    words.add_argument("--turn", action="store_true", help="change the sign")
    words.add_argument(
        "--output-nodata",
        type=float,
        metavar="V",
        help="the value of masked pixels (default: -9999, and of nanometres -9223372036854775808)",
    )
    words.add_argument(
        "--float64",
        action="store_true",
        help="Float64, which holds each unit exactly (default: Float32, but Float64 for nanometres)",
    )


def check_unit_words(asked: Namespace) -> None:
    """Trouble if arguments do not fit each other."""
    if asked.wavelength is not None:
        wavelength_of(asked.wavelength)
    if asked.unit in LENGTHS and asked.wavelength is None:
        raise Trouble(f"{asked.unit} want the --wavelength", REFUSED_WORDS)
    if not 1 <= block_of(asked) <= MAX_BLOCK:
        raise Trouble(f"--block is from 1 to {MAX_BLOCK}", REFUSED_WORDS)
    if block_of(asked) > 1 and asked.unit not in LENGTHS:
        raise Trouble(f"--block wants a unit of length: --unit {', '.join(LENGTHS)}", REFUSED_WORDS)
    check_reference_words(asked)


def kind_of(asked: Namespace) -> int:
    kind: int = gdal.GDT_Float64 if asked.float64 or asked.unit == "nanometres" else gdal.GDT_Float32
    return kind


def nodata_of(asked: Namespace) -> float:
    """The value of masked pixels. Among whole nanometres -9999 may be a displacement."""
    if asked.output_nodata is not None:
        return float(asked.output_nodata)
    return float(MASKED) if asked.unit == "nanometres" else NODATA


def cycles_of(values: np.ndarray) -> np.ndarray:
    """The values of a surface in cycles; float64, NaN at masked pixels."""
    return np.where(values != MASKED, values / CYCLE, np.nan)


def in_unit(values: np.ndarray, level: Fraction, asked: Namespace) -> np.ndarray:
    """A surface less a level, both in 1/65536 cycle, in the unit and the blocks that are asked for; float64, NaN where masked."""
    sign = -1 if asked.turn else 1
    if asked.unit in LENGTHS:
        found = displaced(values, Sight(wavelength_of(asked.wavelength), level, block_of(asked)))
        return np.where(found != MASKED, sign * (found / LENGTHS[asked.unit]), np.nan)
    return sign * CYCLES[asked.unit] * (cycles_of(values) - float(level) / CYCLE)


def unit_notes(asked: Namespace) -> Dict[str, Any]:
    """What the product tells of its unit and sign."""
    notes: Dict[str, Any] = {
        "VERSION": __version__,
        "UNIT": asked.unit,
        "SIGN": "turned: the negative of the phase" if asked.turn else "that of the phase",
    }
    if asked.wavelength is not None:
        notes["WAVELENGTH_METRES"] = f"{wavelength_of(asked.wavelength) / 1e9:.9g}"
    if asked.unit in LENGTHS:
        notes["DISPLACEMENT"] = ROUNDED
    if block_of(asked) > 1:
        notes["BLOCK"] = f"means of {asked.block} by {asked.block} pixels; at the right and lower edge of what is left"
    return notes


def verdict_note(verdict: str) -> str:
    """A verdict; if it is that of the checker, with what is known of its proofs."""
    return verdict if verdict == NOTHING_CERTIFIES else with_proofs(verdict)


def write_product(
    path: Union[str, Path],
    like: gdal.Dataset,
    values: np.ndarray,
    asked: Namespace,
    reference: Reference,
    notes: Dict[str, Any],
) -> None:
    """Writes a surface, in 1/65536 cycle, as the words ask for it."""
    found = in_unit(values, level_of(values, reference.box), asked)
    if reference.box is not None:
        warn_of_components(values, reference.box)
    told = {**unit_notes(asked), "REFERENCE": reference.note, **notes, "VERDICT": verdict_note(str(notes["VERDICT"]))}
    made = create_like(path, like, kind_of(asked), nodata_of(asked), asked.unit, told, block_of(asked))
    put_values(made, found)
    close(made, path)


def write_components(path: Union[str, Path], like: gdal.Dataset, components: np.ndarray, least: int) -> None:
    """Writes the components of the mask as whole numbers, 0 as NODATA."""
    content = "connected components of the mask by falling size"
    write_numbers(path, like, components, {"CONTENT": content, "LEAST_COMPONENT": least})


def write_parts(path: Union[str, Path], like: gdal.Dataset, parts: Parts, is_guided: bool) -> None:
    """Writes certain parts as whole numbers, 0 as NODATA."""
    notes = {"CONTENT": f"certain parts by falling size: {parts.proved(is_guided)}", "PARTS": parts.told()}
    write_numbers(path, like, parts.labels, {**notes, "LEAST_COMPONENT": parts.bounds.of_parts})


def write_undecided(path: Union[str, Path], like: gdal.Dataset, undecided: Undecided) -> None:
    """Writes the undecided parts as whole numbers, 0 as NODATA."""
    write_numbers(path, like, undecided.labels, undecided_notes("parts by falling size", undecided.f))


def undecided_notes(parts: str, f: Iterable[float]) -> Dict[str, Any]:
    """What is told of a raster of undecided parts, and f of each."""
    content = f"{parts} to which no filter gives other cycles, and nobody knows which are right"
    return {"CONTENT": content, "F": " ".join(f"{share:.3f}" for share in f) or "none"}


def write_numbers(path: Union[str, Path], like: gdal.Dataset, numbers: np.ndarray, notes: Dict[str, Any]) -> None:
    """Writes whole numbers, 0 as NODATA."""
    made = create_numbers(path, like, notes)
    put_array(made, numbers)
    close(made, path)


def create_numbers(path: Union[str, Path], like: gdal.Dataset, notes: Dict[str, Any]) -> gdal.Dataset:
    """A new raster for whole numbers, 0 as NODATA."""
    return create_like(path, like, gdal.GDT_UInt32, 0, "", {"VERSION": __version__, **notes})
