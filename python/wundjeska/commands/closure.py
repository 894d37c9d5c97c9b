"""Closes the loop of three interferograms: their surfaces 12, 23 and 13, of which the first two minus the third should be 0.

The program's command `closure` adds them up exactly, and finds the whole cycles in the closures and the patches of pixels
that are misclosed by one number of cycles. That is proved. Which of the three surfaces is wrong there is not known to it.

A surface is a GeoTIFF in cycles, as `unwrap` and `surface` write, or in radians (--unit radians, where the file does not
say so); or a report, checked if --sessions are named; or what `insar_unwrap grid` wrote. All have the same pixels and
place. Values are taken to the nearest 1/65536 cycle. A pixel has a closure where all three have a value.

A surface is known up to one whole number of cycles, the same everywhere, so a closure is too. --reference says where the
loop is closed: the third surface is raised by whole cycles, everywhere the same, such that the pixel is not misclosed; or,
with `auto`, that most pixels of the largest component are not.

The GeoTIFF has the cycles, 0 where the loop closes: what the third surface would have to rise by. --correct writes the
third surface raised so, which leaves closures within half a cycle. Nothing says that these are the right cycles, or that
the third surface is the wrong one, and no certificate covers it.

--parts names the certain parts of the three surfaces, as `unwrap --parts` writes them. Each is known up to one whole number of
cycles, so a part is told of which nearly all pixels close if it is raised, unless a part of another surface may be meant as well.
--correct-parts writes the three surfaces with these parts raised. That is no proof either.
"""
import math
from argparse import ArgumentParser, Namespace, RawDescriptionHelpFormatter
from dataclasses import dataclass, replace
from pathlib import Path
from typing import Any, Dict, Iterator, List, Optional, Sequence, Tuple

import numpy as np
from osgeo import gdal

from .. import __version__
from ..displacements import LENGTHS
from ..guiding import GUIDE, is_filtered
from ..loops import Loops, close_loop, commonest, raised
from ..loops_page import Shown, page_of
from ..outputs import Outputs, add_force_word, beside
from ..part_loops import Moves, moves_of, raised_by
from ..planes import CYCLE, TILED_LIMITS
from ..product import CYCLES, NOTHING_CERTIFIES
from ..rasters import (
    NODATA,
    Band,
    axes_of,
    band_of,
    check_alike,
    close,
    create_like,
    files_of,
    name_of,
    open_raster,
    put_values,
    shape_of,
    size_of,
    whole,
)
from ..references import check_box, check_reference_words
from ..report_reader import NODATA as MASKED
from ..trouble import REFUSED_WORDS, Trouble, warn
from .surface import found_in, read_text

LIMITS = replace(TILED_LIMITS, what="a surface of a loop", larger="`gdal_translate -srcwin` cuts larger ones into parts")
FARTHEST = 10**6  # cycles beyond which a value is no surface
NO_CYCLES = -(2**31)  # the NODATA of whole numbers
ROLES = ("first", "second", "third")
UNITS = {"cycles": "cycles", "cycle": "cycles", "radians": "radians", "radian": "radians", "rad": "radians"}
PARTS_UNPROVED = "with parts raised as its loop says: no proof or certificate says that this is right"
UNPROVED = "raised by the cycles of its loop: no proof or certificate says that they are right, or that this surface is the wrong one"
EACH = ("FIRST", "SECOND", "THIRD")


def words() -> ArgumentParser:
    found = ArgumentParser(
        description=__doc__,
        formatter_class=RawDescriptionHelpFormatter,
        epilog="example: closure 12/cycles.tif 23/cycles.tif 13/cycles.tif --reference auto --page page.html misclosed.tif\n"
        "The status is 0 if the files were written, whatever is misclosed, 1 if `check` refused a report, 2 for words that are "
        "refused, 3 if the surfaces do not fit, 5 if a file cannot be read or written.",
    )
    add_words_on_surfaces(found)
    add_words_on_products(found)
    add_force_word(found)
    found.add_argument("geotiff", help="the file to write: the whole cycles in the closures")
    return found


def add_words_on_surfaces(words: ArgumentParser) -> None:
    """The words that say what is read."""
    for role, pair in zip(ROLES, ("1 to 2", "2 to 3", "1 to 3")):
        words.add_argument(role, help=f"the surface of the pair {pair}: a GeoTIFF, a report or a grid")
    words.add_argument("--unit", choices=tuple(CYCLES), help="of GeoTIFFs that do not say it themselves")
    words.add_argument("--band", type=int, metavar="N", help="the band of GeoTIFFs that have several")
    words.add_argument("--nodata", type=float, metavar="V", help="a number that stands for no value, besides what the files say")
    words.add_argument("--sessions", nargs=3, metavar=EACH, help="those that three reports are of, to check them")
    words.add_argument("--like", metavar="FILE", help="a raster of the same pixels, for the place of reports and grids")
    words.add_argument("--reference", type=int, nargs=2, metavar=("COLUMN", "ROW"), help="the pixel where the loop is closed; or auto")
    words.add_argument(
        "--reference-auto",
        action="store_true",
        help="the same as --reference auto: the commonest number of cycles of the largest component is taken as 0",
    )


def add_words_on_products(words: ArgumentParser) -> None:
    """The words that say what else is told and written."""
    words.add_argument("--closures", metavar="FILE", help="write the closures in cycles, a GeoTIFF of Float64")
    words.add_argument("--correct", metavar="FILE", help="write the third surface raised by the cycles, which is not proved")
    for name, what in (
        ("--parts", "the certain parts of the surfaces: tell which ones to raise"),
        ("--components", "the components of the surfaces: the same if these are certain parts, else nothing"),
        ("--correct-parts", "write the surfaces with these parts raised, which is not proved"),
    ):
        words.add_argument(name, nargs=3, metavar=EACH, help=what)
    words.add_argument(
        "--output-nodata",
        type=float,
        default=NODATA,
        metavar="V",
        help="the value where there is none, of --closures, --correct and --correct-parts (default: -9999)",
    )
    words.add_argument("--page", metavar="FILE", help="write a page to look at: the patches by size, and maps")


# The three surfaces


@dataclass
class Source:
    """Where a surface is read from. `raster` is None if it is a report or a grid."""

    path: str
    raster: Optional[gdal.Dataset] = None
    session: Optional[str] = None

    def tells(self, name: str) -> Optional[str]:
        """What a GeoTIFF of this package tells of itself."""
        told: Optional[str] = self.raster.GetMetadataItem(f"WUNDJESKA_{name}") if self.raster is not None else None
        return told


@dataclass
class Surface:
    """A surface in 1/65536 cycle, int64, (rows, columns), the unit that it is written in, and what is known of it."""

    values: np.ndarray
    unit: str
    verdict: str


def source_of(path: str, session: Optional[str]) -> Source:
    """What stands at a path: a report or a grid by its first word, else what GDAL reads."""
    if Path(path).is_file():
        with open(path, "rb") as file:
            if file.read(12).startswith((b"insar-report", b"insar-whole ", b"ncols ")):
                return Source(path, None, session)
    if session is not None:
        raise Trouble(f"{path} is no report, which --sessions want", REFUSED_WORDS)
    return Source(path, open_raster(path))


def unit_of(source: Source, band: gdal.Band, asked: Optional[str]) -> str:
    """The unit of a raster, by what it says or by what is asked for. Trouble if these differ, or if there is none."""
    own = source.tells("UNIT")
    said = own or band.GetUnitType()
    named = UNITS.get(said.strip().lower())
    if own in LENGTHS or (said and not named and not asked):
        raise Trouble(f"{source.path} is in {said}; a closure wants surfaces in cycles or radians")
    if asked and named and asked != named:
        raise Trouble(f"{source.path} says that it is in {named}, and --unit says {asked}", REFUSED_WORDS)
    if not (asked or named):
        raise Trouble(f"{source.path} does not say its unit; name it by --unit cycles or --unit radians", REFUSED_WORDS)
    return named or asked or ""


def read_raster(source: Source, raster: gdal.Dataset, asked: Namespace) -> Surface:
    """The surface of a raster."""
    path = source.path
    LIMITS.check(shape_of(raster), path)
    number = band_of(raster, asked.band, "--band")
    unit = unit_of(source, raster.GetRasterBand(number), asked.unit)
    values, there = Band(raster, number, asked.nodata).read(whole(raster))
    if np.iscomplexobj(values):
        raise Trouble(f"{path} has complex numbers, and a surface is in cycles or radians")
    cycles = values.astype(np.float64) / CYCLES[unit]
    if there.any() and np.abs(cycles[there]).max() > FARTHEST:
        raise Trouble(f"{path} has values from {values[there].min():g} to {values[there].max():g}, which are no {unit}")
    if (
        asked.nodata is None
        and raster.GetRasterBand(number).GetNoDataValue() is None
        and (values[there] == NODATA).any()
    ):
        warn(f"{path} has the value {NODATA:g} and no NODATA; --nodata names a number that stands for no value")
    units = np.where(there, np.rint(cycles * CYCLE), 0).astype(np.int64)
    return Surface(np.where(there, units, MASKED), unit, source.tells("VERDICT") or "nothing is known of a check")


def read_surface(source: Source, asked: Namespace) -> Surface:
    if source.raster is not None:
        return read_raster(source, source.raster, asked)
    found = found_in(read_text(source.path), source.path, source.session)
    LIMITS.check(found.values.shape, source.path)
    if source.session is not None and is_filtered(Path(source.session).read_bytes()):
        warn(f"{source.path}: {GUIDE}, so closures are not those of the phase; GeoTIFFs have the surface")
    return Surface(found.values, "cycles", str(found.notes["VERDICT"]))


def like_of(sources: Sequence[Source], like: Optional[str]) -> gdal.Dataset:
    """The raster whose place the products have: the one that is named, or the first surface that has one."""
    rasters = [source.raster for source in sources if source.raster is not None]
    if like is not None:
        rasters.insert(0, open_raster(like))
    if not rasters:
        raise Trouble("reports and grids want --like, a raster that tells where they lie", REFUSED_WORDS)
    placed = [raster for raster in rasters if raster.GetGeoTransform(can_return_null=True) or raster.GetGCPCount()]
    found = placed[0] if placed and like is None else rasters[0]
    for raster in rasters:
        check_alike(found, raster)
    return found


def check_told(sources: Sequence[Source]) -> None:
    """Trouble if GeoTIFFs tell that their values cannot be added up: of other signs or references."""
    signs = [(source.tells("SIGN") or "").startswith("turned") for source in sources]
    if any(signs) and not all(signs):
        turned, other = (sources[signs.index(sign)].path for sign in (True, False))
        raise Trouble(f"the sign of {turned} was turned, and that of {other} was not")
    told = [(source.path, source.tells("REFERENCE")) for source in sources]
    known = [(path, text.split(", the most")[0]) for path, text in told if text]
    for path, text in known[1:]:
        if text != known[0][1]:
            raise Trouble(f"{known[0][0]} and {path} have not one reference: {known[0][1]}; {text}")


# The loop


@dataclass(frozen=True)
class Closed:
    """A loop, by how many cycles the third surface was raised everywhere before, and why."""

    loops: Loops
    level: int
    why: str


def closed(surfaces: List[np.ndarray], asked: Namespace) -> Closed:
    """The loop of three surfaces, closed where the words say."""
    loops = close_loop(surfaces, "the surfaces")
    if not loops.known().any():
        raise Trouble("no pixel has a value in all three surfaces")
    level, why = 0, "none: the surfaces as they are"
    if asked.reference:
        column, row = asked.reference
        check_box([column, row, column, row], surfaces[0].shape[1], surfaces[0].shape[0])
        level, why = int(loops.cycles[row, column]), f"pixel {column} {row}"
        if level == MASKED:
            raise Trouble(f"the reference {column} {row} is masked in a surface")
    elif asked.reference_auto:
        level, why = commonest(loops), "the commonest number of cycles of the largest component"
    elif commonest(loops):
        warn(
            f"the commonest number of cycles is {commonest(loops)} and not 0. A surface is known up to a whole number of cycles; "
            "--reference auto takes the commonest as closed, --reference COLUMN ROW those of a pixel"
        )
    if not level:
        return Closed(loops, 0, why)
    third = level_surface(surfaces[2], level)
    return Closed(close_loop([*surfaces[:2], third], "the surfaces"), level, why)


# Its parts


@dataclass(frozen=True)
class Parted:
    """Which certain parts the loop says to raise, and the three surfaces so raised, in 1/65536 cycle."""

    moves: Moves
    surfaces: Sequence[np.ndarray]


def other_content(raster: gdal.Dataset) -> Optional[str]:
    """What a raster says that it has if that is no certain parts, in words."""
    content: Optional[str] = raster.GetMetadataItem("WUNDJESKA_CONTENT")
    return content.split(":")[0] if content and not content.startswith("certain parts") else None


def numbered_in(asked: Namespace) -> List[gdal.Dataset]:
    """The rasters of certain parts that are named, none if components are named and one has others."""
    found = [open_raster(path) for path in asked.parts or asked.components or ()]
    others = [raster for raster in found if other_content(raster) is not None]
    if others and not asked.parts:
        warn(f"{name_of(others[0])} has {other_content(others[0])}, and no certain parts, so none is told to be raised")
        return []
    return found


def labels_in(raster: gdal.Dataset, like: gdal.Dataset) -> np.ndarray:
    """The numbers of the certain parts in a raster, int64, 0 for none."""
    path = name_of(raster)
    check_alike(like, raster)
    other = other_content(raster)
    if other is not None:
        raise Trouble(f"{path} has {other}, and no certain parts")
    values, there = Band(raster, band_of(raster, None, "a copy with one band")).read(whole(raster))
    if values.dtype.kind not in "iu" or (there & ((values < 0) | (values > values.size))).any():
        raise Trouble(f"{path} has other numbers than parts have: whole ones, 0 where there is none, each of a pixel or more")
    return np.where(there, values, 0).astype(np.int64)


def parted(surfaces: Sequence[np.ndarray], found: Closed, labels: Sequence[np.ndarray]) -> Parted:
    """Which parts the loop says to raise, and the surfaces so raised."""
    moves = moves_of(found.loops, labels)
    level = [*surfaces[:2], level_surface(surfaces[2], found.level)]
    made = [raised_by(values, part, moves.raised, place) for place, (values, part) in enumerate(zip(level, labels))]
    return Parted(moves, made)


# What is written


def notes_of(names: Sequence[str], surfaces: Sequence[Surface], found: Closed, content: str) -> Dict[str, Any]:
    """What a product tells of how it came about."""
    loops = found.loops
    inputs = {role.upper(): f"{name}: {surface.verdict}" for role, name, surface in zip(ROLES, names, surfaces)}
    return {
        "VERSION": __version__,
        "CONTENT": content,
        **inputs,
        "REFERENCE": found.why,
        "RAISED_EVERYWHERE": f"{found.level} cycles, the third surface, before",
        "PIXELS": int(loops.known().sum()),
        "MISCLOSED": int(loops.misclosed().sum()),
        "PATCHES": len(loops.patches),
    }


@dataclass
class Product:
    """A GeoTIFF: its values, (rows, columns), NaN where there is none, GDAL's type, NODATA, unit and what it tells."""

    values: np.ndarray
    kind: int
    nodata: float
    unit: str
    notes: Dict[str, Any]

    def write(self, path: Path, like: gdal.Dataset) -> None:
        made = create_like(path, like, self.kind, self.nodata, self.unit, self.notes)
        put_values(made, self.values)
        close(made, path)


def cycles_product(loops: Loops, notes: Dict[str, Any]) -> Product:
    known = loops.known()
    if np.abs(loops.cycles[known]).max(initial=0) >= -NO_CYCLES:
        raise Trouble("a closure has more cycles than 32 bits hold")
    return Product(np.where(known, loops.cycles, np.nan), gdal.GDT_Int32, NO_CYCLES, "cycles", notes)


def closures_product(loops: Loops, nodata: float, notes: Dict[str, Any]) -> Product:
    values = np.where(loops.known(), loops.closures / CYCLE, np.nan)
    return Product(values, gdal.GDT_Float64, nodata, "cycles", notes)


def level_surface(third: np.ndarray, level: int) -> np.ndarray:
    """The third surface raised by whole cycles everywhere."""
    return raised(third, np.where(third != MASKED, level, MASKED))


def raised_product(third: Surface, source: Source, found: Closed, nodata: float, notes: Dict[str, Any]) -> Product:
    """The third surface raised by what it was raised by before and by the cycles of its loop, in its own unit."""
    values = raised(level_surface(third.values, found.level), found.loops.cycles)
    return surface_product(replace(third, values=values, verdict=UNPROVED), source, nodata, notes)


def surface_product(surface: Surface, source: Source, nodata: float, notes: Dict[str, Any]) -> Product:
    """A surface that was raised, in the unit of its source, with what that tells of itself."""
    told = {name: source.tells(name) for name in ("SIGN", "REFERENCE")}
    own = {name: text for name, text in told.items() if text}
    is_wide = source.raster is not None and source.raster.GetRasterBand(1).DataType == gdal.GDT_Float64
    unit = np.where(surface.values != MASKED, surface.values * (CYCLES[surface.unit] / CYCLE), np.nan)
    more = {"LOOP_REFERENCE": notes["REFERENCE"], **own, "VERDICT": surface.verdict, "UNIT": surface.unit}
    kind = gdal.GDT_Float64 if is_wide else gdal.GDT_Float32
    return Product(unit, kind, nodata, surface.unit, {**notes, **more})


def check_words(asked: Namespace) -> None:
    """Trouble if arguments do not fit each other."""
    check_reference_words(asked)
    if asked.nodata is not None and math.isinf(asked.nodata):
        raise Trouble("--nodata is a finite number, or nan", REFUSED_WORDS)
    if asked.parts and asked.components:
        raise Trouble("--components are taken if there are no --parts; both are named", REFUSED_WORDS)
    if asked.correct_parts and not asked.parts:
        raise Trouble("--correct-parts wants --parts, those of the three surfaces", REFUSED_WORDS)


def products_of(
    asked: Namespace, sources: Sequence[Source], surfaces: Sequence[Surface], found: Closed
) -> List[Tuple[Optional[str], Product]]:
    """All GeoTIFFs but those of --correct-parts, each with its name, None where none is asked for."""

    def notes(content: str) -> Dict[str, Any]:
        return notes_of(names_of(sources), surfaces, found, content)

    whole_cycles = "whole cycles in the closure of first + second - third, by `insar_unwrap closure`"
    parts: List[Tuple[Optional[str], Product]] = [(asked.geotiff, cycles_product(found.loops, notes(whole_cycles)))]
    sums = "the closure of first + second - third, by `insar_unwrap closure`"
    parts.append((asked.closures, closures_product(found.loops, asked.output_nodata, notes(sums))))
    raised_third = f"the third surface {UNPROVED}"
    parts.append(
        (asked.correct, raised_product(surfaces[2], sources[2], found, asked.output_nodata, notes(raised_third)))
    )
    return parts


def names_of(sources: Sequence[Source]) -> List[str]:
    """The files and their folders, which are mostly named by the pairs."""
    return [Path(source.path).parent.name + "/" + Path(source.path).name for source in sources]


def part_products(
    asked: Namespace, sources: Sequence[Source], surfaces: Sequence[Surface], found: Closed, made: Parted
) -> Iterator[Tuple[str, Product]]:
    """The surfaces whose parts were raised, each with its name."""
    for role, source, surface, values, name in zip(ROLES, sources, surfaces, made.surfaces, asked.correct_parts or ()):
        notes = notes_of(names_of(sources), surfaces, found, f"the {role} surface {PARTS_UNPROVED}")
        notes["RAISED_PARTS"] = " | ".join(made.moves.lines())
        own = replace(surface, values=values, verdict=PARTS_UNPROVED)
        yield name, surface_product(own, source, asked.output_nodata, notes)


def check_sizes(sources: Sequence[Source], surfaces: Sequence[Surface], like: gdal.Dataset) -> None:
    """Trouble if a surface has not the pixels of the raster that tells the place."""
    for source, surface in zip(sources, surfaces):
        height, width = surface.values.shape
        if (width, height) != size_of(like):
            raise Trouble(
                f"{source.path} has {width} by {height} pixels, {name_of(like)} {like.RasterXSize} by {like.RasterYSize}"
            )


def places_for(asked: Namespace, outputs: Outputs) -> Dict[str, Path]:
    """Where each GeoTIFF is written that is asked for."""
    names = [asked.geotiff, asked.closures, asked.correct, *(asked.correct_parts or ())]
    return {name: outputs.raster(name) for name in names if name is not None}


def main(asked: Namespace) -> int:
    check_words(asked)
    paths, sessions = [getattr(asked, role) for role in ROLES], asked.sessions or [None] * 3
    sources = [source_of(path, session) for path, session in zip(paths, sessions)]
    like = like_of(sources, asked.like)
    check_told(sources)
    numbered = numbered_in(asked)
    named = asked.parts or asked.components or ()
    inputs = [*paths, *sessions, *named, *files_of(like, *(source.raster for source in sources), *numbered)]
    with Outputs(inputs, asked.force) as outputs:
        places, page = places_for(asked, outputs), beside(outputs, asked.page)
        surfaces = [read_surface(source, asked) for source in sources]
        check_sizes(sources, surfaces, like)
        labels = [labels_in(raster, like) for raster in numbered]
        found = closed([surface.values for surface in surfaces], asked)
        made = parted([surface.values for surface in surfaces], found, labels) if labels else None
        for name, product in products_of(asked, sources, surfaces, found):
            if name:
                product.write(places[name], like)
        for name, product in part_products(asked, sources, surfaces, found, made) if made else ():
            product.write(places[name], like)
        if page:
            inputs = [(path, surface.verdict) for path, surface in zip(paths, surfaces)]
            said = tuple(made.moves.lines()) if made else ()
            shown = Shown(Path(asked.geotiff).name, inputs, axes_of(like), found.level, found.why, asked.reference, said)
            outputs.fill(page, page_of(found.loops, shown).encode())
    tell(asked, surfaces, found, made)
    return 0


def part_lines(asked: Namespace, made: Parted) -> Iterator[str]:
    """What is told of parts: which ones the loop says to raise, and what is misclosed then."""
    yield from made.moves.lines()
    if made.moves.raised:
        after = close_loop(made.surfaces, "the surfaces")
        yield f"with these parts raised {after.told()}"
    if asked.correct_parts:
        yield f"the surfaces of --correct-parts are {PARTS_UNPROVED}"


def tell(asked: Namespace, surfaces: Sequence[Surface], found: Closed, made: Optional[Parted]) -> None:
    print(f"{asked.geotiff}: {found.loops.told()}")
    if found.level:
        print(
            f"{asked.geotiff}: the third surface was raised by {found.level} cycles everywhere before, by {found.why}"
        )
    if asked.correct:
        print(f"{asked.correct}: the third surface {UNPROVED}")
    for line in part_lines(asked, made) if made else ():
        print(f"{asked.geotiff}: {line}")
    if any(surface.verdict == NOTHING_CERTIFIES for surface in surfaces) and not asked.sessions:
        warn(f"{asked.geotiff}: not all surfaces were checked; reports are by --sessions")
