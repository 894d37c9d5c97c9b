"""Finds one whole number of cycles for each certain part of a stack, by the loops that `scenes FOLDER closure=yes` closed.

A certain part of a surface is known up to one whole number. Where parts of the three surfaces of a loop meet, these numbers have to
make up for the cycles in the closure. Those are told that close most pixels of loops at the least change, and what misclosed before
and then. Each pair is raised everywhere first, such that most of its loops close: this whole number of a surface is arbitrary.

A number is doubted, which is told, where with another one for the same part the least cost is nearly the same. The others are no
certainty either: loops do not see what an acquisition has in all its pairs, and no proof or certificate says that what is raised is
right. --correct writes the surfaces that change into a new folder.

If what is doubted is of pairs across one interval, the ground may have slipped there by more cycles than any pair shows, and the few pairs
that are right would be raised to the others. Then no part of these pairs, nor of those that meet them in a loop, is raised; --slips
raises them all the same.

It wants Debian's python3-scipy, whose solver HiGHS finds the numbers.
"""
import os
import shutil
from argparse import ArgumentParser, Namespace, RawDescriptionHelpFormatter
from dataclasses import dataclass
from functools import lru_cache
from pathlib import Path
from typing import Dict, Iterator, List, Sequence

import numpy as np
from osgeo import gdal

from .. import __version__
from ..networks import NO_LOOP, Triplet, pair_of, triplets_of
from ..outputs import is_stream
from ..planes import CYCLE
from ..rasters import NODATA, check_alike, open_raster
from ..report_reader import NODATA as MASKED
from ..stack_cycles import SECONDS, Numbers, Raised, solver
from ..stack_loops import Loop, Move, Stack, loop_of
from ..stack_slips import Slip, slips_of, without
from ..trouble import FILE_FAULT, REFUSED_WORDS, Trouble, warn
from .closure import Source, Surface, labels_in, read_raster, surface_product

SURFACE, PARTS, CLOSURES, CLOSED = "cycles.tif", "components.tif", "closures", "closed.txt"
MOST = 20  # parts that are listed
KEPT = 6  # rasters of parts that are kept for the next loops
UNPROVED = "with parts raised as the loops of its stack say: no proof or certificate says that this is right"


def words() -> ArgumentParser:
    found = ArgumentParser(
        description=__doc__,
        formatter_class=RawDescriptionHelpFormatter,
        epilog="example: stack merged/interferograms --correct raised\n"
        "The status is 0 if the numbers were found, whatever is misclosed, 2 for words that are refused, 3 if the folder has no loops "
        "or its rasters do not fit, 5 if a file cannot be read or written, or SciPy is missing.",
    )
    found.add_argument("folder", help="the folder of the scenes, as `scenes FOLDER closure=yes` left it")
    found.add_argument(
        "--correct", metavar="FOLDER", help=f"write the surfaces that change into this new folder, as PAIR/{SURFACE}; nothing proves them"
    )
    found.add_argument(
        "--seconds", type=float, default=SECONDS, metavar="S", help=f"the time for each group of parts that meet (default: {SECONDS:g})"
    )
    found.add_argument("--slips", action="store_true", help="raise parts also where the ground may have slipped")
    return found


# What is read


def loops_in(folder: Path) -> Dict[str, Triplet]:
    """The loops whose closures are done. Trouble if there are none."""
    if not folder.is_dir():
        raise Trouble(f"there is no folder {folder}", FILE_FAULT)
    loops = triplets_of(sorted(path.parent.name for path in folder.glob(f"*/{SURFACE}")))
    if not loops:
        raise Trouble(f"{folder} has {NO_LOOP}")
    done = {name: pairs for name, pairs in loops.items() if is_closed(folder, name)}
    if not done:
        raise Trouble(f"{folder} has no closures of its {len(loops)} loops; `wundjeska scenes {folder} closure=yes` makes them")
    if len(done) < len(loops):
        warn(f"{len(loops) - len(done)} of {len(loops)} loops have no closures, and are left out")
    return done


def is_closed(folder: Path, loop: str) -> bool:
    """Whether the closures of a loop are those of its surfaces: `scenes` drops the note before it closes a loop anew."""
    made = misclosed_of(folder, loop)
    return made.exists() and made.with_name(CLOSED).exists()


def misclosed_of(folder: Path, loop: str) -> Path:
    return folder / CLOSURES / loop / "misclosed.tif"


def level_of(raster: gdal.Dataset) -> int:
    """By how many cycles the third surface of a loop was raised everywhere before it was closed."""
    told = raster.GetMetadataItem("WUNDJESKA_RAISED_EVERYWHERE")
    if told is None:
        raise Trouble(f"{raster.GetDescription()} is no product of `wundjeska closure`")
    return int(told.split()[0])


def read_stack(folder: Path, loops: Dict[str, Triplet], pairs: List[str]) -> Stack:
    """The loops of a folder, and the sizes of the parts of its pairs."""
    first = open_raster(str(folder / pairs[0] / PARTS))

    @lru_cache(KEPT)
    def labels_of(pair: str) -> np.ndarray:
        return labels_in(open_raster(str(folder / pair / PARTS)), first)

    def read_loop(name: str) -> Loop:
        raster = open_raster(str(misclosed_of(folder, name)))
        check_alike(first, raster)
        band = raster.GetRasterBand(1)
        cycles = band.ReadAsArray()
        numbers = [pairs.index(pair) for pair in loops[name]]
        return loop_of(numbers, [labels_of(pair) for pair in loops[name]], cycles + level_of(raster), cycles != band.GetNoDataValue())

    sizes = [np.bincount(labels_of(pair).ravel())[1:].astype(np.int64) for pair in pairs]
    return Stack([loop for name in loops if len((loop := read_loop(name)).cycles)], sizes)


# What is written


@dataclass(frozen=True)
class Correction:
    """A pair, by how many cycles it is raised everywhere, and then each part, and which of these numbers are doubted, with 0 for no
    part in front."""

    pair: str
    level: int
    numbers: Numbers
    doubted: Numbers

    def told(self) -> str:
        """What is raised, in words."""
        doubts = np.where(self.doubted, ", doubted", "")
        moved = [f"part {part} by {self.numbers[part]:+d}{doubts[part]}" for part in np.flatnonzero(self.numbers)]
        return "; ".join([f"everywhere by {self.level:+d}", *moved])


def write_pair(folder: Path, made: Path, correction: Correction) -> None:
    """Writes the surface of a pair so raised."""
    path = folder / correction.pair / SURFACE
    raster = open_raster(str(path))
    source = Source(str(path), raster)
    surface = read_raster(source, raster, Namespace(unit=None, band=None, nodata=None))
    labels = labels_in(open_raster(str(folder / correction.pair / PARTS)), raster)
    raised = surface.values + CYCLE * (correction.level + correction.numbers[labels])
    values = np.where(surface.values == MASKED, MASKED, raised)
    notes = {
        "VERSION": __version__,
        "CONTENT": f"the surface {UNPROVED}",
        "INPUT": f"{correction.pair}/{SURFACE}: {surface.verdict}",
        "REFERENCE": "the commonest number of cycles of each loop",
        "RAISED_PARTS": correction.told(),
    }
    place = made / correction.pair
    place.mkdir()
    surface_product(Surface(values, surface.unit, UNPROVED), source, NODATA, notes).write(place / SURFACE, raster)


def check_place(place: Path) -> None:
    """Trouble if a new folder cannot be made there."""
    if is_stream(place) or (place.exists() and not place.is_dir()):
        raise Trouble(f"{place} is there and is no folder", FILE_FAULT)
    if place.exists() and any(place.iterdir()):
        raise Trouble(f"{place} is there and has files; --correct wants the name of a new folder", REFUSED_WORDS)
    if not place.resolve().parent.is_dir():
        raise Trouble(f"{place}: there is no folder {place.resolve().parent}", FILE_FAULT)


def write_all(folder: Path, place: Path, corrections: Sequence[Correction]) -> None:
    """Writes the surfaces that change into a new folder, which is there when all are whole."""
    made = place.resolve().with_name(f".{place.resolve().name}.{os.getpid()}.part")
    made.mkdir()
    try:
        for correction in corrections:
            write_pair(folder, made, correction)
        os.replace(made, place.resolve())
    finally:
        shutil.rmtree(made, ignore_errors=True)


# What is told


def percent(part: int, whole: int) -> str:
    return f"{part} ({100 * part / max(whole, 1):.2f} %)"


def listed(moves: Sequence[Move], pairs: Sequence[str]) -> Iterator[str]:
    """A line for each of the largest parts."""
    for move in moves[:MOST]:
        doubt = ", doubted" if move.is_doubted else ""
        yield f"{pairs[move.pair]}: part {move.part} of {move.pixels} pixels by {move.cycles:+d}{doubt}"
    if len(moves) > MOST:
        yield f"and {len(moves) - MOST} smaller parts"


def lines_on_slips(slips: Sequence[Slip], is_raised: bool) -> Iterator[str]:
    """Where the ground may have slipped, and what comes of it."""
    for slip in slips:
        what = "they are raised all the same" if is_raised else f"no part of {int(slip.near.sum())} pairs across or near is raised, unless --slips"
        yield f"{slip.told()}; {what}"


def lines_on(stack: Stack, pairs: Sequence[str], found: Raised, seconds: float) -> Iterator[str]:
    """What misclosed, which parts the loops say to raise, and what misclosed then."""
    none, whole = np.zeros_like(found.numbers), stack.pixels()
    levels = [f"{pair} by {level:+d}" for pair, level in zip(pairs, found.levels.tolist()) if level]
    if levels:
        yield f"raised everywhere first: {', '.join(levels[:MOST])}" + (f" and {len(levels) - MOST} more" if len(levels) > MOST else "")
    before, after = (stack.misclosed(found.levels, numbers) for numbers in (none, found.numbers))
    moves = stack.moves(found)
    yield f"{len(stack.loops)} loops of {len(pairs)} pairs: {percent(before, whole)} of {whole} pixels misclose"
    if found.late:
        groups = "1 group of parts was" if found.late == 1 else f"{found.late} groups of parts were"
        yield f"{groups} not solved in {seconds:g} s, and none of these parts is raised; --seconds gives more"
    yield f"the loops say to raise {len(moves) or 'no'} part{'' if len(moves) == 1 else 's'}; then {percent(after, whole)} misclose"
    yield from listed(moves, pairs)
    doubted = sum(move.is_doubted for move in moves)
    if doubted:
        yield f"{doubted} of these numbers are doubted: with others nearly as much closes with nearly as little change"
    yield "no proof or certificate says that these numbers are right"


def corrections_of(stack: Stack, pairs: Sequence[str], found: Raised) -> List[Correction]:
    """The pairs that change."""
    numbers, doubted = (stack.numbers_by_pair(values) for values in (found.numbers, found.doubted.astype(np.int64)))
    each = map(Correction, pairs, found.levels.tolist(), numbers, doubted)
    return [correction for correction in each if correction.level or correction.numbers.any()]


def main(asked: Namespace) -> int:
    if not asked.seconds > 0:
        raise Trouble("--seconds is above 0", REFUSED_WORDS)
    solver()
    place = Path(asked.correct) if asked.correct is not None else None
    if place is not None:
        check_place(place)
    folder = Path(asked.folder)
    loops = loops_in(folder)
    pairs = sorted({pair for names in loops.values() for pair in names})
    stack = read_stack(folder, loops, pairs)
    if not stack.loops:
        raise Trouble(f"no loop of {folder} has a closure at a pixel")
    found = stack.find(asked.seconds)
    slips = slips_of(stack, [dates for pair in pairs if (dates := pair_of(pair))], found)
    if not asked.slips:
        found = without(stack, found, slips)
    print("\n".join([*lines_on_slips(slips, asked.slips), *lines_on(stack, pairs, found, asked.seconds)]))
    corrections = corrections_of(stack, pairs, found)
    if place is not None:
        write_all(folder, place, corrections)
        print(f"{place}: {len(corrections)} surface{'' if len(corrections) == 1 else 's'} {UNPROVED}")
    return 0
