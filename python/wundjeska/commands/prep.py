"""Hands a folder of finished scenes on to MintPy or dolphin, which load it without a script of one's own.

The scenes are those that `scenes` made in cycles or radians, and their names are pairs of days, as 20230101_20230113. The phase
goes on in radians with the sign that it was made with, of the earlier image to the later one: if a name has the later one first,
the negative is written. 0 stands for no value; a phase that is 0 is written as 0.000001 radians. Components are those of the
scenes, 0 outside.

OUT is a new folder. For MintPy it gets raw files with their .rsc in `pairs` and `geometry`, and the template `mintpy.cfg`, for
`smallbaselineApp.py mintpy.cfg`. For dolphin it gets DAYS.unw.tif (Float32), DAYS.unw.conncomp.tif (UInt16) and DAYS.int.cor.tif.
"""
import os
import shutil
from argparse import ArgumentParser, Namespace, RawDescriptionHelpFormatter
from pathlib import Path

from .. import for_dolphin, for_mintpy
from ..finished import COHERENCE, check_coherence_words, pairs_in, unfinished_in
from ..stack import listed
from ..trouble import FILE_FAULT, Trouble

MINTPY, DOLPHIN = "mintpy", "dolphin"


def words() -> ArgumentParser:
    found = ArgumentParser(
        description=__doc__,
        formatter_class=RawDescriptionHelpFormatter,
        epilog="example:\n"
        "  wundjeska prep mintpy scenes out --wavelength 0.0555 --platform Sen --orbit descending --incidence 39 --looks 20\n"
        "The status is 0 if the folder was written, 2 for words that are refused, 3 if the scenes do not fit, 5 if a file "
        "cannot be read or written.",
    )
    found.add_argument("program", choices=(MINTPY, DOLPHIN), help="the program that loads the folder: mintpy or dolphin")
    found.add_argument("folder", type=Path, help="the folder of scenes")
    found.add_argument("out", type=Path, help="the folder to write, which is new or empty")
    found.add_argument(
        "--coherence", default=COHERENCE, metavar="NAME", help="the coherence of all scenes (default: {pair}/coherence.tif)"
    )
    found.add_argument("--coherence-band", type=int, metavar="N", help="its band, as 2 of ISCE's .cor, if there are several")
    found.add_argument(
        "--coherence-max", type=float, default=1.0, metavar="C", help="what stands for a coherence of 1, as 255 (default: 1)"
    )
    found.add_argument("--turn", action="store_true", help="change the sign of all phases, if they grow as range shrinks")
    add_mintpy_words(found)
    return found


def add_mintpy_words(found: ArgumentParser) -> None:
    """The arguments that only MintPy wants."""
    found.add_argument("--wavelength", type=float, metavar="METRES", help="of the radar, as 0.0555, if the scenes do not tell it")
    found.add_argument("--platform", metavar="NAME", help="the satellite by MintPy's name, as Sen, Alos2 or Env")
    found.add_argument("--orbit", choices=("ascending", "descending"), help="the direction of flight")
    found.add_argument("--incidence", metavar="DEGREES|FILE", help="the angle of incidence, or a raster of angles")
    found.add_argument("--looks", type=float, metavar="L", help="independent looks, for weights, if the scenes do not tell them")
    found.add_argument("--height", metavar="FILE", help="a raster of heights in metres (default: 0)")
    for word in ("latitude", "longitude"):
        found.add_argument(f"--{word}", metavar="FILE", help=f"a raster of {word}s in degrees, of scenes without a place")
    found.add_argument(
        "--baselines", metavar="FILE", help="lines of a day and its perpendicular baseline in metres (default: 0)"
    )
    found.add_argument("--attribute", action="append", metavar="KEY=VALUE", help="one more of MintPy's attributes, as HEADING=-168")


def check_new(out: Path) -> None:
    """Trouble if something stands there."""
    if out.exists() and not (out.is_dir() and not any(out.iterdir())):
        raise Trouble(f"{out} is there and is no empty folder; another name is needed", FILE_FAULT)
    if not out.absolute().parent.is_dir():
        raise Trouble(f"{out}: there is no folder {out.absolute().parent}", FILE_FAULT)


def main(asked: Namespace) -> int:
    check_new(asked.out)
    check_coherence_words(asked)
    if asked.program == DOLPHIN:
        for_dolphin.check_words(asked)
    pairs = pairs_in(asked.folder)
    part = asked.out.absolute().with_name(f".{asked.out.absolute().name}.{os.getpid()}.part")
    part.mkdir()
    try:
        write = for_mintpy.write_pairs if asked.program == MINTPY else for_dolphin.write_pairs
        write(part, pairs, asked)
        part.rename(asked.out)
    finally:
        shutil.rmtree(part, ignore_errors=True)
    days = {day for pair in pairs for day in pair.days}
    left = unfinished_in(asked.folder)
    more = f"; {len(left)} are not finished: {listed(left)}" if left else ""
    print(f"{asked.out}: {len(pairs)} pairs of {len(days)} images for {asked.program}{more}")
    return 0
