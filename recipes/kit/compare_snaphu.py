#!/usr/bin/python3
"""Compares surfaces with those of SNAPHU 2: compare_snaphu.py [--seeds N] [--modes MODE..] [SCENE..]. It wants the command `snaphu`.

A SCENE is KIND-LOOKS, as mogi-4, hills-10, rupture-4 and fault-10: a surface of bench/rasters.py of 512 by 512 pixels with a
turbulent atmosphere, forests of low coherence, lakes that are masked, the speckle of so many looks, and a coherence that is
estimated in windows of 5 by 5 pixels. Or it is the name of a raster of bench/rasters.py, whose coherence is the root of its
weights. Without names all of the table in docs/CHOOSING.md are made, which takes an hour.

Each scene is unwrapped as it is and after a mean of 3 by 3 pixels of the complex interferogram, whose surface is then made congruent
to the phase as it was. A MODE of SNAPHU is smooth-mst, smooth-mcf, defo-mst or defo-mcf: its costs and what it begins with. A row
has the per cent of open pixels that are off by whole cycles from the surface that the scene was made of, after one constant, and the
seconds of a processor; of SNAPHU also which part of the open pixels its components cover, and the per cent of those that are wrong
after one constant each. The command of this package checks too, which is in its seconds.

SNAPHU is not part of this repository. Its licence is its own: Debian has it in the component non-free.
"""
import argparse
import resource
import shutil
import subprocess
import sys
import tempfile
from pathlib import Path
from typing import Iterator, List, NamedTuple, Optional, Tuple

import numpy as np

TOP = Path(__file__).resolve().parent.parent.parent
sys.path[:0] = [str(TOP / "bench"), str(TOP / "python"), str(Path(__file__).resolve().parent)]
import rasters  # noqa: E402
from compare_weights import boxed, looked  # noqa: E402

from wundjeska import unwrap  # noqa: E402
from wundjeska.planes import CYCLE  # noqa: E402
from wundjeska.trouble import FILE_FAULT, REFUSED_WORDS, Trouble, run_main  # noqa: E402

SIDE, TURBULENCE = 512, 1.4  # pixels; radians of deviation
FORESTS, LAKES = 12, 3
KINDS = ("mogi", "hills", "rupture", "fault")
SCENES = [f"{kind}-{looks}" for looks in (4, 10) for kind in KINDS]
NAMED = [f"{kind}-1-512-{level}" for kind in ("hills", "mogi", "fractal") for level in ("medium", "high")]
NAMED += [f"rupture-{seed}-512-medium-40" for seed in (1, 2, 4, 7)] + ["fault-4-512-medium-40", "fault-5-512-medium-12"]
MODES = ("smooth-mst", "smooth-mcf", "defo-mst", "defo-mcf")
CONFIGURATION = """INFILEFORMAT COMPLEX_DATA
OUTFILE out
OUTFILEFORMAT FLOAT_DATA
CORRFILE coherence
CORRFILEFORMAT FLOAT_DATA
BYTEMASKFILE mask
CONNCOMPFILE components
NCORRLOOKS {looks}
STATCOSTMODE {costs}
INITMETHOD {start}
"""


class Scene(NamedTuple):
    """A complex interferogram, its coherence, open pixels, the surface in cycles, and how many looks it has."""

    igram: np.ndarray
    coherence: np.ndarray
    opened: np.ndarray
    cycles: np.ndarray
    looks: float


class Row(NamedTuple):
    """Per cent of wrong pixels, seconds, and of components the per cent covered and wrong, if there are any."""

    wrong: float
    seconds: float
    covered: Optional[float] = None
    wrong_inside: Optional[float] = None


# Scenes


def discs(random: np.random.Generator, count: int, least: float, most: float) -> np.ndarray:
    """True within so many ellipses, whose radii lie between these parts of the side."""
    y, x = np.mgrid[0:SIDE, 0:SIDE] / SIDE
    found = np.zeros((SIDE, SIDE), dtype=bool)
    for _ in range(count):
        u, v, wide, high = *random.uniform(0, 1, 2), *random.uniform(least, most, 2)
        found |= ((x - u) / wide) ** 2 + ((y - v) / high) ** 2 < 1
    return found


def looked_scene(kind: str, looks: int, seed: int) -> Scene:
    """A scene with the speckle of so many looks."""
    random = np.random.default_rng([seed, looks, KINDS.index(kind)])
    cycles = rasters.field(kind, random, SIDE, SIDE)
    cycles += TURBULENCE / (2 * np.pi) * rasters.random_field(random, SIDE, SIDE, 0, power=4 / 3)
    rough = rasters.random_field(random, SIDE, SIDE, 12) * 0.5 + rasters.random_field(random, SIDE, SIDE, 90)
    coherence = np.clip(1 / (1 + np.exp(-(0.4 + 0.8 * rough))), 0.05, 0.97)
    coherence[discs(random, FORESTS, 0.02, 0.07)] *= 0.45
    if kind in rasters.TORN:
        coherence = rasters.torn_coherence(coherence, rasters.torn(kind, SIDE, SIDE)[1], 40)
    product, first, second = looked(random, coherence, looks)
    igram = product / (2 * looks) * np.exp(2j * np.pi * cycles)
    sums = boxed(product), np.sqrt(boxed(first) * boxed(second))
    return congruent_scene(igram, np.clip(np.abs(sums[0]) / sums[1], 0, 1), ~discs(random, LAKES, 0.03, 0.08), cycles, looks)


def congruent_scene(igram: np.ndarray, coherence: np.ndarray, opened: np.ndarray, cycles: np.ndarray, looks: float) -> Scene:
    """A scene whose surface is that of its phases nearest to the cycles."""
    phase = np.angle(igram) / (2 * np.pi)
    return Scene(np.where(opened, igram, 0), np.where(opened, coherence, 0), opened, phase + np.rint(cycles - phase), looks)


def named_scene(name: str) -> Scene:
    """A raster of bench/rasters.py: of one look, by its noise."""
    try:
        made, _ = rasters.raster(name)
    except rasters.Mistake as mistake:
        raise Trouble(str(mistake), REFUSED_WORDS) from mistake
    opened = np.ones(made.surface.shape, bool) if made.opened is None else made.opened
    weights = np.ones(made.surface.shape) if made.weights is None else made.weights / made.max_weight
    igram = np.exp(2j * np.pi / CYCLE * (made.surface % CYCLE))
    return congruent_scene(igram, np.sqrt(weights), opened, made.surface / CYCLE, 1)


def scenes_of(name: str, seeds: int) -> Iterator[Scene]:
    kind, _, looks = name.partition("-")
    if kind not in KINDS or not looks.isdigit():
        yield named_scene(name)
        return
    for seed in range(1, seeds + 1):
        yield looked_scene(kind, int(looks), seed)


def filtered(scene: Scene) -> np.ndarray:
    """The mean of 3 by 3 pixels of the interferogram, of those that are open."""
    padded = np.pad(scene.igram, 1)
    height, width = scene.opened.shape
    sums = sum(padded[row : row + height, column : column + width] for row in range(3) for column in range(3))
    return np.where(scene.opened, sums / 9, 0)


def congruent(cycles: np.ndarray, igram: np.ndarray) -> np.ndarray:
    """A surface in cycles, made congruent to an interferogram."""
    phase = np.angle(igram) / (2 * np.pi)
    return phase + np.rint(cycles - phase)


# Surfaces


def wrong(cycles: np.ndarray, scene: Scene, inside: np.ndarray) -> int:
    """How many pixels inside are off by whole cycles, after one constant."""
    _, counts = np.unique(np.rint(cycles - scene.cycles)[inside], return_counts=True)
    return int(inside.sum() - counts.max(initial=0))


def row_of(cycles: np.ndarray, scene: Scene, seconds: float, parts: Optional[np.ndarray] = None) -> Row:
    """What is told of a surface, and of its components if there are any."""
    opened = int(scene.opened.sum())
    share = 100 * wrong(cycles, scene, scene.opened) / opened
    if parts is None:
        return Row(share, seconds)
    covered = scene.opened & (parts > 0)
    off = sum(wrong(cycles, scene, covered & (parts == number)) for number in np.unique(parts[covered]))
    return Row(share, seconds, 100 * covered.sum() / opened, 100 * off / max(1, int(covered.sum())))


def processor_seconds() -> float:
    """What this process and those that it waited for took of a processor."""
    return sum(sum(resource.getrusage(who)[:2]) for who in (resource.RUSAGE_SELF, resource.RUSAGE_CHILDREN))


def ours(scene: Scene, igram: np.ndarray) -> Row:
    """The least of all surfaces, by one thread, and its check."""
    began = processor_seconds()
    found = unwrap(igram, scene.coherence, mask=scene.opened, workers=1, filter=None)
    seconds = processor_seconds() - began
    return row_of(congruent(found.phase / (2 * np.pi), scene.igram), scene, seconds)


def snaphu(scene: Scene, igram: np.ndarray, mode: str) -> Row:
    """The surface of SNAPHU by one mode, and its components."""
    costs, start = mode.upper().split("-")
    with tempfile.TemporaryDirectory() as name:
        folder = Path(name)
        igram.astype(np.complex64).tofile(folder / "in")
        scene.coherence.astype(np.float32).tofile(folder / "coherence")
        scene.opened.astype(np.uint8).tofile(folder / "mask")
        (folder / "words").write_text(CONFIGURATION.format(looks=scene.looks, costs=costs, start=start))
        began = processor_seconds()
        ran = subprocess.run(["snaphu", "-f", "words", "in", str(igram.shape[1])], cwd=folder, capture_output=True, text=True)
        seconds = processor_seconds() - began
        if ran.returncode:
            raise Trouble(f"snaphu ended with status {ran.returncode}: {ran.stderr.strip()[-200:]}", FILE_FAULT)
        found = np.fromfile(folder / "out", np.float32).reshape(igram.shape) / (2 * np.pi)
        parts = np.fromfile(folder / "components", np.uint8).reshape(igram.shape)
    return row_of(congruent(found, scene.igram), scene, seconds, parts)


# The table


def told(rows: List[Row]) -> str:
    """The means of rows, as cells of the table."""
    wrong_, seconds = (float(np.mean([row[place] for row in rows])) for place in (0, 1))
    cells = f"{wrong_:.2f} % | {seconds:.1f}"
    if rows[0].covered is None:
        return f"{cells} | |"
    covered, inside = (float(np.mean([row[place] for row in rows])) for place in (2, 3))
    return f"{cells} | {covered:.0f} % | {inside:.2f} %"


def rows_of(name: str, seeds: int, modes: List[str]) -> Iterator[Tuple[str, List[Row]]]:
    """The rows of a scene of so many seeds: of this package, and of each mode."""
    scenes = list(scenes_of(name, seeds))
    for what, of in (("", lambda scene: scene.igram), (", filtered", filtered)):
        yield f"this{what}", [ours(scene, of(scene)) for scene in scenes]
        for mode in modes:
            yield f"SNAPHU {mode}{what}", [snaphu(scene, of(scene), mode) for scene in scenes]


def main() -> int:
    words = argparse.ArgumentParser(description=__doc__, formatter_class=argparse.RawDescriptionHelpFormatter)
    words.add_argument("--seeds", type=int, default=2, metavar="N", help="scenes of each kind and looks (default: 2)")
    words.add_argument("--modes", nargs="+", choices=MODES, default=list(MODES), help="of SNAPHU (default: all)")
    words.add_argument("scenes", nargs="*", metavar="SCENE", default=[*SCENES, *NAMED])
    asked = words.parse_args()
    if shutil.which("snaphu") is None:
        raise Trouble("there is no command snaphu; Debian has it in non-free: apt-get install snaphu", FILE_FAULT)
    if asked.seeds < 1:
        raise Trouble("--seeds is 1 or more", REFUSED_WORDS)
    print("| Scene | by | wrong | seconds | covered | wrong there |\n|---|---|---|---|---|---|")
    for name in asked.scenes:
        for what, rows in rows_of(name, asked.seeds, asked.modes):
            print(f"| {name} | {what} | {told(rows)} |", flush=True)
    return 0


if __name__ == "__main__":
    run_main(main)
