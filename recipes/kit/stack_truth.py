#!/usr/bin/python3
"""Tells how often the surfaces of a stack are wrong before and after its loops raise parts: stack_truth.py [--mintpy] [NAME..].

A stack is named KIND-SEED, as rivers-8201. It has six acquisitions of 200 by 200 pixels and all pairs of at most three steps:
twelve pairs, ten loops. Images are complex normal numbers, 2 by 2 looks a pixel, of which the ground keeps a share from one to the
next: little in rivers, and less in the woods that were wet at an acquisition. So pairs share what they lost, as those of a
satellite do. A source grows, and each acquisition has its own air. So far a stack is of the kind `rivers`. In one of the kind
`fault` the ground slips by up to 3.4 cycles between two acquisitions, too, which all pairs see that span it. In one of the kind
`raised` air and source are calm, and parts of each pair, three in twenty but never its largest, are put up or down by one cycle or
two.

A cell has the percentages of the pixels of all pairs that are off by whole cycles from the known surface, those of a coherence above
0.3 and all, after the commonest constant of each pair. With --mintpy the same stack is raised by MintPy's
`unwrap_error_phase_closure`, too (Debian's python3-mintpy). Its components are the certain parts, borders of parts are left out of its
common regions, and the smallest of these has 100 pixels in place of 2500, since the stack is small.
"""
import argparse
import itertools
import os
import subprocess
import sys
import tempfile
import warnings
from dataclasses import dataclass
from pathlib import Path
from typing import Dict, List, Sequence, Tuple

import numpy as np

sys.path[:0] = [str(Path(__file__).resolve().parent), str(Path(__file__).resolve().parent.parent.parent / "python")]
import truth  # noqa: E402

from wundjeska import unwrap  # noqa: E402
from wundjeska.loops import close_loop  # noqa: E402
from wundjeska.nearest import commonest  # noqa: E402
from wundjeska.planes import CYCLE  # noqa: E402
from wundjeska.stack_cycles import SECONDS, Raised  # noqa: E402
from wundjeska.stack_loops import Stack, loop_of  # noqa: E402
from wundjeska.stack_slips import slips_of, without  # noqa: E402
from wundjeska.trouble import run_main  # noqa: E402

SIDE, ACQUISITIONS, STEPS, LOOKS = 200, 6, 3, 2
NAMES = [f"{kind}-{seed}" for kind in ("raised", "rivers", "fault") for seed in range(8201, 8205)]
KEPT, WET, TORN = 0.8, 0.12, 0.4  # of the coherence, from one acquisition to the next, in a wet wood and along the fault
RIVER = 0.1
AIR, SOURCE, CALM = 0.07, 5.0, 0.3  # the slope of the air, in cycles a pixel, what the source grows by, in cycles, and what is left in calm
PUT, CYCLES = 0.15, (-2, -1, 1, 2)  # which share of parts is put up or down, and by what
DATES = [f"202301{day:02d}" for day in range(1, 1 + 4 * ACQUISITIONS, 4)]
Field = np.ndarray
Pair = Tuple[int, int]


@dataclass(frozen=True)
class Ground:
    """The phase of each acquisition in cycles, the coherence of each with the next, and how much of its own each image keeps."""

    phases: Sequence[Field]
    kept: Sequence[Field]
    clear: Sequence[Field]


@dataclass
class Made:
    """An interferogram, its coherence as estimated and as it is, its known surface; what was made of it, and its parts."""

    product: Field
    estimated: Field
    coherence: Field
    surface: Field
    values: Field
    labels: Field


def belt(random: np.random.Generator, width: float) -> Field:
    """True in a belt through the scene, so many pixels wide."""
    y, x = truth.grid(SIDE)
    angle, bend = random.uniform(0, np.pi), 25 * truth.smooth(random, SIDE, 160)
    away = np.cos(angle) * (x - SIDE / 2) + np.sin(angle) * (y - SIDE / 2) + bend - random.uniform(-0.3, 0.3) * SIDE
    return np.abs(away) < width / 2


def ground_of(random: np.random.Generator, kind: str) -> Ground:
    """What the acquisitions see."""
    y, x = truth.grid(SIDE)
    cx, cy = random.uniform(0.3, 0.7, 2) * SIDE
    steep = CALM if kind == "raised" else 1.0
    source = steep * SOURCE * np.exp(-np.hypot(x - cx, y - cy) ** 2 / 2 / 35**2)
    torn, event = truth.torn(random, SIDE), int(random.integers(1, ACQUISITIONS)) if kind == "fault" else ACQUISITIONS
    rivers = [belt(random, random.uniform(8, 16)) for _ in range(2)]
    woods = [belt(random, random.uniform(10, 18)) for _ in range(3)]
    phases, kept, clear = [], [], []
    for date in range(ACQUISITIONS):
        air = truth.sloped(truth.rough(random, SIDE, 2.2), steep * AIR)
        phases.append(date * source + air + (torn.surface if date >= event else 0))
        share = np.where(np.any(rivers, axis=0), RIVER, KEPT) * (torn.left if date + 1 == event else 1)
        kept.append(np.clip(share + 0.04 * truth.smooth(random, SIDE, 12), 0, 0.99))
        wet = np.any([wood & (random.random() < 0.5) for wood in woods], axis=0)
        clear.append(np.where(wet, WET, 1.0))
    return Ground(phases, kept, clear)


def images_of(random: np.random.Generator, ground: Ground) -> List[Field]:
    """The images, with several looks a pixel."""
    fine = SIDE * LOOKS
    at = (np.arange(fine) + 0.5) / LOOKS - 0.5
    y, x = np.meshgrid(at, at, indexing="ij")
    speckle = truth.noise(random, (fine, fine), False)
    images = []
    for date, phase in enumerate(ground.phases):
        if date:
            share = finer(ground.kept[date - 1])
            speckle = share * speckle + np.sqrt(1 - share**2) * truth.noise(random, (fine, fine), False)
        clear = finer(ground.clear[date])
        seen = clear * speckle + np.sqrt(1 - clear**2) * truth.noise(random, (fine, fine), False)
        images.append(seen * np.exp(2j * np.pi * truth.at(phase, y, x)))
    return images


def finer(field: Field) -> Field:
    return np.repeat(np.repeat(field, LOOKS, 0), LOOKS, 1)


def looks(values: Field) -> Field:
    """Means over the looks of a pixel."""
    return values.reshape(SIDE, LOOKS, SIDE, LOOKS).mean(axis=(1, 3))


def made_of(ground: Ground, images: Sequence[Field], pair: Pair) -> Made:
    """A pair, unwrapped."""
    first, second = pair
    product = looks(images[second] * images[first].conj())
    powers = [truth.boxed(looks(np.abs(images[date]) ** 2), 3) for date in pair]
    estimated = np.clip(np.abs(truth.boxed(product, 3)) / np.sqrt(powers[0] * powers[1]), 0, 1)
    coherence = ground.clear[first] * ground.clear[second] * np.prod(ground.kept[first:second], axis=0)
    found = unwrap(product, estimated, check=False)
    assert found.parts is not None
    surface = ground.phases[second] - ground.phases[first]
    return Made(product, estimated, coherence, surface, found.values, found.parts.labels)


def off(made: Made, values: Field) -> Field:
    """Where a surface is off by whole cycles."""
    cycles = np.rint(values / CYCLE - made.surface).astype(np.int64)
    return cycles != commonest(cycles, np.where(made.coherence > truth.COHERENT, 0, -1))[0]


def shares(stack: Dict[Pair, Made], values: Dict[Pair, Field]) -> str:
    """The percentages of the coherent pixels and of all that are off."""
    wrong = np.array([off(made, values[pair]) for pair, made in stack.items()])
    coherent = np.array([made.coherence > truth.COHERENT for made in stack.values()])
    return f"{100 * wrong[coherent].mean():.2f}, {100 * wrong.mean():.2f}"


def raised(stack: Dict[Pair, Made]) -> List[Dict[Pair, Field]]:
    """The surfaces with parts raised as the loops say, but near a slip, and with all of them."""
    pairs = list(stack)
    loops = []
    for first, second, third in itertools.combinations(range(ACQUISITIONS), 3):
        three = [(first, second), (second, third), (first, third)]
        if third - first <= STEPS:
            closed = close_loop([stack[pair].values for pair in three], "a loop")
            labels = [stack[pair].labels for pair in three]
            loops.append(loop_of([pairs.index(pair) for pair in three], labels, closed.cycles, closed.known()))
    whole = Stack(loops, [np.bincount(made.labels.ravel())[1:] for made in stack.values()])
    found = whole.find(SECONDS)
    slips = slips_of(whole, [(DATES[first], DATES[second]) for first, second in pairs], found)
    return [raised_by(stack, whole, one) for one in (without(whole, found, slips), found)]


def raised_by(stack: Dict[Pair, Made], whole: Stack, found: Raised) -> Dict[Pair, Field]:
    """The surfaces so raised."""
    raises = zip(stack.items(), found.levels, whole.numbers_by_pair(found.numbers))
    return {pair: made.values + CYCLE * (level + own[made.labels]) for (pair, made), level, own in raises}


# MintPy


def whole_inside(stack: Dict[Pair, Made]) -> Field:
    """True where all pairs have a part, and their neighbours to the right and below the same one."""
    inside = np.ones((SIDE, SIDE), dtype=bool)
    for made in stack.values():
        inside &= made.labels > 0
        inside[:, :-1] &= made.labels[:, :-1] == made.labels[:, 1:]
        inside[:-1] &= made.labels[:-1] == made.labels[1:]
    return inside


def by_mintpy(stack: Dict[Pair, Made]) -> Dict[Pair, Field]:
    """The surfaces as MintPy raises them."""
    import h5py

    inside = whole_inside(stack)
    lowest = np.min([made.estimated for made in stack.values()], axis=0)
    quality = np.where(inside & (truth.pieces_of(inside) == largest(inside)), lowest, 0)
    row, column = np.unravel_index(quality.argmax(), quality.shape)
    told = {"LENGTH": SIDE, "WIDTH": SIDE, "REF_Y": row, "REF_X": column, "PROCESSOR": "isce", "UNIT": "radian"}
    planes = {
        "unwrapPhase": [made.values * (2 * np.pi / CYCLE) for made in stack.values()],
        "coherence": [made.estimated for made in stack.values()],
        "connectComponent": [made.labels.astype(np.int16) for made in stack.values()],
    }
    with tempfile.TemporaryDirectory() as folder:
        with h5py.File(f"{folder}/ifgramStack.h5", "w") as file:
            file["date"] = np.array([[DATES[date].encode() for date in pair] for pair in stack])
            file["bperp"], file["dropIfgram"] = np.zeros(len(stack), np.float32), np.ones(len(stack), bool)
            for name, values in planes.items():
                file[name] = np.array(values, np.int16 if name == "connectComponent" else np.float32)
            file.attrs.update({name: str(value) for name, value in {**told, "FILE_TYPE": "ifgramStack"}.items()})
        with h5py.File(f"{folder}/common.h5", "w") as file:
            file["mask"] = inside
            file.attrs.update({name: str(value) for name, value in {**told, "FILE_TYPE": "mask"}.items()})
        call = ["-m", "mintpy", "unwrap_error_phase_closure", "ifgramStack.h5", "--cc-mask", "common.h5", "--min-area", "100"]
        subprocess.run([sys.executable, *call], cwd=folder, check=True, capture_output=True, env={**os.environ, "MPLBACKEND": "Agg"})
        with h5py.File(f"{folder}/ifgramStack.h5") as file:
            found = file["unwrapPhase_phaseClosure"][:] if "unwrapPhase_phaseClosure" in file else planes["unwrapPhase"]
    level = [made.values[row, column] for made in stack.values()]
    return {pair: np.rint(values * (CYCLE / 2 / np.pi) + at) for pair, values, at in zip(stack, found, level)}


def largest(inside: Field) -> int:
    pieces = truth.pieces_of(inside)
    return int(np.bincount(pieces[inside]).argmax())


def stack_of(name: str) -> Dict[Pair, Made]:
    """The pairs of a stack, unwrapped."""
    kind, seed = name.split("-")
    random = np.random.default_rng([int(seed), *kind.encode()])
    ground = ground_of(random, kind)
    images = images_of(random, ground)
    pairs = itertools.combinations(range(ACQUISITIONS), 2)
    stack = {pair: made_of(ground, images, pair) for pair in pairs if pair[1] - pair[0] <= STEPS}
    for made in stack.values() if kind == "raised" else ():
        put(random, made)
    return stack


def put(random: np.random.Generator, made: Made) -> None:
    """Puts parts but for the largest up or down by whole cycles."""
    cycles = np.where(random.random(made.labels.max() + 1) < PUT, random.choice(CYCLES, made.labels.max() + 1), 0)
    cycles[:2] = 0
    made.values += CYCLE * cycles[made.labels]


def main() -> int:
    words = argparse.ArgumentParser(description=__doc__, formatter_class=argparse.RawDescriptionHelpFormatter)
    words.add_argument("--mintpy", action="store_true", help="try MintPy, too")
    words.add_argument("names", nargs="*", metavar="NAME", help="of stacks (default: four of each kind)")
    asked = words.parse_args()
    warnings.simplefilter("ignore")  # that a scene has concerns is known
    heads = ["before", "parts raised", "with --slips", *(["MintPy"] if asked.mintpy else [])]
    print(truth.row_of("stack", heads) + "\n|" + "---|" * (len(heads) + 1), flush=True)
    for name in asked.names or NAMES:
        stack = stack_of(name)
        ways = [{pair: made.values for pair, made in stack.items()}, *raised(stack)]
        ways += [by_mintpy(stack)] if asked.mintpy else []
        print(truth.row_of(name, [shares(stack, way) for way in ways]), flush=True)
    return 0


if __name__ == "__main__":
    run_main(main)
