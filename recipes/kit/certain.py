#!/usr/bin/python3
"""Tells what certain parts cover, and how much of that is wrong: certain.py [--side N] [NAME..]. Without a name it takes SCENES.

Scenes are those of truth.py. A cell is a pair of percentages: the open pixels that lie in a part, and those of them that are off by
whole cycles, after one constant for each part. A row is of a margin, as a share of 255. Beside the parts stand the pieces, of as many
pixels or more, of what is as coherent as the same cover wants. Each is told of no filter and of the default. The components of SNAPHU
are tried where it is found. The last rows are means, and above them stands the worst scene of each.

certain.py --loops raises the parts that loops say to raise: a KIND of truth.py, a gentle ground, and the sum of both. A row has the
percentages of the pixels in parts that are off in each of the three surfaces, after one constant for each component of the mask,
before and after.
"""
import argparse
import sys
import tempfile
import warnings
from dataclasses import replace
from pathlib import Path
from typing import Any, Callable, Dict, List, Tuple

import numpy as np

sys.path[:0] = [str(Path(__file__).resolve().parent), str(Path(__file__).resolve().parent.parent.parent / "python")]
import truth  # noqa: E402

from wundjeska import Unwrapped, unwrap  # noqa: E402
from wundjeska.components import components_of  # noqa: E402
from wundjeska.loops import close_loop  # noqa: E402
from wundjeska.loops import commonest as level_of  # noqa: E402
from wundjeska.nearest import commonest  # noqa: E402
from wundjeska.part_loops import moves_of, raised_by  # noqa: E402
from wundjeska.parts import LEAST, MARGIN, Bounds  # noqa: E402
from wundjeska.planes import CYCLE  # noqa: E402
from wundjeska.report_reader import NODATA  # noqa: E402
from wundjeska.trouble import run_main  # noqa: E402

MARGINS = (0.0, 0.02, 0.04, 0.08, 0.16)
CHANGE = 0.1  # percentage points, of which a surface is told to be better or worse
HALVINGS = 10  # of the span of coherence, until a cover is met
WAYS: Dict[str, Dict[str, Any]] = {"no filter": {"filter": None}, "default": {}}
SNAPHU = "SNAPHU"
KINDS = (
    "volcano-4-hard-white volcano-20-hard-smoothed volcano-1-medium-turned hills-4-hard-white hills-1-medium-white "
    "hills-4-hard-wide turbulence-4-hard-white turbulence-20-medium-white turbulence-4-hard-turned rupture-4-hard-white "
    "rupture-20-hard-white rupture-4-medium-wide glacier-4-hard-white glacier-20-hard-white glacier-4-hard-turned "
    "bowls-4-hard-white bowls-20-hard-wide bowls-4-medium-smoothed islands-4-medium-white islands-20-hard-white "
    "islands-4-medium-turned layover-4-medium-white layover-20-hard-white layover-4-medium-smoothed peaks-4-clear-white "
    "peaks-4-medium-white fault-4-clear-white fault-4-medium-wide fault-20-medium-wide torn-4-medium-white torn-4-hard-wide "
    "layover-20-hard-wide glacier-20-hard-wide"
).split()
SCENES = [f"{kind}-{seed}" for seed, kind in enumerate(KINDS, 6401)]
LOOP_KINDS, LOOP_SEEDS, LOOP_LOOKS = ("glacier", "layover", "rupture", "torn"), range(7201, 7206), 4
Pair = Tuple[float, float]


def inside(scene: truth.Scene, values: truth.Field, labels: np.ndarray) -> Pair:
    """The percentages of the open pixels that have a label, and of those that are off, after the commonest constant of each."""
    cycles = np.rint(np.where(scene.opened, values, 0) / CYCLE - scene.surface).astype(np.int64)
    covered = labels > 0
    if not covered.any():
        return 0.0, 0.0
    levels = commonest(cycles, labels.astype(np.int64) - 1)
    off = cycles[covered] != levels[labels[covered].astype(np.int64) - 1]
    return 100 * float(covered.sum() / scene.opened.sum()), 100 * float(off.mean())


def coherent_pieces(scene: truth.Scene, cover: float) -> np.ndarray:
    """The pieces of pixels that are so coherent that they cover this percentage of the open ones, or nearly."""
    low, high = 0.0, 1.0
    for _ in range(HALVINGS):
        middle = (low + high) / 2
        found = components_of(scene.opened & (scene.estimated >= middle), LEAST)
        if 100 * (found > 0).sum() > cover * scene.opened.sum():
            low = middle
        else:
            high = middle
    return found


def parts_at(found: Unwrapped, margin: float) -> np.ndarray:
    assert found.certified is not None
    return found.certified.parts(Bounds(margin), "a scene").labels


def of_way(scene: truth.Scene, words: Dict[str, Any]) -> Dict[str, Tuple[Pair, Pair]]:
    """At each margin what the parts and the coherent pieces cover, and how much of that is wrong."""
    found = unwrap(scene.product, scene.estimated, mask=scene.opened, check=False, **words)
    every = inside(scene, found.values, components_of(scene.opened))
    rows = {"all open pixels": (every, every)}
    for margin in MARGINS:
        parts = inside(scene, found.values, parts_at(found, margin))
        rows[f"{margin:g}"] = parts, inside(scene, found.values, coherent_pieces(scene, parts[0]))
    return rows


def of_snaphu(scene: truth.Scene) -> Pair:
    """What the components of SNAPHU cover, and how much of that is wrong."""
    with tempfile.TemporaryDirectory() as folder:
        values = truth.snaphu_in(Path(folder), scene, CONNCOMPFILE="components")
        labels = np.fromfile(Path(folder, "components"), np.uint8).reshape(scene.opened.shape)
    return inside(scene, values, np.where(scene.opened, labels, 0))


def measured(scene: truth.Scene) -> Dict[str, List[Pair]]:
    """The cells of each row."""
    ways = [of_way(scene, words) for words in WAYS.values()]
    rows = {name: [pair for way in ways for pair in way[name]] for name in ways[0]}
    return {**rows, SNAPHU: [of_snaphu(scene)]} if truth.SNAPHU else rows


def show(rows: Dict[str, np.ndarray]) -> None:
    for name, cells in rows.items():
        print(truth.row_of(name, [f"{cover:.1f}, {wrong:.2f}" for cover, wrong in cells]), flush=True)


# Loops


def loop_of(kind: str, seed: int, side: int) -> List[truth.Scene]:
    """The scenes of three pairs of acquisitions: a kind of ground, a gentle one, and what both make together."""
    random = np.random.default_rng([seed, *kind.encode()])
    first = truth.KINDS[kind](random, side)
    gentle = truth.sloped(truth.rough(random, side, 2.2), 0.06) + truth.sloped(truth.smooth(random, side, 40), 0.03)
    second = truth.whole_ground(gentle, np.sqrt(first.left))
    grounds = (first, second, replace(first, surface=first.surface + gentle))
    return [truth.looked(random, ground, cover_of(random, ground), LOOP_LOOKS, False) for ground in grounds]


def cover_of(random: np.random.Generator, ground: truth.Ground) -> truth.Field:
    """A true coherence."""
    return truth.coherence_of(random, ground, LOOP_LOOKS, "hard")


def off_in_parts(scene: truth.Scene, values: truth.Field, labels: np.ndarray) -> float:
    """The percentage of the pixels in parts that are off, after one constant for each component of the mask."""
    return inside(scene, values, np.where(labels > 0, components_of(scene.opened), 0))[1]


def raised_in(scenes: List[truth.Scene], words: Dict[str, Any]) -> np.ndarray:
    """What is off in each surface, before and after parts are raised; (2, 3)."""
    found = [unwrap(scene.product, scene.estimated, mask=scene.opened, check=False, **words) for scene in scenes]
    labels = [parts_at(each, MARGIN) for each in found]
    values = [each.values for each in found]
    level = level_of(close_loop(values, "a loop"))
    values[2] = np.where(values[2] == NODATA, NODATA, values[2] + CYCLE * level)
    moves = moves_of(close_loop(values, "a loop"), [part.astype(np.int64) for part in labels]).raised
    after = [raised_by(each, part.astype(np.int64), moves, place) for place, (each, part) in enumerate(zip(values, labels))]
    return np.array([[off_in_parts(*each) for each in zip(scenes, made, labels)] for made in (values, after)])


def loops(side: int) -> int:
    """Prints a row for each loop and way, and the means."""
    print(truth.row_of("loop", ["before", "after"]) + "\n|---|---|---|", flush=True)
    found = []
    for name, seed in ((kind, seed) for kind in LOOP_KINDS for seed in LOOP_SEEDS):
        for way, words in WAYS.items():
            found.append(raised_in(loop_of(name, seed, side), words))
            cells = [", ".join(f"{share:.2f}" for share in row) for row in found[-1]]
            print(truth.row_of(f"{name}-{seed}, {way}", cells), flush=True)
    before, after = np.moveaxis(np.array(found), 1, 0)
    worse, better = (int((sign * (after - before) > CHANGE).sum()) for sign in (1, -1))
    print(truth.row_of(f"mean of {len(found)}", [f"{before.mean():.2f}", f"{after.mean():.2f}"]))
    print(f"{better} of {before.size} surfaces are better by more than {CHANGE} points, {worse} worse")
    return 0


def main() -> int:
    words = argparse.ArgumentParser(description=__doc__, formatter_class=argparse.RawDescriptionHelpFormatter)
    words.add_argument("--side", type=int, default=truth.SIDE, help=f"pixels along a side of a scene (default: {truth.SIDE})")
    words.add_argument("--loops", action="store_true", help="raise the parts that loops say to raise")
    words.add_argument("names", nargs="*", metavar="NAME", help="of scenes (default: thirty-three)")
    asked = words.parse_args()
    warnings.simplefilter("ignore")  # that a scene has concerns is known
    if asked.loops:
        return loops(asked.side)
    heads = [head for way in WAYS for head in (f"{way}: parts", "as coherent")]
    print(truth.row_of("margin", heads) + "\n|" + "---|" * (len(heads) + 1), flush=True)
    found = []
    for name in asked.names or SCENES:
        found.append(measured(truth.scene_of(name, asked.side)))
        print(f"{name}:")
        show({row: np.array(cells) for row, cells in found[-1].items()})
    statistics: Dict[str, Callable[..., np.ndarray]] = {"worst": np.max, "mean": np.mean}
    for what, of in statistics.items():
        print(f"{what} of {len(found)}:")
        show({row: of([scene[row] for scene in found], axis=0) for row in found[0]})
    return 0


if __name__ == "__main__":
    run_main(main)
