#!/usr/bin/python3
"""Tells how often a surface is wrong: truth.py [--side N] [NAME..]. It makes scenes whose surface is known, and prints a table of
the pixels that are off by whole cycles, and of seconds, of each way to unwrap them. Without a name it takes the thirty of SCENES.
truth.py --guard makes six small ones, and ends with status 1 if the default is wrong at more than a tenth more pixels than it was.

A scene is named KIND-LOOKS-LEVEL-NOISE-SEED, as hills-4-hard-white-9604.

  KIND   volcano, hills, turbulence, rupture, glacier, bowls, islands (the sea is masked), layover, peaks (cones of 4 to 8 pixels),
         fault (up to 0.95 cycle from one pixel to the next, with no coherence lost, which ends inside), or torn (a fault of up
         to 3.4 cycles, along which 40 % of the coherence are left)
  LOOKS  1, 4 or 20. Each look is a pair of complex normal numbers, on a finer grid, so fringes lose coherence within a pixel
  LEVEL  clear, medium or hard: how much coherence there is
  NOISE  white, wide (images oversampled by 2), smoothed (by the filter of Goldstein and Werner 1998, power 0.5), or turned by 12
         degrees, as geocoding does

The coherence that makes the weights is estimated of the same looks, with its bias. Each number is a pair: the percentage of the
open pixels whose true coherence is above 0.3, and of all open ones. Whole cycles that a part of the mask has in common do not
count. scikit-image and SNAPHU (2.0.5, smooth costs) are tried where they are found.
"""
import argparse
import math
import shutil
import subprocess
import sys
import tempfile
import time
import warnings
from dataclasses import dataclass, replace
from importlib.util import find_spec
from pathlib import Path
from typing import Any, Callable, Dict, List, Tuple

import numpy as np

sys.path.insert(0, str(Path(__file__).resolve().parent.parent.parent / "python"))
from wundjeska.components import pieces_of  # noqa: E402
from wundjeska import unwrap  # noqa: E402
from wundjeska.nearest import commonest  # noqa: E402
from wundjeska.planes import CYCLE, Session, phases_of, session_of  # noqa: E402
from wundjeska.trouble import DISAGREES, REFUSED_WORDS, Trouble, run_main  # noqa: E402
from wundjeska.unwrapping import Settings, solve  # noqa: E402
from wundjeska.weights import weights_of  # noqa: E402

SIDE = 512
LOOKS = {1: (1, 1), 4: (2, 2), 20: (5, 4)}  # down and across
WINDOW = {1: 5, 4: 3, 20: 1}  # pixels along a side, of which coherence is estimated
MEAN = {1: 0.86, 4: 0.60, 20: 0.34}  # usual coherence
LEVELS = {"clear": {1: 1.0, 4: 1.0, 20: 1.0}, "medium": {1: 0, 4: 0, 20: 0}, "hard": {1: -1.2, 4: -0.8, 20: -0.75}}
COHERENT = 0.3
OVERSAMPLING, POWER, TURN = 2.0, 0.5, math.radians(12)

Field = np.ndarray
Tear = Callable[[Field, Field], Field]  # what breaks a surface, by rows and columns


@dataclass(frozen=True)
class Ground:
    """A surface in cycles, which part of the coherence is left, what tears the surface, and where it is open."""

    surface: Field
    left: Field
    tear: Tear
    opened: Field


@dataclass(frozen=True)
class Scene:
    """The true surface in cycles and coherence, the estimated one, the complex interferogram, its open pixels and looks."""

    surface: Field
    coherence: Field
    estimated: Field
    product: Field
    opened: Field
    looks: int

    def planes(self) -> Session:
        weights = weights_of(self.estimated)
        return Session(np.where(self.opened, phases_of(self.product), 0), weights, self.opened, b"end\n")


# Fields


def grid(side: int) -> Tuple[Field, Field]:
    y, x = np.mgrid[0:side, 0:side].astype(float)
    return y, x


def spectral(random: np.random.Generator, side: int, amplitude: Callable[[Field], Field]) -> Field:
    """A random field of mean 0 and deviation 1, by the amplitude of each frequency, in cycles a pixel."""
    frequency = np.hypot(np.fft.fftfreq(side)[:, None], np.fft.rfftfreq(side)[None, :])
    frequency[0, 0] = 1
    shape = amplitude(frequency)
    shape[0, 0] = 0
    found = np.fft.irfft2(np.fft.rfft2(random.standard_normal((side, side))) * shape, s=(side, side))
    return found / found.std()


def rough(random: np.random.Generator, side: int, power: float) -> Field:
    """A field whose amplitudes fall by this power."""
    return spectral(random, side, lambda frequency: frequency**-power)


def smooth(random: np.random.Generator, side: int, scale: float) -> Field:
    """A field with no more detail than this, in pixels of a scene of 512."""
    return spectral(random, side, lambda frequency: np.exp(-2 * (frequency * scale * side / SIDE) ** 2))


def sloped(field: Field, slope: float) -> Field:
    """A field times what makes its slopes so large, in the mean of squares, in cycles a pixel."""
    squares = np.diff(field, axis=1)[1:] ** 2 + np.diff(field, axis=0)[:, 1:] ** 2
    return field * (slope / math.sqrt(squares.mean()))


def steepest(field: Field) -> float:
    return float(max(np.abs(np.diff(field, axis=axis)).max() for axis in (0, 1)))


def at(field: Field, y: Field, x: Field) -> Field:
    """The field at places between pixels; beyond the border that of the border."""
    height, width = field.shape
    y, x = np.clip(y, 0, height - 1), np.clip(x, 0, width - 1)
    row, column = np.minimum(y.astype(int), height - 2), np.minimum(x.astype(int), width - 2)
    down, across = y - row, x - column
    above = field[row, column] * (1 - across) + field[row, column + 1] * across
    below = field[row + 1, column] * (1 - across) + field[row + 1, column + 1] * across
    return above * (1 - down) + below * down


def boxed(field: Field, window: int) -> Field:
    """Means over window by window pixels; borders are mirrors."""
    padded = np.pad(field, window // 2, mode="symmetric")
    sums = np.pad(padded, ((1, 0), (1, 0))).cumsum(axis=0).cumsum(axis=1)
    found = sums[window:, window:] - sums[:-window, window:] - sums[window:, :-window] + sums[:-window, :-window]
    return found / window**2


# Grounds


def whole_ground(surface: Field, left: Field = np.ones(1)) -> Ground:
    """A ground that nothing tears and that is open throughout."""
    every = np.ones(surface.shape)
    return Ground(surface, left * every, lambda y, x: np.zeros(1), every > 0)


def volcano(random: np.random.Generator, side: int) -> Ground:
    y, x = grid(side)
    cx, cy = side * random.uniform(0.4, 0.6, 2)
    square = (x - cx) ** 2 + (y - cy) ** 2
    source = (square + 900.0) ** -1.5
    surface = source * (0.38 / steepest(source)) + sloped(rough(random, side, 1.9), 0.02)
    return whole_ground(surface, 1 - 0.35 * np.exp(-square / 1250))


def hills(random: np.random.Generator, side: int) -> Ground:
    y, x = grid(side)
    height = 6 * np.abs(rough(random, side, 2.2))
    for _ in range(30):
        radius = random.uniform(0.03, 0.12) * side
        cx, cy = random.uniform(0, side, 2)
        square = (x - cx) ** 2 + (y - cy) ** 2
        height += random.uniform(0.3, 1) * radius * np.exp(-square / (2 * radius * radius))
    return whole_ground(sloped(height, 0.11))


def turbulence(random: np.random.Generator, side: int) -> Ground:
    return whole_ground(sloped(rough(random, side, 1.75), 0.10))


def rupture(random: np.random.Generator, side: int) -> Ground:
    """An earthquake: slip of 3 to 5 cycles that ends inside, and coherence lost near it."""
    lean, place, slip = random.uniform(-0.2, 0.2), random.uniform(0.42, 0.58) * side, random.uniform(3, 5)

    def tear(y: Field, x: Field) -> Field:
        along = x - side / 2
        away = (y - place - lean * along) / np.hypot(1, lean)
        moved = slip * np.sqrt(np.clip(1 - (along / (0.33 * side)) ** 2, 0, 1))
        lock = 2 + 25 * (1 - np.clip(1.6 - np.abs(along) / (0.2 * side), 0, 1))
        return moved / np.pi * np.arctan(away / lock) * np.exp(-np.abs(away) / (0.35 * side))

    y, x = grid(side)
    away = y - place - lean * (x - side / 2)
    inside = np.clip(1.3 - np.abs(x - side / 2) / (0.3 * side), 0, 1)
    surface = sloped(smooth(random, side, 60), 0.02) + sloped(rough(random, side, 1.9), 0.015)
    return replace(whole_ground(surface, 1 - 0.93 * inside * np.exp(-((away / 7) ** 2))), tear=tear)


def glacier(random: np.random.Generator, side: int) -> Ground:
    """A stream with steady fringes between margins of shear, in which coherence is low."""
    y, x = grid(side)
    angle = 2 * np.pi * y / side
    away = np.abs(x - side / 2 - 40 * np.sin(angle + random.uniform(0, 6)))
    half = 85 + 25 * np.sin(1.5 * angle)
    speed = 0.5 * (1 - np.tanh((away - half) / 12))
    surface = speed * (4 + 3 * np.sin(0.8 * angle)) + speed * 0.03 * (y - side / 2)
    surface += sloped(smooth(random, side, 50), 0.02) + sloped(rough(random, side, 1.9), 0.015)
    return whole_ground(surface, 1 - 0.6 * np.exp(-(((away - half) / 9) ** 2)))


def bowls(random: np.random.Generator, side: int) -> Ground:
    """Mines, whose flanks come near half a cycle a pixel."""
    y, x = grid(side)
    surface, left = sloped(rough(random, side, 1.9), 0.02), np.ones((side, side))
    for _ in range(5):
        (cx, cy), radius = random.uniform(0.15, 0.85, 2) * side, random.uniform(22, 50)
        bowl = -1 / (1 + ((x - cx) ** 2 + 1.6 * (y - cy) ** 2) ** 2 / radius**4)
        surface += bowl * (random.uniform(0.3, 0.46) / steepest(bowl))
        left *= 1 + 0.4 * bowl
    return whole_ground(surface, left)


def islands(random: np.random.Generator, side: int) -> Ground:
    """A ragged coast and islets; the sea is masked."""
    shore = 4 * 1.3 * (grid(side)[1] / side - 0.5) + 0.8 * smooth(random, side, 30) + 0.35 * rough(random, side, 1.2)
    land = (shore > 0) | ((shore > -3) & (smooth(random, side, 6) > 2))
    surface = sloped(smooth(random, side, 25), 0.10) + sloped(rough(random, side, 1.8), 0.05)
    return replace(whole_ground(surface, np.where(land, 1.0, 0.0)), opened=land)


def layover(random: np.random.Generator, side: int) -> Ground:
    """Ridges whose near sides rise by more than half a cycle a pixel over a few pixels, where coherence is low."""
    places = [
        (*random.uniform((0.1, 0.15), (0.9, 0.85)) * side, random.uniform(30, 90), random.uniform(1.5, 4))
        for _ in range(9)
    ]

    def beyond(y: Field, x: Field, px: float, py: float) -> Field:
        return x - px - 6 * np.sin((y - py) / 20)

    def tear(y: Field, x: Field) -> Field:
        found = np.zeros(np.broadcast(y, x).shape)
        for px, py, half, rise in places:
            far = beyond(y, x, px, py)
            along = np.clip(1.2 - np.abs(y - py) / half, 0, 1) ** 0.7
            found += along * rise * np.clip(far / 5, 0, 1) * np.exp(-np.maximum(far, 0) / 40)
        return found

    y, x = grid(side)
    near = [(np.abs(beyond(y, x, px, py) - 2.5) < 4) & (np.abs(y - py) < 1.2 * half) for px, py, half, _ in places]
    surface = sloped(smooth(random, side, 40), 0.06) + sloped(rough(random, side, 1.9), 0.02)
    return replace(whole_ground(surface, np.where(np.any(near, axis=0), 0.12, 1.0)), tear=tear)


def peaks(random: np.random.Generator, side: int) -> Ground:
    y, x = grid(side)
    surface = sloped(smooth(random, side, 50), 0.03)
    for _ in range(60):
        radius, (cx, cy) = random.uniform(4, 8), random.uniform(10, side - 10, 2)
        surface += 0.38 * np.maximum(radius - np.hypot(x - cx, y - cy), 0)
    return whole_ground(surface)


def broken(random: np.random.Generator, side: int, least: float, most: float, left: float) -> Ground:
    """A plain that a fault breaks by so many cycles from one pixel to the next, and what is left of the coherence along it."""
    y, x = grid(side)
    lean, place, slip = random.uniform(-0.15, 0.15), random.uniform(0.2, 0.8) * side, random.uniform(least, most)
    away = y - place - lean * (x - side / 2)
    along = np.sqrt(np.clip(1 - ((x - side / 2) / (0.33 * side)) ** 2, 0, 1))
    moved = slip / 2 * along * np.where(away > 0, 1, -1) * np.exp(-np.abs(away) / 70)
    surface = sloped(smooth(random, side, 50), 0.03) + sloped(rough(random, side, 1.9), 0.015) + moved
    return whole_ground(surface, np.where((np.abs(away) < 2) & (along > 0), left, 1.0))


def fault(random: np.random.Generator, side: int) -> Ground:
    return broken(random, side, 0.6, 0.95, 1.0)


def torn(random: np.random.Generator, side: int) -> Ground:
    return broken(random, side, 1.5, 3.4, 0.4)


GROUNDS = (volcano, hills, turbulence, rupture, glacier, bowls, islands, layover, peaks, fault, torn)
KINDS: Dict[str, Callable[[np.random.Generator, int], Ground]] = {ground.__name__: ground for ground in GROUNDS}

# Noise


def noise(random: np.random.Generator, shape: Tuple[int, int], is_wide: bool) -> Field:
    """Complex normal numbers; wide ones have no frequencies beyond those of an image that was oversampled."""
    found = random.standard_normal(shape, dtype=np.float32) + 1j * random.standard_normal(shape, dtype=np.float32)
    if not is_wide:
        return found
    inside = [np.abs(np.fft.fftfreq(length)) <= 0.5 / OVERSAMPLING for length in shape]
    found = np.fft.ifft2(np.fft.fft2(found) * np.outer(*inside)).astype(np.complex64)
    return found * math.sqrt(2 / np.mean(np.abs(found) ** 2))


def coherence_of(random: np.random.Generator, ground: Ground, looks: int, level: str) -> Field:
    """The true coherence: woods, fields and what the ground leaves."""
    side = len(ground.surface)
    cover = 0.6 * smooth(random, side, 90) + 0.5 * smooth(random, side, 12) + 0.25 * rough(random, side, 0.8)
    usual = math.log(MEAN[looks] / (1 - MEAN[looks])) + LEVELS[level][looks]
    return np.clip(ground.left / (1 + np.exp(-(usual + cover))), 0, 0.98)


def looked(random: np.random.Generator, ground: Ground, coherence: Field, looks: int, is_wide: bool) -> Scene:
    """The scene of a ground: sums over looks of the products of two images."""
    side, (down, across) = len(coherence), LOOKS[looks]
    y = (np.arange(side * down)[:, None] + 0.5) / down - 0.5
    x = (np.arange(side * across)[None, :] + 0.5) / across - 0.5
    fine = at(ground.surface, *np.broadcast_arrays(y, x)) + ground.tear(y, x)
    shared = np.repeat(np.repeat(coherence, down, 0), across, 1).astype(np.float32)
    one, other = noise(random, shared.shape, is_wide), noise(random, shared.shape, is_wide)
    both = (shared * one + np.sqrt(1 - shared**2) * other) * np.exp(2j * np.pi * fine).astype(np.complex64)

    def multilooked(values: Field) -> Field:
        return values.reshape(side, down, side, across).mean(axis=(1, 3))

    product = multilooked(both * one.conj())
    powers = [boxed(multilooked(np.abs(image) ** 2).astype(float), WINDOW[looks]) for image in (one, both)]
    estimated = np.abs(boxed(product.astype(complex), WINDOW[looks])) / np.sqrt(powers[0] * powers[1])
    surface = ground.surface + ground.tear(*grid(side))
    return Scene(surface, coherence, np.clip(estimated, 0, 1), product, ground.opened, looks)


def smoothed(scene: Scene, window: int = 32, step: int = 8) -> Scene:
    """The scene whose interferogram was filtered before (Goldstein and Werner 1998)."""
    height, width = scene.product.shape
    taper = np.outer(*[np.hanning(window + 2)[1:-1]] * 2)
    padded = np.pad(scene.product, window, mode="reflect")
    found = np.zeros_like(padded)
    for y in range(0, height + window + 1, step):
        rows = padded[y : y + window]
        windows = np.lib.stride_tricks.sliding_window_view(rows, window, axis=1)[:, ::step].swapaxes(0, 1)
        spectra = np.fft.fft2(windows)
        size = sum(np.roll(np.abs(spectra), move, (1, 2)) for move in np.ndindex(3, 3)) / 9
        size = np.roll(size, (-1, -1), (1, 2)) ** POWER
        parts = np.fft.ifft2(spectra * size / np.maximum(size.mean(axis=(1, 2), keepdims=True), 1e-9)) * taper
        add_windows(found[y : y + window], parts, step)
    return replace(scene, product=found[window:-window, window:-window])


def add_windows(rows: Field, parts: Field, step: int) -> None:
    """Adds windows, (windows, rows, columns), at every step."""
    for place in range(0, parts.shape[2], step):
        strip = parts[:, :, place : place + step].transpose(1, 0, 2).reshape(len(rows), -1)
        rows[:, place : place + strip.shape[1]] += strip


def turned(scene: Scene) -> Scene:
    """The scene on a grid that is turned, as a map's. Corners that nothing covers are masked."""
    middle = (len(scene.product) - 1) / 2
    y, x = (places - middle for places in grid(len(scene.product)))
    down = math.cos(TURN) * y - math.sin(TURN) * x + middle
    across = math.sin(TURN) * y + math.cos(TURN) * x + middle
    inside = (np.minimum(down, across) > 0) & (np.maximum(down, across) < 2 * middle)
    whole = at(scene.opened.astype(float), np.rint(down), np.rint(across)) > 0.5
    fields = (at(field, down, across) for field in (scene.surface, scene.coherence, scene.estimated, scene.product))
    return Scene(*fields, inside & whole, scene.looks)


def scene_of(name: str, side: int) -> Scene:
    """The scene of this name."""
    try:
        kind, looks, level, how, seed = name.split("-")
        random = np.random.default_rng([int(seed), int(looks), *kind.encode()])
        ground = KINDS[kind](random, side)
        coherence = coherence_of(random, ground, int(looks), level)
        after = {"white": replace, "wide": replace, "smoothed": smoothed, "turned": turned}[how]
    except (KeyError, ValueError) as error:
        raise Trouble(f"{name} is no KIND-LOOKS-LEVEL-NOISE-SEED; --help tells them", REFUSED_WORDS) from error
    return after(looked(random, ground, coherence, int(looks), how == "wide"))


# Ways to unwrap


def session_for(scene: Scene) -> bytes:
    planes = scene.planes()
    return session_of(planes.phase, planes.weights, planes.opened)


def unwrapped(scene: Scene, **words: Any) -> Field:
    return unwrap(scene.product, scene.estimated, mask=scene.opened, check=False, **words).values


def by_default(scene: Scene) -> Field:
    return unwrapped(scene)


def by_narrow(scene: Scene) -> Field:
    return unwrapped(scene, narrow=True)


def by_least(scene: Scene) -> Field:
    return solve(session_for(scene), Settings(None), check=False).surface.values


def by_tiles(scene: Scene) -> Field:
    return solve(session_for(scene), Settings(128), check=False).surface.values


def by_skimage(scene: Scene) -> Field:
    from skimage.restoration import unwrap_phase

    found = unwrap_phase(np.ma.array(np.angle(scene.product), mask=~scene.opened))
    return np.where(scene.opened, np.ma.filled(found, 0) * (CYCLE / (2 * math.pi)), 0)


def by_snaphu(scene: Scene) -> Field:
    with tempfile.TemporaryDirectory() as folder:
        return snaphu_in(Path(folder), scene)


def snaphu_in(folder: Path, scene: Scene, **more: str) -> Field:
    """SNAPHU by its smooth costs and the start that its manual prefers, in a folder. Its looks are those of the estimate."""
    parts = {"igram": np.where(scene.opened, scene.product, 0).astype(np.complex64)}
    parts.update(corr=scene.estimated.astype(np.float32), mask=scene.opened.astype(np.uint8))
    for name, values in parts.items():
        values.tofile(folder / name)
    words = {"INFILE": "igram", "OUTFILE": "out", "CORRFILE": "corr", "BYTEMASKFILE": "mask", **more}
    words.update(LINELENGTH=str(scene.product.shape[1]), STATCOSTMODE="SMOOTH", INITMETHOD="MST")
    words.update(INFILEFORMAT="COMPLEX_DATA", OUTFILEFORMAT="FLOAT_DATA", CORRFILEFORMAT="FLOAT_DATA")
    words.update(NCORRLOOKS=str(scene.looks * WINDOW[scene.looks] ** 2))
    (folder / "words").write_text("".join(f"{name} {value}\n" for name, value in words.items()))
    subprocess.run([SNAPHU, "-f", "words"], cwd=folder, check=True, capture_output=True)
    found = np.fromfile(folder / "out", dtype=np.float32).reshape(scene.product.shape)
    return found.astype(float) * (CYCLE / (2 * math.pi))


SNAPHU = shutil.which("snaphu") or ""


def ways() -> Dict[str, Callable[[Scene], Field]]:
    """The ways that are found here."""
    found = {"no filter": by_least, "default": by_default, "narrow": by_narrow, "tiles, no filter": by_tiles}
    if find_spec("skimage"):
        found["scikit-image"] = by_skimage
    return {**found, "SNAPHU": by_snaphu} if SNAPHU else found


# What is wrong


def wrong_cycles(scene: Scene, values: Field) -> Field:
    """The whole cycles by which a surface is off at each open pixel, those of its coherent pixels' commonest level aside."""
    cycles = np.rint(np.where(scene.opened, values, 0) / CYCLE - scene.surface).astype(np.int64)
    pieces, coherent = pieces_of(scene.opened), scene.opened & (scene.coherence > COHERENT)
    levels = commonest(cycles, pieces)
    levels[np.unique(pieces[coherent])] = commonest(cycles, np.where(coherent, pieces, -1))
    return np.where(scene.opened, cycles - levels[pieces], 0)


def shares(scene: Scene, values: Field) -> Tuple[float, float]:
    """The percentages of wrong pixels: of the coherent ones, and of all open ones."""
    off = wrong_cycles(scene, values) != 0
    coherent = scene.opened & (scene.coherence > COHERENT)
    return 100 * float(off[coherent].mean()), 100 * float(off[scene.opened].mean())


SCENES = (
    "volcano-4-hard-white-9601 volcano-20-hard-smoothed-9602 volcano-1-medium-turned-9603 "
    "hills-4-hard-white-9604 hills-1-medium-white-9605 hills-4-hard-wide-9606 "
    "turbulence-4-hard-white-9607 turbulence-20-medium-white-9608 turbulence-4-hard-turned-9609 "
    "rupture-4-hard-white-9610 rupture-20-hard-white-9611 rupture-4-medium-wide-9612 "
    "glacier-4-hard-white-9613 glacier-20-hard-white-9614 glacier-4-hard-turned-9615 "
    "bowls-4-hard-white-9616 bowls-20-hard-wide-9617 bowls-4-medium-smoothed-9618 "
    "islands-4-medium-white-9619 islands-20-hard-white-9620 islands-4-medium-turned-9621 "
    "layover-4-medium-white-9622 layover-20-hard-white-9623 layover-4-medium-smoothed-9624 "
    "peaks-4-clear-white-9625 peaks-4-medium-white-9626 peaks-20-medium-turned-9627 "
    "fault-4-clear-white-9628 fault-4-medium-wide-9629 fault-4-medium-turned-9630"
).split()


# Of the default on scenes of GUARD_SIDE by GUARD_SIDE pixels: the percentages as they were measured.
GUARD_SIDE, GUARD_MARGIN = 256, 1.1
GUARD = {
    "hills-4-hard-white-9104": (0.316, 1.349),
    "rupture-4-hard-white-9110": (0.210, 1.096),
    "glacier-4-hard-white-9113": (0.259, 1.648),
    "islands-20-hard-white-9120": (0.086, 2.646),
    "fault-4-medium-wide-9129": (0.343, 0.508),
    "peaks-4-medium-white-9126": (1.121, 1.242),
}


def row_of(name: str, cells: List[str]) -> str:
    return f"| {name} | " + " | ".join(cells) + " |"


def pair(numbers: Tuple[float, ...]) -> str:
    return f"{numbers[0]:.2f} / {numbers[1]:.2f}"


def tried(scene: Scene, way: Callable[[Scene], Field]) -> Tuple[float, float, float]:
    """The percentages of wrong pixels, and seconds."""
    start = time.perf_counter()
    values = way(scene)
    seconds = time.perf_counter() - start
    return (*shares(scene, values), seconds)


def guarded() -> int:
    """Whether the default is as right as it was, told by a row for each scene; a status."""
    print(row_of("Scene", ["default", "as it was"]) + "\n|---|---|---|")
    worse = []
    for name, known in GUARD.items():
        scene = scene_of(name, GUARD_SIDE)
        found = shares(scene, by_default(scene))
        print(row_of(name, [pair(found), pair(known)]), flush=True)
        worse += [name for share, was in zip(found, known) if share > GUARD_MARGIN * was]
    if worse:
        print(f"{len(set(worse))} scenes are worse by more than a tenth")
    return DISAGREES if worse else 0


def main() -> int:
    words = argparse.ArgumentParser(description=__doc__, formatter_class=argparse.RawDescriptionHelpFormatter)
    words.add_argument("--side", type=int, default=SIDE, help="pixels along a side of a scene (default: 512)")
    words.add_argument("--guard", action="store_true", help="judge six small scenes")
    words.add_argument("names", nargs="*", metavar="NAME", help="of scenes (default: thirty)")
    asked = words.parse_args()
    warnings.simplefilter("ignore")  # that parts of a scene do not touch is known
    if asked.guard:
        return guarded()
    found = ways()
    print(row_of("Scene", list(found)) + "\n|" + "---|" * (len(found) + 1), flush=True)
    results = []
    for name in asked.names or SCENES:
        scene = scene_of(name, asked.side)
        results.append([tried(scene, way) for way in found.values()])
        print(row_of(name, [pair(numbers) for numbers in results[-1]]), flush=True)
    means = np.mean(results, axis=0)
    print(row_of(f"mean of {len(results)}", [pair(numbers) for numbers in means]))
    print(row_of("seconds, mean", [f"{numbers[2]:.2f}" for numbers in means]))
    return 0


if __name__ == "__main__":
    run_main(main)
