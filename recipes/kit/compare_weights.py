#!/usr/bin/python3
"""Compares weights from coherence: compare_weights.py [SIDE]. It makes ten scenes of 1 to 16 looks, of SIDE by SIDE
pixels (512), and prints a table of the open pixels that are off by whole cycles from the surface that the scene was made of.

A scene is a point source (Mogi 1958), a ramp and an atmosphere with a power law, of 3 to 12 fringes. Its coherence is a random
field from 0.1 to 0.95. Each look is a pair of complex normal numbers of that coherence; the phase is that of their products'
sum. The coherence that makes the weights is estimated of 5 by 5 pixels, as analysts have it. The seed is fixed.
"""
import sys
from pathlib import Path
from typing import Tuple

import numpy as np

sys.path.insert(0, str(Path(__file__).resolve().parent.parent.parent / "python"))
from wundjeska.planes import phases_of, session_of  # noqa: E402
from wundjeska.trouble import run_main  # noqa: E402
from wundjeska.unwrapping import Settings, solve  # noqa: E402
from wundjeska.weights import FORMULAS, HIGHEST, weights_of  # noqa: E402

LOOKS = (1, 2, 3, 4, 5, 6, 8, 10, 12, 16)
WINDOW = 5


def field(random: np.random.Generator, side: int, power: float) -> np.ndarray:
    """A random field whose spectrum falls by this power, with mean 0 and deviation 1."""
    x, y = np.meshgrid(np.fft.fftfreq(side), np.fft.rfftfreq(side), indexing="ij")
    radius = np.hypot(x, y)
    radius[0, 0] = np.inf
    noise = random.normal(size=radius.shape) + 1j * random.normal(size=radius.shape)
    found = np.fft.irfft2(noise * radius ** (-power / 2), (side, side))
    return (found - found.mean()) / found.std()


def surface(random: np.random.Generator, side: int) -> np.ndarray:
    """Radians: a source, a ramp and an atmosphere."""
    y, x = np.mgrid[0:side, 0:side] / side
    u, v = random.uniform(0.3, 0.7, 2)
    depth = random.uniform(0.08, 0.2)
    source = (1 + ((x - u) ** 2 + (y - v) ** 2) / depth**2) ** -1.5
    ramp = random.uniform(-3, 3) * x + random.uniform(-3, 3) * y
    return 2 * np.pi * (random.uniform(3, 12) * source + ramp) + 1.5 * field(random, side, 8 / 3)


def looked(random: np.random.Generator, coherence: np.ndarray, looks: int) -> Tuple[np.ndarray, np.ndarray, np.ndarray]:
    """The sums over looks of the products of two images, and of their powers."""
    shape = coherence.shape
    product, first, second = np.zeros(shape, complex), np.zeros(shape), np.zeros(shape)
    for _ in range(looks):
        one, other = (random.normal(size=shape) + 1j * random.normal(size=shape) for _ in range(2))
        both = coherence * one + np.sqrt(1 - coherence**2) * other
        product += one * both.conj()
        first += np.abs(one) ** 2
        second += np.abs(both) ** 2
    return product, first, second


def boxed(values: np.ndarray) -> np.ndarray:
    """Sums over WINDOW by WINDOW pixels, less at the border."""
    padded = np.pad(values, WINDOW // 2)
    sums = np.pad(padded, ((1, 0), (1, 0))).cumsum(axis=0).cumsum(axis=1)
    return sums[WINDOW:, WINDOW:] - sums[:-WINDOW, WINDOW:] - sums[WINDOW:, :-WINDOW] + sums[:-WINDOW, :-WINDOW]


def scene(looks: int, side: int) -> Tuple[np.ndarray, np.ndarray, np.ndarray]:
    """The surface in radians, the noisy wrapped phase and the estimated coherence."""
    random = np.random.default_rng(looks)
    true = surface(random, side)
    coherence = np.clip(0.55 + 0.25 * field(random, side, 3), 0.1, 0.95)
    product, first, second = looked(random, coherence, looks)
    estimated = np.abs(boxed(product)) / np.sqrt(boxed(first) * boxed(second))
    return true, np.angle(product * np.exp(1j * true)), np.clip(estimated, 0, 1)


def wrong(true: np.ndarray, phase: np.ndarray, weights: np.ndarray) -> float:
    """The percentage of pixels that are off by whole cycles, up to one number that is the same everywhere."""
    session = session_of(phases_of(phase), weights, np.ones(true.shape, bool), highest=HIGHEST)
    values = solve(session, Settings(), check=False).surface.values
    off = np.rint(values / 65536 - true / (2 * np.pi)).astype(int)
    _, counts = np.unique(off, return_counts=True)
    return float(100 * (1 - counts.max() / off.size))


def main() -> int:
    side = int(sys.argv[1]) if sys.argv[1:] else 512
    print("| Looks | linear | " + " | ".join(FORMULAS) + " |\n|---|---|" + "---|" * len(FORMULAS))
    rows = []
    for looks in LOOKS:
        true, phase, coherence = scene(looks, side)
        rows.append([wrong(true, phase, weights_of(coherence, None))])
        rows[-1] += [wrong(true, phase, weights_of(coherence, looks, name)) for name in FORMULAS]
        print(f"| {looks} | " + " | ".join(f"{share:.2f} %" for share in rows[-1]) + " |", flush=True)
    print("| mean | " + " | ".join(f"{share:.2f} %" for share in np.mean(rows, axis=0)) + " |")
    return 0


if __name__ == "__main__":
    run_main(main)
