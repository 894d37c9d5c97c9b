"""Weights from coherence: linear, or by the variance of the phase for a number of looks. NumPy alone.

A coherence c of L looks leaves the phase a variance. Three formulas for it are known:

  cramer-rao   (1 - c^2) / (2 L c^2), the bound that many looks reach (Rodriguez and Martin, IEE Proceedings F 139(2), 1992)
  single-look  pi^2/3 - pi asin c + asin^2 c - Li2(c^2) / 2, of one look (Bamler and Hartl, Inverse Problems 14, 1998)
  multi-look   the variance of the distribution for L looks (Lee, Hoppel, Mango and Miller, IEEE TGRS 32(5), 1994)

A weight is the inverse of the variance, up to one factor, rounded, from 1 to 65535.
"""
import math
from argparse import ArgumentParser
from functools import lru_cache
from typing import Callable, Dict, Optional

import numpy as np

LINEAR_HIGHEST, HIGHEST = 255, 65535
LEAST_WEIGHT = 8  # of a coherence of 0, whose variance is that of any angle, pi^2/3
HALF_RADIAN = round(LEAST_WEIGHT * (math.pi**2 / 3) / 0.5**2)  # the weight by looks of a phase that is off by so much
STEPS = 512  # of an integral
OFFSETS, OFFSET = 1001, 0.02  # a table and its step
KNOTS = 1024  # of coherence, between which weights are interpolated

Formula = Callable[[np.ndarray, float], np.ndarray]


def cramer_rao(coherence: np.ndarray, looks: float) -> np.ndarray:
    """The bound, and at most the variance of any angle."""
    squared = np.maximum(coherence, 1e-6) ** 2
    return np.minimum((1 - squared) / (2 * looks * squared), math.pi**2 / 3)


def dilogarithm(x: np.ndarray) -> np.ndarray:
    """Li2 at numbers from 0 to 1, by its series below a half and Euler's reflection above."""
    near, numbers = np.minimum(x, 1 - x), np.arange(1, 61)
    series = (near[..., None] ** numbers / numbers**2).sum(axis=-1)
    with np.errstate(divide="ignore", invalid="ignore"):
        logs = np.nan_to_num(np.log(x) * np.log1p(-x), nan=0.0, posinf=0.0, neginf=0.0)
    return np.where(x > 0.5, math.pi**2 / 6 - logs - series, series)


def single_look(coherence: np.ndarray, looks: float = 1) -> np.ndarray:
    """Of one look, whatever `looks` is."""
    angle = np.arcsin(coherence)
    return math.pi**2 / 3 - math.pi * angle + angle**2 - dilogarithm(coherence**2) / 2


@lru_cache(maxsize=1)
def offset_variances() -> np.ndarray:
    """The variance of the angle of a normal number of two parts of deviation 1, whose mean is m times OFFSET above 0."""
    offset = np.arange(OFFSETS)[:, None] * OFFSET
    phase = (np.arange(STEPS) + 0.5) * math.pi / STEPS
    along = offset * np.cos(phase)
    below = 0.5 * (1 + np.vectorize(math.erf)(along / math.sqrt(2)))
    found = np.exp(-(offset**2) / 2) / (2 * math.pi)
    found = found + along / math.sqrt(2 * math.pi) * np.exp(-((offset * np.sin(phase)) ** 2) / 2) * below
    variances: np.ndarray = (found * phase**2).sum(axis=1) / found.sum(axis=1)
    return variances


def multi_look(coherence: np.ndarray, looks: float) -> np.ndarray:
    """The variance of the distribution for this many looks: given the power of one image, a gamma number of this order, the sum
    of looks is normal about the coherence times this power."""
    low, high = max(0.0, looks - 8 * math.sqrt(looks)), looks + 8 * math.sqrt(looks) + 10
    power = low + (np.arange(STEPS) + 0.5) * (high - low) / STEPS
    logs = (looks - 1) * np.log(power) - power
    chance = np.exp(logs - logs.max())
    inside = np.minimum(coherence, 0.9999)[..., None]
    offset = inside * np.sqrt(2 * power / (1 - inside**2))
    near = np.interp(offset, np.arange(OFFSETS) * OFFSET, offset_variances())
    variance = np.where(offset < (OFFSETS - 1) * OFFSET, near, 1 / np.maximum(offset, 1) ** 2)
    found: np.ndarray = (variance * chance).sum(axis=-1) / chance.sum()
    return found


FORMULAS: Dict[str, Formula] = {"cramer-rao": cramer_rao, "single-look": single_look, "multi-look": multi_look}


@lru_cache(maxsize=8)
def table_of(looks: float, formula: str) -> np.ndarray:
    """The weights of coherences at equal steps from 0 to 1."""
    coherence = np.linspace(0, 1, KNOTS)
    variance = np.maximum(FORMULAS[formula](coherence, looks), 1e-9)
    return np.clip(LEAST_WEIGHT * (math.pi**2 / 3) / variance, 1, HIGHEST)


def weights_of(coherence: np.ndarray, looks: Optional[float] = None, formula: str = "multi-look") -> np.ndarray:
    """Weights of coherence from 0 to 1; uint16. Not finite: 1.

    Without looks they are 255 times the coherence, and at least 1.
    """
    known = np.isfinite(coherence)
    inside = np.clip(np.where(known, coherence, 0), 0, 1)
    if looks is None:
        return np.maximum(np.rint(LINEAR_HIGHEST * inside), 1).astype(np.uint16)
    found = np.interp(inside, np.linspace(0, 1, KNOTS), table_of(float(looks), formula))
    return np.where(known, np.rint(found), 1).astype(np.uint16)


def highest_of(looks: Optional[float]) -> int:
    """The maxval of a plane of such weights."""
    return LINEAR_HIGHEST if looks is None else HIGHEST


def unit_of(highest: int) -> int:
    """What a margin of costs is a share of, by the maxval of the weights: that, or of weights by looks, which hardly ever come near
    it, HALF_RADIAN."""
    return HALF_RADIAN if highest == HIGHEST else highest


def add_weight_words(words: ArgumentParser) -> None:
    words.add_argument(
        "--looks",
        type=float,
        metavar="L",
        help="weigh by the variance of the phase of so many independent looks (default: weights linear in coherence)",
    )
