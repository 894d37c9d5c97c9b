#!/usr/bin/python3
"""Makes the interferograms of a network to try loops on: make_network.py [--acquisitions N] [--side PIXELS] FOLDER.

There are four acquisitions, twelve days apart, and the six pairs of at most three steps of them, each a folder FOLDER/FIRST_SECOND
with phase.tif and coherence.tif of 60 by 50 pixels in UTM zone 33 north. An acquisition's phase is a slope of its own and a source
that grows. In the pair 20230113_20230125 a lake without coherence cuts off an island of 12 by 10 pixels, whose whole cycles are
arbitrary: its two loops of three are misclosed there. Of more acquisitions the slopes are random, and each seventh pair of one step
has such a lake: 60 have 174 pairs and 172 loops.
"""
import argparse
import itertools
import math
import sys
from datetime import date, timedelta
from pathlib import Path
from typing import List, Tuple

import numpy as np
from osgeo import gdal

sys.path.insert(0, str(Path(__file__).resolve().parent))
from make import run_main, write  # the rasters' writer of the kit

SHAPE = (50, 60)
RATES = [(0, 0), (0.02, 0.05), (0.2, -0.1), (-0.04, 0.1)]  # of the four acquisitions, in cycles a pixel
STEEPEST = 0.1  # of the rates of others
FIRST, DAYS, STEPS = date(2023, 1, 1), 12, 3
CUT, EVERY = 1, 7  # the first pair of one step with a lake, and how far apart the others are
ISLAND, LAKE = np.s_[20:30, 40:52], np.s_[8:42, 26:60]
Pair = Tuple[int, int]


def rates_of(count: int) -> List[Tuple[float, float]]:
    """The slopes of so many acquisitions, across and down."""
    more = np.random.default_rng(count).uniform(-STEEPEST, STEEPEST, (max(count - len(RATES), 0), 2))
    return [*RATES, *map(tuple, more.tolist())][:count]


def cycles_of(rate: Tuple[float, float], number: int, shape: Tuple[int, int]) -> np.ndarray:
    """The phase of an acquisition, not wrapped, in cycles; (rows, columns)."""
    y, x = np.mgrid[: shape[0], : shape[1]]
    source = number * 0.8 * np.exp(-((x - 20) ** 2 + (y - 30) ** 2) / 200)
    found: np.ndarray = rate[0] * x + rate[1] * y + source
    return found


def coherence_of(pair: Pair, shape: Tuple[int, int]) -> np.ndarray:
    coherence = np.full(shape, 0.9)
    coherence[:5, :5] = 0.2
    if pair[1] - pair[0] == 1 and pair[0] % EVERY == CUT:
        coherence[LAKE] = math.nan
        coherence[ISLAND] = 0.9
    return coherence


def main() -> int:
    words = argparse.ArgumentParser(description=__doc__, formatter_class=argparse.RawDescriptionHelpFormatter)
    words.add_argument("folder", type=Path, help="it is made if it is not there")
    words.add_argument("--acquisitions", type=int, default=len(RATES), metavar="N", help=f"(default: {len(RATES)})")
    words.add_argument("--side", type=int, metavar="PIXELS", help="of square rasters (default: 60 by 50 pixels)")
    asked = words.parse_args()
    shape = (asked.side, asked.side) if asked.side else SHAPE
    names = [(FIRST + timedelta(days=DAYS * number)).strftime("%Y%m%d") for number in range(asked.acquisitions)]
    phases = [cycles_of(rate, number, shape) for number, rate in enumerate(rates_of(asked.acquisitions))]
    for pair in itertools.combinations(range(asked.acquisitions), 2):
        if pair[1] - pair[0] > STEPS:
            continue
        folder = asked.folder / "_".join(names[number] for number in pair)
        folder.mkdir(parents=True, exist_ok=True)
        cycles = phases[pair[1]] - phases[pair[0]]
        write(folder / "phase.tif", np.angle(np.exp(2j * math.pi * cycles)), gdal.GDT_Float32)
        write(folder / "coherence.tif", coherence_of(pair, shape), gdal.GDT_Float32)
    return 0


if __name__ == "__main__":
    gdal.UseExceptions()
    run_main(main)
