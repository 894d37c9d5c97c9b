"""Tests one whole number for each part of a stack: the least cost beside that of all numbers, what is doubted, and the verb `stack` on
a folder whose surfaces were raised by known numbers."""
import contextlib
import io
import itertools
import sys
import time
import unittest
from dataclasses import replace
from pathlib import Path
from typing import Dict, List, Tuple
from unittest import mock

import numpy as np
import pytest
from helpers import InFolder, Told, command, raster
from osgeo import gdal

from wundjeska.command import run
from wundjeska.stack_cycles import CHANGE, LEVEL, Equations, least, raised_of
from wundjeska.stack_loops import Stack, loop_of
from wundjeska.stack_slips import Slip
from wundjeska.trouble import Trouble

SHAPE = (40, 50)
DATES = [f"2023010{number}" for number in range(1, 7)]
PAIRS = [pair for pair in itertools.combinations(DATES, 2) if int(pair[1]) - int(pair[0]) <= 3]  # twelve
ISLAND, SHORE = np.s_[5:15, 8:20], np.s_[:, 40:]
# What is wrong: of each pair the place, and by how many cycles it lies too low.
WRONG = {("20230102", "20230103"): (ISLAND, 2), ("20230103", "20230106"): (SHORE, -1), ("20230104", "20230105"): (ISLAND, 1)}


def equations(*rows: Tuple[int, int, int, int, int], sizes: Tuple[int, ...]) -> Equations:
    """Rows are the three parts, the cycles and the pixels; no part has a level."""
    columns = np.array(rows, dtype=np.int64).T
    return Equations(columns[:3], columns[3], columns[4], np.array(sizes, dtype=np.int64), np.full(len(sizes), -1))


def least_of_all(system: Equations, most: int) -> float:
    """The least cost of all numbers up to `most` and of all levels, in plain Python."""
    rows = list(zip(*system.parts.tolist(), system.cycles.tolist(), system.pixels.tolist()))
    pairs = [np.flatnonzero(system.pairs == pair).tolist() for pair in range(-1, int(system.pairs.max()) + 1)]

    def change(pair: int, k: Tuple[int, ...]) -> float:
        levels = range(-most, most + 1) if pair else [0]
        sizes = [(part, CHANGE * int(system.sizes[part])) for part in pairs[pair]]
        return min(sum(size * abs(k[part] - level) for part, size in sizes) + LEVEL * abs(level) for level in levels)

    return min(
        sum(pixels for a, b, c, cycles, pixels in rows if k[a] + k[b] - k[c] + cycles) + sum(change(pair, k) for pair in range(len(pairs)))
        for k in itertools.product(range(-most, most + 1), repeat=len(system.sizes))
    )


def test_the_least_cost_of_all_numbers() -> None:
    """Of parts that all meet, without levels and of three pairs."""
    dice, ring = np.random.default_rng(1), [(0, 1, 2), (1, 2, 3), (2, 3, 4), (0, 2, 4), (4, 3, 1), (0, 3, 2)]
    for pairs in ([-1] * 5, [0, 1, 2, 0, 1]) * 4:
        columns = np.array(ring).T, np.append(dice.integers(-2, 3, 5), 2), dice.integers(20, 400, 6), dice.integers(100, 3000, 5)
        system = Equations(*columns, np.array(pairs))
        (group,) = system.groups()
        found = least(group.equations, 60)
        assert found is not None
        assert system.cost(*found) == pytest.approx(least_of_all(system, 2))


def test_what_is_doubted() -> None:
    """One loop does not say which of three alike parts is wrong. A second one that has the third part alone with it does, and a part
    that would have to be raised for fewer pixels than that costs stays."""
    one = raised_of(equations((0, 1, 2, -1, 100), sizes=(100, 100, 100)), 0)
    assert (np.abs(one.numbers).sum(), one.doubted.tolist()) == (1, (one.numbers != 0).tolist())
    two = raised_of(equations((0, 1, 2, -1, 100), (3, 4, 2, -1, 100), sizes=(100,) * 5), 0)
    assert (two.numbers.tolist(), bool(two.doubted.any())) == ([0, 0, -1, 0, 0], False)
    few = raised_of(equations((0, 1, 2, 1, 30), sizes=(2000, 2000, 2000)), 0)
    assert not (few.numbers.any() or few.doubted.any())


def test_groups_that_close_are_left_out() -> None:
    system = equations((0, 1, 2, 0, 50), (3, 4, 5, 0, 50), (3, 4, 6, 1, 50), sizes=(100,) * 7)
    (group,) = system.groups()
    found = group.equations
    assert (group.parts.tolist(), found.cycles.tolist(), found.parts.tolist()) == ([3, 4, 5, 6], [0, 1], [[0, 0], [1, 1], [2, 3]])


def test_levels() -> None:
    """Parts 0 to 2 are the largest of three pairs, 3 and 4 are others of the first, of which 4 meets none. The loop misses a cycle
    everywhere, which a level makes up for, and no part is raised besides."""
    system = replace(equations((0, 1, 2, -1, 900), (3, 1, 2, -1, 400), sizes=(900, 9000, 9000, 400, 70)), pairs=np.array([0, 1, 2, 0, 0]))
    found = raised_of(system, 3)
    assert (np.abs(found.levels).sum(), found.numbers.tolist(), bool(found.doubted.any())) == (1, [0] * 5, False)


def test_the_equations_of_a_loop() -> None:
    """Where three parts meet the commonest cycles count, if there are 20 pixels of them; pixels in no part are counted, too."""
    labels = np.repeat([1, 2, 0], [60, 30, 10]).reshape(10, 10)
    ones, cycles = np.ones((10, 10), np.int64), np.repeat([1, 0, 3, 2, 1], [40, 20, 15, 15, 10]).reshape(10, 10)
    stack = Stack([loop_of([0, 1, 2], [labels, ones, ones], cycles, np.ones((10, 10), bool))], [np.array([60, 30]), *[np.array([100])] * 2])
    found = stack.equations(np.zeros(3, np.int64))
    assert (found.parts.T.tolist(), found.cycles.tolist(), found.pixels.tolist()) == ([[0, 2, 3]], [1], [40])
    assert stack.misclosed(np.zeros(3, np.int64), np.array([-1, 0, 0, 0])) == 20 + 30 + 10


def test_a_group_that_takes_too_long() -> None:
    found = raised_of(equations((0, 1, 2, -1, 100), (3, 4, 2, -1, 100), sizes=(100,) * 5), 0, seconds=1e-9)
    assert (found.late, found.numbers.tolist()) == (1, [0] * 5)


def test_a_search_that_does_not_keep_its_time() -> None:
    system = equations((0, 1, 2, 1, 10), sizes=(5, 5, 5))
    with mock.patch("wundjeska.stack_cycles.search", lambda *given: time.sleep(60)), mock.patch("wundjeska.stack_cycles.GRACE", 0.1):
        began = time.monotonic()
        assert least(system, 0.1) is None
        assert time.monotonic() - began < 10


def test_a_machine_without_scipy() -> None:
    with mock.patch.dict(sys.modules, {"scipy": None}), pytest.raises(Trouble, match="python3-scipy$"):
        raised_of(equations((0, 1, 2, 1, 30), sizes=(100, 100, 100)), 0)


class Folder(InFolder):
    """A stack of twelve pairs, ten loops of which were closed."""

    def setUp(self) -> None:
        super().setUp()
        self.stack, self.made = self.folder / "stack", self.folder / "raised"
        y, x = np.mgrid[: SHAPE[0], : SHAPE[1]]
        heights = {date: 0.03 * number * x - 0.01 * number**2 * y for number, date in enumerate(DATES)}
        self.truth = {pair: (heights[pair[1]] - heights[pair[0]]).astype(np.float32) for pair in PAIRS}
        labels = np.ones(SHAPE, np.uint32)
        labels[ISLAND], labels[SHORE], labels[:, 38:40] = 3, 2, 0
        for pair, values in self.truth.items():
            place = self.place(pair)
            place.mkdir(parents=True)
            low = values + (4 if pair == (DATES[0], DATES[2]) else 0)  # a level
            where, cycles = WRONG.get(pair, (ISLAND, 0))
            low[where] -= cycles
            raster(place / "cycles.tif", low, gdal.GDT_Float32, -9999)
            told = gdal.Open(str(place / "cycles.tif"), gdal.GA_Update)
            told.SetMetadata({"WUNDJESKA_UNIT": "cycles", "WUNDJESKA_VERDICT": "accepted"})
            told.FlushCache()
            raster(place / "components.tif", labels, gdal.GDT_UInt32, 0)
        for dates in itertools.combinations(DATES, 3):
            self.close(*dates)

    def place(self, pair: Tuple[str, str]) -> Path:
        return self.stack / "_".join(pair)

    def close(self, first: str, second: str, third: str) -> None:
        """Closes a loop, if there is one, as `scenes` does."""
        pairs = [(first, second), (second, third), (first, third)]
        if not set(pairs) <= set(PAIRS):
            return
        place = self.stack / "closures" / f"{first}_{second}_{third}"
        place.mkdir(parents=True)
        surfaces = [self.place(pair) / "cycles.tif" for pair in pairs]
        self.assertEqual(run("closure", [*map(str, surfaces), "--reference-auto", str(place / "misclosed.tif")]), 0)
        (place / "closed.txt").touch()

    def run_on(self, *words: object) -> Told:
        return command("wundjeska", "stack", self.stack, *words)

    def read(self, folder: Path) -> Dict[Tuple[str, str], np.ndarray]:
        paths = {pair: folder / "_".join(pair) / "cycles.tif" for pair in PAIRS}
        return {pair: gdal.Open(str(path)).ReadAsArray() for pair, path in paths.items() if path.exists()}

    def test_a_stack(self) -> None:
        stood = {path: path.read_bytes() for path in self.stack.rglob("*.tif")}
        status, told = self.run_on("--correct", self.made)
        self.assertEqual(status, 0, told)
        for line in (
            "raised everywhere first: 20230101_20230103 by -4",
            "10 loops of 12 pairs: 1520 (7.60 %) of 20000 pixels misclose",  # 120 in 3 loops, 120 in 3 and 400 in 2
            "the loops say to raise 3 parts; then 0 (0.00 %) misclose",
            "20230103_20230106: part 2 of 400 pixels by -1",
            "20230102_20230103: part 3 of 120 pixels by +2",
            "20230104_20230105: part 3 of 120 pixels by +1",
            "no proof or certificate says that these numbers are right",
        ):
            self.assertIn(line + "\n", told)
        made = self.read(self.made)
        self.assertEqual(set(made), {*WRONG, (DATES[0], DATES[2])})
        for pair, values in made.items():
            np.testing.assert_allclose(values, self.truth[pair], atol=1e-4)
            found = gdal.Open(str(self.made / "_".join(pair) / "cycles.tif"))
            self.assertIn("no proof or certificate", found.GetMetadataItem("WUNDJESKA_VERDICT"))
        self.assertEqual({path: path.read_bytes() for path in self.stack.rglob("*.tif")}, stood)
        status, told = self.run_on("--correct", self.made)
        self.assertEqual((status, told.count("\n"), "has files" in told), (2, 1, True), told)

    def test_where_the_ground_slipped(self) -> None:
        """No part near is raised, unless that is asked for; levels are."""
        slip = Slip(DATES[2], DATES[3], 640, 520, np.ones(len(PAIRS), bool))
        cases: List[Tuple[List[str], List[Tuple[str, str]], str]] = [
            ([], [], "no part of 12 pairs across or near is raised, unless --slips\n"),
            (["--slips"], list(WRONG), "they are raised all the same\n"),
        ]
        for words, pairs, line in cases:
            told, made = io.StringIO(), self.folder / f"raised{len(words)}"
            with mock.patch("wundjeska.commands.stack.slips_of", return_value=[slip]), contextlib.redirect_stdout(told):
                self.assertEqual(run("stack", [str(self.stack), "--correct", str(made), *words]), 0)
            self.assertIn(f"between {DATES[2]} and {DATES[3]}: 520 of 640 pixels to be raised in pairs across are doubted; {line}", told.getvalue())
            self.assertEqual(set(self.read(made)), {*pairs, (DATES[0], DATES[2])})

    def refused(self, *words: object) -> str:
        status, told = self.run_on(*words)
        self.assertEqual((status != 0, told.count("\n"), self.made.exists()), (True, 1, False), told)
        return told

    def test_mistakes(self) -> None:
        self.assertIn("above 0", self.refused("--seconds", 0))
        self.assertIn("no folder", self.refused("--correct", self.folder / "none" / "raised"))
        parts = self.place(PAIRS[1]) / "components.tif"
        kept = parts.read_bytes()
        raster(parts, np.ones((5, 6), np.uint32), gdal.GDT_UInt32, 0)
        self.assertIn("6 by 5 pixels", self.refused("--correct", self.made))
        parts.unlink()
        self.assertIn("components.tif", self.refused("--correct", self.made))
        parts.write_bytes(kept)
        for note in self.stack.glob("closures/*/closed.txt"):
            note.unlink()
        self.assertIn("closure=yes` makes them", self.refused("--correct", self.made))
        for folder in sorted(self.stack.glob("*_*"))[1:]:
            folder.rename(self.folder / folder.name)
        self.assertIn("no three scenes", command("wundjeska", "stack", self.stack)[1])


if __name__ == "__main__":
    unittest.main()
