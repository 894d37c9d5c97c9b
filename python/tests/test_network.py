"""Tests scenes that are screened, and the loops of a network: four acquisitions, six interferograms, four loops of three."""
import csv
import itertools
import os
import re
import subprocess
import sys
import unittest
from typing import List, Tuple

import numpy as np
from helpers import HERE, InFolder, argv, command
from osgeo import gdal

from wundjeska.commands.closure import NO_CYCLES
from wundjeska.network_picture import network_of
from wundjeska.networks import pair_of, triplets_of
from wundjeska.program import program

SHAPE = (50, 60)
ISLAND = np.s_[20:30, 40:52]  # cut off in the pair of the second and third acquisition
LAKE = SHAPE[0] * SHAPE[1] - 34 * 34  # pixels outside the lake
DATES = ["20230101", "20230113", "20230125", "20230206"]


class Network(InFolder):
    def setUp(self) -> None:
        super().setUp()
        program()
        self.scenes = self.folder / "a network"
        subprocess.run([sys.executable, HERE / "kit/make_network.py", self.scenes], check=True)

    def run_all(self, *words: str) -> Tuple[int, str]:
        ran = subprocess.run(argv("scenes", self.scenes, *words), capture_output=True, text=True, timeout=400)
        return ran.returncode, ran.stdout + ran.stderr

    def names(self) -> List[str]:
        return ["_".join(dates) for dates in itertools.combinations(DATES, 3)]

    def read(self, name: str, file: str = "misclosed.tif") -> np.ndarray:
        found: np.ndarray = gdal.Open(str(self.scenes / "closures" / name / file)).ReadAsArray()
        return found

    def test_four_loops(self) -> None:
        status, told = self.run_all("--config", "closure=yes")
        self.assertEqual(status, 0, told)
        self.assertIn("6 of 6 scenes are accepted and have their surface, 0 failed\n", told)
        self.assertIn("4 of 4 loops have their closures, 2 with misclosed pixels\n", told)
        pixels = SHAPE[0] * SHAPE[1]
        for name in self.names():
            cycles, closures = self.read(name), self.read(name, "closures.tif")
            known = cycles != NO_CYCLES
            np.testing.assert_array_equal(known, closures != -9999)
            self.assertLess(np.abs(closures[known] - cycles[known]).max(), 3 / 65536)
            if DATES[1] in name and DATES[2] in name:
                self.assertEqual((len(np.unique(cycles[ISLAND])), cycles[ISLAND].any()), (1, True))
                cycles[ISLAND] = 0
                self.assertEqual((known.sum(), cycles[known].any()), (LAKE + 120, False))
                line = (
                    f"{name}: {LAKE + 120} pixels have a closure, 120 (6.11 %) are misclosed in 1 patch, 120 pixels at "
                )
                self.assertIn(f"{line}column 40, row 20, by ", told)
                place = "first" if name.startswith(DATES[1]) else "second"
                page = (self.scenes / "closures" / name / "page.html").read_text()
                self.assertIn(f"the loop says to raise part 2 of the {place} surface by ", page)
            else:
                self.assertEqual((known.all(), cycles.any()), (True, False))
                self.assertIn(f"{name}: {pixels} pixels have a closure, none is misclosed\n", told)
            page = (self.scenes / "closures" / name / "page.html").read_text()
            self.assertIn(f"{name[:17]}/cycles.tif: accepted", page)
        self.check_whole(pixels)
        stood = {path: path.stat().st_mtime_ns for path in self.scenes.glob("closures/*/*.tif")}
        self.assertEqual(len(stood), 8)
        status, told = self.run_all("--config", "closure=yes")
        self.assertEqual((status, {path: path.stat().st_mtime_ns for path in stood}), (0, stood))

    def check_whole(self, pixels: int) -> None:
        """What is told of the network as a whole: a line for each pair, how many loops close at each pixel, and a picture."""
        rows = list(csv.DictReader((self.scenes / "scenes.csv").open()))
        self.assertEqual([row["scene"] for row in rows], sorted("_".join(dates) for dates in itertools.combinations(DATES, 2)))
        self.assertEqual({row["state"] for row in rows}, {"accepted"})
        self.assertEqual([row["signs"] for row in rows], ["0", "0", "0", "1", "0", "0"])  # of the island that is cut off
        closed, known = gdal.Open(str(self.scenes / "closing.tif")).ReadAsArray()
        self.assertEqual((known.sum(), closed.sum()), (2 * pixels + 2 * (LAKE + 120), 2 * pixels + 2 * LAKE))
        page = (self.scenes / "scenes.html").read_text()
        self.assertEqual((page.count('<path d="M'), page.count("<circle")), (6, 4))

    def test_a_scene_that_fails(self) -> None:
        for folder in self.scenes.glob(f"{DATES[0]}_*"):
            if not folder.name.endswith(DATES[1]):
                os.rename(folder, self.folder / folder.name)
        phase = self.scenes / f"{DATES[0]}_{DATES[1]}" / "phase.tif"
        text = phase.read_bytes()
        phase.write_bytes(text[: len(text) // 2])
        status, told = self.run_all("--config", "closure=yes")
        self.assertEqual(status, 1)
        self.assertIn("3 of 4 scenes are accepted and have their surface, 1 failed\n", told)
        self.assertIn("1 of 1 loops have their closures, 1 with misclosed pixels\n", told)

    def test_no_loop(self) -> None:
        for folder in sorted(self.scenes.iterdir()):
            os.rename(folder, folder.with_name(folder.name.replace("_", " and ")))
        status, told = self.run_all("--config", "closure=yes")
        self.assertEqual((status, told.count("\n")), (3, 1), told)
        self.assertRegex(told, "no three scenes whose names are the pairs of three acquisitions")
        self.assertEqual(list(self.scenes.glob("*/cycles.tif")), [])

    def test_scenes_are_screened(self) -> None:
        for folder in sorted(self.scenes.iterdir())[1:]:
            os.rename(folder, self.folder / folder.name)
        (scene,) = self.scenes.iterdir()
        for screen, closed in (("coherence=0.5,radius=1,count=9", 36), ("patch=1", 0)):
            status, told = self.run_all("--config", f"screen={screen}")
            self.assertEqual(status, 0, told)
            made = gdal.Open(str(scene / "cycles.tif"))
            masked = made.ReadAsArray() == -9999
            self.assertEqual(bool(masked[:6, :6].all()), bool(closed))
            self.assertEqual(bool(masked[10:40, 10:50].any()), False)
            self.assertIn("weak", made.GetMetadataItem("WUNDJESKA_DROPPED"))
        status, told = self.run_all("--config", "screen=radios=1")
        self.assertEqual((status, told.count("\n")), (2, 1), told)
        self.assertRegex(told, "screen=radios=1: .*radios")


class TwelvePairs(InFolder):
    """Six acquisitions, twelve pairs and ten loops, from phases to one whole number for each part."""

    def test_a_stack(self) -> None:
        program()
        scenes = self.folder / "twelve"
        subprocess.run([sys.executable, HERE / "kit/make_network.py", "--acquisitions", "6", scenes], check=True)
        ran = subprocess.run(argv("scenes", scenes, "closure=yes", "page=no"), capture_output=True, text=True, timeout=400)
        told = ran.stdout + ran.stderr
        self.assertEqual(ran.returncode, 0, told)
        self.assertIn("12 of 12 scenes are accepted and have their surface, 0 failed\n", told)
        self.assertIn("10 of 10 loops have their closures, 3 with misclosed pixels\n", told)
        rows = list(csv.DictReader((scenes / "scenes.csv").open()))
        self.assertEqual((len(rows), {row["state"] for row in rows}), (12, {"accepted"}))
        known = gdal.Open(str(scenes / "closing.tif")).ReadAsArray()[1]
        self.assertEqual(known.max(), 10)
        status, told = command("wundjeska", "stack", scenes, "--correct", self.folder / "raised")
        self.assertEqual(status, 0, told)
        self.assertRegex(told, r"the loops say to raise 1 part; then 0 \(0.00 %\) misclose\n20230113_20230125: part 2 of 120 pixels by ")
        self.assertTrue((self.folder / "raised/20230113_20230125/cycles.tif").exists())


def test_a_picture_of_many() -> None:
    """Pairs of equal lengths are arcs of equal heights, and the longest take the whole height."""
    days = [f"{20230100 + day}" for day in range(1, 31)]
    pairs = [(f"{first}_{second}", "accepted", "") for first, second in itertools.combinations(days, 2) if int(second) - int(first) <= 2]
    tops = {round(float(top)) for top in re.findall("C[0-9.]+ (-?[0-9.]+) ", network_of(pairs))}
    assert tops == {round(220 - 1.33 * tall) for tall in (105, 190)}


def test_the_loops_of_names() -> None:
    assert [pair_of(name) for name in ("a_b", "a-b", "2023-01-01_2023-01-13")] == [
        ("a", "b"),
        ("a", "b"),
        ("2023-01-01", "2023-01-13"),
    ]
    assert [pair_of(name) for name in ("a", "a_b_c", "_b", "a-", "a-b-c", "")] == [None] * 6
    names = ["_".join(pair) for pair in itertools.combinations("1234", 2)]
    loops = {
        "_".join(dates): ("_".join(dates[:2]), "_".join(dates[1:]), f"{dates[0]}_{dates[2]}")
        for dates in itertools.combinations("1234", 3)
    }
    assert triplets_of([*names, "another", "4_1"]) == loops
    assert triplets_of(["1_2", "2_3", "3_1", "1_1"]) == {}


if __name__ == "__main__":
    unittest.main()
