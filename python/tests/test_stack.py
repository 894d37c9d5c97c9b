"""Tests the keys of `scenes` for a real stack: names with {pair}, masks, NODATA, units, and the page of all scenes."""
import os
import re
import subprocess
import unittest
from pathlib import Path
from typing import Any, Dict, List, Tuple

import numpy as np
from helpers import InFolder, argv, command, raster
from osgeo import gdal

from wundjeska import scene_words
from wundjeska.program import program
from wundjeska.scene_words import scenes_in, wanted
from wundjeska.stack import lines_on_scenes, scene_of
from wundjeska.trouble import Trouble

SHAPE = (60, 80)
NOISE = "20230101_20230125"
BARE: Dict[str, Any] = {"place": None, "epsg": None}  # of rasters in radar geometry


def slope(rate: float) -> np.ndarray:
    """A phase that rises to the right, complex."""
    y, x = np.mgrid[: SHAPE[0], : SHAPE[1]]
    return np.exp(2j * np.pi * (rate * x + 0.01 * y)).astype(np.complex64)


class Stack(InFolder):
    def setUp(self) -> None:
        super().setUp()
        program()
        self.stack = self.folder / "merged"
        self.water = np.ones(SHAPE, np.uint8)
        self.water[:, 30:34] = 0
        raster(self.folder / "plain.tif", self.water, gdal.GDT_Byte, **BARE)
        dice = np.random.default_rng(3)
        for number, pair in enumerate(("20230101_20230113", "20230113_20230125", NOISE)):
            folder = self.stack / pair
            folder.mkdir(parents=True)
            phase = np.exp(1j * dice.uniform(0, 7, SHAPE)) if pair == NOISE else slope(0.03 + 0.02 * number)
            phase[:3] = 0
            self.isce(folder / "filt_fine.int", [phase], gdal.GDT_CFloat32)
            self.isce(folder / "filt_fine.cor", [np.ones(SHAPE), np.full(SHAPE, 0.8)], gdal.GDT_Float32)
            raster(folder / "water.tif", self.water, gdal.GDT_Byte, **BARE)

    def isce(self, path: Path, bands: "list[np.ndarray]", kind: int) -> None:
        """A raw file with a VRT beside it, as ISCE has them."""
        made = gdal.GetDriverByName("ENVI").Create(str(path), SHAPE[1], SHAPE[0], len(bands), kind, ["SUFFIX=ADD"])
        for number, band in enumerate(bands, 1):
            made.GetRasterBand(number).WriteArray(band)
        made = None
        gdal.Translate(f"{path}.vrt", str(path), format="VRT")

    def run_in(self, folder: Path, *words: str) -> Tuple[int, str]:
        ran = subprocess.run(argv("scenes", folder, *words), capture_output=True, text=True, timeout=400)
        return ran.returncode, ran.stdout + ran.stderr

    def run_all(self, *words: str) -> Tuple[int, str]:
        return self.run_in(self.stack, *words)

    NAMES = ("igram={pair}/filt_fine.int", "coherence={pair}/filt_fine.cor", "coherence_band=2")

    def test_a_stack_by_names(self) -> None:
        status, told = self.run_all(*self.NAMES, "mask={pair}/water.tif", "unit=radians", "closure=yes")
        self.assertEqual(status, 0, told)
        self.assertIn("3 of 3 scenes are accepted and have their surface, 0 failed\n1 of 1 loops have their closures", told)
        self.assertIn("\nscenes.html leads to all of them\n", told)
        for folder in self.stack.glob("2023*"):
            made = gdal.Open(str(folder / "cycles.tif"))
            self.assertEqual(made.GetRasterBand(1).GetUnitType(), "radians")
            values = made.ReadAsArray()
            masked = values == -9999
            self.assertTrue(masked[:, 30:34].all() and masked[:3].all() and not masked[3:, :30].any())
            phase = gdal.Open(str(folder / "filt_fine.int")).ReadAsArray()
            turns = (values - np.angle(phase))[~masked] / (2 * np.pi)
            np.testing.assert_allclose(turns, np.rint(turns), atol=1e-4)
            self.assertTrue((folder / "page.html").exists())

    def test_one_mask_for_all(self) -> None:
        (self.folder / "plain.tif").rename(self.stack / "plain.tif")
        status, told = self.run_all(*self.NAMES, "mask=plain.tif", "page=no", "unit=millimetres", "wavelength=0.0555", "reference=60,30")
        self.assertEqual(status, 0, told)
        for folder in self.stack.glob("2023*"):
            made = gdal.Open(str(folder / "cycles.tif"))
            self.assertEqual((made.GetRasterBand(1).GetUnitType(), made.GetMetadataItem("WUNDJESKA_REFERENCE")), ("millimetres", "pixel 60 30"))
            values = made.ReadAsArray()
            self.assertEqual((bool((values[:, 30:34] == -9999).all()), values[30, 60]), (True, 0))
            self.assertFalse((folder / "page.html").exists())
        self.assertNotIn("/page.html", (self.stack / "scenes.html").read_text())

    def test_a_number_that_stands_for_no_value(self) -> None:
        folder = self.folder / "floats" / "a-b"
        folder.mkdir(parents=True)
        phase = np.angle(slope(0.05))
        phase[:, 60:] = 0
        raster(folder / "phase.tif", phase)
        raster(folder / "coherence.tif", np.full(SHAPE, 0.9))
        status, told = self.run_in(folder.parent, "nodata=0")
        self.assertEqual(status, 0, told)
        self.assertTrue((gdal.Open(str(folder / "cycles.tif")).ReadAsArray()[:, 60:] == -9999).all())

    def test_files_beside_each_other(self) -> None:
        flat = self.folder / "flat"
        flat.mkdir()
        for folder in self.stack.glob("2023*"):
            for kind in ("int", "cor"):
                gdal.Translate(str(flat / f"{folder.name}.{kind}.tif"), str(folder / f"filt_fine.{kind}.vrt"))
        status, told = self.run_in(flat, "igram={pair}.int.tif", "coherence={pair}.cor.tif", "coherence_band=2")
        self.assertEqual(status, 0, told)
        self.assertEqual(len(list(flat.glob("2023*/cycles.tif"))), 3)

    def test_the_page_of_all_scenes(self) -> None:
        self.isce(self.stack / "20230113_20230125/filt_fine.cor", [np.ones(SHAPE)], gdal.GDT_Float32)
        status, told = self.run_all(*self.NAMES, "tile=32")
        self.assertEqual(status, 1, told)
        page = (self.stack / "scenes.html").read_text()
        names = re.findall('<h3>(?:<a href="([^"]*)">)?([^<]*)', page)
        wanted = [("", "20230113_20230125"), (f"{NOISE}/page.html", NOISE), ("20230101_20230113/page.html", "20230101_20230113")]
        self.assertEqual(names, wanted)  # what failed first, then what is of concern
        self.assertEqual(re.findall('class="verdict ([a-z]+)"', page), ["refused", "amber", "accepted"])
        self.assertIn("2 of 3 scenes are done. 1 of them have signs that their surface may be wrong", page)
        self.assertRegex(page, "<li>[0-9.]+ % of the cells have a residue")
        self.assertEqual((page.count("<img "), page.count('src="data:image/png;base64,')), (2, 2))
        self.assertEqual(re.findall(r"https?:|<script|<link|@import|url\(", page), [])
        self.assertIn("wundjeska scenes ", page)

    def test_help_has_all_keys(self) -> None:
        status, told = command("scenes", "--help")
        self.assertEqual(status, 0)
        for key in (*scene_words.OWN, *scene_words.options(), "mask", "nodata", "unit", "page", "tile", "looks"):
            self.assertRegex(told, rf"(?m)^  {key}=\S")


class Words(InFolder):
    def test_words_of_keys(self) -> None:
        asked = wanted({"tile": 64, "whole": "no", "reference": "1,2", "wrap": "yes", "coherence": 0.5, "turn": "no"})
        self.assertEqual(asked.words, ["--tile=64", "--no-whole", "--reference", "1", "2", "--wrap", "--least-coherence=0.5"])
        self.assertEqual(asked.plain_words, ["--tile=64", "--no-whole", "--reference", "1", "2", "--wrap"])
        self.assertEqual((asked.igram, asked.page, asked.closure), ("{pair}/phase.tif", True, False))

    def test_a_filter_or_none(self) -> None:
        ways: Tuple[Tuple[Dict[str, str], List[str], bool], ...] = (
            ({}, [], True),
            ({"filter": "fourier", "narrow": "yes"}, ["--filter=fourier", "--narrow"], True),
            ({"filter": "none", "looks": "4"}, ["--filter=none", "--looks=4"], False),
        )
        for keys, words, filtered in ways:
            asked = wanted(keys)
            self.assertEqual((asked.words, asked.filtered), (words, filtered))

    def test_keys_that_do_not_fit_each_other(self) -> None:
        for keys in (
            {"closure": "yes", "unit": "metres", "wavelength": "0.05"},
            {"closure": "yes", "reference": "auto"},
            {"tile": "64", "whole": "yes"},
            {"coherence": "0.5", "least_coherence": "0.5"},
            {"block": "4"},
            {"big_endian": "yes"},
            {"filter": "goldstein"},
            {"filter": "none", "narrow": "yes"},
            {"undecided": "yes"},
        ):
            with self.subTest(keys), self.assertRaises(Trouble) as caught:
                wanted(keys)
            self.assertEqual(caught.exception.status, 2)

    def test_undecided_parts_are_counted(self) -> None:
        self.addCleanup(os.chdir, os.getcwd())
        os.chdir(self.folder)
        for name, told in (("a_b", "2 undecided parts of 1300 pixels"), ("b_c", "nothing undecided")):
            Path(name).mkdir()
            Path(name, "cycles.tif").touch()
            Path(name, "unwrapped.txt").write_text(f"cycles.tif: accepted, its guide's cost 7, the least of all, {told}\n")
        lines = lines_on_scenes([scene_of(name) for name in ("a_b", "b_c", "c_d")], [])
        self.assertEqual(lines[1:], ["1 have undecided parts: a_b"])

    def test_names_find_scenes(self) -> None:
        for name in ("a_b/x.int", "c_d/x.int", "e/y.int", "in/a_b/a_b.int", "in/c_d/a_b.int"):
            (self.folder / name).parent.mkdir(parents=True, exist_ok=True)
            (self.folder / name).touch()
        self.assertEqual(scenes_in(self.folder, "{pair}/x.int"), ["a_b", "c_d"])
        self.assertEqual(scenes_in(self.folder, "in/{pair}/{pair}.int"), ["a_b"])
        self.assertEqual(scenes_in(self.folder, "{pair}/z.int"), [])


if __name__ == "__main__":
    unittest.main()
