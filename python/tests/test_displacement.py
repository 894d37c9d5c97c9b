"""Tests displacements: that they are the program's, exact in each block, in their place, and relative to what is told."""
import io
import math
import re
import subprocess
import unittest
from argparse import Namespace
from dataclasses import replace
from fractions import Fraction
from pathlib import Path
from typing import Any, List, Optional, Sequence
from unittest import mock

import numpy as np
from helpers import HERE, InFolder, Told, command, raster
from osgeo import gdal, osr

from wundjeska import displacements
from wundjeska.displacements import LENGTHS, Sight, displaced, grid_text, wavelength_of
from wundjeska.planes import CYCLE, TILED_LIMITS, session_of
from wundjeska.program import run_program
from wundjeska.references import best_block, level_of, reference_of
from wundjeska.report_reader import NODATA, read_grid_from, read_report
from wundjeska.trouble import Trouble

KIT = (HERE / "kit/phase.tif", "--coherence", HERE / "kit/coherence.tif")
C_BAND = 55_500_000  # nanometres


def random_surface(dice: np.random.Generator, most: int = 12) -> np.ndarray:
    """A surface in 1/65536 cycle, of which a third has no value."""
    shape = dice.integers(1, most, 2)
    return np.where(dice.random(shape) < 0.3, NODATA, dice.integers(-(10**6), 10**6, shape))


def by_hand(values: np.ndarray, sight: Sight) -> np.ndarray:
    """The same as displaced, block by block over exact numbers."""
    side, level = sight.block, math.floor(sight.level)
    height, width = (-(-length // side) for length in values.shape)
    found = np.full((height, width), NODATA)
    for row, column in np.ndindex(height, width):
        block = values[row * side : (row + 1) * side, column * side : (column + 1) * side]
        known = [int(value) for value in block[block != NODATA]]
        if known:
            mean = Fraction(sight.wavelength, 2 * CYCLE) * (Fraction(sum(known), len(known)) - level)
            found[row, column] = math.floor(mean) - round(Fraction(sight.wavelength, 2 * CYCLE) * (sight.level - level))
    return found


class Displaced(unittest.TestCase):
    def test_blocks_are_exact(self) -> None:
        dice = np.random.default_rng(11)
        for _ in range(40):
            values = random_surface(dice)
            level = Fraction(int(dice.integers(-(10**6), 10**6)), int(dice.integers(1, 9)))
            sight = Sight(int(dice.choice([1, 131072, C_BAND, 10**9])), level, int(dice.integers(1, 7)))
            np.testing.assert_array_equal(displaced(values, sight), by_hand(values, sight), str(sight))

    def test_a_pixel_as_reference_is_what_the_program_makes_of_the_whole_grid(self) -> None:
        dice = np.random.default_rng(12)
        for block in (1, 2, 5, 64):
            values = random_surface(dice, 70)
            row, column = (int(place) for place in np.argwhere(values != NODATA)[-1])
            words = ["--wavelength", str(C_BAND), "--x", str(column), "--y", str(row), "--block", str(block)]
            grid = read_grid_from(io.BytesIO(run_program(["displacement", *words], grid_text(values), "a grid")))
            level = level_of(values, [column, row, column, row])
            np.testing.assert_array_equal(displaced(values, Sight(C_BAND, level, block)), grid)

    def test_parts_of_large_surfaces(self) -> None:
        values = random_surface(np.random.default_rng(13), 60)
        for block in (1, 3, 4):
            sight = Sight(C_BAND, Fraction(7, 3), block)
            wanted = displaced(values, sight)
            with mock.patch.object(displacements, "TILED_LIMITS", replace(TILED_LIMITS, side=16, pixels=140)):
                for rows, columns in displacements.parts_of(values.shape, block):
                    high, wide = values[rows, columns].shape
                    self.assertTrue(max(high + block, wide) <= 16 and (high + block) * wide <= 140)
                np.testing.assert_array_equal(displaced(values, sight), wanted)

    def test_parts_fit_at_the_limits(self) -> None:
        for shape in ((2048, 2048), (4096, 1024), (1024, 4096), (4096, 4096), (1, 9000), (9000, 1), (3000, 7000)):
            for block in (1, 3, 7, 33, 63, 64):
                covered = 0
                for rows, columns in displacements.parts_of(shape, block):
                    high = min(rows.stop, shape[0]) - rows.start
                    wide = min(columns.stop, shape[1]) - columns.start
                    self.assertTrue(rows.start % block == 0 and columns.start % block == 0)
                    self.assertTrue(max(high + block, wide) <= 4096 and (high + block) * wide <= 4194304)
                    covered += high * wide
                self.assertEqual(covered, shape[0] * shape[1])

    def test_a_wavelength_is_whole_nanometres(self) -> None:
        for metres, nanometres in (
            (0.0555, C_BAND),
            (0.056, 56_000_000),
            (0.2384, 238_400_000),
            (1, 10**9),
            (1e-9, 1),
        ):
            self.assertEqual(wavelength_of(metres), nanometres)
        self.assertEqual((wavelength_of(0.0555041576), wavelength_of(1.4e-9)), (55504158, 1))
        for metres in (0, -0.05, 4e-10, 1.000000001, 5.55, math.nan, math.inf, -math.inf):
            self.assertRaises(Trouble, wavelength_of, metres)


class Blocks(unittest.TestCase):
    def test_the_best_block(self) -> None:
        weights, opened = np.full((9, 13), 50), np.ones((9, 13), bool)
        weights[4:8, 8:12], weights[0:4, 0:4] = 90, 200
        opened[1, 1] = False
        numbers = np.ones((9, 13), dtype=np.uint32)
        self.assertEqual(best_block(weights, opened, numbers, 4), ([8, 4, 11, 7], 90.0))
        numbers[:, 8:] = 2  # an island, however coherent
        self.assertEqual(best_block(weights, opened, numbers, 4), ([4, 0, 7, 3], 50.0))
        self.assertIsNone(best_block(weights, opened, numbers, 10))
        self.assertIsNone(best_block(weights, numbers > 2, numbers, 4))

    def test_the_words_of_a_reference(self) -> None:
        values, weights = np.zeros((8, 16), dtype=np.int64), np.arange(128).reshape(8, 16)
        asked = Namespace(reference=None, reference_window=None, reference_auto=True, block=1)
        self.assertEqual(reference_of(asked, values, weights).box, [8, 0, 15, 7])
        asked.block = 2
        self.assertEqual(reference_of(asked, values, weights).box, [14, 6, 15, 7])
        self.assertRaises(Trouble, reference_of, asked, values, np.ones((8, 16)))
        values[::2] = NODATA
        self.assertRaises(Trouble, reference_of, asked, values, weights)


class Products(InFolder):
    def setUp(self) -> None:
        super().setUp()
        dice = np.random.default_rng(14)
        slope = np.arange(23)[:, None] * 9000 + np.arange(30) * 20000
        self.values = np.where(dice.random((23, 30)) < 0.1, NODATA, slope + dice.integers(-3000, 3000, (23, 30)))
        self.values[4, 7] = 123456
        self.values[8:12, 12:16] = NODATA
        self.grid, self.made = self.folder / "grid", self.folder / "made.tif"
        self.grid.write_bytes(grid_text(self.values))

    def like(self, **more: Any) -> str:
        return raster(self.folder / "like.tif", np.ones(self.values.shape), **more)

    def make(self, *words: object, like: Optional[str] = None, status: int = 0) -> Told:
        """Makes the GeoTIFF of the grid for C band."""
        more = ("--like", like or self.like(), "--wavelength", "0.0555")
        ended, told = command("to_geotiff.py", self.grid, *more, *words, self.made)
        self.assertEqual(ended, status, told)
        return ended, told

    def read(self, path: Optional[Path] = None) -> np.ndarray:
        found: np.ndarray = gdal.Open(str(path or self.made)).ReadAsArray()
        return found

    def test_units_of_length(self) -> None:
        wanted = displaced(self.values, Sight(C_BAND, Fraction(123456)))
        for unit, nanometres in LENGTHS.items():
            for words in ((), ("--float64",), ("--turn",)):
                self.make("--unit", unit, "--reference", 7, 4, *words)
                made, sign = gdal.Open(str(self.made)), -1 if "--turn" in words else 1
                found, hole = made.ReadAsArray(), made.GetRasterBand(1).GetNoDataValue()
                np.testing.assert_array_equal(found == hole, wanted == NODATA)
                exact = np.where(wanted == NODATA, hole, sign * (wanted / nanometres))
                np.testing.assert_array_equal(found, exact.astype(found.dtype))
                self.assertEqual(
                    found.dtype, "float64" if words[:1] == ("--float64",) or unit == "nanometres" else "float32"
                )
                self.assertEqual((found[4, 7], made.GetRasterBand(1).GetUnitType()), (0, unit))
                self.assertIn("rounded down", made.GetMetadataItem("WUNDJESKA_DISPLACEMENT"))

    def test_nanometres_of_9999(self) -> None:
        self.values = np.array([[0, NODATA, -24]])
        self.grid.write_bytes(grid_text(self.values))
        like = raster(self.folder / "small.tif", np.ones((1, 3)))
        words = ("--like", like, "--wavelength", "0.054606", "--unit", "nanometres", self.made)
        self.assertEqual(command("to_geotiff.py", self.grid, *words)[0], 0)
        self.assertEqual(self.read().tolist(), [[0, NODATA, -9999]])

    def averaged(self, path: str, side: int, *words: object) -> gdal.Dataset:
        """What GDAL makes of whole blocks of a raster."""
        height, width = (length // side * side for length in self.values.shape)
        out = self.folder / "averaged.tif"
        more = ["-r", "average", "-srcwin", 0, 0, width, height, "-outsize", width // side, height // side, *words]
        subprocess.run(list(map(str, ["gdal_translate", "-q", *more, path, out])), check=True)
        return gdal.Open(str(out))

    def test_blocks_are_those_of_gdal(self) -> None:
        for place in ((5e5, 30, 0, 4e6, 0, -30), (14, 0.001, 0, 40, 0, 0.002), (5e5, 20, 7, 4e6, 7, -20)):
            for point in (False, True):
                for side in (2, 3, 4, 10):
                    with self.subTest(place=place, point=point, side=side):
                        like = self.like(place=place, point=point)
                        self.make("--unit", "nanometres", "--output-nodata", -1e15, like=like)
                        gdals = self.averaged(str(self.made), side)
                        self.make("--unit", "nanometres", "--block", side, "--output-nodata", -1e15, like=like)
                        made = gdal.Open(str(self.made))
                        np.testing.assert_allclose(made.GetGeoTransform(), gdals.GetGeoTransform(), rtol=1e-12)
                        self.assertEqual(made.GetMetadataItem("AREA_OR_POINT"), gdals.GetMetadataItem("AREA_OR_POINT"))
                        self.assertEqual((made.RasterYSize, made.RasterXSize), (-(-23 // side), -(-30 // side)))
                        whole = made.ReadAsArray()[: gdals.RasterYSize, : gdals.RasterXSize]
                        np.testing.assert_allclose(whole, gdals.ReadAsArray(), atol=2)

    def test_blocks_are_those_of_gdalwarp(self) -> None:
        self.make("--unit", "nanometres", "--output-nodata", -1e15)
        out = self.folder / "warped.tif"
        corner = [5e5, 4e6 - 20 * 30, 5e5 + 28 * 30, 4e6]  # of whole blocks
        words = ["gdalwarp", "-q", "-r", "average", "-tr", 120, 120, "-te", *corner, self.made, out]
        subprocess.run(list(map(str, words)), check=True)
        warped = gdal.Open(str(out))
        self.make("--unit", "nanometres", "--output-nodata", -1e15, "--block", 4)
        self.assertEqual(gdal.Open(str(self.made)).GetGeoTransform(), warped.GetGeoTransform())
        np.testing.assert_allclose(self.read()[:5, :7], warped.ReadAsArray(), atol=2)

    def test_blocks_at_the_edge_are_cut(self) -> None:
        self.make("--unit", "nanometres", "--block", 4)
        found = self.read()
        self.assertEqual(found.shape, (6, 8))
        np.testing.assert_array_equal(found, by_hand(self.values, Sight(C_BAND, block=4)))
        self.assertEqual(found[2, 3], NODATA)
        self.assertIn("4 by 4", gdal.Open(str(self.made)).GetMetadataItem("WUNDJESKA_BLOCK"))

    def test_ground_control_points_of_blocks(self) -> None:
        like = gdal.Open(self.like(place=None, epsg=None), gdal.GA_Update)
        system = osr.SpatialReference()
        system.ImportFromEPSG(4326)
        corners = ((0, 0), (30, 0), (0, 23), (15, 8))
        like.SetGCPs([gdal.GCP(14 + x / 100, 40 - y / 100, 0, x, y) for x, y in corners], system)
        del like
        self.make("--unit", "metres", "--block", 4, like=str(self.folder / "like.tif"))
        found = [
            (point.GCPX, point.GCPY, point.GCPPixel, point.GCPLine) for point in gdal.Open(str(self.made)).GetGCPs()
        ]
        self.assertEqual(found, [(14 + x / 100, 40 - y / 100, x / 4, y / 4) for x, y in corners])

    def test_the_mean_of_a_window_is_0(self) -> None:
        self.make("--unit", "nanometres", "--reference-window", 16, 12, 23, 17)
        found = self.read()[12:18, 16:24]
        self.assertLess(abs(found[found != NODATA].mean()), 2)

    def test_words_that_do_not_fit(self) -> None:
        for words, status in (
            (("--block", 2), 2),
            (("--unit", "radians", "--block", 2), 2),
            (("--unit", "metres", "--block", 0), 2),
            (("--unit", "metres", "--block", 65), 2),
            (("--unit", "metres", "--reference", "auto"), 2),
            (("--unit", "metres", "--reference", 30, 0), 3),
            (("--unit", "metres", "--reference", 13, 9), 3),
            (("--unit", "metres", "--reference", "some"), 2),
            (("--unit", "metres", "--wavelength", "5.55"), 2),
            (("--unit", "metres", "--reference", 1, 1, "--reference-window", 1, 1, 2, 2), 2),
        ):
            with self.subTest(words=words):
                _, told = self.make(*words, status=status)
                self.assertEqual((told.count("\n"), self.made.exists()), (1, False), told)


class Auto(InFolder):
    def setUp(self) -> None:
        super().setUp()
        self.session, self.report, self.made = (self.folder / name for name in ("session", "report", "made.tif"))

    def unwrap(self, *words: object) -> Told:
        kept = ("--session", self.session, "--report", self.report, "--no-filter")
        return command("wundjeska", *KIT, *kept, "--wavelength", "0.0555", *words, self.made)

    def box(self, told: str) -> List[int]:
        """The block that is told."""
        found = re.search(
            r"reference: mean of columns ([0-9]+) to ([0-9]+), rows ([0-9]+) to ([0-9]+), the most coherent block", told
        )
        assert found is not None, told
        x0, x1, y0, y1 = map(int, found.groups())
        return [x0, y0, x1, y1]

    def is_best(self, box: Sequence[int], side: int) -> None:
        """That no block of this side that is open everywhere is more coherent, and its mean is 0."""
        coherence = gdal.Open(str(KIT[2])).ReadAsArray()
        surface = read_report(str(self.report)).surfaces[-1]
        best = max(
            np.rint(255 * coherence[y : y + side, x : x + side]).sum()
            for y in range(0, 104 - side + 1, side)
            for x in range(0, 128 - side + 1, side)
            if surface.opened()[y : y + side, x : x + side].all()
        )
        x0, y0, x1, y1 = box
        self.assertEqual((x1 - x0 + 1, y1 - y0 + 1, x0 % side, y0 % side), (side, side, 0, 0))
        self.assertEqual(np.rint(255 * coherence[y0 : y1 + 1, x0 : x1 + 1]).sum(), best)

    def test_the_most_coherent_block(self) -> None:
        for words, side in (((), 8), (("--block", 4), 4)):
            status, told = self.unwrap("--unit", "nanometres", "--reference", "auto", *words)
            self.assertEqual((status, told.count("reference: ")), (0, 1), told)
            box = self.box(told)
            self.is_best(box, side)
            made = gdal.Open(str(self.made))
            self.assertEqual(self.box(f"reference: {made.GetMetadataItem('WUNDJESKA_REFERENCE')}"), box)
            scale = 4 if words else 1
            inside = made.ReadAsArray()[box[1] // scale : box[3] // scale + 1, box[0] // scale : box[2] // scale + 1]
            self.assertLess(abs(inside.mean()), 2)
            again = self.folder / "again.tif"
            more = ("--session", self.session, "--like", KIT[0], "--wavelength", "0.0555", "--unit", "nanometres")
            status, told = command("to_geotiff.py", self.report, *more, "--reference=auto", *words, again)
            self.assertEqual((status, self.box(told)), (0, box))
            np.testing.assert_array_equal(gdal.Open(str(again)).ReadAsArray(), made.ReadAsArray())

    def test_what_tells_no_block(self) -> None:
        for words in (
            (KIT[0],),
            (KIT[0], "--coherence", raster(self.folder / "c.tif", np.full((104, 128), 0.5), place=None, epsg=None)),
        ):
            status, told = command("wundjeska", *words, "--reference", "auto", self.made)
            self.assertEqual((status in (2, 3), told.count("\n"), self.made.exists()), (True, 1, False), told)

    def test_the_page_marks_the_reference(self) -> None:
        page = self.folder / "page.html"
        self.assertEqual(self.unwrap("--page", page, "--reference", 100, 50)[0], 0)
        text = page.read_text()
        self.assertEqual(text.count('class="mark"'), 1)
        for words in (
            "Displacement of surface 1",
            "is marked: pixel 100 50",
            "<title>reference: pixel 100 50</title>",
            ">cm<",
        ):
            self.assertIn(words, text)
        surface = read_report(str(self.report)).surfaces[-1]
        wanted = displaced(surface.values, Sight(C_BAND, level_of(surface.values, [100, 50, 100, 50]))) / 1e7
        known = wanted[surface.opened()]
        self.assertIn(f"from {known.min():.3f} to {known.max():.3f} cm", text)
        path = re.search(r'class="mark"><title>[^<]*</title><path d="M([0-9.]+) ([0-9.]+) h([0-9.]+) v([0-9.]+)', text)
        assert path is not None
        x, y, wide, high = map(float, path.groups())
        np.testing.assert_allclose(
            [x, y, wide, high], [58 + 250 * 100 / 128, 22 + 250 * 50 / 128, 250 / 128, 250 / 128], atol=0.06
        )
        status, told = command("page.py", self.session, self.report, "--reference", "auto", page)
        self.assertEqual((status, self.box(told) != []), (0, True))
        self.assertEqual(page.read_text().count('class="mark"'), 1)
        status, told = command("page.py", self.session, self.report, "--reference", 128, 0, page)
        self.assertEqual((status, told.count("\n")), (3, 1))

    def test_a_reference_that_an_earlier_surface_lacks(self) -> None:
        session, page = self.folder / "small", self.folder / "page.html"
        ones = np.ones((6, 6), dtype=np.uint16)
        script = b"analyst\nmask 0 0 0 0\nsettle\nunmask 0 0 0 0\nsettle\nend\n"
        session.write_bytes(session_of(ones, ones, ones > 0, script))
        self.report.write_bytes(run_program(["unwrap"], session.read_bytes(), "ones"))
        words = ("--wavelength", "0.0555", "--reference", 0, 0, page)
        self.assertEqual(command("page.py", session, self.report, *words)[0], 0)
        text = page.read_text()
        self.assertEqual((text.count('class="mark"'), text.count("The reference is masked here")), (1, 1))

    def test_frames_are_displaced_by_the_program(self) -> None:
        frames = (
            "--folder",
            self.folder / "frames",
            "--side",
            64,
            "--overlap",
            16,
            "--wavelength",
            "0.0555",
            "--float64",
        )
        cycles, nanometres = self.folder / "cycles.tif", self.folder / "nanometres.tif"
        for box in ((), ("--reference", 100, 50), ("--reference-window", 100, 50, 110, 55)):
            self.assertIn(command("frames.py", *KIT, *frames, *box, cycles)[0], (0, 1))
            self.assertIn(command("frames.py", *KIT, *frames, *box, "--unit", "nanometres", nanometres)[0], (0, 1))
            found, exact = gdal.Open(str(nanometres)).ReadAsArray(), gdal.Open(str(cycles)).ReadAsArray()
            known = exact != -9999
            np.testing.assert_array_equal(found == NODATA, ~known)
            off = exact[known] * (C_BAND / 2) - found[known]
            self.assertTrue(-1.01 < off.min() and off.max() < 2.01, (off.min(), off.max()))


if __name__ == "__main__":
    unittest.main()
