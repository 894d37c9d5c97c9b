"""Tests the loop of three interferograms: what is read, what is told and written, and that nothing is misread."""
import base64
import math
import os
import re
import subprocess
import unittest
from pathlib import Path
from typing import Any, List, Optional, Sequence, Tuple

import numpy as np
from helpers import InFolder, argv, command, raster
from osgeo import gdal

from wundjeska.commands.closure import NO_CYCLES
from wundjeska.components import components_of
from wundjeska.displacements import grid_text
from wundjeska.loops import Loops, close_loop, commonest, raised, read_loops
from wundjeska.pages import map_script, sum_of
from wundjeska.pictures import FALLING, RISING
from wundjeska.planes import CYCLE, session_of
from wundjeska.program import program, run_program
from wundjeska.report_reader import NODATA
from wundjeska.trouble import Trouble

SHAPE = (30, 40)


def by_hand(surfaces: Sequence[np.ndarray]) -> Tuple[np.ndarray, np.ndarray]:
    """Closures and cycles of three surfaces, pixel by pixel."""
    closures, cycles = np.full(surfaces[0].shape, NODATA), np.full(surfaces[0].shape, NODATA)
    for place in np.ndindex(surfaces[0].shape):
        first, second, third = (int(surface[place]) for surface in surfaces)
        if NODATA not in (first, second, third):
            closures[place] = first + second - third
            cycles[place] = next(n for n in range(-99, 99) if -32768 <= first + second - third - CYCLE * n <= 32767)
    return closures, cycles


def random_surfaces(dice: np.random.Generator) -> List[np.ndarray]:
    shape = tuple(dice.integers(1, 12, 2))
    found = [dice.integers(-5, 6, shape) * CYCLE // 2 + dice.integers(-1, 2, shape) for _ in range(3)]
    return [np.where(dice.random(shape) < 0.1, NODATA, surface) for surface in found]


class Loop(unittest.TestCase):
    def test_closures_cycles_and_patches(self) -> None:
        dice = np.random.default_rng(5)
        for _ in range(30):
            surfaces = random_surfaces(dice)
            loops = close_loop(surfaces, "a case")
            closures, cycles = by_hand(surfaces)
            np.testing.assert_array_equal(loops.closures, closures)
            np.testing.assert_array_equal(loops.cycles, cycles)
            patches = []
            for number in set(cycles.ravel().tolist()) - {0, NODATA}:
                pieces = components_of(cycles == number)
                for piece in range(1, int(pieces.max()) + 1):
                    row, column = np.argwhere(pieces == piece)[0]
                    patches.append((int(row), int(column), int((pieces == piece).sum()), number))
            wanted = [[column, row, size, number] for row, column, size, number in sorted(patches)]
            self.assertEqual(loops.patches.tolist(), wanted)
            self.assertEqual(sorted(loops.by_size()[:, 2].tolist(), reverse=True), loops.by_size()[:, 2].tolist())
            after = close_loop([*surfaces[:2], raised(surfaces[2], loops.cycles)], "raised")
            self.assertEqual(int(after.misclosed().sum()), 0)
            self.assertTrue((np.abs(after.closures[after.known()]) <= CYCLE // 2).all())

    def test_the_commonest_cycles(self) -> None:
        known = np.ones((3, 7), dtype=bool)
        known[:, 4] = False
        cycles = np.where(known, 2, NODATA)
        cycles[0, :3], cycles[:, 5:] = 1, -7
        self.assertEqual(commonest(Loops(np.where(known, 0, NODATA), cycles, np.zeros((0, 4)))), 2)
        nothing = np.full((2, 2), NODATA)
        self.assertEqual(commonest(Loops(nothing, nothing, np.zeros((0, 4)))), 0)

    def test_what_is_no_output_of_the_program(self) -> None:
        surfaces = [np.zeros((1, 2), dtype=np.int64)] * 2 + [np.array([[0, CYCLE]])]
        text = run_program(["closure"], b"".join(map(grid_text, surfaces)), "two pixels")
        self.assertEqual(read_loops(text, (1, 2)).patches.tolist(), [[1, 0, 1, -1]])
        for broken in (
            text[:-1],
            text + b"x",
            text.replace(b"patch 1", b"patch 01"),
            text.replace(b"closure 2", b"closure 1"),
            b"",
        ):
            self.assertRaises((Trouble, ValueError), read_loops, broken, (1, 2))


class Commands(InFolder):
    def setUp(self) -> None:
        super().setUp()
        self.made = self.folder / "misclosed.tif"
        y, x = np.mgrid[: SHAPE[0], : SHAPE[1]]
        self.first = np.rint((0.31 * x + 0.07 * y) * CYCLE).astype(np.int64)
        self.second = np.rint((0.11 * y - 0.2 * x) * CYCLE).astype(np.int64)
        self.third = self.first + self.second
        self.third[5:9, 10:20] += CYCLE  # 40 pixels, misclosed by -1
        self.third[20, 30:33] -= 2 * CYCLE  # 3 pixels, by 2
        self.masks = [np.zeros(SHAPE, dtype=bool) for _ in range(3)]
        for number, mask in enumerate(self.masks):
            mask[number] = True
        self.wanted = np.zeros(SHAPE)
        self.wanted[5:9, 10:20], self.wanted[20, 30:33], self.wanted[:3] = -1, 2, NO_CYCLES

    def tifs(self, scale: float = 1.0, unit: str = "cycles", kind: int = gdal.GDT_Float32, **more: Any) -> List[str]:
        """GeoTIFFs of the three surfaces: NODATA, NaN and infinite in turn where they are masked."""
        found = []
        for number, (values, hole) in enumerate(
            zip((self.first, self.second, self.third), (-9999, math.nan, math.inf))
        ):
            cycles = np.where(self.masks[number], hole, values / CYCLE * scale)
            path = raster(self.folder / f"surface {number}.tif", cycles, kind, -9999 if number == 0 else None, **more)
            made = gdal.Open(path, gdal.GA_Update)
            made.GetRasterBand(1).SetUnitType(unit)
            made.FlushCache()
            found.append(path)
        return found

    def read(self, path: Optional[Path] = None) -> np.ndarray:
        found: np.ndarray = gdal.Open(str(path or self.made)).ReadAsArray()
        return found

    def test_the_cycles_of_geotiffs(self) -> None:
        paths = self.tifs()
        closures = self.folder / "closures.tif"
        status, told = command("closure.py", *paths, "--closures", closures, self.made)
        self.assertEqual(status, 0, told)
        line = "1080 pixels have a closure, 43 (3.98 %) are misclosed in 2 patches, the largest of 40 pixels at column 10, row 5, by -1"
        self.assertEqual(told, f"{self.made}: {line}\n")
        np.testing.assert_array_equal(self.read(), self.wanted)
        made, like = gdal.Open(str(self.made)), gdal.Open(paths[0])
        self.assertEqual(
            (made.GetGeoTransform(), made.GetRasterBand(1).GetNoDataValue()), (like.GetGeoTransform(), NO_CYCLES)
        )
        self.assertTrue(made.GetSpatialRef().IsSame(like.GetSpatialRef()))
        self.assertEqual(made.GetMetadataItem("WUNDJESKA_MISCLOSED"), "43")
        np.testing.assert_array_equal(self.read(closures), np.where(self.wanted == NO_CYCLES, -9999, self.wanted))

    def test_radians(self) -> None:
        for unit, words in (("radians", ()), ("", ("--unit", "radians")), ("rad", ("--unit", "radians"))):
            self.assertEqual(command("closure.py", *self.tifs(2 * math.pi, unit), *words, self.made)[0], 0)
            np.testing.assert_array_equal(self.read(), self.wanted)

    def test_the_third_surface_is_raised(self) -> None:
        for scale, unit in ((1.0, "cycles"), (2 * math.pi, "radians")):
            paths, out = self.tifs(scale, unit, gdal.GDT_Float64), self.folder / "raised.tif"
            status, told = command("closure.py", *paths, "--correct", out, self.made)
            self.assertEqual((status, "no proof or certificate" in told), (0, True), told)
            values = np.where(self.masks[2], -9999, self.third / CYCLE * scale)
            values[self.wanted > NO_CYCLES] += scale * self.wanted[self.wanted > NO_CYCLES]
            np.testing.assert_allclose(self.read(out), values, rtol=1e-12, atol=1e-12)
            self.assertIn("no proof or certificate", gdal.Open(str(out)).GetMetadataItem("WUNDJESKA_VERDICT"))
            again = self.folder / "again.tif"
            self.assertIn("none is misclosed", command("closure.py", *paths[:2], out, again)[1])
            self.assertEqual(set(np.unique(self.read(again))), {0, NO_CYCLES})

    def test_a_reference(self) -> None:
        self.third -= 4 * CYCLE
        paths = self.tifs()
        status, told = command("closure.py", *paths, self.made)
        self.assertEqual((status, "warning: the commonest number of cycles is 4" in told), (0, True), told)
        np.testing.assert_array_equal(self.read(), np.where(self.wanted == NO_CYCLES, NO_CYCLES, self.wanted + 4))
        out = self.folder / "raised.tif"
        for words in (("--reference", "auto"), ("--reference", 0, 29), ("--reference-auto",)):
            status, told = command("closure.py", *paths, *words, "--correct", out, self.made)
            self.assertEqual(
                (status, "warning" in told, "raised by 4 cycles everywhere" in told), (0, False, True), told
            )
            np.testing.assert_array_equal(self.read(), self.wanted)
            known = self.wanted > NO_CYCLES
            np.testing.assert_allclose(self.read(out)[known], (self.first + self.second)[known] / CYCLE, atol=1e-4)
            np.testing.assert_allclose(self.read(out)[1], self.third[1] / CYCLE + 4, atol=1e-4)
        self.assertEqual(command("closure.py", *paths, "--reference", 12, 6, self.made)[0], 0)
        self.assertEqual(self.read()[6, 12], 0)
        self.assertEqual(self.read()[29, 0], 1)

    def test_reports_with_their_sessions(self) -> None:
        like = self.tifs()[0]
        ones = np.ones(SHAPE, dtype=np.uint16)
        names: List[Tuple[Path, Path]] = []
        for number, values in enumerate((self.first, self.second, self.first + self.second)):
            session, report = self.folder / f"session{number}", self.folder / f"report{number}"
            session.write_bytes(session_of((values % CYCLE).astype(np.uint16), ones, ~self.masks[number]))
            report.write_bytes(run_program(["unwrap"], session.read_bytes(), "a surface"))
            names.append((session, report))
        sessions, reports = ([pair[part] for pair in names] for part in (0, 1))
        words = (*reports, "--like", like, "--reference", "auto")
        status, told = command("closure.py", *words, "--sessions", *sessions, self.made)
        self.assertEqual((status, "warning" in told, "none is misclosed" in told), (0, False, True), told)
        self.assertIn("report0: accepted", gdal.Open(str(self.made)).GetMetadataItem("WUNDJESKA_FIRST"))
        status, told = command("closure.py", *words, self.made)
        self.assertEqual((status, "not all surfaces were checked" in told), (0, True), told)
        grid = self.folder / "grid"
        grid.write_bytes(run_program(["grid"], sessions[1].read_bytes(), "a surface"))
        self.assertEqual(command("closure.py", reports[0], grid, reports[2], *words[3:], self.made)[0], 0)
        stood = self.made.read_bytes()
        for words in (
            (*reports, self.made),
            (*reports, "--like", like, "--sessions", *sessions[::-1], self.made),
            (like, *reports[1:], "--sessions", *sessions, self.made),
            (*sessions, self.made),
        ):
            status, told = command("closure.py", *words)
            self.assertEqual((status != 0, told.count("\n"), self.made.read_bytes()), (True, 1, stood), told)

    def test_the_page(self) -> None:
        page = self.folder / "page.html"
        self.assertEqual(command("closure.py", *self.tifs(), "--reference", 0, 29, "--page", page, self.made)[0], 0)
        text = page.read_text()
        self.assertEqual(re.findall(r"https?:|<link|@import|url\((?!#)| src=", text), [])
        self.assertEqual(re.findall("<script>(.*?)</script>", text, re.S), [map_script()])
        self.assertIn(f"default-src 'none'; img-src data:; style-src 'unsafe-inline'; script-src '{sum_of(map_script())}'\"", text)
        rows = re.findall("<tr><td>(.*?)</td></tr>", text)
        self.assertEqual(
            [row.split("</td><td>") for row in rows],
            [["1", "40", "3.704 %", "-1", "10", "5"]],
        )
        self.assertIn("1 patch has fewer than 10 pixels, 3 in all.", text)
        for words in (
            "What is proved",
            "which of the three surfaces is wrong",
            "surface 1.tif",
            'class="mark"',
            "Misclosed patches",
        ):
            self.assertIn(words, text)
        picture = re.findall(r'href="data:image/png;base64,([^"]*)"', text)[0]
        gdal.FileFromMemBuffer("/vsimem/loop.png", base64.b64decode(picture))
        shown = np.moveaxis(gdal.Open("/vsimem/loop.png").ReadAsArray(), 0, -1)[..., :3]
        for cycles, colour in ((-1, FALLING[0]), (2, RISING[1]), (NO_CYCLES, (255, 255, 255))):
            np.testing.assert_array_equal(np.all(shown == colour, axis=-1), self.wanted == cycles)

    def refused(self, paths: Sequence[object], *words: object, status: int = 3, told: str = "") -> None:
        """That three surfaces are refused in one line, and nothing is written."""
        self.made.write_text("what stood there")
        ended, line = command("closure.py", *paths, *words, "--force", self.made)
        self.assertEqual((ended, line.count("\n"), self.made.read_text()), (status, 1, "what stood there"), line)
        self.assertIn(told, line)

    def test_a_raster_of_others_is_not_replaced(self) -> None:
        foreign = raster(self.made, np.ones(SHAPE))
        before = Path(foreign).read_bytes()
        status, told = command("closure.py", *self.tifs(), "--reference", 0, 29, self.made)
        self.assertEqual((status, told.count("\n"), self.made.read_bytes()), (2, 1, before), told)
        self.assertEqual(command("closure.py", *self.tifs(), "--reference", 0, 29, "--force", self.made)[0], 0)

    def test_surfaces_that_do_not_fit(self) -> None:
        first, second, third = self.tifs()
        other = self.folder / "other.tif"
        self.refused((first, second, raster(other, np.ones((30, 41)))), "--unit", "cycles", told="41 by 30 pixels")
        place = (5e5 + 15, 30, 0, 4e6, 0, -30)
        self.refused(
            (first, second, raster(other, np.ones(SHAPE), place=place)), "--unit", "cycles", told="another place"
        )
        self.refused(
            (first, second, raster(other, np.ones(SHAPE), epsg=32634)), "--unit", "cycles", told="another place"
        )
        self.refused((first, second, raster(other, np.ones(SHAPE))), status=2, told="--unit")
        self.refused((first, second, raster(other, np.full(SHAPE, 1e20))), "--unit", "cycles", told="no cycles")
        self.refused(
            (first, second, raster(other, np.full(SHAPE, 1j), gdal.GDT_CFloat32)), "--unit", "cycles", told="complex"
        )
        self.refused((first, second, self.folder / "none.tif"), status=5, told="none.tif")
        self.refused((first, second, third), "--unit", "radians", status=2, told="says that it is in cycles")
        self.refused((first, second, third), "--reference", 40, 0, told="not within")
        self.refused((first, second, third), "--reference", 3, 1, told="masked")
        self.refused((first, second, third), "--sessions", first, second, third, status=2, told="no report")
        self.refused((first, second, third), "--reference", 3, 1, "--reference-auto", status=2)
        self.refused((first, second, third), "--closures", self.made, status=2, told="two outputs")
        self.refused(
            (first, second, raster(other, np.full(SHAPE, math.nan))), "--unit", "cycles", told="no pixel has a value"
        )
        large = str(self.folder / "large.tif")
        gdal.GetDriverByName("GTiff").Create(large, 4096, 1025, 1, gdal.GDT_Float32, ["SPARSE_OK=TRUE"]).FlushCache()
        self.refused((large, large, large), "--unit", "cycles", told="4096 by 1025")

    def test_no_input_is_written(self) -> None:
        paths = self.tifs()
        for words in ((paths[2],), ("--correct", paths[2], self.made), ("--page", paths[0], self.made)):
            before = [Path(path).read_bytes() for path in paths]
            status, told = command("closure.py", *paths, *words)
            self.assertEqual((status, told.count("\n"), "input" in told), (2, 1, True), told)
            self.assertEqual([Path(path).read_bytes() for path in paths], before)

    def tell(self, path: str, **items: str) -> None:
        made = gdal.Open(path, gdal.GA_Update)
        for name, text in items.items():
            made.SetMetadataItem(f"WUNDJESKA_{name}", text)
        made.FlushCache()

    def test_what_geotiffs_tell_is_compared(self) -> None:
        paths = self.tifs()
        self.tell(paths[0], UNIT="centimetres")
        self.refused(paths, told="centimetres")
        self.refused(paths, "--unit", "cycles", told="centimetres")
        self.tell(paths[0], UNIT="cycles", SIGN="turned: the negative of the phase")
        self.refused(paths, told="turned")
        self.tell(paths[1], SIGN="turned: the negative of the phase")
        self.tell(paths[2], SIGN="turned: the negative of the phase")
        self.made.unlink()
        self.assertEqual(command("closure.py", *paths, self.made)[0], 0)
        self.tell(paths[1], REFERENCE="pixel 3 3")
        self.tell(paths[2], REFERENCE="none: the first open pixel is within the first cycle")
        self.refused(paths, told="not one reference")

    def test_a_number_that_stands_for_nothing(self) -> None:
        self.first[:] = np.where(self.masks[0], -9999 * CYCLE, self.first)
        self.masks[0][:] = False
        paths = self.tifs(kind=gdal.GDT_Float64)
        first = gdal.Open(paths[0], gdal.GA_Update)
        first.GetRasterBand(1).DeleteNoDataValue()
        first.FlushCache()
        status, told = command("closure.py", *paths, self.made)
        self.assertEqual((status, "-9999 and no NODATA" in told), (0, True), told)
        self.assertEqual(command("closure.py", *paths, "--nodata", -9999, self.made)[0], 0)
        np.testing.assert_array_equal(self.read(), self.wanted)

    def test_a_program_that_fails(self) -> None:
        poor = self.folder / "poor"
        paths = self.tifs()
        for script in ("echo no memory >&2; exit 4", "echo closure 1 0 0"):
            poor.write_text(f"#!/bin/sh\ncat >/dev/null\n{script}\n")
            poor.chmod(0o755)
            environment = {**os.environ, "UNWRAP": str(poor)}
            ran = subprocess.run(argv("closure.py", *paths, self.made), capture_output=True, text=True, env=environment)
            self.assertEqual(
                (ran.returncode != 0, ran.stderr.count("\n"), self.made.exists()), (True, 1, False), ran.stderr
            )
        self.assertTrue(program())

    def test_values_of_many_cycles(self) -> None:
        ramp = np.arange(256, dtype=np.float32)[None, :] * np.ones((256, 1), dtype=np.float32)
        path = raster(self.folder / "far.tif", 50 * ramp)
        twice = raster(self.folder / "twice.tif", 100 * ramp)
        status, told = command("closure.py", path, path, twice, "--unit", "cycles", self.made)
        self.assertEqual((status, "65536 pixels have a closure, none is misclosed" in told), (0, True), told)


if __name__ == "__main__":
    unittest.main()
