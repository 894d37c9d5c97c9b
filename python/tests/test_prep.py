"""Tests what `prep` hands on to MintPy and dolphin, and that MintPy, where it is installed, finds a known motion in it."""
import itertools
import math
import os
import re
import shutil
import subprocess
import unittest
from pathlib import Path
from typing import Any, Dict, List, Sequence, Tuple

import numpy as np
from helpers import InFolder, argv, command, raster
from osgeo import gdal

from wundjeska.program import program

MINTPY = next((words for words in (["smallbaselineApp.py"], ["mintpy", "smallbaselineApp"]) if shutil.which(words[0])), None)
OF_MINTPY = ("--wavelength", 0.0555, "--orbit", "descending", "--incidence", 39, "--looks", 20, "--platform", "Sen")
BARE: Dict[str, Any] = {"place": None, "epsg": None}


def product(path: Path, values: Sequence[Sequence[float]], kind: int, notes: Dict[str, str], **more: Any) -> None:
    """A GeoTIFF as `scenes` leaves it."""
    path.parent.mkdir(parents=True, exist_ok=True)
    raster(path, np.array(values), kind, **more)
    made = gdal.Open(str(path), gdal.GA_Update)
    for name, value in notes.items():
        made.SetMetadataItem(f"WUNDJESKA_{name}", value)


class Handed(InFolder):
    """Three scenes of 3 by 2 pixels, one of them named by the later image first, one turned."""

    SURFACE = ((0, 0.25, -9999), (-0.5, 1, 2))

    def setUp(self) -> None:
        super().setUp()
        self.scenes = self.folder / "scenes"
        self.finished("20230101_20230113", {"UNIT": "cycles", "SIGN": "that of the phase"})
        self.finished("2023-01-25_2023-01-13", {"UNIT": "cycles", "SIGN": "that of the phase"})
        self.finished("20230101_20230125", {"UNIT": "radians", "SIGN": "turned: the negative of the phase"})

    def finished(self, name: str, notes: Dict[str, str], **more: Any) -> None:
        folder = self.scenes / name
        product(folder / "cycles.tif", self.SURFACE, gdal.GDT_Float32, notes, nodata=-9999, **more)
        product(folder / "components.tif", ((1, 1, 0), (2, 40000, 70000)), gdal.GDT_UInt32, {}, nodata=0, **more)
        (folder / "unwrapped.txt").touch()
        raster(folder / "coherence.tif", np.array(((51, 102, 255), (0, 153, 204))), gdal.GDT_Byte, nodata=0, **more)

    def prep(self, to: str, *words: object) -> Tuple[int, str]:
        return command("wundjeska", "prep", to, self.scenes, self.folder / "out", "--coherence-max", 255, *words)

    def raw(self, name: str, kind: str) -> np.ndarray:
        return np.fromfile(self.folder / "out" / name, kind).reshape(2, 3)

    def told(self, name: str) -> Dict[str, str]:
        lines = (self.folder / "out" / f"{name}.rsc").read_text().splitlines()
        return dict((line.split()[0], line.split()[1]) for line in lines)

    def test_what_mintpy_gets(self) -> None:
        (self.folder / "days").write_text("20230101 10\n20230113 -20.5\n\n20230125 0\n")
        words = [*OF_MINTPY, "--baselines", self.folder / "days", "--attribute", "HEADING=-168"]
        wanted_range = "with --baselines MintPy wants --attribute SLANT_RANGE_DISTANCE=METRES\n"
        self.assertEqual(self.prep("mintpy", *words), (2, wanted_range))
        status, told = self.prep("mintpy", *words, "--attribute", "SLANT_RANGE_DISTANCE=850000")
        self.assertEqual((status, told), (0, f"{self.folder / 'out'}: 3 pairs of 3 images for mintpy\n"))
        quarter = math.pi / 2
        first = np.array(((1e-6, quarter, 0), (-2 * quarter, 4 * quarter, 8 * quarter)))
        named_back = np.array(((1e-6, -quarter, 0), (2 * quarter, -4 * quarter, -8 * quarter)))
        turned = np.array(((1e-6, -0.25, 0), (0.5, -1, -2)))
        for days, wanted in (("0101_20230113", first), ("0113_20230125", named_back), ("0101_20230125", turned)):
            np.testing.assert_allclose(self.raw(f"pairs/2023{days}.unw", "<f4"), wanted, rtol=1e-6)
        coherence = self.raw("pairs/20230101_20230113.cor", "<f4")
        np.testing.assert_allclose(coherence, ((0.2, 0.4, 1), (0, 0.6, 0.8)), rtol=1e-6)
        np.testing.assert_array_equal(self.raw("pairs/20230113_20230125.byt", "<i2"), ((1, 1, 0), (2, 0, 0)))
        found = self.told("pairs/20230101_20230113.unw")
        wanted_lines = {"WAVELENGTH": "0.0555", "DATE12": "230101-230113", "P_BASELINE_TOP_HDR": "-30.5", "HEADING": "-168"}
        wanted_lines.update(X_FIRST="500000.0", Y_STEP="-30.0", UTM_ZONE="33N")
        wanted_lines.update(ORBIT_DIRECTION="DESCENDING", INCIDENCE_ANGLE="39.0")
        self.assertEqual({key: found[key] for key in wanted_lines}, wanted_lines)
        self.assertFalse((self.folder / "out/geometry/incidence.hgt").exists())

    def test_what_dolphin_gets(self) -> None:
        self.assertEqual(self.prep("dolphin")[0], 0)
        self.assertEqual(len(list((self.folder / "out").iterdir())), 9)
        name = self.folder / "out/20230113_20230125"
        phase, parts = (gdal.Open(f"{name}{ending}") for ending in (".unw.tif", ".unw.conncomp.tif"))
        self.assertEqual([made.GetRasterBand(1).DataType for made in (phase, parts)], [gdal.GDT_Float32, gdal.GDT_UInt16])
        self.assertEqual((phase.GetRasterBand(1).GetNoDataValue(), phase.GetRasterBand(1).GetUnitType()), (0, "radians"))
        np.testing.assert_array_equal(parts.ReadAsArray(), ((1, 1, 0), (2, 40000, 0)))
        self.assertAlmostEqual(phase.ReadAsArray()[1, 0], math.pi, 6)
        self.assertEqual(phase.GetGeoTransform(), (5e5, 30, 0, 4e6, 0, -30))

    def test_scenes_that_are_not_finished(self) -> None:
        (self.scenes / "20230101_20230113/unwrapped.txt").unlink()
        (self.scenes / "20230101_20230113/unwrap.log").touch()
        status, told = self.prep("dolphin", "--turn")
        self.assertEqual(told, f"{self.folder / 'out'}: 2 pairs of 3 images for dolphin; 1 are not finished: 20230101_20230113\n")
        phase = gdal.Open(str(self.folder / "out/20230113_20230125.unw.tif")).ReadAsArray()
        self.assertAlmostEqual(phase[1, 0], -math.pi, 6)

    def test_mistakes(self) -> None:
        words = [str(word) for word in OF_MINTPY]
        for to, given, line in (
            ("mintpy", words[2:], "MintPy wants --wavelength, which the scenes do not tell"),
            ("mintpy", [*words[:2], *words[4:]], "MintPy wants --orbit ascending or --orbit descending"),
            ("mintpy", words[:4] + words[6:], "MintPy wants --incidence, an angle in degrees or a raster of them"),
            ("mintpy", words[:8], "MintPy wants --platform, by MintPy's name, as Sen, Alos2 or Env"),
            ("mintpy", words[:6] + words[8:], "MintPy wants --looks, which the scenes do not tell"),
            ("mintpy", [*words, "--incidence", "95"], "--incidence is between 0 and 90 degrees"),
            ("mintpy", [*words, "--attribute", "heading=3"], "--attribute heading=3: an attribute is KEY=VALUE, as HEADING=-168"),
            ("dolphin", words, "--wavelength is a word of mintpy, not of dolphin"),
            ("dolphin", ["--coherence", "a.tif"], "--coherence a.tif: a name has {pair} where that of the scene stands"),
        ):
            with self.subTest(line):
                self.assertEqual(self.prep(to, *given), (2, f"{line}\n"))
        self.assertFalse((self.folder / "out").exists())

    def test_scenes_that_do_not_fit(self) -> None:
        cases: Tuple[Tuple[str, Dict[str, str], Dict[str, Any], int, str], ...] = (
            ("a_b", {"UNIT": "cycles"}, {}, 3, "{}: the name of a scene is a pair of days, as 20230101_20230113"),
            ("20230113_20230101", {"UNIT": "cycles"}, {}, 3, "{} and .*/20230101_20230113 are of the same days"),
            ("20230206_20230301", {"UNIT": "metres"}, {}, 3, "{}/cycles.tif is in metres; wanted are scenes with unit=cycles .*"),
            ("20230206_20230301", {}, {}, 3, "{}/cycles.tif is no product of this program"),
            ("20230206_20230301", {"UNIT": "cycles"}, BARE, 0, ".*: 4 pairs of 5 images for dolphin"),
        )
        for name, notes, more, status, line in cases:
            with self.subTest(name, notes=notes):
                self.finished(name, notes, **more)
                found, told = self.prep("dolphin")
                self.assertEqual(found, status, told)
                self.assertRegex(told, f"^{line.format(re.escape(str(self.scenes / name)))}\n$")
                shutil.rmtree(self.scenes / name)
        self.assertEqual(self.prep("dolphin")[0], 5)  # the folder is there by now
        self.assertEqual([path.name for path in self.folder.glob(".*.part")], [])

    def test_a_stack_without_a_place(self) -> None:
        shutil.rmtree(self.scenes)
        notes = {"UNIT": "cycles", "WAVELENGTH_METRES": "0.24", "WEIGHTS": "by the variance of 12 looks"}
        self.finished("20230101_20230113", notes, **BARE)
        words = ("--orbit", "ascending", "--incidence", 30, "--platform", "Alos2")
        status, told = self.prep("mintpy", *words)
        missing = "--attribute STARTING_RANGE=METRES --attribute RANGE_PIXEL_SIZE=METRES --latitude FILE --longitude FILE"
        self.assertEqual((status, told), (2, f"with scenes without a place MintPy wants {missing}\n"))
        place = [word for key in ("STARTING_RANGE", "RANGE_PIXEL_SIZE") for word in ("--attribute", f"{key}=9")]
        for name in ("latitude", "longitude"):
            place += [f"--{name}", raster(self.folder / f"{name}.tif", np.full((2, 3), 36.5), **BARE)]
        self.assertEqual(self.prep("mintpy", *words, *place)[0], 0)
        self.assertEqual(set(np.fromfile(self.folder / "out/geometry/incidence.hgt", "<f8")), {30.0})
        found = self.told("pairs/20230101_20230113.unw")
        self.assertEqual((found["WAVELENGTH"], found["NCORRLOOKS"], "X_FIRST" in found), ("0.24", "12.0", False))
        self.assertIn("processor    = isce\n", (self.folder / "out/mintpy.cfg").read_text())


DAYS = ("20230101", "20230113", "20230125", "20230206", "20230218", "20230302")
SHAPE = (100, 120)
LAKE, ISLAND = np.s_[70:, :36], np.s_[76:, :30]  # at the lower left corner
RAISED = (2, 3)  # the pair in which the island is a cycle too high: of the ten loops those with 0, 1, 4 and 5
LOOPS = 4
WAVELENGTH = 0.0555  # metres
ENOUGH = 1e-4  # metres
DRAWN = {**os.environ, "MPLBACKEND": "Agg"}  # pictures without a screen


def uplift(number: int) -> np.ndarray:
    """Metres towards the radar at an acquisition."""
    y, x = np.mgrid[: SHAPE[0], : SHAPE[1]]
    dome: np.ndarray = 0.02 * number * np.exp(-((x - 70) ** 2 + (y - 40) ** 2) / 600)
    return dome + 0.00002 * number**2 * x


@unittest.skipIf(MINTPY is None, "MintPy is not installed: Debian's package is mintpy")
class ByMintPy(InFolder):
    """Twelve pairs of six acquisitions without noise. A lake cuts off an island."""

    def setUp(self) -> None:
        super().setUp()
        program()
        self.scenes, self.out = self.folder / "scenes", self.folder / "out"
        coherence = np.full(SHAPE, 0.9)
        coherence[LAKE] = math.nan
        coherence[ISLAND] = 0.9
        pairs = [pair for pair in itertools.combinations(range(len(DAYS)), 2) if pair[1] - pair[0] <= 3]
        self.assertEqual(len(pairs), 12)
        for first, second in pairs:
            folder = self.scenes / f"{DAYS[first]}_{DAYS[second]}"
            folder.mkdir(parents=True)
            phase = -4 * math.pi / WAVELENGTH * (uplift(second) - uplift(first))
            raster(folder / "phase.tif", np.angle(np.exp(1j * phase)))
            raster(folder / "coherence.tif", coherence)

    def runs(self, words: List[str], **more: Any) -> None:
        ran = subprocess.run(words, capture_output=True, text=True, timeout=400, **more)
        self.assertEqual(ran.returncode, 0, ran.stdout[-2000:] + ran.stderr)

    def raise_island(self) -> None:
        made = gdal.Open(str(self.scenes / "_".join(DAYS[number] for number in RAISED) / "cycles.tif"), gdal.GA_Update)
        values = made.ReadAsArray()
        values[ISLAND] += 2 * math.pi
        made.GetRasterBand(1).WriteArray(values)

    def test_a_known_uplift(self) -> None:
        self.runs(argv("scenes", self.scenes, "unit=radians", "page=no"))
        self.raise_island()
        self.runs(argv("wundjeska", "prep", "mintpy", self.scenes, self.out, *OF_MINTPY))
        with open(self.out / "mintpy.cfg", "a") as template:
            template.write("mintpy.reference.yx = 20,20\n")
        for step in ("load_data", "reference_point", "quick_overview", "invert_network"):
            self.runs([*(MINTPY or ()), "mintpy.cfg", "--dostep", step], cwd=self.out, env=DRAWN)
        self.check_what_was_found()

    def check_what_was_found(self) -> None:
        import h5py

        is_land = np.ones(SHAPE, bool)
        is_land[LAKE] = False
        with h5py.File(self.out / "inputs/ifgramStack.h5") as stack:
            for name, land, island in (("connectComponent", 1, 2), ("coherence", 0.9, 0.9)):
                wanted = np.where(is_land, land, 0.0)
                wanted[ISLAND] = island
                np.testing.assert_allclose(stack[name][:], np.broadcast_to(wanted, stack[name].shape), rtol=1e-6)
        with h5py.File(self.out / "numTriNonzeroIntAmbiguity.h5") as found:
            self.assertEqual((set(found["mask"][is_land]), set(np.unique(found["mask"][ISLAND]))), ({0}, {LOOPS}))
        with h5py.File(self.out / "timeseries.h5") as found:
            self.assertEqual([day.decode() for day in found["date"]], list(DAYS))
            moved = found["timeseries"][:]
        motion = np.array([uplift(number) - uplift(number)[20, 20] for number in range(len(DAYS))])
        self.assertLess(np.abs(moved - motion)[:, is_land].max(), ENOUGH)


if __name__ == "__main__":
    unittest.main()
