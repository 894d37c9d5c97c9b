"""Tests of arrays as callers hand them over, and of inputs that are no phases, or are named in other ways."""
import math
import resource
import unittest
import warnings
from pathlib import Path
from typing import Any, Dict, Optional, Tuple

import numpy as np
from helpers import InFolder, command, raster
from osgeo import gdal

import wundjeska
from wundjeska.rasters import Band, open_raster
from wundjeska.trouble import Trouble

RAMP = 0.4 * np.arange(40)[None, :] + 0.3 * np.arange(30)[:, None]
IGRAM, COHERENCE = np.exp(1j * RAMP), np.full(RAMP.shape, 0.8)
OUT = np.zeros(RAMP.shape, dtype=bool)
OUT[:, 20:23] = True


def masked(values: np.ndarray, mask: Any = False) -> np.ndarray:
    """A masked array of numpy.ma."""
    found: np.ndarray = np.ma.array(values, mask=mask)  # type: ignore[no-untyped-call]
    return found


class Labelled:
    """An array as xarray and rioxarray hand it over."""

    def __init__(self, values: np.ndarray, attrs: Optional[Dict[str, Any]] = None):
        self.values, self.attrs, self.dims = values, attrs or {}, ("y", "x")


class Wrapped:
    """An object that makes an array of itself when NumPy asks."""

    def __init__(self, values: np.ndarray):
        self.held = values

    def __array__(self, dtype: Any = None) -> np.ndarray:
        return self.held if dtype is None else self.held.astype(dtype)


def unwrapped(*arrays: Any, **words: Any) -> wundjeska.Unwrapped:
    """What comes of arrays, whose masks are known to leave parts that do not touch."""
    with warnings.catch_warnings():
        warnings.simplefilter("ignore", wundjeska.Caution)
        return wundjeska.unwrap(*arrays, **words)


class MaskedArrays(unittest.TestCase):
    def closes(self, *arrays: Any, **words: Any) -> None:
        """That these arrays leave out what is to be left out, and that the rest is as of a mask."""
        found, wanted = unwrapped(*arrays, **words), unwrapped(IGRAM, COHERENCE, mask=~OUT)
        np.testing.assert_array_equal(found.values, wanted.values)
        np.testing.assert_array_equal(np.isnan(found.phase), OUT)
        np.testing.assert_array_equal(found.components, wanted.components)

    def test_masks_of_all_three(self) -> None:
        for igram in (IGRAM, np.angle(IGRAM), np.angle(IGRAM).astype(np.float32)):
            self.closes(masked(igram, mask=OUT), COHERENCE)
        self.closes(IGRAM, masked(COHERENCE, mask=OUT))
        self.closes(IGRAM, COHERENCE, mask=masked(np.ones(RAMP.shape), mask=OUT))
        self.closes(IGRAM, COHERENCE, mask=masked(~OUT, mask=OUT))
        self.closes(masked(IGRAM), masked(COHERENCE), mask=masked(~OUT))

    def test_what_lies_below_a_mask_is_never_read(self) -> None:
        for below in (np.nan, np.inf, 1e30, -9999.0):
            self.closes(masked(np.where(OUT, below, np.angle(IGRAM)), mask=OUT), COHERENCE)
            self.closes(IGRAM, masked(np.where(OUT, below, COHERENCE), mask=OUT))

    def test_labelled_arrays(self) -> None:
        for kind in (Labelled, Wrapped):
            with self.subTest(kind=kind.__name__):
                self.closes(kind(np.where(OUT, np.nan, np.angle(IGRAM))), kind(COHERENCE))
                self.closes(kind(masked(IGRAM, mask=OUT)), kind(COHERENCE))
                self.closes(IGRAM, kind(np.where(OUT, np.nan, COHERENCE)))
                self.closes(IGRAM, kind(masked(COHERENCE, mask=OUT)))
                self.closes(IGRAM, COHERENCE, mask=kind(np.where(OUT, np.nan, 1.0)))
                self.closes(IGRAM, COHERENCE, mask=kind(masked(~OUT, mask=OUT)))

    def test_the_number_that_a_labelled_array_tells(self) -> None:
        filled = np.where(OUT, np.float32(-0.1), np.angle(IGRAM).astype(np.float32))
        self.closes(Labelled(filled, {"_FillValue": -0.1}), COHERENCE)
        self.closes(IGRAM, Labelled(np.where(OUT, -9999.0, COHERENCE), {"_FillValue": -9999.0}))

    def test_a_labelled_array_that_tells_that_it_is_no_phase(self) -> None:
        for attrs in (
            {"units": "cycles"},
            {"units": "m"},
            {"WUNDJESKA_UNIT": "cycles"},
            {"WUNDJESKA_VERSION": "0.1.0"},
        ):
            with self.assertRaisesRegex(Trouble, "and no wrapped phase|a wrapped phase is in radians"):
                wundjeska.unwrap(Labelled(np.angle(IGRAM), attrs), COHERENCE)  # type: ignore[arg-type]
        self.closes(Labelled(np.where(OUT, np.nan, np.angle(IGRAM)), {"units": "radians"}), COHERENCE)

    def test_xarray(self) -> None:
        try:
            import xarray
        except ImportError:
            self.skipTest("python3-xarray is not there")
        self.closes(xarray.DataArray(masked(IGRAM.copy(), mask=OUT), dims=("y", "x")), xarray.DataArray(COHERENCE))
        holes = xarray.DataArray(COHERENCE).where(xarray.DataArray(~OUT))
        self.closes(xarray.DataArray(IGRAM), holes)
        self.closes(xarray.DataArray(IGRAM), xarray.DataArray(COHERENCE), mask=xarray.DataArray(~OUT))

    def test_a_number_for_no_value(self) -> None:
        self.closes(np.where(OUT, np.float32(3.3), np.angle(IGRAM).astype(np.float32)), COHERENCE, nodata=3.3)
        self.closes(IGRAM, np.where(OUT, -1, COHERENCE), nodata=-1)
        self.closes(np.where(OUT, np.nan, IGRAM), COHERENCE, nodata=math.nan)

    def test_an_array_that_is_all_masked(self) -> None:
        with self.assertRaisesRegex(Trouble, "no pixel that is open"):
            wundjeska.unwrap(masked(IGRAM, mask=True), COHERENCE)


class NamesOfSnaphu(unittest.TestCase):
    def same(self, *arrays: Any, **words: Any) -> None:
        found, wanted = wundjeska.unwrap(*arrays, **words), wundjeska.unwrap(IGRAM, COHERENCE, looks=4)
        np.testing.assert_array_equal(found.values, wanted.values)
        self.assertEqual(found.cost, wanted.cost)

    def test_its_words(self) -> None:
        self.same(IGRAM, COHERENCE, 4)
        self.same(IGRAM, COHERENCE, 4.0, mask=np.ones(RAMP.shape))
        self.same(igram=IGRAM, corr=COHERENCE, nlooks=4)
        self.same(IGRAM, corr=COHERENCE, looks=4)

    def test_both_names_are_refused(self) -> None:
        both: Tuple[Dict[str, Any], ...] = ({"corr": COHERENCE}, {"nlooks": 4, "looks": 4})
        for words in both:
            with self.assertRaisesRegex(Trouble, "both are given"):
                unwrapped(IGRAM, COHERENCE, **words)

    def test_a_phase_of_many_cycles_and_a_coherence_of_bytes(self) -> None:
        found = wundjeska.unwrap(RAMP, COHERENCE * 250, wrap=True, coherence_max=250)
        np.testing.assert_array_equal(found.values, wundjeska.unwrap(IGRAM, COHERENCE).values)


def tagged(path: Path, values: np.ndarray, unit: str = "", **metadata: str) -> str:
    """A raster that tells its unit and more."""
    made = gdal.Open(raster(path, values), gdal.GA_Update)
    made.GetRasterBand(1).SetUnitType(unit)
    for name, value in metadata.items():
        made.SetMetadataItem(name, value)
    made.FlushCache()
    return str(path)


class NoPhases(InFolder):
    def refused(self, status: int, *words: object) -> str:
        """The one line by which a command ends with a status."""
        made = self.folder / "made.tif"
        ended, told = command("wundjeska", *words, made)
        self.assertEqual((ended, told.count("\n"), made.exists()), (status, 1, False), told)
        return told

    def test_units_that_are_no_radians(self) -> None:
        for unit in (
            "cycles",
            "Cycle",
            "m",
            "metres",
            "meter",
            "centimetres",
            "cm",
            "mm",
            "mm/yr",
            "m year-1",
            "degrees",
        ):
            with self.subTest(unit=unit):
                path = tagged(self.folder / "phase.tif", np.angle(IGRAM), unit)
                self.assertIn(f"phase.tif is in {unit}", self.refused(3, path))

    def test_units_of_radians_are_taken(self) -> None:
        for number, unit in enumerate(("radians", "radian", "rad", "", "1")):
            path = tagged(self.folder / "phase.tif", np.angle(IGRAM), unit)
            self.assertEqual(command("wundjeska", path, self.folder / f"made{number}.tif")[0], 0, unit)

    def test_products_are_no_phases(self) -> None:
        phase, cycles, parts = (self.folder / name for name in ("phase.tif", "cycles.tif", "parts.tif"))
        tagged(phase, np.angle(IGRAM))
        self.assertEqual(command("wundjeska", phase, "--components", parts, cycles)[0], 0)
        self.assertIn("cycles.tif is a product of this program in cycles", self.refused(3, cycles))
        self.assertIn("parts.tif is a product", self.refused(3, parts))
        self.assertIn("parts.tif is a product", self.refused(3, phase, "--coherence", parts))
        self.assertIn("is a product", self.refused(3, cycles, "--wrap"))
        self.assertEqual(command("wundjeska", phase, "--mask", parts, self.folder / "masked.tif")[0], 0)

    def test_a_product_in_radians_can_be_wrapped_again(self) -> None:
        phase, radians, again = (self.folder / name for name in ("phase.tif", "radians.tif", "again.tif"))
        tagged(phase, np.angle(IGRAM))
        self.assertEqual(command("wundjeska", phase, "--unit", "radians", radians)[0], 0)
        self.assertIn("is a product", self.refused(3, radians))
        self.assertEqual(command("wundjeska", radians, "--wrap", "--unit", "radians", again)[0], 0)
        one, other = (gdal.Open(str(path)).ReadAsArray() for path in (radians, again))
        np.testing.assert_allclose(one, other, atol=2e-4)


class OtherNames(InFolder):
    def surface(self, *words: object) -> np.ndarray:
        """The surface that comes of these words."""
        made = self.folder / "made.tif"
        status, told = command("wundjeska", *words, made)
        self.assertEqual(status, 0, told)
        found: np.ndarray = gdal.Open(str(made)).ReadAsArray()
        return found

    def wanted(self) -> np.ndarray:
        phase = raster(self.folder / "wanted.tif", np.angle(IGRAM))
        return self.surface(phase, "--coherence", raster(self.folder / "coherence.tif", COHERENCE))

    def refused(self, *words: object) -> str:
        status, told = command("wundjeska", *words, self.folder / "no.tif")
        self.assertEqual((status != 0, told.count("\n")), (True, 1), told)
        return told

    def test_bands_of_parts_of_complex_numbers(self) -> None:
        """Bands of coherence, i and q, as SNAP writes them."""
        path = self.folder / "snap.tif"
        made = gdal.GetDriverByName("GTiff").Create(str(path), 40, 30, 3, gdal.GDT_Float32)
        for number, values in enumerate((COHERENCE, 7 * IGRAM.real, 7 * IGRAM.imag), 1):
            made.GetRasterBand(number).WriteArray(values)
        made.GetRasterBand(3).WriteArray(np.zeros((1, 2)))
        made.GetRasterBand(2).WriteArray(np.zeros((1, 2)))
        del made
        found, wanted = self.surface(path, "--band", "2,3", "--coherence", path, "--coherence-band", 1), self.wanted()
        self.assertEqual(found[0, :2].tolist(), [-9999, -9999])
        np.testing.assert_allclose((found - wanted)[1:], np.rint(found[1, 1] - wanted[1, 1]), atol=2e-5)
        for bands in ("2,", "2,x", "2,3,4", "0,3", "2,4"):
            self.assertIn("band", self.refused(path, "--band", bands))

    def test_arrays_in_files(self) -> None:
        phase, coherence, mask = (str(self.folder / f"{name}.npy") for name in ("phase", "coherence", "mask"))
        np.save(phase, IGRAM.astype(">c8"))
        np.save(coherence, COHERENCE.astype(np.float16))
        np.save(mask, ~OUT)
        found = self.surface(phase, "--coherence", coherence, "--mask", mask)
        np.testing.assert_array_equal(found == -9999, OUT)
        wanted = self.wanted()
        np.testing.assert_allclose(found[:, :20], wanted[:, :20], atol=2e-5)
        self.assertIn("is an input", command("to_session.py", phase, "--coherence", coherence, coherence)[1])

    def test_an_array_is_read_by_windows(self) -> None:
        """Of an array of 4 GB, nearly all of them a hole in its file, no more is held than what is read."""
        held, path = resource.getrusage(resource.RUSAGE_SELF).ru_maxrss, str(self.folder / "large.npy")
        large = np.lib.format.open_memmap(path, "w+", np.complex64, (20000, 25000))  # type: ignore[no-untyped-call]
        large[15003, 24007] = 1j
        values, there = Band(open_raster(path)).read((24000, 15000, 30, 20))
        self.assertEqual((np.argwhere(there).tolist(), values[3, 7]), ([[3, 7]], 1j))
        self.assertLess(resource.getrusage(resource.RUSAGE_SELF).ru_maxrss - held, 10**6)

    def test_arrays_that_are_none(self) -> None:
        path = self.folder / "phase.npy"
        for values in (np.zeros(3), np.zeros((2, 2, 2)), np.zeros((0, 2)), np.array([["a"]]), np.array([[{}]])):
            np.save(path, values)
            self.assertIn("phase.npy", self.refused(path))
        np.save(path, IGRAM)
        for content in (b"", b"\x93NUMPY", path.read_bytes()[:-9], b"no array"):
            path.write_bytes(content)
            self.assertIn("phase.npy", self.refused(path))
        self.assertIn("none.npy", self.refused(self.folder / "none.npy"))

    def container(self) -> Path:
        """A file of HDF5 with groups, as NISAR's."""
        path = self.folder / "nisar.h5"
        made = gdal.GetDriverByName("netCDF").CreateMultiDimensional(str(path))
        for track in ("HH", "VV"):
            group = made.GetRootGroup().CreateGroup(track)
            sides = [group.CreateDimension(name, None, None, size) for name, size in (("y", 30), ("x", 40))]
            for name, values in (("phase", np.angle(IGRAM)), ("coherence", COHERENCE)):
                kind = gdal.ExtendedDataType.Create(gdal.GDT_Float64)
                group.CreateMDArray(name, sides, kind).Write(values)
            del group, sides
        del made
        return path

    def test_parts_of_a_file_by_name(self) -> None:
        path = self.container()
        found = self.surface(f"{path}:HH/phase", "--coherence", f"{path}:HH/coherence")
        np.testing.assert_array_equal(found, self.wanted())
        for words in ((path,), (f"{path}:amplitude",), (f"{path}:phase",)):
            told = self.refused(*words)
            self.assertIn("nisar.h5:HH/phase, ", told)
            self.assertIn("nisar.h5:VV/phase", told)
        self.assertEqual(command("to_session.py", f"{path}:HH/phase", path)[0], 2)
        self.assertIn("no parts", self.refused(raster(self.folder / "phase.tif", np.angle(IGRAM)) + ":phase"))

    def test_bytes_in_the_wrong_order_make_no_warnings(self) -> None:
        path = self.folder / "gamma.cc"
        np.random.default_rng(1).random((64, 64)).astype(">f4").tofile(path)
        self.assertIn("no phases in radians", self.refused(path, "--width", 64, "--form", "float"))
        phase = self.folder / "gamma.diff"
        np.exp(1j * np.random.default_rng(2).random((64, 64))).astype(">c8").tofile(phase)
        self.assertIn("wanted 0 to 1", self.refused(phase, "--width", 64, "--coherence", path))

    def test_names_that_are_not_of_utf_8(self) -> None:
        phase = raster(self.folder / "phase.tif", np.angle(IGRAM))
        self.assertIn("UTF-8", self.refused(self.folder / "none\udcff.tif"))
        status, told = command("wundjeska", phase, self.folder / "made\udcff.tif", errors="surrogateescape")
        self.assertEqual((status, told.count("\n"), "UTF-8" in told), (5, 1, True), told)
        status, told = command("to_session.py", phase, self.folder / "session\udcff", errors="surrogateescape")
        self.assertEqual((status, "session\udcff: 40 by 30" in told), (0, True), told)


if __name__ == "__main__":
    unittest.main()
