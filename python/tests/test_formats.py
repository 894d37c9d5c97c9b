"""Tests the one command on the formats in use: ISCE's raw files with XML or VRT, SNAPHU's raw files, GeoTIFF with NODATA."""
import math
import subprocess
import unittest
from pathlib import Path
from typing import Optional

import numpy as np
from helpers import InFolder, argv, raster
from osgeo import gdal

RAMP = 0.4 * np.arange(40)[None, :] + 0.3 * np.arange(30)[:, None]  # radians, without residues
WRAPPED = np.angle(np.exp(1j * RAMP)).astype(np.float32)
QUALITY = np.linspace(0.2, 0.9, RAMP.size).reshape(RAMP.shape).astype(np.float32)

XML = """<imageFile>
<property name="WIDTH"><value>{width}</value></property>
<property name="LENGTH"><value>{height}</value></property>
<property name="NUMBER_BANDS"><value>{bands}</value></property>
<property name="DATA_TYPE"><value>{kind}</value></property>
<property name="SCHEME"><value>{scheme}</value></property>
<property name="BYTE_ORDER"><value>l</value></property>
</imageFile>
"""


class Formats(InFolder):
    def unwrapped(self, *words: object) -> np.ndarray:
        """The GeoTIFF in radians that the command makes."""
        made = self.folder / "made.tif"
        words = (*words, "--unit", "radians", "--float64", made)
        ran = subprocess.run(argv("wundjeska", *words), capture_output=True, text=True)
        self.assertEqual(ran.returncode, 0, ran.stderr)
        found: np.ndarray = gdal.Open(str(made)).ReadAsArray()
        return found

    def refused(self, *words: object) -> str:
        words = (*words, self.folder / "made.tif")
        ran = subprocess.run(argv("wundjeska", *words), capture_output=True, text=True)
        self.assertNotEqual(ran.returncode, 0)
        self.assertEqual(len(ran.stderr.splitlines()), 1, ran.stderr)
        self.assertFalse((self.folder / "made.tif").exists())
        return ran.stderr

    def is_ramp(self, found: np.ndarray, masked: Optional[np.ndarray] = None) -> None:
        """That a surface is the ramp up to one number of cycles, and NODATA where it is masked."""
        masked = np.zeros(RAMP.shape, dtype=bool) if masked is None else masked
        np.testing.assert_array_equal(found == -9999, masked)
        cycles = ((found - RAMP) / (2 * math.pi))[~masked]
        np.testing.assert_allclose(cycles, np.rint(cycles[0]), atol=1e-4)

    def raw(self, name: str, values: np.ndarray, kind: str) -> Path:
        path = self.folder / name
        values.astype(kind).tofile(path)
        return path

    def isce(self, name: str, values: np.ndarray, kind: str, scheme: str = "BIL") -> Path:
        """A raw file with ISCE's XML beside it; the values are (bands, rows, columns), or (rows, columns)."""
        bands = values[None] if values.ndim == 2 else values
        path = self.raw(name, bands.transpose(1, 0, 2), {"CFLOAT": "<c8", "FLOAT": "<f4"}[kind])
        height, width = RAMP.shape
        Path(f"{path}.xml").write_text(
            XML.format(width=width, height=height, bands=len(bands), kind=kind, scheme=scheme)
        )
        return path

    def test_isce_with_xml(self) -> None:
        phase = self.isce("filt.int", 7 * np.exp(1j * RAMP), "CFLOAT")
        quality = self.isce("filt.cor", np.stack([QUALITY * 9, QUALITY]), "FLOAT")
        self.is_ramp(self.unwrapped(phase, "--coherence", quality, "--coherence-band", 2))
        self.is_ramp(self.unwrapped(f"{phase}.xml", "--coherence", quality, "--coherence-band", 2))
        self.assertIn("2 bands; name the one to read by --coherence-band", self.refused2(phase, "--coherence", quality))

    def refused2(self, *words: object) -> str:
        (self.folder / "made.tif").unlink()
        return self.refused(*words)

    def test_isce_unwrapped_with_a_phase_in_the_second_band(self) -> None:
        path = self.isce("filt.unw", np.stack([np.full(RAMP.shape, 3.0), RAMP]), "FLOAT")
        self.assertIn("--band", self.refused(path))
        self.assertIn("--wrap", self.refused(path, "--band", 2))
        self.is_ramp(self.unwrapped(path, "--band", 2, "--wrap"))

    def test_isce_with_vrt(self) -> None:
        phase = self.raw("filt.int", np.exp(1j * RAMP), "<c8")
        height, width = RAMP.shape
        Path(f"{phase}.vrt").write_text(
            f'<VRTDataset rasterXSize="{width}" rasterYSize="{height}"><VRTRasterBand dataType="CFloat32" band="1" '
            'subClass="VRTRawRasterBand"><SourceFilename relativeToVRT="1">filt.int</SourceFilename>'
            f"<ImageOffset>0</ImageOffset><PixelOffset>8</PixelOffset><LineOffset>{8 * width}</LineOffset>"
            "<ByteOrder>LSB</ByteOrder></VRTRasterBand></VRTDataset>"
        )
        self.is_ramp(self.unwrapped(phase))
        self.is_ramp(self.unwrapped(f"{phase}.vrt"))
        before = phase.read_bytes()
        self.assertEqual(subprocess.run(argv("wundjeska", f"{phase}.vrt", phase), capture_output=True).returncode, 2)
        self.assertEqual(phase.read_bytes(), before)

    def test_snaphu_and_gamma(self) -> None:
        pair = np.stack([np.full(RAMP.shape, 5.0), WRAPPED])
        quality = np.stack([np.full(RAMP.shape, 5.0), QUALITY])
        mask = np.ones(RAMP.shape, dtype=np.uint8)
        mask[3:5, 7:9] = 0
        masked = self.raw("mask", mask, "u1")
        for words in (
            (self.raw("complex", np.exp(1j * RAMP), "<c8"),),
            (self.raw("gamma", np.exp(1j * RAMP), ">c8"), "--big-endian"),
            (self.raw("float", WRAPPED, "<f4"), "--form", "float"),
            (self.raw("lines", pair.transpose(1, 0, 2), "<f4"), "--form", "alt-line"),
            (self.raw("samples", pair.transpose(1, 2, 0), "<f4"), "--form", "alt-sample"),
            (self.raw("complex", np.exp(1j * RAMP), "<c8"), "--coherence", self.raw("cc", QUALITY, "<f4")),
            (
                *(self.raw("complex", np.exp(1j * RAMP), "<c8"), "--coherence"),
                *(self.raw("corr", quality.transpose(1, 0, 2), "<f4"), "--coherence-form", "alt-line"),
            ),
        ):
            with self.subTest(words=words):
                self.is_ramp(self.unwrapped(*words, "--width", 40, "--mask", masked), mask == 0)

    def test_raw_files_that_do_not_fit(self) -> None:
        path = self.raw("complex", np.exp(1j * RAMP), "<c8")
        self.assertIn("no whole lines of 41 pixels", self.refused(path, "--width", 41))
        self.assertIn("--width", self.refused(path, "--width", 0))
        self.assertIn("complex", self.refused(path))
        self.assertIn("--width", self.refused(path, "--big-endian"))
        self.refused(self.raw("gamma", WRAPPED, ">f4"), "--width", 40, "--form", "float")  # the wrong order of bytes

    def test_nodata_by_the_file_and_by_words(self) -> None:
        values = WRAPPED.copy()
        values[2, 3], values[4, 5] = -9999, -7
        masked = (values == -9999) | (values == -7)
        path = raster(self.folder / "phase.tif", values, nodata=-9999)
        self.is_ramp(self.unwrapped(path, "--nodata", -7), masked)

    def test_components_and_a_least_size(self) -> None:
        mask = np.ones(RAMP.shape, dtype=np.uint8)
        mask[:, 30], mask[10:13, 10:13], mask[11, 11] = 0, 0, 1
        phase, water = (
            raster(self.folder / "phase.tif", WRAPPED),
            raster(self.folder / "water.tif", mask, gdal.GDT_Byte),
        )
        numbered = self.folder / "components.tif"
        self.unwrapped(phase, "--mask", water, "--components", numbered, "--least-component", 2)
        found = gdal.Open(str(numbered))
        wanted = np.where(mask == 0, 0, 1)
        wanted[:, 31:] = 2
        wanted[11, 11] = 0
        np.testing.assert_array_equal(found.ReadAsArray(), wanted)
        self.assertEqual(found.GetRasterBand(1).GetNoDataValue(), 0)
        self.assertEqual(found.GetGeoTransform(), gdal.Open(phase).GetGeoTransform())
        told = gdal.Open(str(self.folder / "made.tif")).GetMetadata()
        self.assertEqual((told["WUNDJESKA_VERDICT"].split(";")[0], told["WUNDJESKA_COMPONENTS"]), ("accepted", "2"))

    def test_a_reference_by_a_window(self) -> None:
        phase = raster(self.folder / "phase.tif", WRAPPED)
        found = self.unwrapped(phase, "--reference-window", 4, 5, 9, 7)
        np.testing.assert_allclose(found, RAMP - RAMP[5:8, 4:10].mean(), atol=1e-3)
        told = gdal.Open(str(self.folder / "made.tif")).GetMetadataItem("WUNDJESKA_REFERENCE")
        self.assertEqual(told, "mean of columns 4 to 9, rows 5 to 7")
        self.assertIn("within", self.refused2(phase, "--reference-window", 4, 5, 40, 7))
        self.assertIn("exclude", self.refused(phase, "--reference-window", 4, 5, 9, 7, "--reference", 1, 1))

    def test_what_is_kept_is_accepted(self) -> None:
        phase = raster(self.folder / "phase.tif", WRAPPED)
        names = [self.folder / name for name in ("session", "report", "page.html")]
        self.unwrapped(
            phase, "--session", names[0], "--report", names[1], "--page", names[2], "--tile", 16, "--rule", "mean", "--no-filter"
        )
        words = (names[1], "--session", names[0], "--like", phase, self.folder / "again.tif")
        ran = subprocess.run(argv("to_geotiff.py", *words), capture_output=True, text=True)
        self.assertEqual((ran.returncode, ran.stderr), (0, ""))
        self.assertEqual(gdal.Open(str(self.folder / "again.tif")).GetMetadataItem("WUNDJESKA_TILE_SIDE"), "16")
        self.assertIn("check: accepted", names[2].read_text())

    def test_a_report_is_checked_by_its_own_side_and_rule(self) -> None:
        phase = raster(self.folder / "phase.tif", WRAPPED)
        session, report = (self.folder / name for name in ("session", "report"))
        self.unwrapped(phase, "--session", session, "--report", report, "--tile", 7, "--rule", "product", "--no-filter")
        ran = subprocess.run(argv("wundjeska", "check", session, report), capture_output=True, text=True)
        self.assertEqual((ran.returncode, ran.stdout, ran.stderr), (0, "accepted\n", ""))
        report.write_bytes(report.read_bytes().replace(b"\ncosts 0 ", b"\ncosts 1 "))
        ran = subprocess.run(argv("wundjeska", "check", session, report), capture_output=True, text=True)
        self.assertEqual((ran.returncode, ran.stdout), (1, "refused surface 0 tilecost 1 0\n"))

    def test_a_surface_that_is_not_checked(self) -> None:
        phase = raster(self.folder / "phase.tif", WRAPPED)
        self.unwrapped(phase, "--no-check")
        told = gdal.Open(str(self.folder / "made.tif")).GetMetadataItem("WUNDJESKA_VERDICT")
        self.assertIn("not checked", told)

    def test_two_outputs_of_one_name(self) -> None:
        phase = raster(self.folder / "phase.tif", WRAPPED)
        self.assertIn("two outputs", self.refused(phase, "--components", self.folder / "made.tif"))


if __name__ == "__main__":
    unittest.main()
