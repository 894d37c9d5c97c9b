"""Tests of how GeoTIFFs are laid out: GDAL's own judge of cloud-optimized ones, and overviews that have the numbers as they are."""
import unittest
from unittest import mock

import numpy as np
from helpers import InFolder, command, raster
from osgeo import gdal
from osgeo_utils.samples import validate_cloud_optimized_geotiff as judge

from wundjeska import layout
from wundjeska.rasters import close, create_like, put_array
from wundjeska.trouble import Trouble

SHAPE = (700, 1300)  # rows and columns, which have overviews of 350 by 650 and of 175 by 325
SPREAD = np.arange(SHAPE[0] * SHAPE[1], dtype=np.int64).reshape(SHAPE)
NONE = -9999


class LaidOut(InFolder):
    def written(self, values: np.ndarray, kind: int, nodata: float = 0) -> gdal.Dataset:
        """A raster that was written by windows which are no tiles."""
        path, like = self.folder / "made.tif", gdal.Open(raster(self.folder / "like.tif", np.zeros(values.shape)))
        made = create_like(path, like, kind, nodata, "cycles", {"VERDICT": "accepted"})
        for row in range(0, values.shape[0], 300):
            for column in range(0, values.shape[1], 401):
                put_array(made, values[row : row + 300, column : column + 401], column, row)
        close(made, path)
        return gdal.Open(str(path))

    def has(self, made: gdal.Dataset, values: np.ndarray) -> None:
        """That a raster and its overviews have these numbers, in tiles."""
        band = made.GetRasterBand(1)
        parts = [band, *(band.GetOverview(number) for number in range(band.GetOverviewCount()))]
        for level, part in enumerate(parts):
            np.testing.assert_array_equal(part.ReadAsArray(), values[:: 2**level, :: 2**level])
            self.assertEqual(part.GetBlockSize(), [512, 512])
        self.assertEqual(made.GetMetadataItem("COMPRESSION", "IMAGE_STRUCTURE"), "DEFLATE")

    def test_numbers_of_each_kind(self) -> None:
        """Also those that 32-bit floats do not hold: 2^24 + 1 and more, and parts of 1/65536 above 256."""
        cycles = np.where(SPREAD % 7 == 0, NONE, 1000 + SPREAD / 65536)
        for kind, values, nodata in (
            (gdal.GDT_UInt32, 2**24 + 1 + SPREAD, 0),
            (gdal.GDT_Int32, -(2**24) - 1 - SPREAD, 1),
            (gdal.GDT_UInt16, SPREAD % 65521, 0),
            (gdal.GDT_Float64, cycles, NONE),
            (gdal.GDT_Float32, cycles.astype(np.float32), NONE),
        ):
            with self.subTest(kind=kind):
                made = self.written(values, kind, nodata)
                self.has(made, values)
                self.assertEqual(made.GetRasterBand(1).GetOverviewCount(), 2)
                self.assertEqual(made.GetRasterBand(1).GetNoDataValue(), nodata)
                self.assertEqual(judge.validate(str(self.folder / "made.tif"), full_check=True)[:2], ([], []))

    def test_what_fits_a_tile_has_no_overview(self) -> None:
        for shape, count in (((512, 512), 0), ((513, 1), 1), ((1, 1025), 2)):
            values = SPREAD.ravel()[: shape[0] * shape[1]].reshape(shape)
            made = self.written(values, gdal.GDT_UInt32)
            self.has(made, values)
            self.assertEqual(made.GetRasterBand(1).GetOverviewCount(), count)

    def test_without_the_driver(self) -> None:
        with mock.patch.object(layout, "can_lay_out", lambda: False):
            self.has(self.written(SPREAD, gdal.GDT_UInt32), SPREAD)

    def test_a_failure_names_the_file_and_leaves_nothing(self) -> None:
        with mock.patch.object(layout, "CLOUD", ["COMPRESS=JPEG"]), self.assertRaisesRegex(Trouble, "made.tif cannot be written"):
            self.written(SPREAD, gdal.GDT_UInt32)
        self.assertEqual(list(self.folder.glob("*.cog*")), [])

    def test_by_the_command(self) -> None:
        """A slope of 0.1 radians a pixel, which overviews have with its cycles."""
        slope = np.round(0.1 * np.arange(1100) + np.zeros((60, 1)), 6)
        phase = raster(self.folder / "phase.tif", (slope + np.pi) % (2 * np.pi) - np.pi)
        status, told = command("wundjeska", phase, "--no-filter", "--components", self.folder / "parts.tif", self.folder / "o.tif")
        self.assertEqual(status, 0, told)
        for name in ("o.tif", "parts.tif"):
            self.assertEqual(judge.validate(str(self.folder / name), full_check=True)[:2], ([], []))
        made, parts = (gdal.Open(str(self.folder / name)) for name in ("o.tif", "parts.tif"))
        np.testing.assert_allclose(made.GetRasterBand(1).GetOverview(0).ReadAsArray(), slope[::2, ::2] / (2 * np.pi), atol=1e-4)
        self.assertEqual(parts.GetRasterBand(1).GetOverview(1).ReadAsArray().tolist(), [[1] * 275] * 15)


if __name__ == "__main__":
    unittest.main()
