"""Tests what needs GDAL and no program: what is read of rasters, places, units, and how a raster is cut into frames."""
import math
import unittest
from typing import List, Optional, Tuple

import numpy as np
from helpers import InFolder, command, raster
from osgeo import gdal, osr

from wundjeska.commands import frames
from wundjeska.rasters import Band, open_raster, whole

GRID = "ncols 3\nnrows 2\nxllcorner 0\nyllcorner 0\ncellsize 1\nNODATA_value -9223372036854775808\n"
SLOPE = GRID + "0 32768 65536\n-9223372036854775808 98304 -655360\n"  # in cycles: 0, 0.5, 1 and NODATA, 1.5, -10


class Reading(InFolder):
    def test_nodata_and_what_is_no_number_is_masked(self) -> None:
        scene = self.scene([[0, -9999, math.nan], [math.inf, 1, -math.inf]], nodata=-9999)
        self.assertEqual(
            scene.read(whole(scene.phase.raster))[2].tolist(), [[True, False, False], [False, True, False]]
        )

    def test_a_complex_0_and_a_complex_nodata_are_masked(self) -> None:
        scene = self.scene([[0, 1j, -2, 5, complex(math.nan, 1), 5 + 1j]], kind=gdal.GDT_CFloat32, nodata=5)
        phase, _, opened = scene.read(whole(scene.phase.raster))
        self.assertEqual(opened.tolist(), [[False, True, True, False, False, True]])
        self.assertEqual(phase[0, 1:3].tolist(), [16384, 32768])

    def test_coherence_and_mask(self) -> None:
        scene = self.scene([[1, 1, 1, 1]])
        scene.coherence = Band(
            open_raster(raster(self.folder / "c.tif", np.array([[51, 255, 0, 204]]), gdal.GDT_Byte, 0))
        )
        scene.mask = Band(open_raster(raster(self.folder / "m.tif", np.array([[1, 0, 1, 9]]), gdal.GDT_Byte)))
        scene.highest, scene.least = 255, 0.25
        _, weights, opened = scene.read(whole(scene.phase.raster))
        self.assertEqual((weights.tolist(), opened.tolist()), ([[51, 255, 1, 204]], [[False, False, False, True]]))

    def refused(self, other: object, status: int, *words: str) -> None:
        """That a session of a raster of 2 by 2 pixels and this coherence is refused, and its line has the words."""
        phase = raster(self.folder / "phase.tif", np.ones((2, 2)))
        ended, line = command("to_session.py", phase, "--coherence", other, self.folder / "session")
        self.assertEqual((ended, [word for word in words if word not in line]), (status, []), line)
        self.assertEqual(line.count("\n"), 1)

    def test_what_does_not_fit_is_refused(self) -> None:
        path = self.folder / "other.tif"
        self.refused(raster(path, np.ones((2, 3))), 3, "3 by 2 pixels", "2 by 2")
        self.refused(raster(path, np.ones((2, 2)), place=(5e5 + 15, 30, 0, 4e6, 0, -30)), 3, "another place")
        self.refused(raster(path, np.ones((2, 2)), epsg=32634), 3, "another place")
        self.refused(raster(path, np.full((2, 2), 200.0)), 3, "200", "--coherence-max")
        self.refused(raster(path, np.full((2, 2), math.nan)), 3, "no pixel that is open")
        self.refused(self.folder / "none.tif", 5, "none.tif")

    def test_a_large_raster_is_sent_to_frames(self) -> None:
        path = str(self.folder / "large.tif")
        gdal.GetDriverByName("GTiff").Create(path, 65535, 4097, 1, gdal.GDT_Float32, ["SPARSE_OK=TRUE"]).FlushCache()
        status, line = command("to_session.py", path, self.folder / "session")
        self.assertEqual((status, "frames.py" in line), (3, True))


class Writing(InFolder):
    def written(self, *words: object, like: Optional[str] = None, grid: str = SLOPE) -> gdal.Dataset:
        """The GeoTIFF of a grid in the place of a raster of three by two pixels."""
        like = like or raster(self.folder / "like.tif", np.ones((2, 3)))
        (self.folder / "grid").write_text(grid)
        status, line = command("to_geotiff.py", self.folder / "grid", "--like", like, *words, self.folder / "made.tif")
        self.assertEqual((status, "nothing certifies this surface" in line), (0, True), line)
        return gdal.Open(str(self.folder / "made.tif"))

    def test_units(self) -> None:
        asked: List[Tuple[List[str], float]] = [
            ([], 1),
            (["--unit", "radians"], 2 * math.pi),
            (["--unit", "centimetres", "--wavelength", "0.056"], 2.8),
            (["--unit", "metres", "--wavelength", "0.24", "--turn"], -0.12),
        ]
        for words, factor in asked:
            with self.subTest(words=words):
                made = self.written(*words, "--float64")
                wanted = np.array([[0, 0.5, 1], [0, 1.5, -10]]) * factor
                wanted[1, 0] = -9999
                np.testing.assert_allclose(made.ReadAsArray(), wanted, rtol=1e-12)
                self.assertEqual(made.GetRasterBand(1).GetNoDataValue(), -9999)

    def test_a_reference_pixel_is_0(self) -> None:
        self.assertEqual(self.written("--reference", 2, 0).ReadAsArray().tolist(), [[-1, -0.5, 0], [-9999, 0.5, -11]])
        for pixel in ((0, 1), (3, 0), (0, -1)):
            words = ("--like", self.folder / "like.tif", "--reference", *pixel, self.folder / "made.tif")
            self.assertEqual(command("to_geotiff.py", self.folder / "grid", *words)[0], 3)

    def test_places_and_systems_are_kept(self) -> None:
        for place in ((5e5, 30, 0, 4e6, 0, -30), (14, 0.001, 0, 40, 0, 0.001), (5e5, 20, 7, 4e6, 7, -20)):
            for point in (False, True):
                with self.subTest(place=place, point=point):
                    like = raster(self.folder / "like.tif", np.ones((2, 3)), place=place, point=point, epsg=4326)
                    made = self.written(like=like)
                    np.testing.assert_allclose(made.GetGeoTransform(), gdal.Open(like).GetGeoTransform(), rtol=1e-12)
                    self.assertTrue(made.GetSpatialRef().IsSame(gdal.Open(like).GetSpatialRef()))
                    self.assertEqual(made.GetMetadataItem("AREA_OR_POINT"), "Point" if point else "Area")

    def test_ground_control_points_are_kept(self) -> None:
        like = gdal.Open(raster(self.folder / "like.tif", np.ones((2, 3)), place=None, epsg=None), gdal.GA_Update)
        system = osr.SpatialReference()
        system.ImportFromEPSG(4326)
        like.SetGCPs([gdal.GCP(14 + x, 40 + y, 0, x, y) for x, y in ((0, 0), (3, 0), (0, 2))], system)
        del like
        made = self.written(like=str(self.folder / "like.tif"))
        self.assertEqual([(gcp.GCPX, gcp.GCPY, gcp.GCPPixel, gcp.GCPLine) for gcp in made.GetGCPs()][1], (17, 40, 3, 0))

    def test_a_raster_without_a_place_has_none_after(self) -> None:
        like = raster(self.folder / "like.tif", np.ones((2, 3)), place=None, epsg=None)
        self.assertIsNone(self.written(like=like).GetGeoTransform(can_return_null=True))

    def test_what_cannot_be_written_is_refused(self) -> None:
        (self.folder / "grid").write_text(SLOPE)
        (self.folder / "none").write_text("")
        like, made = raster(self.folder / "like.tif", np.ones((3, 2))), self.folder / "made.tif"
        fits = raster(self.folder / "fits.tif", np.ones((2, 3)))
        for words, status in (
            (("grid", like), 3),
            (("none", fits), 3),
            (("missing", fits), 5),
            (("grid", fits, "--unit", "metres"), 2),
            (("grid", fits, "--output-nodata", "1.5"), 3),
        ):
            with self.subTest(words=words):
                surface, raster_like, *more = words
                ended, line = command("to_geotiff.py", self.folder / surface, "--like", raster_like, *more, made)
                self.assertEqual((ended, line.count("\n")), (status, 1), line)


class Cutting(unittest.TestCase):
    def test_frames_cover_a_side_and_overlap(self) -> None:
        for length in range(1, 300):
            for side, overlap in ((2, 1), (7, 3), (64, 16), (100, 99)):
                spans = frames.spans_of(length, side, overlap)
                cores = frames.cores_of(spans)
                self.assertEqual((spans[0][0], sum(spans[-1])), (0, length))
                self.assertLessEqual(max(size for _, size in spans), max(side, 1))
                self.assertTrue(all(a + size - b >= overlap for (a, size), (b, _) in zip(spans, spans[1:])))
                self.assertEqual(sum(size for _, size in cores), length)
                self.assertTrue(all(a <= c and c + d <= a + b for (a, b), (c, d) in zip(spans, cores)))


if __name__ == "__main__":
    unittest.main()
