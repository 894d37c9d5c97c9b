"""Tests rasters that are larger than tiles may be, in one call: arrays, files, sessions and pages; and what is still too large."""
import io
import unittest
from contextlib import redirect_stdout
from dataclasses import replace
from pathlib import Path
from typing import Any, Tuple
from unittest import mock

import numpy as np
from helpers import InFolder, raster
from osgeo import gdal

import wundjeska
from wundjeska import nearest
from wundjeska.commands import closure, live, page, scenes, session, unwrap
from wundjeska.planes import CYCLE, TILED_LIMITS, WHOLE_LIMITS, plane_of
from wundjeska.report_reader import BrokenLine, read_report_from
from wundjeska.scene_words import wanted
from wundjeska.screening import WEAK
from wundjeska.trouble import Trouble

SHAPE = (3, 5000)
SMALL = replace(TILED_LIMITS, side=7, pixels=40)
TILED_LINE = (
    r"5000 by 3 pixels; a raster in tiles has at most 4096 a side and 4194304 in all\. Without tiles it is solved at once, up to "
    r"65535 a side and 268435456 in all$"
)
WHOLE_LINE = r"by [0-9]+ pixels; a raster has at most 65535 a side and 268435456 in all\. `wundjeska frames` .*cuts larger rasters"


def surface() -> np.ndarray:
    """A slope with a hill, in 1/65536 cycle."""
    y, x = np.mgrid[: SHAPE[0], : SHAPE[1]]
    return np.rint(1500 * x + 900 * y + 20 * CYCLE * np.exp(-(((x - 2500) / 400) ** 2))).astype(np.int64)


def phasors(values: np.ndarray) -> np.ndarray:
    return np.exp(2j * np.pi / CYCLE * values)


def no_numbers(shape: Tuple[int, int]) -> np.ndarray:
    """An array of this shape that takes no memory."""
    return np.broadcast_to(np.complex64(1), shape)


class Limits(unittest.TestCase):
    def test_what_they_hold(self) -> None:
        for limits, most in ((TILED_LIMITS, ((4096, 1024), (1, 4096))), (WHOLE_LIMITS, ((65535, 4096), (1, 65535), (16384, 16384)))):
            for shape in (*most, *(shape[::-1] for shape in most)):
                self.assertTrue(limits.hold(shape))
        for limits, least in ((TILED_LIMITS, ((4096, 1025), (1, 4097))), (WHOLE_LIMITS, ((65535, 4097), (1, 65536), (16384, 16385)))):
            for shape in (*least, *(shape[::-1] for shape in least)):
                self.assertFalse(limits.hold(shape))

    def test_windows_cover_each_pixel_once(self) -> None:
        for shape in ((1, 1), (7, 5), (8, 5), (5, 8), (30, 3), (3, 30), (15, 16)):
            count = np.zeros(shape, dtype=int)
            for part in SMALL.windows(shape):
                self.assertTrue(SMALL.hold(count[part].shape))
                count[part] += 1
            self.assertTrue((count == 1).all())


class Parts(unittest.TestCase):
    def test_the_nearest_surface_is_the_same_part_by_part(self) -> None:
        dice = np.random.default_rng(4)
        for _ in range(3):
            shape = tuple(dice.integers(1, 20, 2))
            phase, opened = dice.integers(0, CYCLE, shape).astype(np.uint16), dice.random(shape) < 0.8
            guide = dice.integers(-(2**40), 2**40, shape)
            with mock.patch.object(nearest, "TILED_LIMITS", SMALL):
                found = nearest.nearest(phase, guide, opened)
            np.testing.assert_array_equal(found, nearest.by_numpy(phase, guide, opened))


class Arrays(unittest.TestCase):
    def test_the_whole_at_once(self) -> None:
        values = surface()
        for chain in (None, "fourier"):
            found = wundjeska.unwrap(phasors(values), filter=chain)
            self.assertEqual((found.verdict, found.components.min(), found.components.max()), ("accepted", 1, 1))
            np.testing.assert_array_equal(found.values - found.values[0, 0], values - values[0, 0])

    def test_a_screen(self) -> None:
        coherence = np.full(SHAPE, 0.8)
        coherence[:, :50] = 0.1
        found = wundjeska.unwrap(phasors(surface()), coherence, filter=None, screen={"coherence": 0.3})
        assert found.dropped is not None
        np.testing.assert_array_equal(found.dropped == WEAK, coherence < 0.3)
        np.testing.assert_array_equal(np.isnan(found.phase), coherence < 0.3)

    def refused(self, line: str, igram: Any, **words: Any) -> None:
        with self.assertRaisesRegex(Trouble, line):
            wundjeska.unwrap(igram, **words)

    def test_what_is_too_large(self) -> None:
        self.refused(TILED_LINE, no_numbers(SHAPE), tile=64)
        for shape in ((1, 65536), (65536, 1), (16385, 16384)):
            self.refused(WHOLE_LINE, no_numbers(shape))

    def test_texts_in_tiles_and_of_the_whole(self) -> None:
        for kind, size, number in (
            (b"report 1", b"5000 3", 2),
            (b"whole 1", b"5000 3", 3),
            (b"whole 1", b"65536 1", 2),
            (b"whole 1", b"16385 16384", 2),
            (b"whole 1", b"16384 16384", 3),
        ):
            with self.assertRaises(BrokenLine) as broken:
                read_report_from(io.BytesIO(b"insar-%b\nsize %b\n" % (kind, size)))
            self.assertEqual(broken.exception.number, number)


def run(verb: Any, *words: object) -> int:
    """The status of a verb."""
    status: int = verb.main(verb.words().parse_args(list(map(str, words))))
    return status


class Files(InFolder):
    def setUp(self) -> None:
        super().setUp()
        self.phase = raster(self.folder / "phase.tif", np.angle(phasors(surface())))

    def path(self, name: str) -> Path:
        return self.folder / name

    def test_a_surface_its_page_and_its_sessions(self) -> None:
        names = ("filtered", "text", "raw", "page.html", "made.tif", "session", "other.html")
        filtered, text, raw, drawn, made, own, other = map(self.path, names)
        kept = ("--session", filtered, "--report", text, "--unfiltered", raw, "--page", drawn)
        with redirect_stdout(io.StringIO()) as told:
            self.assertEqual(run(unwrap, self.phase, *kept, "--quiet", made), 0)
            self.assertEqual(run(session, self.phase, own), 0)
            self.assertEqual(run(page, filtered, text, "--unfiltered", raw, other), 0)
        self.assertIn("made.tif: accepted, 5000 by 3 pixels", told.getvalue())
        self.assertIn("other.html: accepted\n", told.getvalue())
        found = gdal.Open(str(made)).ReadAsArray()
        np.testing.assert_allclose(found - found[0, 0], (surface() - surface()[0, 0]) / CYCLE, atol=1e-4)
        self.assertEqual(own.read_bytes(), raw.read_bytes())

    def refused(self, line: str, verb: Any, *words: object) -> None:
        with self.assertRaisesRegex(Trouble, line):
            run(verb, *words)

    def test_what_is_too_large(self) -> None:
        script, made = self.path("script"), self.path("made.tif")
        script.write_bytes(b"analyst\nsettle\nshow\nend\n")
        self.refused(TILED_LINE, unwrap, self.phase, "--tile", 64, made)
        self.refused(TILED_LINE, session, self.phase, "--script", script, made)
        loop = (self.phase, self.phase, self.phase, "--unit", "radians")
        self.refused("a surface of a loop has at most 4096 a side", closure, *loop, made)
        large = self.path("large.tif")
        gdal.GetDriverByName("GTiff").Create(str(large), 16385, 16384, 1, gdal.GDT_Float32, ["SPARSE_OK=TRUE"]).FlushCache()
        for verb in (unwrap, session):
            self.refused(WHOLE_LINE, verb, large, made)

    def test_loops_of_scenes_are_refused_before_these_are_solved(self) -> None:
        for name in ("20200101_20200113", "20200113_20200125", "20200101_20200125"):
            self.path(name).mkdir()
            path = str(self.path(name) / "phase.tif")
            gdal.GetDriverByName("GTiff").Create(path, 4096, 1025, 1, gdal.GDT_Float32, ["SPARSE_OK=TRUE"]).FlushCache()
        with self.assertRaisesRegex(Trouble, "^closure=yes: a scene has 4198400 pixels, and a loop has at most 4194304$"):
            scenes.config_of(self.folder, wanted({"closure": "yes"}), "")

    def test_a_session_that_is_watched(self) -> None:
        kept = self.path("session")
        kept.write_bytes(plane_of(np.zeros(SHAPE, np.uint16), CYCLE - 1))
        asked = live.words().parse_args([str(kept), str(self.path("page.html"))])
        with self.assertRaisesRegex(Trouble, TILED_LINE):
            live.run_of(kept.read_bytes(), asked)


if __name__ == "__main__":
    unittest.main()
