"""Tests what `frames` keeps: it goes on where it stopped, and what was changed in its folder since is made anew. And what it tells
to be undecided, and how it looks for narrow features."""
import re
import sys
import unittest
import warnings
from pathlib import Path
from typing import List, Tuple

import numpy as np
from helpers import HERE, TOP, InFolder, command, raster
from osgeo import gdal

import wundjeska
from wundjeska.commands.frames import frames_of
from wundjeska.pictures import any_thinned
from wundjeska.planes import CYCLE, phases_of
from wundjeska.reduced import Flags, Reduced

sys.path.append(str(TOP / "recipes/kit"))
from truth import scene_of, shares  # type: ignore[import]  # noqa: E402

KIT = (HERE / "kit/phase.tif", "--coherence", HERE / "kit/coherence.tif")
SIZES = ("--side", 80, "--overlap", 24, "--jobs", 1, "--agree", 0.5)
NAME = "frame-0-0"


class Kept(InFolder):
    def frames(self, *words: object) -> Tuple[str, np.ndarray]:
        """What the command told, and the joint surface."""
        made = self.folder / "joined.tif"
        status, told = command("frames.py", *KIT, "--folder", self.folder / "frames", *SIZES, *words, made)
        self.assertEqual(status, 0, told)
        return told, gdal.Open(str(made)).ReadAsArray()

    def kept(self, kind: str) -> Path:
        return self.folder / "frames" / f"{NAME}.{kind}"

    def is_made_anew(self, first: np.ndarray) -> None:
        """That the changed frame is unwrapped again, and the others are not."""
        told, found = self.frames()
        self.assertRegex(told, f"{NAME}: .*: accepted, costs [0-9]+, of its guide, .*undecided\n")
        self.assertEqual(told.count("accepted in an earlier run"), 3)
        np.testing.assert_array_equal(found, first)

    def test_what_was_changed_is_made_anew(self) -> None:
        first = self.frames()[1]
        told, found = self.frames()
        self.assertEqual(told.count("accepted in an earlier run"), 4)
        np.testing.assert_array_equal(found, first)

        values = np.load(self.kept("values.npy"))
        values[20:40, 20:40] += 7 * 65536
        np.save(self.kept("values.npy"), values)
        self.is_made_anew(first)
        np.save(self.kept("pieces.npy"), np.ones(values.shape, np.int32))
        self.is_made_anew(first)
        np.save(self.kept("values.npy"), np.array([{"a": 1}]), allow_pickle=True)
        self.is_made_anew(first)
        report = self.kept("report").read_bytes()
        self.kept("report").write_bytes(report.replace(b"\ncosts ", b"\ncosts 1", 1) + b"\n")
        self.is_made_anew(first)

    def test_a_model_is_taken_off_and_added_again(self) -> None:
        told, found = self.frames("--model", 2, "--agree", 0)
        self.assertRegex(told, "model: 64 by 52 blocks of 2 by 2 pixels: accepted, costs [0-9]+, of its guide")
        self.assertIn("accepted its guide, of the phase less the model", told)
        note = gdal.Open(str(self.folder / "joined.tif")).GetMetadataItem("WUNDJESKA_MODEL")
        self.assertIn("blocks of 2 by 2 pixels", note)
        there = np.isfinite(gdal.Open(str(KIT[2])).ReadAsArray())  # the coherence where a pixel is masked is not
        wanted = phases_of(gdal.Open(str(KIT[0])).ReadAsArray())[there]
        np.testing.assert_array_equal(np.rint(found[there].astype(np.float64) * CYCLE) % CYCLE, wanted)

    def test_files_that_are_cut_or_gone(self) -> None:
        first = self.frames()[1]
        for kind in ("values.npy", "pieces.npy", "undecided.npy", "f.npy", "report", "session", "sums"):
            whole = self.kept(kind).read_bytes()
            for left in (b"", whole[: len(whole) // 2], b"foreign\n"):
                with self.subTest(kind=kind, left=left[:8]):
                    self.kept(kind).write_bytes(left)
                    self.is_made_anew(first)
            self.kept(kind).unlink()
            self.is_made_anew(first)

    def test_frames_without_narrow_features_are_made_anew_with_them(self) -> None:
        self.frames()
        phase = gdal.Open(str(KIT[0])).ReadAsArray()
        for words, kept in ((("--narrow",), 0), (("--narrow",), 4), ((), 0), (("--no-filter",), 0), (("--no-filter",), 4)):
            told, found = self.frames(*words, "--float64")
            self.assertEqual(told.count("accepted in an earlier run"), kept, words)
            off = found * CYCLE - phases_of(phase)
            self.assertTrue((off[phase != -9999] % CYCLE == 0).all())
            note = gdal.Open(str(self.folder / "joined.tif")).GetMetadataItem("WUNDJESKA_FILTER")
            self.assertEqual("narrower" in note, words == ("--narrow",))


class Torn(InFolder):
    def test_a_model_where_a_fault_cuts_the_overlaps(self) -> None:
        scene = scene_of("torn-4-medium-white-9702", 512)
        phase = raster(self.folder / "phase.tif", np.angle(scene.product))
        given = (phase, "--coherence", raster(self.folder / "c.tif", scene.estimated))
        for words, status, most in (((), 0, 2), (("--model", 0), 1, 100)):
            made = self.folder / f"joined{len(words)}.tif"
            sizes = ("--side", 200, "--overlap", 40, "--folder", self.folder / "frames")
            ended, told = command("frames.py", *given, *sizes, *words, "--float64", made)
            self.assertEqual(ended, status, told)
            values = np.rint(gdal.Open(str(made)).ReadAsArray() * CYCLE).astype(np.int64)
            self.assertLess(shares(scene, values)[1], most)


class Undecided(InFolder):
    def written(self, phase: np.ndarray, coherence: np.ndarray, *words: object) -> Tuple[np.ndarray, List[str], str]:
        """The numbers of undecided parts, f of each, and what the joint surface tells."""
        files = ("--folder", self.folder / "frames", "--undecided", self.folder / "undecided.tif", "--force")
        given = (raster(self.folder / "phase.tif", phase), "--coherence", raster(self.folder / "c.tif", coherence))
        status, told = command("frames.py", *given, *files, *words, self.folder / "joined.tif")
        self.assertIn(status, (0, 1), told)
        found = gdal.Open(str(self.folder / "undecided.tif"))
        note = gdal.Open(str(self.folder / "joined.tif")).GetMetadataItem("WUNDJESKA_UNDECIDED")
        return found.ReadAsArray(), found.GetMetadataItem("WUNDJESKA_F").split(), note

    def test_parts_are_those_of_each_frame(self) -> None:
        """Of one frame, and of two, where the first is a mirror of the second: each has its part at the outer border."""
        scene = scene_of("fault-4-medium-wide-9211", 320)
        phase, coherence = np.angle(scene.product).astype(np.float32), scene.estimated.astype(np.float32)
        with warnings.catch_warnings():
            warnings.simplefilter("ignore", wundjeska.Caution)
            wanted = wundjeska.unwrap(phase, coherence).undecided
        assert wanted is not None and len(wanted.f) == 1
        numbers, f, note = self.written(phase, coherence)
        np.testing.assert_array_equal(numbers, wanted.labels)
        self.assertEqual(f, [f"{wanted.f[0]:.3f}"])
        self.assertEqual(note, f"1 undecided part of {np.count_nonzero(numbers)} pixels")

        both = (np.concatenate([plane[:, ::-1], plane], axis=1) for plane in (phase, coherence))
        numbers, f, note = self.written(*both, "--side", 340, "--overlap", 40)
        self.assertEqual((len(f), note), (2, f"2 undecided parts of {np.count_nonzero(numbers)} pixels"))
        for number, half in ((1, numbers[:, 319::-1]), (2, numbers[:, 320:])):
            self.assertEqual(np.unique(half).tolist(), [0, number])
            self.assertGreater((half > 0)[wanted.labels > 0].mean(), 0.9)
            self.assertLess((half > 0)[wanted.labels == 0].mean(), 0.01)

    def test_words_that_want_a_filter(self) -> None:
        folder = ("--folder", self.folder / "frames", "--no-filter")
        for line, word in (("narrow features want a filter", "--narrow"), ("--undecided wants a filter", "--undecided=u.tif")):
            status, told = command("frames.py", *KIT, *folder, word, self.folder / "joined.tif")
            self.assertEqual(status, 2)
            self.assertIn(line, told)


class Pages(InFolder):
    def test_what_is_taken_up_by_windows_is_as_maps_thin_it(self) -> None:
        """By frames whose corners are no multiples of the step, 3."""
        values = np.random.default_rng(5).normal(size=(700, 2100)).astype(np.float32)
        values[values > 2] = np.nan
        surface = Reduced((2100, 700))
        flags = Flags(surface)
        for frame in frames_of((2100, 700), 512, 100, self.folder):
            x, y, width, height = frame.core
            part = values[y : y + height, x : x + width]
            surface.add(frame.core, part)
            flags.add(frame.core, part > 1.9)
        np.testing.assert_array_equal(surface.values, values[::3, ::3])
        np.testing.assert_array_equal(flags.flags, any_thinned(values > 1.9))
        known = values[~np.isnan(values)]
        self.assertEqual((surface.count, surface.low, surface.high), (len(known), known.min(), known.max()))

    def page(self, *words: object) -> str:
        page = self.folder / "page.html"
        status, told = command("frames.py", *words, "--folder", self.folder / "frames", "--page", page, self.folder / "o.tif")
        self.assertEqual(status, 0, told)
        return page.read_text()

    def test_of_a_large_raster(self) -> None:
        """A slope of 0.3 radians a pixel, and a masked pixel that maps leave out."""
        slope = 0.3 * np.arange(1300) + np.zeros((90, 1))
        slope[31, 701] = np.nan
        phase = raster(self.folder / "phase.tif", np.angle(np.exp(1j * slope)))
        page = self.page(phase, "--side", 500, "--overlap", 50, "--no-filter")
        self.assertIn("1300 by 90 pixels, joined of 3 frames", page)
        self.assertIn("drawn from a reduced raster of 650 by 45 pixels", page)
        self.assertIn(f"116999 pixels have a value, from 0.000 to {0.3 * 1299 / (2 * np.pi):.3f} cycles", page)
        self.assertEqual(re.findall(r"<li>frame-0-([01]) and frame-0-[12]: [0-9]+ of [0-9]+ pixels agree", page), ["0", "1"])
        self.assertIn("The joint of the frames is not covered by any certificate or proof", page)
        self.assertEqual(page.count('class="map"'), 1)
        self.assertIn("overlaps: all agree at 95 %", page)

    def test_what_is_undecided_and_the_reference_are_drawn(self) -> None:
        page = self.page(*KIT, *SIZES, "--reference", 100, 20)
        self.assertEqual(page.count('class="map"'), 2)
        self.assertIn("Where no filter makes other cycles", page)
        self.assertIn("<title>reference: pixel", page)
        self.assertNotIn("reduced raster", page)


if __name__ == "__main__":
    unittest.main()
