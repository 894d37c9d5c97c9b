"""Tests an expected ramp: how it is estimated, where a session keeps it, and that all verbs hand it on to the program."""
import io
import subprocess
import unittest
from pathlib import Path
from typing import Tuple

import numpy as np
from helpers import InFolder, argv, command, raster
from osgeo import gdal

import wundjeska
from wundjeska.planes import CYCLE, Ramp, ramp_in, read_session, session_of
from wundjeska.program import Problem, check_report, ramp_words, run_program
from wundjeska.ramps import AUTO, Spectrum, checked, ramp_for, read_word
from wundjeska.report_reader import read_report_from
from wundjeska.trouble import Trouble

NAME = b"# wundjeska ramp"
FLANK = (0.8, 0.05)  # cycles a pixel
ALMOST = (32767, 0)  # the ramp by which it is unwrapped: differences from 0 to a cycle to the right


def sloped(shape: Tuple[int, int], ramp: Tuple[float, float], noise: float = 0.0) -> np.ndarray:
    """A slope of so many cycles a pixel to the right and downwards, with noise, in cycles; (rows, columns)."""
    y, x = np.mgrid[: shape[0], : shape[1]]
    made: np.ndarray = ramp[0] * x + ramp[1] * y + np.random.default_rng(7).normal(scale=noise, size=shape)
    return made


def found(cycles: np.ndarray, opened: np.ndarray) -> Ramp:
    """The ramp that is estimated of a surface in cycles."""
    phase = (np.rint(cycles * CYCLE).astype(np.int64) % CYCLE).astype(np.uint16)
    ramp = ramp_for(AUTO, phase, np.ones_like(phase), opened, "the test")
    assert ramp is not None
    return ramp


class Estimates(unittest.TestCase):
    def near(self, ramp: Ramp, wanted: Tuple[float, float], cycles: float) -> None:
        """That slopes are the wanted ones, in cycles a pixel and up to whole ones."""
        for slope, rate in zip(ramp, wanted):
            off = slope / CYCLE - rate
            self.assertLess(abs(off - round(off)), cycles, (ramp, wanted))
            self.assertTrue(-32768 <= slope <= 32767)

    def test_slopes(self) -> None:
        for rates in ((0, 0), (0.1, -0.2), (-0.37, 0.004), (0.499, 0.25), (-0.5, 0.5), (0.8, 0.0), (0.013, -0.49)):
            with self.subTest(rates=rates):
                self.near(found(sloped((100, 130), rates), np.ones((100, 130), bool)), rates, 0.002)

    def test_slopes_in_strong_noise(self) -> None:
        for rates in ((0.31, -0.07), (-0.45, 0.2)):
            with self.subTest(rates=rates):
                self.near(found(sloped((200, 200), rates, 0.25), np.ones((200, 200), bool)), rates, 0.01)

    def test_the_commonest_rate_of_two(self) -> None:
        cycles = np.hstack([sloped((96, 160), (0.3, 0.1)), sloped((96, 64), (-0.2, -0.4))])
        self.near(found(cycles, np.ones(cycles.shape, bool)), (0.3, 0.1), 0.005)

    def test_masked_pixels_tell_nothing(self) -> None:
        cycles, opened = sloped((96, 96), (0.2, 0.3)), np.zeros((96, 96), bool)
        opened[:, :30] = True
        cycles[~opened] = 0
        self.near(found(cycles, opened), (0.2, 0.3), 0.01)

    def test_lines_and_small_rasters(self) -> None:
        self.assertEqual(found(sloped((1, 64), (0.25, 0)), np.ones((1, 64), bool)), (CYCLE // 4, 0))
        self.assertEqual(found(sloped((64, 1), (0, -0.25)), np.ones((64, 1), bool)), (0, -CYCLE // 4))
        self.near(found(sloped((8, 8), (0.2, -0.3)), np.ones((8, 8), bool)), (0.2, -0.3), 0.02)
        self.assertEqual(found(np.zeros((1, 1)), np.ones((1, 1), bool)), (0, 0))

    def test_noise_and_no_pixel_tell_no_ramp(self) -> None:
        for seed, side in enumerate((256, 100, 64, 40, 32, 20, 10, 3) * 4):
            noise = np.random.default_rng(seed).random((side, side))
            self.assertEqual(found(noise, np.ones((side, side), bool)), (0, 0), side)
        self.assertEqual(found(np.zeros((40, 40)), np.zeros((40, 40), bool)), (0, 0))

    def test_blocks_add_up(self) -> None:
        phase = (sloped((64, 96), (0.1, 0.2), 0.1) * CYCLE % CYCLE).astype(np.uint16)
        ones, whole, parts = np.ones_like(phase), Spectrum(), Spectrum()
        whole.add(phase, ones, ones > 0)
        for x in (0, 32, 64):
            parts.add(phase[:, x : x + 32], ones[:, :32], ones[:, :32] > 0)
        np.testing.assert_allclose(whole.power, parts.power)


class Words(unittest.TestCase):
    def test_the_words_of_a_ramp(self) -> None:
        self.assertEqual(ramp_words((30000, 0)), ["--ramp-x", "30000"])
        self.assertEqual(ramp_words((-1, -32768)), ["--ramp-x", "65535", "--ramp-y", "32768"])
        self.assertEqual((ramp_words((0, 0)), ramp_words(None)), ([], []))

    def test_what_is_read(self) -> None:
        self.assertEqual((read_word("-13107,0"), read_word("auto")), ((-13107, 0), AUTO))
        self.assertEqual(read_word("32767,-32768"), (32767, -32768))
        for text in ("32768,0", "0,-32769", "52429,0", "0.5,0", "1", "1,2,3", "", "x", "1, 2", "١,0", "9" * 5000 + ",0"):
            with self.subTest(text=text[:20]):
                self.assertRaises(Exception, read_word, text)

    def test_what_is_taken_in_python(self) -> None:
        self.assertEqual((checked(None), checked("auto"), checked(np.array([1, -2]))), (None, AUTO, (1, -2)))
        for ramp in ("1,2", (0.5, 0), (1,), (32768, 0), (0, 0, 0)):
            self.assertRaises(Trouble, checked, ramp)

    def test_a_session_keeps_its_ramp(self) -> None:
        phase = np.array([[35, 35], [10, 80]], dtype=np.uint16)  # bytes that look like a comment
        for ramp in (None, (0, 0), (-32768, 32767)):
            text = session_of(phase, phase, phase > 10, ramp=ramp)
            self.assertEqual((ramp_in(text), read_session(text).ramp), (ramp, ramp))
            np.testing.assert_array_equal(read_session(text).phase, phase)
        text = session_of(phase, phase, phase > 10, ramp=(7, -8))
        self.assertTrue(text.startswith(b"P5\n# wundjeska ramp 7 -8\n2 2\n65535\n"))

    def test_comments(self) -> None:
        session = b"P2 # by hand\n# wundjeska ramp 7 -8\r# more 1 2\n2 1\n65535 \n 7\t00008 \n"
        self.assertEqual(ramp_in(session), (7, -8))
        self.assertIsNone(ramp_in(session.replace(b"wundjeska", b"another")))
        self.assertIsNone(ramp_in(b"no session"))
        self.assertIsNone(ramp_in(b"P5\n2 3\n255\n# wundjeska ramp 7 -8\n"))
        for broken in (b" 7", b" 7 -8 9", b" 7 32768", b" 7,-8", b" 07 8", b"", b" 7 x", b"s 7 8"):
            with self.subTest(broken=broken):
                self.assertRaises(Trouble, ramp_in, session.replace(b" 7 -8", broken))
        self.assertRaises(Trouble, ramp_in, session.replace(b"# more", b"# wundjeska ramp 7 8\n# more"))


class WithAFlank(InFolder):
    def setUp(self) -> None:
        super().setUp()
        self.cycles = sloped((70, 90), FLANK, 0.02)
        self.phase = raster(self.folder / "phase.tif", np.angle(np.exp(2j * np.pi * self.cycles)))
        self.session = self.folder / "session"

    def made(self, word: str) -> str:
        """What is told where a session is made with a ramp."""
        status, told = command("to_session.py", self.phase, "--ramp", word, self.session)
        self.assertEqual(status, 0, told)
        return told


class OfASession(WithAFlank):
    def test_what_is_told(self) -> None:
        line = "ramp -13107,7: -0.2000 cycle a pixel to the right, 0.0001 downwards; the program wants --ramp-x 52429 --ramp-y 7\n"
        self.assertIn(line, self.made("-13107,7"))
        self.assertIn("the program wants no words for it\n", self.made("0,0"))
        self.made("-13107,7")
        self.assertTrue(self.session.read_bytes().startswith(b"P5\n" + NAME + b" -13107 7\n90 70\n65535\n"))

    def test_auto_tells_the_rate_up_to_whole_cycles(self) -> None:
        self.made("auto")
        across, down = ramp_in(self.session.read_bytes()) or (0, 0)
        self.assertLess(abs(across / CYCLE + 0.2) + abs(down / CYCLE - 0.05), 0.004)

    def test_the_program_skips_the_comment(self) -> None:
        self.made("0,0")
        text = self.session.read_bytes()
        without = text.replace(NAME + b" 0 0\n", b"")
        self.assertEqual(run_program(["grid"], text, "it"), run_program(["grid"], without, "it"))

    def test_mistakes_end_in_one_line(self) -> None:
        for word in ("32768,0", "0.8,0", "fast", "7", "-7"):
            status, told = command("to_session.py", self.phase, "--ramp", word, self.session)
            self.assertEqual((status, told.count("\n"), "--ramp" in told, self.session.exists()), (2, 1, True, False), told)


class OfTheProgram(WithAFlank):
    """By a program that takes a ramp."""

    def report(self, *words: str) -> Path:
        path = self.folder / "report"
        path.write_bytes(run_program(["unwrap", "--tile", "32", *words], self.session.read_bytes(), "it"))
        return path

    def off(self, values: np.ndarray) -> float:
        """The share of pixels that are off by whole cycles from the surface that the phase was made of."""
        cycles = np.rint(values - self.cycles)
        return float((cycles != cycles[0, 0]).mean())

    def test_arrays(self) -> None:
        igram = np.exp(2j * np.pi * self.cycles)
        plain, ramped = wundjeska.unwrap(igram), wundjeska.unwrap(igram, ramp=ALMOST)
        self.assertGreater(self.off(plain.phase / (2 * np.pi)), 0.97)
        self.assertEqual(self.off(ramped.phase / (2 * np.pi)), 0)
        self.assertEqual((plain.ramp, ramped.ramp, ramped.verdict), (None, ALMOST, "accepted"))
        self.assertIsInstance(wundjeska.unwrap(igram, ramp="auto").ramp, tuple)

    def test_the_report_in_both_versions(self) -> None:
        igram, report = np.exp(2j * np.pi * self.cycles), self.folder / "report"
        wundjeska.unwrap(igram, ramp=ALMOST, report=report, tile=128)
        found = read_report_from(io.BytesIO(report.read_bytes()))
        self.assertEqual((found.version, found.ramp, found.steepness), (2, ALMOST, 1))
        wundjeska.unwrap(igram, ramp=(0, 0), report=report, tile=128)
        self.assertEqual(read_report_from(io.BytesIO(report.read_bytes())).version, 1)

    def test_surface_check_and_page_find_it(self) -> None:
        self.made("32767,0")
        report = self.report("--ramp-x", "32767")
        made, page = self.folder / "made.tif", self.folder / "page.html"
        moved = self.session.rename(self.folder / "moved")
        self.assertEqual(command("to_geotiff.py", report, "--session", moved, "--like", self.phase, made), (0, ""))
        self.assertEqual(self.off(gdal.Open(str(made)).ReadAsArray()), 0)
        self.assertEqual(gdal.Open(str(made)).GetMetadataItem("WUNDJESKA_RAMP"), "32767,0 in 1/65536 cycle a pixel")
        self.assertEqual(command("wundjeska", "check", moved, report), (0, "accepted\n"))
        self.assertEqual(command("page.py", moved, report, page)[0], 0)
        self.assertIn("at 0 edges inside tiles and 0 across seams", page.read_text())
        self.assertIn("the expected ramp 32767,0: 0.5000 cycle a pixel to the right, 0.0000 downwards.", page.read_text())

    def test_a_report_of_another_ramp_is_told_in_one_line(self) -> None:
        self.made("32767,0")
        report = self.report()
        line = "the session expects the ramp 32767,0 and the report is of 0,0; unwrap it by the words --ramp-x 32767\n"
        for words in (("check", self.session, report), ("page", self.session, report, self.folder / "page.html")):
            self.assertEqual(command("wundjeska", *words), (3, line))
        made = self.folder / "made.tif"
        told = command("to_geotiff.py", report, "--session", self.session, "--like", self.phase, made)
        self.assertEqual((told, made.exists()), ((3, line), False))
        self.session.write_bytes(self.session.read_bytes().replace(NAME + b" 32767 0\n", b""))
        self.assertEqual(command("wundjeska", "check", self.session, report), (0, "accepted\n"))

    def test_a_report_of_a_ramp_and_a_session_that_tells_none(self) -> None:
        self.assertEqual(command("to_session.py", self.phase, self.session)[0], 0)
        text, report = self.session.read_bytes(), self.report("--ramp-x", "40000", "--ramp-y", "9")
        sloped = Problem("least", 32, (40000 - CYCLE, 9))
        self.assertEqual(check_report(text, report.read_bytes(), sloped), (True, "accepted"))
        self.assertEqual(check_report(text, report.read_bytes(), Problem("least", 32)), (False, "refused header 5"))
        self.assertEqual(command("wundjeska", "check", self.session, report), (0, "accepted\n"))

    def test_all_in_one(self) -> None:
        made, kept = self.folder / "made.tif", self.folder / "kept"
        words = (self.phase, "--ramp", "32767,0", "--session", kept, "--page", self.folder / "page.html", made)
        status, told = command("wundjeska", *words)
        self.assertEqual(status, 0, told)
        self.assertEqual(self.off(gdal.Open(str(made)).ReadAsArray()), 0)
        self.assertIn("made.tif: ramp 32767,0: 0.5000 cycle a pixel to the right", told)
        self.assertEqual(gdal.Open(str(made)).GetMetadataItem("WUNDJESKA_RAMP"), "32767,0 in 1/65536 cycle a pixel")
        self.assertEqual(ramp_in(kept.read_bytes()), ALMOST)

    def test_frames(self) -> None:
        made, folder = self.folder / "made.tif", self.folder / "frames"
        words = (self.phase, "--folder", folder, "--side", "60", "--overlap", "20")
        for word, wrong in (("auto", 0.97), ("32767,0", 0)):
            status, told = command("frames.py", *words, "--ramp", word, made)
            self.assertEqual((status, "earlier run" in told), (0, False), told)
            self.assertGreaterEqual(self.off(gdal.Open(str(made)).ReadAsArray()), wrong)
        self.assertEqual(self.off(gdal.Open(str(made)).ReadAsArray()), 0)
        status, told = command("frames.py", *words, "--ramp", "32767,0", made)
        self.assertEqual((status, told.count("accepted in an earlier run")), (0, 4), told)
        self.assertIn("ramp 32767,0: 0.5000 cycle a pixel to the right, 0.0000 downwards\n", told)

    def test_scenes(self) -> None:
        scene = self.folder / "scenes/a scene"
        scene.mkdir(parents=True)
        Path(self.phase).rename(scene / "phase.tif")
        reports = {"32767,0": b"\nramp 32767 0\n", "-13107,3": b"\nramp -13107 3\n", "auto": b"\nramp -13"}
        for word, wanted in reports.items():
            words = argv("scenes", self.folder / "scenes", "--config", "without_coherence=yes", f"ramp={word}")
            ran = subprocess.run(words, capture_output=True, text=True)
            self.assertEqual(ran.returncode, 0, ran.stdout + ran.stderr)
            self.assertIn(wanted, (scene / "report").read_bytes()[:120])


if __name__ == "__main__":
    unittest.main()
