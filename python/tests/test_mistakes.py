"""Tests that no mistake destroys a file, is taken silently, or ends in more than one line.

Each names what went wrong once.
"""
import math
import os
import resource
import shutil
import signal
import subprocess
import time
import unittest
from pathlib import Path
from typing import Any, Dict, Optional, Tuple

import numpy as np
from helpers import TOP, InFolder, Told, argv, raster
from osgeo import gdal

from wundjeska.program import program

KIT = TOP / "recipes/kit"
HALF_LOADED = """import os, signal
try:
    os.kill(os.getpid(), signal.SIGINT)
except BaseException:
    pass
raise ImportError("numpy.core.multiarray failed to import")
"""
PHASE, COHERENCE = KIT / "phase.tif", KIT / "coherence.tif"


def command(name: str, *words: object, **more: Any) -> Told:
    """Runs a recipe; its status and what it wrote on standard error."""
    ran = subprocess.run(argv(name, *words), capture_output=True, text=True, timeout=60, **more)
    return ran.returncode, ran.stderr


def limited() -> None:
    """In the child: no file grows beyond 10,000 bytes, as on a full disk."""
    resource.setrlimit(resource.RLIMIT_FSIZE, (10000, 10000))


class Mistakes(InFolder):
    def at(self, name: str) -> Path:
        return self.folder / name

    def refused(self, told: Told, *words: str, status: Optional[int] = None) -> None:
        """That a command ended in one line, with these words."""
        ended, line = told
        self.assertNotEqual(ended, 0, line)
        self.assertEqual([word for word in words if word not in line], [], line)
        lines = [text for text in line.splitlines() if not text.startswith("warning: ")]
        self.assertEqual(len(lines), 1, line)
        if status is not None:
            self.assertEqual(ended, status, line)

    def session_and_report(self) -> Tuple[Path, Path]:
        """Those of the kit."""
        session, report = self.at("session"), self.at("report")
        self.assertEqual(command("to_session.py", PHASE, "--coherence", COHERENCE, session)[0], 0)
        with open(session) as read, open(report, "wb") as written:
            subprocess.run([program(), "unwrap", "--tile", "128"], stdin=read, stdout=written, check=True)
        return session, report


class NothingIsLost(Mistakes):
    def keeps(self, path: Path, name: str, *words: object) -> None:
        """That a command refuses, and a file is as it was."""
        before = path.read_bytes()
        self.refused(command(name, *words), path.name, "input")
        self.assertEqual(path.read_bytes(), before)

    def test_a_session_over_its_raster(self) -> None:
        phase, coherence = self.at("phase.tif"), self.at("coherence.tif")
        shutil.copy(PHASE, phase)
        shutil.copy(COHERENCE, coherence)
        self.keeps(phase, "to_session.py", phase, "--coherence", COHERENCE, phase)
        self.keeps(coherence, "to_session.py", PHASE, "--coherence", coherence, coherence)

    def test_another_name_of_the_same_file(self) -> None:
        phase, link, hard = self.at("phase.tif"), self.at("link.tif"), self.at("hard.tif")
        shutil.copy(PHASE, phase)
        link.symlink_to(phase)
        os.link(phase, hard)
        for name in (link, hard):
            before = phase.read_bytes()
            self.refused(command("to_session.py", phase, name), name.name, "input")
            self.assertEqual(phase.read_bytes(), before)

    def test_a_file_that_a_vrt_names(self) -> None:
        phase, vrt = self.at("phase.tif"), self.at("phase.vrt")
        shutil.copy(PHASE, phase)
        gdal.BuildVRT(str(vrt), [str(phase)]).FlushCache()
        self.keeps(phase, "to_session.py", vrt, phase)

    def test_a_geotiff_over_its_likeness_or_report(self) -> None:
        phase = self.at("phase.tif")
        shutil.copy(PHASE, phase)
        _, report = self.session_and_report()
        self.keeps(phase, "to_geotiff.py", report, "--like", phase, phase)
        self.keeps(report, "to_geotiff.py", report, "--like", phase, report)

    def test_frames_over_their_raster(self) -> None:
        phase = self.at("phase.tif")
        shutil.copy(PHASE, phase)
        self.keeps(phase, "frames.py", phase, "--folder", self.at("frames"), phase)

    def test_a_page_or_arrays_over_a_report(self) -> None:
        session, report = self.session_and_report()
        self.keeps(report, "page.py", session, report, report)
        self.keeps(report, "report_reader.py", report, "--save", report)

    def test_a_run_that_fails_leaves_what_stood_there(self) -> None:
        made, stood = self.at("made.tif"), self.at("made")
        stood.write_bytes(b"what stood there")
        _, report = self.session_and_report()
        like = ("--like", PHASE, "--force")
        self.assertEqual(command("to_geotiff.py", report, *like, made)[0], 0)
        before = made.read_bytes()
        for told in (
            command("to_session.py", raster(self.at("nan.tif"), np.full((3, 3), math.nan)), stood),
            command("to_session.py", PHASE, stood, preexec_fn=limited),
            command("to_geotiff.py", report, *like, "--float64", made, preexec_fn=limited),
            command("to_geotiff.py", self.at("none"), *like, made),
        ):
            self.refused(told)
            self.assertEqual((stood.read_bytes(), made.read_bytes()), (b"what stood there", before))
        self.assertEqual([path.name for path in self.folder.glob(".*")], [])

    def test_statistics_of_the_raster_before_do_not_stay(self) -> None:
        _, report = self.session_and_report()
        made = self.at("made.tif")
        words = ("to_geotiff.py", report, "--like", PHASE, made)
        self.assertEqual(command(*words)[0], 0)
        subprocess.run(["gdalinfo", "-stats", made], check=True, capture_output=True)
        self.assertEqual(command(*words, "--unit", "radians")[0], 0)
        self.assertFalse(self.at("made.tif.aux.xml").exists())

    def test_a_device_is_not_replaced(self) -> None:
        null = self.at("null")
        os.mkfifo(null)
        self.refused(command("to_session.py", PHASE, null), "no regular file")
        self.assertTrue(null.is_fifo())


class NothingIsMisread(Mistakes):
    def session(self, path: str, *words: object) -> Told:
        return command("to_session.py", path, *words, self.at("session"))

    def scaled(self, values: np.ndarray, scale: float, offset: float = 0.0, kind: int = gdal.GDT_Int16) -> str:
        path = raster(self.at("scaled.tif"), values, kind)
        made = gdal.Open(path, gdal.GA_Update)
        made.GetRasterBand(1).SetScale(scale)
        made.GetRasterBand(1).SetOffset(offset)
        made.FlushCache()
        return path

    def phases(self) -> np.ndarray:
        """The phases of the session, from its planes."""
        text = self.at("session").read_bytes()
        magic, width, height = text.split(maxsplit=3)[:3]
        start = len(b"P5\n%b %b\n65535\n" % (width, height))
        size = int(width) * int(height)
        return np.frombuffer(text[start : start + 2 * size], dtype=">u2").reshape(int(height), int(width))

    def test_scale_and_offset_are_applied(self) -> None:
        path = self.scaled(
            np.array([[0, 15708, 31416, -15708]]), 1e-4
        )  # a quarter, a half and minus a quarter of a turn
        self.assertEqual(self.session(path)[0], 0)
        np.testing.assert_allclose(self.phases(), [[0, 16384, 32768, 49152]], atol=1)
        path = self.scaled(np.array([[0, 100]]), math.pi / 200, math.pi / 2, gdal.GDT_Byte)
        self.assertEqual(self.session(path)[0], 0)
        np.testing.assert_array_equal(self.phases(), [[16384, 32768]])

    def test_a_coherence_by_its_scale(self) -> None:
        phase = raster(self.at("phase.tif"), np.zeros((1, 3)))
        path = self.scaled(np.array([[0, 51, 255]]), 1 / 255, 0, gdal.GDT_Byte)
        self.assertEqual(self.session(phase, "--coherence", path)[0], 0)
        self.assertIn(b"P5\n3 1\n255\n\x01\x33\xff", self.at("session").read_bytes())

    def test_what_cannot_be_radians_is_refused(self) -> None:
        for name, values, kind in (
            ("degrees", np.linspace(-180, 180, 400).reshape(20, 20), gdal.GDT_Float32),
            ("whole numbers", np.arange(9).reshape(3, 3), gdal.GDT_Int16),
            ("bytes", np.arange(9).reshape(3, 3), gdal.GDT_Byte),
            ("unwrapped", np.linspace(0, 40, 9).reshape(3, 3), gdal.GDT_Float32),
            ("far", np.full((3, 3), 1e9), gdal.GDT_Float32),
        ):
            with self.subTest(name=name):
                path = raster(self.at("phase.tif"), values, kind)
                self.refused(self.session(path), "phase.tif", "radians", status=3)
                self.assertFalse(self.at("session").exists())

    def test_radians_of_an_unwrapped_phase_by_wrap(self) -> None:
        path = raster(self.at("phase.tif"), np.array([[0, math.pi, 2 * math.pi, 20.5 * math.pi]]))
        self.assertEqual(self.session(path, "--wrap")[0], 0)
        np.testing.assert_array_equal(self.phases(), [[0, 32768, 0, 16384]])

    def test_a_nodata_that_bytes_cannot_hold(self) -> None:
        phase = raster(self.at("phase.tif"), np.zeros((1, 3)))
        path = raster(
            self.at("bytes.tif"), np.array([[0, 241, 255]]), gdal.GDT_Byte
        )  # 241 is -9999 modulo 256, and a byte
        words = ("--coherence", path, "--coherence-max", 255, "--nodata", -9999)
        self.assertEqual(self.session(phase, *words), (0, ""))
        self.assertTrue(self.at("session").read_bytes().endswith(b"P5\n3 1\n1\n\x01\x01\x01end\n"))
        self.assertEqual(self.session(phase, *words[:-1], 241)[0], 0)
        self.assertTrue(self.at("session").read_bytes().endswith(b"P5\n3 1\n1\n\x01\x00\x01end\n"))

    def test_cycles_are_warned_of(self) -> None:
        status, told = self.session(raster(self.at("phase.tif"), np.linspace(0, 1, 10000).reshape(100, 100)))
        self.assertEqual((status, "look like cycles" in told), (0, True), told)

    def test_a_second_band_is_not_overlooked(self) -> None:
        made = gdal.GetDriverByName("GTiff").Create(str(self.at("two.tif")), 2, 2, 2, gdal.GDT_Float32)
        made.FlushCache()
        self.refused(self.session(str(self.at("two.tif"))), "2 bands", "--band")
        phase = raster(self.at("phase.tif"), np.zeros((2, 2)), place=None, epsg=None)
        self.refused(self.session(phase, "--coherence", self.at("two.tif")), "2 bands", "--coherence-band")

    def test_words_that_do_not_fit(self) -> None:
        _, report = self.session_and_report()
        like = ("to_geotiff.py", report, "--like", PHASE)
        for told in (
            command(*like, "--unit", "metres", "--wavelength", "-1", self.at("made.tif")),
            command(*like, "--wavelength", "nan", self.at("made.tif")),
            command("page.py", self.at("session"), report, "--wavelength", "-1", self.at("made")),
            command("to_session.py", PHASE, "--least-coherence", "0.3", self.at("made")),
            command("to_session.py", PHASE, "--coherence", COHERENCE, "--least-coherence", "30", self.at("made")),
            command("frames.py", PHASE, "--folder", self.at("frames"), "--jobs", "0", self.at("made.tif")),
            command("frames.py", PHASE, "--folder", self.at("frames"), "--agree", "2", self.at("made.tif")),
            command("frames.py", PHASE, "--folder", self.at("frames"), "--workers", "0", self.at("made.tif")),
        ):
            self.refused(told, status=2)
        self.assertFalse(self.at("made").exists() or self.at("made.tif").exists())

    def test_values_that_are_masked_make_no_warnings(self) -> None:
        values = np.array([[math.nan, -3.4e38, math.inf, 0.5]])
        path = raster(self.at("phase.tif"), values, gdal.GDT_Float32, -3.4028234663852886e38)
        coherence = raster(self.at("coherence.tif"), np.array([[math.inf, math.nan, 0.5, 0.5]]))
        values[0, 1] = 1e38
        path = raster(self.at("phase.tif"), values, gdal.GDT_Float32, 1e38)
        self.assertEqual(self.session(path, "--coherence", coherence), (0, ""))
        complex_ = raster(
            self.at("complex.tif"), np.array([[complex(math.nan, 1), 1e30 + 1e30j, 0]]), gdal.GDT_CFloat32
        )
        self.assertEqual(self.session(complex_), (0, ""))

    def test_a_mask_that_leaves_many_components_is_told(self) -> None:
        random = np.random.default_rng(1)
        phase = raster(self.at("phase.tif"), np.zeros((60, 60)))
        coherence = raster(self.at("coherence.tif"), random.random((60, 60)))
        status, told = self.session(phase, "--coherence", coherence, "--least-coherence", "0.5")
        self.assertEqual(status, 0)
        self.assertRegex(
            told, r"the mask leaves [0-9]{2,} components that do not touch, with [0-9.]+ % of the open pixels"
        )
        self.assertIn("--least-coherence", told)
        self.assertEqual(self.session(phase, "--coherence", coherence), (0, ""))


class WhatAProductTells(Mistakes):
    def test_a_report_that_check_refuses_gives_no_geotiff(self) -> None:
        session, report = self.session_and_report()
        text = report.read_bytes()
        report.write_bytes(text.replace(b"\ncosts ", b"\ncosts 1", 1))
        words = ("to_geotiff.py", report, "--session", session, "--like", PHASE, self.at("made.tif"))
        self.refused(command(*words), "refused surface 0 tilecost", status=1)
        self.assertFalse(self.at("made.tif").exists())

    def test_the_metadata(self) -> None:
        session, report = self.session_and_report()
        costs = report.read_bytes().split(b"\ncosts ")[1].split(b"\n")[0].decode().split()
        made = self.at("made.tif")
        words = ("--like", PHASE, "--wavelength", "0.0555", "--unit", "metres", "--reference", "5", "6", "--turn", made)
        self.assertEqual(command("to_geotiff.py", report, "--session", session, *words), (0, ""))
        told: Dict[str, str] = gdal.Open(str(made)).GetMetadata()
        for name, value in (
            ("VERDICT", "accepted"),
            ("TILE_SIDE", "128"),
            ("RULE", "least"),
            ("TILE_COST", costs[0]),
            ("SEAM_COST", costs[1]),
            ("WAVELENGTH_METRES", "0.0555"),
            ("REFERENCE", "pixel 5 6"),
            ("UNIT", "metres"),
        ):
            self.assertEqual(told[f"WUNDJESKA_{name}"].split(";")[0], value)
        self.assertIn("turned", told["WUNDJESKA_SIGN"])

    def test_a_surface_that_was_not_checked_says_so(self) -> None:
        _, report = self.session_and_report()
        status, told = command("to_geotiff.py", report, "--like", PHASE, self.at("made.tif"))
        self.assertEqual((status, "nothing certifies" in told), (0, True))
        verdict = gdal.Open(str(self.at("made.tif"))).GetMetadataItem("WUNDJESKA_VERDICT")
        self.assertIn("not checked", verdict)


class OneLine(Mistakes):
    def sleeper(self) -> Path:
        """A program that does not end by itself."""
        found = self.at("sleeper")
        found.write_text("#!/bin/sh\nexec sleep 60\n")
        found.chmod(0o755)
        return found

    def test_an_interrupt(self) -> None:
        for sent in (signal.SIGINT, signal.SIGTERM):
            for group in (True, False):
                running = subprocess.Popen(
                    argv("frames.py", PHASE, "--folder", self.at("frames"), self.at("made.tif")),
                    stderr=subprocess.PIPE,
                    text=True,
                    env={**os.environ, "UNWRAP": str(self.sleeper())},
                    start_new_session=True,
                    preexec_fn=lambda: signal.signal(signal.SIGINT, signal.default_int_handler) and None,
                )
                time.sleep(1.5)
                began = time.monotonic()
                (os.killpg if group else os.kill)(running.pid, sent)
                told = running.communicate(timeout=30)[1]
                self.refused((running.returncode, told), "interrupted")
                self.assertLess(time.monotonic() - began, 20)

    def test_an_interrupt_while_gdal_loads(self) -> None:
        """C code that is interrupted as it loads says that something else went wrong."""
        self.at("osgeo").mkdir()
        self.at("osgeo/__init__.py").write_text(HALF_LOADED)
        places = os.pathsep.join(filter(None, [str(self.folder), os.environ.get("PYTHONPATH")]))
        for verb in ("to_session.py", "scenes", "closure.py"):
            told = command(
                verb, self.folder, PHASE, PHASE, self.at("made"), env={**os.environ, "PYTHONPATH": places},
                preexec_fn=lambda: signal.signal(signal.SIGINT, signal.default_int_handler) and None,
            )
            self.assertEqual(told, (130, "interrupted\n"))

    def test_a_full_disk(self) -> None:
        session, report = self.session_and_report()
        for told in (
            command("to_session.py", PHASE, self.at("made"), preexec_fn=limited),
            command("to_geotiff.py", report, "--like", PHASE, "--float64", self.at("made.tif"), preexec_fn=limited),
            command("page.py", session, report, self.at("made"), preexec_fn=limited),
            command("report_reader.py", report, "--save", self.at("made"), preexec_fn=limited),
            command("frames.py", PHASE, "--folder", self.at("frames"), self.at("made.tif"), preexec_fn=limited),
        ):
            self.refused(told)
            self.assertFalse(self.at("made").exists() or self.at("made.tif").exists())
        with open("/dev/full", "w") as full:
            words = argv("to_session.py", PHASE, self.at("made"))
            ran = subprocess.run(words, stdout=full, stderr=subprocess.PIPE, text=True)
        self.refused((ran.returncode, ran.stderr))

    def test_frames_of_a_raster_without_a_phase(self) -> None:
        path = raster(self.at("nan.tif"), np.full((30, 30), math.nan))
        told = command("frames.py", path, "--folder", self.at("frames"), self.at("made.tif"))
        self.refused(told, "no pixel that is open", status=3)
        self.assertFalse(self.at("made.tif").exists())

    def test_words_that_no_option_has(self) -> None:
        for words in (("--no-such-word", "1"), ("--tile", "many"), ("--rule", "most"), ()):
            self.refused(command("wundjeska", "unwrap", *words), "--help", status=2)

    def test_a_session_that_is_none(self) -> None:
        session, report = self.session_and_report()
        for text in (
            b"",
            b"GIF89a",
            b"P5\n" + b"9" * 5000 + b" 1\n65535\n",
            b"P2\n1 1\n65535\n" + b"9" * 30 + b"\nend\n",
        ):
            session.write_bytes(text)
            self.refused(command("page.py", session, report, self.at("page.html")))
            words = ("--session", session, "--like", PHASE, self.at("made.tif"))
            self.refused(command("to_geotiff.py", report, *words))

    def test_a_folder_that_is_not_there(self) -> None:
        self.refused(command("to_session.py", PHASE, self.at("none/session")), "no folder", status=5)

    def test_frames_are_judged_by_pixels(self) -> None:
        """Islands of noise that two frames unwrap in two ways, while nearly all pixels of their overlap agree."""
        random = np.random.default_rng(2)
        rows, columns = np.mgrid[0:256, 0:448]
        radians, opened = 0.05 * columns + 0.03 * rows, np.ones((256, 448), dtype=bool)
        for row in range(10, 250, 40):
            opened[row : row + 10, 205:215] = False
            opened[row + 1 : row + 9, 206:214] = True
            radians[row + 1 : row + 9, 206:214] = random.uniform(-math.pi, math.pi, (8, 8))
        phase = raster(self.at("phase.tif"), np.where(opened, np.angle(np.exp(1j * radians)), math.nan))
        words = ("--folder", self.at("frames"), "--side", "256", "--overlap", "64", "--tile", "20", self.at("made.tif"))
        ran = subprocess.run(argv("frames.py", phase, *words), capture_output=True, text=True)
        self.assertEqual(ran.returncode, 0, ran.stdout + ran.stderr)
        self.assertRegex(ran.stdout, r"\(99\.[0-9]+ %\)")
        self.assertRegex(ran.stdout, "overlaps.* do not agree at 95 % of their pixels:\n  frame")


if __name__ == "__main__":
    unittest.main()
