"""Tests the recipes with the program: the way there and back, broken lines told alike, and frames."""
import io
import os
import random
import re
import subprocess
import unittest
from pathlib import Path
from typing import Optional, Tuple

import numpy as np
from osgeo import gdal

from wundjeska.planes import CYCLE
from wundjeska.program import Problem, check_report, program, run_program
from wundjeska.report_reader import NODATA, BrokenLine, read_grid_from, read_report_from
from helpers import HERE, TOP, InFolder, argv, command

KIT = HERE / "kit"
COHERENCE = ("--coherence", KIT / "coherence.tif")


def wrapped(radians: np.ndarray) -> np.ndarray:
    """From -pi to pi."""
    return np.angle(np.exp(1j * radians))


class ThereAndBack(InFolder):
    def there_and_back(self, phase: Path) -> gdal.Dataset:
        """The GeoTIFF in radians of a raster of phases of the kit, by the report."""
        session, report, made = (self.folder / name for name in ("session", "report", "made.tif"))
        self.assertEqual(command("to_session.py", phase, *COHERENCE, session)[0], 0)
        report.write_bytes(run_program(["unwrap", "--tile", "128"], session.read_bytes(), "kit"))
        self.assertEqual(
            check_report(session.read_bytes(), report.read_bytes(), Problem("least", 128)), (True, "accepted")
        )
        words = ("--session", session, "--like", phase, "--unit", "radians", "--float64", made)
        self.assertEqual(command("to_geotiff.py", report, *words), (0, ""))
        return gdal.Open(str(made))

    def test_the_surface_is_the_phase_up_to_cycles_in_its_place(self) -> None:
        phase = gdal.Open(str(KIT / "phase.tif"))
        radians, lake = phase.ReadAsArray(), phase.ReadAsArray() == -9999
        for name in ("phase.tif", "complex.tif"):
            with self.subTest(name=name):
                made = self.there_and_back(KIT / name)
                values = made.ReadAsArray()
                np.testing.assert_array_equal(values == -9999, lake)
                off = wrapped(values - radians)[~lake]
                self.assertLess(np.abs(off).max(), np.pi / CYCLE + 1e-6)
                self.assertEqual(made.GetGeoTransform(), phase.GetGeoTransform())
                self.assertTrue(made.GetSpatialRef().IsSame(phase.GetSpatialRef()))

    def test_the_command_grid_on_standard_input(self) -> None:
        session, made = self.folder / "session", self.folder / "made.tif"
        self.assertEqual(command("to_session.py", KIT / "phase.tif", *COHERENCE, session)[0], 0)
        grid = run_program(["grid"], session.read_bytes(), "kit")
        words = argv("to_geotiff.py", "-", "--like", KIT / "phase.tif", "--float64", made)
        self.assertEqual(subprocess.run(words, input=grid).returncode, 0)
        values = read_grid_from(io.BytesIO(grid))
        np.testing.assert_array_equal(
            gdal.Open(str(made)).ReadAsArray(), np.where(values == NODATA, -9999, values / CYCLE)
        )

    def test_a_session_of_a_script_that_publishes_nothing(self) -> None:
        session, script = self.folder / "session", self.folder / "script"
        script.write_text("analyst\nshow\nend\n")
        self.assertEqual(command("to_session.py", KIT / "phase.tif", "--script", script, session)[0], 0)
        (self.folder / "grid").write_bytes(run_program(["grid"], session.read_bytes(), "kit"))
        status, line = command(
            "to_geotiff.py", self.folder / "grid", "--like", KIT / "phase.tif", self.folder / "made.tif"
        )
        self.assertEqual((status, "no surface was published" in line), (3, True))

    def test_the_program_says_what_is_wrong(self) -> None:
        cut = (TOP / "examples/volcano.pgm").read_bytes()[:1000]
        ran = subprocess.run([program(), "unwrap"], input=cut, capture_output=True)
        with self.assertRaisesRegex(
            Exception, f"cut: unwrap ended with status {ran.returncode}: input fault 6 short phase"
        ):
            run_program(["unwrap"], cut, "cut")


def changed(text: bytes, chance: random.Random) -> bytes:
    """A report with one change: a line that is gone, twice there or changed in one place, or an end that comes too early."""
    lines = text.split(b"\n")
    number, kind = chance.randrange(len(lines) - 1), chance.randrange(4)
    line = lines[number]
    if kind == 0:
        return text[: chance.randrange(len(text))]
    if kind == 1:
        place = chance.randrange(len(line) + 1)
        byte = chance.choice([b"", b" ", b"0", b"-", b"7", b"x", b"\r", b"9" * 20])
        line = line[:place] + byte + line[place + chance.randrange(2) :]
    lines[number : number + 1] = ([line], [line], [], [line, line])[kind]
    return b"\n".join(lines)


def told_by_check(session: bytes, report: bytes) -> int:
    """The number of the broken line that `check` tells, 0 if the form is right."""
    _, line = check_report(session, report, Problem("least", 2))
    found = re.fullmatch(r"report fault line ([0-9]+)", line)
    return int(found.group(1)) if found else 0


def told_by_reader(report: bytes) -> int:
    try:
        read_report_from(io.BytesIO(report))
    except BrokenLine as broken:
        return broken.number
    return 0


class BrokenLines(unittest.TestCase):
    def test_the_reader_and_check_tell_the_same_line(self) -> None:
        session = b"".join((TOP / "examples" / name).read_bytes() for name in ("turn.pgm", "analyst"))
        report = run_program(["unwrap", "--tile", "2"], session, "turn")
        self.assertEqual(told_by_check(session, report), 0)
        chance = random.Random(5)
        told = []
        for _ in range(400):
            text = changed(report, chance)
            told.append(told_by_reader(text))
            self.assertEqual(told[-1], told_by_check(session, text), text.decode(errors="replace"))
        self.assertGreater(sum(number > 0 for number in told), 200)
        self.assertGreater(sum(number == 0 for number in told), 10)


class Frames(InFolder):
    def frames(self, *words: str, unwrap: Optional[Path] = None) -> Tuple[int, str]:
        """Runs frames.py on the kit in frames of 64 pixels; its status and what it wrote."""
        environment = {**os.environ, "UNWRAP": str(unwrap or program())}
        cut = ("--folder", self.folder / "frames", "--side", "64", "--overlap", "24", "--tile", "64")
        called = argv("frames.py", KIT / "phase.tif", *COHERENCE, *cut, *words, self.folder / "joined.tif")
        ran = subprocess.run(called, capture_output=True, text=True, env=environment)
        return ran.returncode, ran.stdout + ran.stderr

    def test_the_joint_is_congruent_and_nearly_that_of_the_whole(self) -> None:
        status, told = self.frames("--float64", "--agree", "0.5")
        self.assertEqual(status, 0, told)
        self.assertIn("not covered by any certificate", told)
        session = self.folder / "session"
        command("to_session.py", KIT / "phase.tif", *COHERENCE, session)
        (surface,) = read_report_from(
            io.BytesIO(run_program(["unwrap", "--tile", "128"], session.read_bytes(), "kit"))
        ).surfaces
        made = gdal.Open(str(self.folder / "joined.tif"))
        opened, off = surface.opened(), made.ReadAsArray() - np.nan_to_num(surface.cycles())
        np.testing.assert_array_equal(made.ReadAsArray() == -9999, ~opened)
        np.testing.assert_array_equal(off[opened], np.rint(off[opened]))
        _, counts = np.unique(off[opened], return_counts=True)
        self.assertGreater(counts.max() / opened.sum(), 0.95)

    def test_a_reference_over_frames(self) -> None:
        box = ("50", "40", "80", "60")  # in four frames
        status, told = self.frames("--float64", "--agree", "0.5", "--reference-window", *box)
        self.assertEqual(status, 0, told)
        values = gdal.Open(str(self.folder / "joined.tif")).ReadAsArray()[40:61, 50:81]
        self.assertAlmostEqual(float(values[values != -9999].mean()), 0, 9)
        status, told = self.frames("--reference-window", "50", "40", "128", "60")
        self.assertEqual((status, "not within the raster" in told), (3, True), told)

    def test_frames_that_are_kept_are_not_done_again(self) -> None:
        self.frames()
        for file in (self.folder / "frames").glob("frame-0-*.session"):
            file.unlink()
        _, told = self.frames()
        again, kept = (len(re.findall(words, told)) for words in (r": accepted, tiles cost", "in an earlier run"))
        self.assertEqual(
            (again > 0, kept > 0, again + kept), (True, True, len(list((self.folder / "frames").glob("*.session"))))
        )
        _, told = self.frames("--rule", "mean")
        self.assertNotIn("in an earlier run", told)

    def test_a_frame_that_check_refuses_is_told(self) -> None:
        liar = self.folder / "liar"
        real, spoil = program(), "sed 's/^costs ./costs 7/'"
        liar.write_text(f'#!/bin/sh\nif [ $1 = unwrap ]; then {real} "$@" | {spoil}; else exec {real} "$@"; fi\n')
        liar.chmod(0o755)
        status, told = self.frames(unwrap=liar)
        self.assertEqual(status, 1, told)
        self.assertRegex(told, "frame-0-0: refused surface 0 tilecost")
        self.assertFalse((self.folder / "joined.tif").exists())

    def test_a_program_without_memory_is_told(self) -> None:
        poor = self.folder / "poor"
        poor.write_text("#!/bin/sh\ncat >/dev/null\necho no memory >&2\nexit 4\n")
        poor.chmod(0o755)
        status, told = self.frames(unwrap=poor)
        self.assertEqual((status, told), (4, "frame-0-0: unwrap ended with status 4: no memory\n"))

    def test_an_overlap_that_does_not_agree_is_told_with_its_place(self) -> None:
        status, told = self.frames("--agree", "1", "--no-filter")
        self.assertEqual(status, 1, told)
        self.assertRegex(
            told, r"pieces of overlaps do not agree at 100 % of their pixels:\n  frame-.*columns [0-9]+ to"
        )
        self.assertTrue((self.folder / "joined.tif").exists())


if __name__ == "__main__":
    unittest.main()
