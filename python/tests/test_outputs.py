"""Tests of what is written where: nothing of a user is replaced, and what is written has a name that tells what it is."""
import os
import resource
import shutil
import subprocess
import unittest
from pathlib import Path
from typing import Any

import numpy as np
from helpers import TOP, InFolder, Told, argv, command, raster
from osgeo import gdal

from wundjeska.outputs import Outputs, is_stream
from wundjeska.trouble import Trouble

KIT = TOP / "recipes/kit"
PHASE, COHERENCE = KIT / "phase.tif", KIT / "coherence.tif"
ROOM = 20000  # bytes that a file has in the tests of a full disk


def limited() -> None:
    """In the child: no file grows further, as on a full disk."""
    resource.setrlimit(resource.RLIMIT_FSIZE, (ROOM, ROOM))


class Written(InFolder):
    def at(self, name: str) -> Path:
        return self.folder / name

    def refused(self, told: Told, *words: str) -> None:
        """That a command ended in one line with these words, and left nothing half written."""
        status, line = told
        self.assertEqual((status != 0, line.count("\n")), (True, 1), line)
        self.assertEqual([word for word in words if word not in line], [], line)
        self.assertEqual(list(self.folder.glob(".*")), [])

    def kept(self, path: Path, told: Told, before: bytes) -> None:
        """That a command refused to replace a file."""
        self.refused(told, path.name, "no product", "--force")
        self.assertEqual(path.read_bytes(), before)

    def phase(self, name: str = "mine.tif") -> Path:
        path = self.at(name)
        shutil.copy(PHASE, path)
        return path


class NoRasterOfAUserIsReplaced(Written):
    def test_by_each_command_and_each_of_its_outputs(self) -> None:
        mine, made = self.phase(), self.at("made.tif")
        before, session, report = mine.read_bytes(), self.at("session"), self.at("report")
        self.assertEqual(command("wundjeska", PHASE, "--session", session, "--report", report, made)[0], 0)
        for words in (
            (PHASE, mine),
            (PHASE, "--components", mine, made),
            (PHASE, "--undecided", mine, made),
            (PHASE, "--unfiltered", mine, made),
            (PHASE, "--session", mine, made),
            (PHASE, "--report", mine, made),
            (PHASE, "--page", mine, made),
            ("session", PHASE, mine),
            ("surface", report, "--like", PHASE, mine),
            ("report", report, "--save", mine),
        ):
            with self.subTest(words=words):
                self.kept(mine, command("wundjeska", *words), before)

    def test_force_replaces_it(self) -> None:
        mine = self.phase()
        self.assertEqual(command("wundjeska", PHASE, "--force", mine)[0], 0)
        self.assertTrue(gdal.Open(str(mine)).GetMetadataItem("WUNDJESKA_VERDICT").startswith("accepted"))

    def test_force_replaces_no_input(self) -> None:
        mine = self.phase()
        before = mine.read_bytes()
        self.refused(command("wundjeska", mine, "--force", mine), "input")
        self.assertEqual(mine.read_bytes(), before)

    def test_two_words_that_were_swapped(self) -> None:
        mine, cycles = self.phase(), self.at("cycles.tif")
        before = mine.read_bytes()
        self.assertEqual(command("wundjeska", mine, "--coherence", COHERENCE, cycles)[0], 0)
        self.refused(command("wundjeska", cycles, "--coherence", COHERENCE, mine), "cycles.tif", "product")
        self.assertEqual(mine.read_bytes(), before)

    def test_products_and_empty_files_are_replaced(self) -> None:
        made, parts = self.at("made.tif"), self.at("parts.TIFF")
        parts.touch()
        for _ in range(2):
            status, told = command("wundjeska", PHASE, "--components", parts, made)
            self.assertEqual(status, 0, told)

    def test_a_file_that_is_no_raster(self) -> None:
        """A text is kept where a GeoTIFF would be written, and replaced where a text is."""
        note = self.at("note.tif")
        note.write_text("to be kept")
        self.kept(note, command("wundjeska", PHASE, note), b"to be kept")
        self.assertEqual(command("to_session.py", PHASE, note)[0], 0)

    def test_rasters_of_other_kinds(self) -> None:
        raw, picture = self.at("filt.int"), self.at("picture.png")
        np.zeros((4, 5), np.complex64).tofile(raw)
        self.at("filt.int.hdr").write_text(
            "ENVI\nsamples = 5\nlines = 4\nbands = 1\ndata type = 6\ninterleave = bsq\nbyte order = 0\n"
        )
        gdal.GetDriverByName("PNG").CreateCopy(
            str(picture), gdal.Open(raster(self.at("a.tif"), np.eye(4), gdal.GDT_Byte))
        )
        for path in (raw, picture):
            self.kept(path, command("to_session.py", PHASE, path), path.read_bytes())

    def test_what_a_command_wrote_is_replaced_by_another_run(self) -> None:
        session, report, page, made = (self.at(name) for name in ("session", "report", "page.html", "made.tif"))
        for _ in range(2):
            words = (PHASE, "--session", session, "--report", report, "--page", page, made)
            self.assertEqual(command("wundjeska", *words)[0], 0)
            self.assertEqual(command("to_session.py", PHASE, session)[0], 0)
            self.assertEqual(command("wundjeska", "report", report, "--save", self.at("arrays.npz"))[0], 0)

    def test_a_plane_of_a_user_is_no_session(self) -> None:
        plane = self.at("plane.pgm")
        plane.write_bytes(b"P5\n2 2\n255\n\x01\x02\x03\x04")
        self.kept(plane, command("to_session.py", PHASE, plane), plane.read_bytes())

    def test_from_python_no_word_is_named_that_there_is_not(self) -> None:
        mine = self.phase()
        with self.assertRaises(Trouble) as raised, Outputs([]) as outputs:
            outputs.beside(mine)
        self.assertIn("another name", str(raised.exception))
        self.assertNotIn("--", str(raised.exception))


class Names(Written):
    def test_streams(self) -> None:
        for name in ("-", "/dev/stdout", "/dev/stderr", "/dev/fd/1", "/proc/self/fd/1"):
            self.refused(command("wundjeska", PHASE, name, cwd=self.folder), name, "stream")
            self.refused(command("wundjeska", PHASE, "--report", name, "made.tif", cwd=self.folder), name, "stream")
            self.refused(command("to_session.py", PHASE, name, cwd=self.folder), name, "stream")
        self.assertEqual(os.listdir(self.folder), [])

    def test_the_log_of_a_run_is_not_replaced(self) -> None:
        log = self.at("log")
        for name in ("/dev/stdout", str(log)):
            with open(log, "w") as file:
                file.write("what was told before\n")
                file.flush()
                words = argv("to_session.py", PHASE, name)
                ran = subprocess.run(words, stdout=file, stderr=subprocess.PIPE, text=True)
            self.refused((ran.returncode, ran.stderr), "stream")
            self.assertEqual(log.read_text(), "what was told before\n")
        self.assertFalse(is_stream(self.at("another")))

    def test_suffixes(self) -> None:
        for name in ("made", "made.png", "made.vrt", "made.tif.gz", "tif", ".tif"):
            self.refused(command("wundjeska", PHASE, self.at(name)), name, ".tif or .tiff")
        self.refused(
            command("wundjeska", PHASE, "--components", self.at("parts.png"), self.at("made.tif")), "parts.png"
        )
        for name in ("a.TIF", "b.tiff", "c.Tiff"):
            self.assertEqual(command("wundjeska", PHASE, self.at(name))[0], 0)
        self.assertEqual(sorted(os.listdir(self.folder)), ["a.TIF", "b.tiff", "c.Tiff"])

    def test_empty_names(self) -> None:
        for words in ((PHASE, ""), ("", self.at("made.tif")), (PHASE, "--page", "", self.at("made.tif"))):
            self.refused(command("wundjeska", *words), "empty name")
        self.refused(command("wundjeska", ""))


class FullDisks(Written):
    def full(self, *words: Any) -> Told:
        return command("wundjeska", *words, preexec_fn=limited)

    def test_the_file_is_named(self) -> None:
        report = self.at("report")
        self.assertEqual(command("wundjeska", PHASE, "--report", report, self.at("made.tif"))[0], 0)
        for name, words in (
            ("session", ("session", PHASE, self.at("session"))),
            ("arrays.npz", ("report", report, "--save", self.at("arrays.npz"))),
            ("big.tif", ("surface", report, "--like", PHASE, "--float64", self.at("big.tif"))),
            ("again.tif", (PHASE, "--float64", self.at("again.tif"))),
            ("text", (PHASE, "--report", self.at("text"), "--block", 4, *METRES, self.at("small.tif"))),
        ):
            with self.subTest(name=name):
                status, told = self.full(*words)
                lines = [line for line in told.splitlines() if not line.startswith(("warning: ", "13", "128 by"))]
                self.refused((status, f"{lines[-1]}\n"), f"{self.at(name)}")
                self.assertNotIn(".part", told)
                self.assertFalse(self.at(name).exists())


METRES = ("--unit", "metres", "--wavelength", "0.0555")

if __name__ == "__main__":
    unittest.main()
