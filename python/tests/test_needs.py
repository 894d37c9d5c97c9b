"""Tests of what is told before a raster is begun: what it needs, and whether less is free."""
import subprocess
import sys
import unittest
import warnings
from typing import List
from unittest import mock

import numpy as np
from helpers import InFolder, argv, command, raster

from wundjeska import needs
from wundjeska.needs import Needs, free_memory, needs_of, tell_needs
from wundjeska.trouble import Caution

HELD = "import os, subprocess, sys; print(os.wait4(subprocess.Popen(sys.argv[1:]).pid, 0)[2].ru_maxrss)"
SMALL, LARGE = 100_000, 4_000_000  # pixels


class Free(InFolder):
    def free(self, **files: str) -> float:
        """The megabytes that are told to be free by the files of a machine, or of a container."""
        for name, text in files.items():
            (self.folder / name.replace("_", ".")).write_text(text)
        with mock.patch.multiple(needs, MEMORY=self.folder / "meminfo", GROUP=self.folder):
            found = free_memory()
        assert found is not None
        return found

    def test_the_least_that_anything_tells(self) -> None:
        self.assertEqual(self.free(meminfo="MemTotal: 90000 kB\nMemAvailable:   50000 kB\n"), 51.2)
        self.assertEqual(self.free(memory_max="max\n", memory_current="7\n"), 51.2)
        self.assertEqual(self.free(memory_max="30000000\n", memory_current="10000000\n"), 20)
        self.assertEqual(self.free(memory_stat="anon 9000000\ninactive_file 1000000\n"), 21)
        self.assertEqual(self.free(memory_max="90000000\n"), 51.2)

    def test_without_any_file(self) -> None:
        self.assertGreater(self.free(), 1)

    def cautions(self, pixels: int, free: float) -> List[str]:
        with mock.patch.object(needs, "free_memory", lambda: free), warnings.catch_warnings(record=True) as told:
            warnings.simplefilter("always", Caution)
            tell_needs("phase.tif", pixels, needs_of(pixels, pixels, True), True, "cut it")
        return [str(one.message) for one in told]

    def test_a_warning_where_less_is_free(self) -> None:
        self.assertEqual(self.cautions(LARGE, 2000), [])
        self.assertEqual(self.cautions(LARGE, 300), ["phase.tif needs about 0.9 GB of memory, and 0.3 GB are free; cut it"])
        self.assertEqual(len(self.cautions(SMALL, 50)), 1)


class Told(InFolder):
    def setUp(self) -> None:
        super().setUp()
        rows, columns = np.mgrid[:700, :800]
        noise = np.random.default_rng(3).normal(0, 0.7, rows.shape)
        self.phase = raster(self.folder / "phase.tif", np.angle(np.exp(1j * (0.1 * columns + 0.05 * rows + noise))))

    def test_in_words(self) -> None:
        self.assertEqual(Needs(940, 25.2).told(), "needs about 0.9 GB and 25 s of a processor")
        self.assertEqual(Needs(1460, 400).told(), "needs about 1.5 GB and 7 minutes of a processor")

    def test_large_rasters_and_long_rows(self) -> None:
        """Runs of these held 3.4, 2.0, 1.9, 2.5 and 6.4 GB."""
        for width, height, is_filtered, has_page, wanted in (
            (5000, 4000, True, False, "4.1"),
            (65535, 100, True, False, "1.9"),
            (5000, 4000, False, False, "2.1"),
            (5000, 4000, False, True, "2.6"),
            (8192, 8192, False, False, "6.8"),
        ):
            needs = needs_of(width * height, width * height, is_filtered, has_page, width)
            self.assertIn(f"about {wanted} GB", needs.told())

    def test_it_is_about_what_a_run_holds(self) -> None:
        """By what the system counts of the run, which begins with what the process held that starts it."""
        for words in ((), ("--no-filter",)):
            call = argv("wundjeska", self.phase, *words, "--force", self.folder / "o.tif")
            ran = subprocess.run([sys.executable, "-c", HELD, *call], capture_output=True, text=True)
            held = int(ran.stdout.splitlines()[-1]) * 1024 / 1e6
            self.assertRegex(ran.stderr, r"phase.tif: needs about 0\.2 GB and [0-9]+ s of a processor\n")
            self.assertLess(abs(held / needs_of(560_000, 560_000, not words).memory - 1), 0.4)

    def test_nobody_is_told_of_little_or_in_quiet(self) -> None:
        small = raster(self.folder / "small.tif", np.zeros((60, 50)))
        for words in ((self.phase, "--quiet"), (small,)):
            status, told = command("wundjeska", *words, "--no-filter", "--force", self.folder / "o.tif")
            self.assertEqual((status, "needs" in told), (0, False))

    def test_frames_need_what_is_done_at_once(self) -> None:
        words = (self.phase, "--folder", self.folder / "frames", "--side", 500, "--overlap", 50, "--no-filter", "--model", 0)
        status, told = command("frames.py", *words, self.folder / "o.tif")
        self.assertEqual(status, 0, told)
        self.assertIn("phase.tif: needs about 0.1 GB and 2 s of a processor\n", told)


if __name__ == "__main__":
    unittest.main()
