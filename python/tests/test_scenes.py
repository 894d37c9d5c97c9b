"""Tests the workflow of scenes: failures are told with their status, what other options made is made anew, what is refused or
fails leaves what stood there, a run that was stopped goes on, and jobs are submitted as on a cluster."""
import os
import shutil
import signal
import subprocess
import sys
import time
import unittest
from pathlib import Path
from typing import Dict, Tuple

import numpy as np
from helpers import HERE, RECIPES, InFolder, argv
from osgeo import gdal

from wundjeska.guiding import FILTER_COMMENT
from wundjeska.program import program

COUNT = 6
REFUSED: Tuple[str, ...] = ("tile=500", "tile=abc", "tile=", "tile", "coherence=5", "least_coherence=x", "rule=foo", "steep=17", "looks=0")
REFUSED += ("whole=nope", "closure=ja", "page=1", "without_coherence=Yes", "clousre=yes", "masks=a.tif", "workers=3")
REFUSED += ("unit=metres", "unit=feet", "wavelength=5.55", "nodata=nothing", "screen=radios=1", "ramp=1", "reference=1")
REFUSED += ("mask={pair", "igram=phase.tif", "igram={pair}/{date}.tif", "coherence=coherence.tif", "least_component=0", "a b")


class Scenes(InFolder):
    def setUp(self) -> None:
        super().setUp()
        program()
        self.scenes = self.folder / "many scenes"
        for number in range(1, COUNT + 1):
            size, folder = (str(240 + number), str(200 + number)), self.scenes / f"scene-{number:03}"
            subprocess.run([sys.executable, HERE / "kit/make.py", "--plain", *size, folder], check=True)

    def start(self, *words: str) -> "subprocess.Popen[str]":
        return subprocess.Popen(
            argv("scenes", self.scenes, *words),
            stdout=subprocess.PIPE,
            stderr=subprocess.STDOUT,
            text=True,
            start_new_session=True,
        )

    def run_all(self, *words: str) -> Tuple[int, str]:
        """Runs the workflow to its end, with words for snakemake; its status and what it wrote."""
        running = self.start(*words)
        try:
            told = running.communicate(timeout=240)[0]
        finally:
            if running.poll() is None:
                os.killpg(running.pid, signal.SIGKILL)
        return running.returncode, told

    def one_scene(self) -> Path:
        """Leaves one scene alone, in a folder whose name has a space."""
        first, *others = sorted(self.scenes.glob("scene-*"))
        for folder in others:
            shutil.rmtree(folder)
        return first.rename(self.scenes / "a scene")

    def stamps(self) -> Dict[Path, int]:
        return {path: path.stat().st_mtime_ns for path in self.scenes.glob("*/cycles.tif")}

    def test_failures_are_told_and_tried_again(self) -> None:
        first, second, third, fourth = (self.scenes / f"scene-00{number}" for number in (1, 2, 3, 4))
        shutil.copy(HERE / "kit/coherence.tif", first)
        text = (second / "phase.tif").read_bytes()
        (second / "phase.tif").write_bytes(text[: len(text) // 2])
        (fourth / "coherence.tif").rename(self.folder / "forgotten.tif")
        status, told = self.run_all()
        self.assertEqual(status, 1, told)
        self.assertIn(f"{COUNT - 3} of {COUNT} scenes are accepted and have their surface, 3 failed\n", told)
        self.assertRegex(told, r"scene-001: ended with status 3: .*128 by 104 pixels")
        self.assertRegex(told, r"scene-002: ended with status 5: .*phase.tif")
        self.assertRegex(told, r"scene-004: ended with status 5: .*coherence.tif")

        shutil.copy(third / "coherence.tif", first)
        shutil.copy(third / "phase.tif", first)
        (second / "phase.tif").write_bytes(text)
        stood = (third / "report").stat().st_mtime_ns
        status, told = self.run_all("--config", "without_coherence=yes")
        self.assertEqual(status, 0, told)
        self.assertIn(f"{COUNT} of {COUNT} scenes are accepted and have their surface, 0 failed", told)
        self.assertEqual((third / "report").stat().st_mtime_ns, stood)

    def files(self) -> Dict[Path, bytes]:
        """What stands in the folders of scenes."""
        return {path: path.read_bytes() for path in self.scenes.glob("[!.]*/*")}

    def test_a_refused_run_changes_nothing(self) -> None:
        self.one_scene()
        self.assertEqual(self.run_all()[0], 0)
        stood = self.files()
        self.assertIn(self.scenes / "a scene/cycles.tif", stood)
        for words in (*(("--config", word) for word in REFUSED), ("tile=500", "--cores", "1"), ("tile=64", "whole=yes")):
            with self.subTest(words):
                status, told = self.run_all(*words)
                self.assertEqual((status, told.count("\n")), (2, 1), told)
        self.assertEqual(self.run_all("mask=none.tif"), (5, f"there is no mask {self.scenes / 'none.tif'}\n"))
        self.assertEqual(self.files(), stood)

    def test_mistakes_are_told_by_their_keys(self) -> None:
        self.one_scene()
        for word, line in (
            ("clousre=yes", "there is no key clousre; did you mean closure?"),
            ("whole=nope", "whole=nope: whole is yes or no"),
            ("tile=abc", "tile=abc: invalid int value: 'abc'"),
            ("coherence=5", "least_coherence is from 0 to 1"),
        ):
            self.assertIn(line, self.run_all(word)[1])

    def test_a_scene_that_fails_keeps_its_surface(self) -> None:
        scene = self.one_scene()
        self.assertEqual(self.run_all()[0], 0)
        stood = {name: (scene / name).read_bytes() for name in ("cycles.tif", "components.tif", "session", "report")}
        shutil.copy(HERE / "kit/coherence.tif", scene)  # of another size
        status, told = self.run_all()
        self.assertEqual(status, 1, told)
        self.assertEqual(list(scene.glob("unwrapped.txt*")), [])
        self.assertIn("0 of 1 scenes are accepted and have their surface, 1 failed\n", told)
        self.assertRegex(told, "a scene: ended with status 3: .*; the surface of an earlier run still stands\n")
        self.assertEqual({name: (scene / name).read_bytes() for name in stood}, stood)

    def test_what_is_gone_is_made_again(self) -> None:
        first, second, *others = sorted(self.scenes.glob("scene-*"))
        for folder in others:
            shutil.rmtree(folder)
        self.assertEqual(self.run_all()[0], 0)
        stood = self.stamps()
        (first / "components.tif").unlink()
        status, told = self.run_all()
        self.assertEqual(status, 0, told)
        self.assertTrue((first / "components.tif").exists())
        self.assertEqual([path for path, when in self.stamps().items() if stood[path] == when], [second / "cycles.tif"])

    def test_a_folder_without_scenes(self) -> None:
        for folder in (self.folder / "none", self.folder):
            ran = subprocess.run(argv("scenes", folder), capture_output=True, text=True)
            self.assertNotEqual(ran.returncode, 0)
            self.assertRegex(ran.stdout + ran.stderr, r"^.*no folder.*\n$")

    def test_other_options_make_other_results(self) -> None:
        scene = self.one_scene()
        self.assertEqual(self.run_all("--config", "tile=32")[0], 0)
        self.assertIn(b"\ntile 32\nrule least\n", (scene / "report").read_bytes())
        self.assertIn(FILTER_COMMENT, (scene / "session").read_bytes())
        self.assertNotIn(FILTER_COMMENT, (scene / "unfiltered").read_bytes())
        self.assertEqual(gdal.Open(str(scene / "undecided.tif")).GetMetadataItem("WUNDJESKA_F"), "none")
        self.assertEqual(self.run_all("--config", "tile=32", "filter=none")[0], 0)
        self.assertEqual((scene / "session").read_bytes(), (scene / "unfiltered").read_bytes())
        self.assertEqual(self.run_all("--config", "tile=16", "rule=mean", "coherence=0.5")[0], 0)
        self.assertIn(b"\ntile 16\nrule mean\n", (scene / "report").read_bytes())
        coherence = gdal.Open(str(scene / "coherence.tif")).ReadAsArray()
        masked = gdal.Open(str(scene / "cycles.tif")).ReadAsArray() == -9999
        np.testing.assert_array_equal(masked, ~(coherence >= 0.5))

    @unittest.skipIf(os.environ.get("WUNDJESKA_INSTALLED"), "a clone is copied")
    def test_a_repository_whose_path_has_a_space(self) -> None:
        self.one_scene()
        clone = self.folder / "a clone"
        shutil.copytree(RECIPES, clone / "recipes")
        if (RECIPES.parent / "python").exists():
            shutil.copytree(RECIPES.parent / "python", clone / "python")
        ran = subprocess.run(
            [clone / "recipes/scenes", self.scenes],
            capture_output=True,
            text=True,
            env={**os.environ, "UNWRAP": program()},
        )
        self.assertEqual(ran.returncode, 0, ran.stdout + ran.stderr)
        self.assertIn("1 of 1 scenes are accepted and have their surface, 0 failed", ran.stdout + ran.stderr)

    def test_the_status_of_the_program_is_told(self) -> None:
        scene, poor = self.one_scene(), self.folder / "poor"
        poor.write_text("#!/bin/sh\ncat >/dev/null\necho no memory >&2\nexit 4\n")
        poor.chmod(0o755)
        ran = subprocess.run(
            argv("scenes", self.scenes), capture_output=True, text=True, env={**os.environ, "UNWRAP": str(poor)}
        )
        self.assertRegex(ran.stdout + ran.stderr, "a scene: ended with status 4: .*no memory")
        self.assertFalse((scene / "cycles.tif").exists())

    def test_a_run_that_was_stopped_goes_on(self) -> None:
        running = self.start("--cores", "1")
        while not self.stamps() and running.poll() is None:
            time.sleep(0.05)
        running.send_signal(signal.SIGTERM)  # SIGINT is ignored in the background of a shell
        running.communicate(timeout=120)
        stood = self.stamps()
        self.assertTrue(0 < len(stood) < COUNT)
        status, told = self.run_all()
        self.assertEqual(status, 0, told)
        self.assertEqual({path: path.stat().st_mtime_ns for path in stood}, stood)

    def test_jobs_are_submitted(self) -> None:
        self.one_scene()
        status, told = self.run_all("--cluster", "bash", "--jobs", "2")  # a job is submitted to a shell
        self.assertEqual(status, 0, told)
        self.assertIn("1 of 1 scenes are accepted and have their surface, 0 failed", told)


if __name__ == "__main__":
    unittest.main()
