"""Tests that each mistake in a call from Python is a Trouble of one line that names the argument, and each in a command one line."""
import os
import subprocess
import sys
import unittest
import warnings
from pathlib import Path
from typing import Any, Dict, Optional

import numpy as np
import pytest
from helpers import TOP, InFolder, argv, command, raster

import wundjeska
from wundjeska.trouble import Trouble

PHASE = TOP / "recipes/kit/phase.tif"
RAMP = 0.4 * np.arange(40)[None, :] + 0.3 * np.arange(30)[:, None]
IGRAM, COHERENCE = np.exp(1j * RAMP), np.full(RAMP.shape, 0.8)


def line_of(*arrays: Any, **words: Any) -> str:
    """The one line of the trouble that a call raises, without a warning of NumPy before it."""
    with warnings.catch_warnings():
        warnings.simplefilter("error")
        with pytest.raises(Trouble) as raised:
            wundjeska.unwrap(*(arrays or (IGRAM, COHERENCE)), **words)
    line = str(raised.value)
    assert "\n" not in line and "--" not in line, line
    return line


WRONG: Dict[str, Any] = {
    "looks": ("10", 0.5, float("nan"), True),
    "workers": ("2", 2.5, 0, 9, True),
    "tile": (64.0, "64", 1, 129, True),
    "steep": (1.5, 0, 17, "2"),
    "least_component": (0, -5, 2.5, "x", True),
    "margin": ("0.1", 1.5, -0.1, float("nan"), True),
    "rule": ("most", 5, None, np.ones(2)),
    "whole": ("no", 1),
    "check": ("no", 0),
    "wrap": ("no", 1, None),
    "nodata": ("0", [0]),
    "coherence_max": ("255", 0, -1, float("inf"), float("nan")),
    "report": (5, 2.5, ["report"]),
}


class Arguments(unittest.TestCase):
    def test_each_is_named(self) -> None:
        for name, values in WRONG.items():
            for value in values:
                with self.subTest(name=name, value=value):
                    self.assertRegex(line_of(**{name: value}), f"^{name} is ")

    def test_ramps_and_screens(self) -> None:
        for ramp in (5, 2.5, "steep", [1], [1, 2, 3], [1.5, 2], np.array(5), {}, [40000, 0]):
            self.assertRegex(line_of(ramp=ramp), "ramp|slope")
        for screen in (5, "x", {}, [], {"radios": 3}, {"coherence": "high"}):
            self.assertRegex(line_of(screen=screen), "screen|coherence|parts")

    def test_what_wants_coherence(self) -> None:
        for words in ({"looks": 4}, {"nlooks": 4}, {"coherence_max": 255}):
            self.assertIn("wants coherence", line_of(IGRAM, **words))

    def test_whole_numbers_of_numpy(self) -> None:
        words: Dict[str, Any] = {
            "looks": np.float32(4),
            "tile": np.int64(64),
            "workers": np.uint8(2),
            "check": np.True_,
        }
        found = wundjeska.unwrap(IGRAM, COHERENCE, **words)
        self.assertEqual((found.settings.side, found.verdict), (64, "accepted"))


class Arrays(unittest.TestCase):
    def test_what_is_no_interferogram(self) -> None:
        nothing = np.full((3, 3), np.nan)
        for igram in (
            "x",
            [["a"]],
            None,
            {},
            IGRAM.ravel(),
            IGRAM[None],
            np.zeros((0, 3)),
            IGRAM.astype(bool),
            [[1], [2, 3]],
        ):
            with self.subTest(igram=igram):
                self.assertIn("interferogram", line_of(igram))
        self.assertIn("no pixel that is open", line_of(nothing))
        self.assertIn("whole numbers", line_of(np.ones((3, 3), dtype=int)))

    def test_what_is_no_coherence_or_mask(self) -> None:
        text, objects = np.full(RAMP.shape, "False"), np.full(RAMP.shape, None)
        for name in ("coherence", "mask"):
            for values in (text, objects, COHERENCE * 1j, COHERENCE[1:], "x", [[1], [2, 3]]):
                self.assertRegex(line_of(IGRAM, **{name: values}), f"^{name} ")

    def test_hints_name_arguments(self) -> None:
        self.assertIn("name it by coherence_max", line_of(IGRAM, COHERENCE * 255))
        self.assertIn("wrap=True wraps them", line_of(RAMP))

    def test_bytes_in_the_wrong_order(self) -> None:
        noise = np.random.default_rng(1).random(RAMP.shape).astype(np.float32).byteswap()
        self.assertIn("no phases in radians", line_of(noise))
        self.assertIn("wanted 0 to 1", line_of(IGRAM, noise))
        self.assertIn("no phases in radians", line_of(noise, nodata=0))


class Cautions(unittest.TestCase):
    def test_they_are_warnings_of_their_own_kind_at_the_line_of_the_caller(self) -> None:
        mask = np.ones(RAMP.shape)
        mask[:, 20] = 0
        with pytest.warns(wundjeska.Caution, match="2 components") as told:
            wundjeska.unwrap(IGRAM, COHERENCE, mask=mask)
        self.assertEqual({Path(warning.filename).name for warning in told}, {"test_arguments.py"})
        with warnings.catch_warnings(), self.assertRaises(wundjeska.Caution):
            warnings.simplefilter("error", wundjeska.Caution)
            wundjeska.unwrap(IGRAM, COHERENCE, mask=mask)

    def test_the_command_writes_lines(self) -> None:
        code = "from wundjeska.trouble import run_main, warn; run_main(lambda: [warn('one\\ntwo') for _ in 'ab'] and 0)"
        ran = subprocess.run(
            [sys.executable, "-W", "error", "-c", code],
            capture_output=True,
            text=True,
            env={**os.environ, "PYTHONPATH": str(TOP / "python")},
        )
        self.assertEqual((ran.returncode, ran.stderr), (0, "warning: one two\nwarning: one two\n"))


class Words(InFolder):
    def refused(self, *words: object, program: Optional[str] = None) -> str:
        """The one line of a command that is refused."""
        env = os.environ if program is None else {**os.environ, "UNWRAP": program}
        ran = subprocess.run(argv("wundjeska", *words), capture_output=True, text=True, env=env)
        self.assertEqual((ran.returncode != 0, ran.stderr.count("\n")), (True, 1), ran.stderr)
        return ran.stderr

    def test_a_verb_that_is_misspelt(self) -> None:
        made = self.folder / "made.tif"
        for words, verb in (
            (("unwarp", PHASE, made), "unwrap"),
            (("sesion", PHASE), "session"),
            (("clousre", PHASE, PHASE, PHASE, made), "closure"),
        ):
            self.assertIn(f"no verb {words[0]}", self.refused(*words))
            self.assertIn(f"did you mean {verb}?", self.refused(*words))
        self.assertIn("No such file", self.refused("pages.tif", made))
        self.assertIn("No such file", self.refused("phase", made))

    def test_a_raster_of_the_name_of_a_verb(self) -> None:
        raster(self.folder / "page2", np.angle(IGRAM))
        raster(self.folder / "pages", np.angle(IGRAM))
        for name in ("page2", "pages"):
            self.assertEqual(command("wundjeska", name, "made.tif", cwd=self.folder)[0], 0)

    def test_a_window_that_is_turned_round(self) -> None:
        told = self.refused(PHASE, "--reference-window", 10, 10, 5, 5, self.folder / "made.tif")
        self.assertIn("turned round: wanted the lower column and row first, 5 5 10 10", told)

    def test_programs_that_are_none(self) -> None:
        text = self.folder / "text"
        text.write_text("hello")
        text.chmod(0o755)
        for path, words in ((str(text), "no program that runs here"), ("/bin/cat", "cat"), ("/bin/true", "line 1")):
            self.assertIn(words, self.refused(PHASE, self.folder / "made.tif", program=path))
        for path in ("/bin/false", "/bin/echo", "/tmp", str(self.folder / "none"), "/dev/null"):
            self.refused(PHASE, self.folder / "made.tif", program=path)


if __name__ == "__main__":
    unittest.main()
