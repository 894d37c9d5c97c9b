"""Tests of what is shown of how far a command is: on a terminal alone."""
import fcntl
import os
import pty
import re
import shutil
import signal
import struct
import subprocess
import termios
import time
import unittest
from contextlib import suppress
from typing import Any, List, Tuple

import numpy as np
from helpers import HERE, InFolder, argv, raster

KIT = (HERE / "kit/phase.tif", "--coherence", HERE / "kit/coherence.tif")

SIZE = (40, 100)  # of the terminal: lines and columns


def on_terminal() -> None:
    """In the child: its standard input is its terminal, and an interrupt ends it."""
    fcntl.ioctl(0, termios.TIOCSCTTY, 0)
    signal.signal(signal.SIGINT, signal.default_int_handler)


def has_module(name: str) -> bool:
    """Whether the commands have a module."""
    return subprocess.run(["/usr/bin/python3", "-c", f"import {name}"], capture_output=True).returncode == 0


class OnTerminal(InFolder):
    def run_on_one(self, *words: Any, without: Tuple[str, ...] = ("tqdm", "rich")) -> Tuple[int, str, str]:
        """The status of a command, its standard output, and what a terminal shows, where some modules are not installed."""
        for name in without:
            (self.folder / f"{name}.py").write_text("raise ImportError\n")
        ours, theirs = pty.openpty()
        fcntl.ioctl(theirs, termios.TIOCSWINSZ, struct.pack("HHHH", *SIZE, 0, 0))
        path = os.pathsep.join(filter(None, [str(self.folder), os.environ.get("PYTHONPATH")]))
        environment = {**os.environ, "PYTHONPATH": path, "TERM": "xterm"}
        with subprocess.Popen(argv(*words), stdout=subprocess.PIPE, stderr=theirs, env=environment, text=True) as run:
            os.close(theirs)
            shown = self.read(ours)
            assert run.stdout is not None
            told = run.stdout.read()
        return run.returncode, told, shown

    def read(self, terminal: int) -> str:
        """All that a terminal shows until its last writer ends."""
        found = b""
        while True:
            try:
                part = os.read(terminal, 4096)
            except OSError:
                part = b""
            if not part:
                os.close(terminal)
                return found.decode().replace("\r\n", "\n")
            found += part


class Terminal(OnTerminal):
    def stages(self, *words: Any) -> List[str]:
        """The lines on stages of a run, whose numbers go up to what is said to be the last."""
        status, told, shown = self.run_on_one("wundjeska", *KIT, *words, "--force", self.folder / "o.tif")
        self.assertEqual(status, 0, shown)
        lines = [line.partition(" ") for line in shown.splitlines() if not line.startswith("warning: ")]
        self.assertEqual([number for number, _, _ in lines], [f"{place}/{len(lines)}" for place in range(1, len(lines) + 1)])
        return [what for _, _, what in lines]

    def test_lines_where_no_bar_is_installed(self) -> None:
        page, checked = ("--page", self.folder / "page.html"), ["solving", "checking"]
        for words, wanted in (
            ((), ["filtering", *checked, "solving", "writing"]),
            (("--no-filter", "--components", self.folder / "c.tif"), [*checked, "finding certain parts", "writing"]),
            (("--narrow", *page), ["filtering", *checked, *checked, "solving", "finding certain parts", "writing", "drawing the page"]),
            (("--tile", 16, "--no-check", *page), ["filtering", "solving", "solving", "writing", "drawing the page"]),
        ):
            with self.subTest(words=words):
                self.assertEqual(self.stages(*words), ["reading", *wanted])

    def test_nothing_without_a_terminal_or_in_quiet(self) -> None:
        self.assertEqual(self.stages("--quiet"), [])
        ran = subprocess.run(argv("wundjeska", *KIT, "--force", self.folder / "o.tif"), capture_output=True, text=True)
        self.assertEqual((ran.returncode, ran.stderr), (0, ""))

    def test_a_bar(self) -> None:
        for name, other, form in (("tqdm", "rich", "checking 2/4 |"), ("rich", "tqdm", "\x1b")):
            if not has_module(name):
                continue
            with self.subTest(name=name):
                (self.folder / f"{name}.py").unlink(missing_ok=True)
                status, told, shown = self.run_on_one("wundjeska", *KIT, "--no-filter", "--force", self.folder / "o.tif", without=(other,))
                self.assertEqual((status, form in shown, "\x1b" in told), (0, True, False), shown)

    def test_a_mistake_is_the_last_line(self) -> None:
        masked = raster(self.folder / "masked.tif", np.full((9, 9), np.nan))
        status, _, shown = self.run_on_one("wundjeska", masked, self.folder / "o.tif")
        self.assertEqual((status, shown.splitlines()[0]), (3, "1/6 reading"))
        self.assertRegex(shown.splitlines()[-1], "masked.tif.* no pixel")

    def test_frames_have_their_lines(self) -> None:
        words = ("frames.py", *KIT, "--folder", self.folder / "frames", "--side", 80, "--overlap", 24, "--agree", 0.5)
        for without in (("tqdm", "rich"), ("rich",)):
            status, told, shown = self.run_on_one(*words, "--force", self.folder / "o.tif", without=without)
            self.assertEqual((status, len(re.findall("^frame-[01]-[01]: columns", told, re.MULTILINE))), (0, 4))
            (self.folder / "tqdm.py").unlink(missing_ok=True)
        self.assertEqual("4/4 |" in shown, has_module("tqdm"))


class Scenes(OnTerminal):
    def setUp(self) -> None:
        super().setUp()
        for number in (1, 2, 3):
            scene = self.folder / f"scenes/scene-{number}"
            scene.mkdir(parents=True)
            for kind in ("phase", "coherence"):
                shutil.copy(HERE / f"kit/{kind}.tif", scene)

    def lines(self, *words: str) -> List[str]:
        """The lines on scenes of a run that fails."""
        status, _, shown = self.run_on_one("scenes", self.folder / "scenes", "--cores", "1", *words)
        self.assertEqual(status, 1, shown)
        return [line for line in shown.splitlines() if re.match("[0-9]+ of [0-9]+ scenes", line)]

    def test_a_line_as_each_scene_ends(self) -> None:
        """A second run has one scene to do, and it fails again."""
        (self.folder / "scenes/scene-2/coherence.tif").write_text("none")
        first = self.lines()
        self.assertEqual([line[:13] for line in first], [f"{number} of 3 scenes" for number in (1, 2, 3)])
        self.assertEqual(sum(line.endswith(", 1 failed: scene-2 failed") for line in first), 1)
        self.assertEqual(self.lines(), ["3 of 3 scenes, 1 failed: scene-2 failed"])
        self.assertEqual(self.lines("--quiet"), [])

    def interrupted_after(self, mark: bytes) -> str:
        """What a terminal shows of a run at which its user types Ctrl-C, once it shows the mark, and that nothing of it runs on."""
        ours, theirs = pty.openpty()
        with subprocess.Popen(
            argv("scenes", self.folder / "scenes"), stdin=theirs, stdout=theirs, stderr=theirs, start_new_session=True,
            preexec_fn=on_terminal,
        ) as run:
            os.close(theirs)
            shown = b""
            while mark not in shown:
                shown += os.read(ours, 4096)
            os.write(ours, b"\x03")
            text = (shown + self.read(ours).encode()).decode()
        self.assertNotEqual(run.returncode, 0, text)
        with suppress(ProcessLookupError):
            time.sleep(0.5)
            os.killpg(run.pid, signal.SIGKILL)
            self.fail(f"something ran on: {text}")
        return text

    def test_an_interrupt(self) -> None:
        for mark in (b"", b"Building DAG", b"rule unwrap", b"jobid: ", b"1 of 3 scenes"):
            with self.subTest(mark=mark):
                self.assertNotIn("3 of 3 scenes are accepted", self.interrupted_after(mark))


if __name__ == "__main__":
    unittest.main()
