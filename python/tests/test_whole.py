"""Tests `--whole`, `whole=True` and whole texts. If the program has no command `whole` yet, a stand-in is asked: bench/whole.py, whose
small solver is in plain Python, answers it and `check-whole`, and the program all else."""
import io
import os
import random
import re
import subprocess
import sys
from pathlib import Path
from typing import Any, Dict, List, Tuple
from unittest import mock

import numpy as np
from osgeo import gdal

import wundjeska
from helpers import TOP, InFolder, Told, command, raster
from wundjeska import unwrapping
from wundjeska.commands.report import words as report_words
from wundjeska.planes import CYCLE, session_of
from wundjeska.program import Problem, check_report, program, run_program
from wundjeska.report_reader import NODATA, BrokenLine, read_report_from, summary_of
from wundjeska.trouble import Trouble

sys.path[:0] = [str(TOP / "bench"), str(TOP / "bench/hostile")]
import reading  # type: ignore[import]  # noqa: E402

TURN = np.array([[0, 0.25], [0.75, 0.5]]) * 2 * np.pi
TURN_COHERENCE = np.array([[1, 1], [1, 0.2]])
SHAPE = 24, 30
LIAR = """#!/bin/sh
case $1 in whole) {program} "$@" | sed 's/^cost .*/cost 1/' ;; *) exec {program} "$@" ;; esac
"""


def has_whole() -> bool:
    """Whether the program has the command."""
    ran = subprocess.run([program(), "whole"], input=b"P2 1 1 65535 7 ", capture_output=True)
    return ran.returncode == 0


def stand_in(folder: Path) -> str:
    """The program, or a script that answers the two commands in its place."""
    if has_whole():
        return program()
    path = folder / "stand-in"
    judge = f"{sys.executable} {TOP / 'bench/whole.py'}"
    path.write_text(f'#!/bin/sh\ncase $1 in *whole) exec {judge} "$@" ;; *) exec {program()} "$@" ;; esac\n')
    path.chmod(0o755)
    return str(path)


def scene() -> Tuple[np.ndarray, np.ndarray]:
    """Wrapped phases of a hill with noise, in radians, and a coherence."""
    dice = np.random.default_rng(5)
    y, x = np.mgrid[0 : SHAPE[0], 0 : SHAPE[1]]
    hill = 12 * np.exp(-((x - 14) ** 2 + (y - 11) ** 2) / 60)
    coherence = np.where((x > 20) & (y > 14), 0.2, 0.8)
    return np.angle(np.exp(1j * (hill + dice.normal(size=SHAPE) * (1.3 - coherence)))), coherence


class Whole(InFolder):
    def setUp(self) -> None:
        super().setUp()
        self.folder.joinpath("programs").mkdir()
        changed = mock.patch.dict(os.environ, {"UNWRAP": stand_in(self.folder / "programs")})
        changed.start()
        self.addCleanup(changed.stop)

    def use_liar(self) -> None:
        """From here on the program writes another cost than that of its surface."""
        path = self.folder / "programs/liar"
        path.write_text(LIAR.format(program=program()))
        path.chmod(0o755)
        os.environ["UNWRAP"] = str(path)

    def rasters(self) -> Tuple[str, str]:
        phase, coherence = scene()
        phase[:, 3] = -9999  # a river, so that there are two components
        return (
            raster(self.folder / "phase.tif", phase, nodata=-9999),
            raster(self.folder / "coherence.tif", coherence),
        )


class Arrays(Whole):
    def test_a_turn_costs_the_least_weight(self) -> None:
        for rule, cost in (("least", 51), ("mean", 153), ("product", 51)):
            found = wundjeska.unwrap(TURN, TURN_COHERENCE, rule=rule, whole=True, filter=None)
            self.assertEqual(
                (found.cost, found.bound, found.seam_cost, found.verdict), (cost, cost, 0, "accepted"), rule
            )

    def test_the_whole_costs_what_tiles_bound(self) -> None:
        tiled, whole = (wundjeska.unwrap(*scene(), filter=None, tile=side) for side in (8, None))
        self.assertTrue(0 < tiled.bound <= whole.cost <= tiled.cost)
        np.testing.assert_array_equal((whole.values - tiled.values) % CYCLE, 0)
        np.testing.assert_array_equal(whole.components, tiled.components)

    def test_a_ramp_and_a_steepness(self) -> None:
        slope = 2 * np.pi * 0.6 * np.arange(12)[None, :] + np.zeros((5, 1))
        found = wundjeska.unwrap(np.angle(np.exp(1j * slope)), whole=True, ramp=(32767, 0), steep=3)
        np.testing.assert_allclose(found.phase - found.phase[0, 0], slope, atol=1e-3)
        self.assertEqual((found.cost, found.ramp, found.settings.steep), (0, (32767, 0), 3))
        tiles = wundjeska.unwrap(TURN, TURN_COHERENCE, steep=16, filter=None)
        self.assertEqual((tiles.cost, tiles.verdict), (51, "accepted"))

    def test_one_row_and_masked_parts(self) -> None:
        found = wundjeska.unwrap(np.array([[0.0, np.nan, 3.0, -3.0]]), whole=True)
        self.assertEqual(found.mask_components.tolist(), [[2, 0, 1, 1]])
        self.assertEqual((found.values[0, 1], found.cost), (NODATA, 0))

    def test_the_text_is_kept_and_is_judged_before_it_is_believed(self) -> None:
        kept = self.folder / "kept"
        wundjeska.unwrap(*scene(), whole=True, report=kept)
        self.assertTrue(kept.read_bytes().startswith(b"insar-whole 1\n"))
        stood = kept.read_bytes()
        self.use_liar()
        with self.assertRaisesRegex(Trouble, "^the interferogram: refused told$"):
            wundjeska.unwrap(*scene(), whole=True, report=kept)
        self.assertEqual(kept.read_bytes(), stood)
        self.assertEqual(wundjeska.unwrap(TURN, whole=True, check=False).verdict, "not checked")

    def test_frames_are_solved_at_once(self) -> None:
        phase, coherence = self.rasters()
        cut = ("--folder", self.folder / "frames", "--side", "20", "--overlap", "8", "--agree", "0")
        words = ("frames.py", phase, "--coherence", coherence, *cut)
        status, told = command(*words, "--whole", self.folder / "joined.tif")
        self.assertEqual(status, 0, told)
        frames = sorted(path.stem for path in (self.folder / "frames").glob("*.report"))
        self.assertEqual(re.findall(r"^(frame-.*): columns .*: accepted, costs [0-9]+, of its guide, .*undecided$", told, re.M), frames)
        for name in frames:
            self.assertTrue((self.folder / f"frames/{name}.report").read_bytes().startswith(b"insar-whole 1\n"))
        notes = gdal.Open(str(self.folder / "joined.tif")).GetMetadata()
        self.assertEqual((notes["WUNDJESKA_SOLVED"], "WUNDJESKA_TILE_SIDE" in notes), ("each frame at once", False))
        told = command(*words, "--whole", self.folder / "joined.tif")[1]
        self.assertEqual(told.count("accepted in an earlier run"), len(frames), told)
        told = command(*words, "--no-filter", self.folder / "joined.tif")[1]
        self.assertEqual((told.count("in an earlier run"), told.count("guide")), (0, 0), told)
        self.assertEqual(gdal.Open(str(self.folder / "joined.tif")).GetMetadata()["WUNDJESKA_FILTER"], "none")
        told = command(*words, "--tile", "8", self.folder / "joined.tif")[1]
        self.assertEqual((told.count("in an earlier run"), told.count("tiles cost")), (0, len(frames)), told)

    def test_words_that_do_not_fit(self) -> None:
        refused: Tuple[Dict[str, Any], ...] = ({"whole": True, "tile": 64}, {"whole": True, "steep": 17}, {"steep": 0})
        for words in refused:
            with self.assertRaises(Trouble) as told:
                wundjeska.unwrap(TURN, **words)
            self.assertEqual((told.exception.status, "\n" in str(told.exception)), (2, False), words)

    def test_one_constant_makes_it_the_default(self) -> None:
        self.assertEqual([unwrapping.side_for(*asked) for asked in ((None, True), (7, None), (7, False))], [None, 7, 7])
        for default, side in ((False, unwrapping.SIDE), (True, None)):
            with mock.patch.object(unwrapping, "WHOLE", default):
                self.assertEqual(unwrapping.side_for(None, None), side)
                self.assertEqual(unwrapping.side_for(None, False), unwrapping.SIDE)


class Commands(Whole):
    def unwrapped(self, *words: object) -> Told:
        phase, coherence = self.rasters()
        return command("wundjeska", phase, "--coherence", coherence, "--no-filter", *words)

    def test_all_in_one_and_each_alone(self) -> None:
        session, text, page, parts, made = (
            self.folder / name for name in ("session", "text", "page", "parts.tif", "made.tif")
        )
        kept = ("--session", session, "--report", text, "--page", page, "--components", parts)
        status, told = self.unwrapped("--whole", *kept, made)
        self.assertEqual(status, 0, told)
        self.assertRegex(
            told,
            r"made.tif: accepted with 1 concern, 30 by 24 pixels, 696 open in 2 components, [0-9.]+ % residues, cost [0-9]+, "
            r"the least of all\n",
        )
        notes = gdal.Open(str(made)).GetMetadata()
        cost = int(re.findall(rb"^cost (.*)$", text.read_bytes(), re.M)[0])
        self.assertEqual((notes["WUNDJESKA_VERDICT"].split(";")[0], notes["WUNDJESKA_COST"]), ("accepted", str(cost)))
        self.assertEqual(
            (notes["WUNDJESKA_SOLVED"], "WUNDJESKA_TILE_SIDE" in notes), ("the whole raster at once", False)
        )
        self.assertIn(f"The surface costs {cost}. A cost is", page.read_text())
        self.assertEqual(command("wundjeska", "check", session, text), (0, "accepted\n"))
        again = self.folder / "again.tif"
        words = ("surface", text, "--session", session, "--like", self.folder / "phase.tif", again)
        self.assertEqual(command("wundjeska", *words), (0, ""))
        one, other = (gdal.Open(str(path)) for path in (made, again))
        np.testing.assert_array_equal(one.ReadAsArray(), other.ReadAsArray())
        self.assertEqual(other.GetMetadata()["WUNDJESKA_COST"], str(cost))
        self.assertEqual(command("wundjeska", "page", session, text, self.folder / "own")[0], 0)
        like = ("--like", self.folder / "phase.tif", self.folder / "misclosed.tif")
        status, told = command("wundjeska", "closure", text, text, text, "--sessions", session, session, session, *like)
        self.assertEqual(status, 0, told)
        status, told = command("wundjeska", "report", text)
        self.assertEqual((status, f"cost {cost}" in told, "the whole raster at once" in told), (0, True, True))

    def test_a_text_that_is_refused_leaves_all(self) -> None:
        session, text, made = (self.folder / name for name in ("session", "text", "made.tif"))
        self.assertEqual(self.unwrapped("--whole", "--session", session, "--report", text, made)[0], 0)
        stood = made.read_bytes()
        changed = self.folder / "changed"
        changed.write_bytes(re.sub(rb"^cost .*$", b"cost 1", text.read_bytes(), flags=re.M))
        self.assertEqual(command("wundjeska", "check", session, changed), (1, "refused told\n"))
        words = ("surface", changed, "--session", session, "--like", self.folder / "phase.tif", made)
        self.assertEqual(command("wundjeska", *words), (1, "check: refused told\n"))
        self.use_liar()
        status, told = self.unwrapped("--whole", made)
        self.assertEqual((status, told.splitlines()[-1]), (1, f"{self.folder / 'phase.tif'}: refused told"))
        self.assertEqual((made.read_bytes(), sorted(path.suffix for path in self.folder.glob(".*"))), (stood, []))

    def test_words_that_do_not_fit(self) -> None:
        for words in (("--whole", "--tile", "64"), ("--whole", "--steep", "17"), ("--steep", "0")):
            status, told = self.unwrapped(*words, self.folder / "made.tif")
            self.assertEqual((status, told.count("\n")), (2, 1), told)


class Texts(Whole):
    def text(self) -> Tuple[bytes, bytes]:
        phase, weights = np.array([[0, 16384, 0], [49152, 32768, 49152]]), np.array([[4, 2, 4], [4, 3, 4]])
        session = session_of(phase, weights, weights > 0)
        return session, run_program(["whole", "--steep", "2"], session, "pair")

    def test_a_text_is_read_as_it_stands(self) -> None:
        session, text = self.text()
        report = read_report_from(io.BytesIO(text))
        (surface,) = report.surfaces
        self.assertEqual((report.is_whole, report.width, report.height, report.tile_count()), (True, 3, 2, 1))
        self.assertEqual((surface.tile_cost, surface.seam_cost, report.steepness, len(surface.flows)), (2, 0, 2, 0))
        faces = report.face_grid(surface, 0)
        self.assertEqual((faces.shape, int(faces[0, 0] - faces[0, 1])), ((1, 2), 2))
        self.assertEqual((surface.values[1] - surface.values[0]).tolist(), [-16384, -49152, -16384])
        self.assertEqual(check_report(session, text, Problem("least", None, (0, 0), 2)), (True, "accepted"))
        self.assertEqual(check_report(session, text, Problem("least", None)), (False, "refused header 5"))
        self.assertIn("3 by 2 pixels, the whole raster at once, rule least, steepness 2", list(summary_of(report)))
        self.assertIn("insar_unwrap whole", report_words().format_help())

    def test_broken_lines_are_those_of_the_format(self) -> None:
        _, text = self.text()
        chance, told = random.Random(3), []
        for _ in range(600):
            lines = text.split(b"\n")
            number, place = chance.randrange(len(lines) - 1), chance.randrange(12)
            line = (
                lines[number][:place]
                + chance.choice([b"", b" ", b"0", b"-", b"7", b"x", b"9" * 20])
                + lines[number][place:]
            )
            choices: List[List[bytes]] = [[], [line], [line], [line], [lines[number]] * 2]
            lines[number : number + 1] = chance.choice(choices)
            told.append(self.broken_line(b"\n".join(lines)))
        self.assertTrue(told.count(None) > 20 and len(set(told)) > 12)

    def broken_line(self, text: bytes) -> Any:
        try:
            reading.read_whole(text)
            wanted = None
        except reading.Broken as broken:
            (wanted,) = broken.args
        try:
            read_report_from(io.BytesIO(text))
        except BrokenLine as broken:
            self.assertEqual(broken.number, wanted, text)
        else:
            self.assertIsNone(wanted, text)
        return wanted
