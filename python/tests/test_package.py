"""Tests of `wundjeska.unwrap` and of the words of the one command."""
import math
import os
import subprocess
import sys
import unittest
from pathlib import Path
from typing import Any, Dict, Tuple

import numpy as np
import pytest

import wundjeska
from wundjeska.command import VERBS, parser_of
from wundjeska.planes import CYCLE
from wundjeska.report_reader import NODATA, read_report
from wundjeska.trouble import Trouble

RAMP = 0.4 * np.arange(40)[None, :] + 0.3 * np.arange(30)[:, None]  # radians, without residues
WRAPPED = np.angle(np.exp(1j * RAMP))


def off_by_cycles(found: np.ndarray, true: np.ndarray) -> np.ndarray:
    """By how many cycles a phase is above another one."""
    return (found - true) / (2 * math.pi)


class Arrays(unittest.TestCase):
    def test_a_ramp_comes_back_up_to_one_number_of_cycles(self) -> None:
        for igram in (WRAPPED, np.exp(1j * RAMP), np.mod(RAMP, 2 * math.pi), WRAPPED.astype(np.float32)):
            found = wundjeska.unwrap(igram)
            cycles = off_by_cycles(found.phase, RAMP)
            np.testing.assert_allclose(cycles, np.full(RAMP.shape, np.rint(cycles[0, 0])), atol=1e-4)
            self.assertEqual((found.cost, found.bound, found.verdict), (0, 0, "accepted"))
            self.assertEqual(
                (found.phase.dtype, found.values.dtype, found.components.dtype), ("float32", "int64", "uint32")
            )

    def test_the_exact_values_are_the_phase(self) -> None:
        found = wundjeska.unwrap(WRAPPED)
        np.testing.assert_allclose(found.values * (2 * math.pi / CYCLE), found.phase, rtol=1e-6, atol=1e-5)
        np.testing.assert_array_equal(
            found.values % CYCLE, np.rint(WRAPPED * CYCLE / (2 * math.pi)).astype(int) % CYCLE
        )

    def test_a_pair(self) -> None:
        phase, components = wundjeska.unwrap(WRAPPED, np.full(RAMP.shape, 0.5), looks=4)
        self.assertEqual((phase.shape, components.tolist()), (RAMP.shape, np.ones(RAMP.shape, int).tolist()))

    def test_a_turn_around_one_cell_costs_a_weight(self) -> None:
        """Of four pixels a quarter of a cycle apart one edge departs by a cycle: that of the least weight."""
        turn = np.array([[0, 0.25], [0.75, 0.5]]) * 2 * math.pi
        coherence = np.array([[1, 1], [1, 0.2]])
        for rule, cost in (("least", 51), ("mean", 153), ("product", 51)):
            found = wundjeska.unwrap(turn, coherence, rule=rule, filter=None)
            self.assertEqual((found.tile_cost, found.seam_cost), (cost, 0), rule)
        found = wundjeska.unwrap(turn, np.array([[1, 1], [1, 1]]), mask=np.array([[1, 1], [0, 1]]))
        self.assertEqual((found.cost, np.isnan(found.phase).tolist()), (0, [[False, False], [True, False]]))

    def test_what_is_masked(self) -> None:
        igram = np.exp(1j * RAMP)
        igram[0, 0], igram[1, 1] = 0, math.nan
        coherence, mask = np.full(RAMP.shape, 0.5), np.ones(RAMP.shape)
        coherence[2, 2], mask[3, 3] = math.nan, 0
        found = wundjeska.unwrap(igram, coherence, mask=mask)
        self.assertEqual(list(zip(*np.nonzero(np.isnan(found.phase)))), [(n, n) for n in range(4)])
        np.testing.assert_array_equal(found.values == NODATA, np.isnan(found.phase))
        np.testing.assert_array_equal(found.components == 0, np.isnan(found.phase))

    def test_what_is_refused_in_one_line(self) -> None:
        flat = np.zeros((4, 4))
        refused: Tuple[Tuple[Tuple[Any, ...], Dict[str, Any]], ...] = (
            ((np.zeros(4),), {}),
            ((np.full((4, 4), math.nan),), {}),
            ((np.linspace(-180, 180, 16).reshape(4, 4),), {}),
            ((np.zeros((4, 4), dtype=np.int16),), {}),
            ((np.full((4, 4), 1e9),), {}),
            ((flat, np.ones((4, 5))), {}),
            ((flat, np.full((4, 4), 200.0)), {}),
            ((flat, np.full((4, 4), -1.0)), {}),
            ((flat,), {"mask": np.ones((5, 4))}),
            ((flat,), {"mask": np.zeros((4, 4))}),
            ((flat,), {"looks": 4}),
            ((flat, flat), {"looks": 0.5}),
            ((flat,), {"tile": 1}),
            ((flat,), {"tile": 129}),
            ((flat,), {"rule": "most"}),
            ((flat,), {"workers": 0}),
            ((np.zeros((4097, 1)),), {"tile": 64}),
            ((np.zeros((65536, 1)),), {}),
            ((flat,), {"report": "/no/such/folder/report"}),
        )
        for words, more in refused:
            with self.subTest(words=[np.shape(word) for word in words], more=more):
                with self.assertRaises(Trouble) as raised:
                    wundjeska.unwrap(*words, **more)
                self.assertNotIn("\n", str(raised.exception))


def test_a_report_that_check_refuses_is_not_returned(tmp_path: Path, monkeypatch: pytest.MonkeyPatch) -> None:
    from wundjeska.program import program

    liar = tmp_path / "liar"
    spoil = "sed 's/^cost\\(s*\\) ./cost\\1 7/'"
    script = f'case $1 in unwrap | whole) {program()} "$@" | {spoil} ;; *) exec {program()} "$@" ;; esac'
    liar.write_text(f"#!/bin/sh\n{script}\n")
    liar.chmod(0o755)
    monkeypatch.setenv("UNWRAP", str(liar))
    report = tmp_path / "report"
    report.write_text("what stood there")
    with pytest.raises(Trouble, match="refused surface 0 tilecost"):
        wundjeska.unwrap(WRAPPED, report=report, tile=128)
    with pytest.raises(Trouble, match="refused told"):
        wundjeska.unwrap(WRAPPED, report=report)
    assert report.read_text() == "what stood there"
    found = wundjeska.unwrap(WRAPPED, report=report, check=False, tile=128)
    assert found.verdict == "not checked"
    assert read_report(str(report)).surfaces[-1].tile_cost == found.tile_cost


def test_scattered_components_are_warned_of() -> None:
    mask = np.ones((3, 5))
    mask[:, 2] = 0
    words = "^the mask leaves 2 components that do not touch, with 50.00 % of the open"
    with pytest.warns(wundjeska.Caution, match=words) as told:
        wundjeska.unwrap(np.zeros((3, 5)), mask=mask)
    assert [Path(warning.filename).name for warning in told] == ["test_package.py"]


def run(*words: object, **more: Any) -> "subprocess.CompletedProcess[str]":
    environment = {**os.environ, "PYTHONPATH": os.pathsep.join(sys.path)}
    words = (sys.executable, "-m", "wundjeska", *words)
    return subprocess.run(list(map(str, words)), capture_output=True, text=True, env=environment, **more)


class Command(unittest.TestCase):
    def test_help_and_version(self) -> None:
        for verb in ((), *((verb,) for verb in VERBS)):
            told = run(*verb, "--help")
            self.assertEqual((told.returncode, told.stderr), (0, ""))
            self.assertIn("usage: wundjeska", told.stdout)
        self.assertRegex(run("--version").stdout, r"^wundjeska [0-9]+\.[0-9]+\.[0-9]+\n")

    def test_words_that_are_refused(self) -> None:
        for words in ((), ("--no-such-word",), ("unwrap",), ("frames", "phase.tif"), ("scenes",)):
            self.assertEqual(run(*words).returncode, 2, words)

    def test_no_verb_and_option_is_without_help(self) -> None:
        for verb in VERBS:
            if verb != "scenes":
                for action in parser_of(verb)._actions:
                    self.assertTrue(action.help or action.choices or action.dest == "geotiff", (verb, action.dest))


if __name__ == "__main__":
    unittest.main()
