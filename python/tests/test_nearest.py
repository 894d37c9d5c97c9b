"""Tests the surface nearest to a guide. NumPy's is the outside judge of the program's, if the program has the command."""
import os
import stat
import tempfile
import unittest
from pathlib import Path
from unittest import mock

import numpy as np

from wundjeska.nearest import by_numpy as nearest
from wundjeska.nearest import by_program, commonest, has_command, how_made, is_patch, rest_of, with_narrow
from wundjeska.nearest import nearest as nearest_by_either
from wundjeska.planes import CYCLE
from wundjeska.program import program
from wundjeska.report_reader import NODATA
from wundjeska.trouble import Trouble

HALF = CYCLE // 2
LEAST, MOST = NODATA + 1, -NODATA - 1


def row(phase: object, guide: object, opened: object = None) -> list:
    """The nearest surface of a row."""
    phases, guides = np.array([phase], dtype=np.uint16), np.array([guide], dtype=np.int64)
    mask = np.ones(phases.shape, dtype=bool) if opened is None else np.array([opened], dtype=bool)
    return nearest(phases, guides, mask)[0].tolist()


def walked(phase: int, guide: int) -> int:
    """The nearest by Python's own numbers."""
    below = guide - (guide - phase) % CYCLE
    return below if guide - below <= below + CYCLE - guide else below + CYCLE


class Nearest(unittest.TestCase):
    def test_half_a_cycle_goes_down(self) -> None:
        self.assertEqual(row([0, 0, HALF, HALF], [HALF, -HALF, 0, CYCLE]), [0, -CYCLE, -HALF, HALF])

    def test_one_unit_beside_half_a_cycle(self) -> None:
        self.assertEqual(row([0, 0, 0, 0], [HALF - 1, HALF + 1, -HALF - 1, -HALF + 1]), [0, CYCLE, -CYCLE, 0])

    def test_a_guide_that_is_congruent_stays(self) -> None:
        self.assertEqual(row([5, 5, 5], [5, 5 + 3 * CYCLE, 5 - 3 * CYCLE]), [5, 5 + 3 * CYCLE, 5 - 3 * CYCLE])

    def test_random_guides_of_all_sizes(self) -> None:
        random = np.random.default_rng(5)
        phase = random.integers(0, CYCLE, 3000)
        guide = random.integers(-(2**62), 2**62, 3000) >> random.integers(0, 62, 3000)
        self.assertEqual(row(phase, guide), [walked(int(p), int(g)) for p, g in zip(phase, guide)])

    def test_the_ends_of_64_bits(self) -> None:
        self.assertEqual(row([LEAST % CYCLE, MOST % CYCLE], [LEAST, MOST]), [LEAST, MOST])
        self.assertEqual(row([LEAST % CYCLE], [LEAST + 100]), [LEAST])
        for phase, guide in (((MOST + 1) % CYCLE, MOST), ((LEAST - 1) % CYCLE, LEAST), (LEAST - 2, LEAST)):
            self.assertRaisesRegex(Trouble, "does not fit 64 bits", row, [phase % CYCLE], [guide])

    def test_masked_pixels_have_no_value_whatever_the_guide_is(self) -> None:
        self.assertEqual(row([0, 0, 7, 1], [NODATA, MOST, 7, LEAST], [0, 0, 1, 0]), [NODATA, NODATA, 7, NODATA])

    def test_what_does_not_fit_is_refused(self) -> None:
        self.assertRaisesRegex(Trouble, "no value at an open pixel", row, [0, 0], [0, NODATA])
        self.assertRaisesRegex(Trouble, "shape", row, [0, 0], [0])

    def test_it_is_congruent_and_within_half_a_cycle(self) -> None:
        random = np.random.default_rng(6)
        for _ in range(50):
            shape = tuple(random.integers(1, 20, 2))
            phase = random.integers(0, CYCLE, shape).astype(np.uint16)
            guide, opened = random.integers(-(10**9), 10**9, shape), random.random(shape) < 0.7
            found = nearest(phase, guide, opened)
            off = (found - guide)[opened]
            self.assertTrue(((found - phase)[opened] % CYCLE == 0).all() and (found[~opened] == NODATA).all())
            self.assertTrue((off >= -HALF).all() and (off < HALF).all())


# Answers `nearest` by NumPy, so that what is written to a program and read from it is tried.
ANSWER = """#!/usr/bin/python3
import io, sys
sys.path.insert(0, {package!r})
from wundjeska.displacements import grid_text, read_grid
from wundjeska.nearest import by_numpy
from wundjeska.planes import read_session
if sys.argv[1:] != ["nearest"]:
    sys.exit(2)
text = sys.stdin.buffer.read()
if not text:
    sys.exit(3)
place = text.index(b"\\nncols ") + 1
planes = read_session(text[:place])
assert planes.script == b"end\\n"
sys.stdout.buffer.write(grid_text(by_numpy(planes.phase, read_grid(text[place:], "grid"), planes.opened)))
"""


class Program(unittest.TestCase):
    def judge(self) -> None:
        """That the program's surfaces are NumPy's, and its refusals are Trouble."""
        random = np.random.default_rng(9)
        for bits in (3, 16, 40, 62):
            shape = tuple(random.integers(1, 40, 2))
            phase, opened = random.integers(0, CYCLE, shape).astype(np.uint16), random.random(shape) < 0.8
            guide = np.where(opened, random.integers(-(2**bits), 2**bits, shape), NODATA)
            np.testing.assert_array_equal(by_program(phase, guide, opened), nearest(phase, guide, opened))
        one, opened = np.full((1, 1), (MOST + 1) % CYCLE, dtype=np.uint16), np.ones((1, 1), dtype=bool)
        for value in (MOST, NODATA):
            self.assertRaises(Trouble, by_program, one, np.full((1, 1), value), opened)

    def test_the_command(self) -> None:
        if not has_command(program()):
            self.skipTest("the program has no command nearest")
        self.judge()
        self.assertEqual(how_made(), "by `insar_unwrap nearest`")

    def test_a_program_without_the_command_and_one_with_it(self) -> None:
        with tempfile.TemporaryDirectory() as folder:
            path = Path(folder, "program")
            for text, made in (
                ("#!/bin/sh\nexit 2\n", "computed in Python and tested, not proved"),
                (ANSWER.format(package=str(Path(__file__).resolve().parent.parent)), "by `insar_unwrap nearest`"),
            ):
                path = path.with_suffix(".next" + path.suffix)
                path.write_text(text)
                path.chmod(stat.S_IRWXU)
                with mock.patch.dict(os.environ, {"UNWRAP": str(path)}):
                    self.assertEqual(how_made(), made)
                    phase, opened = np.array([[7]], dtype=np.uint16), np.ones((1, 1), dtype=bool)
                    self.assertEqual(nearest_by_either(phase, np.array([[3 * CYCLE]]), opened).tolist(), [[3 * CYCLE + 7]])
            with mock.patch.dict(os.environ, {"UNWRAP": str(path)}):
                self.judge()


class Narrow(unittest.TestCase):
    def test_the_commonest_value_of_each_piece(self) -> None:
        pieces, values = np.array([[0, 0, 0, -1, 1, 1]]), np.array([[4, -2, 4, 9, 7, 3]])
        self.assertEqual(commonest(values, pieces).tolist(), [4, 3])
        self.assertEqual(commonest(values, np.full((1, 6), -1)).tolist(), [])

    def test_patches_by_their_size(self) -> None:
        inside = np.array([[1, 1, 0, 1], [0, 1, 0, 0]], dtype=bool)
        self.assertEqual(is_patch(inside, 3).astype(int).tolist(), [[1, 1, 0, 0], [0, 1, 0, 0]])

    def test_a_patch_of_16_is_taken_and_one_of_15_is_not(self) -> None:
        for high, is_taken in ((4, True), (3, False)):
            rest = np.zeros((10, 12), dtype=np.int64)
            rest[2:6, 3 : 3 + high] += CYCLE
            rest[6, 3:6] += CYCLE if high == 3 else 0
            near = np.full(rest.shape, 9 * CYCLE)
            found = with_narrow(near, near, rest + 2 * CYCLE, np.ones(rest.shape, dtype=bool))
            np.testing.assert_array_equal(found, near + (rest if is_taken else 0))

    def test_each_component_has_a_level_of_its_own(self) -> None:
        opened = np.ones((6, 9), dtype=bool)
        opened[:, 4] = False
        rest = np.where(np.arange(9) < 4, 5 * CYCLE, -2 * CYCLE) * np.ones((6, 1), dtype=np.int64)
        near = np.where(opened, 7, NODATA)
        np.testing.assert_array_equal(with_narrow(near, near, np.where(opened, rest, NODATA), opened), near)

    def test_guide_and_rest_are_congruent(self) -> None:
        random = np.random.default_rng(8)
        phase = random.integers(0, CYCLE, (40, 30)).astype(np.uint16)
        guide, opened = random.integers(-(10**9), 10**9, phase.shape), random.random(phase.shape) < 0.9
        rest = rest_of(phase, guide) + CYCLE * random.integers(-2, 2, phase.shape)
        found = with_narrow(nearest(phase, guide, opened), guide, rest, opened)
        self.assertTrue(((found - phase)[opened] % CYCLE == 0).all() and (found[~opened] == NODATA).all())
