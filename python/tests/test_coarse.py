"""Tests the model of a large raster: its planes by blocks, and what it says of each pixel."""
import unittest

import numpy as np

from wundjeska.coarse import Model, block_for, model_of, multilooked
from wundjeska.planes import CYCLE

SIZE = (61, 43)


class Held:
    """A raster that is held, of a surface in 1/65536 cycle."""

    def __init__(self, surface: np.ndarray, opened: np.ndarray):
        self.planes = (surface % CYCLE).astype(np.uint16), np.full(surface.shape, 200, np.uint16), opened

    def read(self, window):  # type: ignore[no-untyped-def]
        x, y, width, height = window
        return tuple(plane[y : y + height, x : x + width] for plane in self.planes)


def slope(across: float, down: float) -> np.ndarray:
    """A surface that rises so many cycles a pixel."""
    y, x = np.mgrid[: SIZE[1], : SIZE[0]]
    return np.rint((across * x + down * y) * CYCLE).astype(np.int64)


class Blocks(unittest.TestCase):
    def test_least_blocks(self) -> None:
        for size, block in (((4096, 1024), 2), ((5000, 4000), 3), ((8192, 8192), 4), ((9000, 2), 3)):
            self.assertEqual(block_for(size), block)

    def test_phases_weights_and_open_blocks(self) -> None:
        opened = np.ones(SIZE[::-1], bool)
        opened[:10, :9] = False
        phase, weights, there = multilooked(Held(slope(0.05, 0.02), opened), SIZE, 5, (3277, 1311), 255)
        self.assertEqual(phase.shape, (9, 13))
        self.assertFalse(there[:2, 0].any())
        self.assertTrue(there[0, 1] == (5 * 1 >= 0.25 * 25) and there[2:].all())
        off = (phase[there].astype(int) + CYCLE // 2) % CYCLE - CYCLE // 2  # the ramp leaves next to nothing
        self.assertLess(np.abs(off).max(), 64)
        self.assertEqual((weights[there].min(), weights[there].max()), (200, 200))


class Models(unittest.TestCase):
    def test_linear_between_the_middles_of_blocks(self) -> None:
        coarse = slope(0.3, -0.2)[:9, :13].astype(float)
        found = Model(coarse, 5, SIZE).at((0, 0, *SIZE))
        inner = found[2:38, 2:58]  # the last blocks are smaller
        np.testing.assert_allclose(np.diff(inner, axis=1), 0.06 * CYCLE, atol=1)
        np.testing.assert_allclose(np.diff(inner, axis=0), -0.04 * CYCLE, atol=1)
        np.testing.assert_array_equal(Model(coarse, 5, SIZE).at((7, 3, 20, 11)), found[3:14, 7:27])

    def test_pieces_come_together_and_gaps_are_filled(self) -> None:
        surface, pieces = np.full((4, 12), 100, np.int64), np.zeros((4, 12), np.int32)
        surface[:, 6:] += 9 * CYCLE
        pieces[:, 4:7], pieces[:, 7:] = -1, 1
        surface[pieces < 0] = np.iinfo(np.int64).min
        np.testing.assert_array_equal(model_of(surface, pieces, 2, (24, 8)).at((0, 0, 24, 8)), np.full((8, 24), 100))

    def test_nothing_open(self) -> None:
        nothing = np.full((3, 4), np.iinfo(np.int64).min), np.full((3, 4), -1, np.int32)
        self.assertEqual(model_of(*nothing, 2, (8, 6)).at((0, 0, 8, 6)).shape, (6, 8))


if __name__ == "__main__":
    unittest.main()
