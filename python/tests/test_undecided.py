"""Tests where a surface by a guide and the one without a filter are apart. It needs NumPy alone."""
import unittest
from typing import Tuple

import numpy as np

from wundjeska.planes import CYCLE, Session
from wundjeska.report_reader import NODATA
from wundjeska.undecided import (
    LEAST_PART,
    Apart,
    Part,
    by_size,
    count_of,
    cycles_apart,
    labels_of,
    medians,
    parts_apart,
    undecided_concerns,
)

SHAPE = (60, 50)
TOP, BOTTOM = 20, 40  # of a part that is as wide as the raster, so that it has no corners


def band(cycles: int = 1, first: int = TOP, last: int = BOTTOM) -> np.ndarray:
    """These cycles in some rows."""
    found = np.zeros(SHAPE, dtype=np.int64)
    found[first:last] = cycles
    return found


def flat(weights: object = 10, ramp: Tuple[int, int] = (0, 0)) -> Session:
    """A filtered session without fringes, but for its ramp."""
    y, x = np.indices(SHAPE)
    phase = (ramp[0] * x + ramp[1] * y).astype(np.uint16)
    plane = np.zeros(SHAPE, dtype=np.uint16) + np.array(weights, dtype=np.uint16)
    return Session(phase, plane, np.ones(SHAPE, dtype=bool), b"end\n", ramp)


def zero() -> np.ndarray:
    return np.zeros(SHAPE, dtype=np.int64)


class Shares(unittest.TestCase):
    def share(self, guide: np.ndarray, smooth: Session) -> float:
        """That of the band, which is one cycle lower without the filter."""
        (found,) = parts_apart(CYCLE * band(), zero(), CYCLE * guide, smooth).parts
        self.assertEqual((found.pixels, found.cycles), ((BOTTOM - TOP) * SHAPE[1], 1))
        self.assertEqual(found.box, (0, TOP, SHAPE[1] - 1, BOTTOM - 1))
        return found.share

    def test_a_cut_that_buys_nothing(self) -> None:
        self.assertEqual(self.share(zero(), flat()), 1)

    def test_a_cut_above_in_place_of_one_below(self) -> None:
        """The guide departs above the band, where the weight is 10 or 30, and the other choice below it, where it is 30."""
        weights = np.full(SHAPE, 30)
        self.assertEqual(self.share(band(1, TOP, SHAPE[0]), flat(weights)), 0)
        weights[TOP - 1] = 10
        self.assertEqual(self.share(band(1, TOP, SHAPE[0]), flat(weights)), 0.5)

    def test_a_choice_that_costs_less(self) -> None:
        self.assertEqual(self.share(band(), flat()), -1)

    def test_where_the_other_surface_is_torn_too(self) -> None:
        """The guide departs above the band by a cycle, or by two where the surface without a filter departs by one."""
        for columns in (0, 10, SHAPE[1]):
            plain = zero()
            plain[TOP:, :columns] = CYCLE
            (found,) = parts_apart(CYCLE * band(1, TOP, SHAPE[0]) + plain, plain, zero(), flat()).parts
            self.assertAlmostEqual(found.torn, columns / SHAPE[1])
        (found,) = parts_apart(zero(), -CYCLE * band(), zero(), flat()).parts
        self.assertEqual(found.torn, 0)

    def test_masked_edges_cost_nothing(self) -> None:
        smooth = flat()
        smooth.opened[TOP - 1, 1:] = False
        guide, plain = np.where(smooth.opened, CYCLE, NODATA), np.where(smooth.opened, 0, NODATA)
        (found,) = parts_apart(np.where(smooth.opened, CYCLE * band(), NODATA), plain, guide, smooth).parts
        self.assertEqual(found.share, 1)

    def test_two_cycles_upwards_on_a_ramp(self) -> None:
        y, x = np.indices(SHAPE)
        guide = 20000 * x - 31000 * y
        (found,) = parts_apart(-2 * CYCLE * band(), zero(), guide, flat(10, (20000, -31000))).parts
        self.assertEqual((found.cycles, found.share), (-2, 1))


class Parts(unittest.TestCase):
    def test_what_components_have_in_common_is_no_difference(self) -> None:
        opened = np.ones(SHAPE, dtype=bool)
        opened[:, 20] = False
        levels = np.where(np.indices(SHAPE)[1] < 20, 3, -1) * CYCLE
        found = cycles_apart(np.where(opened, levels, NODATA), np.where(opened, zero(), NODATA), opened)
        self.assertEqual(np.abs(found).max(), 0)

    def test_medians_are_those_of_the_pixels_about(self) -> None:
        cycles = np.random.default_rng(1).integers(-1, 3, (30, 25))
        cycles[10:25, 5:20] = 2
        padded = np.pad(cycles, 2, mode="edge")
        wanted = [[np.median(padded[y : y + 5, x : x + 5]) for x in range(25)] for y in range(30)]
        np.testing.assert_array_equal(medians(cycles), np.array(wanted))
        self.assertEqual(medians(np.full((3, 4), 7)).tolist(), [[7] * 4] * 3)

    def test_small_parts_have_no_number(self) -> None:
        cycles = np.zeros((60, 60), dtype=np.int64)
        cycles[:20, :25], cycles[30:50, :25], cycles[30:59, 30:47] = 1, -1, 1
        found = labels_of(cycles)
        self.assertEqual(np.bincount(found.ravel()).tolist(), [3600 - 2 * LEAST_PART, LEAST_PART, LEAST_PART])
        self.assertEqual((found[0, 0], found[30, 0]), (2, 1))

    def test_surfaces_that_agree_have_none(self) -> None:
        found = parts_apart(zero(), zero(), zero(), flat())
        self.assertEqual((found.parts, int(found.labels.max()), len(found.undecided().f)), ((), 0, 0))
        self.assertEqual((undecided_concerns([]), count_of(found.undecided())), ((), "nothing undecided"))

    def test_what_is_undecided_is_numbered_by_size(self) -> None:
        """Of four parts the second and the fourth by size are undecided."""
        labels, shares = np.zeros((4, 10), dtype=np.int64), (0.5, 0.9, -0.2, 0.75)
        for number, wide in enumerate((3, 10, 7, 5), 1):
            labels[number - 1, :wide] = number
        parts = [Part(int((labels == n).sum()), 1, share, (0, 0, 0, 0)) for n, share in enumerate(shares, 1)]
        found = by_size(labels, parts)
        self.assertEqual([int((found.labels == number).sum()) for number in range(1, 5)], [10, 7, 5, 3])
        undecided = found.undecided()
        self.assertEqual((undecided.labels[:, 0].tolist(), undecided.f.tolist()), ([2, 0, 1, 0], [-0.2, 0.5]))
        self.assertEqual((undecided.labels.dtype, count_of(undecided)), (np.uint32, "2 undecided parts of 10 pixels"))
        self.assertEqual(Apart(np.zeros((2, 2), dtype=np.uint32)).undecided().labels.tolist(), [[0, 0], [0, 0]])

    def test_what_is_said(self) -> None:
        parts = [Part(900, -1, 0.9, (0, 1, 2, 3)), Part(700, 2, 0.3, (4, 5, 6, 7)), Part(600, 1, 0.5, (0, 0, 9, 9))]
        bad, good = undecided_concerns(parts)
        self.assertTrue(bad.is_bad and not good.is_bad)
        self.assertEqual(
            bad.text,
            "2 parts, the largest of 700 pixels in columns 4 to 6, rows 5 to 7, 2 cycles lower without the filter: both want a cut "
            "of like length (0.30); nothing is torn where the guide cuts, so no filter is right more often",
        )
        (torn,) = undecided_concerns([Part(700, 1, 0.3, (0, 0, 9, 9), 0.1)])
        self.assertTrue(torn.text.endswith("; without the filter it is torn where the guide cuts, too, so the guide is right more often"))
        self.assertIn(
            "a part of 900 pixels in columns 0 to 2, rows 1 to 3, 1 cycle higher without the filter", good.text
        )
