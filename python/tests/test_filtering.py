"""Tests the filter before unwrapping. It needs NumPy alone."""
import unittest
from typing import Tuple

import numpy as np

from wundjeska import filtering
from wundjeska.filtering import BACK, DEVIATIONS, FORTH, SIDE, STEP, filtered, filtered_phase, local_fits, transformed
from wundjeska.planes import CYCLE


def noisy(shape: Tuple[int, int], spread: float, seed: int = 1) -> np.ndarray:
    """Fringes with noise of this deviation, in cycles."""
    y, x = np.indices(shape)
    random = np.random.default_rng(seed)
    return np.rint(CYCLE * (0.11 * x - 0.07 * y + random.normal(0, spread, shape))).astype(np.int64).astype(np.uint16)


def difference(one: np.ndarray, other: np.ndarray) -> np.ndarray:
    """In 1/65536 cycle, by the shorter way."""
    return np.abs((one - other).astype(np.uint16).view(np.int16).astype(int))


def by_windows(phase: np.ndarray, opened: np.ndarray) -> np.ndarray:
    """The filtered phasors by the definition, one window after the other, with NumPy's transform."""
    hann = np.hanning(SIDE + 2)[1:-1]
    root, square = np.sqrt(np.outer(hann, hann)), np.outer(hann, hann)
    around = [(SIDE, SIDE + STEP), (SIDE, SIDE + STEP)]
    mask = np.pad(opened, around, mode="reflect")
    signal = np.where(mask, np.exp(2j * np.pi / CYCLE * np.pad(phase, around, mode="reflect")), 0)
    sums = np.zeros_like(signal)
    for y, x in np.ndindex(*((np.array(phase.shape) + SIDE + STEP) // STEP)):
        place = np.s_[STEP * y : STEP * y + SIDE, STEP * x : STEP * x + SIDE]
        spectrum = np.fft.fft2(signal[place] * root)
        spectrum[np.abs(spectrum) < DEVIATIONS * np.sqrt(square[mask[place]].sum())] = 0
        sums[place] += np.fft.ifft2(spectrum) * root
    return sums[SIDE:, SIDE:][: phase.shape[0], : phase.shape[1]]


class Transform(unittest.TestCase):
    def test_it_is_that_of_numpy(self) -> None:
        random = np.random.default_rng(2)
        values = (random.normal(size=(SIDE, 5)) + 1j * random.normal(size=(SIDE, 5))).astype(np.complex64)
        np.testing.assert_allclose(transformed(values, FORTH), np.fft.fft(values, axis=0), atol=1e-5)
        np.testing.assert_allclose(transformed(transformed(values, FORTH), BACK), SIDE * values, atol=1e-4)


class Filter(unittest.TestCase):
    def test_it_is_that_of_the_definition(self) -> None:
        for shape in ((53, 38), (64, 40), (17, 90), (16, 16)):
            phase, opened = noisy(shape, 0.15), np.random.default_rng(3).random(shape) < 0.9
            opened[3:9, 5:30] = False
            wanted = by_windows(phase, opened)
            found = filtered_phase(phase, opened)
            strong = opened & (np.abs(wanted) > 0.1)
            self.assertGreater(strong.mean(), 0.6)
            units = (np.rint(np.angle(wanted) * CYCLE / (2 * np.pi)).astype(int) % CYCLE).astype(np.uint16)
            self.assertLessEqual(difference(found, units)[strong].max(), 1)
            self.assertEqual(found[~opened].max(), 0)

    def test_bands_and_threads_change_nothing(self) -> None:
        phase, opened = noisy((101, 77), 0.2), np.random.default_rng(4).random((101, 77)) < 0.8
        weights = np.random.default_rng(5).integers(1, 256, phase.shape).astype(np.uint16)
        wanted = filtered(phase, opened, weights, 1)
        fitted = local_fits(phase, wanted.phase, opened)
        for band, threads in ((1, 1), (3, 4), (7, 2), (1000, 1)):
            smooth = filtered_phase(phase, opened, threads, band)
            np.testing.assert_array_equal(smooth, wanted.phase)
            found = filtering.agreed_weights(phase, smooth, opened, weights, threads, band)
            np.testing.assert_array_equal(found, wanted.weights)
            fits = local_fits(phase, smooth, opened, threads, band)
            np.testing.assert_array_equal(fits.phase, fitted.phase)
            np.testing.assert_array_equal(fits.agreement, fitted.agreement)

    def test_noise_goes_and_fringes_stay(self) -> None:
        phase, opened = noisy((96, 96), 0.15), np.ones((96, 96), dtype=bool)
        found = filtered_phase(phase, opened)
        clean = noisy((96, 96), 0)
        self.assertLess(difference(found, clean)[8:-8, 8:-8].mean(), difference(phase, clean).mean() / 3)

    def test_a_coast_and_an_islet(self) -> None:
        """What is masked may hold any phase, and an islet of 6 by 6 pixels keeps its fringes."""
        phase, opened = noisy((64, 64), 0.08), np.zeros((64, 64), dtype=bool)
        opened[:, :30], opened[20:26, 45:51] = True, True
        found = filtered_phase(phase, opened)
        other = filtered_phase(np.where(opened, phase, 12345).astype(np.uint16), opened)
        np.testing.assert_array_equal(found, other)
        clean = noisy((64, 64), 0)
        self.assertLess(difference(found, clean)[20:26, 45:51].max(), CYCLE // 8)
        self.assertLess(difference(found, clean)[8:-8, 24:30].max(), CYCLE // 8)

    def test_all_sizes(self) -> None:
        for shape in ((1, 1), (1, 40), (40, 1), (2, 3), (5, 16), (15, 17)):
            phase = noisy(shape, 0)
            found = filtered(phase, np.ones(shape, dtype=bool))
            self.assertEqual((found.phase.shape, found.weights.shape), (shape, shape))
            self.assertTrue((found.weights >= 1).all())

    def test_nothing_open(self) -> None:
        found = filtered(noisy((20, 20), 0.1), np.zeros((20, 20), dtype=bool))
        self.assertEqual((found.phase.max(), found.weights.max()), (0, 1))


def fit_at(phase: np.ndarray, opened: np.ndarray, y: int, x: int) -> Tuple[complex, float]:
    """The sum of the turned phasors of 3 by 3 pixels about this one, and the agreement of those of 5 by 5, by the definition."""
    signal = np.pad(np.where(opened, np.exp(2j * np.pi / CYCLE * phase), 0), 3)
    there = np.pad(opened, 3)
    y, x = y + 3, x + 3
    turns = []
    for step in ((0, 1), (1, 0)):
        total = 0j
        for row, column in np.ndindex(5, 5):
            one = np.array((y + row - 2, x + column - 2))
            if 3 <= one.min() and (one < np.array(signal.shape) - 3).all():
                before, middle, after = (signal[tuple(one + turn * np.array(step))] for turn in (-1, 0, 1))
                total += middle * np.conj(before) + after * np.conj(middle)
        turns.append(np.conj(total) / abs(total))
    near, far = 0j, 0j
    for row, column in np.ndindex(5, 5):
        turned = signal[y + row - 2, x + column - 2] * turns[0] ** (column - 2) * turns[1] ** (row - 2)
        far += turned
        near += turned if max(abs(row - 2), abs(column - 2)) <= 1 else 0
    return near, abs(far / there[y - 2 : y + 3, x - 2 : x + 3].sum()) ** 2


class Fits(unittest.TestCase):
    def test_they_are_those_of_the_definition(self) -> None:
        phase, opened = noisy((13, 11), 0.1), np.random.default_rng(7).random((13, 11)) < 0.9
        fits = local_fits(phase, phase, opened)
        for y, x in zip(*np.nonzero(opened)):
            near, agreement = fit_at(phase, opened, y, x)
            self.assertAlmostEqual(float(fits.agreement[y, x]), agreement, places=4)
            off = np.angle(near * np.exp(-2j * np.pi / CYCLE * int(fits.phase[y, x])))
            self.assertLess(abs(off), 1e-3)

    def test_they_are_taken_where_the_filter_does_not_agree(self) -> None:
        """At eight pixels of 7 by 7 or more, of a clear phase."""
        phase, opened = noisy((30, 40), 0), np.ones((30, 40), dtype=bool)
        smooth = phase.copy()
        self.assertFalse(local_fits(phase, smooth, opened).taken.any())
        y, x = np.indices(phase.shape)
        lost = np.hypot(y - 14, x - 20) < 5
        smooth[lost] = np.random.default_rng(8).integers(0, CYCLE, int(lost.sum()))
        taken = local_fits(phase, smooth, opened).taken
        self.assertTrue(taken[lost].all())
        self.assertFalse(taken[np.hypot(y - 14, x - 20) > 10].any())
        opened[:, 20:] = False
        self.assertFalse(local_fits(phase, smooth, opened).taken[:, 20:].any())

    def test_a_cone_stands_in_the_filtered_phase(self) -> None:
        y, x = np.indices((64, 64))
        cone = np.rint(CYCLE * 0.38 * np.maximum(6 - np.hypot(y - 30, x - 33), 0)).astype(np.int64).astype(np.uint16)
        opened = np.ones(cone.shape, dtype=bool)
        inside = cone > 0
        lost, found = filtered_phase(cone, opened), filtered(cone, opened)
        self.assertGreater((difference(lost, cone)[inside] > CYCLE // 8).mean(), 0.3)
        self.assertLess((difference(found.phase, cone)[inside] > CYCLE // 8).mean(), 0.1)
        self.assertGreater(found.weights[inside].mean(), 60)


class Weights(unittest.TestCase):
    def weights(self, phase: np.ndarray, smooth: np.ndarray, opened: np.ndarray, weights: object = None) -> list:
        given = None if weights is None else np.array(weights, dtype=np.uint16)
        return filtering.agreed_weights(phase, smooth, opened, given).tolist()

    def test_they_are_the_coherence_where_phase_and_filter_agree(self) -> None:
        phase, opened = noisy((9, 9), 0.1), np.ones((9, 9), dtype=bool)
        given = np.random.default_rng(6).integers(1, 256, (9, 9))
        self.assertEqual(self.weights(phase, phase, opened, given), given.tolist())
        self.assertEqual(self.weights(phase, phase + np.uint16(9), opened), np.full((9, 9), 255).tolist())

    def test_they_fall_with_the_square_of_the_agreement(self) -> None:
        """One pixel of a row is half a cycle off."""
        phase, opened = np.zeros((1, 6), dtype=np.uint16), np.ones((1, 6), dtype=bool)
        phase[0, 0] = CYCLE // 2
        wanted = [[1, round(255 / 9), 255, 255, 255, 255]]
        self.assertEqual(self.weights(phase, np.zeros_like(phase), opened), wanted)
        wide = [[round(90 / 9), round(90 / 4), round(90 * 9 / 25), 90, 90, 90]]
        self.assertEqual(self.weights(phase, np.zeros_like(phase), opened, [[90] * 6]), wide)

    def test_masked_pixels_count_for_nothing(self) -> None:
        phase, opened = np.zeros((3, 5), dtype=np.uint16), np.ones((3, 5), dtype=bool)
        phase[:, 2], opened[:, 2] = CYCLE // 2, False
        found = self.weights(phase, np.zeros_like(phase), opened, np.full((3, 5), 70))
        self.assertEqual(np.array(found)[opened].tolist(), [70] * 12)
