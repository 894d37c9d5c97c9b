"""A filter before unwrapping: windows of a wrapped phase lose the frequencies that are no more than noise. NumPy alone.

A window of 16 by 16 pixels stands at every fourth pixel. It is weighted by the root of a Hann window and transformed. Fringes lie
in few frequencies, noise in all alike: of phasors whose phases are chance, each frequency has the variance of the window's
squared weights, summed over its open pixels. Frequencies below three deviations are dropped. What is left is transformed back,
weighted again and added up (Kemao, Applied Optics 43(13), 2004, and Optics and Lasers in Engineering 45(2), 2007; windows of
interferograms: Goldstein and Werner, Geophysical Research Letters 25(21), 1998).

Windows take what is narrower for noise: domes, sinkholes. So each pixel has a local fit, too. The mean of neighbours' steps tells the
slope about it (Spagnolini, IEEE TGRS 33(3), 1995), and the phasors of 3 by 3 pixels, turned back by that slope, are averaged. Where
5 by 5 of them agree along the slope and phase and filter do not, at enough pixels of 7 by 7, the fit stands in place of the filtered
phase. The limits were chosen on made scenes other than those of `docs/CHOOSING.md`.

The weights that go with it tell how well phase and filter agree: w a^2, where a is the length of the mean phasor of their
difference over the open ones of 5 by 5 pixels, and w the weight that coherence gives, 255 c if it is linear. Where no coherence is
known they are 255 a^2 over 3 by 3. Where a fit is taken they are the greatest weight, times how well the fit's phasors agree.

The transform is written out in sums of 32 bits, which is faster than `numpy.fft` and runs in threads. The raster is filtered in
bands. Each pixel has the same sums in the same order, however the bands and threads are.
"""
from concurrent.futures import ThreadPoolExecutor
from dataclasses import dataclass
from functools import lru_cache
from typing import Callable, Iterator, Optional, Tuple

import numpy as np
import numpy.typing as npt

from .planes import CYCLE, MAX_WEIGHT, phases_of

SIDE, STEP = 16, 4  # of windows, and from one to the next, in pixels
BEFORE = SIDE - STEP  # pixels that the first window reaches beyond the border
DEVIATIONS = 3.0  # that a frequency has at least
HANN: np.ndarray = np.hanning(SIDE + 2)[1:-1].astype(np.float32)
ROOT = np.sqrt(HANN)[:, None, None]
REACH, REACH_ALONE = 2, 1  # pixels around one whose phasors are averaged: with a coherence, and without
FIT_REACH, FIT_NEAR = 2, 1  # pixels around one by which its slope and the fit's agreement are measured, and that are averaged
FIT_AGREES, FIT_SHARE = 0.25, 0.5  # what a fit's agreement is at least, and how much of it the filter's is below
FIT_AROUND, FIT_COUNT = 3, 8  # pixels around one, and at how many of them the fit has to be the better one
BAND = 16  # rows of windows that are filtered at a time, each of STEP rows of pixels
FIT_BAND = 8  # the same, of local fits, which hold more numbers a pixel
MAX_THREADS = 4  # each has its band, of 16 MB where the raster is 2048 pixels wide

PARTS = 4  # of a transform of 16: transforms of 4 (Cooley and Tukey, Mathematics of Computation 19(90), 1965)
TWIST = np.exp(-2j * np.pi / SIDE * np.outer(range(PARTS), range(PARTS)))[:, :, None].astype(np.complex64)
FORTH, BACK = (np.complex64(-1j), TWIST), (np.complex64(1j), TWIST.conj())
Way = Tuple[np.complex64, np.ndarray]  # the root of order 4, and the roots of order 16 between the parts


@dataclass(frozen=True)
class Filtered:
    """A filtered phase, uint16, in 1/65536 cycle, 0 at masked pixels, and the weights that go with it, uint16, at least 1."""

    phase: npt.NDArray[np.uint16]
    weights: npt.NDArray[np.uint16]


def fourth(values: np.ndarray, turn: np.complex64) -> np.ndarray:
    """The transform of 4 along the first axis."""
    even, odd = values[:2] + values[2:], values[:2] - values[2:]
    odd[1] *= turn
    found = np.empty(values.shape, values.dtype)
    np.add(even[0], even[1], out=found[0])
    np.add(odd[0], odd[1], out=found[1])
    np.subtract(even[0], even[1], out=found[2])
    np.subtract(odd[0], odd[1], out=found[3])
    return found


def transformed(values: np.ndarray, way: Way) -> np.ndarray:
    """The transform of 16 along the first axis, forth, or back without its factor of 1/16."""
    turn, twist = way
    first = fourth(values.reshape(PARTS, PARTS, -1), turn)
    first *= twist
    return fourth(first.swapaxes(0, 1), turn).reshape(values.shape)


def windows_along(length: int) -> int:
    """How many windows begin in a row of so many pixels, or before it and reach into it."""
    return -(-length // STEP) + BEFORE // STEP


def reflected(length: int) -> np.ndarray:
    """The pixels that windows run over, from the first of the first window to the last of the last. Borders are mirrors."""
    period = max(1, 2 * (length - 1))
    places = np.arange(-BEFORE, STEP * windows_along(length)) % period
    return np.minimum(places, period - places)


def window_sums(values: np.ndarray) -> np.ndarray:
    """The sums of values of each window along the first axis, weighted by its squared weights."""
    places, count = reflected(len(values)), windows_along(len(values))
    found = np.zeros((count, values.shape[1]), dtype=np.float32)
    for place in range(SIDE):
        found += HANN[place] * values[places[place::STEP][:count]]
    return found


@lru_cache(maxsize=1)
def phasors() -> np.ndarray:
    """The phasor of each phase."""
    return np.exp(2j * np.pi / CYCLE * np.arange(CYCLE)).astype(np.complex64)


class Windows:
    """The windows of a phase, uint16, with its open pixels, both (rows, columns)."""

    def __init__(self, phase: np.ndarray, opened: np.ndarray):
        self.phase, self.opened = phase, opened
        self.rows, self.columns = map(reflected, phase.shape)
        self.high, self.wide = map(windows_along, phase.shape)
        powers = window_sums(window_sums(opened.astype(np.float32)).T).T
        self.least = np.float32(DEVIATIONS**2) * powers  # power of each window's frequencies that are kept

    def spectra(self, first: int) -> np.ndarray:
        """The spectra along rows of the windows that meet STEP rows from this one: (rows, frequencies, windows)."""
        inside = np.ix_(self.rows[first : first + STEP], self.columns)
        signal = np.where(self.opened[inside], phasors()[self.phase[inside]], 0)
        strips = signal.reshape(STEP, -1, STEP).transpose(2, 0, 1).copy()  # every STEP-th pixel of a row in one
        windows = np.empty((SIDE, STEP, self.wide), dtype=np.complex64)
        for place in range(SIDE):
            strip = strips[place % STEP, :, place // STEP :][:, : self.wide]
            np.multiply(strip, ROOT[place], out=windows[place])
        return transformed(windows, FORTH).swapaxes(0, 1)

    def rows_of(self, spectra: np.ndarray) -> np.ndarray:
        """The filtered phase of STEP rows of such spectra."""
        windows = transformed(spectra.swapaxes(0, 1), BACK)
        windows *= ROOT
        strips = np.zeros((STEP, STEP, len(self.columns) // STEP), dtype=np.complex64)
        for place in range(SIDE):
            strips[place % STEP, :, place // STEP :][:, : self.wide] += windows[place]
        signal = strips.transpose(1, 2, 0).reshape(STEP, -1)
        return phases_of(signal[:, BEFORE : BEFORE + self.phase.shape[1]])

    def kept(self, spectra: np.ndarray, row: int) -> np.ndarray:
        """What is left of a row of windows, of the spectra along its SIDE rows."""
        found = transformed(spectra * ROOT, FORTH)
        np.copyto(found, 0, where=found.real**2 + found.imag**2 < self.least[row])
        found = transformed(found, BACK)
        found *= ROOT
        return found

    def band(self, first: int, last: int) -> np.ndarray:
        """The filtered phase of the rows of pixels from STEP * first to STEP * last, of all windows that reach into them."""
        high = last - first + BEFORE // STEP
        spectra = np.concatenate([self.spectra(STEP * (first + row)) for row in range(high + BEFORE // STEP)])
        sums = np.zeros_like(spectra)
        for row in range(high):
            place = slice(STEP * row, STEP * row + SIDE)
            sums[place] += self.kept(spectra[place], first + row)
        inside = range(BEFORE, STEP * high, STEP)
        return np.concatenate([self.rows_of(sums[place : place + STEP]) for place in inside])


def bands_of(length: int, band: int) -> Iterator[Tuple[int, int]]:
    """The first of each band and the one after its last."""
    return ((first, min(first + band, length)) for first in range(0, length, band))


def in_threads(work: Callable[[Tuple[int, int]], None], bands: Iterator[Tuple[int, int]], threads: int) -> None:
    """Does the work on each band."""
    with ThreadPoolExecutor(max(1, min(threads, MAX_THREADS))) as pool:
        for _ in pool.map(work, bands):
            pass


def filtered_phase(phase: np.ndarray, opened: np.ndarray, threads: int = 1, band: int = BAND) -> np.ndarray:
    """The filtered phase, uint16, 0 at masked pixels; of a phase in 1/65536 cycle, uint16."""
    windows = Windows(phase, opened)
    found = np.zeros((STEP * (windows.high - BEFORE // STEP), phase.shape[1]), dtype=np.uint16)

    def fill(ends: Tuple[int, int]) -> None:
        found[STEP * ends[0] : STEP * ends[1]] = windows.band(*ends)

    in_threads(fill, bands_of(windows.high - BEFORE // STEP, band), threads)
    found = found[: len(phase)]
    found[~opened] = 0
    return found


def sums_around(values: np.ndarray, reach: int) -> np.ndarray:
    """The sums of values so far up and down; there is nothing beyond the border."""
    padded = np.pad(values, ((reach, reach), (0, 0)))
    found = np.zeros_like(values)
    for place in range(2 * reach + 1):
        found += padded[place : place + len(values)]
    return found


def sums_near(values: np.ndarray, reach: int) -> np.ndarray:
    """The sums of values in the square that reaches so far; there is nothing beyond the border."""
    return sums_around(sums_around(values, reach).T, reach).T


def mean_power(total: np.ndarray, opened: np.ndarray, reach: int) -> np.ndarray:
    """The squared length of the mean phasor of the open pixels within reach, whose sum this is, float32; 0 where none is."""
    count = sums_near(opened.astype(np.float32), reach)
    return (total.real**2 + total.imag**2) / np.maximum(count, 1) ** 2


def agreement(difference: np.ndarray, opened: np.ndarray, reach: int) -> np.ndarray:
    """The squared length of the mean phasor of differences over the open pixels within reach, float32; 0 where none is."""
    phasor = np.where(opened, phasors()[difference], 0)
    return mean_power(sums_near(phasor, reach), opened, reach)


def agreed_weights(
    phase: np.ndarray,
    smooth: np.ndarray,
    opened: np.ndarray,
    weights: Optional[np.ndarray],
    threads: int = 1,
    band: int = BAND,
) -> np.ndarray:
    """Weights of a filtered phase: those that coherence gives, times the agreement of phase and filter; at least 1."""
    reach = REACH_ALONE if weights is None else REACH
    found = np.ones(phase.shape, dtype=np.uint16)

    def fill(ends: Tuple[int, int]) -> None:
        first, last = STEP * ends[0], STEP * ends[1]
        above = max(0, first - reach)
        near, inside = slice(above, last + reach), slice(first - above, last - above)
        share = agreement(phase[near] - smooth[near], opened[near], reach)[inside]
        given = np.float32(MAX_WEIGHT) if weights is None else weights[first:last]
        found[first:last] = np.maximum(np.rint(share * given), 1)

    in_threads(fill, bands_of(-(-len(phase) // STEP), band), threads)
    return found


# Local fits


@dataclass(frozen=True)
class Fits:
    """Phases averaged along local slopes, uint16, in 1/65536 cycle; how well the phasors about each pixel agree along its slope,
    float32, from 0 to 1; and where this stands in place of a filtered phase. All are (rows, columns)."""

    phase: npt.NDArray[np.uint16]
    agreement: npt.NDArray[np.float32]
    taken: npt.NDArray[np.bool_]


def turn_back(signal: np.ndarray) -> np.ndarray:
    """The phasor by which a step to the right turns back the local slope of phasors, 0 where there is none."""
    steps = signal[:, 1:] * signal[:, :-1].conj()
    beside = np.zeros_like(signal)
    beside[:, :-1] += steps
    beside[:, 1:] += steps
    total = sums_near(beside, FIT_REACH)
    size = np.sqrt(total.real**2 + total.imag**2)
    return total.conj() / np.maximum(size, np.float32(1e-9))


def powers_of(turn: np.ndarray) -> Tuple[np.ndarray, ...]:
    """What steps from -2 to 2 turn back."""
    twice = turn * turn
    return twice.conj(), turn.conj(), np.ones_like(turn), turn, twice


def leaned_sums(signal: np.ndarray) -> Tuple[np.ndarray, np.ndarray]:
    """The sums of 3 by 3 and of 5 by 5 phasors about each pixel, turned back by the local slope."""
    height, width = signal.shape
    across, down = powers_of(turn_back(signal)), powers_of(turn_back(signal.T).T)
    padded = np.pad(signal, FIT_REACH)
    near, far = np.zeros_like(signal), np.zeros_like(signal)
    for row, turn in enumerate(down):
        turned = [padded[row : row + height, place : place + width] * other for place, other in enumerate(across)]
        inner = sum(turned[FIT_NEAR:-FIT_NEAR])
        far += (turned[0] + inner + turned[-1]) * turn
        if abs(row - FIT_REACH) <= FIT_NEAR:
            near += inner * turn
    return near, far


def local_fits(phase: np.ndarray, smooth: np.ndarray, opened: np.ndarray, threads: int = 1, band: int = FIT_BAND) -> Fits:
    """The local fits of a phase, and where they are taken in place of its filtered phase."""
    shape, halo = phase.shape, FIT_REACH + 1
    found = Fits(np.zeros(shape, np.uint16), np.zeros(shape, np.float32), np.zeros(shape, np.bool_))
    better = np.zeros(shape, dtype=np.uint8)

    def fill(ends: Tuple[int, int]) -> None:
        first, last = STEP * ends[0], STEP * ends[1]
        above = max(0, first - halo)
        near, inside = slice(above, last + halo), slice(first - above, last - above)
        few, many = leaned_sums(np.where(opened[near], phasors()[phase[near]], 0))
        fit = mean_power(many, opened[near], FIT_REACH)
        agreed = agreement(phase[near] - smooth[near], opened[near], FIT_REACH)
        found.phase[first:last], found.agreement[first:last] = phases_of(few[inside]), fit[inside]
        better[first:last] = (opened[near] & (fit > FIT_AGREES) & (agreed < FIT_SHARE * fit))[inside]

    in_threads(fill, bands_of(-(-len(phase) // STEP), band), threads)
    np.copyto(found.taken, opened & (sums_near(better, FIT_AROUND) >= FIT_COUNT))
    return found


def filtered(
    phase: np.ndarray, opened: np.ndarray, weights: Optional[np.ndarray] = None, threads: int = MAX_THREADS
) -> Filtered:
    """The filtered phase and its weights, of a phase in 1/65536 cycle, uint16, its open pixels, and the weights that coherence
    gives, if one is known. All are (rows, columns)."""
    smooth = filtered_phase(phase, opened, threads)
    agreed = agreed_weights(phase, smooth, opened, weights, threads)
    fits = local_fits(phase, smooth, opened, threads)
    greatest = MAX_WEIGHT if weights is None else int(weights.max())
    fitted = np.rint(np.multiply(fits.agreement, np.float32(greatest), out=fits.agreement), out=fits.agreement)
    np.copyto(smooth, fits.phase, where=fits.taken)
    np.copyto(agreed, np.maximum(fitted, 1, out=fitted), where=fits.taken, casting="unsafe")
    return Filtered(smooth, agreed)
