"""An expected ramp: the slopes about which the program wraps differences, told by hand or estimated. NumPy alone.

Slopes are whole numbers of 1/65536 cycle a pixel, to the right and downwards, from -32768 to 32767. A session keeps its ramp in a
comment of its first plane, which the program skips, so it goes where the file goes (`planes.ramp_in`).

The estimate is the peak of the spectrum: of a single tone in noise the frequency at which the periodogram is greatest is the most
likely one (Rife and Boorstyn, IEEE Transactions on Information Theory 20(5), 1974). Periodograms of windows are averaged (Welch,
IEEE Transactions on Audio and Electroacoustics 15(2), 1967), as for local fringe rates of interferograms (Spagnolini, IEEE
Transactions on Geoscience and Remote Sensing 33(3), 1995). So it is the commonest fringe rate. A spectrum tells a rate up to
whole cycles a pixel alone: a flank of 0.8 cycle a pixel looks as one of -0.2 does, and has to be known from elsewhere.
"""
import re
from argparse import ArgumentParser, ArgumentTypeError
from typing import Optional, Sequence, Tuple, Union

import numpy as np

from .planes import CYCLE, STEEPEST, Ramp, is_ramp
from .trouble import REFUSED_WORDS, Trouble, warn

AUTO = "auto"
SIDE, PADDED = 32, 64  # pixels along a window, and frequencies along its spectrum
DISTINCT, FEW = 3.0, 5.0  # times the mean power that a peak has at least, of many windows; and how much more of few
RANGE = f"a slope is from {-STEEPEST - 1} to {STEEPEST}, in 1/65536 cycle a pixel"

RampWord = Union[None, str, Tuple[int, int]]  # none, 'auto', or slopes
Given = Union[None, str, Sequence[int], np.ndarray]  # the same, from Python


class Spectrum:
    """The power of fringe rates, summed over windows of an interferogram: downwards by rows, to the right by columns."""

    def __init__(self) -> None:
        self.power = np.zeros((PADDED, PADDED))
        self.pixels, self.is_wide, self.is_high = 0, False, False

    def add(self, phase: np.ndarray, weights: np.ndarray, opened: np.ndarray) -> None:
        """Adds the windows of a block of phases, weights and open pixels, (rows, columns)."""
        height, width = phase.shape
        self.is_wide, self.is_high = self.is_wide or width > 1, self.is_high or height > 1
        for row in range(0, height, SIDE):
            part = np.s_[row : row + SIDE]
            signal = np.where(opened[part], weights[part], 0) * np.exp(2j * np.pi / CYCLE * phase[part])
            signal = np.pad(signal, ((0, 0), (0, -width % SIDE)))
            windows = signal.reshape(len(signal), -1, SIDE).swapaxes(0, 1)
            self.pixels += np.count_nonzero(signal)
            self.power += (np.abs(np.fft.fft2(windows, s=self.power.shape)) ** 2).sum(axis=0)

    def is_distinct(self) -> bool:
        """Whether a peak stands out. In noise all rates have the same power, but for what chance does in few windows."""
        windows = max(1, self.pixels / SIDE**2)
        least = DISTINCT * (1 + FEW / np.sqrt(windows)) * self.power.mean()
        return bool(self.power.max() >= least > 0)

    def peak(self) -> Ramp:
        """The fringe rate at the peak, between frequencies by a parabola; 0 along a side of a single pixel."""
        row, column = np.unravel_index(np.argmax(self.power), self.power.shape)
        across = slope_at(self.power[row], int(column)) if self.is_wide else 0
        down = slope_at(self.power[:, column], int(row)) if self.is_high else 0
        return across, down


def slope_at(power: np.ndarray, place: int) -> int:
    """The slope at the top of a parabola through a peak and its neighbours."""
    before, top, after = (float(power[(place + step) % PADDED]) for step in (-1, 0, 1))
    curve = before - 2 * top + after
    rate = (place + (0.5 * (before - after) / curve if curve else 0.0)) / PADDED
    return int(np.clip(round((rate - round(rate)) * CYCLE), -STEEPEST - 1, STEEPEST))


def found_in(spectrum: Spectrum, name: str) -> Ramp:
    """The ramp that a spectrum tells; none, with a warning, if it tells none."""
    if not spectrum.is_distinct():
        warn(f"{name}: no fringe rate stands out, so no ramp is expected")
        return 0, 0
    return spectrum.peak()


def ramp_for(word: RampWord, phase: np.ndarray, weights: np.ndarray, opened: np.ndarray, name: str) -> Optional[Ramp]:
    """The ramp that a word asks for, for planes; None if it asks for none."""
    if word != AUTO:
        assert not isinstance(word, str)
        return word
    spectrum = Spectrum()
    spectrum.add(phase, weights, opened)
    return found_in(spectrum, name)


def checked(ramp: Given) -> RampWord:
    """A ramp as it is given in Python. Trouble if it is none."""
    if ramp is None or isinstance(ramp, str) and ramp == AUTO:
        return ramp
    try:
        slopes = [] if isinstance(ramp, str) else list(ramp)
    except TypeError:  # a single number
        slopes = []
    if len(slopes) != 2 or not all(isinstance(slope, (int, np.integer)) for slope in slopes):
        raise Trouble("a ramp is 'auto', or two whole numbers: the slopes to the right and downwards", REFUSED_WORDS)
    found = int(slopes[0]), int(slopes[1])
    if not is_ramp(found):
        raise Trouble(f"{RANGE}; these are {found[0]} and {found[1]}", REFUSED_WORDS)
    return found


def read_word(text: str) -> RampWord:
    """The word of --ramp."""
    if text == AUTO:
        return AUTO
    if not re.fullmatch(r"[+-]?[0-9]{1,9},[+-]?[0-9]{1,9}", text):
        raise ArgumentTypeError(f"{text!r} is neither auto nor two whole numbers as -13107,0")
    across, down = map(int, text.split(","))
    if not is_ramp((across, down)):
        raise ArgumentTypeError(f"{RANGE}; {text} is not, and no steeper one can be expected")
    return across, down


def add_ramp_words(words: ArgumentParser) -> None:
    words.add_argument(
        "--ramp",
        type=read_word,
        metavar="GX,GY",
        help="expect this slope to the right and downwards, in 1/65536 cycle a pixel, as -13107,0, or auto: the commonest "
        "fringe rate. Differences of neighbours are taken to lie within half a cycle of it (default: of 0)",
    )
    # else a slope below 0 looks like an option
    words._negative_number_matcher = re.compile(r"-\d+(,[+-]?\d+)?$|-\d*\.\d+$")


def told(ramp: Ramp) -> str:
    """A ramp in its units and in cycles."""
    across, down = (f"{slope / CYCLE:.4f}" for slope in ramp)
    return f"ramp {ramp[0]},{ramp[1]}: {across} cycle a pixel to the right, {down} downwards"
