"""Tests the sign that the ground slipped between two acquisitions, on stacks of six whose pairs have two parts each."""
import itertools
from typing import Dict, Sequence, Tuple

import numpy as np

from wundjeska.stack_cycles import Raised
from wundjeska.stack_loops import Loop, Stack
from wundjeska.stack_slips import slips_of, without

DATES = [f"2023010{number}" for number in range(1, 7)]
PAIRS = [pair for pair in itertools.combinations(DATES, 2) if int(pair[1]) - int(pair[0]) <= 3]  # twelve
LOOPS = [dates for dates in itertools.combinations(DATES, 3) if {dates[:2], dates[1:], dates[::2]} <= set(PAIRS)]  # ten
WHOLE, SIDE, SMALL = 1000, 400, 210  # pixels of the first part of each pair, of the second, and of some second ones
LAST = [(DATES[2], DATES[5]), (DATES[3], DATES[5]), (DATES[4], DATES[5])]  # the pairs across the last interval
Pair = Tuple[str, str]


def stack_of(errors: Dict[Pair, int], small: Sequence[Pair] = ()) -> Stack:
    """A stack in which the second part of these pairs lies too high by so many cycles, and is small in some."""
    sizes = {pair: SMALL if pair in small else SIDE for pair in PAIRS}

    def loop_of(dates: Tuple[str, ...]) -> Loop:
        pairs = [(dates[0], dates[1]), (dates[1], dates[2]), (dates[0], dates[2])]
        first, second, third = (errors.get(pair, 0) for pair in pairs)
        pixels = np.array([WHOLE, min(sizes[pair] for pair in pairs)])
        return Loop(np.array([PAIRS.index(pair) for pair in pairs]), np.array([[1, 2]] * 3), np.array([0, first + second - third]), pixels)

    return Stack([loop_of(dates) for dates in LOOPS], [np.array([WHOLE, sizes[pair]]) for pair in PAIRS])


def raised_in(raised: Raised) -> Dict[Pair, int]:
    """By how many cycles the second parts are raised."""
    return {pair: number for pair, number in zip(PAIRS, raised.numbers[1::2].tolist()) if number}


def test_a_slip() -> None:
    """Of the last interval three pairs tell. To raise the one with a large part costs nearly as much as to raise both others."""
    far = (DATES[0], DATES[2])
    stack = stack_of({LAST[2]: 1, far: -2}, LAST[:2])
    found = stack.find(60)
    assert raised_in(found) == {far: 2, LAST[2]: -1}
    (slip,) = slips_of(stack, PAIRS, found)
    assert (slip.first, slip.second, slip.pixels, slip.doubted, slip.near.sum()) == (DATES[4], DATES[5], SIDE, SIDE, 6)
    assert slip.told().endswith(f"{DATES[4]} and {DATES[5]}: {SIDE} of {SIDE} pixels to be raised in pairs across are doubted")
    left = without(stack, found, [slip])
    assert (raised_in(left), bool(left.doubted.any())) == ({far: 2}, False)
    assert raised_in(without(stack, found, [])) == raised_in(found)


def test_errors_of_single_pairs() -> None:
    """One pair against two or more is no doubt."""
    errors = {LAST[2]: 1, (DATES[0], DATES[2]): -2}
    stack = stack_of(errors)
    found = stack.find(60)
    assert raised_in(found) == {pair: -number for pair, number in errors.items()}
    assert not (found.doubted.any() or slips_of(stack, PAIRS, found))
