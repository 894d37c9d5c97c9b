"""What a page shows of a surface by a guide besides the surface: the filtered phase, and where no filter makes other cycles."""
from dataclasses import dataclass
from typing import Any, List, Sequence, Tuple

import numpy as np

from .guiding import Guided
from .pictures import MASKED, PLAIN, ROUND, Axes, Bar, Colour, Values, any_thinned, coloured, map_of, thinned
from .planes import CYCLE, Session
from .undecided import Apart, told

UNDECIDED, DECIDED = (202, 88, 0), (95, 150, 190)  # colours of parts


@dataclass(frozen=True)
class ByGuide:
    """Of surfaces by guides: the values of each, in the order of the report; the planes of the filtered session; where the last one
    is whole cycles apart from the surface without a filter; and how it came about, in words."""

    values: Sequence[np.ndarray]
    smooth: Session
    apart: Apart
    chain: str


def by_guide_of(guided: Guided[Any], chain: str) -> ByGuide:
    return ByGuide([guided.values], guided.smooth, guided.apart, chain)


def filtered_map(smooth: Session, axes: Axes) -> str:
    cycles = thinned(np.where(smooth.opened, smooth.phase / CYCLE, np.nan))
    bar = Bar("filtered", ROUND, 0, 1, "cycles")
    words = "The phase after the filter, of which the guide is"
    return map_of(coloured(cycles, ROUND), axes, bar, "Filtered phase", words, values=Values(cycles, "cycles"))


def apart_words(apart: Apart) -> str:
    """What is to be known of the parts."""
    sides = [[part for part in apart.parts if part.is_decided is known] for known in (False, True)]
    names = ("Undecided: nobody knows which cycles are right", "Decided: the filter knows")
    lines: List[str] = [f"{name}: {told(parts)}" for name, parts in zip(names, sides) if parts]
    return ". ".join(lines)


def apart_map(opened: np.ndarray, apart: Apart, axes: Axes) -> str:
    """Where no filter makes other cycles, if it does."""
    if not apart.parts:
        return "<p>Without the filter no part of 500 pixels or more gets other cycles.</p>"
    colours = np.where(thinned(opened)[..., None], PLAIN, MASKED).astype(np.uint8)
    doubted = apart.undecided().labels > 0
    colours[any_thinned((apart.labels > 0) & ~doubted)] = DECIDED
    colours[any_thinned(doubted)] = UNDECIDED
    keys: List[Tuple[Colour, str]] = [(UNDECIDED, "undecided"), (DECIDED, "decided"), (PLAIN, "the same"), (MASKED, "masked")]
    return map_of(colours, axes, keys, "Where no filter makes other cycles", apart_words(apart))
