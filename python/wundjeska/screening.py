"""First masks by a rule: what the program's command `screen` is asked for, and why it dropped what it dropped. NumPy alone.

A pixel is strong if it is open and has the weight that is asked for. It passes if it is strong and so many pixels near it
are: in the square about it, itself included. It stays open if it passes and enough pixels that pass touch each other about
it, to the right, left, above and below. So a pixel is dropped because it is weak, because it is lonely, or because its
patch is an island.

The program makes the mask. The reasons are found here anew, of the session before, and the mask that they leave has to be the
program's. Of a raster that is too large for the program's `screen` they make the mask.
"""
import re
from argparse import ArgumentParser, ArgumentTypeError
from dataclasses import dataclass
from typing import Any, Dict, List, Mapping, Optional, Union

import numpy as np

from .components import pieces_of, sizes_of
from .planes import (
    TILED_LIMITS,
    comments_in,
    highest_weight,
    ramp_comment,
    ramp_in,
    read_session,
    session_of,
    shape_in,
    with_comments,
)
from .program import run_program
from .trouble import DISAGREES, REFUSED_WORDS, Trouble
from .weights import HIGHEST, weights_of

STAYS, WEAK, LONELY, ISLAND, MASKED = range(5)  # what becomes of a pixel; the last is that of those masked before
NAMES = {WEAK: "weak", LONELY: "lonely", ISLAND: "in islands"}
MOST = {"weight": HIGHEST, "radius": 64, "count": 129**2, "patch": TILED_LIMITS.pixels}
SIDE = 128  # of the tiles by which the program counts what edits cost; the largest has the fewest
FORM = "parts as coherence=0.3,radius=3,count=20,patch=50"
COMMENT = re.compile(rb"# wundjeska screen([^\n\r]*)")
NUMBERS = re.compile(rb" (0|[1-9][0-9]{0,6})" * 4)
IN_PYTHON = " (by Python, tested and not proved)"


@dataclass(frozen=True)
class Terms:
    """What a pixel has to have to stay open: a weight, so many strong pixels within a radius, and so many in its patch."""

    weight: int = 0
    radius: int = 0
    count: int = 0
    patch: int = 0

    def words(self) -> List[str]:
        """Those of the program."""
        return [word for name in MOST for word in (f"--{name}", str(getattr(self, name)))]

    def comment(self) -> bytes:
        """The line in a session that keeps them."""
        return b"# wundjeska screen %d %d %d %d\n" % (self.weight, self.radius, self.count, self.patch)

    def told(self) -> str:
        return ", ".join(f"{name} {getattr(self, name)}" for name in MOST)


@dataclass(frozen=True)
class Screen:
    """What is asked for: the terms, where a coherence from 0 to 1 may stand for the weight."""

    terms: Terms
    coherence: Optional[float] = None

    def of(self, looks: Optional[float]) -> Terms:
        """The terms, with the weight that a session gives to the coherence."""
        if self.coherence is None:
            return self.terms
        weight = int(weights_of(np.array([self.coherence]), looks)[0])
        return Terms(weight, self.terms.radius, self.terms.count, self.terms.patch)


Given = Union[None, str, Screen, Mapping[str, Any]]


# What is asked for


def whole_number(name: str, given: Any) -> int:
    """A part that is a whole number. ValueError if it is none, or is out of its range."""
    text = str(given)
    if isinstance(given, bool) or not re.fullmatch("[0-9]{1,9}", text, re.ASCII) or int(text) > MOST[name]:
        raise ValueError(f"{name} is a whole number from 0 to {MOST[name]}, not {text!r}")
    return int(text)


def part_of_one(given: Any) -> float:
    """A coherence. ValueError if it is none."""
    try:
        found = float(given)
    except (TypeError, ValueError):
        found = -1.0
    if not 0 <= found <= 1:
        raise ValueError(f"coherence is from 0 to 1, not {given!r}")
    return found


def screen_of(parts: Mapping[str, Any]) -> Screen:
    """A screen of its parts by name. ValueError if they are none."""
    if not isinstance(parts, Mapping):
        raise ValueError(f"a screen has {FORM}, not {parts!r}")
    unknown = [name for name in parts if name not in ("coherence", *MOST)]
    if unknown or not parts:
        raise ValueError(f"a screen has {FORM}" + (f", and no {unknown[0]!r}" if unknown else ""))
    if "coherence" in parts and "weight" in parts:
        raise ValueError("a screen has a coherence or a weight, not both")
    coherence = part_of_one(parts["coherence"]) if "coherence" in parts else None
    terms = Terms(**{name: whole_number(name, parts[name]) for name in MOST if name in parts})
    near = (2 * terms.radius + 1) ** 2
    if terms.count > near:
        raise ValueError(f"count {terms.count} is more than the {near} pixels within radius {terms.radius}")
    if terms.radius and not terms.count:
        raise ValueError("a radius wants a count of the strong pixels within it")
    return Screen(terms, coherence)


def read_parts(text: str) -> Dict[str, str]:
    """The parts in words as `coherence=0.3,patch=50`. ValueError if they are none."""
    found = [part.partition("=") for part in text.split(",")]
    names = [name for name, _, _ in found]
    if not all(sign for _, sign, _ in found) or len(set(names)) < len(names):
        raise ValueError(f"{text!r} are no {FORM}, each once")
    return {name: value for name, _, value in found}


def read_word(text: str) -> Screen:
    """The word of --screen."""
    try:
        return screen_of(read_parts(text))
    except ValueError as error:
        raise ArgumentTypeError(str(error)) from error


def checked(given: Given) -> Optional[Screen]:
    """A screen as it is given in Python. Trouble if it is none."""
    if given is None or isinstance(given, Screen):
        return given
    try:
        return screen_of(read_parts(given) if isinstance(given, str) else given)
    except ValueError as error:
        raise Trouble(str(error), REFUSED_WORDS) from error


def add_screen_words(words: ArgumentParser) -> None:
    words.add_argument(
        "--screen",
        type=read_word,
        metavar="PARTS",
        help="mask what coherence tells to be noise, by parts as coherence=0.3,radius=3,count=20,patch=50: pixels below the "
        "coherence (weak), those with fewer than so many others within the radius (lonely), and patches of what is left that are "
        "smaller (islands). A coherence counts as its weight does, in steps of 1/255 without --looks; weight=N names the weight "
        "itself. Parts that are left out drop nothing",
    )
    words.add_argument(
        "--unscreened", metavar="FILE", help="keep the session before --screen, of which a page shows what was dropped"
    )


def check_screen_words(screen: Optional[Screen], unscreened: Optional[str], coherence: Optional[object]) -> None:
    """Trouble if arguments do not fit each other."""
    if screen is None and unscreened is not None:
        raise Trouble("--unscreened wants --screen", REFUSED_WORDS)
    if screen is not None and screen.coherence is not None and coherence is None:
        raise Trouble("a coherence of --screen wants --coherence", REFUSED_WORDS)


# What was dropped


def near_of(strong: np.ndarray, radius: int) -> np.ndarray:
    """How many strong pixels lie in the square of this radius about each pixel; int32, (rows, columns)."""
    height, width = strong.shape
    sums = np.zeros((height + 1, width + 1), dtype=np.int32)
    np.cumsum(np.cumsum(strong, axis=0, dtype=np.int32), axis=1, out=sums[1:, 1:])
    (upper, lower), (left, right) = (
        (np.maximum(np.arange(side) - radius, 0), np.minimum(np.arange(side) + radius + 1, side))
        for side in (height, width)
    )
    bands = sums[lower] - sums[upper]
    found: np.ndarray = bands[:, right] - bands[:, left]
    return found


def fates_of(weights: np.ndarray, opened: np.ndarray, terms: Terms) -> np.ndarray:
    """What becomes of each pixel; uint8, (rows, columns)."""
    strong = opened & (weights >= terms.weight)
    passes = strong & (near_of(strong, terms.radius) >= terms.count)
    pieces = pieces_of(passes)
    small = np.append(sizes_of(pieces) < terms.patch, False)[pieces]  # the last place is that of pixels of no piece
    found = np.full(opened.shape, STAYS, dtype=np.uint8)
    for fate, there in (
        (ISLAND, passes & small),
        (LONELY, strong & ~passes),
        (WEAK, opened & ~strong),
        (MASKED, ~opened),
    ):
        found[there] = fate
    return found


@dataclass(frozen=True)
class Screened:
    """What screening did: by which terms, and what became of each pixel; uint8, (rows, columns)."""

    terms: Terms
    fates: np.ndarray

    def by_terms(self) -> str:
        """The terms, and whose mask it is if it is not the program's."""
        return self.terms.told() + ("" if TILED_LIMITS.hold(self.fates.shape) else IN_PYTHON)

    def stays(self) -> np.ndarray:
        """True at each pixel that is open afterwards."""
        found: np.ndarray = self.fates == STAYS
        return found

    def dropped_at(self) -> np.ndarray:
        """Why each pixel was dropped; 0 at those that were not."""
        return np.where(self.fates < MASKED, self.fates, 0).astype(np.uint8)

    def dropped(self, why: int) -> int:
        return int((self.fates == why).sum())

    def islands(self) -> int:
        """How many patches were too small."""
        return int(pieces_of(self.fates == ISLAND).max(initial=-1)) + 1

    def told(self) -> str:
        """How many pixels were dropped, and why."""
        counts = ", ".join(f"{self.dropped(why)} {name}" for why, name in NAMES.items())
        return f"{counts} ({self.islands()})"


def screened_by(before: bytes, after: bytes, terms: Terms, name: str) -> Screened:
    """What screening did to a session. Trouble if the second one is not what the terms make of the first."""
    first, second = read_session(before), read_session(after)
    found = Screened(terms, fates_of(first.weights, first.opened, terms))
    same = [
        np.array_equal(one, other)
        for one, other in ((first.phase, second.phase), (first.weights, second.weights), (found.stays(), second.opened))
    ]
    if not all(same):
        what = ("phases", "weights", "mask")[same.index(False)]
        raise Trouble(f"{name}: the {what} are not those of the session that was screened by {terms.told()}", DISAGREES)
    return found


def terms_in(text: bytes) -> Optional[Terms]:
    """The terms that a session was screened by, which a comment in its head tells, or None. Trouble if it cannot be read."""
    comments = comments_in(text, COMMENT)
    if not comments:
        return None
    numbers = NUMBERS.fullmatch(comments.pop())
    terms = list(map(int, numbers.groups())) if numbers and not comments else []
    if not terms or any(number > most for number, most in zip(terms, MOST.values())):
        raise Trouble(
            "the session's comment `# wundjeska screen` has not the weight, radius, count and patch of a screen"
        )
    return Terms(*terms)


def screened(session: bytes, terms: Terms, name: str) -> bytes:
    """The session that the program's `screen` makes, or of a large raster `by_rule`; its comments keep the ramp and the terms."""
    if TILED_LIMITS.hold(shape_in(session)):
        text = run_program(["screen", *terms.words(), "--tile", str(SIDE)], session, name)
    else:
        text = by_rule(session, terms)
    return with_comments(text, ramp_comment(ramp_in(session)) + terms.comment())


def by_rule(session: bytes, terms: Terms) -> bytes:
    """The session with the mask that the rule leaves, without comments."""
    planes = read_session(session)
    stays = fates_of(planes.weights, planes.opened, terms) == STAYS
    return session_of(planes.phase, planes.weights, stays, planes.script, highest_weight(session))
