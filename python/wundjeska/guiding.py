"""Unwrapping by a guide: a surface of the filtered phase, and the surface of the phase as given that is nearest to it.

The guide is least of all for the filtered session, which the program proves and its checker judges. What is returned differs from
the phase as given by whole cycles, and from the guide by half a cycle at most (`nearest`).

A filter of 16 by 16 pixels takes a feature that is narrower for noise, but for what local slopes tell (`filtering`). With `narrow`
what the guide leaves of the phase is unwrapped, too, and tells more such features.

The phase as given is unwrapped as well. Where that surface is whole cycles apart, `undecided` tells whether the filter knows which of
the two is right. NumPy alone.
"""
from argparse import ArgumentParser, ArgumentTypeError
from dataclasses import dataclass
from typing import Callable, Generic, Optional, Protocol, TypeVar

import numpy as np
import numpy.typing as npt

from .arguments import refused
from .filtering import MAX_THREADS, SIDE, filtered
from .nearest import how_made, nearest, rest_of, with_narrow
from .planes import CYCLE, MAX_WEIGHT, Session, comments_of, read_session, session_of, with_comments
from .progress import stage
from .report_reader import Surface
from .trouble import DISAGREES, REFUSED_WORDS, Trouble
from .undecided import Apart, parts_apart
from .weights import HIGHEST

FOURIER, NO_FILTER = "fourier", "none"
FILTERS = (FOURIER,)
FILTER_COMMENT = b"# wundjeska filter " + FOURIER.encode() + b"\n"  # in the head of a session whose phase is filtered
LEAST = {True: "the guide is least of all", False: "the guide is least in each tile and at the seams"}
GUIDE = "a guide, of a filtered phase: it is not congruent with the phase as given"
NARROW = f"what is narrower than {SIDE} pixels is of a second surface, put in by Python and tested"
ALIKE, MANY_ALIKE = CYCLE // 256, 0.99  # units, and a share of pixels: what two machines make of one filter differs by less


@dataclass(frozen=True)
class Chain:
    """How a surface comes about: the filter that makes a guide, or None, and whether features narrower than its windows are looked
    for."""

    filter: Optional[str] = None
    narrow: bool = False

    def check(self) -> None:
        """Trouble if there is no such chain."""
        if self.filter is not None and not (isinstance(self.filter, str) and self.filter in FILTERS):
            raise refused("filter", " or ".join([*map(repr, FILTERS), "None"]), self.filter)
        if self.narrow and self.filter is None:
            raise Trouble("narrow features want a filter", REFUSED_WORDS)

    def told(self, is_whole: bool, is_accepted: bool = True) -> str:
        """The chain, and what is proved of it."""
        if self.filter is None:
            return NO_FILTER
        least = f"{LEAST[is_whole]} for the filtered session" if is_accepted else "nothing certifies the guide"
        made = f"{least}; the surface is the congruent one nearest to it, {how_made()}"
        return f"{self.filter}: {made}" + (f"; {NARROW}" if self.narrow else "")


def is_filtered(session: bytes) -> bool:
    """Whether the phase of a session is filtered."""
    return FILTER_COMMENT in comments_of(session)


# Words


def read_filter(text: str) -> Optional[str]:
    """The word of --filter."""
    if text not in (*FILTERS, NO_FILTER):
        raise ArgumentTypeError(f"there is {' or '.join((*FILTERS, NO_FILTER))}, and no {text!r}")
    return None if text == NO_FILTER else text


def add_filter_words(words: ArgumentParser, what: str, default: Optional[str]) -> None:
    """The words that name a filter or none; `what` says what a filter does."""
    words.add_argument(
        "--filter",
        type=read_filter,
        metavar="|".join((*FILTERS, NO_FILTER)),
        default=default,
        help=f"{what} (default: {default or NO_FILTER})",
    )
    words.add_argument(
        "--no-filter", dest="filter", action="store_const", const=None, default=default, help="the same as --filter none"
    )


def add_narrow_word(words: ArgumentParser) -> None:
    words.add_argument(
        "--narrow", action="store_true", help=f"look for features narrower than {SIDE} pixels by a second surface, too"
    )


def add_unfiltered_word(words: ArgumentParser, what: str) -> None:
    words.add_argument("--unfiltered", metavar="FILE", help=what)


# Solving


class Answer(Protocol):
    """What a solver makes of a session."""

    @property
    def surface(self) -> Surface:
        """Its surface."""


Solution = TypeVar("Solution", bound=Answer)


@dataclass(frozen=True)
class Solvers(Generic[Solution]):
    """What solves a session, and what solves one whose surface is a comparison alone."""

    solve: Callable[[bytes], Solution]
    compare: Callable[[bytes], Solution]


@dataclass(frozen=True)
class Guided(Generic[Solution]):
    """A surface by a guide.

    values   in 1/65536 cycle, NODATA at masked pixels
    session  the filtered session
    guide    what the solver made of it
    smooth   its planes: the filtered phase, and the weights that the guide is of
    apart    where the surface is whole cycles apart from the one without a filter
    """

    values: npt.NDArray[np.int64]
    session: bytes
    guide: Solution
    smooth: Session
    apart: Apart


def filtered_session(session: bytes, has_coherence: bool, threads: int = MAX_THREADS) -> bytes:
    """The session of the filtered phase, with the script and the comments of the session. Its weights are made of those of the
    session, if these are made of coherence."""
    stage("filtering")
    planes = read_session(session)
    found = filtered(planes.phase, planes.opened, planes.weights if has_coherence else None, threads)
    text = session_of(found.phase, found.weights, planes.opened, planes.script, highest_in(planes))
    return with_comments(text, comments_of(session) + FILTER_COMMENT)


def highest_in(planes: Session) -> int:
    """A maxval of the weights."""
    return MAX_WEIGHT if planes.weights.max() <= MAX_WEIGHT else HIGHEST


def surface_by(planes: Session, guide: np.ndarray, narrow: bool, solvers: Solvers[Solution]) -> npt.NDArray[np.int64]:
    """The surface of these planes by a guide."""
    values = nearest(planes.phase, guide, planes.opened)
    if not narrow:
        return values
    rest = session_of(rest_of(planes.phase, guide), planes.weights, planes.opened, highest=highest_in(planes))
    return with_narrow(values, guide, solvers.solve(rest).surface.values, planes.opened)


def at_mask(session: bytes, opened: np.ndarray) -> bytes:
    """A session of the same planes with this mask, and nobody's script if it is another one."""
    planes = read_session(session)
    if np.array_equal(planes.opened, opened):
        return session
    text = session_of(planes.phase, planes.weights, opened, highest=highest_in(planes))
    return with_comments(text, comments_of(session))


def by_guide(
    session: bytes, text: bytes, guide: Solution, narrow: bool, solvers: Solvers[Solution]
) -> Guided[Solution]:
    """The surface of a session by what was made of its filtered one."""
    opened = guide.surface.opened()
    session, text = at_mask(session, opened), at_mask(text, opened)
    planes, smooth, values = read_session(session), read_session(text), guide.surface.values
    found = surface_by(planes, values, narrow, solvers)
    plain = solvers.compare(session).surface.values
    return Guided(found, text, guide, smooth, parts_apart(found, plain, values, smooth))


def guided(
    session: bytes,
    has_coherence: bool,
    solvers: Solvers[Solution],
    narrow: bool = False,
    threads: int = MAX_THREADS,
) -> Guided[Solution]:
    """The surface of a session by a guide."""
    text = filtered_session(session, has_coherence, threads)
    return by_guide(session, text, solvers.solve(text), narrow, solvers)


def check_before(before: bytes, session: bytes) -> None:
    """Trouble if a filtered session is not of the session before it."""
    given, smooth = read_session(before), read_session(session)
    same_mask = np.array_equal(given.opened, smooth.opened)
    if not is_filtered(session) or is_filtered(before) or not same_mask or given.ramp != smooth.ramp:
        raise Trouble("the session before the filter is not the one that was filtered", DISAGREES)
    off = (filtered(given.phase, given.opened).phase - smooth.phase).view(np.int16)
    if (np.abs(off.astype(np.int32)) > ALIKE).mean() > 1 - MANY_ALIKE:
        raise Trouble("the filtered phase is not what the filter makes of the session before it", DISAGREES)
