#!/usr/bin/python3
"""Judges certain parts by brute force: parts.py [COUNT [SEED]]; and what `parts` writes: parts.py --command [COUNT [SEED]].

A least surface has faces that certify it. From both follow, edge by edge, how much more another departure costs at least, and so
the parts inside which every surface of nearly the least cost has the same cycles up to one constant. Here sessions of a few pixels
are drawn, the small solver (least.py) makes surface and faces, and all surfaces within three cycles of it are gone through: each
costs more by just the sum of the excesses, none of which is below 0, and each that costs at most so much more agrees inside each
part. First the rows that were worked out by hand are computed. COUNT is 2000 and SEED 7 if they are not given; no program is
needed.

With --command random sessions and whole texts, some of them changed, are given to `parts`, 1000 if COUNT is not given. It has to
write each byte of the parts, or answer as the judge of `check-whole` does (whole.py). UNWRAP names another program than the built
one. Both need NumPy. The last line is 'N passed, M failed'; the status is 1 if one failed.
"""
import itertools
import random
import sys
from typing import Iterator, NamedTuple, Sequence

import least
import stress
import trying
import whole
from mutation import Case
from reading import read_whole
from running import Ended
from stress import CYCLE, NODATA, Session
from trying import Option

MOST = 3  # cycles by which a surface may lie above or below the least one
PIXELS = 6  # of a session, so that there are at most 7 ** 5 surfaces
OPTIONS = {"margin": Option(0, 2**32 - 1), "least": Option(1, 4_194_304, 1)}


class Edge(NamedTuple):
    """The places of its ends, its weight, by how much the face on one side is above that on the other, and its departure."""

    first: int
    second: int
    weight: int
    step: int
    departure: int


class Faced(NamedTuple):
    """A session with a surface and its faces."""

    session: Session
    values: Sequence[int]
    faces: Sequence[int]

    def face(self, x: int, y: int) -> int:
        """The face of a cell; beyond the raster it is 0."""
        across, along = self.session.width - 1, self.session.height - 1
        return self.faces[y * across + x] if 0 <= x < across and 0 <= y < along else 0

    def edges(self) -> Iterator[Edge]:
        """The edges with open ends."""
        session = self.session
        for x, y, u, v in session.edges():
            first, second = y * session.width + x, v * session.width + u
            if session.opened[first] and session.opened[second]:
                other = self.face(x, y - 1) if u > x else -self.face(x - 1, y)
                step = other - self.face(x, y) if u > x else other + self.face(x, y)
                rise = self.values[second] - self.values[first] - session.difference(x, y, u, v)
                yield Edge(first, second, session.weight(session.opened, x, y, u, v), step, rise // CYCLE)


def excess(session: Session, edge: Edge, cycles: int) -> int:
    """What a departure of so many cycles costs, less its part of what the faces prove."""
    return edge.weight * session.steps(cycles) - edge.step * cycles + max(0, abs(edge.step) - edge.weight)


def margin(session: Session, edge: Edge) -> int:
    """The lesser excess of one cycle more and of one less than the surface has at an edge."""
    return min(excess(session, edge, edge.departure + 1), excess(session, edge, edge.departure - 1))


def parts_of(faced: Faced, limit: int, fewest: int) -> list[int]:
    """For each pixel the number of its part, or 0."""
    root = list(range(len(faced.values)))

    def root_of(place: int) -> int:
        while root[place] != place:
            place = root[place]
        return place

    for edge in faced.edges():
        if margin(faced.session, edge) > limit:
            one, other = sorted((root_of(edge.first), root_of(edge.second)))
            root[other] = one
    roots = [root_of(place) for place in range(len(root))]
    opened = faced.session.opened
    large = [place for place in sorted(set(roots)) if opened[place] and roots.count(place) >= fewest]
    return [large.index(own) + 1 if own in large else 0 for own in roots]


def surfaces(faced: Faced) -> Iterator[list[int]]:
    """By how many cycles each open pixel lies above the surface: all ways in which the first one does not move."""
    places = [place for place, opened in enumerate(faced.session.opened) if opened]
    for raised in itertools.product(range(-MOST, MOST + 1), repeat=max(0, len(places) - 1)):
        found = [0] * len(faced.values)
        for place, cycles in zip(places[1:], raised):
            found[place] = cycles
        yield found


def failure(session: Session, limit: int, fewest: int) -> str:
    """What is wrong with the parts of a session, or nothing."""
    found = least.Least(session)
    faced = Faced(session, found.values(), found.faces())
    edges = list(faced.edges())
    if any(excess(session, edge, edge.departure) for edge in edges):
        return "an excess of the surface is not 0"
    labels = parts_of(faced, limit, fewest)
    for raised in surfaces(faced):
        moves = [edge.departure + raised[edge.second] - raised[edge.first] for edge in edges]
        excesses = [excess(session, edge, cycles) for edge, cycles in zip(edges, moves)]
        more = sum(edge.weight * session.steps(cycles) for edge, cycles in zip(edges, moves)) - found.total()
        if min(excesses, default=0) < 0 or more != sum(excesses):
            return f"{raised} costs {more} more and has the excesses {excesses}"
        if any(cycles != edge.departure and it < margin(session, edge) for edge, cycles, it in zip(edges, moves, excesses)):
            return f"{raised} has an excess below the margin"
        inside = {(label, cycles) for label, cycles in zip(labels, raised) if label}
        if more <= limit and len(inside) > len({label for label, _ in inside}):
            return f"{raised} costs {more} more and does not agree in {labels}"
    return ""


def random_session(dice: random.Random) -> Session:
    """A session of a few pixels."""
    while True:
        session = stress.random_session(dice, PIXELS)
        if len(session.opened) <= PIXELS:
            session.weights = [dice.choice((0, 1, 2, 5, weight)) for weight in session.weights]
            session.maxval = max(session.maxval, 5)
            return session


def of_planes(width: int, phase: list[int], weights: list[int], opened: list[int], ramp: tuple[int, int], steep: int) -> Session:
    return Session(width, len(phase) // width, phase, weights, 9, opened, 64, "least", [["settle"]], ramp, steep)


def try_the_rows() -> None:
    """The worked rows: the margins of edges, and the parts at some limits."""
    # a full turn: its edges weigh 5 above and at the right, 3 below and at the left, where the surface departs; the face is 3
    for steep in (1, 3):
        turn = Faced(of_planes(2, [0, 16384, 49152, 32768], [5, 5, 3, 9], [1] * 4, (0, 0), steep), [0, 16384, 49152, 32768], [3])
        assert [(edge.weight, edge.step, edge.departure) for edge in turn.edges()] == [(5, -3, 0), (3, 3, 1), (5, -3, 0), (3, 3, 0)]
        assert [margin(turn.session, edge) for edge in turn.edges()] == [2, 0, 2, 0]
        assert parts_of(turn, 1, 1) == [1, 1, 2, 1] and parts_of(turn, 1, 2) == [1, 1, 0, 1] and parts_of(turn, 2, 1) == [1, 2, 3, 4]
    flat = of_planes(3, [0] * 6, [4] * 6, [1] * 6, (0, 0), 1)
    still = Faced(flat, [0] * 6, [0] * 2)
    assert {margin(flat, edge) for edge in still.edges()} == {4}
    assert parts_of(still, 3, 1) == [1] * 6 and parts_of(still, 4, 1) == [1, 2, 3, 4, 5, 6] and parts_of(still, 4, 2) == [0] * 6
    slope = of_planes(3, [0, 30000, 60000], [7] * 3, [1] * 3, (30000, 0), 1)
    assert {margin(slope, edge) for edge in Faced(slope, [0, 30000, 60000], []).edges()} == {7}
    # nothing joins over a masked pixel, or over an edge of weight 0
    cut = of_planes(3, [0] * 6, [4, 0, 4, 4, 0, 4], [1, 1, 1, 1, 0, 1], (0, 0), 3)
    assert parts_of(Faced(cut, [0, 0, 0, 0, NODATA, 0], [0] * 2), 0, 2) == [1, 0, 2, 1, 0, 2]


def text_of(faced: Faced, limit: int, fewest: int) -> bytes:
    """The text of the parts."""
    width, labels = faced.session.width, parts_of(faced, limit, fewest)
    firsts = [labels.index(number + 1) for number in range(max(labels))]
    lines = [f"parts {len(firsts)} {limit} {fewest}"]
    lines += [f"part {first % width} {first // width} {labels.count(labels[first])}" for first in firsts]
    shown = [label if opened else NODATA for label, opened in zip(labels, faced.session.opened)]
    return ("\n".join([*lines, *least.grid_of(shown, width)]) + "\n").encode()


def wanted(words: Sequence[str], data: bytes) -> Ended:
    """How `parts` has to end: on what `check-whole` does not accept, as that does."""
    pairs = trying.pairs_of(words[1:])
    own = trying.numbers_in([pair for pair in pairs if pair[0].removeprefix("--") in OPTIONS], OPTIONS)
    others = [word for pair in pairs if pair[0].removeprefix("--") not in OPTIONS for word in pair]
    terms = whole.terms_of(others, whole.OPTIONS)
    if own is None or terms is None:
        return trying.WORDS_REFUSED
    end = whole.wanted(["check-whole", *others], data)
    if end.status != 0:
        return end
    session, rest = whole.session_in(data, terms, False)
    text = read_whole(rest)
    return Ended(0, text_of(Faced(session, text.values, text.faces), own["margin"], own["least"]), b"")


def random_case(dice: random.Random) -> Case:
    """A session and its whole text by the small solver, one in four changed in some place."""
    session = whole.random_session(dice)
    text = least.whole_text(session)
    if dice.random() < 0.25:
        text = dice.choice(whole.CHANGES)(dice, text)
    margin = dice.choice((0, 0, 1, 2, 5, dice.choice(session.weights), dice.randint(0, 65535), 2**32 - 1))
    numbers = {"margin": margin, "least": dice.choice((1, 1, 2, 3, 7, 4_194_304))}
    words = [*whole.spelled(dice, session, "parts"), *trying.words_of(dice, "", numbers, OPTIONS)[1:]]
    return Case(words, session.bytes_of(dice) + text)


def main() -> int:
    if "--command" in sys.argv[1:2]:
        del sys.argv[1]
        return trying.main("parts", wanted, random_case, try_the_rows)
    if len(sys.argv) > 3 or not all(word.isdigit() for word in sys.argv[1:]):
        print("parts.py: the words are [COUNT [SEED]], as in parts.py 2000 7", file=sys.stderr)
        return 2
    count, seed = (int(number) for number in sys.argv[1:] + ["2000", "7"][len(sys.argv) - 1 :])
    try_the_rows()
    failed = 0
    for number in range(count):
        dice = random.Random(f"parts {seed} {number}")
        session = random_session(dice)
        why = failure(session, dice.choice((0, 0, 1, 2, 5, 20)), dice.choice((1, 1, 2, 3)))
        failed += bool(why)
        if why:
            print(f"session {number} of the seed {seed}: {why}")
    print(f"{count - failed} passed, {failed} failed")
    return int(failed > 0)


if __name__ == "__main__":
    sys.exit(main())
