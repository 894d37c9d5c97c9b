"""What a case has to write, as a test of its bytes with words for it."""
import itertools
from typing import Callable, NamedTuple

import oracle
from reading import Broken, read_whole, stress


class Wanted(NamedTuple):
    """What bytes have to be, in words and as a test."""

    told: str
    holds: Callable[[bytes], bool]


def exactly(data):
    """Just these bytes."""
    shown = repr(data)[1:] if len(data) <= 60 else f"{len(data)} bytes of the undisturbed answer"
    return Wanted(shown if data else "nothing", lambda found: found == data)


NOTHING = exactly(b"")


def proper_prefix(data):
    """The first bytes of some bytes, but not all of them."""
    told = f"a proper prefix of the undisturbed {len(data)} bytes"
    return Wanted(told, lambda found: len(found) < len(data) and data.startswith(found))


def some_prefix(data, least):
    """A proper prefix of at least so many bytes."""
    told = f"a proper prefix of the undisturbed {len(data)} bytes, of {least} or more"
    return Wanted(told, lambda found: least <= len(found) < len(data) and data.startswith(found))


def holds_of(judge, *values):
    """Whether a judge refuses nothing."""
    try:
        judge(*values)
    except (oracle.Wrong, stress.Refused, Broken):
        return False
    return True


def report_of(session):
    """A report that the judge of bench/stress.py accepts."""
    return Wanted("a certified report", lambda found: holds_of(oracle.judge_report, session, found))


def cost_of(session, values):
    """What a surface costs: weight times whole cycles of departure, added over all edges."""
    return sum(
        session.weight(session.opened, *edge)
        * abs(session.at(values, *edge[2:]) - session.at(values, *edge[:2]) - session.difference(*edge))
        // stress.CYCLE
        for edge in session.edges()
    )


def least_cost(session):
    """The least cost of all surfaces of a raster of four pixels, within two cycles of the phase."""
    turns = itertools.product(range(-2, 3), repeat=3)
    return min(cost_of(session, [a + stress.CYCLE * k for a, k in zip(session.phase, (0, *turn))]) for turn in turns)


def judge_least(session, text):
    """A text is a grid of the session's one tile, and no surface costs less."""
    oracle.judge_grid(session, text)
    rows = text.decode().splitlines()[6:]
    values = [int(value) for row in rows for value in row.split(" ")]
    oracle.demand(cost_of(session, values) == least_cost(session), "another costs less")


def judge_whole(session, text):
    """A text is of a surface of four open pixels than which none costs less, with its cost, and the face proves it."""
    found, (face,) = read_whole(text), read_whole(text).faces
    session.scripts = [["settle"]]
    judge_least(session, text[text.index(b"ncols") : text.index(b"faces")])
    oracle.demand(found[:5] == (2, 2, session.rule, session.ramp, session.steep), "another head")
    oracle.demand(all(abs(face) <= session.weight(session.opened, *edge) for edge in session.edges()), "the face does not fit")
    oracle.demand(found.cost == cost_of(session, found.values) == face * session.residue(0, 0), "another cost")


def whole_of(session):
    """The whole text of a session of four open pixels, which expects no ramp."""
    return Wanted("a whole text of a least surface", lambda found: holds_of(judge_whole, session, found))


def grid_of(session):
    """The grid of a least surface of a session of four open pixels."""
    return Wanted("the grid of a least surface", lambda found: holds_of(judge_least, session, found))


def kept_in_order(report):
    """A report with each run of lines `kept` in order, since workers end in any order."""
    parts = itertools.groupby(report.split(b"\n"), lambda line: line.startswith(b"kept "))
    return [line for is_kept, lines in parts for line in (sorted(lines) if is_kept else lines)]


def same_but_kept(report):
    """The report of the same history, but for the order in which tiles were kept."""
    told = f"the undisturbed report of {len(report)} bytes, tiles kept in any order"
    return Wanted(told, lambda found: kept_in_order(found) == kept_in_order(report))
