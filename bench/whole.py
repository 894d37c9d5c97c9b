#!/usr/bin/python3
"""Judges `whole` and `check-whole` on random sessions: whole.py [COUNT [SEED]].

What `whole` writes of each session has to be accepted by the judge here, which reads docs/FORMATS.md by itself: congruent at open
pixels of the first mask and NODATA at masked ones, equal to the phase at the first open pixel, with faces that fit at each edge of
the whole raster, and with one cost, which is written, counted from the surface and proved by the faces. It has to be that of LEMON
(whole.cpp), and to lie within the bounds that `unwrap` tells of the same planes by tiles. Then `check-whole` has to say of that
text, and of ten that are changed in some place, exactly what the judge says: its verdict, or the first broken line.

    whole.py check-whole [--rule R] [--ramp-x N] [--ramp-y N] [--steep N] <INPUT
    whole.py whole [..] [--workers N] <INPUT

answer as the program does: by the judge, and by a small solver (least.py) for rasters of some thousand pixels.

First the rows that were worked out by hand are judged, and texts of the small solver with changes of them. COUNT is 200 and SEED 7
if they are not given; with COUNT 0 nothing else is done, and no program is needed. UNWRAP names another program than the built
one. It needs NumPy, a C++ compiler and LEMON. The last line is 'N passed, M failed'; the status is 1 if one failed.
"""
import collections
import os
import pathlib
import random
import re
import subprocess
import sys
import tempfile
from typing import Iterator, NamedTuple, Sequence

import numpy as np

import least
import stress
import trying
from mutation import Case, number_near
from reading import Broken, Refused, WholeText, read_session, read_whole
from running import Ended, run, tried_program
from stress import CYCLE, NODATA, Session
from trying import Option

import changed

HERE = pathlib.Path(__file__).resolve().parent
ACCEPTED = "accepted"
SIDE = 64  # of the tiles by which the limits of a session are judged
RULES = ("least", "mean", "product")
OPTIONS = {"ramp-x": Option(0, 65535), "ramp-y": Option(0, 65535), "steep": Option(1, 16, 1)}
WORKERS = {"workers": Option(1, 8, 2)}
# Up to these sums of costs and of faces fit 64 bits; beyond them Python's numbers are taken.
NEAR, LOW = 2**32, 2**36
NUMBER = re.compile(rb"-?[0-9]+")


class Gaps(NamedTuple):
    """Of the edges to the right and of those downwards: their weights, and by how much the faces on both sides differ."""

    weights: tuple[np.ndarray, np.ndarray]
    gaps: tuple[np.ndarray, np.ndarray]


def plane(session: Session, numbers: Sequence[int], limit: int) -> np.ndarray:
    """Numbers by rows of pixels: of 64 bits if none is beyond the limit, else exact ones of any size."""
    is_small = all(-limit < number < limit for number in numbers)
    return np.array(numbers, dtype=np.int64 if is_small else object).reshape(session.height, session.width)


def differences(session: Session, phase: np.ndarray) -> tuple[np.ndarray, np.ndarray]:
    """The wrapped differences to the right and downwards."""
    turned = np.diff(phase, axis=1) - session.ramp[0], np.diff(phase, axis=0) - session.ramp[1]
    across, down = ((turn + CYCLE // 2) % CYCLE - CYCLE // 2 for turn in turned)
    return across + session.ramp[0], down + session.ramp[1]


def edge_weights(session: Session) -> tuple[np.ndarray, np.ndarray]:
    """The weights of the edges to the right and downwards under the first mask."""
    weights, opened = plane(session, session.weights, NEAR), plane(session, session.opened, NEAR)

    def of_ends(one: np.ndarray, other: np.ndarray, are_open: np.ndarray) -> np.ndarray:
        found = {"least": np.minimum(one, other), "mean": (one + other) // 2, "product": one * other // session.maxval}
        return found[session.rule] * are_open

    right = of_ends(weights[:, :-1], weights[:, 1:], opened[:, :-1] * opened[:, 1:])
    return right, of_ends(weights[:-1], weights[1:], opened[:-1] * opened[1:])


def first_edge(wrong: tuple[np.ndarray, np.ndarray], session: Session) -> str | None:
    """The first edge in edge order of those that are marked."""
    marks = np.zeros((session.height, session.width, 2), bool)
    marks[:, :-1, 0], marks[:-1, :, 1] = wrong
    if not marks.any():
        return None
    y, x, way = np.unravel_index(np.argmax(marks), marks.shape)
    return f"{('right', 'down')[way]} {x} {y}"


def wrong_header(session: Session, text: WholeText) -> int | None:
    """The first of the lines 2 to 5 that is not the session's."""
    found = (text.width, text.height), text.rule, text.ramp, text.steep
    own = (session.width, session.height), session.rule, tuple(session.ramp), session.steep
    return next((line for line in range(2, 6) if found[line - 2] != own[line - 2]), None)


def wrong_value(session: Session, text: WholeText) -> str | None:
    """The first pixel with a wrong value."""
    is_first = True
    for place, (value, phase, opened) in enumerate(zip(text.values, session.phase, session.opened)):
        is_right = value != NODATA and (value - phase) % CYCLE == 0 if opened else value == NODATA
        if opened and is_first:
            is_first, is_right = False, is_right and value == phase
        if not is_right:
            return f"{place % session.width} {place // session.width}"
    return None


def gaps_of(session: Session, faces: np.ndarray) -> Gaps:
    """The gaps of faces. Beyond the raster there is a face of 0."""
    ringed = np.zeros((session.height + 1, session.width + 1), faces.dtype)
    ringed[1:-1, 1:-1] = faces
    return Gaps(edge_weights(session), (np.abs(np.diff(ringed[:, 1:-1], axis=0)), np.abs(np.diff(ringed[1:-1], axis=1))))


def cost_of(session: Session, values: Sequence[int]) -> int:
    """What a surface costs over all edges."""
    opened = [value if is_open else phase for value, phase, is_open in zip(values, session.phase, session.opened)]
    surface, phase = plane(session, opened, NEAR), plane(session, session.phase, NEAR)
    total = 0
    for axis, (weights, wrapped) in enumerate(zip(edge_weights(session), differences(session, phase))):
        cycles = np.abs((np.diff(surface, axis=1 - axis) - wrapped) // CYCLE)
        steps = cycles + (session.steep - 1) * np.maximum(cycles - 1, 0)
        total += int((weights * steps).sum())
    return total


def bound_of(session: Session, faces: np.ndarray, found: Gaps) -> int:
    """What the faces prove: their sum with the residues, less what gaps are above weights."""
    across, down = differences(session, plane(session, session.phase, NEAR))
    residues = (across[:-1] + down[:, 1:] - across[1:] - down[:, :-1]) // CYCLE
    above = sum(int(np.maximum(gap - weights, 0).sum()) for weights, gap in zip(*found))
    return int((faces * residues).sum()) - above


def verdict(session: Session, text: WholeText) -> str:
    """The line that `check-whole` has to write."""
    if (line := wrong_header(session, text)) is not None:
        return f"refused header {line}"
    if (pixel := wrong_value(session, text)) is not None:
        return f"refused value {pixel}"
    is_low = all(-LOW < face < LOW for face in text.faces)
    shape = session.height - 1, session.width - 1
    faces = np.array(text.faces, dtype=np.int64 if is_low else object).reshape(shape)
    found = gaps_of(session, faces)
    beyond = tuple(gaps > session.steep * weights for weights, gaps in zip(*found))
    if (edge := first_edge((beyond[0], beyond[1]), session)) is not None:
        return f"refused face {edge}"
    cost = cost_of(session, text.values)
    if cost != bound_of(session, faces, found):
        return "refused cost"
    return ACCEPTED if cost == text.cost else "refused told"


class Terms(NamedTuple):
    """What the words of both commands ask for."""

    rule: str
    ramp: tuple[int, int]
    steep: int


def terms_of(words: Sequence[str], options: trying.Options) -> Terms | None:
    """What words ask for; None if they are refused."""
    pairs = trying.pairs_of(words)
    rules = [value for name, value in pairs if name == "--rule"]
    found = trying.numbers_in([pair for pair in pairs if pair[0] != "--rule"], options)
    if found is None or len(rules) > 1 or not set(rules) <= set(RULES):
        return None
    across, down = (slope if slope < CYCLE // 2 else slope - CYCLE for slope in (found["ramp-x"], found["ramp-y"]))
    return Terms(rules[0] if rules else RULES[0], (across, down), found["steep"])


def session_in(data: bytes, terms: Terms, is_alone: bool) -> tuple[Session, bytes]:
    found, rest = read_session(data, SIDE, terms.rule, is_alone, terms.ramp, terms.steep)
    return found, rest


def told_of(session: Session, text: bytes) -> Ended:
    """How `check-whole` has to end on a session and a text."""
    try:
        line = verdict(session, read_whole(text))
    except Broken as broken:
        return Ended(3, b"", b"report fault line %d\n" % broken.args[0])
    return Ended(int(line != ACCEPTED), line.encode() + b"\n", b"")


def wanted(words: Sequence[str], data: bytes) -> Ended:
    """How either command has to end. Of `whole` it is one of several texts where several surfaces are least of all."""
    is_alone = words[0] == "whole"
    terms = terms_of(words[1:], OPTIONS | WORKERS if is_alone else OPTIONS)
    if terms is None:
        return trying.WORDS_REFUSED
    try:
        session, rest = session_in(data, terms, is_alone)
    except Refused as refused:
        return Ended(3, b"", str(refused).encode() + b"\n")
    return Ended(0, least.whole_text(session), b"") if is_alone else told_of(session, rest)


# Changes of a text. Those of reports change it in one place each; these are of what a whole text alone has.


def parts_of(text: bytes, label: bytes) -> list[re.Match[bytes]]:
    """The numbers of the lines that begin with a label."""
    lines = re.finditer(rb"^%b( .*)$" % label, text, re.M)
    return [match for line in lines for match in NUMBER.finditer(text, line.start(1), line.end())]


def moved_number(dice: random.Random, text: bytes, label: bytes, steps: Sequence[int]) -> bytes:
    """A number of a labelled line moved by one of some steps."""
    found = parts_of(text, label)
    if not found:
        return text
    match = dice.choice(found)
    return changed.with_part(text, match, b"%d" % (int(match.group()) + dice.choice(steps)))


def face(dice: random.Random, text: bytes) -> bytes:
    return moved_number(dice, text, b"faces", (-1, 1, 2, -(2**40), 2**40, 2**62))


def cost_line(dice: random.Random, text: bytes) -> bytes:
    return moved_number(dice, text, b"cost", (-1, 1, 65536, 2**64, 2**127))


def head_line(dice: random.Random, text: bytes) -> bytes:
    """Another size, rule, ramp or steepness."""
    line = dice.choice((b"size", b"ramp", b"steep", b"ncols", b"nrows", b"rule"))
    if line != b"rule":
        return moved_number(dice, text, line, (-1, 1, 1, 2))
    return re.sub(rb"^rule .*$", b"rule " + dice.choice((b"least", b"mean", b"product", b"most")), text, count=1, flags=re.M)


def value_rows(text: bytes) -> tuple[list[bytes], int, int]:
    """The lines of a text, and those from which to which values stand."""
    lines = text.split(b"\n")
    return lines, 12, 12 + int(lines[1].split()[2])


def cycles(dice: random.Random, text: bytes) -> bytes:
    """A pixel that is raised by whole cycles, or all pixels from one on."""
    lines, start, end = value_rows(text)
    turns, is_single = dice.choice((-(2**30), -2, -1, 1, 1, 2)) * CYCLE, dice.random() < 0.6
    rows = [line.split() for line in lines[start:end]]
    y, x = dice.randrange(len(rows)), dice.randrange(len(rows[0]))
    for row in range(y, y + 1 if is_single else len(rows)):
        for column in range(x if row == y else 0, x + 1 if is_single else len(rows[0])):
            if rows[row][column] != b"%d" % NODATA:
                rows[row][column] = b"%d" % (int(rows[row][column]) + turns)
    return b"\n".join([*lines[:start], *map(b" ".join, rows), *lines[end:]])


def masked(dice: random.Random, text: bytes) -> bytes:
    """A pixel that has NODATA, or has none any more."""
    lines, start, end = value_rows(text)
    row = dice.randrange(start, end)
    numbers = lines[row].split()
    place = dice.randrange(len(numbers))
    numbers[place] = b"%d" % (0 if numbers[place] == b"%d" % NODATA else NODATA)
    return b"\n".join([*lines[:row], b" ".join(numbers), *lines[row + 1 :]])


def after_the_end(dice: random.Random, text: bytes) -> bytes:
    return text + dice.choice((b"\n", b" ", b"end\n", b"\0", b"x" * 300, b"faces 0\n"))


def near_number(dice: random.Random, text: bytes) -> bytes:
    return number_near(dice, text)


OF_REPORTS = tuple(change for change in changed.CHANGES if change is not changed.moved)
CHANGES = (*OF_REPORTS, near_number, face, face, cost_line, head_line, cycles, cycles, masked, after_the_end)


def random_session(dice: random.Random, longest: int = 11) -> Session:
    """A random session; one in twenty has no open pixel, and one in ten no weight above 0 or 1."""
    session = stress.random_session(dice, longest)
    if dice.random() < 0.05:
        session.opened = [0] * len(session.opened)
    if dice.random() < 0.1:
        session.weights = [min(weight, dice.choice((0, 1))) for weight in session.weights]
    return session


def spelled(dice: random.Random, session: Session, command: str) -> list[str]:
    """The words of a session's terms in some order; those of defaults may be left out."""
    pairs = [("--rule", session.rule), ("--steep", str(session.steep))]
    pairs += [(name, str(slope % CYCLE)) for name, slope in zip(("--ramp-x", "--ramp-y"), session.ramp)]
    defaults = {("--rule", RULES[0]), ("--steep", "1"), ("--ramp-x", "0"), ("--ramp-y", "0")}
    pairs = [pair for pair in pairs if pair not in defaults or dice.random() < 0.3]
    dice.shuffle(pairs)
    words = [[f"{name}={value}"] if dice.random() < 0.2 else [name, value] for name, value in pairs]
    return [command, *(word for pair in words for word in pair)]


def random_case(dice: random.Random) -> Case:
    """A session and its text by the small solver, unchanged or changed in some place."""
    session = random_session(dice)
    text = least.whole_text(session)
    if dice.random() < 0.8:
        text = dice.choice(CHANGES)(dice, text)
    words = spelled(dice, session, "check-whole")
    if dice.random() < 0.05:
        words.insert(dice.randint(1, len(words)), dice.choice(("--workers=1", "--tile=64", "1", "--rule=most", "--steep=0")))
    return Case(words, session.bytes_of(dice) + text)


def shown(session: Session, cost: int, grid: str, faces: str) -> bytes:
    """A whole text of a raster of two rows, or of one."""
    rows = grid.replace("N", str(NODATA)).split("/")
    values = [int(value) for row in rows for value in row.split()]
    return least.text_of(session, cost, values, [int(face) for face in faces.split()])


def of_planes(width: int, phase: list[int], weights: list[int], opened: list[int] | None = None, steep: int = 1) -> Session:
    return Session(
        width, len(phase) // width, phase, weights, 9, opened or [1] * len(phase), SIDE, "least", [["settle", "show"]], (0, 0), steep
    )


# A full turn around one cell: its residue is 1. Its edges weigh 5 above and at the right, 3 below and at the left. So the least of
# all costs 3, at the left or below, and the face is 3. Further cycles may cost thrice as much; then a face of 5 fits, and proves
# 5 - 2 - 2.
TURN = of_planes(2, [0, 16384, 49152, 32768], [5, 5, 3, 9])
STEEP_TURN = of_planes(2, TURN.phase, TURN.weights, steep=3)
# A residue of 1 beside one of -1. The edge between them weighs 2, as the two above; those below 3, and those at the sides 4. So the
# least of all costs 2: the middle of the lower row lies a cycle lower.
PAIR_PHASE, PAIR_WEIGHTS = [0, 16384, 0, 49152, 32768, 49152], [4, 2, 4, 4, 3, 4]
PAIR = of_planes(3, PAIR_PHASE, PAIR_WEIGHTS)
# With the middle of the upper row masked the same surface costs nothing, and with everything masked none does.
HOLE = of_planes(3, PAIR_PHASE, PAIR_WEIGHTS, [1, 0, 1, 1, 1, 1])
NOTHING = of_planes(3, PAIR_PHASE, PAIR_WEIGHTS, [0] * 6)
LATE = of_planes(2, TURN.phase, TURN.weights, [0, 1, 1, 1])
LEFT, BELOW, ABOVE = "0 16384/49152 32768", "0 16384/-16384 32768", "0 -49152/-16384 -32768"
DEEP = "0 16384 0/-16384 -32768 -16384"

# A session, the cost, the values and the faces of a text, and the line on it.
ROWS = (
    (stress.LINE, 0, "0 20000 40000 60000", "", ACCEPTED),
    (stress.LINE, 1, "0 20000 40000 60000", "", "refused told"),
    (stress.LINE, 1, "0 20000 40000 -5536", "", "refused cost"),
    (stress.LINE, 0, "65536 85536 105536 125536", "", "refused value 0 0"),
    (stress.LINE, 0, "0 20000 40001 60000", "", "refused value 2 0"),
    (stress.LINE, 0, "0 20000 40000 N", "", "refused value 3 0"),
    (stress.STEEP, 0, "0 40000 80000 120000", "", ACCEPTED),
    (stress.STEEP, 1, "0 40000 80000 54464", "", "refused cost"),
    (stress.OPEN, 0, "0 16384/-16384 32768", "0", ACCEPTED),
    (TURN, 3, LEFT, "3", ACCEPTED),
    (TURN, 3, BELOW, "3", ACCEPTED),
    (TURN, 5, ABOVE, "3", "refused cost"),
    (TURN, 3, LEFT, "2", "refused cost"),
    (TURN, 3, LEFT, "-3", "refused cost"),
    (TURN, 3, LEFT, "4", "refused face down 0 0"),
    (TURN, 3, LEFT, "6", "refused face right 0 0"),
    (TURN, 3, LEFT, "9223372036854775807", "refused face right 0 0"),
    (TURN, 3, LEFT, "-9223372036854775808", "refused face right 0 0"),
    (TURN, 3, "0 16384/49152 9223372036854743040", "3", "refused cost"),
    (TURN, 4, LEFT, "3", "refused told"),
    (STEEP_TURN, 3, LEFT, "3", ACCEPTED),
    (STEEP_TURN, 3, LEFT, "4", "refused cost"),
    (STEEP_TURN, 1, LEFT, "5", "refused cost"),
    (STEEP_TURN, 3, LEFT, "9", "refused cost"),
    (STEEP_TURN, 3, LEFT, "10", "refused face down 0 0"),
    (PAIR, 2, DEEP, "1 -1", ACCEPTED),
    (PAIR, 2, DEEP, "2 0", ACCEPTED),
    (PAIR, 2, DEEP, "0 -2", ACCEPTED),
    (PAIR, 2, DEEP, "1 1", "refused cost"),
    (PAIR, 2, DEEP, "2 -2", "refused face down 1 0"),
    (PAIR, 2, DEEP, "3 1", "refused face right 0 0"),
    (PAIR, 2, DEEP, "0 3", "refused face right 1 0"),
    (PAIR, 2, "0 16384 0/-16384 -32767 -16384", "1 -1", "refused value 1 1"),
    (HOLE, 0, DEEP.replace("16384", "N", 1), "0 0", ACCEPTED),
    (HOLE, 0, DEEP, "0 0", "refused value 1 0"),
    (HOLE, 0, DEEP.replace("16384", "N", 1), "1 -1", "refused face right 0 0"),
    (NOTHING, 0, "N N N/N N N", "0 0", ACCEPTED),
    (NOTHING, 0, "0 N N/N N N", "0 0", "refused value 0 0"),
    (LATE, 0, "N 16384/49152 32768", "0", ACCEPTED),
    (LATE, 0, "N 81920/114688 98304", "0", "refused value 1 0"),
    (LATE, 0, "N 16384/49152 N", "0", "refused value 1 1"),
)
# A change of the text of the pair, and the line on it: of a text that breaks its form the first broken line.
BROKEN = (
    (b"size 3 2", b"size 2 3", "line 7"),
    (b"size 3 2", b"size 65536 2", "line 2"),
    (b"rule least", b"rule mean", "refused header 3"),
    (b"rule least", b"rule most", "line 3"),
    (b"ramp 0 0", b"ramp 0 1", "refused header 4"),
    (b"ramp 0 0", b"ramp 0 32768", "line 4"),
    (b"steep 1", b"steep 2", "refused header 5"),
    (b"steep 1", b"steep 17", "line 5"),
    (b"ramp 0 0\nsteep 1\n", b"", "line 4"),
    (b"cost 2", b"cost 02", "line 6"),
    (b"cost 2", b"cost -2", "line 6"),
    (b"cost 2", b"cost 340282366920938463463374607431768211455", "refused told"),
    (b"cost 2", b"cost 340282366920938463463374607431768211456", "line 6"),
    (b"faces 1 -1", b"faces 1 -1 0", "line 15"),
    (b"faces 1 -1", b"faces 1", "line 15"),
    (b"faces 1 -1", b"faces", "line 15"),
    (b"faces 1 -1", b"faces 1  -1", "line 15"),
    (b"faces 1 -1", b"faces 1 9223372036854775808", "line 15"),
    (b"faces 1 -1\n", b"", "line 15"),
    (b"faces 1 -1\n", b"faces 1 -1\nfaces 0 0\n", "line 16"),
    (b"0 16384 0\n", b"0 16384\n", "line 13"),
    (b"0 16384 0\n", b"0 16384 0\r\n", "line 13"),
    (b"cellsize 1", b"cellsize 2", "line 11"),
    (b"end\n", b"", "line 16"),
    (b"end\n", b"end", "line 16"),
    (b"end\n", b"end\n\n", "line 17"),
    (b"end\n", b"end\nx", "line 17"),
    (b"insar-whole 1", b"insar-whole 2", "line 1"),
)


def line_on(session: Session, text: bytes) -> str:
    """The verdict on a text, or its first broken line."""
    done = told_of(session, text)
    return (done.out or done.err).decode().strip().removeprefix("report fault ")


def try_the_rows() -> None:
    """The worked rows; and each text of the small solver is accepted, and costs what none of the worked ones is below."""
    for session, cost, grid, faces, line in ROWS:
        assert line_on(session, shown(session, cost, grid, faces)) == line, (cost, grid, faces, line)
    text = shown(PAIR, 2, DEEP, "1 -1")
    for old, new, line in BROKEN:
        assert text.count(old) == 1 and line_on(PAIR, text.replace(old, new)) == line, (new, line_on(PAIR, text.replace(old, new)))
    for session, cost in ((stress.LINE, 0), (stress.STEEP, 0), (stress.OPEN, 0), (TURN, 3), (STEEP_TURN, 3), (PAIR, 2), (HOLE, 0), (NOTHING, 0)):
        found = least.whole_text(session)
        assert line_on(session, found) == ACCEPTED and read_whole(found).cost == cost, found
    for number in range(60):
        session = random_session(random.Random(f"row {number}"))
        assert line_on(session, least.whole_text(session)) == ACCEPTED, number
    assert terms_of(["--ramp-x=65535", "--rule", "mean", "--steep", "+3"], OPTIONS) == Terms("mean", (-1, 0), 3)
    for words in (["--rule"], ["--rule", "most"], ["--rule=least", "--rule", "mean"], ["--steep", "17"], ["--workers", "2"], ["x"]):
        assert terms_of(words, OPTIONS) is None, words


def demand(holds: object, why: str) -> None:
    if not holds:
        raise stress.Refused(why)


def answer(program: str, words: Sequence[str], data: bytes) -> bytes:
    """What a command writes, which has to do what it is asked to."""
    done = run(program, words, data)
    demand(done.status == 0 and not done.err, f"{words[0]}: {trying.told(done)}")
    return done.out


def judge_bounds(program: str, lemon: str, session: Session, data: bytes, cost: int) -> None:
    """The cost is LEMON's, and lies within what `unwrap` tells of the planes by tiles."""
    words = [lemon, *map(str, session.ramp), str(session.steep), session.rule]
    peer = subprocess.run(words, input=data, capture_output=True, check=True).stdout
    demand(line_on(session, peer) == ACCEPTED, f"of LEMON: {line_on(session, peer)}")
    demand(cost == read_whole(peer).cost, f"it costs {cost}, by LEMON {read_whole(peer).cost}")
    report = answer(program, ["unwrap", *session.options()], data)
    tiles, seams = map(int, re.findall(rb"^costs ([0-9]+) ([0-9]+)$", report, re.M)[0])
    demand(tiles <= cost <= tiles + seams, f"it costs {cost}, and by tiles from {tiles} to {tiles + seams}")


def texts_of(dice: random.Random, text: bytes) -> Iterator[tuple[str, bytes]]:
    """The text, and ten that are changed."""
    yield "unchanged", text
    for change in dice.choices(CHANGES, k=10):
        yield change.__name__, change(dice, text)


def try_session(program: str, lemon: str, dice: random.Random, kinds: collections.Counter[str]) -> None:
    """Raises Refused where the program is wrong on a random session."""
    session = random_session(dice, dice.choice((11,) * 8 + (40, 150)))
    data = session.bytes_of(dice)
    words = spelled(dice, session, "whole")
    text = answer(program, [*words, "--workers", str(dice.choice((1, 2, 8)))], data)
    demand(line_on(session, text) == ACCEPTED, f"{' '.join(words)}: {line_on(session, text)}")
    session.scripts = [["settle"]]
    judge_bounds(program, lemon, session, session.bytes_of(dice), read_whole(text).cost)
    for name, other in texts_of(dice, text):
        end, done = told_of(session, other), run(program, ["check-whole", *words[1:]], data + other)
        kinds[re.sub(" [-0-9 ]+$", "", trying.kind_of(end) if end.err else end.out.decode().strip())] += 1
        demand(done == end, f"{name}: wanted {trying.told(end)}, found {trying.told(done)}")


def compiled(folder: str) -> str:
    """The peer over LEMON."""
    path = os.path.join(folder, "whole")
    words = [os.environ.get("CXX", "c++"), "-O2", "-std=c++17", "-o", path, str(HERE / "whole.cpp")]
    subprocess.run(words, check=True)
    return path


def main() -> int:
    if sys.argv[1:2] in (["whole"], ["check-whole"]):
        done = wanted(sys.argv[1:], sys.stdin.buffer.read())
        sys.stdout.buffer.write(done.out)
        sys.stderr.buffer.write(done.err)
        return done.status or 0
    if len(sys.argv) > 3 or not all(word.isdigit() for word in sys.argv[1:]):
        print("whole.py: the words are [COUNT [SEED]], as in whole.py 200 7, or those of a command", file=sys.stderr)
        return 2
    count, seed = (int(number) for number in sys.argv[1:] + ["200", "7"][len(sys.argv) - 1 :])
    try_the_rows()
    failed, kinds = 0, collections.Counter[str]()
    with tempfile.TemporaryDirectory() as folder:
        program, lemon = (tried_program(), compiled(folder)) if count else ("", "")
        for number in range(count):
            try:
                try_session(program, lemon, random.Random(f"whole {seed} {number}"), kinds)
            except stress.Refused as why:
                failed += 1
                print(f"session {number} of the seed {seed}: {why}", flush=True)
    for kind, times in sorted(kinds.items()):
        print(f"  {times} {kind}")
    print(f"{count - failed} passed, {failed} failed")
    return int(failed > 0)


if __name__ == "__main__":
    sys.exit(main())
