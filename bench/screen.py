#!/usr/bin/python3
"""Compares `screen` with SciPy on random sessions: screen.py [COUNT [SEED]].

A session has planes raw or plain, of one byte or two, with comments, with or without weights and a mask, and scripts of up to
eight analysts; the terms go to the ends of their ranges. What the program writes is compared byte for byte with the session as
docs/FORMATS.md spells it, its mask made by SciPy's filters and labels, and so are its refusals: words beyond their ranges, and
sessions that are broken or at their limits.

First the rows that were worked out by hand are computed. COUNT is 1000 and SEED 7 if they are not given; with COUNT 0 only the
rows are computed, and no program is needed. UNWRAP names another program than the built one. It needs SciPy (python3-scipy). The
last line is 'N passed, M failed'; the status is 1 if one failed.
"""
import random
import sys
from typing import Sequence

import numpy as np
import rasters
import stress
import trying
from mutation import Case, altered
from reading import Refused, read_session
from running import Ended
from scipy import ndimage
from trying import Option

OPTIONS = {
    "weight": Option(0, 65535),
    "radius": Option(0, 64),
    "count": Option(0, 16641),
    "patch": Option(0, 4_194_304),
    "tile": Option(2, 128, 64),
}
PLAIN_TERMS = {name: option.default or 0 for name, option in OPTIONS.items()}


def screened(weights: np.ndarray, opened: np.ndarray, terms: dict[str, int]) -> np.ndarray:
    """Which pixels stay open. Sums in floating point are exact here, since they are at most 16641."""
    strong = opened & (weights >= terms["weight"])
    window = np.ones(2 * terms["radius"] + 1)
    near = strong.astype(np.float64)
    for axis in (0, 1):
        near = ndimage.correlate1d(near, window, axis, mode="constant")
    passing = strong & (near >= terms["count"])
    labels, _ = ndimage.label(passing)
    return passing & (np.bincount(labels.ravel())[labels] >= terms["patch"])


def script_part(scripts: Sequence[Sequence[str | tuple]]) -> bytes:
    """The sections of the analysts, and the line `end`."""
    lines = []
    for script in scripts:
        lines += ["analyst", *(command if isinstance(command, str) else " ".join(map(str, command)) for command in script)]
    return "".join(line + "\n" for line in [*lines, "end"]).encode()


def written(session: stress.Session, terms: dict[str, int]) -> bytes:
    """The session with its screened mask, as it is written."""
    planes = (np.array(samples).reshape(session.height, -1) for samples in (session.phase, session.weights, session.opened))
    phase, weights, opened = planes
    kept = screened(weights, opened > 0, terms)
    text = rasters.plane(phase, 65535) + rasters.plane(weights, session.maxval) + rasters.plane(kept, 1)
    return text + script_part(session.scripts)


def wanted(words: Sequence[str], data: bytes) -> Ended:
    """How a run has to end."""
    terms = trying.numbers_of(words[1:], OPTIONS)
    if terms is None:
        return trying.WORDS_REFUSED
    try:
        return Ended(0, written(read_session(data, terms["tile"], "least", True)[0], terms), b"")
    except Refused as why:
        return Ended(3, b"", f"{why}\n".encode())


def random_gap(dice: random.Random) -> bytes:
    """White space in a header, now and then with comments in it."""
    gap = dice.choice((b" ", b"\n", b"\t", b"\r\n", b" \v\f"))
    return gap + dice.choice((b"# by hand\n", b"#\r", b"# 1 2\n#\n \n", b"#P5 7\r\n")) if dice.random() < 0.2 else gap


def spelled(dice: random.Random, samples: np.ndarray, maxval: int) -> bytes:
    """A plane, raw or plain, with a header of some spelling."""
    (height, width), is_raw, zeros = samples.shape, dice.random() < 0.6, dice.choice((b"", b"", b"0", b"000"))
    numbers = (random_gap(dice) + zeros + b"%d" % number for number in (width, height, maxval))
    head = (b"P5" if is_raw else b"P2") + b"".join(numbers) + dice.choice((b"\n", b" ", b"\r"))
    if is_raw:
        return head + samples.astype(">u2" if maxval > 255 else "u1").tobytes()
    return head + dice.choice((b" ", b"\n", b"\r\n ")).join(b"%d" % sample for sample in samples.ravel()) + b"\n"


def random_shape(dice: random.Random) -> tuple[int, int]:
    """Mostly small. The greatest radius reaches from end to end of the others."""
    if dice.random() < 0.03:
        return dice.choice(((1, 4096), (4096, 1), (140, 131), (129, 129), (2, 2000)))
    most = dice.choice((1, 4, 8, 12, 20, 40))
    return dice.randint(1, most), dice.randint(1, most)


def random_mask(dice: random.Random, noise: np.random.Generator, shape: tuple[int, int]) -> np.ndarray:
    """All open, all masked, single pixels or blots masked, or a comb, whose teeth are joined late."""
    field = noise.random(shape)
    kind = dice.choice(("open", "pixels", "pixels", "blots", "blots", "comb", dice.choice(("open", "masked"))))
    if kind in ("open", "masked"):
        return np.full(shape, kind == "open")
    if kind == "comb":
        return (np.arange(shape[1]) % 2 == 0)[None, :] | (np.arange(shape[0]) % dice.randint(2, 9) == 0)[::-1, None]
    if kind == "blots":
        field = ndimage.uniform_filter(field, 3)
        field -= field.min()
        field /= field.max() or 1
    return field < dice.choice((0.3, 0.5, 0.6, 0.7, 0.9, 0.98))


def random_planes(dice: random.Random, shape: tuple[int, int]) -> tuple[bytes, np.ndarray]:
    """One to three planes, and the weights."""
    noise = np.random.default_rng(dice.getrandbits(64))
    text, weights = spelled(dice, noise.integers(0, 65536, shape), 65535), np.ones(shape, np.int64)
    count = dice.choice((1, 2, 3, 3, 3))
    if count > 1:
        maxval = dice.choice((1, 2, 9, 254, 255, 256, 257, 65534, 65535, dice.randint(1, 65535)))
        levels = noise.integers(0, maxval + 1, dice.choice((1, 2, 3, 1000)))
        weights = levels[noise.integers(0, len(levels), shape)]
        text += spelled(dice, weights, maxval)
    if count > 2:
        maxval = dice.choice((1, 1, 255, 256, 65535, dice.randint(1, 65535)))
        text += spelled(dice, random_mask(dice, noise, shape) * noise.integers(1, maxval + 1, shape), maxval)
    return text, weights


def random_terms(dice: random.Random, weights: np.ndarray) -> dict[str, int]:
    """Mostly such as some of the pixels meet."""
    radius = dice.choice((0, 1, 1, 1, 2, 2, 3, dice.randint(0, 64), 64))
    window = min(2 * radius + 1, weights.shape[0]) * min(2 * radius + 1, weights.shape[1])
    level = int(dice.choice(weights.ravel()))
    few = dice.choice((weights.size, weights.size + 1, 4_194_304))
    terms = {
        "weight": dice.choice((0, 1, level, level, level, min(level + 1, 65535), dice.choice((65535, dice.randint(0, 65535))))),
        "radius": radius,
        "count": dice.choice((0, 1, window // 4, window // 3, window // 2, window, dice.choice((min(window + 1, 16641), 16641)))),
        "patch": dice.choice((0, 1, 2, 3, 5, 9, weights.size // 4, weights.size // 2, few)),
        "tile": dice.choice((2, 3, 64, 127, 128)),
    }
    return {name: PLAIN_TERMS[name] if dice.random() < 0.3 else number for name, number in terms.items()}


def full_scripts(dice: random.Random) -> bytes:
    """Scripts near to a limit: of settle commands, of edits by the side of tiles, of commands, or of analysts."""
    command, count = dice.choice((("settle", 16384), ("mask 0 0 0 0", 8192), ("show", 4096), ("show", 9)))
    each = 1 if count == 9 else 4096
    lines = [command] * (count + dice.choice((-1, 0, 1)))
    parts = [lines[place : place + each] for place in range(0, len(lines), each)]
    if (command, count) == ("show", 4096):
        parts = [lines]
    return script_part(parts)


def random_case(dice: random.Random) -> Case:
    """A session and terms, now and then with a broken text, or with scripts at their limits."""
    if dice.random() < 0.01:
        text, weights = random_planes(dice, (1, 4096))
        terms = {**random_terms(dice, weights), "tile": dice.choice((2, 3))}
        return Case(trying.words_of(dice, "screen", terms, OPTIONS), text + full_scripts(dice))
    shape = random_shape(dice)
    text, weights = random_planes(dice, shape)
    scripts = script_part(stress.random_scripts(dice, shape[1], shape[0]))
    text += dice.choice((b"", b"end\n", b"analyst\nend\n", scripts, scripts, scripts))
    words = trying.words_of(dice, "screen", random_terms(dice, weights), OPTIONS)
    return Case(words, altered(dice, text, ()) if dice.random() < 0.15 else text)


def try_the_rows() -> None:
    """The worked rows: the mask plane and the script that are written, and words beyond their ranges."""
    planes = b"P5\n3 1\n65535\n" + bytes(6) + b"P5\n3 1\n9\n\5\1\5"
    script = b"analyst\nsettle\nshow\nend\n"

    def kept(terms: str, data: bytes = planes) -> bytes:
        done = wanted(["screen", *terms.split()], data)
        assert done.status == 0 and done.out.startswith(planes) and done.out.endswith(script), done
        mask = done.out[len(planes) : -len(script)]
        assert mask.startswith(b"P5\n3 1\n1\n"), mask
        return mask[9:]

    assert kept("--weight 2") == b"\1\0\1"
    assert kept("--weight 2 --patch 2") == kept("--weight 2 --radius 1 --count 2") == b"\0\0\0"
    assert kept("--weight 2 --radius 1 --count 1") == b"\1\0\1"
    assert kept("") == kept("--patch 3") == kept("--weight 1 --radius 64 --count 3") == b"\1\1\1"
    assert kept("", planes + b"P2 3 1 7 7 0 1\nend\n") == b"\1\0\1"
    for name, option in OPTIONS.items():
        for number in (option.greatest, option.least):
            assert wanted(["screen", f"--{name}", str(number)], planes).status == 0
        for number in (option.greatest + 1, option.least - 1):
            assert wanted(["screen", f"--{name}", str(number)], planes) == (2, b"", b"words refused\n")
    for words in ("--workers 1", "--rule least", "--ramp-x 1", "--weight 1 --weight 1", "--weight"):
        assert wanted(["screen", *words.split()], planes) == (2, b"", b"words refused\n")
    assert wanted(["screen"], planes + b"settel\n") == (3, b"", b"input fault 9 line 1\n")


if __name__ == "__main__":
    sys.exit(trying.main("screen", wanted, random_case, try_the_rows))
