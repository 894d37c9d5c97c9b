#!/usr/bin/python3
"""Writes a session for benchmarks to standard output: rasters.py NAME [GX GY].

NAME is KIND-SIZE, KIND-SEED-SIZE or KIND-SEED-SIZE-LEVEL. SIZE is SIDE or WIDTHxHEIGHT in pixels, as in trial-7-512x256.

slope-SIZE, gentle-SIZE, flat-SIZE
    A phase plane that rises by 300, 30 or 0 units of 1/65536 cycle a pixel to the right, and by 700, 20 or 0 downwards.
    No cell has a residue. With -plain at the end of NAME it is a plain plane, otherwise a raw one.
trial-SEED-SIZE
    The planes of the command `trial SEED WIDTH HEIGHT`: random phases on a slope, random weights from 1 to 256, and one
    pixel in sixteen masked, all from a linear congruential generator (Knuth's multiplier of 64 bits). 12 % of the cells
    have a residue.
noise-SEED-SIZE, holes-SEED-SIZE, lake-SEED-SIZE
    Random phases, so that a third of the cells has a residue, and random weights from 1 to 65535. Nothing is masked, or each pixel
    at random as often as not, or what lies in one large bay or some.
hills-SEED-SIZE-LEVEL, mogi-SEED-SIZE-LEVEL, fractal-SEED-SIZE-LEVEL, fault-SEED-SIZE-LEVEL, rupture-SEED-SIZE-LEVEL,
fold-SEED-SIZE-LEVEL
    Smooth hills, a point source that swells (Mogi 1958) on a ramp, a fractal field, hills that a fault breaks by up to 3.4
    cycles from one pixel to the next, or hills with ridges whose near side lies over (4 cycles within 5 pixels), with noise
    by coherence (Cramer-Rao bound, one look), which is lost along the fault, on across the whole raster, and low on the near sides.
    A rupture is a fault along which coherence is lost only where the ground slipped, as in an earthquake. LEVEL is low, medium or high: 0.5, 5 or 20 % of the cells have a residue. The weights are
    the square of an estimate of the coherence, 1 to 255; the least coherent 6 % of the pixels are masked. A number after the LEVEL
    of a fault, a rupture or a fold, as in fault-4-512-medium-40, is how many per cent of coherence are left at most within three pixels of the
    fault, or on near sides: 100 if none is lost there.
ring-SIZE, ringed-SEED-SIZE
    An open ring along the raster's edge, two pixels wide, around a masked hole. Its phases rise by 0.45 cycles a pixel along it, and
    with tiles of side 2 its two lanes differ by a cycle at each seam. Or such a ring in the first 14 rows, two masked rows,
    and the trial of SEED in those below. The weights of the ring are random, from 101 to 256, so that
    many seams depart by a cycle each.

-sea, -lakes and -specks behind NAME, in this order, mask more pixels: those below a ragged shore, three tenths of them; some ten lakes
that touch no border; one pixel in fifty, alone for the most part. Sides go to 65,535 pixels, and a raster to 268,435,456, as for the
command `whole`; all others take 4096 and 4,194,304.

With GX and GY, whole numbers, the phases rise by these units a pixel more to the right and downwards. By --ramp-x and --ramp-y of
these slopes that is the same problem as the raster of NAME alone is without.

A NAME that is none of these ends with status 2 and one line. It needs NumPy (python3-numpy).
"""
import re
import sys
from typing import NamedTuple

import numpy as np

CYCLE = 65536  # units in a cycle
MAX_SIDE, MAX_PIXELS = 65535, 268435456
SLOPES = {"slope": (300, 700), "gentle": (30, 20), "flat": (0, 0)}  # units a pixel to the right, and downwards
NOISES = ("noise", "holes", "lake")
FIELDS = ("hills", "mogi", "fractal", "fault", "fold", "rupture")
TORN = ("fault", "fold", "rupture")
WATERS = ("sea", "lakes", "specks")
LEVELS = {"low": 0.005, "medium": 0.05, "high": 0.20}  # of the cells
RISE, BUMP, RING_ROWS = 29491, 6554, 14  # 0.45 and 0.1 cycles; rows of the ring in a raster with a trial below
MULTIPLIER, INCREMENT, WORD = 6364136223846793005, 1442695040888963407, 2**64
NAME = re.compile(
    r"(?P<kind>[a-z]+)(?:-(?P<seed>[0-9]{1,18}))?-(?P<width>[0-9]{1,5})(?:x(?P<height>[0-9]{1,5}))?"
    r"(?:-(?P<level>low|medium|high)(?:-(?P<left>[1-9][0-9]?|100))?)?(?P<plain>-plain)?(?P<waters>(?:-sea)?(?:-lakes)?(?:-specks)?)"
)


class Mistake(Exception):
    """A name that is not one of a raster."""


class Raster(NamedTuple):
    """A scene by rows. `surface` has the phases before they are wrapped, in units of 1/65536 cycle."""

    surface: np.ndarray
    weights: np.ndarray | None = None
    max_weight: int = 1
    opened: np.ndarray | None = None


def wrap(differences: np.ndarray) -> np.ndarray:
    """The differences up to whole cycles, from -32768 to 32767."""
    return (differences + CYCLE // 2) % CYCLE - CYCLE // 2


def residues(phase: np.ndarray) -> np.ndarray:
    """The residue of each cell of the whole raster."""
    right, down = wrap(np.diff(phase.astype(np.int64), axis=1)), wrap(np.diff(phase.astype(np.int64), axis=0))
    return (right[:-1] + down[:, 1:] - right[1:] - down[:, :-1]) // CYCLE


def states(seed: int, count: int) -> np.ndarray:
    """The first states of the generator after `seed`. Each round doubles how many are known."""
    factor, term = MULTIPLIER, INCREMENT
    found = np.empty(count, np.uint64)
    found[0] = (seed * factor + term) % WORD
    known = 1
    while known < count:
        more = min(known, count - known)
        with np.errstate(over="ignore"):
            found[known : known + more] = found[:more] * np.uint64(factor) + np.uint64(term)
        factor, term = factor * factor % WORD, (factor * term + term) % WORD
        known += more
    return found


def slope(kind: str, width: int, height: int) -> Raster:
    across, down = SLOPES[kind]
    return Raster(across * np.arange(width)[None, :] + down * np.arange(height)[:, None])


def trial(seed: int, width: int, height: int) -> Raster:
    drawn = states(seed, width * height).reshape(height, width)
    noise = ((drawn >> np.uint64(48)) * np.uint64(5) // np.uint64(8)).astype(np.int64)
    surface = 700 * np.arange(width)[None, :] + 300 * np.arange(height)[:, None] + noise
    weights = 1 + (drawn >> np.uint64(32)) % np.uint64(256)
    return Raster(surface, weights, 256, (drawn >> np.uint64(20)) % np.uint64(16) != 0)


def ring(width: int, height: int) -> Raster:
    y, x = np.mgrid[0:height, 0:width]
    lane = np.minimum(np.minimum(x, y), np.minimum(width - 1 - x, height - 1 - y))
    sides = [y == lane, x == width - 1 - lane, y == height - 1 - lane, x == lane]
    along = np.select(sides, [x, width - 1 + y, 2 * width + height - 3 - x, 2 * width + 2 * height - 4 - y])
    enters = np.select(sides, [x % 2 == 0, y % 2 == 0, x % 2 == 1, y % 2 == 1], False)  # the first pixel of a tile of side 2
    surface = RISE * along + BUMP * (enters & (lane == 1))
    weights = 101 + (states(1, width * height).reshape(height, width) >> np.uint64(32)) % np.uint64(156)
    return Raster(surface, weights, 256, lane < 2)


def ringed(seed: int, width: int, height: int) -> Raster:
    masked = Raster(np.zeros((2, width), np.int64), np.ones((2, width)), 256, np.zeros((2, width), bool))
    parts = [ring(width, RING_ROWS), masked, trial(seed, width, height - RING_ROWS - 2)]
    surface, weights, _, opened = (np.vstack(rows) for rows in zip(*parts))
    return Raster(surface, weights, 256, opened)


def noise(kind: str, seed: int, width: int, height: int) -> Raster:
    random = np.random.Generator(np.random.PCG64([seed, NOISES.index(kind)]))
    surface, weights = random.integers(0, CYCLE, (height, width)), random.integers(1, CYCLE, (height, width))
    opened = np.ones((height, width), bool)
    if kind == "holes":
        opened = random.random((height, width)) < 0.5
    elif kind == "lake":
        opened = random_field(random, width, height, max(width, height) / 8) < 0.3
    return Raster(surface, weights, CYCLE - 1, opened)


def random_field(random: np.random.Generator, width: int, height: int, scale: float, power: float = 0.0) -> np.ndarray:
    """A random field, mean 0 and deviation 1: smooth with that scale in pixels or, with a power, a fractal."""
    frequency = np.hypot(np.fft.fftfreq(height)[:, None], np.fft.rfftfreq(width)[None, :])
    frequency[0, 0] = 1
    amplitude = frequency**-power if power else np.exp(-((frequency * scale) ** 2) * 2)
    amplitude[0, 0] = 0
    field = np.fft.irfft2(np.fft.rfft2(random.standard_normal((height, width))) * amplitude, s=(height, width))
    return field / field.std()


def torn(kind: str, width: int, height: int) -> tuple[np.ndarray, np.ndarray]:
    """What a fault or ridges add to hills, in cycles, and the share of the coherence that is left there."""
    y, x = np.mgrid[0:height, 0:width].astype(np.float64)
    size = max(width, height)
    if kind in ("fault", "rupture"):
        away = y - (0.5 * height + 0.12 * (x - 0.5 * width))
        slip = 3.4 * np.clip(np.minimum(x / width - 0.15, 0.85 - x / width) / 0.2, 0, 1)
        lost = 0.9 * np.exp(-((away / 2) ** 2)) * ((slip > 0) | (kind == "fault"))
        return slip / 2 * np.where(away > 0, 1, -1) * np.exp(-np.abs(away) / (0.15 * size)), 1 - lost
    behind = np.stack([x - width * place - 0.03 * size * np.sin(5 * y / height) for place in (0.25, 0.5, 0.75)])
    rise = np.clip(behind / 5, 0, 1) * np.exp(-np.maximum(behind, 0) / (0.08 * size))
    return 4 * rise.sum(axis=0), np.where(((behind > 0) & (behind < 6)).any(axis=0), 0.4, 1.0)


def field(kind: str, random: np.random.Generator, width: int, height: int) -> np.ndarray:
    """The surface without noise, in cycles."""
    y, x = np.mgrid[0:height, 0:width].astype(np.float64)
    size = max(width, height)
    if kind in TORN:
        return field("hills", random, width, height) + torn(kind, width, height)[0]
    if kind == "hills":
        heights = np.zeros((height, width))
        for _ in range(14):
            left, top = random.uniform(0, width), random.uniform(0, height)
            radius = random.uniform(0.05, 0.2) * size
            hill = np.exp(-((x - left) ** 2 + (y - top) ** 2) / (2 * radius * radius))
            heights += random.uniform(-1, 1) * radius / 14 * hill
        return heights
    if kind == "mogi":
        left, top, depth = width * random.uniform(0.4, 0.6), height * random.uniform(0.4, 0.6), 0.12 * size
        source = depth**3 / ((x - left) ** 2 + (y - top) ** 2 + depth * depth) ** 1.5
        return source * 0.035 * size + x * 0.01 + y * 0.004
    heights = random_field(random, width, height, 0, power=1.9)
    steep = np.hypot(np.diff(heights, axis=1)[1:], np.diff(heights, axis=0)[:, 1:])
    return heights * (0.09 / np.sqrt((steep * steep).mean()))


def torn_coherence(coherence: np.ndarray, share: np.ndarray, left: int | None) -> np.ndarray:
    """The coherence of which a share is left near a tear or, if that is told, at most so many per cent."""
    return coherence * share if left is None else np.where(share < 0.9, np.minimum(coherence, left / 100), coherence)


def noisy(kind: str, seed: int, width: int, height: int, level: str, left: int | None = None) -> Raster:
    """A field with noise by coherence. The noise is scaled until just less than the level's share of cells has a residue."""
    random = np.random.Generator(np.random.PCG64([seed, FIELDS.index(kind)]))
    cycles = field(kind, random, width, height)
    rough = random_field(random, width, height, 12) * 0.5 + random_field(random, width, height, 90)
    coherence = np.clip(1 / (1 + np.exp(-(0.9 + 1.1 * rough))), 0.05, 0.99)  # mean about 0.67
    if kind in TORN:
        coherence = np.clip(torn_coherence(coherence, torn(kind, width, height)[1], left), 0.05, 0.99)
    deviation = np.minimum(np.sqrt((1 - coherence**2) / (2 * coherence**2)), 8) / (2 * np.pi)  # Cramer-Rao, one look
    noise = random.standard_normal((height, width)) * deviation

    def surface(scale: float) -> np.ndarray:
        return np.floor((cycles + noise * scale) * CYCLE).astype(np.int64)

    low, high = 0.0, 60.0
    for _ in range(24):
        middle = (low + high) / 2
        if np.count_nonzero(residues(surface(middle) % CYCLE)) < LEVELS[level] * (width - 1) * (height - 1):
            low = middle
        else:
            high = middle
    estimate = np.clip(coherence + random.standard_normal((height, width)) * 0.03, 0, 1)
    weights = np.clip(np.rint(255 * estimate**2), 1, 255)
    return Raster(surface(low), weights, 255, coherence > np.quantile(coherence, 0.06))


def water(kind: str, width: int, height: int) -> np.ndarray:
    """The pixels that a word of waters masks."""
    random = np.random.Generator(np.random.PCG64([width, height, WATERS.index(kind)]))
    if kind == "specks":
        return random.random((height, width)) < 0.02
    if kind == "sea":
        heights = random_field(random, width, height, max(width, height) / 12) - 3 * np.arange(height)[:, None] / height
        return heights < np.quantile(heights, 0.3)
    heights = random_field(random, width, height, max(width, height) / 24)
    heights[:2], heights[-2:], heights[:, :2], heights[:, -2:] = 9, 9, 9, 9
    return heights < np.quantile(heights, 0.05)


def masked(made: Raster, kinds: str) -> Raster:
    """The raster with the pixels of these waters masked; its weights are 1 where it has none."""
    shape = made.surface.shape
    opened = np.ones(shape, bool) if made.opened is None else made.opened
    for kind in kinds.split("-")[1:]:
        opened = opened & ~water(kind, shape[1], shape[0])
    return made._replace(weights=np.ones(shape, np.int64) if made.weights is None else made.weights, opened=opened)


def raster(name: str) -> tuple[Raster, bool]:
    """The raster of a name, and whether its planes are plain."""
    words = NAME.fullmatch(name)
    if not words or not words["waters"]:
        return dry_raster(name, words)
    made, is_plain = dry_raster(name, words)
    return masked(made, words["waters"]), is_plain


def dry_raster(name: str, words: re.Match[str] | None) -> tuple[Raster, bool]:
    """The raster of the words of a name, without more waters."""
    if not words:
        raise Mistake(f"{name}: no name of a raster, as slope-1024, trial-7-512 and hills-1-512-low are")
    kind, seed, level = words["kind"], words["seed"], words["level"]
    width, height = int(words["width"]), int(words["height"] or words["width"])
    if not (0 < width <= MAX_SIDE and 0 < height <= MAX_SIDE and width * height <= MAX_PIXELS):
        raise Mistake(f"{name}: {width} by {height} pixels are beyond the limits of a session")
    is_plain = words["plain"] is not None
    if kind in SLOPES and seed is None and level is None:
        return slope(kind, width, height), is_plain
    if kind == "trial" and seed is not None and level is None and not is_plain:
        return trial(int(seed), width, height), False
    if kind == "ring" and seed is None and level is None and not is_plain:
        return ring(width, height), False
    if kind == "ringed" and seed is not None and level is None and not is_plain:
        if height < RING_ROWS + 3:
            raise Mistake(f"{name}: below the ring are two masked rows and one more at least")
        return ringed(int(seed), width, height), False
    if kind in NOISES and seed is not None and level is None and not is_plain:
        return noise(kind, int(seed), width, height), False
    if kind in FIELDS and seed is not None and level is not None and not is_plain:
        if min(width, height) < 2:
            raise Mistake(f"{name}: a field has at least two pixels a side")
        left = int(words["left"]) if words["left"] else None
        if left is None or kind in TORN:
            return noisy(kind, int(seed), width, height, level, left), False
    raise Mistake(f"{name}: no name of a raster, as slope-1024, trial-7-512 and hills-1-512-low are")


def leaned(made: Raster, across: int, down: int) -> Raster:
    """The raster with a ramp added to its surface, units a pixel to the right and downwards."""
    height, width = made.surface.shape
    return made._replace(surface=made.surface + across * np.arange(width)[None, :] + down * np.arange(height)[:, None])


def slopes(words: list[str]) -> list[int]:
    """Two slopes, from -65536 to 65536."""
    if not all(re.fullmatch(r"-?[0-9]{1,5}", word) and abs(int(word)) <= CYCLE for word in words):
        raise Mistake(f"{' '.join(words)}: no two slopes from {-CYCLE} to {CYCLE}")
    return [int(word) for word in words]


def plane(samples: np.ndarray, maxval: int, is_plain: bool = False) -> bytes:
    """A PGM plane."""
    height, width = samples.shape
    head = b"P%d\n%d %d\n%d\n" % (2 if is_plain else 5, width, height, maxval)
    if is_plain:
        return head + b"".join(" ".join(map(str, row)).encode() + b"\n" for row in samples.tolist())
    return head + samples.astype(">u2" if maxval > 255 else "u1").tobytes()


def session(made: Raster, is_plain: bool = False) -> bytes:
    """The planes of a raster, without scripts."""
    text = plane(made.surface % CYCLE, CYCLE - 1, is_plain)
    if made.weights is not None and made.opened is not None:
        text += plane(made.weights, made.max_weight) + plane(made.opened, 1)
    return text


def main(words: list[str]) -> int:
    if len(words) not in (1, 3) or words[0] in ("-h", "--help"):
        print(__doc__, file=sys.stdout if words[:1] in (["-h"], ["--help"]) else sys.stderr)
        return 0 if len(words) == 1 else 2
    try:
        made, is_plain = raster(words[0])
        sys.stdout.buffer.write(session(leaned(made, *slopes(words[1:])) if words[1:] else made, is_plain))
    except Mistake as mistake:
        print(mistake, file=sys.stderr)
        return 2
    except (OSError, MemoryError) as error:
        print(error or "no memory", file=sys.stderr)
        return 5
    return 0


if __name__ == "__main__":
    sys.exit(main(sys.argv[1:]))
