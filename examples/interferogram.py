#!/usr/bin/env python3
"""Writes an interferogram that looks real to standard output: interferogram.py [WIDTH HEIGHT [ACROSS DOWN]] [--grid].
By default it has 320 by 256 pixels. ACROSS and DOWN are a mean slope besides, in cycles a pixel to the right and downwards, as
-0.8 0 for a steep flank.

It is three raw PGM planes in one file, as the program reads them: phase in units of 1/65536 cycle, weights, mask. With --grid
it is the grid that `insar_unwrap grid` should find: the phases before they are wrapped, but for whole cycles that are the same
everywhere. The standard library alone is used, and the seed is fixed.

The scene is 19.2 km wide, whatever the raster's size; pixels are square. A satellite at an incidence of 39 degrees that
flies on a heading of -12 degrees and looks to its right measures with a wavelength of 5.546 cm, as Sentinel-1 does.
One cycle is half a wavelength of range.

Deformation: a point source in an elastic half space (Mogi 1958) 3 km below the ground, which gained 0.012 cubic km,
with a Poisson's ratio of 0.25. Besides there are a ramp left by the orbits, 1.6 cycles over the width and -0.9 over the
height, and an atmosphere: 24 plane waves in random directions, the longer the stronger, 0.25 cycle in root mean square.

Coherence: 0.9 on bare ground, falling to 0.3 in two patches of forest, and 0 on a lake. Phase noise is drawn from the
distribution of the phase of an interferogram of 8 looks with that coherence (Lee, Hoppel, Mango and Miller 1994).
Weights are 255 times coherence, rounded, and at least 1. The mask leaves out the lake.

Sources: Mogi, Bulletin of the Earthquake Research Institute 36, 1958; Lee, Hoppel, Mango and Miller, IEEE Transactions
on Geoscience and Remote Sensing 32(5), 1994.
"""
import argparse
import math
import random
import sys

SCENE = 19200.0  # metres
WAVELENGTH = 0.05546576  # metres
INCIDENCE, HEADING = math.radians(39), math.radians(-12)
DEPTH, VOLUME, POISSON = 3000.0, 1.2e7, 0.25  # metres, cubic metres
SOURCE = (0.47, 0.36)  # parts of the width, x to the right and y downwards
RAMP = (1.6, -0.9)  # cycles over the width, and over the height
WAVES, AMPLITUDE = 24, 0.25  # cycles
LOOKS = 8
CYCLE, NODATA = 65536, -(2**63)  # units of a phase in a cycle, and the value of a masked pixel in a grid
LAKE = (0.74, 0.56, 0.085, 0.055)  # middle and half axes, in parts of the width
FORESTS = ((0.18, 0.62, 0.13), (0.62, 0.14, 0.09))  # middle and radius


def deformation(east, north):
    """The range change in cycles at a point `east` and `north` metres of the source."""
    distance = math.sqrt(east * east + north * north + DEPTH * DEPTH)
    strength = (1 - POISSON) * VOLUME / (math.pi * distance**3)
    toward_satellite = strength * (
        math.sin(INCIDENCE) * (north * math.sin(HEADING) - east * math.cos(HEADING)) + math.cos(INCIDENCE) * DEPTH
    )
    return -2 * toward_satellite / WAVELENGTH


def atmosphere(width, height):
    """The delay in cycles at each pixel, by rows."""
    waves = []
    for _ in range(WAVES):
        number = random.uniform(0.7, 9)  # waves in the width of the scene
        bearing, shift = random.uniform(0, 2 * math.pi), random.uniform(0, 2 * math.pi)
        turns = 2 * math.pi * number
        waves.append((number ** (-4 / 3), turns * math.cos(bearing), turns * math.sin(bearing), shift))
    scale = AMPLITUDE / math.sqrt(sum(size * size / 2 for size, _, _, _ in waves))
    # cos (a + b) = cos a cos b - sin a sin b, so that no pixel asks for a cosine of its own
    columns = [[(math.cos(kx * x / width), math.sin(kx * x / width)) for _, kx, _, _ in waves] for x in range(width)]
    for y in range(height):
        angles = [(scale * size, ky * y / width + shift) for size, _, ky, shift in waves]
        row = [(size * math.cos(angle), size * math.sin(angle)) for size, angle in angles]
        yield [sum(c * a - s * b for (c, s), (a, b) in zip(column, row)) for column in columns]


def is_lake(u, v):
    middle_u, middle_v, half_u, half_v = LAKE
    return ((u - middle_u) / half_u) ** 2 + ((v - middle_v) / half_v) ** 2 < 1


def coherence(u, v):
    """Between 0 and 1, at a point in parts of the width."""
    if is_lake(u, v):
        return 0.0
    forest = max(math.exp(-(((u - a) ** 2 + (v - b) ** 2) / r**2) ** 2) for a, b, r in FORESTS)
    return 0.9 - 0.6 * forest


def noise(c):
    """A phase error in cycles: given the first image, the sum of looks is complex normal about c times its power."""
    power = random.gammavariate(LOOKS, 1)
    spread = math.sqrt((1 - c * c) * power / 2)
    return math.atan2(random.gauss(0, spread), c * power + random.gauss(0, spread)) / (2 * math.pi)


def scene(width, height, slope):
    """For each pixel in row order the phase before it is wrapped, in units of 1/65536 cycle, its weight, and 0 on the lake."""
    random.seed(1958)
    for y, delays in enumerate(atmosphere(width, height)):
        for x, delay in enumerate(delays):
            u, v = x / width, y / width
            cycles = deformation(SCENE * (u - SOURCE[0]), SCENE * (SOURCE[1] - v))
            cycles += RAMP[0] * x / width + RAMP[1] * y / height + delay + slope[0] * x + slope[1] * y
            quality = coherence(u, v)
            value = round(CYCLE * (cycles + noise(quality)))
            yield value, max(1, round(255 * quality)), 0 if is_lake(u, v) else 1


def planes(width, height, pixels):
    """The three planes."""
    phase, weights, mask = bytearray(), bytearray(), bytearray()
    for value, weight, is_open in pixels:
        phase += (value % CYCLE).to_bytes(2, "big")
        weights.append(weight)
        mask.append(is_open)
    for maxval, samples in ((CYCLE - 1, phase), (255, weights), (1, mask)):
        yield b"P5\n%d %d\n%d\n" % (width, height, maxval) + samples


def grid(width, height, pixels):
    """The grid of the values, moved by whole cycles such that the first open pixel has its phase."""
    values = [value if is_open else None for value, _, is_open in pixels]
    first = next((value for value in values if value is not None), 0)
    values = [NODATA if value is None else value - first // CYCLE * CYCLE for value in values]
    head = f"ncols {width}\nnrows {height}\nxllcorner 0\nyllcorner 0\ncellsize 1\nNODATA_value {NODATA}\n"
    yield head.encode()
    for start in range(0, width * height, width):
        yield " ".join(map(str, values[start : start + width])).encode() + b"\n"


def refuse(why):
    print(f"interferogram.py: {why}; the words are [WIDTH HEIGHT [ACROSS DOWN]] [--grid]", file=sys.stderr)
    sys.exit(2)


def words():
    """The words of this script."""
    parser = argparse.ArgumentParser(usage="interferogram.py [WIDTH HEIGHT [ACROSS DOWN]] [--grid]")
    parser.error = refuse
    parser.add_argument("numbers", nargs="*", type=float)
    parser.add_argument("--grid", action="store_true")
    asked = parser.parse_args()
    if len(asked.numbers) not in (0, 2, 4) or not all(map(math.isfinite, asked.numbers)):
        refuse("there are none, two or four numbers")
    sides = asked.numbers[:2] or (320, 256)
    if not all(1 <= side <= 4096 and side == int(side) for side in sides):
        refuse("a side has 1 to 4096 pixels")
    asked.width, asked.height = map(int, sides)
    asked.slope = asked.numbers[2:] or (0, 0)
    return asked


def main():
    asked = words()
    write = grid if asked.grid else planes
    for part in write(asked.width, asked.height, scene(asked.width, asked.height, asked.slope)):
        sys.stdout.buffer.write(part)


if __name__ == "__main__":
    main()
