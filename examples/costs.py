#!/usr/bin/env python3
"""Checks a grid against its input, and prints what it costs: costs.py INPUT GRID TILE_SIDE [TILE_COST [GX GY [STEEP]]].

INPUT has a phase plane, and then weights and mask if they are there. The grid must have the input's size, NODATA exactly
at masked pixels, the phase up to whole cycles at open ones, and the phase itself at the first of them. The weight of an
edge is the lesser of its pixels' weights. It prints how many cells have a residue, what all tiles cost, and what the
seams cost. It ends with 1 where the grid is wrong, or where its tiles do not cost TILE_COST (any number if that is -). GX and
GY are the slopes to the right and downwards that are expected, in 1/65536 cycle a pixel: differences are wrapped about them.
STEEP is how many times as much as the first cycle of a departure each further one costs, 1 if it is not given. It shares
nothing with the program; that no other surface costs less it cannot tell.
"""
import re
import sys

NODATA = -9223372036854775808


GAP = rb"(?:\s+(?:#[^\n]*\n\s*)*)"
HEADER = re.compile(rb"P([25])" + GAP + rb"(\d+)" + GAP + rb"(\d+)" + GAP + rb"(\d+)\s")


def planes(data):
    """Width, height, and the samples of three planes; those that are not there are ones."""
    place, found = 0, []
    while place < len(data):
        header = HEADER.match(data, place)
        kind, width, height, maxval = map(int, header.groups())
        start, count = header.end(), width * height
        if kind == 2:
            raster = re.compile(rb"(?:\s*\d+){%d}\s*" % count).match(data, start).group()
            found.append([int(word) for word in raster.split()])
            place = start + len(raster)
        else:
            place = start + count * (1 if maxval < 256 else 2)
            raster = data[start:place]
            found.append(raster if maxval < 256 else [high << 8 | low for high, low in zip(raster[::2], raster[1::2])])
    return width, height, *(found + [[1] * (width * height)] * (3 - len(found)))


def wrapped(a, b, slope):
    return slope + (b - a - slope + 32768) % 65536 - 32768


def residues(width, height, phase, across, down):
    """How many cells have one."""
    total = 0
    for p in range((height - 1) * width):
        if p % width + 1 < width:
            a, b, c, d = phase[p], phase[p + 1], phase[p + width], phase[p + width + 1]
            total += wrapped(a, b, across) + wrapped(b, d, down) != wrapped(c, d, across) + wrapped(a, c, down)
    return total


def costs(width, height, side, phase, weights, mask, surface, across, down, steep):
    """Of the tiles, and of the seams."""
    tiles = seams = 0
    for p in range(width * height):
        x, y = p % width, p // width
        for q, place, size, slope in ((p + 1, x + 1, width, across), (p + width, y + 1, height, down)):
            if place < size and mask[p] and mask[q]:
                departure = (surface[q] - surface[p] - wrapped(phase[p], phase[q], slope)) // 65536
                cost = min(weights[p], weights[q]) * (abs(departure) and 1 + steep * (abs(departure) - 1))
                if place % side == 0:
                    seams += cost
                else:
                    tiles += cost
    return tiles, seams


def main():
    width, height, phase, weights, mask = planes(open(sys.argv[1], "rb").read())
    words = open(sys.argv[2]).read().split()
    side, ramp = int(sys.argv[3]), [int(word) for word in sys.argv[5:7]] or [0, 0]
    header = f"ncols {width} nrows {height} xllcorner 0 yllcorner 0 cellsize 1 NODATA_value {NODATA}".split()
    if words[:12] != header or len(words) != 12 + width * height:
        sys.exit("the grid has not the input's size")
    surface = [int(word) for word in words[12:]]
    for p, value in enumerate(surface):
        if value == NODATA if mask[p] else value != NODATA:
            sys.exit(f"NODATA is wrong at pixel {p % width} {p // width}")
        if mask[p] and (value - phase[p]) % 65536:
            sys.exit(f"the phase is wrong at pixel {p % width} {p // width}")
    first = next((p for p in range(width * height) if mask[p]), None)
    if first is not None and surface[first] != phase[first]:
        sys.exit("the first open pixel has not its phase")
    steep = int((sys.argv[7:8] or [1])[0])
    tiles, seams = costs(width, height, side, phase, weights, mask, surface, *ramp, steep)
    cells = (width - 1) * (height - 1)
    print(f"residues {residues(width, height, phase, *ramp)} of {cells} cells, tile cost {tiles}, seam cost {seams}")
    if sys.argv[4:5] not in ([], ["-"]) and int(sys.argv[4]) != tiles:
        sys.exit(f"the tiles do not cost {sys.argv[4]}")


main()
