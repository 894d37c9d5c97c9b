"""Tests report_reader.py on reports written by hand: what is read, and for each broken line its number."""
import io
import unittest

import numpy as np

from wundjeska.report_reader import (
    NODATA,
    BrokenLine,
    Report,
    arrays_of,
    read_grid_from,
    read_report_from,
    summary_of,
)

# A turn around the one cell, whose first pixel is masked before anything is published.
TURN = b"""insar-report 1
size 2 2
tile 64
rule least
revised 1 mask 0 0 0 0
kept 0 1
published 1 1
costs 0 0
ncols 2
nrows 2
xllcorner 0
yllcorner 0
cellsize 1
NODATA_value -9223372036854775808
-9223372036854775808 16384
49152 32768
faces 0 0
flows
shown 1 1
end
"""

# Two tiles of three columns and one of a single column, so the last has no cells; an offset of -1 cycle joins them.
TILES = b"""insar-report 1
size 4 3
tile 3
rule product
shown 2 none
kept 1 0
kept 0 0
published 1 0
costs 340282366920938463463374607431768211455 8
ncols 4
nrows 3
xllcorner 0
yllcorner 0
cellsize 1
NODATA_value -9223372036854775808
0 0 0 -65536
0 0 0 -45536
0 0 9223372036854775807 -25536
faces 0 1 -2 3 -4
faces 1
flows -4 -4 8
settled 2 0
revised 2 unmask 1 0 2 1
end
"""

# A line of two tiles that rises by 40000 a pixel, as the expected slope tells.
STEEP = b"""insar-report 2
size 4 1
tile 2
rule mean
ramp 30000 -32768
steep 16
kept 1 0
kept 0 0
published 1 0
costs 0 0
ncols 4
nrows 1
xllcorner 0
yllcorner 0
cellsize 1
NODATA_value -9223372036854775808
0 40000 80000 120000
faces 0
faces 1
flows 0
end
"""

# The same for this report.
STEEP_BREAKS = [
    (1, b"insar-report 1", 5),
    (1, b"insar-report 3", 1),
    (1, b"insar-report 02", 1),
    (5, b"ramp 32767 -32768", 0),
    (5, b"ramp 32768 0", 5),
    (5, b"ramp 0 -32769", 5),
    (5, b"ramp 0 65535", 5),
    (5, b"ramp 99999999999999999999 0", 5),
    (5, b"ramp -0 0", 5),
    (5, b"ramp 00 0", 5),
    (5, b"ramp +1 0", 5),
    (5, b"ramp 0.5 0", 5),
    (5, b"ramp 0", 5),
    (5, b"ramp 0 0 0", 5),
    (5, b"ramp  0 0", 5),
    (5, b"ramp 0 0 ", 5),
    (5, b"ramp 0 none", 5),
    (5, b"steep 1", 5),
    (6, b"steep 1", 0),
    (6, b"steep 0", 6),
    (6, b"steep 17", 6),
    (6, b"steep -1", 6),
    (6, b"steep 01", 6),
    (6, b"steep", 6),
    (6, b"steep 1 1", 6),
    (6, b"ramp 0 0", 6),
    (7, b"steep 1", 7),
    (16, b"NODATA_value -9999", 16),
]

# The line that is replaced, what stands there, and the number of the first broken line.
BREAKS = [
    (1, b"insar-report 2", 5),  # whose fifth line tells a ramp
    (1, b"insar-report 3", 1),
    (1, b"insar-report 0", 1),
    (1, b"insar-report 1 ", 1),
    (2, b"size 2  2", 2),
    (2, b"size 02 2", 2),
    (2, b"size 0 2", 2),
    (2, b"size 4097 1", 2),
    (2, b"size 4096 1025", 2),
    (2, b"size 2 3", 10),  # the grid has fewer rows
    (3, b"tile 1", 3),
    (3, b"tile 129", 3),
    (3, b"tile +64", 3),
    (3, b"tile 64\r", 3),
    (4, b"rule Least", 4),
    (5, b"revised 1 mask 0 0 0", 5),
    (5, b"revised 1 mask 0 0 0 4294967296", 5),
    (5, b"revised 1 mask 0 0 0 -1", 5),
    (5, b"raised 1 mask 0 0 0 0", 5),
    (5, b"", 5),
    (6, b"kept 0 none", 6),
    (6, b"kept 0 00", 6),
    (6, b"kept 0 99999999999999999999999999", 6),
    (7, b"settled 1 1", 8),  # no surface stands after it
    (8, b"costs 0", 8),
    (8, b"costs 340282366920938463463374607431768211456 0", 8),
    (9, b"ncols 3", 9),
    (11, b"xllcorner 0.0", 11),
    (14, b"NODATA_value -9999", 14),
    (15, b"16384", 15),
    (15, b"-9223372036854775808 16384 ", 15),
    (15, b"-9223372036854775808 16384 1", 15),
    (15, b"-9223372036854775809 16384", 15),
    (15, b"9223372036854775808 16384", 15),
    (15, b"-0 16384", 15),
    (15, b"1.0 16384", 15),
    (15, b"1e3 16384", 15),
    (15, b"1\t16384", 15),
    (17, b"faces 1 0", 17),
    (17, b"faces 0  0", 17),
    (17, b"faces 00", 17),
    (17, b"faces 0 9223372036854775808", 17),
    (18, b"flow", 18),
    (18, b"flows ", 18),
    (18, b"faces 1", 18),  # there is one tile
    (19, b"shown 1 nothing", 19),
    (20, b"END", 20),
    (20, b"end\nend", 21),
    (20, b"end\n", 21),
]


def read(text: bytes) -> Report:
    return read_report_from(io.BytesIO(text))


def broken_line(text: bytes) -> int:
    """The number of the first broken line, 0 if none is."""
    try:
        read(text)
    except BrokenLine as broken:
        return broken.number
    return 0


class Reads(unittest.TestCase):
    def test_the_head_and_the_history(self) -> None:
        report = read(TURN)
        self.assertEqual((report.width, report.height, report.side, report.rule), (2, 2, 64, "least"))
        kinds = [(entry.kind, entry.line) for entry in report.entries]
        self.assertEqual(kinds, [("revised", 5), ("kept", 6), ("published", 7), ("shown", 19)])
        self.assertEqual((report.entries[0].change, report.entries[0].box), ("mask", (0, 0, 0, 0)))
        self.assertEqual((report.entries[1].tile, report.entries[1].stamp), (0, 1))
        self.assertEqual((report.entries[3].analyst, report.entries[3].revision), (1, 1))

    def test_the_terms(self) -> None:
        report = read(STEEP)
        self.assertEqual((report.version, report.ramp, report.steepness), (2, (30000, -32768), 16))
        self.assertEqual([entry.line for entry in report.entries], [7, 8, 9])
        np.testing.assert_array_equal(report.surfaces[0].values, [[0, 40000, 80000, 120000]])
        self.assertIn("rule mean, ramp 30000 -32768, steepness 16; history", next(summary_of(report)))
        np.testing.assert_array_equal(arrays_of(report)["ramp"], [30000, -32768])
        plain = read(TURN)
        self.assertEqual((plain.version, plain.ramp, plain.steepness), (1, (0, 0), 1))
        self.assertIn("rule least; history", next(summary_of(plain)))

    def test_no_ramp_in_version_2(self) -> None:
        report = read(TURN.replace(b"report 1", b"report 2").replace(b"least\n", b"least\nramp 0 0\nsteep 1\n"))
        self.assertEqual((report.version, report.ramp, report.steepness, len(report.surfaces)), (2, (0, 0), 1, 1))

    def test_a_surface(self) -> None:
        (surface,) = read(TURN).surfaces
        np.testing.assert_array_equal(surface.values, [[NODATA, 16384], [49152, 32768]])
        np.testing.assert_array_equal(surface.cycles(), [[np.nan, 0.25], [0.75, 0.5]])
        self.assertEqual((surface.values.dtype, surface.flows.shape), (np.int64, (0,)))

    def test_faces_flows_and_large_numbers(self) -> None:
        report = read(TILES)
        (surface,) = report.surfaces
        self.assertEqual((surface.tile_cost, surface.seam_cost), (2**128 - 1, 8))
        self.assertEqual(surface.values[2, 2], 2**63 - 1)
        np.testing.assert_array_equal(report.face_grid(surface, 0), [[1, -2], [3, -4]])
        self.assertEqual((report.window(1), report.face_grid(surface, 1).shape), ((3, 0, 1, 3), (2, 0)))
        np.testing.assert_array_equal(surface.flows, [-4, -4, 8])
        self.assertIsNone(report.entries[0].revision)

    def test_masks_of_the_revisions(self) -> None:
        first = np.array([[1, 0, 1, 1], [1, 0, 0, 1], [0, 1, 1, 1]])
        before, after = read(TILES).masks(first)
        np.testing.assert_array_equal(before, first)
        np.testing.assert_array_equal(after, [[1, 1, 1, 1], [1, 1, 1, 1], [0, 1, 1, 1]])

    def test_an_empty_history(self) -> None:
        self.assertEqual(read(b"insar-report 1\nsize 1 1\ntile 2\nrule mean\nend\n").entries, [])

    def test_a_grid_alone(self) -> None:
        grid = b"".join(TURN.splitlines(keepends=True)[8:16])
        np.testing.assert_array_equal(read_grid_from(io.BytesIO(grid)), [[NODATA, 16384], [49152, 32768]])
        self.assertRaises(BrokenLine, read_grid_from, io.BytesIO(grid + b"\n"))
        self.assertRaises(BrokenLine, read_grid_from, io.BytesIO(b""))


class Refuses(unittest.TestCase):
    def test_each_break_with_its_line(self) -> None:
        for number, text, wanted in BREAKS:
            lines = TURN.split(b"\n")
            lines[number - 1] = text
            with self.subTest(number=number, text=text):
                self.assertEqual(broken_line(b"\n".join(lines)), wanted)

    def test_each_break_of_the_terms(self) -> None:
        for number, text, wanted in STEEP_BREAKS:
            lines = STEEP.split(b"\n")
            lines[number - 1] = text
            with self.subTest(number=number, text=text):
                self.assertEqual(broken_line(b"\n".join(lines)), wanted)

    def test_a_report_that_is_cut_anywhere(self) -> None:
        for text in (TURN, STEEP):
            for end in range(len(text)):
                with self.subTest(end=end):
                    self.assertEqual(broken_line(text[:end]), text[:end].count(b"\n") + 1)

    def test_a_line_that_is_missing(self) -> None:
        # a revision, a kept result or a look may be left out, and of two rows the second takes the place of the first
        wanted = {5: 0, 6: 0, 15: 16, 19: 0}
        for number in range(1, 21):
            lines = TURN.splitlines(keepends=True)
            del lines[number - 1]
            with self.subTest(number=number):
                self.assertEqual(broken_line(b"".join(lines)), wanted.get(number, number))


if __name__ == "__main__":
    unittest.main()
