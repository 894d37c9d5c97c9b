"""Tests certain parts: what the program finds of small scenes, what is written and told of them, what stands in their place where
there are none, and which of them the loop of three surfaces says to raise."""
import os
import unittest
from pathlib import Path
from typing import Any, List, Tuple
from unittest import mock

import numpy as np
import pytest
from helpers import InFolder, Told, command, raster
from osgeo import gdal

import wundjeska
from wundjeska.loops import close_loop
from wundjeska.part_loops import Move, moves_of
from wundjeska.parts import Bounds, NoParts, read_parts
from wundjeska.planes import CYCLE, highest_weight, plane_of, session_of
from wundjeska.program import program
from wundjeska.report_reader import NODATA, BrokenLine
from wundjeska.trouble import Trouble

# A full turn about four pixels. Edges weigh 255 above and at the left, 51 at the right and below, so that the least surface departs at
# one of these, and the face is 51. Margins are 255 - 51 = 204 at the edges of weight 255, and 0 at the others.
TURN = np.array([[0, 0.25], [0.75, 0.5]]) * 2 * np.pi
TURN_COHERENCE = np.array([[1, 1], [1, 0.2]])
JOINED, NONE = [[1, 1], [1, 0]], [[0, 0], [0, 0]]
TURN_PARTS = (  # margin, least component, parts; 0.8 of 255 is 204
    (0.79, 1, [[1, 1], [1, 2]]),
    (0.79, 2, JOINED),
    (0.79, 3, JOINED),
    (0.79, 4, NONE),
    (0.8, 1, [[1, 2], [3, 4]]),
    (0.8, 2, NONE),
    (0, 2, JOINED),
    (None, None, NONE),  # 4 pixels are fewer than 100
)
GRID = b"ncols 2\nnrows 1\nxllcorner 0\nyllcorner 0\ncellsize 1\nNODATA_value -9223372036854775808\n"
SHAPE = (30, 40)
LACKING = """#!/bin/sh
case $1 in parts) cat >/dev/null; echo words refused >&2; exit 2 ;; *) exec {program} "$@" ;; esac
"""


def slope() -> np.ndarray:
    """Wrapped phases of a slope, in radians, with a river in the middle."""
    y, x = np.mgrid[: SHAPE[0], : SHAPE[1]]
    phase = np.angle(np.exp(1j * (0.4 * x + 0.3 * y)))
    phase[:, 15] = np.nan
    return phase


class Older(InFolder):
    """What is done with a program that has no command `parts`."""

    def use_older(self) -> None:
        path = self.folder / "older"
        path.write_text(LACKING.format(program=program()))
        path.chmod(0o755)
        changed = mock.patch.dict(os.environ, {"UNWRAP": str(path)})
        changed.start()
        self.addCleanup(changed.stop)


class Arrays(Older):
    def test_a_turn(self) -> None:
        for margin, least, wanted in TURN_PARTS:
            found = wundjeska.unwrap(TURN, TURN_COHERENCE, filter=None, margin=margin, least_component=least)
            self.assertEqual(found.components.tolist(), wanted, (margin, least))
            assert found.parts is not None
            self.assertEqual(found.parts.labels.tolist(), wanted)
            self.assertEqual(found.parts.share, sum(found.parts.sizes) / 4)

    def test_the_larger_part_is_the_first(self) -> None:
        phase, components = wundjeska.unwrap(slope())
        self.assertEqual([int(components[0, x]) for x in (0, 15, 16)], [2, 0, 1])
        self.assertEqual((phase.shape, components.dtype), (SHAPE, np.uint32))
        few = wundjeska.unwrap(slope(), least_component=15 * 30 + 1)
        self.assertEqual([int(few.components[0, x]) for x in (0, 15, 16)], [0, 0, 1])
        self.assertEqual(few.mask_components.max(), 1)

    def test_tiles_have_none(self) -> None:
        found = wundjeska.unwrap(TURN, TURN_COHERENCE, filter=None, tile=2)
        self.assertEqual((found.parts, found.components.tolist()), (None, [[1, 1], [1, 1]]))
        with self.assertRaisesRegex(Trouble, "^margin wants the whole raster at once"):
            wundjeska.unwrap(TURN, tile=2, margin=0.1)

    def test_an_older_program(self) -> None:
        self.use_older()
        found = wundjeska.unwrap(TURN, TURN_COHERENCE, filter=None)
        with self.assertRaisesRegex(NoParts, "^.*/older has no command `parts`.* newer program has it$"):
            found.parts
        with pytest.warns(wundjeska.Caution, match="components are those of the mask$"):
            self.assertEqual(found.components.tolist(), [[1, 1], [1, 1]])

    def test_what_is_no_output_of_the_program(self) -> None:
        text = b"parts 1 3 2\npart 0 0 2\n" + GRID + b"1 1\n"
        found = read_parts(text, (1, 2), Bounds(0.1, 2), 30)
        self.assertEqual((found.labels.tolist(), found.sizes.tolist(), found.margin), ([[1, 1]], [2], 3))
        for broken in (text.replace(b"0 0 2", b"0 0 1"), text.replace(b"1 1\n", b"1 2\n"), text.replace(b"1 1\n", b"-1 1\n")):
            self.assertRaisesRegex(Trouble, "sizes are not", read_parts, broken, (1, 2), Bounds(), 30)
        for broken in (text[:-1], text + b"x", text.replace(b"part 0", b"part 00"), b""):
            self.assertRaises(BrokenLine, read_parts, broken, (1, 2), Bounds(), 30)

    def test_parts_that_are_smaller_than_was_asked_for(self) -> None:
        """The program's least size has a limit, and parts of large rasters have none."""
        text = b"parts 2 3 1\npart 0 0 1\npart 1 0 2\n" + GRID.replace(b"ncols 2", b"ncols 3") + b"1 2 2\n"
        for least, labels, sizes in ((1, [2, 1, 1], [2, 1]), (2, [0, 1, 1], [2]), (3, [0, 0, 0], [])):
            found = read_parts(text, (1, 3), Bounds(0.1, least), 30)
            self.assertEqual((found.labels.tolist(), found.sizes.tolist()), ([labels], sizes))

    def test_what_a_margin_is_a_share_of(self) -> None:
        """8 is the weight by looks of a coherence of 0, whose variance is pi^2 / 3: of half a radian it is 8 pi^2 / 3 / 0.25."""
        for looks, unit in ((None, 255), (8, 105)):
            found = wundjeska.unwrap(slope(), np.full(SHAPE, 0.7), looks, margin=0.2).parts
            assert found is not None
            self.assertEqual((found.unit, found.margin, found.labels[0, 16]), (unit, unit // 5, 1))

    def test_the_highest_weight(self) -> None:
        ones = np.ones((1, 2), dtype=np.uint16)
        for highest in (255, 9, 65535):
            self.assertEqual(highest_weight(session_of(ones, ones, ones > 0, highest=highest)), highest)
        self.assertEqual(highest_weight(plane_of(ones, CYCLE - 1) + b"end\n"), 1)


class Commands(Older):
    def setUp(self) -> None:
        super().setUp()
        self.made, self.components = self.folder / "made.tif", self.folder / "components.tif"
        self.phase = raster(self.folder / "phase.tif", slope())

    def run_on(self, *words: object) -> Told:
        return command("wundjeska", self.phase, *words, self.made)

    def numbers(self, name: str) -> Tuple[List[int], str]:
        """The numbers in a row of a raster left of the river, in it and beyond, and what it says of its content."""
        found = gdal.Open(str(self.folder / name))
        return found.ReadAsArray()[3, [0, 15, 39]].tolist(), found.GetMetadataItem("WUNDJESKA_CONTENT")

    def test_what_is_written(self) -> None:
        names = {name: self.folder / f"{name}.tif" for name in ("components", "parts", "mask-components")}
        page, session, report = (self.folder / name for name in ("page.html", "session", "report"))
        kept = ("--page", page, "--session", session, "--report", report)
        status, told = self.run_on(*(word for name in names for word in (f"--{name}", names[name])), *kept)
        self.assertEqual(status, 0, told)
        self.assertIn("2 certain parts with 100.00 % of the open pixels at a margin of 20 (0.08 of 255)", told)
        kinds = {name: self.numbers(f"{name}.tif") for name in names}
        self.assertEqual({name: numbers for name, (numbers, _) in kinds.items()}, dict.fromkeys(names, [2, 0, 1]))
        self.assertEqual(kinds["components"], kinds["parts"])
        self.assertTrue(kinds["parts"][1].startswith("certain parts by falling size: inside each all surfaces of the filtered phase"))
        self.assertEqual(kinds["mask-components"][1], "connected components of the mask by falling size")
        note = gdal.Open(str(self.made)).GetMetadataItem("WUNDJESKA_PARTS")
        self.assertTrue(note.startswith("2 certain parts"), note)
        for words in ("<h3>Certain parts</h3>", "that is proved, and not that they are true"):
            self.assertIn(words, page.read_text())
        self.assertEqual(command("page.py", session, report, "--margin", 1, page)[0], 0)
        self.assertIn("No certain parts at a margin of 255 (1 of 255)", page.read_text())

    def test_what_stands_in_their_place(self) -> None:
        status, told = self.run_on("--components", self.components, "--tile", 16)
        self.assertEqual((status, "components of the mask, since tiles have no certain parts" in told), (0, True), told)
        self.assertEqual(self.numbers("components.tif"), ([2, 0, 1], "connected components of the mask by falling size"))
        self.use_older()
        status, told = self.run_on("--components", self.components)
        self.assertEqual((status, "warning: " in told, "has no command `parts`" in told), (0, True, True), told)
        self.assertEqual(self.numbers("components.tif"), ([2, 0, 1], "connected components of the mask by falling size"))

    def test_mistakes(self) -> None:
        parts = self.folder / "parts.tif"
        wrong: List[Tuple[Tuple[object, ...], str]] = [
            (("--margin", 1.5), "--margin is from 0 to 1"),
            (("--margin", "nan"), "--margin is from 0 to 1"),
            (("--margin", 0.1, "--tile", 64), "--margin wants the whole"),
            (("--parts", parts, "--no-whole"), "--parts wants the whole"),
            (("--parts", self.phase), "input"),
            (("--components", parts, "--parts", parts), "two outputs"),
        ]
        for words, line in wrong:
            status, told = self.run_on(*words)
            self.assertEqual((status, told.count("\n"), line in told), (2, 1, True), told)
        self.use_older()
        status, told = self.run_on("--parts", parts)
        self.assertEqual((status, told.count("\n"), "no command `parts`" in told), (2, 1, True), told)
        self.assertFalse(self.made.exists() or parts.exists())


# Three surfaces of 30 by 40 pixels, each of a left part of 15 columns (2) and a right one (1); the first has one part alone.
LEFT = np.zeros(SHAPE, dtype=bool)
LEFT[:, :15] = True
LOW = LEFT & (np.arange(SHAPE[0])[:, None] >= 20)
ONE, TWO = np.ones(SHAPE, dtype=np.int64), np.where(LEFT, 2, 1)
CASES: Tuple[Tuple[Any, Any, Any, int], ...] = (  # cycles of the left part of each surface too many, parts of each, and what is raised: surface, part, cycles, pixels
    ((0, 0, 1), (ONE, ONE, TWO), [(2, 2, -1, 450)], 0),
    ((0, -2, 0), (ONE, TWO, ONE), [(1, 2, 2, 450)], 0),
    ((1, 0, 0), (TWO, ONE, np.where(LEFT, 0, 1)), [(0, 2, -1, 450)], 0),
    ((0, 0, 1), (ONE, TWO, TWO), [], 1),  # the second may be meant as well
    ((0, 0, 1), (ONE, ONE, ONE), [], 0),  # most of the one part closes
    ((0, 0, 0), (TWO, TWO, TWO), [], 0),
    ((0, 0, 2), (ONE, ONE, ONE + LEFT + LOW), [(2, 2, -2, 300), (2, 3, -2, 150)], 0),
    ((0, 0, 2), (ONE, TWO, ONE + LEFT + LOW), [], 1),  # 300 pixels are more than half of the 450 that the second's part closes
)


class Loops(unittest.TestCase):
    def test_which_parts_are_raised(self) -> None:
        for cycles, parts, raised, doubted in CASES:
            surfaces = [np.where(LEFT, CYCLE * number, 0) for number in cycles]
            found = moves_of(close_loop(surfaces, "a case"), parts)
            self.assertEqual(list(found.raised), [Move(*move) for move in raised], cycles)
            self.assertEqual(len(found.doubted), doubted)

    def test_masked_pixels_and_noise_do_not_count(self) -> None:
        third = np.where(LEFT, CYCLE, 0)
        third[::2, ::2] += 3 * CYCLE
        third[:, 20:] = NODATA
        first = np.zeros(SHAPE, dtype=np.int64)
        found = moves_of(close_loop([first, first, third], "noise"), (ONE, ONE, TWO))
        self.assertEqual([(move.surface, move.part, move.cycles) for move in found.raised], [(2, 2, -1)])


class Closures(InFolder):
    def setUp(self) -> None:
        super().setUp()
        self.made = self.folder / "misclosed.tif"
        y, x = np.mgrid[: SHAPE[0], : SHAPE[1]]
        surfaces = [0.31 * x, 0.11 * y, 0.31 * x + 0.11 * y + LEFT]
        self.surfaces = [raster(self.folder / f"{name}.tif", values, gdal.GDT_Float64) for name, values in zip("abc", surfaces)]
        kinds = {"d": ONE, "e": ONE, "f": TWO}
        self.parts = [raster(self.folder / f"{name}.tif", values, gdal.GDT_UInt32, 0) for name, values in kinds.items()]
        self.right = 0.31 * x + 0.11 * y

    def run_on(self, *words: object, parts: Any = None) -> Told:
        return command("closure.py", *self.surfaces, "--unit", "cycles", "--parts", *(parts or self.parts), *words, self.made)

    def test_parts_are_raised_beside(self) -> None:
        outputs, page = [self.folder / f"raised {number}.tif" for number in range(3)], self.folder / "page.html"
        stood = [Path(path).read_bytes() for path in self.surfaces]
        status, told = self.run_on("--correct-parts", *outputs, "--page", page)
        self.assertEqual(status, 0, told)
        line = "the loop says to raise part 2 of the third surface by -1: 450 more pixels close"
        for text in (line, "with these parts raised 1200 pixels have a closure, none is misclosed", "no proof or certificate"):
            self.assertIn(text, told)
        self.assertIn(line, page.read_text())
        made = [gdal.Open(str(path)) for path in outputs]
        np.testing.assert_allclose(made[2].ReadAsArray(), self.right, atol=1e-5)
        np.testing.assert_allclose(made[0].ReadAsArray(), gdal.Open(self.surfaces[0]).ReadAsArray(), atol=1e-5)
        for found in made:
            self.assertIn("no proof or certificate", found.GetMetadataItem("WUNDJESKA_VERDICT"))
        self.assertEqual([Path(path).read_bytes() for path in self.surfaces], stood)

    def test_mistakes(self) -> None:
        other = raster(self.folder / "other.tif", np.full(SHAPE, 0.5))
        small = raster(self.folder / "small.tif", ONE[:, 1:], gdal.GDT_UInt32, 0)
        mask = raster(self.folder / "mask.tif", ONE, gdal.GDT_UInt32, 0)
        told_so = gdal.Open(mask, gdal.GA_Update)
        told_so.SetMetadataItem("WUNDJESKA_CONTENT", "connected components of the mask by falling size")
        told_so.FlushCache()
        first, second, _ = self.parts
        for last, line in ((other, "whole ones"), (small, "39 by 30 pixels"), (mask, "no certain parts"), ("none.tif", "none.tif")):
            status, told = self.run_on(parts=(first, second, last))
            self.assertEqual((status != 0, told.count("\n"), line in told), (True, 1, True), told)
        for last, line in ((mask, "warning: "), (self.parts[2], "part 2 of the third surface")):
            status, told = command("closure.py", *self.surfaces, "--unit", "cycles", "--components", first, second, last, self.made)
            self.assertEqual((status, line in told), (0, True), told)
        self.made.unlink()
        outputs = [self.folder / "first.tif", self.folder / "second.tif", self.parts[2]]
        status, told = self.run_on("--correct-parts", *outputs)
        self.assertEqual((status, told.count("\n"), "input" in told), (2, 1, True), told)
        status, told = command("closure.py", *self.surfaces, "--unit", "cycles", "--correct-parts", *outputs, self.made)
        self.assertEqual((status, told.count("\n"), "wants --parts" in told), (2, 1, True), told)
        self.assertFalse(self.made.exists())


if __name__ == "__main__":
    unittest.main()
