"""Tests of the verdict in words: what is measured of a surface, what is said of it, and where."""
import unittest
import warnings
from typing import Any, Dict, Set, Tuple

import numpy as np
import pytest
from helpers import TOP, InFolder, command, raster
from osgeo import gdal

import wundjeska
from wundjeska import concerns
from wundjeska.concerns import (
    LONG_GUIDE_LINE,
    LONG_LINE,
    Concern,
    Guide,
    judgement_of,
    lines_of,
    note_of,
    read_note,
    residue_share,
    signs_of,
)
from wundjeska.planes import CYCLE, phases_of
from wundjeska.program import Problem
from wundjeska.report_reader import NODATA, Surface

KIT = TOP / "recipes/kit"
ROWS, COLUMNS = np.mgrid[0:96, 0:120]
RAMP = 0.4 * COLUMNS + 0.3 * ROWS
PROVED = "the least cost was proved, and not that the surface is true"


def noise(seed: int, shape: Tuple[int, int] = (96, 120)) -> np.ndarray:
    return np.random.default_rng(seed).uniform(-np.pi, np.pi, shape)


def unwrapped(*arrays: Any, **words: Any) -> wundjeska.Unwrapped:
    """A surface without a filter, if none is named."""
    words.setdefault("filter", None)
    with warnings.catch_warnings():
        warnings.simplefilter("ignore", wundjeska.Caution)
        return wundjeska.unwrap(*arrays, **words)


def rupture() -> Tuple[np.ndarray, np.ndarray]:
    """A phase of two cycles across a line that ends inside, and a coherence that knows nothing of it."""
    across = np.sign(ROWS - 47.5) * np.clip(1 - np.abs(COLUMNS - 60) / 45, 0, 1)
    phase = 2 * np.pi * across * np.exp(-np.abs(ROWS - 47.5) / 30) + 0.3 * noise(3)
    return np.angle(np.exp(1j * phase)), np.full(phase.shape, 0.8)


def surface_of(values: np.ndarray) -> Surface:
    return Surface(1, 0, 0, 0, values, [], np.zeros(0, dtype=np.int64))


class Measures(unittest.TestCase):
    def test_differences_wrap_about_a_slope(self) -> None:
        phase = np.random.default_rng(1).integers(0, CYCLE, (20, 30)).astype(np.uint16)
        for axis in (0, 1):
            for slope in (0, 1, -1, 20000, 32767, -32768):
                found = concerns.wrapped_differences(phase, axis, slope)
                rises = np.diff(phase.astype(np.int64), axis=axis)
                self.assertTrue(((found - rises) % CYCLE == 0).all())
                self.assertTrue((found >= slope - 32768).all() and (found <= slope + 32767).all())

    def test_residues_are_counted_by_cells(self) -> None:
        random = np.random.default_rng(2)
        phase, opened = random.integers(0, CYCLE, (30, 40)).astype(np.uint16), random.random((30, 40)) < 0.9
        found, cells = 0, 0
        for y, x in np.ndindex(29, 39):
            ring = [(y, x), (y, x + 1), (y + 1, x + 1), (y + 1, x), (y, x)]
            if all(opened[place] for place in ring):
                steps = [int(phase[b]) - int(phase[a]) for a, b in zip(ring, ring[1:])]
                cells += 1
                found += sum((step + 32768) % CYCLE - 32768 for step in steps) != 0
        self.assertEqual(residue_share(phase, opened), found / cells)

    def test_noise_has_a_third(self) -> None:
        phase = phases_of(noise(1, (300, 300)))
        self.assertAlmostEqual(residue_share(phase, np.ones(phase.shape, dtype=bool)), 1 / 3, delta=0.01)

    def test_few_cells_tell_nothing(self) -> None:
        turn = np.array([[0, 16384], [49152, 32768]], dtype=np.uint16)
        self.assertEqual(residue_share(turn, np.ones((2, 2), dtype=bool)), 0)

    def test_lines_are_what_walks_along_corners_find(self) -> None:
        random = np.random.default_rng(4)
        for _ in range(20):
            values = CYCLE * (random.random((12, 15)) < 0.15).astype(np.int64)
            values[random.random(values.shape) < 0.1] = NODATA
            found = lines_of(surface_of(values), np.zeros(values.shape, dtype=np.uint16))
            self.assertEqual(found.longest, walked(values))

    def test_a_line_and_its_box(self) -> None:
        values = np.zeros((60, 70), dtype=np.int64)
        values[20:, 10:50] += CYCLE
        found = lines_of(surface_of(values), np.zeros(values.shape, dtype=np.uint16))
        self.assertEqual((found.count, found.longest, found.box), (1, 40, (9, 19, 50, 59)))
        values[:] = 0
        self.assertEqual(lines_of(surface_of(values), np.zeros(values.shape, dtype=np.uint16)).longest, 0)

    def test_cuts_through_noise_are_no_long_lines(self) -> None:
        for seed in range(3):
            phase = noise(seed, (256, 256))
            found = unwrapped(phase)
            longest = lines_of(surface_of(found.values), phases_of(phase)).longest
            self.assertTrue(2 < longest < LONG_LINE / 2, longest)


def walked(values: np.ndarray) -> int:
    """The longer extent of the largest set of edges at which values differ, by walks from corner to corner."""
    edges: Set[Tuple[Tuple[int, int], Tuple[int, int]]] = set()
    for y, x in np.ndindex(*values.shape):
        for there, ends in (((y, x + 1), ((y, x + 1), (y + 1, x + 1))), ((y + 1, x), ((y + 1, x), (y + 1, x + 1)))):
            if there[0] < len(values) and there[1] < values.shape[1] and NODATA not in (values[y, x], values[there]):
                edges |= {ends} if values[y, x] != values[there] else set()
    left, longest = set(edges), 0
    while left:
        reached, waiting = set(), [next(iter(left))[0]]
        while waiting:
            corner = waiting.pop()
            here = {edge for edge in left if corner in edge}
            left -= here
            reached |= {end for edge in here for end in edge} | {corner}
            waiting += [end for edge in here for end in edge if end != corner]
        rows, columns = zip(*reached)
        longest = max(longest, max(rows) - min(rows), max(columns) - min(columns))
    return longest


class WhatIsSaid(unittest.TestCase):
    def bad(self, *arrays: Any, **words: Any) -> Tuple[str, ...]:
        return tuple(concern.kind for concern in unwrapped(*arrays, **words).concerns if concern.is_bad)

    def test_nothing_of_a_sound_scene(self) -> None:
        ways: Tuple[Tuple[Dict[str, Any], str], ...] = (({"filter": None}, ""), ({}, ", of the guide alone"))
        for words, guide in ways:
            with warnings.catch_warnings():
                warnings.simplefilter("error")
                found = wundjeska.unwrap(np.exp(1j * RAMP), np.full(RAMP.shape, 0.8), **words)
            self.assertEqual((found.concerns, found.judgement), ((), f"{PROVED[:25]}{guide}{PROVED[25:]}"))
            tiled = wundjeska.unwrap(np.exp(1j * RAMP), tile=32, **words)
            self.assertEqual(tiled.judgement, f"{PROVED[:25]}, in each tile and at the seams{guide}{PROVED[25:]}")
            self.assertIn("nothing certifies", wundjeska.unwrap(np.exp(1j * RAMP), check=False, **words).judgement)

    def test_noise(self) -> None:
        with pytest.warns(wundjeska.Caution, match="of the cells have a residue"):
            found = wundjeska.unwrap(noise(1), filter=None)
        self.assertEqual([concern.kind for concern in found.concerns], ["residues"])
        self.assertEqual(found.judgement, f"1 sign that the surface may be wrong; {PROVED}")

    def test_residues_after_a_filter(self) -> None:
        """Those of noise about fringes are no sign, since the filter takes them away; of noise alone it leaves many."""
        with warnings.catch_warnings():
            warnings.simplefilter("error")
            found = wundjeska.unwrap(np.exp(1j * (RAMP + 0.65 * noise(1))))
        self.assertEqual([(concern.kind, concern.is_bad) for concern in found.concerns], [("residues", False)])
        self.assertRegex(str(found.concerns[0]), "^17[0-9.]+ % of the cells have a residue, and 0.00 % after the filter$")
        with pytest.warns(wundjeska.Caution, match="the filter has broken down"):
            found = wundjeska.unwrap(noise(1))
        self.assertEqual([(concern.kind, concern.is_bad) for concern in found.concerns][:1], [("filter", True)])

    def test_a_rupture(self) -> None:
        found = unwrapped(*rupture())
        self.assertEqual([concern.kind for concern in found.concerns], ["lines"])
        self.assertRegex(
            str(found.concerns[0]), "jumps along .* pixels in columns [0-9]+ to [0-9]+, rows 4[0-9] to [45][0-9]: "
        )

    def test_lines_after_a_filter_are_those_of_the_guide(self) -> None:
        phase, flat = np.zeros((90, 100), dtype=np.uint16), np.zeros((90, 100), dtype=np.int64)
        for wide, count in ((LONG_GUIDE_LINE, 1), (LONG_GUIDE_LINE - 1, 0)):
            values = flat.copy()
            values[45:, :wide] += CYCLE
            guide = Guide(surface_of(values), phase)
            found = signs_of(phase, phase + np.uint16(1), surface_of(flat), Problem("least", None), guide)
            self.assertEqual((found.lines.count, found.lines.longest), (count, wide))
            self.assertEqual(sum(concern.kind == "lines" for concern in found.concerns()), count)

    def test_seams_that_cost_more_than_a_tenth(self) -> None:
        phase, coherence = rupture()
        found = unwrapped(phase, coherence, tile=16)
        self.assertGreater(found.seam_cost, found.tile_cost / 10)
        self.assertIn("seams", [concern.kind for concern in found.concerns if concern.is_bad])
        self.assertNotIn("seams", self.bad(phase, coherence))

    def test_a_phase_that_is_0(self) -> None:
        phase = np.angle(np.exp(1j * RAMP))
        self.assertEqual(self.bad(np.where(COLUMNS < 2, 0, phase)), ("zeros",))
        self.assertEqual(self.bad(np.where((COLUMNS < 2) & (ROWS < 48), 0, phase)), ())
        self.assertEqual(self.bad(np.where(COLUMNS < 2, 0, phase), nodata=0), ())

    def test_a_slope_near_half_a_cycle(self) -> None:
        random = np.random.default_rng(5)
        for slopes, kinds in (((0.45, 0.0), ("slope",)), ((-0.1, -0.4), ("slope",)), ((0.25, -0.25), ())):
            cycles = slopes[0] * COLUMNS + slopes[1] * ROWS + 0.01 * random.normal(size=ROWS.shape)
            igram = np.exp(2j * np.pi * cycles)
            self.assertEqual(self.bad(igram), kinds)
            found = unwrapped(igram, ramp="auto")
            self.assertEqual(
                [(concern.kind, concern.is_bad) for concern in found.concerns], [(k, False) for k in kinds]
            )
            self.assertEqual(found.judgement, PROVED)

    def test_parts_that_do_not_touch(self) -> None:
        igram, mask = np.exp(1j * RAMP), np.ones(RAMP.shape)
        mask[:, 40] = 0
        self.assertEqual(self.bad(igram, mask=mask), ("parts",))
        mask[:], mask[4:9, 4], mask[4:9, 8], mask[4, 4:9], mask[8, 4:9] = 1, 0, 0, 0, 0
        found = unwrapped(igram, mask=mask)
        self.assertEqual([(concern.kind, concern.is_bad) for concern in found.concerns], [("parts", False)])

    def test_the_bad_ones_come_first(self) -> None:
        mask = np.ones(RAMP.shape)
        mask[4:9, 4], mask[4:9, 8], mask[4, 4:9], mask[8, 4:9] = 0, 0, 0, 0
        found = unwrapped(noise(1), mask=mask).concerns
        self.assertEqual([(concern.kind, concern.is_bad) for concern in found], [("residues", True), ("parts", False)])

    def test_a_note_is_read_as_it_was_written(self) -> None:
        found = (Concern("lines", "a: b; c | d".replace(" | ", ", ")), Concern("parts", "e", False))
        self.assertEqual(read_note(note_of(found)), found)
        self.assertEqual((note_of(()), read_note("none"), read_note("")), ("none", (), ()))
        self.assertTrue(judgement_of(found, True, True).startswith("1 sign that"))


class Commands(InFolder):
    def told(self, *words: object) -> Tuple[str, str, str]:
        """What the command writes without a filter, if none is named, and the notes on residues and concerns of its GeoTIFF."""
        made = self.folder / "made.tif"
        status, told = command("wundjeska", "unwrap", "--no-filter", *words, made)
        self.assertEqual(status, 0, told)
        notes = gdal.Open(str(made)).GetMetadata()
        return told, notes["WUNDJESKA_RESIDUES"], notes["WUNDJESKA_CONCERNS"]

    def test_a_sound_scene(self) -> None:
        told, residues, note = self.told(KIT / "phase.tif", "--coherence", KIT / "coherence.tif")
        self.assertRegex(
            told, r"made.tif: accepted, 128 by 104 pixels, .* component, 0\.50 % residues, cost [0-9]+, the least"
        )
        self.assertTrue(told.endswith(f"made.tif: {PROVED}\n{self.folder / 'made.tif'}: filter none\n"), told)
        self.assertEqual((residues, note), ("0.50 % of the cells", "none"))

    def test_a_file_that_is_read_by_a_wrong_width(self) -> None:
        path = self.folder / "phase.int"
        hills = 12 * np.sin(COLUMNS / 11) * np.cos(ROWS / 13) + 0.15 * noise(3)
        np.exp(1j * hills).astype("<c8").tofile(path)
        self.assertEqual(self.told(path, "--width", 120)[2], "none")
        told, _, note = self.told(path, "--width", 90)
        self.assertRegex(told, r"accepted with 1 concern, 90 by 128 pixels")
        self.assertRegex(told, r"made.tif: concern: [0-9.]+ % of the cells have a residue")
        self.assertEqual([concern.kind for concern in read_note(note)], ["residues"])
        told, _, note = self.told(path, "--width", 90, "--filter", "fourier")
        self.assertRegex(told, r"made.tif: concern: [0-9.]+ % of the cells keep a residue in the filtered phase: .* wrong width")
        self.assertEqual([concern.kind for concern in read_note(note) if concern.is_bad][:1], ["filter"])

    def test_a_surface_of_a_report_is_told_the_same(self) -> None:
        phase, session, report = (self.folder / name for name in ("phase.tif", "session", "report"))
        raster(phase, noise(4))
        _, _, note = self.told(phase, "--session", session, "--report", report, "--tile", 32)
        made = self.folder / "again.tif"
        words = (report, "--session", session, "--like", phase, made)
        self.assertEqual(command("to_geotiff.py", *words)[0], 0)
        self.assertEqual(gdal.Open(str(made)).GetMetadataItem("WUNDJESKA_CONCERNS"), note)
        self.assertIn("residues (bad): ", note)


if __name__ == "__main__":
    unittest.main()
