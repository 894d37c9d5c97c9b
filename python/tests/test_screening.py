"""Tests first masks by a rule: the words, why pixels are dropped, that the program's mask is the rule's, and what is told."""
import base64
import math
import os
import re
import subprocess
import unittest
from dataclasses import replace
from typing import List, Tuple
from unittest import mock

import numpy as np
from helpers import HERE, InFolder, argv, command, raster
from osgeo import gdal

import wundjeska
from wundjeska import screening
from wundjeska.commands.page import DROPPED
from wundjeska.planes import TILED_LIMITS, ramp_in, read_session, session_of
from wundjeska.program import program, run_program
from wundjeska.screening import (
    ISLAND,
    LONELY,
    MASKED,
    STAYS,
    WEAK,
    Terms,
    checked,
    fates_of,
    read_word,
    screened,
    screened_by,
    terms_in,
)
from wundjeska.trouble import Trouble

PHASE, COHERENCE = HERE / "kit/phase.tif", HERE / "kit/coherence.tif"
PARTS = "coherence=0.6,radius=2,count=20,patch=300"
TERMS = Terms(153, 2, 20, 300)
NO_VALUE = -9999


def patch_of(passes: np.ndarray, place: Tuple[int, int]) -> int:
    """How many pixels a walk through passing pixels joins with this one."""
    seen, left = {place}, [place]
    while left:
        y, x = left.pop()
        for near in ((y + 1, x), (y - 1, x), (y, x + 1), (y, x - 1)):
            if (
                near not in seen
                and min(near) >= 0
                and near[0] < len(passes)
                and near[1] < len(passes[0])
                and passes[near]
            ):
                seen.add(near)
                left.append(near)
    return len(seen)


def fates_by_hand(weights: np.ndarray, opened: np.ndarray, terms: Terms) -> np.ndarray:
    """The same as fates_of, pixel by pixel as the rule is told."""
    strong = opened & (weights >= terms.weight)
    fates = np.full(opened.shape, MASKED)
    fates[opened] = WEAK
    passes = np.zeros_like(opened)
    for y, x in zip(*np.nonzero(strong)):
        r = terms.radius
        near = strong[max(0, y - r) : y + r + 1, max(0, x - r) : x + r + 1].sum()
        passes[y, x] = near >= terms.count
        fates[y, x] = LONELY
    for y, x in zip(*np.nonzero(passes)):
        fates[y, x] = STAYS if patch_of(passes, (y, x)) >= terms.patch else ISLAND
    return fates


class Rule(unittest.TestCase):
    def cases(self) -> List[Tuple[np.ndarray, np.ndarray, Terms]]:
        """Random weights and masks, from one pixel on, with random terms."""
        dice = np.random.default_rng(3)
        found = []
        for _ in range(60):
            height, width = dice.integers(1, 14, 2)
            terms = Terms(*(int(dice.integers(0, most)) for most in (6, 4, 1, 9)))
            terms = Terms(
                terms.weight, terms.radius, int(dice.integers(0, (2 * terms.radius + 1) ** 2 + 1)), terms.patch
            )
            found.append(
                (dice.integers(0, 7, (height, width)).astype(np.uint16), dice.random((height, width)) < 0.8, terms)
            )
        return found

    def test_the_fates_are_those_of_the_rule(self) -> None:
        for weights, opened, terms in self.cases():
            np.testing.assert_array_equal(
                fates_of(weights, opened, terms), fates_by_hand(weights, opened, terms), str(terms)
            )

    def test_the_mask_of_the_program_is_that_of_the_rule(self) -> None:
        for weights, opened, terms in self.cases():
            phase = weights * 1000
            before = session_of(phase, weights, opened, ramp=(7, -8))
            after = read_session(screened(before, terms, "a case"))
            np.testing.assert_array_equal(after.opened, fates_of(weights, opened, terms) == STAYS, str(terms))
            np.testing.assert_array_equal(after.phase, phase)
            np.testing.assert_array_equal(after.weights, weights)

    def test_the_mask_of_a_large_raster_is_that_of_the_program(self) -> None:
        for weights, opened, terms in self.cases():
            before = session_of(weights * 1000, weights, opened, b"analyst\nsettle\nend\n", ramp=(7, -8))
            wanted = screened(before, terms, "a case")
            with mock.patch.object(screening, "TILED_LIMITS", replace(TILED_LIMITS, pixels=0)):
                self.assertEqual(screened(before, terms, "a case"), wanted, str(terms))
                self.assertIn("by Python", screened_by(before, wanted, terms, "a case").by_terms())
            self.assertEqual(screened_by(before, wanted, terms, "a case").by_terms(), terms.told())

    def test_what_a_session_keeps(self) -> None:
        ones = np.ones((3, 4), dtype=np.uint16)
        script = b"analyst\nmask 0 0 1 1\nsettle\nunmask 0 0 0 0\nshow\nanalyst\nend\n"
        text = screened(session_of(ones, ones, ones > 0, script, ramp=(-5, 6)), TERMS, "ones")
        self.assertEqual((ramp_in(text), terms_in(text), read_session(text).script), ((-5, 6), TERMS, script))
        self.assertFalse(read_session(text).opened.any())
        text = screened(session_of(ones, ones, ones > 0), Terms(), "ones")
        self.assertEqual((ramp_in(text), terms_in(text)), (None, Terms()))
        self.assertTrue(read_session(text).opened.all())
        self.assertIsNone(terms_in(session_of(ones, ones, ones > 0)))
        self.assertIsNone(terms_in(b"P5\n2 3\n255\n# wundjeska screen 1 2 3 4\n"))
        for words in (b"", b" 1 2 3", b" 1 2 3 04", b" 1 65 3 4", b" 1 2 3 4\n# wundjeska screen 1 2 3 5"):
            self.assertRaises(Trouble, terms_in, b"P5\n# wundjeska screen" + words + b"\n2 3\n255\n")


class Words(unittest.TestCase):
    def test_what_is_read(self) -> None:
        self.assertEqual(read_word(PARTS).of(None), TERMS)
        self.assertEqual(read_word("weight=20").of(None), Terms(20))
        self.assertEqual(read_word("patch=7,radius=1,count=9").of(8), Terms(0, 1, 9, 7))
        self.assertEqual(read_word("coherence=0").of(None), Terms(1))
        self.assertEqual(read_word("coherence=1").of(None), Terms(255))
        self.assertEqual(
            checked({"coherence": 0.6, "radius": 2, "count": np.int64(20), "patch": 300}), read_word(PARTS)
        )
        self.assertIsNone(checked(None))

    def test_a_coherence_is_the_weight_that_a_session_gives_it(self) -> None:
        coherence = np.linspace(0.05, 1, 20)
        for looks in (None, 1.0, 8.0):
            _, weights, _ = wundjeska.unwrapping.Arrays(np.zeros((1, 20)), coherence[None, :], None, looks).planes()
            for value, weight in zip(coherence.tolist(), weights[0].tolist()):
                self.assertEqual(read_word(f"coherence={value}").of(looks).weight, weight)

    def test_what_is_refused(self) -> None:
        for text in (
            *(
                "",
                "20",
                "weight",
                "weight=",
                "weight=-1",
                "weight=65536",
                "weight=2.5",
                "weight=20,weight=20",
                "weight=١",
            ),
            *(
                "coherence=1.01",
                "coherence=nan",
                "coherence=x",
                "coherence=0.3,weight=20",
                "radios=3",
                "weight=1, patch=2",
            ),
            *("radius=65,count=1", "radius=3", "radius=3,count=50", "count=2", "patch=4194305", "patch=True"),
        ):
            with self.subTest(text=text):
                with self.assertRaises(Trouble) as raised:
                    checked(text)
                self.assertNotIn("\n", str(raised.exception))
        for parts in ({}, {"weight": True}, {"weight": 2.5}, {"patch": None}, {"coherence": "high"}):
            self.assertRaises(Trouble, checked, parts)


class Commands(InFolder):
    def setUp(self) -> None:
        super().setUp()
        self.session, self.before, self.made = (self.folder / name for name in ("session", "before", "made.tif"))
        kit = gdal.Open(str(COHERENCE))
        coherence = kit.ReadAsArray()
        coherence[20:32, 60:72] = 0.1  # around what is left as an island
        coherence[22:30, 62:70] = 0.9
        place = kit.GetGeoTransform()
        self.kit = (PHASE, "--coherence", raster(self.folder / "coherence.tif", coherence, place=place))

    def fates(self) -> np.ndarray:
        """What becomes of the pixels."""
        self.assertEqual(command("to_session.py", *self.kit, self.folder / "plain")[0], 0)
        plain = read_session((self.folder / "plain").read_bytes())
        return fates_of(plain.weights, plain.opened, TERMS)

    def counts(self) -> Tuple[int, int, int]:
        weak, lonely, island = (int((self.fates() == why).sum()) for why in (WEAK, LONELY, ISLAND))
        self.assertTrue(weak and lonely and island)
        return weak, lonely, island

    def test_a_session(self) -> None:
        words = ("--screen", PARTS, "--ramp", "5,-6", "--unscreened", self.before, self.session)
        status, told = command("to_session.py", *self.kit, *words)
        self.assertEqual(status, 0, told)
        weak, lonely, island = self.counts()
        line = f"weight 153, radius 2, count 20, patch 300, which dropped {weak} weak, {lonely} lonely, {island} in islands ("
        self.assertIn(line, told)
        text = self.session.read_bytes()
        self.assertEqual((ramp_in(text), terms_in(text)), ((5, -6), TERMS))
        np.testing.assert_array_equal(read_session(text).opened, self.fates() == STAYS)
        plain = (self.folder / "plain").read_bytes()
        self.assertEqual(self.before.read_bytes(), plain[:3] + b"# wundjeska ramp 5 -6\n" + plain[3:])

    def test_a_script_comes_after_it(self) -> None:
        script = self.folder / "script"
        script.write_bytes(b"analyst\nunmask 0 0 127 103\nsettle\nshow\nend\n")
        self.assertEqual(command("to_session.py", *self.kit, "--screen", PARTS, "--script", script, self.session)[0], 0)
        self.assertTrue(self.session.read_bytes().endswith(script.read_bytes()))
        self.assertIn(b"published 1 1\n", run_program(["unwrap"], self.session.read_bytes(), "kit"))

    def test_a_surface(self) -> None:
        words = ("--screen", PARTS, "--session", self.session, "--report", self.folder / "report", self.made)
        status, told = command("wundjeska", *self.kit, *words)
        self.assertEqual(status, 0, told)
        weak, lonely, island = self.counts()
        self.assertIn(f"{weak} weak, {lonely} lonely, {island} in islands", told)
        self.assertIn(": accepted, ", told)
        made = gdal.Open(str(self.made))
        np.testing.assert_array_equal(made.ReadAsArray() != NO_VALUE, self.fates() == STAYS)
        self.assertEqual(made.GetMetadataItem("WUNDJESKA_SCREEN"), "weight 153, radius 2, count 20, patch 300")
        self.assertIn(f"{weak} weak", made.GetMetadataItem("WUNDJESKA_DROPPED"))
        ended = subprocess.run(argv("wundjeska", "check", self.session, self.folder / "report"), capture_output=True)
        self.assertEqual((ended.returncode, ended.stdout), (0, b"accepted\n"))

    def pictures(self, page: str) -> List[np.ndarray]:
        found = []
        for text in re.findall(r'href="data:image/png;base64,([^"]*)"', page):
            gdal.FileFromMemBuffer("/vsimem/picture.png", base64.b64decode(text))
            found.append(np.moveaxis(gdal.Open("/vsimem/picture.png").ReadAsArray(), 0, -1)[..., :3])
        return found

    def shows(self, page: str) -> None:
        """That a page shows which pixels were dropped, and why."""
        weak, lonely, island = self.counts()
        self.assertRegex(page, f"{weak} were dropped as weak .*, {lonely} as lonely .* and {island} in [0-9]+ islands")
        map_ = next(map_ for map_ in self.pictures(page) if np.all(map_ == DROPPED[WEAK], axis=-1).any())
        for why, colour in DROPPED.items():
            np.testing.assert_array_equal(np.all(map_ == colour, axis=-1), self.fates() == why)
        for words in (">weak<", ">lonely<", ">island<", ">open<", ">masked<"):
            self.assertIn(words, page)

    def test_the_page_of_a_surface(self) -> None:
        page = self.folder / "page.html"
        self.assertEqual(command("wundjeska", *self.kit, "--screen", PARTS, "--page", page, self.made)[0], 0)
        self.shows(page.read_text())

    def test_the_page_of_a_session(self) -> None:
        page, report = self.folder / "page.html", self.folder / "report"
        words = (
            "--screen",
            PARTS,
            "--unscreened",
            self.before,
            "--session",
            self.session,
            "--report",
            report,
            self.made,
        )
        self.assertEqual(command("wundjeska", *self.kit, *words)[0], 0)
        self.assertEqual(command("page.py", self.session, report, "--unscreened", self.before, page)[0], 0)
        self.shows(page.read_text())
        self.assertEqual(command("page.py", self.session, report, page)[0], 0)
        self.assertIn("screened by weight 153, radius 2, count 20, patch 300", page.read_text())
        other = self.folder / "other"
        self.assertEqual(command("to_session.py", PHASE, other)[0], 0)
        before = page.read_bytes()
        for unscreened in (other, self.session, report):
            status, told = command("page.py", self.session, report, "--unscreened", unscreened, page)
            self.assertEqual((status != 0, told.count("\n"), page.read_bytes()), (True, 1, before), told)

    def test_what_is_refused(self) -> None:
        self.assertEqual(command("wundjeska", *self.kit, self.made)[0], 0)
        stood = self.made.read_bytes()
        for words, status in (
            ((PHASE, "--screen", "coherence=0.3"), 2),
            ((*self.kit, "--screen", "coherence=3"), 2),
            ((*self.kit, "--screen", "radius=3,count=50"), 2),
            ((*self.kit, "--unscreened", self.before), 2),
            ((*self.kit, "--screen", PARTS, "--unscreened", PHASE), 2),
            ((*self.kit, "--screen", "patch=100000"), 3),
        ):
            for name in ("wundjeska", "to_session.py"):
                ended, told = command(name, *words, self.made)
                self.assertEqual((ended, told.count("\n")), (status, 1), told)
        self.assertEqual((self.made.read_bytes(), self.before.exists()), (stood, False))

    def test_a_program_that_drops_something_else_is_noticed(self) -> None:
        liar = self.folder / "liar"
        liar.write_text(
            f'#!/bin/sh\nif [ $1 = screen ]; then shift; exec {program()} screen; fi\nexec {program()} "$@"\n'
        )
        liar.chmod(0o755)
        ran = subprocess.run(
            argv("to_session.py", *self.kit, "--screen", PARTS, self.session),
            capture_output=True,
            text=True,
            env={**os.environ, "UNWRAP": str(liar)},
        )
        self.assertEqual((ran.returncode, ran.stderr.count("\n"), self.session.exists()), (1, 1, False), ran.stderr)
        self.assertIn("mask", ran.stderr)

    def test_a_screen_that_scatters_the_scene_is_told(self) -> None:
        coherence = raster(self.folder / "c.tif", np.random.default_rng(1).random((60, 60)))
        phase = raster(self.folder / "p.tif", np.zeros((60, 60)))
        status, told = command(
            "to_session.py", phase, "--coherence", coherence, "--screen", "coherence=0.5", self.session
        )
        self.assertEqual(status, 0)
        self.assertRegex(told, "warning: the mask leaves [0-9]{2,} components that do not touch, .* patch of the screen")
        status, told = command("to_session.py", phase, "--coherence", coherence, "--screen", "patch=3600", self.session)
        self.assertEqual((status, "warning" in told), (0, False))


class Arrays(unittest.TestCase):
    def test_an_array_is_screened(self) -> None:
        slope = 0.4 * np.arange(40) + 0.3 * np.arange(30)[:, None]
        coherence = np.full(slope.shape, 0.8)
        coherence[10:20, 10], coherence[:, 35] = 0.1, 0.1
        found = wundjeska.unwrap(
            np.exp(1j * slope), coherence, screen={"coherence": 0.5, "radius": 1, "count": 9, "patch": 200}
        )
        assert found.dropped is not None
        self.assertTrue((found.dropped[10:20, 10] == WEAK).all() and (found.dropped[:, 39] == LONELY).all())
        np.testing.assert_array_equal(np.isnan(found.phase), found.dropped > 0)
        np.testing.assert_array_equal(found.components > 0, found.dropped == 0)
        self.assertEqual((found.verdict, found.dropped[5, 37]), ("accepted", ISLAND))
        self.assertIsNone(wundjeska.unwrap(np.exp(1j * slope), coherence).dropped)
        for screen, given in (("coherence=0.5", None), ("patch=5000", coherence), (3, coherence)):
            with self.assertRaises(Trouble):
                wundjeska.unwrap(np.exp(1j * slope), given, screen=screen)  # type: ignore[arg-type]
        self.assertTrue(math.isnan(found.phase[0, 0]))


if __name__ == "__main__":
    unittest.main()
