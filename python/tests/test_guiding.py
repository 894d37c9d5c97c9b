"""Tests surfaces by a guide: of sessions, of `wundjeska.unwrap` and of the command. It needs the program, and GDAL for files."""
import math
import sys
import unittest
import warnings
from dataclasses import dataclass
from pathlib import Path
from typing import Any, Dict, List, Tuple

import numpy as np
from helpers import HERE, TOP, InFolder, command, raster
from osgeo import gdal

import wundjeska
from wundjeska.filtering import filtered
from wundjeska.guiding import FILTER_COMMENT, Guided, Solvers, guided
from wundjeska.nearest import how_made
from wundjeska.planes import CYCLE, phases_of, read_session, session_of, with_comments
from wundjeska.report_reader import NODATA, Surface
from wundjeska.trouble import Trouble
from wundjeska.unwrapping import Settings, Solved, solve

sys.path.append(str(TOP / "recipes/kit"))
from truth import scene_of  # type: ignore[import]  # noqa: E402

SHAPE = (64, 80)
masked: Any = np.ma.array
PHASE, COHERENCE = HERE / "kit/phase.tif", HERE / "kit/coherence.tif"


@dataclass(frozen=True)
class Given:
    """A surface that no program made."""

    surface: Surface


def slope() -> np.ndarray:
    """A surface without noise, which rises by several cycles, in 1/65536 cycle."""
    y, x = np.indices(SHAPE)
    return np.rint(CYCLE * (0.12 * x + 0.05 * y + 3e-4 * (y - 30) ** 2)).astype(np.int64)


def noisy(surface: np.ndarray, spread: float = 0.12) -> np.ndarray:
    random = np.random.default_rng(1)
    return surface + np.rint(CYCLE * random.normal(0, spread, SHAPE)).astype(np.int64)


def mask() -> np.ndarray:
    """All open but a strip that parts the raster, and a pixel."""
    opened = np.ones(SHAPE, dtype=bool)
    opened[:, 40:43], opened[10, 12] = False, False
    return opened


def session_for(surface: np.ndarray) -> bytes:
    weights = np.full(SHAPE, 200, dtype=np.uint16)
    return session_of(surface.astype(np.uint16), weights, mask(), ramp=(300, -200))


def solved(session: bytes) -> Solved:
    return solve(session, Settings(None))


SOLVERS = Solvers(solved, solved)


def by_guide(session: bytes, narrow: bool = False) -> Guided[Solved]:
    """The surface of a session without coherence."""
    return guided(session, False, SOLVERS, narrow)


def worst(off: np.ndarray) -> float:
    """The greater share of pixels that are off their part's commonest level, left and right of the strip."""
    parts = (off[:, :40][mask()[:, :40]], off[:, 43:].ravel())
    return float(max((part != np.median(part)).mean() for part in parts))


def igram_of() -> np.ndarray:
    found: np.ndarray = np.exp(2j * math.pi / CYCLE * noisy(slope(), 0.17))
    return found


def broken() -> Tuple[np.ndarray, np.ndarray]:
    """Noise about a plane that is broken along a line, which ends inside, and its coherence."""
    y, x = np.indices(SHAPE)
    moved = 0.35 * np.sqrt(np.clip(1 - ((x - 40) / 30) ** 2, 0, 1)) * np.where(y < 32, 1, -1) * np.exp(-np.abs(y - 31.5) / 40)
    noise = np.random.default_rng(2).normal(0, 0.1, SHAPE)
    return np.exp(2j * math.pi * (moved + noise)), np.full(SHAPE, 0.8)


class Guiding(unittest.TestCase):
    def test_the_guide_is_of_the_filtered_session(self) -> None:
        text = session_for(noisy(slope()))
        planes = read_session(text)
        asked: List[bytes] = []
        guide = np.where(planes.opened, slope(), NODATA)

        def given(session: bytes) -> Given:
            asked.append(session)
            return Given(Surface(0, 0, 0, 0, guide, [], np.zeros(0)))

        found = guided(text, True, Solvers(given, given))
        smooth, session = filtered(planes.phase, planes.opened, planes.weights), read_session(asked[0])
        np.testing.assert_array_equal(session.phase, smooth.phase)
        np.testing.assert_array_equal(session.weights, smooth.weights)
        np.testing.assert_array_equal(session.opened, planes.opened)
        self.assertEqual((asked, session.ramp, FILTER_COMMENT in asked[0]), ([found.session, text], (300, -200), True))
        self.assertLessEqual(np.abs(found.values - guide)[planes.opened].max(), CYCLE // 2)

    def test_comments_of_a_session_stay(self) -> None:
        comments = b"# wundjeska screen 9 2 14 300\n"
        found = by_guide(with_comments(session_for(slope()), comments))
        self.assertTrue(found.session.startswith(b"P5\n" + comments + b"# wundjeska ramp 300 -200\n" + FILTER_COMMENT))

    def test_the_surface_is_congruent_and_right_where_the_noise_is_not_great(self) -> None:
        true, opened = noisy(slope()), mask()
        for narrow in (False, True):
            found = guided(session_for(true), True, SOLVERS, narrow)
            off = found.values - true
            self.assertEqual(found.guide.verdict, "accepted")
            self.assertTrue((off[opened] % CYCLE == 0).all() and (found.values[~opened] == NODATA).all())
            self.assertLess(worst(off), 0.001)

    def wrong_at_a_cone(self, radius: float, slope_: float, narrow: bool) -> float:
        """How many pixels left of the strip are wrong by a guide, about a cone of this radius and slope."""
        y, x = np.indices(SHAPE)
        cone = np.rint(CYCLE * slope_ * np.maximum(radius - np.hypot(y - 30, x - 20), 0)).astype(np.int64)
        true = noisy(slope() // 8 + cone, 0.02)
        return worst(by_guide(session_for(true), narrow).values - true) * 40 * 64

    def test_a_cone_of_twelve_pixels_is_found_by_its_local_slopes(self) -> None:
        self.assertLess(self.wrong_at_a_cone(6, 0.38, False), 5)

    def test_a_cone_of_nine_steep_pixels_is_found_by_narrow(self) -> None:
        self.assertGreater(self.wrong_at_a_cone(4.5, 0.45, False), 16)
        self.assertLess(self.wrong_at_a_cone(4.5, 0.45, True), 5)


class Arrays(unittest.TestCase):
    def setUp(self) -> None:
        warnings.simplefilter("ignore", wundjeska.Caution)
        self.addCleanup(warnings.resetwarnings)

    def unwrapped(self, **words: Any) -> Tuple[wundjeska.Unwrapped, np.ndarray]:
        """What is made of noisy fringes, and its whole cycles beside the phase, which have to be whole."""
        igram = igram_of()
        found = wundjeska.unwrap(igram, np.full(SHAPE, 0.8), mask=mask(), **words)
        return found, found.values - phases_of(igram)

    def test_each_surface_is_congruent(self) -> None:
        screen = {"weight": 9, "patch": 9}
        ways: List[Dict[str, Any]] = [
            {},
            {"tile": 32},
            {"narrow": True},
            {"ramp": "auto"},
            {"screen": screen},
            {"check": False},
            {"looks": 4, "narrow": True},
        ]
        for words in ways:
            found, off = self.unwrapped(**words)
            self.assertTrue((off[mask()] % CYCLE == 0).all(), words)
            self.assertEqual(found.chain.filter, "fourier")
            self.assertEqual(found.verdict, "not checked" if "check" in words else "accepted")
            self.assertTrue(np.isnan(found.phase[~mask()]).all())

    def test_the_default_is_the_filter(self) -> None:
        default, plain = self.unwrapped()[0], self.unwrapped(filter=None)[0]
        np.testing.assert_array_equal(default.values, self.unwrapped(filter="fourier")[0].values)
        session = session_of(phases_of(igram_of()), np.full(SHAPE, 204), mask())
        np.testing.assert_array_equal(plain.values, solved(session).surface.values)
        self.assertEqual((plain.chain.filter, plain.chain.told(True), plain.undecided), (None, "none", None))

    def test_looks_weigh_before_and_after_a_filter(self) -> None:
        """Weights of more than 8 bits are not cut off."""
        igram, coherence = igram_of(), np.random.default_rng(4).uniform(0.1, 0.95, SHAPE)
        for word in (None, "fourier"):
            costs = [wundjeska.unwrap(igram, coherence, looks, mask=mask(), filter=word).cost for looks in (None, 40)]
            self.assertTrue(costs[0] == costs[1] == 0 or costs[1] > 2 * costs[0] > 0, costs)

    def test_masked_arrays_nan_and_coasts(self) -> None:
        """What is masked in any way is masked alike, whatever stands there; small rasters, islets and lone pixels are congruent."""
        igram, coherence = igram_of(), np.random.default_rng(4).uniform(0.1, 0.9, SHAPE)
        wanted = wundjeska.unwrap(igram, coherence, mask=mask())
        for igram_given, coherence_given in (
            (masked(igram, mask=~mask()), coherence),
            (np.where(mask(), igram, np.nan), coherence),
            (np.where(mask(), np.angle(igram), np.inf), coherence),
            (igram, np.where(mask(), coherence, np.nan)),
            (np.where(mask(), igram, 0), masked(coherence, mask=~mask())),
        ):
            found = wundjeska.unwrap(igram_given, coherence_given)
            np.testing.assert_array_equal(found.values, wanted.values)
        for shape in ((1, 1), (1, 9), (5, 4), (17, 30)):
            land = np.random.default_rng(shape).random(shape) < 0.7
            land[0, 0] = True
            part = igram[: shape[0], : shape[1]]
            found = wundjeska.unwrap(part, coherence[: shape[0], : shape[1]], mask=land)
            off = found.values - phases_of(part)
            self.assertTrue((off[land] % CYCLE == 0).all() and (found.values[~land] == NODATA).all(), shape)

    def test_what_is_undecided(self) -> None:
        """A sharp break in noise of oversampled images: the filter takes a part to be a cycle higher, and cannot know."""
        scene = scene_of("fault-4-medium-wide-9211", 320)
        found = wundjeska.unwrap(scene.product, scene.estimated)
        assert found.undecided is not None
        labels, f = found.undecided
        self.assertEqual((labels.shape, labels.dtype, f.dtype, len(f), int(labels.max())), ((320, 320), np.uint32, np.float64, 1, 1))
        self.assertAlmostEqual(float(f[0]), 0.30, delta=0.03)
        self.assertTrue(3400 < int(labels.sum()) < 3900)
        self.assertTrue(labels[105:135, 270:].mean() > 0.95 and not labels[:80].any() and not labels[:, :240].any())
        (concern,) = (concern for concern in found.concerns if concern.kind == "undecided")
        self.assertTrue(concern.is_bad)

    def test_fewer_pixels_are_wrong(self) -> None:
        plain, guided_by = (
            worst(self.unwrapped(filter=word)[0].values - noisy(slope(), 0.17)) for word in (None, "fourier")
        )
        self.assertLess(guided_by, plain / 2)

    def test_what_is_proved_is_told_of_the_guide(self) -> None:
        found, _ = self.unwrapped()
        self.assertIn("of the guide alone", found.judgement)
        self.assertIn(f"nearest to it, {how_made()}", found.chain.told(True))
        self.assertNotIn("guide", self.unwrapped(filter=None)[0].judgement)

    def test_random_phases_break_the_filter(self) -> None:
        phase = np.random.default_rng(3).uniform(-math.pi, math.pi, (96, 96))
        found = wundjeska.unwrap(phase)
        kinds = {concern.kind: concern.is_bad for concern in found.concerns}
        self.assertEqual((kinds["filter"], kinds["residues"]), (True, False))
        self.assertFalse(any(concern.kind == "filter" for concern in self.unwrapped()[0].concerns))

    def test_words_that_do_not_fit(self) -> None:
        wrong: List[Tuple[str, Dict[str, Any]]] = [
            ("filter is 'fourier' or None, not 'goldstein'", {"filter": "goldstein"}),
            ("filter is 'fourier' or None, not 3", {"filter": 3}),
            ("narrow features want a filter", {"filter": None, "narrow": True}),
            ("narrow is True or False, not 1", {"narrow": 1}),
        ]
        for line, words in wrong:
            with self.assertRaises(Trouble) as raised:
                self.unwrapped(**words)
            self.assertEqual(str(raised.exception), line)


class Files(InFolder):
    KIT = (PHASE, "--coherence", COHERENCE)

    def run_in(self, *words: object) -> str:
        """What a command that is right tells."""
        status, told = command("wundjeska", *words, cwd=self.folder)
        self.assertEqual(status, 0, told)
        return told

    def congruent(self, name: str) -> np.ndarray:
        """A surface of the kit in cycles, which is congruent with its phase."""
        phase = gdal.Open(str(PHASE)).ReadAsArray()
        cycles, opened = gdal.Open(str(self.folder / name)).ReadAsArray(), phase != -9999
        off = (cycles - phase / (2 * math.pi))[opened]
        self.assertLess(np.abs(off - np.rint(off - off[0]) - off[0]).max(), 1e-3)
        return cycles

    def test_each_written_surface_is_congruent_in_whole_numbers(self) -> None:
        """Doubles hold each 65,536th of a cycle as it is."""
        phase = gdal.Open(str(PHASE)).ReadAsArray()
        screen = "coherence=0.6,radius=2,count=14,patch=300"
        for words in ((), ("--narrow",), ("--tile", 64), ("--ramp", "auto"), ("--screen", screen), ("--no-filter",)):
            self.run_in(*self.KIT, *words, "--float64", "--force", "cycles.tif")
            cycles = gdal.Open(str(self.folder / "cycles.tif")).ReadAsArray()
            opened = cycles != -9999
            off = cycles[opened] * CYCLE - phases_of(phase)[opened]
            self.assertTrue((off % CYCLE == 0).all(), words)
            self.assertGreater(opened.sum(), 10000)

    def notes(self, name: str) -> Dict[str, str]:
        return gdal.Open(str(self.folder / name)).GetMetadata()

    def test_the_raster_the_session_and_the_report(self) -> None:
        told = self.run_in(*self.KIT, "--narrow", "--session", "session", "--report", "report", "cycles.tif")
        self.assertIn("its guide's cost", told)
        self.assertIn("0.50 % residues and 0.16 % after the filter", told)
        self.assertIn(
            "cycles.tif: filter fourier: the guide is least of all for the filtered session; the surface is", told
        )
        self.assertEqual(self.run_in("check", "session", "report").splitlines()[0], "accepted")
        self.run_in("session", *self.KIT, "--filter", "fourier", "again")
        self.assertEqual(Path(self.folder, "session").read_bytes(), Path(self.folder, "again").read_bytes())
        told = self.run_in("surface", "report", "--session", "session", "--like", PHASE, "guide.tif")
        self.assertIn("a guide, of a filtered phase", told)
        self.congruent("cycles.tif")
        notes = self.notes("cycles.tif")
        self.assertTrue(notes["WUNDJESKA_FILTER"].startswith("fourier: the guide is least of all"))
        self.assertIn("narrower than 16 pixels", notes["WUNDJESKA_FILTER"])
        self.assertIn("times the squared agreement", notes["WUNDJESKA_WEIGHTS"])
        self.assertIn("of the filtered phase", notes["WUNDJESKA_RESIDUES_LEFT"])
        self.assertEqual(notes["WUNDJESKA_UNDECIDED"], "nothing undecided")

    def test_no_filter_is_named_too(self) -> None:
        told = self.run_in(*self.KIT, "--no-filter", "--session", "session", "--report", "report", "cycles.tif")
        self.assertIn("the least of all\n", told)
        self.assertTrue(told.endswith("cycles.tif: filter none\n"), told)
        self.assertEqual(self.notes("cycles.tif")["WUNDJESKA_FILTER"], "none")
        self.run_in("session", *self.KIT, "raw")
        self.assertEqual(Path(self.folder, "session").read_bytes(), Path(self.folder, "raw").read_bytes())
        self.assertEqual(self.run_in("check", "session", "report"), "accepted\n")
        self.run_in(*self.KIT, "--filter", "none", "again.tif")
        np.testing.assert_array_equal(self.congruent("cycles.tif"), self.congruent("again.tif"))

    def test_a_surface_is_made_again_of_what_was_kept(self) -> None:
        kept = ("--session", "session", "--report", "report", "--unfiltered", "raw")
        told = self.run_in(*self.KIT, *kept, "--page", "page.html", "--reference", "auto", "cycles.tif")
        words = ("report", "--session", "session", "--unfiltered", "raw", "--reference", "auto")
        self.assertIn(self.run_in("surface", *words, "--like", PHASE, "again.tif").split(": ", 1)[1], told)
        np.testing.assert_array_equal(*(gdal.Open(str(self.folder / name)).ReadAsArray() for name in ("cycles.tif", "again.tif")))
        names = ("FILTER", "REFERENCE", "UNDECIDED", "VERDICT", "COST", "CONCERNS", "RESIDUES_LEFT")
        one, other = self.notes("cycles.tif"), self.notes("again.tif")
        self.assertEqual(*([notes[f"WUNDJESKA_{name}"] for name in names] for notes in (one, other)))
        self.run_in("page", "session", "report", "--unfiltered", "raw", "--reference", "auto", "again.html")
        pages = [Path(self.folder, name).read_text() for name in ("page.html", "again.html")]
        maps = [[part.split(">")[0] for part in page.split('data-values="')[1:3]] for page in pages]
        self.assertEqual(*([part.split('"')[0] for part in found] for found in maps))
        self.run_in("session", PHASE, "--mask", COHERENCE, "--ramp", "5,5", "other")
        status, told = command("wundjeska", "page", "session", "report", "--unfiltered", "other", "no.html", cwd=self.folder)
        self.assertEqual((status, told.count("\n")), (1, 1), told)
        self.assertIn("is not the one that was filtered", told)

    def test_a_page_of_a_filtered_surface(self) -> None:
        self.run_in(*self.KIT, "--page", "page.html", "cycles.tif")
        page = Path(self.folder, "page.html").read_text()
        words = "check: accepted; the least cost was proved, of the guide alone, and not that the surface is true"
        for text in (
            f'<span class="verdict accepted">{words}</span>',
            "Filter: fourier: the guide is least of all for the filtered session",
            "Filtered phase",
            "Where the guide jumps",
            "The surface nearest to the guide, which costs",
            "No surface that differs from the filtered phase by whole cycles costs less",
            "made of how well phase and filter agree",
        ):
            self.assertIn(text, page)
        self.run_in(*self.KIT, "--no-filter", "--page", "page.html", "cycles.tif")
        page = Path(self.folder, "page.html").read_text()
        self.assertEqual(("Filter: none" in page, "guide" in page, "Filtered phase" in page), (True, False, False))
        self.run_in(*self.KIT, "--session", "session", "--report", "report", "cycles.tif")
        told = self.run_in("page", "session", "report", "guide.html")
        self.assertIn("a guide, of a filtered phase", told)
        self.assertIn("Filter: a guide, of a filtered phase", Path(self.folder, "guide.html").read_text())

    def test_undecided_parts_in_a_file(self) -> None:
        igram, coherence = broken()
        phase, quality = raster(self.folder / "phase.tif", np.angle(igram)), raster(self.folder / "c.tif", coherence)
        self.run_in(phase, "--coherence", quality, "--undecided", "undecided.tif", "--page", "page.html", "cycles.tif")
        found = wundjeska.unwrap(igram, coherence).undecided
        assert found is not None
        np.testing.assert_array_equal(gdal.Open(str(self.folder / "undecided.tif")).ReadAsArray(), found.labels)
        told = self.notes("undecided.tif")["WUNDJESKA_F"]
        self.assertEqual(told, " ".join(f"{share:.3f}" for share in found.f) or "none")

    def test_words_that_do_not_fit(self) -> None:
        for line, words in (
            ("narrow features want a filter", ("--no-filter", "--narrow", "x.tif")),
            ("--undecided wants a filter", ("--no-filter", "--undecided", "u.tif", "x.tif")),
            ("--unfiltered wants a filter", ("--filter", "none", "--unfiltered", "raw", "x.tif")),
            ("there is fourier or none, and no 'goldstein'", ("--filter", "goldstein", "x.tif")),
        ):
            status, told = command("wundjeska", PHASE, *words, cwd=self.folder)
            self.assertEqual((status, told.count("\n")), (2, 1), told)
            self.assertIn(line, told)
