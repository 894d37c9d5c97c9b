#!/usr/bin/python3
"""Tests of rasters.py. Each expected value was found by hand or by another solver, or follows from what a name means."""
import subprocess
import unittest
from pathlib import Path

import numpy as np

import rasters

SCRIPT = Path(__file__).resolve().parent / "rasters.py"


def run(*words: str) -> subprocess.CompletedProcess[bytes]:
    return subprocess.run([SCRIPT, *words], capture_output=True)


class Rasters(unittest.TestCase):
    def test_slopes_rise_and_wrap(self) -> None:
        self.assertEqual(run("slope-2x3-plain").stdout, b"P2\n2 3\n65535\n0 300\n700 1000\n1400 1700\n")
        self.assertEqual(run("gentle-2").stdout, b"P5\n2 2\n65535\n" + bytes([0, 0, 0, 30, 0, 20, 0, 50]))
        self.assertEqual(rasters.session(rasters.slope("slope", 300, 1))[-2:], (299 * 300 % 65536).to_bytes(2, "big"))

    def test_a_ramp_is_added(self) -> None:
        self.assertEqual(run("slope-2x3-plain", "-400", "65536").stdout, b"P2\n2 3\n65535\n0 65436\n700 600\n1400 1300\n")
        plain, ramped = run("trial-7-64").stdout, run("trial-7-64", "100", "0").stdout
        self.assertEqual(plain[-2 * 64 * 64 :], ramped[-2 * 64 * 64 :])
        for words in (("1",), ("1", "x"), ("1", "65537"), ("1.5", "0"), ("1", "2", "3")):
            self.assertEqual(run("flat-2", *words).returncode, 2)

    def test_tears_are_as_large_as_told(self) -> None:
        broken, left = rasters.torn("fault", 400, 200)
        jumps = np.abs(np.diff(broken, axis=0)).max(axis=0)
        self.assertAlmostEqual(jumps[200], 3.4, delta=0.06)
        self.assertEqual((jumps[0], jumps[399]), (0, 0))
        self.assertLess(left.min(), 0.2)
        folded, left = rasters.torn("fold", 400, 200)
        self.assertAlmostEqual(folded[0, 105] - folded[0, 100], 4 * np.exp(-5 / 32), delta=1e-9)
        self.assertEqual((left[0, 99], left[0, 103]), (1, 0.4))
        for name in ("fault-1-64-low", "fold-1-64-medium"):
            self.assertEqual(run(name).returncode, 0)

    def test_what_is_left_of_the_coherence_at_a_tear(self) -> None:
        coherence, (_, share) = np.full((200, 400), 0.8), rasters.torn("fault", 400, 200)
        for left, wanted in ((12, 0.12), (70, 0.7), (100, 0.8)):
            found = rasters.torn_coherence(coherence, share, left)
            self.assertEqual((found[100, 200], found[97, 200], found[96, 200]), (wanted, 0.8 if left == 100 else found[97, 200], 0.8))
            self.assertEqual(sorted({*found.ravel().tolist()}), sorted({wanted, 0.8}))
        for name in ("hills-1-64-low-12", "fault-1-64-low-0", "fault-1-64-low-101", "fault-1-64-12", "noise-1-64-low"):
            self.assertEqual(run(name).returncode, 2, name)
        self.assertNotEqual(run("fault-1-64-low-12").stdout, run("fault-1-64-low-100").stdout)

    def test_a_trial_is_that_of_the_command(self) -> None:
        made, _ = rasters.raster("trial-7-64")
        self.assertEqual(np.count_nonzero(rasters.residues(made.surface % 65536)), 450)
        self.assertEqual(np.count_nonzero(made.opened), 3834)

    def test_a_ring_winds_and_its_lanes_differ(self) -> None:
        made, _ = rasters.raster("ring-64x14")
        around = np.concatenate([made.surface[0, :-1], made.surface[:-1, -1], made.surface[-1, :0:-1], made.surface[:0:-1, 0]])
        steps = rasters.wrap(np.diff(np.append(around, around[0])))
        self.assertEqual((len(steps), steps.sum()), (152, 68 * 65536))
        self.assertEqual(np.count_nonzero(made.opened), 64 * 14 - 60 * 10)
        first, second = rasters.wrap(np.diff(made.surface[:2, 4:60], axis=1))
        self.assertEqual((set(first.tolist()), second.tolist()[:4]), ({29491}, [22937, -29491, 22937, -29491]))
        down = rasters.wrap(np.diff(made.surface[4:10, -2]))
        self.assertEqual(down.tolist(), [22937, -29491, 22937, -29491, 22937])

    def test_a_trial_lies_below_a_ring(self) -> None:
        made, _ = rasters.raster("ringed-7-64x40")
        above, below = rasters.ring(64, 14), rasters.trial(7, 64, 24)
        self.assertTrue((made.surface[:14] == above.surface).all() and (made.surface[16:] == below.surface).all())
        self.assertTrue((made.weights[16:] == below.weights).all() and (made.opened[16:] == below.opened).all())
        self.assertFalse(made.opened[14:16].any())
        self.assertEqual(run("ringed-7-64x16").returncode, 2)

    def test_waters_mask_what_they_say(self) -> None:
        dry, _ = rasters.raster("hills-1-200-low")
        for words, least, most in (("-sea", 0.29, 0.31), ("-lakes", 0.04, 0.06), ("-specks", 0.01, 0.03), ("-sea-lakes-specks", 0.3, 0.4)):
            made, _ = rasters.raster(f"hills-1-200-low{words}")
            self.assertTrue((made.surface == dry.surface).all())
            gone = dry.opened & ~made.opened
            self.assertTrue(least * 0.9 < np.count_nonzero(gone) / gone.size < most, words)
        for edge in (rasters.water("lakes", 300, 200)[[0, 1, -2, -1]], rasters.water("lakes", 300, 200)[:, [0, 1, -2, -1]]):
            self.assertFalse(edge.any())
        self.assertGreater(np.count_nonzero(rasters.water("sea", 300, 200)[-1]), 150)
        for name in ("hills-1-64-low-lakes-sea", "hills-1-64-low-pond", "flat-65536x2", "flat-65535x4097"):
            self.assertEqual(run(name).returncode, 2, name)
        self.assertEqual(run("flat-65535x2-specks").stdout[:16], b"P5\n65535 2\n65535")

    def test_noise_has_a_residue_in_each_third_cell(self) -> None:
        for kind, least, most in (("noise", 1, 1), ("holes", 0.49, 0.51), ("lake", 0.4, 0.8)):
            made, _ = rasters.raster(f"{kind}-5-300x200")
            self.assertAlmostEqual(np.count_nonzero(rasters.residues(made.surface)) / (299 * 199), 1 / 3, delta=0.01)
            assert made.opened is not None and made.weights is not None
            self.assertTrue(least <= made.opened.mean() <= most, kind)
            self.assertTrue(1 <= made.weights.min() and made.weights.max() <= 65535)
            self.assertEqual(run(f"{kind}-5-30x20").stdout, rasters.session(rasters.raster(f"{kind}-5-30x20")[0]))
        shores = np.diff(made.opened, axis=1).mean()
        self.assertLess(shores, 0.02)

    def test_states_follow_one_another(self) -> None:
        found, state = rasters.states(7, 5), 7
        for number in found.tolist():
            state = (state * rasters.MULTIPLIER + rasters.INCREMENT) % rasters.WORD
            self.assertEqual(number, state)

    def test_fields_have_the_residues_of_their_level(self) -> None:
        for kind in rasters.FIELDS:
            made, _ = rasters.raster(f"{kind}-1-64x48-medium")
            share = np.count_nonzero(rasters.residues(made.surface % 65536)) / (63 * 47)
            self.assertTrue(0.04 < share <= 0.05, (kind, share))
            self.assertEqual((made.surface.shape, made.weights.min() >= 1, made.weights.max() <= 255), ((48, 64), True, True))

    def test_mistakes_end_in_one_line(self) -> None:
        for name in ("slope", "slope-0", "slope-9-3", "trial-64", "hills-1-64", "hills-1-1-low", "flat-16385", "fields-3", "-"):
            done = run(name)
            self.assertEqual((done.returncode, done.stdout, done.stderr.count(b"\n")), (2, b"", 1), name)
        self.assertEqual((run().returncode, run("--help").returncode), (2, 0))


if __name__ == "__main__":
    unittest.main()
