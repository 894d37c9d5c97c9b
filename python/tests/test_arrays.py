"""Tests what needs NumPy alone: phases, planes, weights, components, joints, files and maps. Each runs without pytest, too:
python3 -m unittest test_arrays, in this folder with PYTHONPATH=.."""
import math
import os
import tempfile
import unittest
from pathlib import Path

import numpy as np

from wundjeska import components, joining, outputs, pictures, weights
from wundjeska.commands.page import jumps_of
from wundjeska.components import components_of
from wundjeska.pictures import MASKED, round_step, ticks_of
from wundjeska.planes import CYCLE, phases_of, plane_of, read_session, session_of
from wundjeska.report_reader import NODATA, Surface
from wundjeska.trouble import Trouble
from wundjeska.weights import weights_of

NO_BOX = (-1, -1, -1, -1)


class Phases(unittest.TestCase):
    def test_pi_and_minus_pi_are_one_phase(self) -> None:
        found = phases_of(np.array([[0, math.pi / 2, math.pi, -math.pi, -math.pi / 2, 7 * math.pi]]))
        self.assertEqual(found.tolist(), [[0, 16384, 32768, 32768, 49152, 32768]])

    def test_each_phase_comes_back_from_32_bits(self) -> None:
        samples = np.arange(CYCLE)
        radians = samples * (2 * math.pi / CYCLE)
        wrapped = np.where(radians > math.pi, radians - 2 * math.pi, radians)
        np.testing.assert_array_equal(phases_of(wrapped.astype(np.float32)), samples)
        np.testing.assert_array_equal(phases_of(np.exp(1j * radians).astype(np.complex64)), samples)

    def test_weights_are_never_0(self) -> None:
        self.assertEqual(weights_of(np.array([0, 0.001, 0.5, 1, math.nan])).tolist(), [1, 1, 128, 255, 1])

    def test_a_session_is_read_as_it_was_written(self) -> None:
        phase, weights = np.array([[0, 65535, 256]]), np.array([[1, 255, 7]])
        found = read_session(session_of(phase, weights, weights > 1))
        np.testing.assert_array_equal(found.phase, phase)
        np.testing.assert_array_equal(found.weights, weights)
        self.assertEqual((found.opened.tolist(), found.script), ([[False, True, True]], b"end\n"))

    def test_plain_planes_with_comments(self) -> None:
        found = read_session(b"P2 # by hand\n#\r2 1\n65535 \n 7\t00008 \nP2 2 1 9 3 4\nanalyst\nend\n")
        self.assertEqual((found.phase.tolist(), found.weights.tolist()), ([[7, 8]], [[3, 4]]))
        self.assertEqual((found.opened.tolist(), found.script), ([[True, True]], b"analyst\nend\n"))

    def test_short_planes_are_refused(self) -> None:
        self.assertRaises(Trouble, read_session, b"P2 2 2 65535 123 ")
        self.assertRaises(Trouble, read_session, plane_of(np.zeros((2, 2)), 65535)[:-1])


def flooded(opened: np.ndarray) -> np.ndarray:
    """Pieces by walks from pixel to pixel."""
    found, count = np.full(opened.shape, -1), 0
    for start in zip(*np.nonzero(opened)):
        waiting = [start] if found[start] < 0 else []
        count += len(waiting)
        while waiting:
            y, x = waiting.pop()
            if 0 <= y < opened.shape[0] and 0 <= x < opened.shape[1] and opened[y, x] and found[y, x] < 0:
                found[y, x] = count - 1
                waiting += [(y + 1, x), (y - 1, x), (y, x + 1), (y, x - 1)]
    return found


class Joining(unittest.TestCase):
    def test_pieces_are_those_that_walks_find(self) -> None:
        random = np.random.default_rng(3)
        for _ in range(200):
            opened = random.random(random.integers(1, 16, 2)) < random.random()
            np.testing.assert_array_equal(components.pieces_of(opened), flooded(opened))

    def test_a_link_tells_the_median_and_what_is_off(self) -> None:
        values = [np.zeros((2, 3), dtype=np.int64), CYCLE * np.array([[4, 4, 4], [4, 9, 0]])]
        pieces = [np.array([[0, 0, 0], [0, 0, -1]]), np.array([[2, 2, 2], [2, 2, -1]])]
        (link,) = joining.links_of((5, 6), values, pieces, (100, 200))
        self.assertEqual((link.first, link.second, link.cycles), ((5, 0), (6, 2), 4))
        self.assertEqual((link.counts, link.box, link.share(4)), ({4: 4, 9: 1}, (101, 201, 101, 201), 0.8))

    def test_the_overlap_with_most_pixels_is_taken_first(self) -> None:
        a, b, c = (0, 0), (1, 0), (2, 0)
        links = [
            joining.Link(*ends, {cycles: pixels}, cycles, NO_BOX)
            for ends, cycles, pixels in (((a, b), 1, 5), ((b, c), 2, 9), ((a, c), 7, 8))
        ]
        offsets = joining.offsets_of([a, b, c, (3, 0)], links)
        self.assertEqual([offsets.of(piece) for piece in (a, b, c)], [0, -5, -7])
        self.assertEqual([offsets.cycles(link) for link in links], [5, 2, 7])
        self.assertEqual(offsets.sets(), 2)

    def test_random_offsets_are_found(self) -> None:
        random = np.random.default_rng(4)
        for _ in range(50):
            count = int(random.integers(2, 30))
            true = random.integers(-9, 9, count)
            ends = [(int(random.integers(0, n)), n) for n in range(1, count)]
            links = [joining.Link((a, 0), (b, 0), {c: 1}, c, NO_BOX) for a, b in ends for c in [int(true[b] - true[a])]]
            found = joining.offsets_of([(n, 0) for n in range(count)], links)
            self.assertEqual({found.of((n, 0)) + int(true[n]) for n in range(count)}, {int(true[0])})


class Components(unittest.TestCase):
    def test_numbers_by_size_and_a_least_size(self) -> None:
        opened = np.array([[1, 0, 1, 1, 0, 1], [0, 0, 1, 0, 0, 1], [1, 1, 0, 1, 1, 1]], dtype=bool)
        wanted = [[4, 0, 2, 2, 0, 1], [0, 0, 2, 0, 0, 1], [3, 3, 0, 1, 1, 1]]
        self.assertEqual(components_of(opened).tolist(), wanted)
        few = [[0, 0, 2, 2, 0, 1], [0, 0, 2, 0, 0, 1], [0, 0, 0, 1, 1, 1]]
        self.assertEqual(components_of(opened, 3).tolist(), few)

    def test_none(self) -> None:
        self.assertEqual(components_of(np.zeros((2, 3), dtype=bool)).tolist(), [[0, 0, 0], [0, 0, 0]])


class Weights(unittest.TestCase):
    def test_the_distribution_of_one_look_has_the_variance_of_the_formula(self) -> None:
        coherence = np.linspace(0, 0.9, 34)
        np.testing.assert_allclose(weights.multi_look(coherence, 1), weights.single_look(coherence), rtol=0.01)

    def test_many_looks_reach_the_bound(self) -> None:
        coherence = np.array([0.5, 0.7, 0.9])
        found = weights.multi_look(coherence, 200) / weights.cramer_rao(coherence, 200)
        np.testing.assert_allclose(found, 1, atol=0.03)

    def test_no_coherence_leaves_any_angle(self) -> None:
        for name, formula in weights.FORMULAS.items():
            self.assertAlmostEqual(float(formula(np.zeros(1), 4)[0]), math.pi**2 / 3, 3, name)

    def test_the_variance_of_phases_that_were_drawn(self) -> None:
        """100,000 phases of 4 looks with a coherence of 0.6."""
        random = np.random.default_rng(7)
        shape, c = (100000, 4), 0.6
        one, other = (random.normal(size=shape) + 1j * random.normal(size=shape) for _ in range(2))
        drawn = np.angle((one * (c * one + math.sqrt(1 - c * c) * other).conj()).sum(axis=1))
        self.assertAlmostEqual(float(weights.multi_look(np.array([c]), 4)[0]), float((drawn**2).mean()), delta=0.01)

    def test_weights_rise_with_coherence_and_are_never_0(self) -> None:
        for looks in (None, 1, 3.5, 16):
            found = weights.weights_of(np.linspace(0, 1, 200), looks).astype(int)
            self.assertTrue(
                found.min() >= 1 and found.max() <= weights.highest_of(looks) and (np.diff(found) >= 0).all()
            )
        self.assertEqual(weights.weights_of(np.array([0.5, math.nan, -3, 4])).tolist(), [128, 1, 1, 255])


class Files(unittest.TestCase):
    def test_an_error_leaves_all(self) -> None:
        with tempfile.TemporaryDirectory() as folder:
            first, second = Path(folder, "first"), Path(folder, "second")
            first.write_text("stood")
            with self.assertRaises(KeyError), outputs.Outputs([]) as written:
                written.write(first, b"new")
                written.write(second, b"new")
                raise KeyError
            self.assertEqual((first.read_text(), os.listdir(folder)), ("stood", ["first"]))
            with outputs.Outputs([]) as written:
                written.write(first, b"new")
                self.assertEqual(first.read_text(), "stood")
            self.assertEqual((first.read_text(), os.listdir(folder)), ("new", ["first"]))

    def test_two_outputs_of_one_name_are_refused(self) -> None:
        with self.assertRaises(Trouble), outputs.Outputs([]) as written:
            written.beside("/tmp/one")
            written.beside("/tmp/../tmp/one")


class Maps(unittest.TestCase):
    def test_round_ticks(self) -> None:
        for low, high, most, wanted in (
            (0, 1, 5, [0, 0.2, 0.4, 0.6, 0.8, 1]),
            (-23.35, 8.43, 5, [-20, -10, 0]),
            (430, 449.2, 4, [430, 435, 440, 445]),
            (0.07, 0.075, 5, [0.07, 0.071, 0.072, 0.073, 0.074, 0.075]),
        ):
            self.assertEqual([round(value, 9) for value in ticks_of(low, high, most)], wanted)
        self.assertEqual([round_step(span, 5) for span in (0, 5, 5.1, 10, 1e-3)], [1, 1, 2, 2, 0.0002])
        labels = [pictures.label_of(*words) for words in ((0.3, 0.1), (-5, 5), (1200, 200), (-0.0, 0.5))]
        self.assertEqual(labels, ["0.3", "\N{MINUS SIGN}5", "1200", "0.0"])

    def test_no_map_has_the_colour_of_masked_pixels(self) -> None:
        for colours in (pictures.ROUND, pictures.BRIGHTER, pictures.WARMER):
            shown = pictures.coloured(np.linspace(0, 1, 500)[None, :], colours).astype(int)
            self.assertGreater(np.sqrt(((shown - MASKED) ** 2).sum(axis=-1)).min(), 80)
        for colour in (*pictures.NUMBERED, pictures.PLAIN, pictures.JUMP, pictures.SEAM):
            self.assertGreater(np.linalg.norm(np.subtract(colour, MASKED)), 60)

    def test_nothing_that_is_set_is_thinned_away(self) -> None:
        flags = np.zeros((2050, 1500), dtype=bool)
        flags[1234, 777] = flags[2049, 1499] = True
        self.assertEqual(pictures.any_thinned(flags).sum(), 2)
        self.assertEqual(pictures.any_thinned(flags).shape, pictures.thinned(flags).shape)

    def test_where_a_surface_jumps(self) -> None:
        """A row whose fifth pixel is a cycle too high, with tiles of four pixels: it departs at a seam and inside a tile."""
        values = np.array([[0, 100, 200, 300, 65936, 500, NODATA, 700]])
        surface = Surface(1, 0, 0, 0, values, [], np.zeros(0, dtype=np.int64))
        found = jumps_of(surface, np.where(values == NODATA, 0, values % 65536), 4)
        self.assertEqual((found.inner_edges, found.seam_edges), (1, 1))
        self.assertEqual(np.flatnonzero(found.across).tolist(), [3, 4])
        self.assertEqual(np.flatnonzero(found.inside).tolist(), [4, 5])


if __name__ == "__main__":
    unittest.main()
