"""Tests the page of a report, in Debian's chromium, which runs without a window and without a network."""
import base64
import os
import re
import subprocess
import unittest
import zlib
from typing import List

import numpy as np
from helpers import HERE, InFolder, command, raster
from osgeo import gdal

from wundjeska import pictures
from wundjeska.pages import map_script, sum_of
from wundjeska.pictures import MASKED, SIGNED, Axes, curve_of, enlarged, reach_of
from wundjeska.program import run_program
from wundjeska.rasters import axes_of, open_raster

SCRIPT = b"analyst\nsettle\nmask 10 20 59 49\nsettle\nshow\nanalyst\nmask 0 0 9 9\nunmask 0 0 4 4\nsettle\nshow\nend\n"
GREEN, AMBER, RED = (26, 122, 58), (154, 91, 0), (176, 42, 28)  # of the verdict


def picture(png: bytes) -> np.ndarray:
    """The pixels of a PNG; uint8, (rows, columns, 3)."""
    gdal.FileFromMemBuffer("/vsimem/picture.png", png)
    found: np.ndarray = np.moveaxis(gdal.Open("/vsimem/picture.png").ReadAsArray(), 0, -1)[..., :3]
    return found


def count(colours: np.ndarray, colour: pictures.Colour) -> int:
    return int(np.all(colours == colour, axis=-1).sum())


class Reduced(InFolder):
    def test_a_large_raster_is_said_to_be_shown_reduced(self) -> None:
        """Maps leave a masked pixel out in an odd row, which is counted."""
        phase = np.zeros((61, 1500))
        phase[31, 701] = np.nan
        words = (raster(self.folder / "phase.tif", phase), "--no-filter", "--page", self.folder / "page.html", self.folder / "o.tif")
        self.assertEqual(command("wundjeska", *words)[0], 0)
        page = (self.folder / "page.html").read_text()
        self.assertEqual(page.count("drawn from a reduced raster of 750 by 31 pixels, every second row and column;"), 1)
        self.assertIn("91499 pixels have a value", page)
        found = [picture(base64.b64decode(text)) for text in re.findall(r'href="data:image/png;base64,([^"]*)"', page)]
        self.assertEqual({map_.shape for map_ in found}, {(31, 750, 3)})
        self.assertEqual(count(found[1], MASKED), 0)


class Page(InFolder):
    def test_axes_in_map_units(self) -> None:
        self.assertEqual(axes_of(open_raster(str(HERE / "kit/phase.tif"))), Axes(430, 449.2, 4520, 4504.4, "km", 1000, "WGS 84 / UTM zone 33N"))

    def setUp(self) -> None:
        super().setUp()
        (self.folder / "script").write_bytes(SCRIPT)
        kit = (HERE / "kit/phase.tif", "--coherence", HERE / "kit/coherence.tif", "--script", self.folder / "script")
        self.assertEqual(command("to_session.py", *kit, self.folder / "session")[0], 0)
        self.report = run_program(["unwrap", "--tile", "32"], (self.folder / "session").read_bytes(), "kit")

    def page(self, report: bytes, wanted: int) -> str:
        """The page of a report, as text."""
        (self.folder / "report").write_bytes(report)
        words = (
            self.folder / "session",
            self.folder / "report",
            "--like",
            HERE / "kit/phase.tif",
            "--wavelength",
            "0.0555",
        )
        status, told = command("page.py", *words, self.folder / "page.html")
        self.assertEqual(status, wanted, told)
        return (self.folder / "page.html").read_text() if status < 2 else told

    def shot(self, wide: int = 1200) -> np.ndarray:
        """What the browser shows of the page, so many pixels wide; uint8, (rows, columns, 3)."""
        frame = (
            f'<body style="margin:0"><iframe src="page.html" style="width:{wide}px;height:4200px;border:0"></iframe>'
        )
        (self.folder / "frame.html").write_text(frame)  # a window has a least width
        words = ["chromium", "--headless", "--disable-gpu", "--hide-scrollbars", f"--window-size={max(wide, 600)},4200"]
        words += ["--host-resolver-rules=MAP * ~NOTFOUND", f"--user-data-dir={self.folder / 'browser'}"]
        words += ["--no-sandbox"] if os.geteuid() == 0 else []
        words += [f"--screenshot={self.folder / 'page.png'}", f"file://{self.folder / 'frame.html'}"]
        subprocess.run(words, check=True, capture_output=True, timeout=120)
        return picture((self.folder / "page.png").read_bytes())[:, :wide]

    def test_what_the_page_has(self) -> None:
        page = self.page(self.report, 0)
        self.assertNotIn("reduced raster", page)
        published, revised = self.report.count(b"\npublished "), self.report.count(b"\nrevised ")
        found = [picture(base64.b64decode(text)) for text in re.findall(r'href="data:image/png;base64,([^"]*)"', page)]
        self.assertEqual(len(found), 5 + (revised + 1) + (published - 1))  # five maps, masks, and earlier surfaces
        self.assertTrue(all(map_.shape == (104, 128, 3) for map_ in found))
        lake = 240  # pixels
        self.assertEqual(count(found[0], MASKED), lake)  # the phase
        self.assertEqual(count(found[4], MASKED), lake)  # the weights
        self.assertEqual(count(found[5], MASKED), lake)  # the mask of revision 0
        for map_ in (found[1], found[2], found[3], found[4 + 1 + revised]):  # after all edits
            self.assertEqual(count(map_, MASKED), lake + 50 * 30 + 75)
        for words in (
            "check: accepted",
            ">cm<",
            ">km<",
            ">5 km<",
            ">435<",
            ">4515<",
            "rule least",
            "analyst 2",
            "<h2>History</h2>",
            "<h2>Costs</h2>",
            "Connected components",
            "WGS 84 / UTM zone 33N",
            "Where the surface jumps",
            "<h2>Profiles</h2>",
            "away from the radar",
            f"session: {self.folder}/session<br>",
            "UTC by wundjeska ",
            "--wavelength 0.0555",
        ):
            self.assertIn(words, page)

    def test_the_page_asks_for_nothing_else(self) -> None:
        page = self.page(self.report, 0)
        self.assertEqual(re.findall(r"https?:|<link|@import|url\((?!#)| src=", page), [])
        self.assertEqual(re.findall("<script>(.*?)</script>", page, re.S), [map_script()])
        policy = f"default-src 'none'; img-src data:; style-src 'unsafe-inline'; script-src '{sum_of(map_script())}'"
        self.assertIn(f'<meta http-equiv="Content-Security-Policy" content="{policy}">', page)
        self.assertEqual([head for head in re.findall(r'href="(.{22})', page) if head != "data:image/png;base64,"], [])

    def test_a_browser_shows_it(self) -> None:
        self.page(self.report, 0)
        shown = self.shot()
        self.assertEqual(shown.shape[1], 1200)
        self.assertGreater(count(shown, AMBER), 2000)  # seams of small tiles
        self.assertEqual(count(shown, RED) > 2000, False)
        self.assertGreater(len(np.unique(shown.reshape(-1, 3), axis=0)), 2000)

    def test_nothing_is_cut_off_on_a_telephone(self) -> None:
        self.page(self.report, 0)
        shown = self.shot(420)
        self.assertGreater(count(shown, AMBER), 2000)
        self.assertEqual(count(shown[:1000, -6:], (255, 255, 255)), 6000)  # the margin right of the maps

    def unwrapped(self, *words: object) -> str:
        """The page that `unwrap` makes, without a filter if none is named."""
        page = self.folder / "page.html"
        status, told = command("wundjeska", "unwrap", "--no-filter", *words, "--page", page, self.folder / "made.tif")
        self.assertEqual(status, 0, told)
        return page.read_text()

    KIT = (HERE / "kit/phase.tif", "--coherence", HERE / "kit/coherence.tif")

    def test_a_sentence_of_judgement(self) -> None:
        page = self.unwrapped(*self.KIT)
        words = "check: accepted; the least cost was proved, and not that the surface is true"
        self.assertIn(f'<span class="verdict accepted">{words}</span>', page)
        self.assertRegex(page, "residues at [0-9.]+ % of the cells")
        self.assertNotIn("Connected components", page)  # there is one
        self.assertGreater(count(self.shot(), GREEN), 2000)
        noise = np.random.default_rng(1).uniform(-np.pi, np.pi, (90, 80))
        page = self.unwrapped(raster(self.folder / "noise.tif", noise))
        self.assertRegex(page, '<span class="verdict amber">check: accepted; [0-9]+ signs? that the surface may be wrong; ')
        self.assertRegex(page, '<li class="bad">[0-9.]+ % of the cells have a residue')
        shown = self.shot()
        self.assertGreater(count(shown, AMBER), 2000)
        self.assertEqual(count(shown, GREEN), 0)
        page = self.unwrapped(self.folder / "noise.tif", "--filter", "fourier")
        self.assertRegex(page, '<li class="bad">[0-9.]+ % of the cells keep a residue in the filtered phase: the filter has broken')
        self.assertGreater(count(self.shot(), AMBER), 2000)

    def test_the_unit_that_is_asked_for(self) -> None:
        far = ("--wavelength", 0.0555, "--reference", 120, 8)
        page = self.unwrapped(*self.KIT, "--unit", "millimetres", *far)
        self.assertEqual((">mm<" in page, ">cm<" in page, "Displacement of surface 1" in page), (True, False, True))
        self.assertIn("Above 0 the ground moved away from the radar, if", page)
        low, high = self.span(page, "mm")
        page = self.unwrapped(*self.KIT, "--unit", "millimetres", *far, "--turn")
        self.assertIn("The sign is turned: above 0 the ground moved towards the radar, if", page)
        self.assertEqual(self.span(page, "mm"), [-high, -low])
        colour = "rgb" + str(SIGNED[0])
        self.assertIn(colour, page)
        self.assertIn(">rad<", self.unwrapped(*self.KIT, "--unit", "radians"))
        self.assertIn(">cycles<", self.unwrapped(*self.KIT))
        session, report = self.folder / "session", self.folder / "report"
        self.page(self.report, 0)
        status, told = command("page.py", session, report, "--unit", "metres", self.folder / "page.html")
        self.assertEqual((status, told), (2, "metres want the --wavelength\n"))

    def span(self, page: str, unit: str) -> List[float]:
        """The least and the greatest value that a caption tells."""
        found = re.search(rf"from (\S+) to (\S+) {unit};", page)
        assert found is not None
        return [float(part) for part in found.groups()]

    def test_coherence_beside_weights(self) -> None:
        page = self.unwrapped(*self.KIT)
        self.assertIn(">coherence<", page)
        self.assertIn("they are 255 times as much, and at least 1, here from 77 to 230", page)
        self.assertNotIn(">weight<", page)
        page = self.unwrapped(*self.KIT, "--looks", 8)
        self.assertEqual((">coherence<" in page, ">weight<" in page), (True, True))

    def kept(self, page: str, number: int) -> np.ndarray:
        """The values that a map keeps, NaN where there is none."""
        figure = page.split('<figure class="map"')[1:][number].split(">")[0]
        told = dict(re.findall('data-([a-z]+)="([^"]*)"', figure))
        rows, columns, _ = map(int, told["shape"].split())
        planes = np.frombuffer(zlib.decompress(base64.b64decode(told["values"])), np.uint8).reshape(2, rows, columns).astype(int)
        codes = 256 * planes[0] + planes[1]
        return np.where(codes == 65535, np.nan, float(told["low"]) + codes * float(told["step"]))

    def test_what_a_map_reads_out(self) -> None:
        page = self.unwrapped(*self.KIT)
        phase = gdal.Open(str(HERE / "kit/phase.tif")).ReadAsArray()
        known = phase != -9999
        surface = np.where(known, gdal.Open(str(self.folder / "made.tif")).ReadAsArray(), np.nan)
        np.testing.assert_allclose(self.kept(page, 0), np.where(known, phase / (2 * np.pi) % 1, np.nan), atol=2e-5)
        np.testing.assert_allclose(self.kept(page, 1), surface, atol=np.nanmax(surface - np.nanmin(surface)) / 65534)
        shape = 'data-shape="104 128 1" data-ends="430.0 449.2 4520.0 4504.4" data-axes="km"'
        self.assertEqual(page.count(shape), page.count('<figure class="map"'))

    def asked(self, page: str, script: str) -> str:
        """What a browser has as the body's title after a script ran in the page."""
        free = re.sub('<meta http-equiv="Content-Security-Policy"[^>]*>', "", page)
        (self.folder / "asked.html").write_text(free.replace("</body>", f"<script>{script}</script></body>"))
        words = ["chromium", "--headless", "--disable-gpu", "--window-size=1200,2000", "--virtual-time-budget=4000", "--dump-dom"]
        words += [f"--user-data-dir={self.folder / 'browser'}", *(["--no-sandbox"] if os.geteuid() == 0 else [])]
        ran = subprocess.run([*words, f"file://{self.folder / 'asked.html'}"], check=True, capture_output=True, timeout=120, text=True)
        found = re.search('<body title="([^"]*)"', ran.stdout)
        assert found is not None, ran.stdout[-500:]
        return found[1]

    POINT = """
        const figure = document.querySelectorAll("figure.map")[1], frame = figure.querySelector(".frame");
        const box = frame.getBoundingClientRect();
        const send = (kind, x, y) => frame.dispatchEvent(new PointerEvent(kind,
            { clientX: box.left + box.width * x, clientY: box.top + box.height * y, pointerId: 1 }));
    """

    def test_a_browser_reads_out_a_pixel(self) -> None:
        page = self.unwrapped(*self.KIT)
        ask = "send('pointermove', 40.5 / 128, 30.5 / 104); setTimeout(() => { document.body.title = figure.querySelector('output').textContent; }, 1000);"
        value = gdal.Open(str(self.folder / "made.tif")).ReadAsArray()[30, 40]
        told = self.asked(page, self.POINT + ask)
        found = re.fullmatch("column 40, row 30 \\(([0-9.]+), ([0-9.]+) km\\): (\\S+) cycles", told)
        assert found is not None, told
        x, y, shown = (float(part.replace("\N{MINUS SIGN}", "-")) for part in found.groups())
        np.testing.assert_allclose([x, y, shown], [430 + 0.15 * 40.5, 4520 - 0.15 * 30.5, value], atol=0.006)

    def test_a_browser_shows_a_part(self) -> None:
        page = self.unwrapped(*self.KIT)
        ask = "send('dblclick', 0.25, 0.75); document.body.title = [...document.querySelectorAll('.view')].map((view) => view.getAttribute('viewBox')).join();"
        views = self.asked(page, self.POINT + ask).split(",")
        self.assertEqual((set(views), len(views)), ({"125 375 500 500"}, page.count('<figure class="map"')))
        ask += "dispatchEvent(new KeyboardEvent('keydown', { key: 'Escape' })); document.body.title = document.querySelector('.view').getAttribute('viewBox');"
        self.assertEqual(self.asked(page, self.POINT + ask), "0 0 1000 1000")

    def test_a_curve_has_gaps(self) -> None:
        y = np.array([np.nan, 1, 2, np.nan, 3, np.nan])
        self.assertEqual(curve_of(np.arange(6), y), "M1.0,1.0 2.0,2.0M4.0,3.0h.5")
        self.assertEqual(curve_of(np.arange(2), np.full(2, np.nan)), "")

    def test_what_is_small_is_seen(self) -> None:
        for shape in ((1024, 1024), (400, 1000), (1000, 50), (8, 6)):
            flags = np.zeros(shape, dtype=bool)
            flags[shape[0] // 2, shape[1] // 2] = True
            wide = int(enlarged(flags).any(axis=0).sum())
            shown = min(210, 210 * (330 / 250) * shape[1] / shape[0]) / shape[1]  # screen pixels of one
            self.assertGreaterEqual(wide * shown, 3 if reach_of(shape) else min(3, shown))

    def test_a_report_that_is_refused(self) -> None:
        page = self.page(self.report.replace(b"\ncosts ", b"\ncosts 1", 1), 1)
        self.assertRegex(page, "check: refused surface [0-9] tilecost")
        self.assertIn("nothing is certified", page)
        self.assertGreater(count(self.shot(), RED), 2000)

    def test_a_report_that_breaks_its_form(self) -> None:
        self.assertRegex(self.page(self.report[:-4], 3), r"report: line [0-9]+: ")


if __name__ == "__main__":
    unittest.main()
