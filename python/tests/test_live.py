"""Tests the live page: by the program, and in Debian's chromium."""
import re
import unittest
from argparse import Namespace

from helpers import HERE, InFolder, command

from wundjeska.commands import live
from wundjeska.trouble import Trouble

SCRIPT = b"analyst\nsettle\nmask 10 20 59 49\nsettle\nshow\nanalyst\nmask 0 0 9 9\nsettle\nend\n"


class Told(unittest.TestCase):
    def test_lines_of_watch(self) -> None:
        told = b"published 0\npublished 2\nreader 1 0 2\nreader 2 2\n"
        self.assertEqual(live.watched_of(told, 2), live.Watched([0, 2], [[0, 2], [2]]))
        self.assertEqual(live.watched_of(b"reader 1\n", 1), live.Watched([], [[]]))

    def test_other_lines_are_refused(self) -> None:
        for told in (b"", b"published 0\n", b"reader 2\n", b"published 00\nreader 1 0\n", b"published 1 2\nreader 1 1\n", b"\xff\n"):
            with self.subTest(told), self.assertRaises(Trouble):
                live.watched_of(told, 1)

    def test_chart(self) -> None:
        drawn = live.chart(live.Watched([0, 2, 5], [[0, 5], [5]]))
        self.assertEqual(drawn.count(live.SEEN), 3 + 2 + 1)
        self.assertEqual(drawn.count(live.MISSED), 1 + 2)


class Live(InFolder):
    def setUp(self) -> None:
        super().setUp()
        (self.folder / "script").write_bytes(SCRIPT)
        kit = (HERE / "kit/phase.tif", "--coherence", HERE / "kit/coherence.tif", "--script", self.folder / "script")
        self.assertEqual(command("to_session.py", *kit, self.folder / "session")[0], 0)
        self.page = self.folder / "page.html"

    def looks(self, *words: object) -> tuple[int, str]:
        return command("live.py", self.folder / "session", self.page, "--rounds", 1, "--every", 0.1, *words)

    def test_a_session_is_shown(self) -> None:
        status, told = self.looks("--readers", 3, "--tile", 32)
        self.assertEqual((status, told), (0, f"{self.page}: redrawn\n"))
        page = self.page.read_text()
        self.assertIn('<meta http-equiv="refresh" content="0.1">', page)
        last = re.findall(r"the last of revision (\d+)", page)
        self.assertEqual(len(last), 1)
        for name in ("published", "reader 1", "reader 2", "reader 3"):
            circles = re.findall(rf'<circle [^>]*fill="{live.SEEN}"[^>]*><title>{name}: revision {last[0]}</title>', page)
            self.assertEqual(len(circles), 1, name)
        self.assertEqual(page.count("<image"), 2)
        self.assertEqual((page.count("http:"), page.count("https:"), page.count("<script")), (0, 0, 0))

    def test_a_session_that_breaks_keeps_what_was_shown(self) -> None:
        whole = (self.folder / "session").read_bytes()
        asked = Namespace(session=str(self.folder / "session"), rule="least", tile=32, workers=1, readers=1, reads=4)
        body, why = live.look(whole, asked, "")
        self.assertEqual((body.count("<image"), why), (2, ""))
        again, why = live.look(whole + b"more\n", asked, body)
        self.assertEqual(again, body)
        self.assertIn("ended with status 3", why)
        (self.folder / "session").write_bytes(whole + b"more\n")
        self.assertEqual(self.looks()[0], 3)
        self.assertIn('class="verdict refused"', self.page.read_text())

    def test_mistakes(self) -> None:
        session = (self.folder / "session").read_bytes()
        for words in (("--readers", 9), ("--reads", 0), ("--tile", 1), ("--every", 0), ("--rounds", -1), ("--workers", 0)):
            with self.subTest(words):
                status, told = self.looks(*words)
                self.assertEqual((status, told.count("\n")), (2, 1), told)
        status, told = command("live.py", self.folder / "session", self.folder / "session", "--rounds", 1)
        self.assertEqual((status, told.count("\n")), (2, 1), told)
        self.assertEqual((self.folder / "session").read_bytes(), session)
        status, told = command("live.py", self.folder / "none", self.page, "--rounds", 1)
        self.assertEqual((status, told.count("\n")), (5, 1), told)


if __name__ == "__main__":
    unittest.main()
