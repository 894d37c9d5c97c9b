"""The texts that fuzzing begins with: the examples, and those of the tables of tests in crates/."""
import functools
import pathlib
import re
from typing import NamedTuple

TOP = pathlib.Path(__file__).resolve().parent.parent.parent
NODATA = "-9223372036854775808"
GRID_HEAD = f"xllcorner 0\nyllcorner 0\ncellsize 1\nNODATA_value {NODATA}\n"
ESCAPE = re.compile(r"\\(x[0-9a-fA-F]{2}|\n[ \t]*|.)")
ESCAPED = {"n": "\n", "r": "\r", "t": "\t", "0": "\0", "\\": "\\", '"': '"'}


class Texts(NamedTuple):
    """Sessions, and inputs of `check` with their words, which are a session and a report."""

    sessions: list[bytes]
    checks: list[tuple[list[str], bytes]]


def literal(source, name):
    """The value of a constant of text or of bytes in a file of crates/."""
    text = re.search(rf'const {name}: &(?:str|\[u8\]) =\s*b?"((?:[^"\\]|\\.)*)"', source, re.S).group(1)

    def plain(match):
        escape = match.group(1)
        if escape[0] == "x":
            return chr(int(escape[1:], 16))
        return "" if escape[0] == "\n" else ESCAPED[escape]

    return ESCAPE.sub(plain, text)


def source_of(crate, file):
    return (TOP / "crates" / crate / "src" / file).read_text(encoding="utf-8")


def spelled(text):
    """What a text of the rows of top_tests stands for."""
    for short, long in ((";", "\n"), (".", "\0"), ("~", NODATA), ("%", GRID_HEAD), ("!", "insar-report 1\nsize ")):
        text = text.replace(short, long)
    return text.encode("latin-1")


def rows():
    """The rows of top_tests: words, bytes, status and what is written."""
    for row in literal(source_of("top_tests", "top_rows.rt"), "ROWS").splitlines():
        if not row.startswith("--"):
            words, data, status, written = row.split("|")
            yield words.split(), spelled(data), int(status), spelled(written)


def table(file, field):
    """A field of each case of a table of command_tests."""
    cases = literal(source_of("command_tests", file), "TEXTS").split(";")[:-1]
    return [case.split("|")[field].encode("latin-1") for case in cases]


@functools.cache
def texts():
    """All texts, read once."""
    found = list(rows())
    examples = [(TOP / "examples" / name).read_bytes() for name in ("line.pgm", "turn.pgm")]
    script = (TOP / "examples" / "analyst").read_bytes()
    sessions = examples + [example + script for example in examples]
    sessions += [data for words, data, _, _ in found if words[:1] in (["unwrap"], ["grid"]) and data]
    sessions += table("session_rows.rt", 1) + table("plane_rows.rt", 2)
    source = source_of("command_tests", "reading_rows.rt")
    session, report = (literal(source, name).encode("latin-1") for name in ("SESSION", "REPORT"))
    checks = [(words, data) for words, data, _, _ in found if words[:1] == ["check"] and b"insar-report" in data]
    return Texts(sessions, checks + [(["check"], session + report)])
