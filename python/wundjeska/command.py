"""The command `wundjeska`: a verb and its words. Without a verb it unwraps."""
import sys
from argparse import ArgumentParser
from difflib import get_close_matches
from importlib import import_module
from pathlib import Path
from types import ModuleType
from typing import Dict, List, NoReturn, Optional

from . import __version__
from .trouble import REFUSED_WORDS, Trouble, held, run_main

VERBS: Dict[str, str] = {
    "unwrap": "unwraps an interferogram in a file, has the result checked and writes it",
    "session": "makes a session, the input of the proved program, of rasters",
    "surface": "makes a GeoTIFF of the surface in a report or a grid",
    "check": "has the proved checker judge a report",
    "frames": "unwraps a raster above the limit in frames that overlap",
    "scenes": "unwraps a folder of scenes by Snakemake",
    "prep": "hands finished scenes on to MintPy or dolphin",
    "closure": "closes the loop of three interferograms, and tells where it is misclosed",
    "stack": "finds one whole number for each certain part of a stack whose loops are closed",
    "page": "makes a page of a session and its report",
    "live": "keeps a page of a session that is being worked on",
    "report": "tells what is in a report",
}
ALIKE = 0.7  # of the letters of a word and of a verb, which it may have been meant to be
USE = "usage: wundjeska [VERB] WORDS..; `wundjeska VERB --help` tells a verb's words\n\n"


def module_of(verb: str) -> ModuleType:
    """The module of a verb, with which GDAL is loaded."""
    with held():
        return import_module(f".commands.{verb}", __package__)


def parser_of(verb: str) -> ArgumentParser:
    """The parser of a verb's words."""
    parser: ArgumentParser = module_of(verb).words()
    parser.prog = f"wundjeska {verb}"
    setattr(parser, "error", refuse)
    return parser


def refuse(why: str) -> NoReturn:
    """What becomes of words that a parser refuses: one line."""
    raise Trouble(f"{why}; --help tells more", REFUSED_WORDS)


def version() -> str:
    """The version, and for a package where the program inside comes from, and what the gate said of it."""
    from .build_info import lines

    return "\n".join([f"wundjeska {__version__}", *lines()])


def help_text() -> str:
    lines = [f"  {verb:<9} {what}" for verb, what in VERBS.items()]
    return USE + "\n".join([*lines, "", "Without a verb it is `unwrap`:", "", parser_of("unwrap").format_help()])


def with_auto(words: List[str]) -> List[str]:
    """The words in which `--reference auto` stands as one, since a pixel is two."""
    found = list(words)
    for place in range(len(found) - 1, -1, -1):
        if found[place : place + 2] == ["--reference", "auto"]:
            found[place : place + 2] = ["--reference-auto"]
    return ["--reference-auto" if word == "--reference=auto" else word for word in found]


def run(verb: str, words: List[str]) -> int:
    """The status of a verb."""
    if verb == "scenes":  # words after the folder are Snakemake's
        status: int = module_of(verb).main(words)
        return status
    parser = parser_of(verb)
    has_auto = any("--reference-auto" in action.option_strings for action in parser._actions)
    asked = parser.parse_args(with_auto(words) if has_auto else words)
    status = module_of(verb).main(asked)
    return status


def check_verb(words: List[str]) -> None:
    """Trouble if the first word is no file and looks like a verb that is misspelt."""
    word = words[0]
    near = get_close_matches(word, VERBS, 1, ALIKE) if word.isalpha() else []
    if near and not Path(word).exists():
        raise Trouble(f"there is no verb {word}, nor a raster of this name; did you mean {near[0]}?", REFUSED_WORDS)


def command(words: List[str]) -> int:
    """The status of the words."""
    if not words:
        raise Trouble("wanted a raster to unwrap, or a verb; --help tells more", REFUSED_WORDS)
    if words[0] in ("--help", "-h"):
        print(help_text())
        return 0
    if words[0] == "--version":
        print(version())
        return 0
    if words[0] in VERBS:
        return run(words[0], words[1:])
    check_verb(words)
    return run("unwrap", words)


def main(verb: Optional[str] = None) -> None:
    """Runs the words of the command line, of one verb if it is named, and ends the process."""
    words = sys.argv[1:]
    run_main(lambda: command(words) if verb is None else run(verb, words))
