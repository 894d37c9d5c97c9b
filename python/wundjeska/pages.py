"""What all pages have: the head and the foot of an HTML file that asks for nothing else, its style, and how colours range. NumPy
alone."""
import base64
import hashlib
import shlex
import sys
import time
from html import escape
from pathlib import Path
from typing import Sequence, Tuple

import numpy as np

from . import __version__
from .build_info import proofs_of
from .program import program

COMMON = (1, 99)  # the range of colours, in per cent of the pixels
POLICY = "default-src 'none'; img-src data:; style-src 'unsafe-inline'"
HINT = "Point at a map to read it. A double click shows a part of all maps, a drag moves it, the key Escape or a click on the title shows the whole."
STYLE = """
body { font: 15px/1.45 sans-serif; color: #222; background: #fff; margin: 1.5em auto; max-width: 1120px; padding: 0 1em }
h1 { font-size: 1.5em; overflow-wrap: anywhere } h2 { font-size: 1.2em; margin-top: 2em; border-bottom: 1px solid #ccc }
h3 { font-size: 1em; margin: 0 0 .2em }
.verdict { display: inline-block; padding: .3em .8em; color: #fff; font-weight: bold }
.accepted { background: #1a7a3a } .amber { background: #9a5b00 } .refused { background: #b02a1c }
footer { margin-top: 2.5em; border-top: 1px solid #ccc; font-size: .85em; color: #555; overflow-wrap: anywhere }
.row { display: flex; flex-wrap: wrap; gap: 1.5em; align-items: flex-start }
figure { margin: 0; flex: 1 1 340px; max-width: 540px; min-width: 0 } figcaption { font-size: .9em; padding-top: .2em }
.small figure { flex: 1 1 240px; max-width: 340px }
figure > svg, .wide > svg { width: 100%; display: block } svg image { image-rendering: pixelated }
svg text { font: 12px sans-serif; fill: #222 } svg text.system { font-size: 10px; fill: #666 }
output { display: block; min-height: 1.3em; font: 12px/1.3 sans-serif; color: #31408e; font-variant-numeric: tabular-nums }
.hint { font-size: .9em; color: #555 } .ends { display: none } .part .ends { display: inline } .part .ticks, .part .mark { display: none }
.part .frame { cursor: grab; touch-action: none } .frame { cursor: crosshair } .concerns { margin: .4em 0 1em } .concerns .bad { color: #7a4800 }
.wide { overflow-x: auto } svg.history { min-width: 1000px }
table { border-collapse: collapse } td, th { border: 1px solid #bbb; padding: .25em .7em; text-align: right }
th { background: #eee }
"""


def head_of(title: str, script: str = "") -> str:
    """What stands before the first words of a page, which may run this script and no other."""
    allowed = f"; script-src '{sum_of(script)}'" if script else ""
    return "\n".join(
        [
            '<!DOCTYPE html><html lang="en"><head><meta charset="utf-8">',
            '<meta name="viewport" content="width=device-width, initial-scale=1">',
            f'<meta http-equiv="Content-Security-Policy" content="{POLICY}{allowed}">',
            f"<title>{escape(title)}</title><style>{STYLE}</style></head><body>",
        ]
    )


def sum_of(script: str) -> str:
    """A script as a policy allows it."""
    return "sha256-" + base64.b64encode(hashlib.sha256(script.encode()).digest()).decode()


def map_script() -> str:
    """The script of pages with maps."""
    return (Path(__file__).resolve().parent / "maps.js").read_text()


def words_said() -> str:
    """The command line."""
    return shlex.join([Path(sys.argv[0]).name, *sys.argv[1:]])


def footer(files: Sequence[Tuple[str, str]], words: str) -> str:
    """What a page was made of, each file with what it is, when, by which version and by which words."""
    named = "".join(f"{what}: {escape(name)}<br>" for what, name in files if name)
    proofs = proofs_of(program())
    version = f"wundjeska {__version__}" + (f", proofs: {proofs}" if proofs else "")
    when = time.strftime("%Y-%m-%d %H:%M UTC", time.gmtime())
    return f"<footer><p>{named}Made {when} by {version}: <code>{escape(words)}</code></p></footer>"


def end_of(script: str = "") -> str:
    """What stands after the last words of a page."""
    return (f"<script>{script}</script>" if script else "") + "</body></html>"


def scaled(values: np.ndarray, low: float, high: float) -> np.ndarray:
    """Parts from 0 to 1 of a range; what lies beyond it is at its ends."""
    return np.clip((values - low) / ((high - low) or 1), 0, 1)
