"""Keeps a page of a session that is being worked on, for a screen on the wall: run it, and open the page in any browser.

Whenever the file of the session has changed, the program's command `watch` runs its scripts, beside readers that look at the newest
surface without ever waiting for anybody. The page shows which surfaces were published and which of them each reader saw, and the
last one beside the phase, as `grid` gives it of a run of its own. The browser loads the page again every few seconds. If the program
refuses the session, as it may while it is being written, the page tells why, and goes on showing what it showed.
"""
import itertools
import time
from argparse import ArgumentParser, Namespace, RawDescriptionHelpFormatter
from dataclasses import dataclass
from html import escape
from pathlib import Path
from typing import List, Optional, Sequence, Tuple

import numpy as np

from ..displacements import read_grid
from ..outputs import Outputs, is_same, keep
from ..pages import COMMON, head_of, scaled
from ..pictures import BRIGHTER, ROUND, Bar, coloured, map_of, pixel_axes, text, thinned, thinned_words
from ..planes import CYCLE, TILED_LIMITS, Session, read_session
from ..program import MAX_WORKERS, Problem, run_program, workers_or_default
from ..report_reader import NODATA
from ..trouble import BROKEN_INPUT, REFUSED_WORDS, Trouble
from ..unwrapping import RULES, SIDE

MAX_READERS, MAX_READS = 8, 4096
LEFT, STEP, LANE, MOST = 90, 24, 26, 200  # of the chart, in units; how many publications it shows
SEEN, MISSED = "#1a7a3a", "#ddd"


@dataclass(frozen=True)
class Watched:
    """The revisions that a run published, and those that each reader saw."""

    published: List[int]
    seen: List[List[int]]


def watched_of(told: bytes, readers: int) -> Watched:
    """What `watch` wrote of so many readers. Trouble if it is something else."""
    try:
        lines = [line.split() for line in told.decode().splitlines()]
        count = len(lines) - readers
        published = [int(revision) for (_, revision) in lines[:count]]
        seen = [[int(revision) for revision in line[2:]] for line in lines[count:]]
        right = [["published", str(revision)] for revision in published]
        right += [["reader", str(number), *map(str, revisions)] for number, revisions in enumerate(seen, 1)]
    except (ValueError, UnicodeDecodeError):
        right, lines, seen = [], [[""]], []
    if right != lines or len(seen) != readers:
        raise Trouble(f"the program is an older one: it does not write what watch writes: {told[:60]!r}")
    return Watched(published, seen)


def chart(watched: Watched) -> str:
    """A column for each publication and a row for each reader: a disc for what it saw, a ring for what it did not look at."""
    shown = watched.published[-MOST:]
    rows = [("published", shown), *((f"reader {number}", seen) for number, seen in enumerate(watched.seen, 1))]
    parts = []
    for row, (name, seen) in enumerate(rows, 1):
        parts.append(text(LEFT - 14, LANE * row + 4, name, "end"))
        for column, revision in enumerate(shown):
            colour = f'fill="{SEEN}"' if revision in seen else f'fill="#fff" stroke="{MISSED}" stroke-width="2"'
            title = f"<title>{name}: revision {revision}</title>"
            parts.append(f'<circle cx="{LEFT + STEP * column}" cy="{LANE * row}" r="6" {colour}>{title}</circle>')
    for column, revision in enumerate(shown):
        if len(shown) <= 40 or column % 5 == 0:
            parts.append(text(LEFT + STEP * column, LANE * (len(rows) + 1) + 2, str(revision)))
    wide = max(LEFT + STEP * len(shown), 360)
    return (
        f'<div class="wide"><svg style="width:{wide}px" viewBox="0 0 {wide} {LANE * (len(rows) + 1) + 10}" role="img" '
        f'aria-label="what readers saw">{"".join(parts)}</svg></div>'
    )


def surface_map(values: np.ndarray) -> str:
    """A surface in cycles with its colour bar."""
    cycles = np.where(values == NODATA, np.nan, values / CYCLE)
    known = cycles[~np.isnan(cycles)]
    low, high = (float(part) for part in np.percentile(known, COMMON)) if len(known) else (0.0, 0.0)
    colours = coloured(scaled(thinned(cycles), low, high), BRIGHTER)
    words = f"The last surface of a run of its own; {len(known)} pixels have a value"
    return map_of(colours, pixel_axes(cycles.shape), Bar("surface", BRIGHTER, low, high, "cycles"), "Surface", words)


def phase_map(session: Session) -> str:
    cycles = np.where(session.opened, session.phase / CYCLE, np.nan)
    bar = Bar("phases", ROUND, 0, 1, "cycles")
    words = "At the pixels that are open before the scripts"
    return map_of(coloured(thinned(cycles), ROUND), pixel_axes(cycles.shape), bar, "Wrapped phase", words)


def body_of(session: Session, watched: Watched, grid: Optional[np.ndarray]) -> str:
    """The chart and the maps of a run."""
    count = len(watched.published)
    last = f", the last of revision {watched.published[-1]}" if count else ""
    surface = surface_map(grid) if grid is not None else "<p>No surface was published.</p>"
    return (
        f"<h2>Published</h2><p>{count} surface{'s' if count != 1 else ''}{last}. A reader sees what is newest when it looks, so it "
        f"may miss some, but never the last.</p>{chart(watched)}"
        f'<h2>Phase and surface</h2>{thinned_words(session.phase.shape)}<div class="row">{phase_map(session)}{surface}</div>'
    )


def page_of(name: str, seconds: float, when: str, body: str, why: str) -> str:
    """A page that a browser loads again after so many seconds; `why` tells what the program refused, if it did."""
    head = head_of(f"{name}, live").replace("<title>", f'<meta http-equiv="refresh" content="{seconds:g}"><title>', 1)
    verdict = f'<p class="verdict refused">{escape(why)}</p>' if why else '<p class="verdict accepted">up to date</p>'
    return f"{head}<h1>{escape(name)}</h1>{verdict}<p>As of {when}.</p>{body}</body></html>\n"


def run_of(session: bytes, asked: Namespace) -> Tuple[Session, Watched, Optional[np.ndarray]]:
    """What a run of a session published, what its readers saw, and the last surface of another run."""
    planes = read_session(session)
    TILED_LIMITS.check(planes.phase.shape, asked.session)
    words = Problem(asked.rule, asked.tile, planes.ramp or (0, 0)).words()
    words += ["--workers", str(workers_or_default(asked.workers))]
    wanted = ["--readers", str(asked.readers), "--reads", str(asked.reads)]
    watched = watched_of(run_program(["watch", *words, *wanted], session, asked.session), asked.readers)
    told = run_program(["grid", *words], session, asked.session) if watched.published else b""
    return planes, watched, read_grid(told, asked.session) if told else None


def words() -> ArgumentParser:
    found = ArgumentParser(
        description=__doc__,
        formatter_class=RawDescriptionHelpFormatter,
        epilog="example: live session page.html --readers 4\n"
        "It goes on until it is interrupted, or for --rounds looks at the file; then the status is 0 if the last one was a session.",
    )
    found.add_argument("session", help="the session, which others write")
    found.add_argument("page", help="the HTML file to keep")
    found.add_argument("--tile", type=int, default=SIDE, metavar="SIDE", help=f"the side of tiles, from 2 to 128 (default: {SIDE})")
    found.add_argument("--rule", choices=RULES, default=RULES[0], help="how two pixels weigh their edge (default: least)")
    found.add_argument("--workers", type=int, metavar="N", help=f"threads that solve, from 1 to {MAX_WORKERS} (default: one a processor)")
    found.add_argument("--readers", type=int, default=2, metavar="N", help=f"readers, from 1 to {MAX_READERS} (default: 2)")
    found.add_argument("--reads", type=int, default=MAX_READS, metavar="N", help=f"how often each looks (default: {MAX_READS})")
    found.add_argument("--every", type=float, default=2, metavar="SECONDS", help="how often the file is looked at (default: 2)")
    found.add_argument("--rounds", type=int, default=0, metavar="N", help="how many looks there are (default: until interrupted)")
    return found


def check(asked: Namespace) -> None:
    """Trouble if a word is out of its range, or the page would take the session's place."""
    ranges: Sequence[Tuple[str, Optional[int], int, int]] = (
        ("--tile", asked.tile, 2, 128),
        ("--workers", asked.workers, 1, MAX_WORKERS),
        ("--readers", asked.readers, 1, MAX_READERS),
        ("--reads", asked.reads, 1, MAX_READS),
    )
    for name, number, least, most in ranges:
        if number is not None and not least <= number <= most:
            raise Trouble(f"{name} is from {least} to {most}", REFUSED_WORDS)
    if not asked.every >= 0.1:
        raise Trouble("--every is at least 0.1 seconds", REFUSED_WORDS)
    if asked.rounds < 0:
        raise Trouble("--rounds is at least 0", REFUSED_WORDS)
    if is_same(Path(asked.session), Path(asked.page)):
        raise Trouble(f"{asked.page} is an input; the output needs a name of its own", REFUSED_WORDS)
    Outputs([asked.session]).beside(asked.page)  # Trouble if it cannot be written


def look(session: bytes, asked: Namespace, body: str) -> Tuple[str, str]:
    """What the page tells of a session, and why the program refused it; then the page tells what it told."""
    try:
        return body_of(*run_of(session, asked)), ""
    except Trouble as trouble:
        if trouble.status == REFUSED_WORDS:
            raise
        return body, str(trouble)


def main(asked: Namespace) -> int:
    check(asked)
    before, body, why = None, "", ""
    for number in itertools.count(1):
        session = Path(asked.session).read_bytes()
        if session != before:
            body, why = look(session, asked, body)
            page = page_of(Path(asked.session).name, asked.every, time.strftime("%H:%M:%S"), body, why)
            keep(Path(asked.page), page.encode())
            print(f"{asked.page}: {why or 'redrawn'}", flush=True)
            before = session
        if number == asked.rounds:
            break
        time.sleep(asked.every)
    return BROKEN_INPUT if why else 0
