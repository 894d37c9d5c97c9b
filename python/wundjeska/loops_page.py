"""The page of a loop: what is misclosed, the largest patch first, and maps of it. NumPy alone."""
from dataclasses import dataclass, replace
from html import escape
from typing import Dict, List, Optional, Sequence, Tuple

import numpy as np

from .components import components_of
from .loops import Loops
from .pages import COMMON, HINT, end_of, footer, head_of, map_script, scaled, words_said
from .pictures import FALLING, MASKED, PLAIN, RISING, SIGNED, Axes, Bar, Colour, Values
from .pictures import any_thinned, coloured, enlarged, map_of, mark_of, pixel_axes, reach_of, thinned, thinned_words
from .planes import CYCLE

MAX_LISTED, SMALL = 100, 10  # patches in the table, and the pixels below which they are summed up
STRONGEST = 3  # cycles from which on colours are one
PROVED = (
    "The program's command closure made the closures, the whole cycles in them and the patches of three surfaces exactly, "
    "which is proved. What is not proved: that a patch is a fault of unwrapping, which of the three surfaces is wrong there, "
    "and that raising the third one by these cycles makes it right."
)


@dataclass(frozen=True)
class Shown:
    """What a page tells of a loop: its title, each surface with its verdict, axes, the level, where it is closed, and lines on which
    certain parts the loop says to raise."""

    title: str
    inputs: Sequence[Tuple[str, str]]
    axes: Optional[Axes] = None
    level: int = 0
    why: str = ""
    reference: Optional[Sequence[int]] = None
    parts: Sequence[str] = ()


def key_of(cycles: int) -> str:
    """What a colour stands for."""
    more = "" if abs(cycles) < STRONGEST else " or more" if cycles > 0 else " or less"
    return f"{cycles:+d}{more}".replace("-", "\N{MINUS SIGN}")


def cycle_map(loops: Loops, axes: Axes, shown: Shown) -> str:
    """Where the loop is misclosed, and by how many cycles."""
    known = loops.known()
    inside = np.clip(np.where(known, loops.cycles, 0), -STRONGEST, STRONGEST)
    is_shown = any_thinned(known)
    colours = np.where(is_shown[..., None], PLAIN, MASKED).astype(np.uint8)
    keys: List[Tuple[Colour, str]] = []
    for cycles in range(-STRONGEST, STRONGEST + 1):
        if cycles and (inside == cycles).any():
            colour = (RISING if cycles > 0 else FALLING)[abs(cycles) - 1]
            colours[enlarged(any_thinned(inside == cycles)) & is_shown] = colour
            keys.insert(0, (colour, key_of(cycles)))
    words = f"Whole cycles in the closures: {loops.told()}"
    if keys and reach_of(is_shown.shape):
        words += ". Misclosed pixels are drawn larger than they are, so that each is seen"
    box = [*shown.reference, *shown.reference] if shown.reference else None
    mark = mark_of(box, known.shape, f"closed at pixel {box[0]} {box[1]}") if box else None
    return map_of(colours, axes, [*keys, (PLAIN, "closed"), (MASKED, "no closure")], "What is misclosed", words, mark)


def closure_map(loops: Loops, axes: Axes) -> str:
    """The closures; outliers do not stretch the colours."""
    known = loops.known()
    values = np.where(known, loops.closures / CYCLE, np.nan)
    most = float(np.abs(np.percentile(values[known], COMMON)).max()) if known.any() else 0.0
    words = "First plus second minus third, in cycles"
    if known.any():
        words += f", from {values[known].min():.4f} to {values[known].max():.4f}"
    colours, bar = coloured(scaled(thinned(values), -most, most), SIGNED), Bar("closures", SIGNED, -most, most, "cycles")
    return map_of(colours, axes, bar, "Closures", words, values=Values(thinned(values), "cycles"))


def counts_of(loops: Loops) -> Dict[int, int]:
    """How many pixels have each number of cycles, the commonest first."""
    numbers, counts = np.unique(loops.cycles[loops.known()], return_counts=True)
    return dict(sorted(zip(numbers.tolist(), counts.tolist()), key=lambda item: -item[1]))


def lines_on_others(patches: np.ndarray) -> str:
    """What is told of the patches that the table leaves out."""
    small = patches[:, 2] < SMALL
    more, few = patches[~small][MAX_LISTED:], patches[small]
    lines = []
    if len(more):
        lines.append(f"{len(more)} more of {SMALL} pixels or more, of {int(more[:, 2].sum())} pixels in all, are not listed.")
    if len(few):
        one = "1 patch has" if len(few) == 1 else f"{len(few)} patches have"
        lines.append(f"{one} fewer than {SMALL} pixels, {int(few[:, 2].sum())} in all.")
    return f"<p>{' '.join(lines)}</p>" if lines else ""


def patch_table(loops: Loops) -> str:
    """The patches by size, but for the small ones."""
    if not len(loops.patches):
        return "<p>No pixel is misclosed.</p>"
    pixels, patches = int(loops.known().sum()), loops.by_size()
    listed = patches[patches[:, 2] >= SMALL][:MAX_LISTED]
    if not len(listed):
        return lines_on_others(patches)
    rows = "".join(
        f"<tr><td>{number}</td><td>{size}</td><td>{100 * size / pixels:.3f} %</td><td>{cycles}</td>"
        f"<td>{column}</td><td>{row}</td></tr>"
        for number, (column, row, size, cycles) in enumerate(listed.tolist(), 1)
    )
    names = ("patch", "pixels", "of those with a closure", "cycles", "column", "row")
    head = "".join(f"<th>{name}</th>" for name in names)
    words = "Column and row are of a patch's first pixel, from 0, the upper row first."
    return f'<div class="wide"><table><tr>{head}</tr>{rows}</table></div>{lines_on_others(patches)}<p>{words}</p>'


def part_section(shown: Shown) -> str:
    """Which certain parts the loop says to raise, if they are known."""
    if not shown.parts:
        return ""
    listed = "".join(f"<li>{escape(line)}</li>" for line in shown.parts)
    return f"<h2>Certain parts</h2><ul>{listed}</ul><p>No certificate says that a part that is raised is right then.</p>"


def page_of(loops: Loops, shown: Shown) -> str:
    """The page, one HTML file that asks for nothing else."""
    height, width = loops.closures.shape
    axes, script = replace(shown.axes or pixel_axes((height, width)), shape=(height, width)), map_script()
    inputs = "".join(f"<li>{escape(path)}: {escape(verdict)}</li>" for path, verdict in shown.inputs)
    common = list(counts_of(loops).items())[:8]
    counts = ", ".join(f"{cycles} at {pixels}" for cycles, pixels in common) or "none"
    parts = int(components_of(loops.known()).max(initial=0))
    level = f"Reference, where the loop is taken as closed: {shown.why}."
    if shown.level:
        level += f" For that the third surface was raised by {shown.level} cycles everywhere before."
    if parts > 1:
        level += (
            f" {parts} parts of the raster do not touch; whole cycles between them are arbitrary, so a patch may be"
        )
        level += " such a part."
    return "\n".join(
        [
            head_of(shown.title, script),
            f"<h1>{escape(shown.title)}</h1><p>The loop of three surfaces: first plus second minus third.</p><ol>{inputs}</ol>",
            f"<p>{escape(level)} Cycles: {counts} pixels.{thinned_words((height, width))}</p>",
            f'<h2>Maps</h2><p class="hint">{HINT}</p><div class="row">{cycle_map(loops, axes, shown)}{closure_map(loops, axes)}</div>',
            f"<h2>Misclosed patches, the largest first</h2>{patch_table(loops)}",
            part_section(shown),
            f"<h2>What is proved</h2><p>{PROVED}</p>",
            footer([], words_said()),
            end_of(script),
        ]
    )
