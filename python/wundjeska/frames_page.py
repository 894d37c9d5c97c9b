"""The page of a raster that was joined of frames: its surface, what is undecided, and how the overlaps agree."""
from dataclasses import dataclass, field
from html import escape
from typing import Optional, Sequence, Tuple

import numpy as np

from .guide_maps import UNDECIDED
from .pages import COMMON, HINT, end_of, footer, head_of, map_script, scaled, words_said
from .pictures import BRIGHTER, MASKED, PLAIN, Axes, Bar, Values, coloured, map_of, mark_of, thinned_words
from .reduced import Flags, Reduced


@dataclass(frozen=True)
class Shown:
    """What a page tells of a joint surface: its title, what it is of in words, the verdict and whether all overlaps agree, what is not
    proved, the surface with its unit, what is 0 of it and in which box, what is undecided, lines on overlaps, and the files."""

    title: str
    head: str
    verdict: str
    agreed: bool
    not_proved: str
    surface: Reduced
    unit: str
    axes: Axes
    reference: str
    box: Optional[Sequence[int]] = None
    undecided: Optional[Flags] = None
    undecided_told: str = ""
    lines: Sequence[str] = ()
    files: Sequence[Tuple[str, str]] = field(default=())


def surface_map(shown: Shown) -> str:
    """The surface; outliers do not stretch its colours."""
    surface, values = shown.surface, shown.surface.values
    known = values[~np.isnan(values)]
    low, high = (float(part) for part in np.percentile(known, COMMON)) if len(known) else (0.0, 0.0)
    words = f"{surface.count} pixels have a value"
    if surface.count:
        words += f", from {surface.low:.3f} to {surface.high:.3f} {shown.unit}; the colours range over what is shown from"
        words += f" {COMMON[0]} to {COMMON[1]} %. Reference: {shown.reference}"
    mark = mark_of(shown.box, surface.shape, f"reference: {shown.reference}") if shown.box is not None else None
    bar, colours = Bar("surface", BRIGHTER, low, high, shown.unit), coloured(scaled(values, low, high), BRIGHTER)
    return map_of(colours, shown.axes, bar, "Surface", words, mark, Values(values, shown.unit))


def undecided_map(shown: Shown) -> str:
    """Where nobody knows which cycles are right, if a filter tells."""
    if shown.undecided is None:
        return ""
    is_known = ~np.isnan(shown.surface.values)
    colours = np.where(is_known[..., None], PLAIN, MASKED).astype(np.uint8)
    colours[shown.undecided.flags] = UNDECIDED
    keys = [(UNDECIDED, "undecided"), (PLAIN, "the same"), (MASKED, "masked")]
    return map_of(colours, shown.axes, keys, "Where no filter makes other cycles", shown.undecided_told.capitalize())


def page_of(shown: Shown) -> str:
    """The page, one HTML file that asks for nothing else."""
    script, colour = map_script(), "accepted" if shown.agreed else "amber"
    listed = "".join(f"<li>{escape(line)}</li>" for line in shown.lines)
    return "\n".join(
        [
            head_of(shown.title, script),
            f"<h1>{escape(shown.title)}</h1><p>{escape(shown.head)}</p>",
            f'<p><span class="verdict {colour}">{escape(shown.verdict)}</span></p>',
            f'<h2>Surface</h2><p>Masked pixels are white.{thinned_words(shown.surface.shape)}</p><p class="hint">{HINT}</p>',
            f'<div class="row">{surface_map(shown)}{undecided_map(shown)}</div>',
            f"<h2>Overlaps of frames</h2><ul>{listed}</ul><p>{escape(shown.not_proved)}</p>",
            footer(shown.files, words_said()),
            end_of(script),
        ]
    )
