"""The page of many scenes: a small picture, the verdict and the concerns of each, what wants a look first. It wants GDAL."""
from dataclasses import dataclass
from html import escape
from pathlib import Path
from typing import List, Optional, Sequence, Tuple
from urllib.parse import quote

import numpy as np
from osgeo import gdal

from .concerns import Concern, judgement_of, read_note
from .guiding import NO_FILTER
from .network_picture import network_of
from .pages import COMMON, footer, head_of, scaled
from .pictures import BRIGHTER, coloured, uri
from .stack import MOST, Scene, misclosed, told_of_loop
from .unwrapping import ACCEPTED

gdal.UseExceptions()

NAME = "scenes.html"
SIDE = 160  # pixels along the longer side of a picture
STYLE = """<style>
.scene { display: flex; gap: 1em; align-items: flex-start; border-top: 1px solid #ccc; padding: .7em 0 }
.scene img { image-rendering: pixelated; max-width: 160px; max-height: 160px; flex: none; border: 1px solid #888 }
.scene h3 { overflow-wrap: anywhere } .scene div { min-width: 0 } .scene p { margin: .3em 0 } .scene ul { margin: .3em 0; padding-left: 1.2em }
.none { width: 160px; height: 60px; background: #eee; flex: none }
@media (max-width: 600px) { .scene img, .none { max-width: 96px; max-height: 96px } }
</style>"""


@dataclass(frozen=True)
class Told:
    """What is told of a scene: its picture if there is one, the verdict, whether it is that of a guide, and the concerns, None if the
    product tells none."""

    scene: Scene
    picture: Optional[np.ndarray] = None
    verdict: str = ""
    is_whole: bool = True
    concerns: Optional[Tuple[Concern, ...]] = None
    words: str = ""
    is_guided: bool = False

    def bad(self) -> int:
        return sum(concern.is_bad for concern in self.concerns or ())

    def place(self) -> Tuple[bool, int, int, str]:
        """Where it stands: what failed or was not done first, then by the bad concerns, then by all."""
        return self.scene.is_done, -self.bad(), -len(self.concerns or ()), self.scene.name

    def colour(self) -> str:
        """The class of its verdict."""
        if not self.scene.is_done:
            return "refused"
        return "amber" if self.bad() or not self.verdict.startswith(ACCEPTED) else "accepted"


def picture_of(raster: gdal.Dataset) -> np.ndarray:
    """The values of a surface for a small picture, NaN where it is masked."""
    scale = min(1.0, SIDE / max(raster.RasterXSize, raster.RasterYSize))
    wide, high = (max(1, round(scale * side)) for side in (raster.RasterXSize, raster.RasterYSize))
    band = raster.GetRasterBand(1)
    values = band.ReadAsArray(buf_xsize=wide, buf_ysize=high).astype(np.float64)
    return np.where(values == band.GetNoDataValue(), np.nan, values)


def told_of(scene: Scene) -> Told:
    """What the product of a scene tells."""
    path = Path(scene.name, "cycles.tif")
    if not scene.is_done:
        return Told(scene)
    try:
        raster = gdal.Open(str(path))
        values, unit = picture_of(raster), raster.GetRasterBand(1).GetUnitType()
    except RuntimeError as error:
        return Told(Scene(scene.name, False, f"{scene.name}: {error}"))
    note = raster.GetMetadataItem("WUNDJESKA_CONCERNS")
    known = values[~np.isnan(values)]
    span = f", {known.min():.2f} to {known.max():.2f} {unit}" if len(known) else ""
    words = f"{raster.RasterXSize} by {raster.RasterYSize} pixels{span}{residues_words(raster)}"
    is_guided = (raster.GetMetadataItem("WUNDJESKA_FILTER") or NO_FILTER) != NO_FILTER
    return Told(
        scene,
        values,
        raster.GetMetadataItem("WUNDJESKA_VERDICT") or "",
        raster.GetMetadataItem("WUNDJESKA_TILE_SIDE") is None,
        read_note(note) if note is not None else None,
        words.replace("-", "\N{MINUS SIGN}"),
        is_guided,
    )


def residues_words(raster: gdal.Dataset) -> str:
    """What a product tells of residues, its filter and what is undecided."""
    residues, left, filtered, undecided = (
        raster.GetMetadataItem(f"WUNDJESKA_{name}") for name in ("RESIDUES", "RESIDUES_LEFT", "FILTER", "UNDECIDED")
    )
    found = f", residues at {residues}" if residues else ""
    found += f", at {left}" if left else ""
    found += f", filter {filtered.partition(':')[0]}" if filtered else ""
    return found + (f", {undecided}" if undecided else "")


def image_of(values: Optional[np.ndarray]) -> str:
    """A small picture; outliers do not stretch its colours."""
    if values is None:
        return '<div class="none"></div>'
    known = values[~np.isnan(values)]
    low, high = (float(part) for part in np.percentile(known, COMMON)) if len(known) else (0.0, 0.0)
    return f'<img alt="" src="{uri(coloured(scaled(values, low, high), BRIGHTER))}">'


def verdict_words(told: Told) -> str:
    """The words of a scene's verdict."""
    if not told.scene.is_done:
        return "failed" if told.scene.failure else "not done"
    if told.concerns is None:
        return told.verdict
    return judgement_of(told.concerns, told.verdict.startswith(ACCEPTED), told.is_whole, told.is_guided)


def section_of(told: Told, pages: bool) -> str:
    """A scene on the page. Its name leads to its own page, if it has one."""
    name = escape(told.scene.name)
    if pages and told.scene.is_done:
        name = f'<a href="{quote(told.scene.name)}/page.html">{name}</a>'
    lines = [told.scene.failure] if told.scene.failure else [concern.text for concern in told.concerns or ()]
    listed = "".join(f"<li>{escape(line)}</li>" for line in lines)
    return (
        f'<div class="scene">{image_of(told.picture)}<div><h3>{name}</h3>'
        f'<p><span class="verdict {told.colour()}">{escape(verdict_words(told))}</span></p>'
        f"{f'<ul>{listed}</ul>' if listed else ''}<p>{escape(told.words)}</p></div></div>"
    )


def loop_section(names: Sequence[str]) -> str:
    """The loops, those with most misclosed pixels first."""
    if not names:
        return ""
    lines = {name: told_of_loop(name) for name in names}
    worst = sorted(names, key=lambda name: (lines[name] is not None, -misclosed(lines[name] or "")))
    rows = [
        f'<li><a href="closures/{quote(name)}/page.html">{escape(name)}</a>: {escape(lines[name] or "")}</li>'
        if lines[name] is not None
        else f"<li>{escape(name)}: not closed</li>"
        for name in worst
    ]
    first, rest = ("".join(part) for part in (rows[:MOST], rows[MOST:]))
    more = f"<details><summary>{len(rows) - MOST} more</summary><ul>{rest}</ul></details>" if rest else ""
    return f"<h2>Loops, the most misclosed first</h2><ul>{first}</ul>{more}"


def page_of(title: str, scenes: Sequence[Scene], pages: bool, loops: Sequence[str], said: str) -> str:
    """The page, one HTML file that asks for nothing else; it leads to the scenes' own pages."""
    told = sorted(map(told_of, scenes), key=Told.place)
    done, bad = sum(one.scene.is_done for one in told), sum(one.bad() > 0 for one in told)
    plain = sum(one.scene.is_done and not one.bad() for one in told)
    words = (
        f"{done} of {len(told)} scenes are done. {bad} of them have signs that their surface may be wrong by whole cycles, {plain} "
        "have none. First stands what failed, then what has most signs."
    )
    sections: List[str] = [section_of(one, pages) for one in told]
    network = network_of([(one.scene.name, one.colour(), verdict_words(one)) for one in told])
    head = head_of(title).replace("</head>", f"{STYLE}</head>", 1)
    top = f"<h1>{escape(title)}</h1><p>{words}</p>"
    return "\n".join([head, top, network, loop_section(loops), *sections, footer([], said), "</body></html>"])
