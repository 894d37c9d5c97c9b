"""The table of many scenes, as a file of comma-separated values: a row for each, with what its product tells. It wants GDAL."""
import csv
import io
import re
from dataclasses import astuple, dataclass, fields
from pathlib import Path
from typing import Dict, List, Optional, Sequence, Tuple

from osgeo import gdal

from . import __version__
from .concerns import Concern, read_note
from .outputs import PRODUCT
from .stack import Scene

gdal.UseExceptions()

NAME = "scenes.csv"
USED = "unwrap.used"  # what Snakemake measured of the job


@dataclass(frozen=True)
class Row:
    """A scene in the table; None where its product tells nothing.

    state              'accepted', what is said in its place, 'failed' or 'not done'
    signs              how many concerns say that whole cycles may well be wrong
    cost_a_pixel       of the surface, or of its guide
    parts_percent      the share of the open pixels that lie in certain parts
    residues_percent   the share of the cells that have a residue, before a filter
    seconds, memory_mb what the job took, as Snakemake samples it
    """

    scene: str
    state: str
    signs: Optional[int] = None
    cost: Optional[int] = None
    cost_a_pixel: Optional[float] = None
    parts_percent: Optional[float] = None
    residues_percent: Optional[float] = None
    seconds: Optional[float] = None
    memory_mb: Optional[float] = None
    concerns: str = ""


def number_in(text: Optional[str], pattern: str) -> Optional[float]:
    """The number that a pattern finds."""
    found = re.search(pattern, text or "")
    return float(found[1]) if found else None


def used_by(path: Path) -> Tuple[Optional[float], Optional[float]]:
    """Seconds and megabytes of a job, by Snakemake's table of two lines; None where it has a dash."""
    lines = path.read_text().splitlines() if path.exists() else []
    if len(lines) < 2:
        return None, None
    told: Dict[str, str] = dict(zip(lines[0].split("\t"), lines[-1].split("\t")))
    return number_in(told.get("s"), r"^([0-9.]+)$"), number_in(told.get("max_rss"), r"^([0-9.]+)$")


def row_of(scene: Scene) -> Row:
    """The row of a scene."""
    if not scene.is_done:
        return Row(scene.name, "failed" if scene.failure else "not done", concerns=scene.failure or "")
    try:
        raster = gdal.Open(str(Path(scene.name, "cycles.tif")))
    except RuntimeError as error:
        return Row(scene.name, "failed", concerns=str(error))
    told = {name: raster.GetMetadataItem(f"WUNDJESKA_{name}") for name in ("VERDICT", "COST", "TILE_COST", "SEAM_COST", "PARTS", "RESIDUES", "CONCERNS")}
    costs = [told["COST"]] if told["COST"] else [told["TILE_COST"], told["SEAM_COST"]]
    cost = sum(int(one) for one in costs if one) if any(costs) else None
    concerns: Sequence[Concern] = read_note(told["CONCERNS"]) if told["CONCERNS"] else ()
    seconds, memory = used_by(Path(scene.name, USED))
    return Row(
        scene.name,
        told["VERDICT"] or "",
        sum(concern.is_bad for concern in concerns),
        cost,
        None if cost is None else round(cost / (raster.RasterXSize * raster.RasterYSize), 3),
        number_in(told["PARTS"], "with ([0-9.]+) %") if told["PARTS"] else None,
        number_in(told["RESIDUES"], "([0-9.]+) %"),
        seconds,
        memory,
        "; ".join(concern.text for concern in concerns),
    )


def table_of(rows: List[Row]) -> str:
    """The table, with a line of names first; its last column marks it as a product, which a later run replaces."""
    text = io.StringIO()
    writer = csv.writer(text, lineterminator="\n")
    writer.writerow([*(field.name for field in fields(Row)), f"{PRODUCT}VERSION"])
    writer.writerows([*("" if value is None else value for value in astuple(row)), __version__] for row in rows)
    return text.getvalue()
