"""The pairs of a folder of finished scenes, as other programs take them: earlier image first, radians. It wants GDAL."""
import math
from argparse import Namespace
from dataclasses import dataclass
from datetime import datetime
from pathlib import Path
from typing import Dict, List, Optional, Tuple

import numpy as np
from osgeo import gdal

from .networks import pair_of
from .outputs import PRODUCT
from .product import CYCLES
from .rasters import Band, Scene, band_of, check_alike, is_product, name_of, open_raster, whole
from .trouble import FILE_FAULT, REFUSED_WORDS, Trouble

DONE, SURFACE, PARTS = "unwrapped.txt", "cycles.tif", "components.tif"
PAIR, COHERENCE = "{pair}", "{pair}/coherence.tif"
TURNED = "turned"  # how the SIGN of a product begins that is the negative of the phase
NOT_ZERO = np.float32(1e-6)  # radians; a phase of 0 in its place, since 0 stands for no value


@dataclass(frozen=True)
class Pair:
    """A finished scene and the days of its images, as 20230101, the earlier one first. `is_turned` says that its name has the later
    one first."""

    name: str
    folder: Path
    days: Tuple[str, str]
    is_turned: bool

    def dates(self) -> str:
        return "_".join(self.days)


@dataclass(frozen=True)
class Layers:
    """What is handed on of a pair, (rows, columns): phase in radians (float32), coherence from 0 to 1 (float32) and the numbers of
    components. 0 stands for no value in each, and no phase that is there is 0."""

    phase: np.ndarray
    coherence: np.ndarray
    components: np.ndarray


def day_of(text: str) -> Optional[str]:
    """A day as 20230101, of that or of 2023-01-01; None if it is none."""
    day = text.replace("-", "") if text.count("-") == 2 else text
    try:
        return day if datetime.strptime(day, "%Y%m%d").strftime("%Y%m%d") == day else None
    except ValueError:
        return None


def pair_in(folder: Path) -> Pair:
    """The pair of a scene. Trouble if its name is not of two days."""
    days = [day_of(text) for text in pair_of(folder.name) or ()]
    if len(days) != 2 or days[0] is None or days[1] is None or days[0] == days[1]:
        raise Trouble(f"{folder}: the name of a scene is a pair of days, as 20230101_20230113")
    first, second = sorted((days[0], days[1]))
    return Pair(folder.name, folder, (first, second), days[0] > days[1])


def is_finished(scene: Path) -> bool:
    """Whether a scene has its surface, and not only that of an earlier run."""
    return (scene / DONE).exists() and (scene / SURFACE).exists()


def pairs_in(folder: Path) -> List[Pair]:
    """The finished pairs of a folder by their days."""
    if not folder.is_dir():
        raise Trouble(f"there is no folder {folder}", FILE_FAULT)
    found: Dict[str, Pair] = {}
    for scene in sorted(folder.glob("*")):
        if not is_finished(scene):
            continue
        pair = pair_in(scene)
        if pair.dates() in found:
            raise Trouble(f"{pair.folder} and {found[pair.dates()].folder} are of the same days")
        found[pair.dates()] = pair
    if not found:
        raise Trouble(f"{folder} has no finished scenes; `wundjeska scenes {folder}` makes them")
    return [found[dates] for dates in sorted(found)]


def unfinished_in(folder: Path) -> List[str]:
    """The names of scenes that were begun and are not finished."""
    return sorted(log.parent.name for log in folder.glob("*/unwrap.log") if not is_finished(log.parent))


def told_of(raster: gdal.Dataset, name: str) -> str:
    """What a GeoTIFF of this package tells of itself, or nothing."""
    return raster.GetMetadataItem(f"{PRODUCT}{name}") or ""


def surface_of(pair: Pair) -> gdal.Dataset:
    """The surface of a pair. Trouble if it is no product in cycles or radians."""
    raster = open_raster(str(pair.folder / SURFACE))
    if not is_product(raster):
        raise Trouble(f"{name_of(raster)} is no product of this program")
    if told_of(raster, "UNIT") not in CYCLES:
        raise Trouble(f"{name_of(raster)} is in {told_of(raster, 'UNIT')}; wanted are scenes with unit=cycles or unit=radians")
    return raster


def radians_of(raster: gdal.Dataset, is_turned: bool) -> np.ndarray:
    """The phase as made, float32, 0 where there is none."""
    values, there = Band(raster).read(whole(raster))
    sign = -1 if is_turned != told_of(raster, "SIGN").startswith(TURNED) else 1
    cycle = sign * 2 * math.pi / CYCLES[told_of(raster, "UNIT")]
    phase = (values * cycle).astype(np.float32)
    return np.where(there, np.where(phase == 0, NOT_ZERO, phase), np.float32(0))


def coherence_of(pair: Pair, like: gdal.Dataset, asked: Namespace) -> np.ndarray:
    """The coherence of a pair, float32, 0 where there is none."""
    raster = open_raster(str(pair.folder.parent / asked.coherence.replace(PAIR, pair.name)))
    check_alike(like, raster)
    band = Band(raster, band_of(raster, asked.coherence_band, "--coherence-band"))
    values, there = Scene(band, highest=asked.coherence_max).read_coherence(band, whole(raster))
    return np.where(there, values, 0).astype(np.float32)


def components_of(pair: Pair, like: gdal.Dataset, most: int) -> np.ndarray:
    """The numbers of components, by falling size. Those beyond the most are 0."""
    raster = open_raster(str(pair.folder / PARTS))
    check_alike(like, raster)
    values, there = Band(raster).read(whole(raster))
    return np.where(there & (values <= most), values, 0)


def layers_of(pair: Pair, like: gdal.Dataset, asked: Namespace, most: int) -> Layers:
    """What is handed on of a pair that has the pixels of the first one."""
    raster = surface_of(pair)
    check_alike(like, raster)
    phase = radians_of(raster, pair.is_turned != asked.turn)
    return Layers(phase, coherence_of(pair, like, asked), components_of(pair, like, most))


def check_coherence_words(asked: Namespace) -> None:
    """Trouble if the words name no coherence of each pair."""
    if PAIR not in asked.coherence:
        raise Trouble(f"--coherence {asked.coherence}: a name has {PAIR} where that of the scene stands", REFUSED_WORDS)
    if not 0 < asked.coherence_max < math.inf:
        raise Trouble("--coherence-max is above 0", REFUSED_WORDS)
