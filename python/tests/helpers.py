"""What the tests share: how the commands are called, rasters to call them on, and a folder for each test.

The commands are those of the clone's recipes; RECIPES names another folder of recipes, as that of an earlier commit. If
WUNDJESKA_INSTALLED is set they are those of the package that is installed, and nothing of the clone is used but its rasters.
"""
import os
import subprocess
import sys
import tempfile
import unittest
from pathlib import Path
from typing import Any, List, Optional, Sequence, Tuple

import numpy as np
from osgeo import gdal, osr

from wundjeska.rasters import Band, Scene, open_raster

TOP = Path(__file__).resolve().parent.parent.parent
HERE = TOP / "recipes"
RECIPES = Path(os.environ.get("RECIPES", HERE))
VERBS = {"to_session.py": "session", "to_geotiff.py": "surface", "frames.py": "frames", "page.py": "page"}
VERBS.update({"report_reader.py": "report", "scenes": "scenes", "closure.py": "closure", "live.py": "live"})
PLACE = (5e5, 30, 0, 4e6, 0, -30)
Told = Tuple[int, str]


def argv(name: str, *words: object) -> List[str]:
    """The words of a call of a recipe, or of the command `wundjeska`."""
    if os.environ.get("WUNDJESKA_INSTALLED"):
        verb = [] if name == "wundjeska" else [VERBS[name]]
        return [sys.executable, "-m", "wundjeska", *verb, *map(str, words)]
    return [str(RECIPES / name), *map(str, words)]


def command(name: str, *words: object, **more: Any) -> Told:
    """Runs a recipe; its status, and what it wrote to both streams."""
    ran = subprocess.run(argv(name, *words), capture_output=True, text=True, timeout=120, **more)
    return ran.returncode, ran.stdout + ran.stderr


def raster(
    path: Path,
    values: np.ndarray,
    kind: int = gdal.GDT_Float32,
    nodata: Optional[float] = None,
    place: Optional[Sequence[float]] = PLACE,
    epsg: Optional[int] = 32633,
    point: bool = False,
) -> str:
    """A GeoTIFF of the values, (rows, columns)."""
    made = gdal.GetDriverByName("GTiff").Create(str(path), values.shape[1], values.shape[0], 1, kind)
    if point:
        made.SetMetadataItem("AREA_OR_POINT", "Point")
    if place:
        made.SetGeoTransform(place)
    if epsg:
        system = osr.SpatialReference()
        system.ImportFromEPSG(epsg)
        made.SetSpatialRef(system)
    if nodata is not None:
        made.GetRasterBand(1).SetNoDataValue(nodata)
    made.GetRasterBand(1).WriteArray(values)
    made.FlushCache()
    return str(path)


class InFolder(unittest.TestCase):
    def setUp(self) -> None:
        folder = tempfile.TemporaryDirectory()
        self.addCleanup(folder.cleanup)
        self.folder = Path(folder.name)

    def scene(self, values: Any, **words: Any) -> Scene:
        """What a session is made of where these are the phases."""
        return Scene(Band(open_raster(raster(self.folder / "phase.tif", np.array(values), **words))))
