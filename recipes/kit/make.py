#!/usr/bin/python3
"""Makes rasters to try the recipes on: make.py WIDTH HEIGHT FOLDER. The three rasters of this folder are of 128 by 104 pixels.

The scene is that of examples/interferogram.py, 19.2 km wide. phase.tif has radians from -pi to pi and -9999 as NODATA on
the lake, coherence.tif is NaN there, and complex.tif has the same phases with the coherence as amplitude, 0 on the lake.
All lie in UTM zone 33 north. With --plain complex.tif is not made. With --times N each pixel stands N times in a row and N
times in a column, so that large rasters take seconds. With --trial SEED the phases, weights and mask are those of the command
`trial SEED WIDTH HEIGHT`, of which 12 % of the cells have a residue.
"""
import argparse
import math
import subprocess
import sys
from pathlib import Path

import numpy as np
from osgeo import gdal, osr

TOP = Path(__file__).resolve().parent.parent.parent
sys.path.insert(0, str(TOP / "python"))
from wundjeska.planes import CYCLE, read_session
from wundjeska.trouble import run_main

LEFT, UPPER, SCENE = 430000.0, 4520000.0, 19200.0  # metres; the scene's width


def write(path: Path, values: np.ndarray, kind: int, nodata=None) -> None:
    """A GeoTIFF of the values, (rows, columns)."""
    height, width = values.shape
    made = gdal.GetDriverByName("GTiff").Create(str(path), width, height, 1, kind, ["COMPRESS=DEFLATE", "TILED=YES"])
    system = osr.SpatialReference()
    system.ImportFromEPSG(32633)
    made.SetSpatialRef(system)
    pixel = SCENE / width
    made.SetGeoTransform((LEFT, pixel, 0, UPPER, 0, -pixel))
    if nodata is not None:
        made.GetRasterBand(1).SetNoDataValue(nodata)
    made.GetRasterBand(1).WriteArray(values)
    made.FlushCache()


def main() -> int:
    words = argparse.ArgumentParser(description=__doc__, formatter_class=argparse.RawDescriptionHelpFormatter)
    words.add_argument("width", type=int, help="in pixels")
    words.add_argument("height", type=int, help="in pixels")
    words.add_argument("folder", type=Path, help="it is made if it is not there")
    words.add_argument("--plain", action="store_true", help="without complex.tif")
    words.add_argument(
        "--times", type=int, default=1, metavar="N", help="rasters N times as wide and high (default: 1)"
    )
    words.add_argument("--trial", metavar="SEED", help="the session of this number, in place of the scene")
    asked = words.parse_args()
    if asked.trial:
        script = ["bench/rasters.py", f"trial-{asked.trial}-{asked.width}x{asked.height}"]
    else:
        script = ["examples/interferogram.py", str(asked.width), str(asked.height)]
    script = [sys.executable, str(TOP / script[0]), *script[1:]]
    scene = read_session(subprocess.run(script, check=True, capture_output=True).stdout)
    phase, weights, opened = (
        np.kron(plane, np.ones((asked.times,) * 2)) for plane in (scene.phase, scene.weights, scene.opened)
    )
    radians = phase * (2 * math.pi / CYCLE)
    radians = np.where(radians > math.pi, radians - 2 * math.pi, radians)
    coherence = weights / (256 if asked.trial else 255)
    asked.folder.mkdir(parents=True, exist_ok=True)
    write(asked.folder / "phase.tif", np.where(opened, radians, -9999), gdal.GDT_Float32, -9999)
    write(asked.folder / "coherence.tif", np.where(opened, coherence, np.nan), gdal.GDT_Float32)
    if not asked.plain:
        write(asked.folder / "complex.tif", np.where(opened, coherence * np.exp(1j * radians), 0), gdal.GDT_CFloat32)
    return 0


if __name__ == "__main__":
    gdal.UseExceptions()
    run_main(main)
