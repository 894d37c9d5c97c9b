"""How many of its loops close at each pixel of a network. It wants GDAL."""
import os
from pathlib import Path
from typing import List, Sequence

import numpy as np
from osgeo import gdal

from .rasters import close, create_like

gdal.UseExceptions()

NAME = "closing.tif"
BANDS = ("loops that close", "loops that have a closure")


def write_closing(names: Sequence[str]) -> List[str]:
    """Writes how many loops close at each pixel, and how many have a closure there. Names the loops that have another size than the
    first, which are not counted."""
    first = gdal.Open(f"closures/{names[0]}/misclosed.tif")
    closed, known = (np.zeros((first.RasterYSize, first.RasterXSize), np.uint32) for _ in BANDS)
    others = []
    for name in names:
        loop = gdal.Open(f"closures/{name}/misclosed.tif")
        band = loop.GetRasterBand(1)
        cycles = band.ReadAsArray()
        if cycles.shape != closed.shape:
            others.append(name)
            continue
        is_known = cycles != band.GetNoDataValue()
        known += is_known
        closed += is_known & (cycles == 0)
    part = Path(f"{NAME}.part")
    made = create_like(part, first, gdal.GDT_UInt32, 2**32 - 1, "loops", {"CONTENT": "; ".join(BANDS)}, bands=len(BANDS))
    for number, (counts, content) in enumerate(zip((closed, known), BANDS), 1):
        band = made.GetRasterBand(number)
        band.WriteArray(counts)
        band.SetDescription(content)
    close(made, part)
    os.replace(part, NAME)
    return others
