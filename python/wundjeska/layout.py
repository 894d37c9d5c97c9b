"""How GeoTIFFs are laid out: tiles, deflated, with overviews above TILE pixels a side, as a cloud-optimized GeoTIFF has them.

A raster is first written plain, in whatever windows, and laid out at its end. In an overview each pixel is the upper left one of
its block as it stands, since means of cycles or of the numbers of parts would say what no pixel has; GDAL's own overviews would
also round whole numbers and Float64 to 32 bits.
"""
import os
from pathlib import Path
from typing import List, Tuple, Union

from osgeo import gdal

TILE = 512  # pixels along a side of a tile
ROWS = 1024  # that are read at once for an overview
PLAIN = ["BIGTIFF=IF_SAFER", "SPARSE_OK=TRUE"]  # so that what a full disk did not take is not tried again
TILED = ["BIGTIFF=IF_SAFER", "TILED=YES", f"BLOCKXSIZE={TILE}", f"BLOCKYSIZE={TILE}", "COMPRESS=DEFLATE"]
FLOATS = (gdal.GDT_Float32, gdal.GDT_Float64)
CLOUD = [f"BLOCKSIZE={TILE}", "BIGTIFF=IF_SAFER", "COMPRESS=DEFLATE", "PREDICTOR=YES"]
CLOUD += ["OVERVIEW_COMPRESS=DEFLATE", "OVERVIEW_PREDICTOR=YES"]


def can_lay_out() -> bool:
    """Whether GDAL writes cloud-optimized GeoTIFFs, as it does since 3.1."""
    return gdal.GetDriverByName("COG") is not None


def options_for(kind: int) -> List[str]:
    """GDAL's words for a raster that is to be written: plain if it is laid out at the end, else in tiles at once."""
    return PLAIN if can_lay_out() else [*TILED, f"PREDICTOR={3 if kind in FLOATS else 2}"]


def levels_of(size: Tuple[int, int]) -> List[int]:
    """By what factors overviews are smaller, until one fits a tile."""
    count = (-(-max(size) // TILE) - 1).bit_length()
    return [2**level for level in range(1, count + 1)]


def thin(finer: gdal.Band, coarser: gdal.Band) -> None:
    """Fills a band with every second row and column of another."""
    for row in range(0, finer.YSize, ROWS):
        rows = min(ROWS, finer.YSize - row)
        coarser.WriteArray(finer.ReadAsArray(0, row, finer.XSize, rows)[::2, ::2], 0, row // 2)


def add_overviews(made: gdal.Dataset) -> None:
    """Adds overviews to a raster that was written."""
    levels = levels_of((made.RasterXSize, made.RasterYSize))
    if not levels:
        return
    made.BuildOverviews("NONE", levels)
    for number in range(1, made.RasterCount + 1):
        band = made.GetRasterBand(number)
        steps = [band, *(band.GetOverview(level) for level in range(len(levels)))]
        for finer, coarser in zip(steps, steps[1:]):
            thin(finer, coarser)
    made.FlushCache()


def lay_out(path: Union[str, Path], made: gdal.Dataset) -> None:
    """Puts a cloud-optimized GeoTIFF in the place of the raster that was written at a path."""
    if not can_lay_out():
        return
    laid = f"{path}.cog"
    try:
        gdal.GetDriverByName("COG").CreateCopy(laid, made, options=CLOUD)
        if gdal.GetLastErrorType() < gdal.CE_Failure:
            os.replace(laid, path)
    finally:
        Path(laid).unlink(missing_ok=True)
