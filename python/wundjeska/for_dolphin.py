"""Hands finished pairs on to dolphin: GeoTIFFs by the names of its own (github.com/isce-framework/dolphin). It wants GDAL."""
from argparse import Namespace
from pathlib import Path
from typing import List

import numpy as np
from osgeo import gdal

from . import __version__
from .finished import Pair, layers_of, surface_of, told_of
from .rasters import close, create_like, put_array
from .trouble import REFUSED_WORDS, Trouble

MOST = 65534  # components, whose numbers have 16 bits; dolphin's own NODATA is 65535
OF_MINTPY = ("wavelength", "platform", "orbit", "incidence", "looks", "baselines", "attribute", "height", "latitude", "longitude")
UNWRAPPED, COMPONENTS, COHERENCE = ".unw.tif", ".unw.conncomp.tif", ".int.cor.tif"


def write_pairs(folder: Path, pairs: List[Pair], asked: Namespace) -> None:
    """Writes the rasters of all pairs."""
    like = surface_of(pairs[0])
    for pair in pairs:
        found = layers_of(pair, like, asked, MOST)
        verdict = told_of(surface_of(pair), "VERDICT")
        write(folder / f"{pair.dates()}{UNWRAPPED}", like, found.phase, gdal.GDT_Float32, "radians", verdict)
        write(folder / f"{pair.dates()}{COMPONENTS}", like, found.components, gdal.GDT_UInt16, "", verdict)
        write(folder / f"{pair.dates()}{COHERENCE}", like, found.coherence, gdal.GDT_Float32, "", verdict)


def write(path: Path, like: gdal.Dataset, values: np.ndarray, kind: int, unit: str, verdict: str) -> None:
    """Writes a raster whose NODATA is 0."""
    made = create_like(path, like, kind, 0, unit, {"VERSION": __version__, "UNIT": unit, "VERDICT": verdict})
    put_array(made, values)
    close(made, path)


def check_words(asked: Namespace) -> None:
    """Trouble if there are words that are MintPy's."""
    given = [word for word in OF_MINTPY if getattr(asked, word) is not None]
    if given:
        raise Trouble(f"--{given[0]} is a word of mintpy, not of dolphin", REFUSED_WORDS)
