"""How rasters in files are opened: what GDAL reads by itself, subdatasets by name, raw files, and arrays of NumPy.

Wants Debian's `python3-gdal`.
"""
import os
from dataclasses import dataclass
from typing import List
from xml.sax.saxutils import escape

import numpy as np
from osgeo import gdal, gdal_array

from .outputs import check_utf_8
from .trouble import FILE_FAULT, REFUSED_WORDS, Trouble

gdal.UseExceptions()

MAX_NAMES = 12  # of subdatasets that a line lists

# Of raw files: GDAL's type, its bytes, and how many numbers stand for a pixel; the last one is what is read.
RAW_FORMS = {"complex": ("CFloat32", 8, 1), "float": ("Float32", 4, 1), "byte": ("Byte", 1, 1)}
RAW_FORMS.update({"alt-line": ("Float32", 4, 2), "alt-sample": ("Float32", 4, 2)})

# Of arrays: the kinds of numbers that GDAL has not, and what holds them.
HELD = {"bool": "uint8", "int8": "int16", "float16": "float32", "float128": "float64", "complex256": "complex128"}


def gdal_trouble(path: str, error: RuntimeError) -> Trouble:
    """What GDAL says of a file, which it mostly names."""
    return Trouble(str(error) if path in str(error) else f"{path}: {error}", FILE_FAULT)


def open_by_gdal(path: str) -> gdal.Dataset:
    """What GDAL reads."""
    check_utf_8(path)
    try:
        return gdal.Open(path)
    except RuntimeError as error:
        raise gdal_trouble(path, error) from error


def open_raster(path: str) -> gdal.Dataset:
    """A raster that GDAL reads, or an array of NumPy in a .npy file. A raw file of ISCE is found by the XML or VRT beside it, or by
    the name of that XML; a part of a NetCDF or HDF5 file by FILE:NAME."""
    if not path:
        raise Trouble("an input has an empty name", REFUSED_WORDS)
    if path.endswith(".npy"):
        return open_array(path)
    beside, inside = f"{path}.vrt", path[: -len(".xml")]
    if not os.path.exists(f"{path}.xml") and os.path.exists(beside):
        path = beside
    elif path.endswith(".xml") and os.path.exists(inside):
        path = inside
    file, colon, name = path.rpartition(":")
    if colon and not os.path.exists(path) and os.path.isfile(file):
        return open_part(file, name)
    return open_by_gdal(path)


# Parts of a file


def parts_of(name: str) -> List[str]:
    """The names of groups and of the variable that a subdataset's name ends with."""
    return name.rpartition('":')[2].rpartition(":")[2].strip("/").split("/")


def subdatasets_of(raster: gdal.Dataset) -> List[str]:
    """GDAL's names of the parts of a file."""
    return [name for name, _ in raster.GetSubDatasets()]


def listed(file: str, names: List[str]) -> str:
    """The parts of a file as they can be named."""
    found = ", ".join(f"{file}:{'/'.join(parts_of(name))}" for name in names[:MAX_NAMES])
    return found + (f" and {len(names) - MAX_NAMES} more" if len(names) > MAX_NAMES else "")


def open_part(file: str, name: str) -> gdal.Dataset:
    """The one part of a file whose name ends with this one, as `wrappedInterferogram` or `HH/wrappedInterferogram`."""
    names, wanted = subdatasets_of(open_by_gdal(file)), parts_of(name)
    found = [full for full in names if parts_of(full)[-len(wanted) :] == wanted]
    if not names:
        raise Trouble(f"{file} has no parts to name, so no {name}", FILE_FAULT)
    if len(found) != 1:
        what = f"{len(found)} parts of the name {name}" if found else f"no part of the name {name}"
        raise Trouble(f"{file} has {what}, but {listed(file, found or names)}", REFUSED_WORDS)
    return open_by_gdal(found[0])


def check_bands(raster: gdal.Dataset, path: str) -> None:
    """Trouble if a raster has parts in place of bands."""
    names = subdatasets_of(raster)
    if not raster.RasterCount and names:
        raise Trouble(f"{path} has several parts; name one: {listed(path, names)}", REFUSED_WORDS)


# Arrays and raw files


def loaded(path: str) -> np.ndarray:
    """The array in a .npy file, mapped from it if that can be done; of an empty one it cannot."""
    try:
        found: np.ndarray = np.load(path, mmap_mode="r", allow_pickle=False)
    except (OSError, ValueError):
        found = np.load(path, allow_pickle=False)
    return found


def open_array(path: str) -> gdal.Dataset:
    """The array in a .npy file, of which no more is held than what is read, if GDAL has its kind of numbers."""
    try:
        values = loaded(path)
    except FileNotFoundError as error:
        raise Trouble(f"{path}: {error.strerror}", FILE_FAULT) from error
    except (OSError, ValueError, EOFError) as error:
        raise Trouble(f"{path} is no array of numbers that NumPy reads", FILE_FAULT) from error
    if values.ndim != 2 or values.dtype.kind not in "bfciu" or not values.size:
        raise Trouble(
            f"{path} has an array of the shape {values.shape} and {values.dtype}, not rows and columns of numbers"
        )
    raster = gdal_array.OpenArray(
        np.ascontiguousarray(values, HELD.get(values.dtype.name, values.dtype.newbyteorder("=")))
    )
    raster.SetDescription(path)
    return raster


@dataclass
class Raw:
    """How raw files are read: the width in pixels, and the order of bytes."""

    width: int
    big_endian: bool = False

    def open(self, path: str, form: str) -> gdal.Dataset:
        """A raw file of one of RAW_FORMS; what stands before the value that is read is left out."""
        kind, size, numbers = RAW_FORMS[form]
        line = self.width * size * numbers
        length = os.path.getsize(path)
        if not length or length % line:
            raise Trouble(
                f"{path} has {length} bytes, which are no whole lines of {self.width} pixels in the form {form}"
            )
        first = {"alt-line": self.width * size, "alt-sample": size}.get(form, 0)
        step = size * numbers if form == "alt-sample" else size
        order = "MSB" if self.big_endian else "LSB"
        text = (
            f'<VRTDataset rasterXSize="{self.width}" rasterYSize="{length // line}">'
            f'<VRTRasterBand dataType="{kind}" band="1" subClass="VRTRawRasterBand">'
            f'<SourceFilename relativeToVRT="0">{escape(os.path.abspath(path))}</SourceFilename>'
            f"<ImageOffset>{first}</ImageOffset><PixelOffset>{step}</PixelOffset><LineOffset>{line}</LineOffset>"
            f"<ByteOrder>{order}</ByteOrder></VRTRasterBand></VRTDataset>"
        )
        try:
            raster = gdal.Open(text)
        except RuntimeError as error:
            raise gdal_trouble(path, error) from error
        raster.SetDescription(path)
        return raster
