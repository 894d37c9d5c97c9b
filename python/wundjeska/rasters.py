"""What is done by GDAL: rasters of phase, of coherence and of a mask are read, and results get their place.

A window is (column, row, width, height) in pixels, from the upper left one. Wants Debian's `python3-gdal`.
"""
import math
import os
import re
from argparse import ArgumentParser, ArgumentTypeError, Namespace
from dataclasses import dataclass
from functools import partial
from pathlib import Path
from typing import Any, Dict, List, Optional, Tuple, Union

import numpy as np
from osgeo import gdal

from .layout import add_overviews, lay_out, options_for
from .opening import Raw, check_bands, gdal_trouble
from .opening import open_raster as open_raster
from .outputs import PRODUCT
from .pictures import Axes
from .planes import MAX_WEIGHT, as_stored, check_coherence, check_radians, check_told, has_phase, phases_of
from .trouble import BROKEN_INPUT, FILE_FAULT, REFUSED_WORDS, Trouble
from .weights import add_weight_words, weights_of

gdal.UseExceptions()

NODATA = -9999.0  # of the rasters written
MASK_FLAGS = gdal.GMF_PER_DATASET | gdal.GMF_ALPHA
CACHE = 1 << 27  # bytes that GDAL keeps of rasters which are read and written by windows
Window = Tuple[int, int, int, int]
Bands = Union[int, Tuple[int, int]]  # that of a phase, or of the parts of complex numbers


# Opening


def band_of(raster: gdal.Dataset, number: Optional[int], option: str) -> int:
    """The number of the band that is read: the one named, or the only one."""
    count, path = raster.RasterCount, name_of(raster)
    check_bands(raster, path)
    if number is None:
        plain = [
            n for n in range(1, count + 1) if raster.GetRasterBand(n).GetColorInterpretation() != gdal.GCI_AlphaBand
        ]
        if len(plain) != 1:
            raise Trouble(f"{path} has {len(plain)} bands; name the one to read by {option}", REFUSED_WORDS)
        return plain[0]
    if not 1 <= number <= count:
        raise Trouble(f"{path} has no band of the number {number}, but 1 to {count}", REFUSED_WORDS)
    return number


def files_of(*rasters: Optional[gdal.Dataset]) -> List[str]:
    """The files that rasters are read from, also those that a VRT names."""
    found = [(name_of(raster), raster.GetFileList() or []) for raster in rasters if raster is not None]
    return [path for name, files in found for path in (name, *files) if os.path.exists(path)]


# What a raster is


def shape_of(raster: gdal.Dataset) -> Tuple[int, int]:
    """Rows and columns of a raster."""
    width, height = size_of(raster)
    return height, width


def size_of(raster: gdal.Dataset) -> Tuple[int, int]:
    """Width and height in pixels."""
    return raster.RasterXSize, raster.RasterYSize


def whole(raster: gdal.Dataset) -> Window:
    return (0, 0, *size_of(raster))


def name_of(raster: gdal.Dataset) -> str:
    return raster.GetDescription()


def corners_of(raster: gdal.Dataset) -> Optional[np.ndarray]:
    """The four corners in the raster's system, (4, 2), or None if it has no place."""
    place = raster.GetGeoTransform(can_return_null=True)
    width, height = size_of(raster)
    if place is None:
        return None
    return np.array([gdal.ApplyGeoTransform(place, x, y) for x in (0, width) for y in (0, height)])


def is_in_place(first: gdal.Dataset, other: gdal.Dataset) -> bool:
    """Whether the corners are the same to a hundredth of a pixel, and the systems are; true if one raster has none."""
    here, there = corners_of(first), corners_of(other)
    systems = first.GetSpatialRef(), other.GetSpatialRef()
    if None not in systems and not systems[0].IsSame(systems[1]):
        return False
    if here is None or there is None:
        return True
    pixel = np.hypot(*(here[1] - here[0])) / size_of(first)[1]
    return bool(np.all(np.abs(here - there) <= pixel / 100))


def axes_of(raster: gdal.Dataset) -> Optional[Axes]:
    """What a map's axes count: metres or kilometres, degrees, or None if the raster has no place or is turned."""
    place, system = raster.GetGeoTransform(can_return_null=True), raster.GetSpatialRef()
    width, height = size_of(raster)
    if place is None or place[2] or place[4]:
        return None
    left, upper = place[0], place[3]
    right, lower = left + width * place[1], upper + height * place[5]
    name = (system.GetName() or "") if system is not None else ""
    if system is not None and system.IsGeographic():
        degree = 111320.0 * math.cos(math.radians((upper + lower) / 2))  # metres, of longitude
        return Axes(left, right, upper, lower, "degrees", degree, name)
    metres = system.GetLinearUnits() if system is not None and system.IsProjected() else None
    if metres == 1.0:
        return Axes(left / 1000, right / 1000, upper / 1000, lower / 1000, "km", 1000.0, name)
    return Axes(left, right, upper, lower, "map units", metres, name)


def check_alike(first: gdal.Dataset, other: gdal.Dataset) -> None:
    """Trouble if the rasters have not the same pixels."""
    if size_of(first) != size_of(other):
        (w, h), (v, g) = size_of(first), size_of(other)
        raise Trouble(f"{name_of(other)} has {v} by {g} pixels, {name_of(first)} {w} by {h}")
    if not is_in_place(first, other):
        raise Trouble(
            f"{name_of(other)} lies at another place than {name_of(first)}, or in another system (see gdalinfo)"
        )


# Reading


def limit_cache() -> None:
    """Has GDAL keep less of what was read and written than its default, which grows with the machine; GDAL_CACHEMAX says otherwise."""
    if "GDAL_CACHEMAX" not in os.environ:
        gdal.SetCacheMax(min(CACHE, gdal.GetCacheMax()))


@dataclass
class Band:
    """A band of a raster. Where it is `nodata` there is no value, besides where the raster says so itself. With `imaginary` it and
    the band of that number are the parts of complex numbers."""

    raster: gdal.Dataset
    number: int = 1
    nodata: Optional[float] = None
    imaginary: Optional[int] = None

    def name(self) -> str:
        return name_of(self.raster)

    def has_scale(self) -> bool:
        """Whether the band says what its numbers mean: a scale or an offset."""
        source = self.raster.GetRasterBand(self.number)
        return source.GetScale() not in (None, 1.0) or source.GetOffset() not in (None, 0.0)

    def read(self, window: Window) -> Tuple[np.ndarray, np.ndarray]:
        """The values of a window, and where they are there. Values that are not there are 0."""
        values, there = self.read_part(window)
        if self.imaginary is None:
            return values, there
        other, is_other = Band(self.raster, self.imaginary, self.nodata).read_part(window)
        if np.iscomplexobj(values) or np.iscomplexobj(other):
            raise Trouble(f"{self.name()} has complex numbers in bands that are named as parts of them", REFUSED_WORDS)
        values = values + 1j * other
        there = there & is_other & has_phase(values)
        return np.where(there, values, 0), there

    def read_part(self, window: Window) -> Tuple[np.ndarray, np.ndarray]:
        """The values of a window by the band's scale and offset, and where they are there: neither NODATA nor masked nor NaN,
        nor 0 if complex."""
        source = self.raster.GetRasterBand(self.number)
        try:
            values = source.ReadAsArray(*window)
            masks = not np.iscomplexobj(values) or source.GetMaskFlags() & MASK_FLAGS
            with np.errstate(invalid="ignore"):
                there = source.GetMaskBand().ReadAsArray(*window) > 0 if masks else values != source.GetNoDataValue()
        except RuntimeError as error:
            raise gdal_trouble(self.name(), error) from error
        there = there & has_phase(values)
        if self.nodata is not None:
            there &= values != as_stored(self.nodata, values.dtype)
        values = np.where(there, values, 0)
        if self.has_scale():
            values = np.where(there, values * (source.GetScale() or 1.0) + (source.GetOffset() or 0.0), 0)
        return values, there


@dataclass
class Scene:
    """What a session is made of. coherence and mask may be wanting; without coherence all weights are the greatest.

    A pixel whose mask is 0 is masked. Of coherence, `highest` counts as 1, and pixels below `least` (0 to 1) are masked. With
    `looks` the weights are those of the phase's variance. With `wrap` phases may span more than a cycle.
    """

    phase: Band
    coherence: Optional[Band] = None
    mask: Optional[Band] = None
    highest: float = 1.0
    least: float = 0.0
    looks: Optional[float] = None
    wrap: bool = False

    def files(self) -> List[str]:
        """All files that are read."""
        return files_of(*(band.raster for band in (self.phase, self.coherence, self.mask) if band))

    def read(self, window: Window) -> Tuple[np.ndarray, np.ndarray, np.ndarray]:
        """Phases (uint16, 0 at masked pixels), weights (uint16) and open pixels (bool) of a window."""
        values, opened = self.phase.read(window)
        check_radians(values, opened, self.phase.name(), self.phase.has_scale(), self.wrap)
        phase, weights = phases_of(values), np.full(values.shape, MAX_WEIGHT, dtype=np.uint16)
        if self.coherence is not None:
            coherence, there = self.read_coherence(self.coherence, window)
            opened &= there & (coherence >= self.least)
            weights = weights_of(coherence, self.looks)
        if self.mask is not None:
            values, there = self.mask.read(window)
            opened &= there & (values != 0)
        return np.where(opened, phase, 0), weights, opened

    def coherence_shown(self) -> Optional[np.ndarray]:
        """The coherence from 0 to 1 of all pixels, NaN where it is not there; None if there is none."""
        if self.coherence is None:
            return None
        coherence, there = self.read_coherence(self.coherence, whole(self.phase.raster))
        return np.where(there, coherence, np.nan)

    def read_coherence(self, band: Band, window: Window) -> Tuple[np.ndarray, np.ndarray]:
        """Coherence from 0 to 1 (float64), and where it is there."""
        values, there = band.read(window)
        if np.iscomplexobj(values):
            raise Trouble(f"{band.name()} has complex numbers, and coherence is from 0 to 1")
        coherence = values.astype(np.float64) / self.highest
        check_coherence(coherence, band.name(), self.highest)
        return coherence, there


def add_raw_words(words: ArgumentParser) -> None:
    """The arguments on raw files."""
    words.add_argument(
        "--width",
        type=int,
        metavar="N",
        help="the rasters are raw files of so many pixels a line, as SNAPHU's and GAMMA's",
    )
    words.add_argument("--big-endian", action="store_true", help="raw files have the high byte first, as GAMMA's do")
    words.add_argument(
        "--form",
        choices=("complex", "float", "alt-line", "alt-sample"),
        default="complex",
        help="of a raw phase: SNAPHU's COMPLEX_DATA, FLOAT_DATA, ALT_LINE_DATA or ALT_SAMPLE_DATA (default: complex)",
    )
    words.add_argument(
        "--coherence-form",
        choices=("float", "alt-line", "alt-sample"),
        default="float",
        help="of a raw coherence (default: float)",
    )


def add_scene_words(words: ArgumentParser) -> None:
    """The arguments that scene_of reads."""
    words.add_argument("phase", help="raster of phases: in radians, wrapped to any interval, or complex, as CFloat32")
    words.add_argument(
        "--band",
        type=read_bands,
        metavar="N",
        help="the phase's band, from 1, if there are several; I,Q are the two that are the parts of complex numbers",
    )
    words.add_argument(
        "--coherence", metavar="FILE", help="raster of coherence from 0 to 1, of the same pixels; it makes the weights"
    )
    words.add_argument(
        "--coherence-band",
        type=int,
        metavar="N",
        help="the band of coherence, as 2 of ISCE's .cor, if there are several",
    )
    words.add_argument(
        "--coherence-max", type=float, metavar="C", help="what stands for a coherence of 1, as 255 (default: 1)"
    )
    words.add_argument(
        "--least-coherence", type=float, metavar="C", help="mask pixels below it, from 0 to 1, as 0.2 (default: 0)"
    )
    words.add_argument(
        "--mask", metavar="FILE", help="raster of the same pixels, 0 at those to leave out, as a mask of water"
    )
    words.add_argument(
        "--nodata",
        type=float,
        metavar="V",
        help="a number that stands for no value in phase and coherence, as 0, besides what the files say",
    )
    words.add_argument(
        "--wrap",
        action="store_true",
        help="take phases of more than a cycle, as an unwrapped one, as radians and wrap them",
    )
    add_weight_words(words)
    add_raw_words(words)


def check_scene_words(asked: Namespace) -> None:
    """Trouble if arguments do not fit each other."""
    wants = {"--coherence-band": asked.coherence_band, "--coherence-max": asked.coherence_max}
    wants.update({"--least-coherence": asked.least_coherence, "--looks": asked.looks})
    for option, value in wants.items():
        if value is not None and asked.coherence is None:
            raise Trouble(f"{option} wants --coherence", REFUSED_WORDS)
    if asked.least_coherence is not None and not 0 <= asked.least_coherence <= 1:
        raise Trouble("--least-coherence is from 0 to 1", REFUSED_WORDS)
    if asked.coherence_max is not None and not 0 < asked.coherence_max < np.inf:
        raise Trouble("--coherence-max is above 0", REFUSED_WORDS)
    if asked.looks is not None and not 1 <= asked.looks < np.inf:
        raise Trouble("--looks is 1 or more", REFUSED_WORDS)
    if asked.width is not None and asked.width < 1:
        raise Trouble("--width is 1 or more", REFUSED_WORDS)
    if asked.width is None and (asked.big_endian or asked.form != "complex" or asked.coherence_form != "float"):
        raise Trouble("--big-endian and the forms of raw files want --width", REFUSED_WORDS)


def read_bands(text: str) -> Bands:
    """The word of --band: a number, or two of them."""
    if not re.fullmatch("[0-9]{1,9}(,[0-9]{1,9})?", text, re.ASCII):
        raise ArgumentTypeError(f"{text!r} is neither the number of a band nor two as 2,3")
    numbers = [int(number) for number in text.split(",")]
    return numbers[0] if len(numbers) == 1 else (numbers[0], numbers[1])


def phase_band(raster: gdal.Dataset, asked: Namespace) -> Band:
    """The band of phases, or the two of complex numbers."""
    if not isinstance(asked.band, tuple):
        return Band(raster, band_of(raster, asked.band, "--band"), asked.nodata)
    real, imaginary = (band_of(raster, number, "--band") for number in asked.band)
    return Band(raster, real, asked.nodata, imaginary)


def is_product(raster: gdal.Dataset) -> bool:
    """Whether a raster tells that this program made it."""
    return any(name.startswith(PRODUCT) for name in raster.GetMetadata())


def check_is_phase(band: Band, wrap: bool) -> None:
    """Trouble if a raster says that it is no wrapped phase."""
    unit = band.raster.GetRasterBand(band.number).GetUnitType()
    own = (band.raster.GetMetadataItem(f"{PRODUCT}UNIT") or "") if is_product(band.raster) else None
    check_told(band.name(), unit, own, wrap)


def opened_by(asked: Namespace, path: str, form: str) -> gdal.Dataset:
    """A raster as the words say: raw, or what GDAL reads by itself."""
    return open_raster(path) if asked.width is None else Raw(asked.width, asked.big_endian).open(path, form)


def scene_of(asked: Namespace) -> Scene:
    """The scene that the words name; its rasters have the same pixels."""
    check_scene_words(asked)
    raster = opened_by(asked, asked.phase, asked.form)
    scene = Scene(phase_band(raster, asked))
    check_is_phase(scene.phase, asked.wrap)
    scene.highest, scene.least = asked.coherence_max or 1.0, asked.least_coherence or 0.0
    scene.looks, scene.wrap = asked.looks, asked.wrap
    if asked.coherence:
        coherence = opened_by(asked, asked.coherence, asked.coherence_form)
        check_alike(raster, coherence)
        scene.coherence = Band(coherence, band_of(coherence, asked.coherence_band, "--coherence-band"), asked.nodata)
        if is_product(coherence):
            raise Trouble(f"{asked.coherence} is a product of this program, and no coherence")
    if asked.mask:
        mask = opened_by(asked, asked.mask, "byte")
        check_alike(raster, mask)
        scene.mask = Band(mask, band_of(mask, None, "a file of one band"))
    return scene


# Writing


def create_like(
    path: Union[str, Path],
    like: gdal.Dataset,
    kind: int,
    nodata: float,
    unit: str = "",
    notes: Optional[Dict[str, Any]] = None,
    block: int = 1,
    bands: int = 1,
) -> gdal.Dataset:
    """A new GeoTIFF with the size, the place and the system of another raster, and with notes as its metadata.

    Its pixels are blocks of so many of the other's a side; the last ones may reach beyond it.
    """
    size = [-(-length // block) for length in size_of(like)]
    try:
        made = gdal.GetDriverByName("GTiff").Create(str(path), *size, bands, kind, options_for(kind))
    except RuntimeError as error:
        raise gdal_trouble(str(path), error) from error
    put_in_place(made, like, block)
    for name, value in (notes or {}).items():
        made.SetMetadataItem(f"WUNDJESKA_{name}", str(value))
    for number in range(1, bands + 1):
        band = made.GetRasterBand(number)
        band.SetNoDataValue(nodata)
        band.SetUnitType(unit)
    return made


def put_in_place(made: gdal.Dataset, like: gdal.Dataset, block: int = 1) -> None:
    """Copies what says where the pixels lie: an affine transform, or ground control points. Both start at the upper left corner
    of the first pixel, which is that of the first block too."""
    point = like.GetMetadataItem("AREA_OR_POINT")
    if point:
        made.SetMetadataItem("AREA_OR_POINT", point)
    if like.GetSpatialRef():
        made.SetSpatialRef(like.GetSpatialRef())
    transform = like.GetGeoTransform(can_return_null=True)
    if transform:
        x, right, turned_right, y, turned_down, down = transform
        made.SetGeoTransform((x, block * right, block * turned_right, y, block * turned_down, block * down))
    if like.GetGCPCount():
        points = [gdal.GCP(p.GCPX, p.GCPY, p.GCPZ, p.GCPPixel / block, p.GCPLine / block) for p in like.GetGCPs()]
        made.SetGCPs(points, like.GetGCPSpatialRef())


def put_values(made: gdal.Dataset, values: np.ndarray, column: int = 0, row: int = 0) -> None:
    """Writes an array with its first pixel there, NODATA where it is NaN."""
    nodata = made.GetRasterBand(1).GetNoDataValue()
    if np.any(values == nodata):
        raise Trouble(
            f"a value is {nodata:g}, which stands for NODATA; name another number by --output-nodata", BROKEN_INPUT
        )
    put_array(made, np.where(np.isnan(values), nodata, values), column, row)


def not_written(path: Union[str, Path], why: object) -> Trouble:
    """What is said where GDAL could not write."""
    return Trouble(f"{path} cannot be written whole, as if the disk were full: {why}", FILE_FAULT)


def put_array(made: gdal.Dataset, values: np.ndarray, column: int = 0, row: int = 0) -> None:
    """Writes numbers as they are, the first pixel there."""
    try:
        made.GetRasterBand(1).WriteArray(values, column, row)
    except RuntimeError as error:
        raise not_written(name_of(made), error) from error


def close(made: gdal.Dataset, path: Union[str, Path]) -> None:
    """Writes what GDAL still holds, and lays the file out. Trouble if not all of it could be written."""
    gdal.ErrorReset()
    for step in (gdal.Dataset.FlushCache, add_overviews, partial(lay_out, path)):
        try:
            step(made)
        except RuntimeError as error:
            raise not_written(path, error) from error
        if gdal.GetLastErrorType() >= gdal.CE_Failure:
            raise not_written(path, gdal.GetLastErrorMsg())
