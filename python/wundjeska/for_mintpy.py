"""Hands finished pairs on to MintPy: raw files with their .rsc, and a template that names them. It wants GDAL.

MintPy's processor `roipac` asks for least: it takes what stands in an .rsc that has the baselines. PROCESSOR there says how files
are read: those of `isce` are raw, of the type and the bands that the .rsc tells. Rasters without a place want the processor `isce`,
which takes latitudes and longitudes; it looks for XML files of ISCE, warns that there are none, and goes on with the .rsc.
"""
import math
import re
from argparse import Namespace
from dataclasses import dataclass
from pathlib import Path
from typing import Dict, List, Mapping, Optional, Tuple

import numpy as np
from osgeo import gdal

from .displacements import wavelength_of
from .finished import Pair, layers_of, surface_of, told_of
from .rasters import Band, band_of, check_alike, name_of, open_raster, size_of, whole
from .trouble import REFUSED_WORDS, Trouble

MOST = 32767  # components: MintPy keeps their numbers in 16 bits
RADAR = ("STARTING_RANGE", "RANGE_PIXEL_SIZE")  # what MintPy asks for of rasters without a place
ANGLES = ("HEIGHT", "EARTH_RADIUS")  # and of a raster of incidence angles
RANGE = ("SLANT_RANGE_DISTANCE",)  # and of one angle, for errors of heights, which baselines tell
PHASE, COHERENCE, COMPONENTS, GEOMETRY = ".unw", ".cor", ".byt", ".hgt"
TYPES = {PHASE: "float32", COHERENCE: "float32", COMPONENTS: "int16", GEOMETRY: "float64"}
KEYS = {"height": "demFile", "incidence": "incAngleFile", "latitude": "lookupYFile", "longitude": "lookupXFile"}
TEMPLATE = "mintpy.cfg"
LINES = """# In this folder: smallbaselineApp.py mintpy.cfg, or Debian's mintpy smallbaselineApp mintpy.cfg
mintpy.load.processor    = {processor}
mintpy.load.unwFile      = ./pairs/*.unw
mintpy.load.corFile      = ./pairs/*.cor
mintpy.load.connCompFile = ./pairs/*.byt
"""

NO_BASELINES = "mintpy.topographicResidual   = no  # without baselines nothing tells errors of heights\n"

Attributes = Mapping[str, object]


@dataclass(frozen=True)
class Stack:
    """What all pairs share: the first surface, and the attributes that MintPy reads of each file."""

    like: gdal.Dataset
    attributes: Attributes
    incidence: Optional[str]  # the raster of angles, None if it is one angle
    baselines: Dict[str, float]  # in metres, by day


def write_pairs(folder: Path, pairs: List[Pair], asked: Namespace) -> None:
    """Writes the files of all pairs, the geometry and the template."""
    stack = stack_of(pairs, asked)
    (folder / "pairs").mkdir()
    for pair in pairs:
        found = layers_of(pair, stack.like, asked, MOST)
        told = {**stack.attributes, **baseline_of(pair, stack.baselines)}
        for kind, values in ((PHASE, found.phase), (COHERENCE, found.coherence), (COMPONENTS, found.components)):
            write(folder / "pairs" / f"{pair.dates()}{kind}", values, told)
    write_geometry(folder, stack, asked)


def write_geometry(folder: Path, stack: Stack, asked: Namespace) -> None:
    """Writes the rasters of the geometry, and the template."""
    (folder / "geometry").mkdir()
    found = geometry_of(stack, asked)
    for name, values in found.items():
        write(folder / "geometry" / f"{name}{GEOMETRY}", values, stack.attributes)
    lines = (f"mintpy.load.{KEYS[name]:<12} = ./geometry/{name}{GEOMETRY}\n" for name in found)
    processor = "roipac" if has_place(stack.attributes) else "isce"
    more = "" if asked.baselines else NO_BASELINES
    (folder / TEMPLATE).write_text("".join([LINES.format(processor=processor), *lines, more]))


def write(path: Path, values: np.ndarray, told: Attributes) -> None:
    """Writes a raw file, low byte first, and its .rsc."""
    kind = TYPES[path.suffix]
    path.write_bytes(values.astype(np.dtype(kind).newbyteorder("<")).tobytes())
    lines: Attributes = {**told, "FILE_TYPE": path.suffix, "DATA_TYPE": kind}
    path.with_name(f"{path.name}.rsc").write_text("".join(f"{key:<24} {value}\n" for key, value in lines.items()))


# What MintPy asks for


def stack_of(pairs: List[Pair], asked: Namespace) -> Stack:
    """What the pairs share, by the words and by what the first surface tells."""
    like = surface_of(pairs[0])
    width, length = size_of(like)
    baselines = baselines_in(asked.baselines) if asked.baselines else {}
    found: Dict[str, object] = {"WIDTH": width, "LENGTH": length, "BANDS": 1, "INTERLEAVE": "BIL", "BYTE_ORDER": "little-endian"}
    found.update(PROCESSOR="isce", WAVELENGTH=wavelength_in(like, asked), NCORRLOOKS=looks_in(like, asked))
    found.update(ORBIT_DIRECTION=named(asked.orbit, "--orbit ascending or --orbit descending").upper(), **place_of(like))
    found["PLATFORM"] = named(asked.platform, "--platform, by MintPy's name, as Sen, Alos2 or Env")
    incidence = named(asked.incidence, "--incidence, an angle in degrees or a raster of them")
    angle = angle_in(incidence)
    if angle is not None:
        found["INCIDENCE_ANGLE"] = angle
    found.update(attributes_in(asked.attribute or []))
    check_attributes(found, angle is not None, asked)
    return Stack(like, found, incidence if angle is None else None, baselines)


def named(given: Optional[str], word: str) -> str:
    """What is given. Trouble if it is not."""
    if given is None:
        raise Trouble(f"MintPy wants {word}", REFUSED_WORDS)
    return given


def wavelength_in(like: gdal.Dataset, asked: Namespace) -> float:
    """The wavelength in metres, by the words or by the surface."""
    if asked.wavelength is not None:
        return wavelength_of(asked.wavelength) / 1e9
    return float(named(told_of(like, "WAVELENGTH_METRES") or None, "--wavelength, which the scenes do not tell"))


def looks_in(like: gdal.Dataset, asked: Namespace) -> float:
    """The looks that MintPy's weights go by, by the words or by the surface."""
    if asked.looks is not None:
        if not 1 <= asked.looks < math.inf:
            raise Trouble("--looks is 1 or more", REFUSED_WORDS)
        return float(asked.looks)
    found = re.search("variance of ([0-9.e+]+) looks", told_of(like, "WEIGHTS"))
    return float(named(found[1] if found else None, "--looks, which the scenes do not tell"))


def place_of(like: gdal.Dataset) -> Attributes:
    """Where the pixels lie: the upper left corner and the steps. Nothing if the raster has no place."""
    place, system = like.GetGeoTransform(can_return_null=True), like.GetSpatialRef()
    if place is None or system is None:
        return {}
    left, right, turned_right, upper, turned_down, down = place
    if turned_right or turned_down or right <= 0 or down >= 0:
        raise Trouble(f"{name_of(like)} is turned or mirrored, which MintPy does not take; gdalwarp makes it upright")
    unit = "degrees" if system.IsGeographic() else "meters"
    found: Dict[str, object] = {"X_FIRST": left, "Y_FIRST": upper, "X_STEP": right, "Y_STEP": down, "X_UNIT": unit, "Y_UNIT": unit}
    zone = system.GetUTMZone()
    if zone:
        found["UTM_ZONE"] = f"{abs(zone)}{'N' if zone > 0 else 'S'}"
    if system.GetAuthorityCode(None):
        found["EPSG"] = system.GetAuthorityCode(None)
    return found


def attributes_in(given: List[str]) -> Attributes:
    """The attributes that the user names."""
    for word in given:
        if not re.fullmatch(r"[A-Z][A-Z0-9_]*=\S+", word):
            raise Trouble(f"--attribute {word}: an attribute is KEY=VALUE, as HEADING=-168", REFUSED_WORDS)
    return {key: value for key, _, value in (word.partition("=") for word in given)}


def has_place(attributes: Attributes) -> bool:
    return "X_FIRST" in attributes


def lacks(found: Attributes, has_one_angle: bool, asked: Namespace) -> Tuple[str, Tuple[str, ...]]:
    """What makes MintPy want attributes that no word tells, and which."""
    if not has_place(found):
        return "scenes without a place", RADAR
    if not has_one_angle:
        return "a raster of incidence angles", ANGLES
    return "--baselines", RANGE if asked.baselines else ()


def check_attributes(found: Attributes, has_one_angle: bool, asked: Namespace) -> None:
    """Trouble if MintPy would miss an attribute, or where the pixels lie."""
    why, wants = lacks(found, has_one_angle, asked)
    missing = [f"--attribute {key}=METRES" for key in wants if key not in found]
    if not has_place(found):
        missing += [f"--{word} FILE" for word in ("latitude", "longitude") if getattr(asked, word) is None]
    if missing:
        raise Trouble(f"with {why} MintPy wants {' '.join(missing)}", REFUSED_WORDS)


# Baselines


def baselines_in(path: str) -> Dict[str, float]:
    """The perpendicular baseline of each image in metres: lines of a day and a number."""
    found = {}
    for number, line in enumerate(Path(path).read_text().splitlines(), 1):
        if line.strip():
            match = re.fullmatch(r"\s*([0-9]{8})\s+([-+]?[0-9]+(?:\.[0-9]*)?)\s*", line)
            if not match:
                raise Trouble(f"{path}, line {number}: a line is a day and its metres, as 20230113 -41.5")
            found[match[1]] = float(match[2])
    return found


def baseline_of(pair: Pair, baselines: Dict[str, float]) -> Attributes:
    """The days and the baseline of a pair, second image less first: 0 if none are known."""
    missing = [day for day in pair.days if day not in baselines]
    if baselines and missing:
        raise Trouble(f"--baselines have no {missing[0]}")
    first, second = (baselines.get(day, 0.0) for day in pair.days)
    days = "-".join(day[2:] for day in pair.days)
    return {"DATE12": days, "P_BASELINE_TOP_HDR": second - first, "P_BASELINE_BOTTOM_HDR": second - first}


# Geometry


def raster_like(path: str, like: gdal.Dataset) -> np.ndarray:
    """The values of a raster of the same pixels, NaN where there are none."""
    raster = open_raster(path)
    check_alike(like, raster)
    values, there = Band(raster, band_of(raster, None, "a file of one band")).read(whole(raster))
    return np.where(there, values, np.nan)


def angle_in(text: str) -> Optional[float]:
    """The one angle that a word is, in degrees; None if it is a file's name."""
    try:
        angle = float(text)
    except ValueError:
        return None
    if not 0 < angle < 90:
        raise Trouble("--incidence is between 0 and 90 degrees", REFUSED_WORDS)
    return angle


def geometry_of(stack: Stack, asked: Namespace) -> Dict[str, np.ndarray]:
    """The rasters of the geometry, by their names. One angle is none if the rasters have a place: an attribute tells it."""
    width, length = size_of(stack.like)
    found = {"height": np.zeros((length, width))}
    if stack.incidence is None and not has_place(stack.attributes):
        found["incidence"] = np.full((length, width), stack.attributes["INCIDENCE_ANGLE"])
    named_files = {"height": asked.height, "incidence": stack.incidence, "latitude": asked.latitude, "longitude": asked.longitude}
    found.update({name: raster_like(path, stack.like) for name, path in named_files.items() if path})
    return found
