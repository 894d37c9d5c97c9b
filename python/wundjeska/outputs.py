"""Files that are written: each beside its place, and renamed when all are whole. Else what stood there stays."""
import mmap
import os
from argparse import ArgumentParser
from pathlib import Path
from types import TracebackType
from typing import Dict, Iterable, List, Optional, Type, Union

from .trouble import FILE_FAULT, REFUSED_WORDS, Trouble, held

SIDECARS = (".aux.xml", ".ovr", ".msk")  # what GDAL keeps beside a raster, as the statistics of the one before
SUFFIXES = (".tif", ".tiff")  # of the rasters that are written
PRODUCT = "WUNDJESKA_"  # what the names of a product's metadata begin with
STREAMS = ("/dev/stdin", "/dev/stdout", "/dev/stderr", "/dev/fd/", "/proc/")
TIFF = (b"II*\0", b"MM\0*", b"II+\0", b"MM\0+")  # how such a file begins
PLANE, SCRIPT_END = "PNM", b"end\n"  # what GDAL takes a session for, and how that ends

Name = Union[str, Path]


def add_force_word(words: ArgumentParser) -> None:
    words.add_argument("--force", action="store_true", help="replace also a raster that is no product of this program")


def is_same(one: Path, other: Path) -> bool:
    """Whether two paths are one file, also by another name of it."""
    try:
        return os.path.samefile(one, other)
    except OSError:  # one is not there
        return os.path.realpath(one) == os.path.realpath(other)


def is_stream(name: Name) -> bool:
    """Whether a name is that of a stream of this process, or of the file that standard output or error goes to."""
    if str(name) == "-" or os.path.abspath(name).startswith(STREAMS):
        return True
    try:
        place = os.stat(name)
        return any(os.path.samestat(place, os.fstat(stream)) for stream in (1, 2))
    except OSError:  # the file is not there, or a stream is closed
        return False


def check_utf_8(name: Name) -> None:
    """Trouble if GDAL cannot take the name of a raster."""
    try:
        str(name).encode()
    except UnicodeEncodeError as error:
        raise Trouble(f"{name}: a raster's name has to be of UTF-8", FILE_FAULT) from error


def has_mark(path: Path) -> bool:
    """Whether a file has the metadata of a product, which no GeoTIFF compresses."""
    with open(path, "rb") as file, mmap.mmap(file.fileno(), 0, access=mmap.ACCESS_READ) as content:
        return content.find(PRODUCT.encode()) >= 0


def is_raster(path: Path) -> bool:
    """Whether GDAL, if it is there, takes a file as a raster, and it is no session; else whether it is a TIFF."""
    with open(path, "rb") as file:
        start = file.read(len(TIFF[0]))
        file.seek(-min(len(SCRIPT_END), path.stat().st_size), os.SEEK_END)
        end = file.read()
    try:
        with held():
            from osgeo import gdal
    except ImportError:
        return start in TIFF
    driver = gdal.IdentifyDriver(os.fsencode(path))
    return driver is not None and not (driver.ShortName == PLANE and end == SCRIPT_END)


class Outputs:
    """The files that a command writes, none of which is one of its inputs. As a context it puts all in their places at its end.

    If the block ends with an error, nothing has changed. A raster that is no product of the program is replaced only with `force`,
    which is None where no word asks for that.
    """

    def __init__(self, inputs: Iterable[Optional[Name]], force: Optional[bool] = None):
        self.inputs = [Path(name) for name in inputs if name is not None]
        self.force = force
        self.parts: Dict[Path, Path] = {}
        self.names: Dict[Path, Name] = {}  # of the parts

    def raster(self, name: Name) -> Path:
        """The path to write a GeoTIFF to that will stand at `name`."""
        return self.beside(name, True)

    def beside(self, name: Name, is_geotiff: bool = False) -> Path:
        """The path to write a file to that will stand at `name`. A symbolic link stays, and its target is replaced."""
        if not str(name):
            raise Trouble("an output has an empty name", REFUSED_WORDS)
        if is_stream(name):
            raise Trouble(f"{name} is a stream; what is written needs the name of a file", REFUSED_WORDS)
        place = Path(os.path.realpath(name))
        self.check(Path(name), place)
        if is_geotiff:
            check_utf_8(name)
        if is_geotiff and Path(name).suffix.lower() not in SUFFIXES:
            raise Trouble(f"{name}: what is written is a GeoTIFF, whose name ends in .tif or .tiff", REFUSED_WORDS)
        self.check_kept(name, place, is_geotiff)
        part = place.with_name(f".{place.name}.{os.getpid()}.part")
        self.parts[place], self.names[part] = part, name
        return part

    def check(self, name: Path, place: Path) -> None:
        """Trouble if a file must not or cannot be written there."""
        if any(is_same(place, other) for other in self.inputs):
            raise Trouble(f"{name} is an input; the output needs a name of its own", REFUSED_WORDS)
        if any(is_same(place, other) for other in self.parts):
            raise Trouble(f"{name} is named for two outputs", REFUSED_WORDS)
        if place.exists() and not place.is_file():
            raise Trouble(f"{name} is there and is no regular file", FILE_FAULT)
        if place.exists() and not os.access(place, os.W_OK):
            raise Trouble(f"{name} is there and is write-protected", FILE_FAULT)
        if not place.parent.is_dir():
            raise Trouble(f"{name}: there is no folder {place.parent}", FILE_FAULT)

    def check_kept(self, name: Name, place: Path, is_geotiff: bool) -> None:
        """Trouble if a file is there that is no product: whatever it is where a GeoTIFF is written, else a raster."""
        if self.force or not place.exists() or not place.stat().st_size:
            return
        if not os.access(place, os.R_OK):
            raise Trouble(f"{name} is there and cannot be read", FILE_FAULT)
        if has_mark(place):
            return
        if is_geotiff or is_raster(place):
            how = "another name is needed" if self.force is None else "--force replaces it"
            raise Trouble(f"{name} is there and is no product of this program; {how}", REFUSED_WORDS)

    def fill(self, part: Path, content: bytes) -> None:
        """Writes what will stand at a name. Trouble, with the name, if it cannot be written whole."""
        try:
            part.write_bytes(content)
        except OSError as error:
            raise Trouble(f"{self.names[part]}: {error.strerror}", FILE_FAULT) from error

    def write(self, name: Name, content: bytes) -> None:
        """Writes a file that is put in its place with the others."""
        self.fill(self.beside(name), content)

    def __enter__(self) -> "Outputs":
        return self

    def __exit__(
        self, kind: Optional[Type[BaseException]], error: Optional[BaseException], trace: Optional[TracebackType]
    ) -> None:
        if kind is None:
            for place, part in self.parts.items():
                put(part, place)
        for left in self.parts.values():
            left.unlink(missing_ok=True)
        if isinstance(error, Trouble):
            self.name_parts(error)

    def name_parts(self, trouble: Trouble) -> None:
        """Raises a trouble anew that tells of a part, by the name that the user gave."""
        line = str(trouble)
        for part, name in self.names.items():
            line = line.replace(str(part), str(name))
        if line != str(trouble):
            raise Trouble(line, trouble.status) from trouble


def beside(outputs: Outputs, name: Optional[Name]) -> Optional[Path]:
    """The path to write a file to, if one is named."""
    return outputs.beside(name) if name is not None else None


def raster_beside(outputs: Outputs, name: Optional[Name]) -> Optional[Path]:
    """The path to write a GeoTIFF to, if one is named."""
    return outputs.raster(name) if name is not None else None


def put(part: Path, place: Path) -> None:
    """Renames a file that was written, and drops what belonged to the raster that stood there."""
    os.replace(part, place)
    for sidecar in sidecars_of(place):
        sidecar.unlink(missing_ok=True)


def sidecars_of(place: Path) -> List[Path]:
    return [place.with_name(place.name + ending) for ending in SIDECARS]


def keep(path: Path, content: bytes, force: Optional[bool] = None) -> None:
    """Writes a file that is then there whole or as it was."""
    with Outputs([], force) as outputs:
        outputs.write(path, content)
