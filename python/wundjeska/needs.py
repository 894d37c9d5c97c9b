"""What a raster needs, told before anything is begun: memory and time, by how many pixels it has. Python alone.

Measured of made scenes of one, four and twenty million pixels, and without a filter of 67 million: the most that all processes held
at once, and seconds of a processor. It is a guess for others, so nothing is refused by it.
"""
import os
from dataclasses import dataclass
from pathlib import Path
from typing import Dict, Optional

from .trouble import tell, warn

FIXED_MB = 100  # the interpreter and its libraries
BYTES, FILTERED_BYTES, PAGE_BYTES = 100, 200, 25  # a pixel, without a filter and with one, and of a page besides
BESIDE_BYTES, BAND_BYTES = 40, 24_000  # while the filter runs: a pixel, and a column of pixels for its bands, which counts in long rows
SECONDS, FILTERED_SECONDS, PAGE_SECONDS = 2.5, 6.0, 2.0  # a million pixels
LEAST_TOLD = 500_000  # pixels: of fewer nobody has to wait
MEMORY = Path("/proc/meminfo")
GROUP = Path("/sys/fs/cgroup")  # that of a container: the limit of memory, what is held and of what, by its versions 2 and 1
GROUPS = (
    ("memory.max", "memory.current", "memory.stat"),
    ("memory/memory.limit_in_bytes", "memory/memory.usage_in_bytes", "memory/memory.stat"),
)
MB, LONG = 1_000_000, 100  # seconds that are told as minutes


@dataclass(frozen=True)
class Needs:
    """Megabytes that are held at once, and seconds of a processor."""

    memory: float
    seconds: float

    def told(self) -> str:
        time = f"{self.seconds:.0f} s" if self.seconds < LONG else f"{self.seconds / 60:.0f} minutes"
        return f"needs about {self.memory / 1000:.1f} GB and {time} of a processor"


def needs_of(pixels: int, at_once: int, is_filtered: bool, has_page: bool = False, width: int = 0) -> Needs:
    """What a raster of so many pixels needs of which so many are solved at once; rows of so many pixels are told if they may be long."""
    bytes_each, seconds = (FILTERED_BYTES, FILTERED_SECONDS) if is_filtered else (BYTES, SECONDS)
    filtering = BESIDE_BYTES * at_once + BAND_BYTES * width if is_filtered else 0
    if has_page:
        bytes_each, seconds = bytes_each + PAGE_BYTES, seconds + PAGE_SECONDS
    return Needs(FIXED_MB + max(at_once * bytes_each, filtering) / MB, pixels / MB * seconds)


def number_in(path: Path) -> Optional[int]:
    """The whole number in a file, None if there is none."""
    try:
        return int(path.read_text())
    except (OSError, ValueError):
        return None


def numbers_in(path: Path) -> Dict[str, int]:
    """The numbers in a file of lines with a name and a number; none if it cannot be read."""
    try:
        lines = [line.split() for line in path.read_text().splitlines()]
    except (OSError, ValueError):
        return {}
    return {words[0]: int(words[1]) for words in lines if len(words) > 1 and words[1].isdigit()}


def free_in(limit: str, used: str, parts: str) -> Optional[float]:
    """Megabytes that are free in a container, whose files have these names. Pages of files that nobody reads count as free."""
    most, held = number_in(GROUP / limit), number_in(GROUP / used)
    if most is None or held is None:
        return None
    return (most - held + numbers_in(GROUP / parts).get("inactive_file", 0)) / MB


def free_here() -> Optional[float]:
    """Megabytes that are free on this machine."""
    found = numbers_in(MEMORY).get("MemAvailable:")
    if found is not None:
        return found * 1024 / MB
    try:
        return os.sysconf("SC_AVPHYS_PAGES") * os.sysconf("SC_PAGE_SIZE") / MB
    except (OSError, ValueError):  # of a system that does not tell
        return None


def free_memory() -> Optional[float]:
    """Megabytes that are free on this machine, or in this container if that has less; None if nothing tells."""
    found = [free for free in (free_here(), *(free_in(*names) for names in GROUPS)) if free is not None]
    return min(found, default=None)


def tell_needs(name: str, pixels: int, needs: Needs, quiet: bool, remedy: str) -> None:
    """Says what a raster needs if it is large and nobody asked for quiet, and warns if less is free, with what to do."""
    if pixels >= LEAST_TOLD and not quiet:
        tell(f"{name}: {needs.told()}")
    free = free_memory()
    if free is not None and free < needs.memory:
        warn(f"{name} needs about {needs.memory / 1000:.1f} GB of memory, and {max(free, 0) / 1000:.1f} GB are free; {remedy}")
