"""What a job asks a cluster for, by the size of its raster. It needs Python alone.

A scene with its page, its filter and its second surface held 330 MB at a million pixels and 730 at four, and took 6 and 16 s of a
processor. Each figure has room for twice that. A job that is tried again asks for twice as much as before.
"""
from pathlib import Path

MOST_PIXELS = 4_194_304  # of a scene whose size is not known
FIXED_MB = 300  # the interpreter, its libraries and the program
BYTES_A_PIXEL = 270
FIXED_MINUTES = 10
MINUTES_A_MILLION = 2
ASKED_AGAIN = (4, 130, 137, 143, 241, 247)  # no memory, stopped, ended and killed: the command, or the program that it runs


def memory_mb(pixels: int, attempt: int) -> int:
    """Megabytes of memory for a raster of so many pixels, at the first attempt or a later one."""
    return (FIXED_MB + pixels * BYTES_A_PIXEL // 1_000_000) << (attempt - 1)


def minutes(pixels: int, attempt: int) -> int:
    """Minutes for a raster of so many pixels, at the first attempt or a later one."""
    return (FIXED_MINUTES + pixels * MINUTES_A_MILLION // 1_000_000) << (attempt - 1)


def has_refused(log: Path) -> bool:
    """Whether an attempt ended by itself with a status that more memory or time does not change."""
    lines = log.read_text(errors="replace").splitlines() if log.exists() else []
    told = [line for line in lines if line.startswith("status ")]
    return bool(told) and told[-1] not in [f"status {status}" for status in ASKED_AGAIN]
