"""Unwraps each scene of FOLDER by the Snakefile of this package, which says what comes of it."""
import hashlib
import json
import os
import shlex
import shutil
import sys
import textwrap
from dataclasses import asdict
from pathlib import Path
from typing import Dict, List, Tuple

from ..cluster import MOST_PIXELS
from ..networks import NO_LOOP, triplets_of
from ..outputs import keep
from ..planes import TILED_LIMITS
from ..program import program
from ..scene_words import IGRAM, PAIR, Wanted, is_odd, key_help, scenes_in, wanted
from ..trouble import FILE_FAULT, REFUSED_WORDS, Trouble, held

SNAKEFILE = Path(__file__).resolve().parent.parent / "Snakefile"
SLURM = SNAKEFILE.parent / "slurm"
# The other scheduler calls a solver, and an interrupt that reaches that one is lost.
SETTINGS = ("--cores", "4", "--keep-going", "--rerun-incomplete", "--scheduler", "greedy")
BYTES_OF_PHASE = 4  # at least, in a raw raster
USE = f"""usage: wundjeska scenes FOLDER [KEY=VALUE..] [WORDS..]

Unwraps each folder of FOLDER that has a phase.tif and a coherence.tif, or the files that names with {PAIR} find, as
igram={PAIR}/filt_fine.int coherence={PAIR}/filt_fine.cor. What comes of a scene stands in FOLDER/{PAIR}, and scenes.html leads to all.
What is refused or fails leaves what stood there. Keys may come after --config too. WORDS are of snakemake, as --cores 8 or --unlock;
--profile slurm submits each scene to Slurm, with the memory and the time that its size wants.
Names are told from FOLDER on. The keys, most of which are words of unwrap:
"""
WIDTH, INDENT = 118, 32  # of the lines on keys


def key_lines() -> List[str]:
    """Lines on all keys, in two columns."""
    found = []
    for key, what in key_help():
        lines = textwrap.wrap(what, WIDTH - INDENT) or [""]
        head = f"  {key}"
        first = [head] if len(head) > INDENT - 2 else []
        rest = lines if first else lines[1:]
        found += first or [f"{head:<{INDENT}}{lines[0]}"]
        found += [" " * INDENT + line for line in rest]
    return found


def use() -> str:
    return USE + "\n".join(key_lines())


def split(words: List[str]) -> Tuple[Dict[str, str], List[str]]:
    """The keys, which stand first or after --config, and Snakemake's words."""
    keys: Dict[str, str] = {}
    others: List[str] = []
    is_key = True
    for word in words:
        if word in ("--config", "-C"):
            is_key = True
            continue
        if word.startswith(("--configfile", "--config=")):
            raise Trouble(f"{word}: keys are told as KEY=VALUE after the folder, or after --config", REFUSED_WORDS)
        is_key = is_key and not word.startswith("-")
        if not is_key:
            others.append(word)
            continue
        key, sign, value = word.partition("=")
        if not sign or key in keys:
            why = f"{key} is told twice" if sign else f"{word!r} is no KEY=VALUE"
            raise Trouble(f"{why}; --help tells more", REFUSED_WORDS)
        keys[key] = value
    return keys, others


def config_of(folder: Path, asked: Wanted, said: str) -> Dict[str, object]:
    """What the Snakefile wants: all that is asked for, the scenes, the loops of three, and the command line."""
    names = scenes_in(folder, asked.igram)
    if not names:
        what = "folder with a phase.tif" if asked.igram == IGRAM else asked.igram
        raise Trouble(f"{folder} has no {what}")
    scenes = [name for name in names if not is_odd(name)]
    triplets = triplets_of(scenes) if asked.closure else {}
    if asked.closure and not triplets:
        raise Trouble(f"{folder} has {NO_LOOP}")
    if asked.mask and PAIR not in asked.mask and not (folder / asked.mask).exists():
        raise Trouble(f"there is no mask {folder / asked.mask}", FILE_FAULT)
    odd = [name for name in names if is_odd(name)]
    pixels = {name: pixels_of(folder / asked.igram.replace(PAIR, name)) for name in scenes}
    if asked.closure and max(pixels.values()) > TILED_LIMITS.pixels:
        raise Trouble(f"closure=yes: a scene has {max(pixels.values())} pixels, and a loop has at most {TILED_LIMITS.pixels}")
    return {**asdict(asked), "scenes": scenes, "odd": odd, "triplets": triplets, "pixels": pixels, "said": said}


def pixels_of(path: Path) -> int:
    """How many pixels a raster has, or may have by its size if GDAL does not know it."""
    with held():
        from osgeo import gdal

    gdal.UseExceptions()
    try:
        raster = gdal.Open(str(path))
    except RuntimeError:
        return min(path.stat().st_size // BYTES_OF_PHASE, MOST_PIXELS)
    return raster.RasterXSize * raster.RasterYSize


def with_profile(words: List[str]) -> List[str]:
    """Snakemake's words, with the profile of this package in the place of `slurm`, unless the user has one of that name."""
    own = Path.home() / ".config/snakemake" / SLURM.name
    return [str(SLURM) if one == SLURM.name and not own.exists() and words[at - 1] == "--profile" else one for at, one in enumerate(words)]


def keep_config(folder: Path, config: Dict[str, object]) -> Path:
    """Keeps the configuration in a file of its own name, which no other run changes, for jobs on other machines."""
    text = (json.dumps(config, indent=1) + "\n").encode()
    place = folder.resolve() / ".snakemake" / f"wundjeska-{hashlib.sha256(text).hexdigest()[:16]}.json"
    place.parent.mkdir(exist_ok=True)
    keep(place, text)
    return place


def main(words: List[str]) -> int:
    if words[:1] in (["--help"], ["-h"]):
        print(use())
        return 0
    if not words:
        raise Trouble("wanted the folder of scenes; --help tells more", REFUSED_WORDS)
    folder = Path(words[0])
    if not folder.is_dir():
        raise Trouble(f"there is no folder {words[0]}", FILE_FAULT)
    keys, others = split(words[1:])
    config = config_of(folder, wanted(keys), f"wundjeska scenes {shlex.join(words)}")
    snakemake = shutil.which("snakemake")
    if snakemake is None:
        raise Trouble("scenes want Debian's package snakemake", FILE_FAULT)
    environment = {**os.environ, "UNWRAP": program(), "WUNDJESKA_PYTHON": sys.executable}
    more = ["--configfile", str(keep_config(folder, config)), *SETTINGS]
    os.execve(snakemake, [snakemake, "-s", str(SNAKEFILE), "--directory", str(folder), *more, *with_profile(others)], environment)
