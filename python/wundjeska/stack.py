"""What came of many scenes: which are done, why others failed, and how their loops close.

The Snakefile runs it at the end of a run, in the folder of the scenes, with what was asked for on standard input.
"""
import json
import re
import sys
from dataclasses import dataclass
from pathlib import Path
from typing import Any, Dict, List, Optional

from .networks import pair_of
from .outputs import keep
from .trouble import held, run_main

MOST = 20  # loops and odd names that are listed
KEPT = "; the surface of an earlier run still stands"


@dataclass(frozen=True)
class Scene:
    """A scene, whether it is done, and a line on how it failed, if it did."""

    name: str
    is_done: bool
    failure: Optional[str]


def failure_of(name: str, log: Path) -> Optional[str]:
    """A line on how a scene or a loop failed, or None."""
    lines = log.read_text(errors="replace").splitlines() if log.exists() else []
    statuses = [line for line in lines if line.startswith("status ")]
    if not statuses:
        return None
    told = [line for line in lines if line not in statuses and not line.startswith("warning: ")]
    return f"{name}: ended with {statuses[0]}: {told[-1] if told else 'no line on standard error'}"


def scene_of(name: str) -> Scene:
    is_done = Path(name, "unwrapped.txt").exists() and Path(name, "cycles.tif").exists()
    failure = None if is_done else failure_of(name, Path(name, "unwrap.log"))
    if failure and Path(name, "cycles.tif").exists():
        failure += KEPT
    return Scene(name, is_done, failure)


def lines_on_scenes(scenes: List[Scene], odd: List[str]) -> List[str]:
    """How many scenes are done, and why others failed."""
    failures = [scene.failure for scene in scenes if scene.failure]
    failures += [f"{name!r}: a scene's name has none of {{}}*?[] and does not begin with -" for name in odd]
    doubted = [scene.name for scene in scenes if scene.is_done and is_undecided(scene.name)]
    more = [f"{len(doubted)} have undecided parts: {listed(doubted)}"] if doubted else []
    done = sum(scene.is_done for scene in scenes)
    head = f"{done} of {len(scenes) + len(odd)} scenes are accepted and have their surface, {len(failures)} failed"
    return [head, *failures, *more]


def is_undecided(name: str) -> bool:
    """Whether the command told of undecided parts of a scene."""
    return re.search(", [0-9]+ undecided part", Path(name, "unwrapped.txt").read_text(errors="replace")) is not None


def listed(names: List[str]) -> str:
    """The first names."""
    return ", ".join(names[:MOST]) + (f" and {len(names) - MOST} more" if len(names) > MOST else "")


def told_of_loop(name: str) -> Optional[str]:
    """What the command told of a loop that is done."""
    told, made = (Path("closures", name, file) for file in ("closed.txt", "misclosed.tif"))
    if not (told.exists() and made.exists()):
        return None
    found = re.search(": (.* have a closure.*)", told.read_text())
    return found[1] if found else ""


def misclosed(line: str) -> int:
    """How many pixels a line on a loop tells to be misclosed."""
    found = re.search("([0-9]+) [^,]*misclosed in", line)
    return int(found[1]) if found else 0


def lines_on_loops(names: List[str], scenes: List[Scene]) -> List[str]:
    """How many loops are done, why others failed, and those with most misclosed pixels."""
    done = {name: line for name in names if (line := told_of_loop(name)) is not None}
    failures = [failure_of(name, Path("closures", name, "closure.log")) for name in names if name not in done]
    wrong = sum(bool(misclosed(line)) for line in done.values())
    head = f"{len(done)} of {len(names)} loops have their closures, {wrong} with misclosed pixels"
    lone = [scene.name for scene in scenes if not pair_of(scene.name)]
    more = [f"{len(lone)} scenes are no pairs by their names: {listed(lone)}"] if lone else []
    worst = sorted(done, key=lambda name: -misclosed(done[name]))[:MOST]
    return [head, *filter(None, failures), *more, *(f"{name}: {done[name]}" for name in worst)]


def main() -> int:
    config: Dict[str, Any] = json.load(sys.stdin)
    scenes = [scene_of(name) for name in config["scenes"]]
    lines = lines_on_scenes(scenes, config["odd"])
    loops = list(config["triplets"])
    print("\n".join([*lines, *(lines_on_loops(loops, scenes) if loops else [])]), flush=True)
    write_table(scenes)
    write_loops(loops)
    write_page(scenes, config["page"], loops, config["said"])
    return 0


def write_table(scenes: List[Scene]) -> None:
    """Writes the table of all scenes."""
    with held():
        from .stack_table import NAME, row_of, table_of

    keep(Path(NAME), table_of([row_of(scene) for scene in scenes]).encode())
    print(f"{NAME} has a line for each")


def write_loops(names: List[str]) -> None:
    """Writes how many loops close at each pixel, if a loop is done."""
    from .closing import NAME, write_closing

    done = [name for name in names if told_of_loop(name) is not None]
    if done:
        others = write_closing(done)
        more = f"; not counted are loops of another size: {listed(others)}" if others else ""
        print(f"{NAME} has how many loops close at each pixel{more}")


def write_page(scenes: List[Scene], pages: bool, loops: List[str], said: str) -> None:
    """Writes the page of all scenes."""
    from .stack_page import NAME, page_of

    keep(Path(NAME), page_of(Path.cwd().name, scenes, pages, loops, said).encode())
    print(f"{NAME} leads to all of them")


if __name__ == "__main__":
    run_main(main)
