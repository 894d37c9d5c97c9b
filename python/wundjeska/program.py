"""The proved program `insar_unwrap`: where it is, and how it is called."""
import os
import shutil
import subprocess
import threading
from dataclasses import dataclass
from pathlib import Path
from typing import List, Optional, Set, Tuple

from .planes import CYCLE, Ramp, ended, ramp_in
from .trouble import FILE_FAULT, Trouble

HERE = Path(__file__).resolve().parent
INSIDE = HERE / "bin/insar_unwrap"  # where the wheel and the Debian package have it
BUILT = HERE.parent.parent / "crates/insar_unwrap/out/insar_unwrap"  # where the repository builds it
MAX_WORKERS = 8

running: Set["subprocess.Popen[bytes]"] = set()
lock = threading.Lock()
stopped = threading.Event()  # calls that begin later end at once


def program() -> str:
    """The path of the program: that of the environment variable UNWRAP, that inside the package, where the repository
    builds it, or that on the PATH."""
    named = os.environ.get("UNWRAP")
    places = [Path(named)] if named else [INSIDE, BUILT]
    found = next((str(place) for place in places if os.access(place, os.X_OK) and place.is_file()), None)
    found = found or (None if named else shutil.which("insar_unwrap"))
    if not found:
        raise Trouble(f"there is no program at {places[-1]}; build it by ./demo, or set UNWRAP to its path", FILE_FAULT)
    return os.path.realpath(found)


def workers_or_default(workers: Optional[int]) -> int:
    """How many threads solve tiles: as asked, or one for each processor."""
    return workers if workers is not None else min(MAX_WORKERS, os.cpu_count() or 1)


def started(words: List[str]) -> "subprocess.Popen[bytes]":
    """A process with pipes. Trouble if the system cannot run it."""
    pipe = subprocess.PIPE
    try:
        return subprocess.Popen(words, stdin=pipe, stdout=pipe, stderr=pipe)
    except OSError as error:
        raise Trouble(f"{words[0]} is no program that runs here: {error.strerror}", FILE_FAULT) from error


def call(words: List[str], text: bytes) -> Tuple[int, bytes, bytes]:
    """The status of the program, and what it wrote to both streams."""
    process = started([program(), *words])
    with lock:
        running.add(process)
        if stopped.is_set():
            process.kill()
    try:
        out, told = process.communicate(text)
    finally:
        with lock:
            running.discard(process)
        process.kill()
        process.wait()
    return process.returncode, out, told


def stop() -> None:
    """Ends all calls that run in other threads, and those that begin later."""
    with lock:
        stopped.set()
        for process in running:
            process.kill()


def first_line(told: bytes) -> str:
    """The first line of what a program told."""
    lines = told.decode(errors="replace").strip().splitlines()
    return lines[0] if lines else "it told nothing"


def run_program(words: List[str], text: bytes, what: str) -> bytes:
    """What the program writes. If its status is not 0: Trouble with its line and its status."""
    status, out, told = call(words, text)
    if status == 0:
        return out
    line = first_line(told or out)
    raise Trouble(f"{what}: {words[0]} ended with status {status}: {line}", status % 256)


def show(ramp: Optional[Ramp]) -> str:
    return ",".join(map(str, ramp or (0, 0)))


def ramp_words(ramp: Optional[Ramp]) -> List[str]:
    """The words of an expected ramp. A slope below 0 is told by 65536 more, and one of 0 by none."""
    slopes = zip(("--ramp-x", "--ramp-y"), ramp or (0, 0))
    return [word for name, slope in slopes if slope for word in (name, str(slope % CYCLE))]


@dataclass(frozen=True)
class Problem:
    """What is least: in tiles of a side in pixels and at their seams or, if that is None, over the whole raster at once.

    `rule` is that of weights, `ramp` the expected slopes, and `steep` how much each cycle of a departure after the first costs.
    """

    rule: str
    side: Optional[int]
    ramp: Ramp = (0, 0)
    steep: int = 1

    @property
    def solver(self) -> str:
        """The program's command that solves it."""
        return "whole" if self.side is None else "unwrap"

    @property
    def checker(self) -> str:
        """The program's command that judges what the solver wrote."""
        return "check-whole" if self.side is None else "check"

    def words(self) -> List[str]:
        """The words that both want."""
        tile = [] if self.side is None else ["--tile", str(self.side)]
        steep = ["--steep", str(self.steep)] if self.steep > 1 else []
        return ["--rule", self.rule, *tile, *ramp_words(self.ramp), *steep]


def check_report(session: bytes, report: bytes, problem: Problem) -> Tuple[bool, str]:
    """Whether the checker accepts a report or a whole text, and its verdict, or its line on standard error.

    Trouble if the session tells another ramp than that of the problem.
    """
    ramp = ramp_in(session)
    if ramp not in (None, problem.ramp):
        raise Trouble(
            f"the session expects the ramp {show(ramp)} and the report is of {show(problem.ramp)}; unwrap it by the words "
            f"{' '.join(ramp_words(ramp)) or 'without --ramp-x and --ramp-y'}"
        )
    status, out, told = call([problem.checker, *problem.words()], ended(session) + report)
    return status == 0, first_line(out or told)
