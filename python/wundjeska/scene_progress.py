"""How far a run of scenes is, on a terminal alone: a line as each scene ends, of what Snakemake says of its jobs.

The Snakefile calls it in Snakemake's own process, so nothing stands between a signal and what it is sent to.
"""
import re
import sys
from contextlib import suppress
from typing import Any, Dict, Mapping, Set

from .trouble import held

RULE = "unwrap"  # whose jobs are scenes
JOBS = re.compile(rf"^{RULE}\s+([0-9]+)", re.MULTILINE)  # how many, in the table before they begin
MAIN = 0  # Snakemake's mode where it is no job of its own


class Scenes:
    """Counts the scenes that end."""

    def __init__(self, total: int):
        self.total, self.before = total, 0
        self.names: Dict[int, str] = {}  # of jobs
        self.done: Set[str] = set()
        self.failed: Set[str] = set()

    def hear(self, message: Mapping[str, Any]) -> None:
        """Takes what Snakemake says, and writes a line if a scene ends by it."""
        kind, job = message["level"], message.get("jobid")
        if kind == "run_info":
            found = JOBS.search(message["msg"])
            self.before = self.total - int(found.group(1) if found else 0)
        elif kind == "job_info" and message["name"] == RULE:
            self.names[message["jobid"]] = message["wildcards"]["scene"]
        elif kind in ("job_finished", "job_error") and job in self.names:
            line = self.line_on(self.names[job], kind == "job_finished")
            with suppress(OSError):  # the terminal is gone
                print(line, file=sys.stderr, flush=True)

    def line_on(self, scene: str, is_done: bool) -> str:
        """A line on a scene that ended. One that failed may be tried again."""
        self.failed.discard(scene)
        (self.done if is_done else self.failed).add(scene)
        ended = len(self.done) + len(self.failed)
        failed = f", {len(self.failed)} failed" if self.failed else ""
        return f"{self.before + ended} of {self.total} scenes{failed}: {scene} {'has its surface' if is_done else 'failed'}"


def keep_interrupts(logger: Any) -> None:
    """Has an interrupt wait while Snakemake writes a line, which otherwise loses it."""
    writer = getattr(logger, "stream_handler", None)
    if writer is None:
        return
    write = writer.emit

    def emit(record: Any) -> None:
        with held():
            write(record)

    writer.emit = emit


def watch(logger: Any, total: int) -> None:
    """From now on writes a line as each of so many scenes ends, if standard error is a terminal and nobody asked for quiet."""
    hearers = getattr(logger, "log_handler", None)
    if isinstance(hearers, list) and sys.stderr.isatty() and logger.mode == MAIN and not logger.quiet:
        hearers.append(Scenes(total).hear)
