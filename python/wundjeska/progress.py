"""How far a command is, on a terminal alone: a bar by tqdm or rich if one is installed, else a line for each stage.

One command runs at a time, so what does the work calls `stage` without knowing who watches; of a call from Python nobody does.
"""
import sys
from argparse import ArgumentParser
from contextlib import contextmanager
from typing import Any, Iterator, TextIO

FORM = "{desc} {n}/{total} |{bar:30}| {elapsed}"


class Shown:
    """What shows how far a command is; this shows nothing."""

    def begin(self, what: str) -> None:
        """Something begins."""

    def advance(self, count: int = 1) -> None:
        """So many stages are done."""

    def say(self, line: str, file: TextIO) -> None:
        """Writes a line, above what is shown."""
        print(line, file=file, flush=True)

    def end(self) -> None:
        """Takes away what is shown."""


class Lines(Shown):
    """A line for each stage, on standard error."""

    def __init__(self, total: int):
        self.total, self.done = total, 0

    def begin(self, what: str) -> None:
        print(f"{self.done + 1}/{self.total} {what}", file=sys.stderr, flush=True)

    def advance(self, count: int = 1) -> None:
        self.done += count


class TqdmBar(Shown):
    """A bar by tqdm."""

    def __init__(self, bar: Any):
        self.bar = bar

    def begin(self, what: str) -> None:
        self.bar.set_description_str(what)

    def advance(self, count: int = 1) -> None:
        self.bar.update(count)

    def say(self, line: str, file: TextIO) -> None:
        self.bar.clear()
        super().say(line, file)
        self.bar.refresh()

    def end(self) -> None:
        self.bar.close()


class RichBar(Shown):
    """A bar by rich."""

    def __init__(self, bar: Any, total: int):
        self.bar, self.task = bar, bar.add_task("", total=total)
        self.bar.start()

    def begin(self, what: str) -> None:
        self.bar.update(self.task, description=what)

    def advance(self, count: int = 1) -> None:
        self.bar.advance(self.task, count)

    def say(self, line: str, file: TextIO) -> None:
        self.bar.stop()
        super().say(line, file)
        self.bar.start()

    def end(self) -> None:
        self.bar.stop()


def shown_by(total: int) -> Shown:
    """What is installed to show so many stages."""
    try:
        from tqdm import tqdm

        return TqdmBar(tqdm(total=total, file=sys.stderr, leave=False, bar_format=FORM))
    except ImportError:
        pass
    try:
        from rich.console import Console
        from rich.progress import Progress
    except ImportError:
        return Lines(total)
    console = Console(stderr=True)
    return RichBar(Progress(console=console, transient=True, redirect_stdout=False, redirect_stderr=False), total)


class Watched:
    """What is shown of the command that runs, whether by stages, and whether one has begun."""

    by = Shown()
    has_stages = False
    is_begun = False


def add_quiet_word(words: ArgumentParser) -> None:
    words.add_argument("--quiet", action="store_true", help="tell neither what the raster needs nor how far the command is")


@contextmanager
def shown(total: int, quiet: bool, has_stages: bool = True) -> Iterator[None]:
    """While this lasts so many parts are shown, if standard error is a terminal and nobody asked for quiet. They are stages, which
    say themselves when they begin, or what `advance` is called for."""
    if quiet or not sys.stderr.isatty():
        yield
        return
    Watched.by, Watched.has_stages, Watched.is_begun = shown_by(total), has_stages, False
    try:
        yield
    finally:
        Watched.by.end()
        Watched.by = Shown()


def stage(what: str) -> None:
    """Says what is done from now on; what was done before is done."""
    if not Watched.has_stages:
        return
    if Watched.is_begun:
        Watched.by.advance()
    Watched.is_begun = True
    Watched.by.begin(what)


def advance(count: int = 1) -> None:
    """Says that so many more parts are done."""
    Watched.by.advance(count)


def say(line: str, file: TextIO) -> None:
    """Writes a line, above what is shown."""
    Watched.by.say(line, file)
