"""How a mistake ends: in one line on standard error, and with a status."""
import io
import os
import signal
import sys
import threading
import warnings
from contextlib import contextmanager
from types import FrameType
from typing import Any, Callable, Iterator, List, NoReturn, Optional, Type

from .progress import say

# Statuses. Those of the program are passed on; 2 is for words that are refused.
DISAGREES, REFUSED_WORDS, BROKEN_INPUT, NO_MEMORY, FILE_FAULT, INTERRUPTED = 1, 2, 3, 4, 5, 130


class Trouble(Exception):
    """What the user is told in one line, and the status that the command ends with."""

    def __init__(self, line: str, status: int = BROKEN_INPUT):
        super().__init__(line)
        self.status = status


class Caution(UserWarning):
    """What is to be said, in one line, of what is done all the same."""


HERE = os.path.join(os.path.dirname(os.path.abspath(__file__)), "")


def level_outside() -> int:
    """Of the calls above that of `warn` the first that is not of this package, as warnings count them."""
    level, frame = 2, sys._getframe(2)
    above: Optional[FrameType] = frame
    while above is not None and above.f_code.co_filename.startswith(HERE):
        level, above = level + 1, above.f_back
    return level


def warn(line: str) -> None:
    """Warns of something. From Python it is a warning of the kind Caution, and the command writes it as a line."""
    warnings.warn(line, Caution, stacklevel=level_outside())


def write_cautions() -> None:
    """From now on each caution is a line on standard error, and other warnings stay as they are."""
    others = warnings.showwarning

    def show(message: Any, category: Type[Warning], filename: str, lineno: int, *more: Any, **others_too: Any) -> None:
        if issubclass(category, Caution):
            tell(f"warning: {message}")
        else:
            others(message, category, filename, lineno, *more, **others_too)

    warnings.simplefilter("always", Caution)
    warnings.showwarning = show


def tell(line: object) -> None:
    """Writes a line on standard error."""
    say(" ".join(str(line).split()), sys.stderr)


def status_of(main: Callable[[], int]) -> int:
    """The status of `main`, or that of its trouble, which is told in one line."""
    try:
        status = main()
        sys.stdout.flush()
        return status
    except Trouble as trouble:
        tell(trouble)
        return trouble.status
    except KeyboardInterrupt:
        tell("interrupted")
        return INTERRUPTED
    except MemoryError:
        tell("no memory")
        return NO_MEMORY
    except ImportError as error:
        tell(f"{error}: Debian's packages are python3-numpy and, for rasters in files, python3-gdal")
        return FILE_FAULT
    except (OSError, RuntimeError) as error:  # GDAL's errors are of the second kind
        tell(error)
        return FILE_FAULT


def interrupt(*_: object) -> NoReturn:
    raise KeyboardInterrupt


@contextmanager
def held() -> Iterator[None]:
    """While this lasts an interrupt waits, and at its end it is raised: GDAL and NumPy take one in the middle of being loaded for an
    error of their own, or lose it."""
    if threading.current_thread() is not threading.main_thread():  # no other one is interrupted
        yield
        return
    came: List[int] = []
    before = {sent: signal.getsignal(sent) for sent in (signal.SIGINT, signal.SIGTERM)}
    handlers = {sent: handler for sent, handler in before.items() if callable(handler)}  # others are the system's
    for sent in handlers:
        signal.signal(sent, lambda number, _: came.append(number))
    try:
        yield
    finally:
        for sent, handler in handlers.items():
            signal.signal(sent, handler)
        for number in came[:1]:
            signal.raise_signal(number)


def run_main(main: Callable[[], int]) -> NoReturn:
    """Ends the process by the status of `main`. SIGTERM ends it as SIGINT does, so that nothing is left half written."""
    signal.signal(signal.SIGTERM, interrupt)
    write_cautions()
    if isinstance(sys.stdout, io.TextIOWrapper):
        sys.stdout.reconfigure(errors="surrogateescape")  # a file's name may be of any bytes
    status = status_of(main)
    try:
        sys.stdout.flush()
    except OSError:  # it was told; what is left must not be tried again when the interpreter ends
        os.dup2(os.open(os.devnull, os.O_WRONLY), sys.stdout.fileno())
    sys.exit(status)
