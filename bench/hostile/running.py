"""Runs the built program as a process on bytes, within a limit of time."""
import os
import pathlib
import select
import signal
import sys
from typing import NamedTuple, Sequence

BUILT = pathlib.Path(__file__).resolve().parent.parent.parent / "crates/insar_unwrap/out/insar_unwrap"


def tried_program() -> str:
    """The program that is tried: the built one, or that which UNWRAP names. If it is not there, the script ends with status 2."""
    path = os.path.abspath(os.environ.get("UNWRAP", BUILT))
    if not os.access(path, os.X_OK):
        print(f"{path} is not built: run ./demo or rt ci, or set UNWRAP", file=sys.stderr)
        sys.exit(2)
    return path


class Ended(NamedTuple):
    """How a process ended: its status, less than 0 by a signal, None if it was stopped for its time; and what it wrote."""

    status: int | None
    out: bytes
    err: bytes


def filled(data: bytes) -> int:
    """A file in memory with some bytes, at its start."""
    file = os.memfd_create("stream")
    while data:
        data = data[os.write(file, data) :]
    os.lseek(file, 0, os.SEEK_SET)
    return file


def drained(file: int) -> bytes:
    """The bytes of a file in memory, which is closed."""
    size = os.lseek(file, 0, os.SEEK_END)
    data = os.pread(file, size, 0)
    os.close(file)
    return data


def ended(number: int, seconds: float) -> int | None:
    """The status of a process of ours, which is killed after so many seconds; then None."""
    handle = os.pidfd_open(number)
    late = not select.select([handle], [], [], seconds)[0]
    if late:
        signal.pidfd_send_signal(handle, signal.SIGKILL)
    os.close(handle)
    status = os.waitstatus_to_exitcode(os.waitpid(number, 0)[1])
    return None if late else status


def run(program: str, words: Sequence[str], data: bytes, seconds: float = 60.0) -> Ended:
    """Runs a program with words on bytes, for at most so many seconds. Its streams are files in memory."""
    files = [filled(data), filled(b""), filled(b"")]
    actions = [(os.POSIX_SPAWN_DUP2, file, stream) for stream, file in enumerate(files)]
    number = os.posix_spawn(program, [program, *words], os.environ, file_actions=actions)
    status = ended(number, seconds)
    os.close(files[0])
    return Ended(status, drained(files[1]), drained(files[2]))
