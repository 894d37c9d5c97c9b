"""Cases of a run that is disturbed from outside: by signals, by streams that do not wait, and by limits of memory."""
import ctypes
import os
import signal
import subprocess
import time

import wanted
from rows import MEMORY, READ, READERS, SIGNAL, USES, WORDS, WRITE, End, Row, board, files, masked_whole, row
from running import Ended
from wanted import NOTHING, exactly

MEGABYTE, PAGE, MOST = 2**20, 4096, 2**30
PAUSE = 0.005
ENDING = (signal.SIGTERM, signal.SIGINT, signal.SIGHUP, signal.SIGKILL)


def status_of(done):
    """The status of a process, that of a signal above 128."""
    return SIGNAL - done.returncode if done.returncode < 0 else done.returncode


def by_default():
    """Signals do in the program what they do by default."""
    for number in ENDING:
        if number != signal.SIGKILL:
            signal.signal(number, signal.SIG_DFL)


def start(program, words, source):
    """The program, reading a file or a pipe."""
    piped = subprocess.PIPE
    return subprocess.Popen(
        [program, *words], stdin=source, stdout=piped, stderr=piped, bufsize=0, preexec_fn=by_default
    )


def read_slowly(stream, pieces):
    """The bytes of so many pieces of up to 4096 bytes, with a pause before each."""
    data = b""
    for _ in range(pieces):
        time.sleep(PAUSE)
        data += stream.read(4096)
    return data


def ended(done, begun=b""):
    """What a process wrote, what was read before included."""
    try:
        out, err = done.communicate(timeout=60)
    except subprocess.TimeoutExpired:
        done.kill()
        return Ended(None, *done.communicate())
    return Ended(status_of(done), begun + out, err)


def signalled(use, number, then=None):
    """Runs a command on its large input, and sends a signal while a slow reader reads; now and then another after it."""

    def run(program, folder):
        with open(os.path.join(folder, use.file), "rb") as source, start(program, use.words.split(), source) as done:
            begun = read_slowly(done.stdout, 20)
            done.send_signal(number)
            time.sleep(0.1)
            if then:
                done.send_signal(then)
            return ended(done, begun)

    return run


def signalled_early(use, number):
    """Sends a signal while the program waits for input that stays away but for a part."""

    def run(program, folder):
        with open(os.path.join(folder, use.file), "rb") as source:
            begun = source.read(14)
        with start(program, use.words.split(), subprocess.PIPE) as done:
            done.stdin.write(begun)
            time.sleep(0.2)
            done.send_signal(number)
            return ended(done)

    return run


def signal_rows(large):
    """A signal ends the program, and what was written is the start of the answer; a stop in between changes nothing."""
    for use in large:
        command = f"$P {use.words} <{use.file} | a slow reader"
        for number in ENDING:
            first = wanted.some_prefix(use.out, 1)
            made = row(f"{use.name}: {number.name} amid writing", command, SIGNAL + number, first, NOTHING)
            yield made._replace(run=signalled(use, number))
        made = use.answered("stopped amid writing and continued", command)
        yield made._replace(run=signalled(use, signal.SIGSTOP, signal.SIGCONT))
    for use in READERS:
        for number in ENDING:
            what, command = f"{use.name}: {number.name} amid reading", f"$P {use.words} <the first 14 bytes of {use.file}"
            made = row(what, command, SIGNAL + number, NOTHING, NOTHING)
            yield made._replace(run=signalled_early(use, number))
    command = "timeout --preserve-status -s TERM 0.3 $P trial 7 2048 2048; exit $?"
    yield row("trial: SIGTERM amid its work", command, SIGNAL + signal.SIGTERM, NOTHING, NOTHING)


def unready(words):
    """Standard input is a pipe with nothing in it, which does not wait."""

    def run(program, folder):
        reading, writing = os.pipe2(os.O_NONBLOCK)
        with start(program, words, reading) as done:
            try:
                return ended(done)
            finally:
                os.close(reading)
                os.close(writing)

    return run


def overfull(use):
    """Standard output is a pipe that does not wait and is read only after the program's end."""

    def run(program, folder):
        reading, writing = os.pipe()
        os.set_blocking(writing, False)
        with open(os.path.join(folder, use.file), "rb") as source:
            streams = {"stdin": source, "stdout": writing, "stderr": subprocess.PIPE}
            done = subprocess.run([program, *use.words.split()], **streams, timeout=60, check=False)
        os.close(writing)
        with open(reading, "rb") as stream:
            return Ended(status_of(done), stream.read(), done.stderr)

    return run


def byte_by_byte(words, name):
    """Standard input gives one byte at a time."""

    def run(program, folder):
        with open(os.path.join(folder, name), "rb") as source:
            data = source.read()
        with start(program, words, subprocess.PIPE) as done:
            for byte in data:
                done.stdin.write(bytes([byte]))
                time.sleep(PAUSE / 5)
            return ended(done)

    return run


def without_words(program, folder):
    """Runs the program without even its name."""
    library = ctypes.CDLL(None)
    nothing = (ctypes.c_char_p * 1)(None)
    done = subprocess.run(
        ["true"],
        stdin=subprocess.DEVNULL,
        capture_output=True,
        timeout=60,
        check=False,
        preexec_fn=lambda: library.execv(program.encode(), nothing),
    )
    return Ended(status_of(done), done.stdout, done.stderr)


def odd_stream_rows(large):
    """Streams that do not wait, input byte by byte, and no words at all, not even the program's name."""
    for use in READERS:
        made = use.refused("input that does not wait", f"$P {use.words} <a pipe with nothing in it", 5, READ)
        yield made._replace(run=unready(use.words.split()))
        made = use.answered("input byte by byte", f"$P {use.words} <{use.file}, slowly")
        yield made._replace(run=byte_by_byte(use.words.split(), use.file))
    for use in large:
        command = f"$P {use.words} <{use.file} >a full pipe"
        made = row(f"{use.name}: output that does not wait", command, 6, wanted.some_prefix(use.out, 1), WRITE)
        yield made._replace(run=overfull(use))
    made = row("no words, not even the program's name", "execv($P, {NULL})", 2, NOTHING, WORDS)
    yield made._replace(run=without_words)


def within(limit, words, file):
    """A command whose memory is limited to so many bytes of addresses."""
    return f"exec prlimit --as={limit} $P {words} <{file}"


def starts(run, limit):
    """Whether the program starts within a limit: whether it refuses words, or says that there is no memory."""
    done = run(within(limit, "x", "line"))
    return (done.status, done.err) in ((2, WORDS), (4, MEMORY))


def least_limit(run, step):
    """The least limit in bytes at which the program starts. Below it the system cannot load it."""
    return next(limit for limit in range(MEGABYTE, MOST, step) if starts(run, limit))


def enough(run, floor, words, file, status):
    """A limit in bytes at which a command ends with its status."""
    limit = floor
    while run(within(limit, words, file)).status != status and limit < MOST:
        limit += limit // 8
    return limit


def limits(floor, last, step):
    """Limits in bytes: from the least up to the last in equal steps, and from there by a tenth each up to the most, since
    on the way some threads find room for their stacks and others do not."""
    yield from range(floor, last, step)
    while last < MOST:
        yield last
        last += last // 10 // PAGE * PAGE


def memory_row(limit, name, words, file, end):
    """Within a limit there is no memory, and nothing is written, or the run ends as it does undisturbed."""
    ends = (End(4, NOTHING, exactly(MEMORY)), end)
    return Row(f"{name}: {limit // 1024} KiB of addresses", within(limit, words, file), ends)


def further_memory_uses():
    """The commands of which there is one answer. The screen keeps the session as it is, which the file spells as it is written."""
    all_files = files()
    yield "screen", "screen --radius 8 --count 1 --patch 1", "noisy", all_files["noisy"]
    yield "closure", "closure", "noisy-loop", board(96)[1]
    yield "displacement", "displacement --wavelength 131072", "noisy-grid", all_files["noisy-grid"]
    for count in (1, 2, 8):
        yield f"whole, {count} workers", f"whole --workers {count}", "masked", masked_whole(96)
    yield "check-whole", "check-whole", "masked-accepted", b"accepted\n"


def memory_uses(noisy):
    """What is run within limits: a name, words, the file, and how it ends undisturbed."""
    report, refusal = wanted.same_but_kept(noisy["unwrap"]), b"refused history 2\n"
    for count in (1, 2, 8):
        words = f"unwrap --tile 32 --workers {count}"
        yield f"unwrap, {count} workers", words, "noisy", End(0, report, NOTHING)
    yield "grid", "grid --tile 32", "noisy", End(0, exactly(noisy["grid"]), NOTHING)
    yield "check", "check --tile 32", "noisy-accepted", End(0, exactly(b"accepted\n"), NOTHING)
    yield "check that refuses", "check --tile 32", "noisy-refused", End(1, exactly(refusal), NOTHING)
    for name, words, file, out in further_memory_uses():
        yield name, words, file, End(0, exactly(out), NOTHING)
    for use in USES:
        yield f"{use.name}, little input", use.words, use.file, End(use.status, exactly(use.out), NOTHING)


def memory_rows(run, noisy, step):
    """Each command within limits of memory: from the least at which the program starts, in steps of so many bytes, up to
    half a megabyte more than it needs, and then on. `noisy` has the undisturbed report and grid of the file noisy."""
    floor = least_limit(run, step)
    for name, words, file, end in memory_uses(noisy):
        last = enough(run, floor, words, file, end.status) + MEGABYTE // 2
        for limit in limits(floor, last, step):
            yield memory_row(limit, name, words, file, end)
    for limit in range(floor, floor + MEGABYTE, step):
        yield memory_row(limit, "words refused", "x", "line", End(2, NOTHING, exactly(WORDS)))
