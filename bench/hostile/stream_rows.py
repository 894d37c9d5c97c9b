"""Cases of standard streams that fail: closed, full, of the wrong kind, or without a reader."""
import os

import wanted
from rows import READ, READERS, SIGNAL, TRIAL_USE, USES, WORDS, WRITE, refused, row
from wanted import NOTHING

SIGXFSZ = SIGNAL + 25


def input_rows():
    """Standard input that cannot be read, or has nothing."""
    faults = (("closed", "<&-"), ("a directory", "<."), ("open for writing alone", "0>written"))
    for what, how in faults:
        for use in READERS:
            yield use.refused(f"input {what}", f"exec $P {use.words} {how}", 5, READ)
        yield TRIAL_USE.answered(f"input {what}, which is not read", f"exec $P {TRIAL_USE.words} {how}")
    for use in READERS:
        yield use.refused("input empty", f"exec $P {use.words} </dev/null", 3, use.empty)


def output_rows():
    """Standard output that takes nothing."""
    for what, how in (("closed", ">&-"), ("a full disk", ">/dev/full"), ("open for reading alone", "1<line")):
        for use in USES:
            yield use.refused(f"output {what}", f"{use.text()} {how}", 6, WRITE)
        yield row(f"grid of nothing published: output {what}", f"exec $P grid <shown {how}", 0, NOTHING, NOTHING)


def error_rows():
    """Standard error that takes nothing: each status stays, and so does standard output."""
    for what, how in (("closed", "2>&-"), ("a full disk", "2>/dev/full"), ("open for reading alone", "2<line")):
        for use in USES:
            yield use.answered(f"error {what}", f"{use.text()} {how}")
            yield use.refused(f"error {what}, output full", f"{use.text()} >/dev/full {how}", 6, b"")
            yield use.refused(f"error {what}, words refused", f"exec $P {use.words} --tile 1 <{use.file} {how}", 2, b"")
        for use in READERS:
            yield use.refused(f"error {what}, input broken", f"exec $P {use.words} <broken {how}", 3, b"")
            yield use.refused(f"error {what}, input a directory", f"exec $P {use.words} <. {how}", 5, b"")


def closed_rows():
    """Several streams closed at once. A read comes before the first write, and words before both."""
    for use in READERS:
        yield use.refused("input and output closed", f"exec $P {use.words} <&- >&-", 5, READ)
        yield use.refused("input and error closed", f"exec $P {use.words} <&- 2>&-", 5, b"")
        yield use.refused("all three closed", f"exec $P {use.words} <&- >&- 2>&-", 5, b"")
    yield TRIAL_USE.refused("input and output closed", f"exec $P {TRIAL_USE.words} <&- >&-", 6, WRITE)
    yield TRIAL_USE.answered("input and error closed", f"exec $P {TRIAL_USE.words} <&- 2>&-")
    yield TRIAL_USE.refused("all three closed", f"exec $P {TRIAL_USE.words} <&- >&- 2>&-", 6, b"")
    for use in USES:
        yield use.refused("output and error closed", f"{use.text()} >&- 2>&-", 6, b"")
        yield use.refused("words refused, all three closed", f"exec $P {use.words} x <&- >&- 2>&-", 2, b"")
        yield use.refused("words refused, input and output closed", f"exec $P {use.words} x <&- >&-", 2, WORDS)


def pipe_rows(large):
    """A pipe whose reader has gone, before the first byte and in the midst. The write fails, whatever SIGPIPE did."""
    for what, how in (("ignored", "trap '' PIPE; "), ("as it is", "")):
        for use in USES:
            gone = f"{how}{{ sleep 0.2; {use.text()}; }} | true; exit ${{PIPESTATUS[0]}}"
            yield use.refused(f"the reader has gone, SIGPIPE {what}", gone, 6, WRITE)
        for use in large:
            midst = f"{how}{{ {use.text()}; }} | head -c 9000 >written; exit ${{PIPESTATUS[0]}}"
            first = wanted.some_prefix(use.out, 9000)
            made = row(f"{use.name}: the reader goes after 9000 bytes, SIGPIPE {what}", midst, 6, first, WRITE)
            yield made._replace(into="written")


def unheard_rows():
    """Standard error without a reader changes no status."""
    for what, how in (("ignored", "trap '' PIPE; "), ("as it is", "")):
        for use in USES:
            gone = f"{how}{{ sleep 0.2; exec $P {use.words} x; }} 2>&1 >/dev/null | true; exit ${{PIPESTATUS[0]}}"
            yield use.refused(f"error without a reader, SIGPIPE {what}", gone, 2, b"")


def file_rows(large):
    """A file that may not grow, or not beyond 9216 bytes."""
    for what, how, status, err in (("ignored", "trap '' XFSZ; ", 6, WRITE), ("as it is", "", SIGXFSZ, b"")):
        for use in USES:
            limited = f"{how}ulimit -f 0; {use.text()} >written"
            made = use.refused(f"a file that may not grow, SIGXFSZ {what}", limited, status, err)
            yield made._replace(into="written")
        for use in large:
            limited = f"{how}ulimit -f 9; {use.text()} >written"
            made = row(f"{use.name}: a file of at most 9216 bytes, SIGXFSZ {what}", limited, status, use.out[:9216], err)
            yield made._replace(into="written")


def plain_rows(large):
    """No environment, a locale that is none, and a reader that waits."""
    for use in USES:
        yield use.answered("no environment", f"exec env -i $P {use.words} <{use.file}")
        yield use.answered("a locale of no such name", f"exec env LC_ALL=xx_YY.bad $P {use.words} <{use.file}")
    for use in large:
        held = f"$P {use.words} <{use.file} | {{ sleep 0.5; cat; }}; exit ${{PIPESTATUS[0]}}"
        yield use.answered("a reader that waits", held)


def lean_rows():
    """A header that promises more than there is, and no thread to be had."""
    for name in ("unwrap", "grid", "check", "screen", "whole", "check-whole", "parts"):
        short = f"printf 'P5 4096 1024 65535 ' | $P {name}"
        yield refused(f"{name}: a header of 4,194,304 pixels alone", short, 3, b"input fault 6 short phase samples 0\n")
    other_user = "setpriv --reuid=65534 --clear-groups " if os.geteuid() == 0 else ""
    for use in USES:
        yield use.answered("no thread is to be had", f"exec {other_user}prlimit --nproc=1 $P {use.words} <{use.file}")


def rows(large):
    """All of them. `large` has the commands on large inputs."""
    yield from input_rows()
    yield from output_rows()
    yield from error_rows()
    yield from closed_rows()
    yield from pipe_rows(large)
    yield from unheard_rows()
    yield from file_rows(large)
    yield from plain_rows(large)
    yield from lean_rows()
