"""What the gate said of a program: read of the log of `rt ci`, if that is of this checkout and of this program.

A log names crates and the logic, and no commit and no program. What ties the three is checked here: the checkout is clean, and
nothing of its crates was written after the log ended; the log tells of each crate in it, by the logic of this kit; and the
program is byte for byte the one that stands where the gate builds it, which was not written after the log ended either. This
finds mistakes. Whoever wants to mislead can write a log.
"""
import hashlib
import re
import subprocess
import sys
from pathlib import Path
from typing import List

sys.path.insert(0, str(Path(__file__).resolve().parent.parent))

from wundjeska.trouble import FILE_FAULT, Trouble  # noqa: E402

LAST = re.compile(r"[1-9][0-9]* passed, 0 failed")
LOGIC = re.compile(r"^logic=proved .*?\bsum=([0-9a-f]+) ", re.M)
CRATE = re.compile(r"^rt: (\w+) (?:proved$|is kept: )", re.M)
READ = ("crates", "crates.txt", "HANDLES")  # what the gate reads of a repository
BUILT = Path("crates/insar_unwrap/out/insar_unwrap")


def sha256(path: Path) -> str:
    return hashlib.sha256(path.read_bytes()).hexdigest()


def crates_of(top: Path) -> List[str]:
    """The crates that the repository names."""
    lines = (line.split("#")[0] for line in (top / "crates.txt").read_text().splitlines())
    return [line.split(":")[0].split()[0] for line in lines if ":" in line]


def refuse(log: Path, why: str) -> Trouble:
    return Trouble(f"{log}: {why}", FILE_FAULT)


def check_text(log: Path, top: Path, logic: str) -> str:
    """The last line of a log. Trouble if the gate did not pass, or read other crates or by another logic."""
    text = log.read_text(errors="replace").rstrip("\n")
    last = text.rpartition("\n")[2]
    if not LAST.fullmatch(last) or "\nrt: ok;" not in f"\n{text}":
        raise refuse(log, f"the gate did not pass: it has no line `rt: ok`, or its last line {last[:60]!r} is no `N passed, 0 failed`")
    lacking = sorted(set(crates_of(top)) - set(CRATE.findall(text)))
    if lacking:
        raise refuse(log, f"it tells nothing of the crate {lacking[0]}, so it is not of this commit")
    others = sorted(set(LOGIC.findall(text)) - {logic})
    if others:
        raise refuse(log, f"it is of the logic {others[0]}, and this kit's is {logic}")
    return last


def git(top: Path, *words: str) -> List[str]:
    ran = subprocess.run(["git", "-C", str(top), *words], check=True, capture_output=True, text=True)
    return ran.stdout.splitlines()


def check_files(log: Path, top: Path, program: Path) -> None:
    """Trouble if the checkout or the program may be others than those that the log is of."""
    changed = git(top, "status", "--porcelain", "--", *READ)
    if changed:
        raise refuse(log, f"the gate's log wants a clean checkout, and {changed[0].split()[-1]} is not as it was committed")
    built, ended = top / BUILT, log.stat().st_mtime
    if not built.is_file() or sha256(built) != sha256(program):
        raise refuse(log, f"{program} is not byte for byte {built}, which the gate built")
    for path in (built, *(top / name for name in git(top, "ls-files", "--", *READ))):
        if path.lstat().st_mtime > ended:
            raise refuse(log, f"{path} was written after it ended")


def verdict_of(log: Path, top: Path, program: Path, logic: str) -> str:
    """What the gate said of the program, as `123 passed, 0 failed`."""
    if not log.is_file():
        raise Trouble(f"there is no log {log} of the gate", FILE_FAULT)
    check_files(log, top, program)
    return check_text(log, top, logic)
