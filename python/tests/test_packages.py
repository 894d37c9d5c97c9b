"""Tests the wheel and the Debian package: their bytes, what they tell, and that they work with nothing of the repository.

They are made of the program that is found (UNWRAP), whether or not it is the one that the gate proved.
"""
import hashlib
import os
import re
import shutil
import subprocess
import sys
import time
from pathlib import Path
from typing import Dict, Iterator, List

import numpy as np
import pytest
from helpers import TOP
from osgeo import gdal

from wundjeska.command import VERBS, parser_of
from wundjeska.program import program
from wundjeska.trouble import Trouble

if os.environ.get("WUNDJESKA_INSTALLED") or not shutil.which("rt"):
    pytest.skip("packages are made in a clone, with the kit", allow_module_level=True)

PACKAGES = TOP / "python/packaging/packages"
sys.path.insert(0, str(PACKAGES.parent))
import gate  # noqa: E402
from manual import completion, man_page  # noqa: E402

PLAIN = {"PATH": "/usr/bin:/bin", "HOME": "/nonexistent", "LC_ALL": "C.UTF-8"}
KIT = TOP / "recipes/kit"


def told(*words: object, env: Dict[str, str] = PLAIN, cwd: str = "/") -> str:
    ran = subprocess.run(list(map(str, words)), capture_output=True, text=True, env=env, cwd=cwd)
    assert ran.returncode == 0, ran.stderr
    return ran.stdout


@pytest.fixture(scope="module")
def made(tmp_path_factory: pytest.TempPathFactory) -> Iterator[List[Path]]:
    """The two packages, made twice."""
    folders = [tmp_path_factory.mktemp(name) for name in ("one", "two")]
    for folder in folders:
        subprocess.run([PACKAGES, "--dirty", program(), folder], check=True, capture_output=True)
    first, second = (sorted(folder.iterdir()) for folder in folders)
    assert [path.name for path in first] == [path.name for path in second]
    assert [path.read_bytes() for path in first] == [path.read_bytes() for path in second]
    yield first


def hash_of(path: Path) -> str:
    return hashlib.sha256(path.read_bytes()).hexdigest()


def unwraps(run: List[object], folder: Path, env: Dict[str, str]) -> None:
    """That a command makes a surface of the kit's rasters that is the phase up to whole cycles."""
    surface, page = folder / "cycles.tif", folder / "page.html"
    words = (KIT / "phase.tif", "--coherence", KIT / "coherence.tif", "--page", page, "--float64", surface)
    assert ": accepted, " in told(*run, *words, env=env)
    values, phase = (gdal.Open(str(path)).ReadAsArray() for path in (surface, KIT / "phase.tif"))
    known = phase != -9999
    off = values[known] - phase[known] / (2 * np.pi)
    np.testing.assert_allclose(off, np.rint(off), atol=2e-5)
    assert "check: accepted" in page.read_text()


def verdict_in(folder: Path) -> str:
    found: str = gdal.Open(str(folder / "cycles.tif")).GetMetadataItem("WUNDJESKA_VERDICT")
    return found


def other_program(folder: Path) -> Path:
    """A program of other bytes that does the same."""
    other = folder / "other"
    other.write_text(f'#!/bin/sh\nexec {program()} "$@"\n')
    other.chmod(0o755)
    return other


def test_a_wheel_in_a_fresh_environment(made: List[Path], tmp_path: Path) -> None:
    wheel = next(path for path in made if path.suffix == ".whl")
    told("/usr/bin/python3", "-m", "venv", "--system-site-packages", tmp_path / "fresh")  # NumPy and GDAL are Debian's
    python = tmp_path / "fresh/bin/python"
    told(python, "-m", "pip", "install", "--quiet", "--no-index", wheel)
    inside = told(python, "-c", "from wundjeska.program import program; print(program())").strip()
    assert Path(inside).is_relative_to(tmp_path / "fresh") and hash_of(Path(inside)) == hash_of(Path(program()))
    command: List[object] = [tmp_path / "fresh/bin/wundjeska"]
    version = told(*command, "--version")
    assert re.search(r"^commit [0-9a-f]{40}", version, re.M) and re.search(
        r"^kit \S+\nlogic [0-9a-f]+\n", version, re.M
    )
    assert f"sha256 {hash_of(Path(program()))}" in version
    assert version.endswith("\nproofs: not run\n")
    unwraps(command, tmp_path, PLAIN)
    assert verdict_in(tmp_path) == "accepted; proofs: not run"
    unwraps(command, tmp_path, {**PLAIN, "UNWRAP": str(other_program(tmp_path))})
    assert verdict_in(tmp_path) == "accepted"  # by a program of which the package knows nothing
    summary = told(python, "-m", "pip", "show", "-v", "wundjeska")
    assert not re.search("^Summary: .*proved", summary, re.M)
    assert (tmp_path / "fresh/share/man/man1/wundjeska.1").exists()


def test_a_debian_package(made: List[Path], tmp_path: Path) -> None:
    package = next(path for path in made if path.suffix == ".deb")
    fields = told("dpkg-deb", "--field", package)
    for name, form in (("Commit", "[0-9a-f]{40}.*"), ("Kit", r"\S+"), ("Logic", "[0-9a-f]+"), ("Architecture", r"\w+")):
        assert re.search(f"^{name}: {form}$", fields, re.M), fields
    assert f"Program-Sha256: {hash_of(Path(program()))}" in fields
    description = fields.partition("\nDescription:")[2].partition("\nCommit:")[0]
    assert "No proofs were run on this program" in description and "proved" not in description
    assert "\nProofs: not run\n" in fields
    root = tmp_path / "root"
    told("dpkg-deb", "--extract", package, root)
    assert hash_of(root / "usr/bin/insar_unwrap") == hash_of(Path(program()))
    env = {**PLAIN, "PYTHONPATH": str(root / "usr/lib/python3/dist-packages")}
    unwraps([root / "usr/bin/wundjeska"], tmp_path, env)


LOGIC = "dac8208d650f15bf"
LOG = """== low
logic=proved functions=3 sum={logic} native=nat
rt: low proved
rt: insar_unwrap is kept: an earlier run on this machine proved the same files over the same libraries
rt: ok; handles allowed: none; every proof and must-fail edit was done in this run
{last}
"""


def git(top: Path, *words: str) -> None:
    names = ("-c", "user.name=a", "-c", "user.email=a@b.example")
    subprocess.run(["git", "-C", top, *names, *words], check=True, capture_output=True)


def checkout(top: Path, whole: bool = False) -> Path:
    """A repository with two crates and the program where the gate builds it; if it is the whole one, with the package."""
    for name in subprocess.run(["git", "-C", TOP, "ls-files"], check=True, capture_output=True, text=True).stdout.split():
        if whole and name.startswith(("python/", "LICENSE", "HANDLES")) and (TOP / name).exists():
            (top / name).parent.mkdir(parents=True, exist_ok=True)
            shutil.copy(TOP / name, top / name)
    for name in ("low", "insar_unwrap"):
        (top / "crates" / name / "src").mkdir(parents=True)
        (top / "crates" / name / "src/lib.rt").write_text("// nothing\n")
    (top / "crates.txt").write_text("# the crates\nlow:\ninsar_unwrap: low\n")
    (top / ".gitignore").write_text("out/\n")
    git(top, "init", "-q")
    git(top, "add", "-A")
    git(top, "commit", "-q", "-m", "all")
    (top / gate.BUILT).parent.mkdir()
    shutil.copyfile(program(), top / gate.BUILT)
    (top / gate.BUILT).chmod(0o755)
    return top


def log_of(folder: Path, logic: str = LOGIC, last: str = "3 passed, 0 failed") -> Path:
    log = folder / "log"
    log.write_text(LOG.format(logic=logic, last=last))
    os.utime(log, (time.time() + 60,) * 2)
    return log


def test_the_gates_log(tmp_path: Path) -> None:
    top, other = checkout(tmp_path / "top"), other_program(tmp_path)
    log = log_of(tmp_path)
    assert gate.verdict_of(log, top, top / gate.BUILT, LOGIC) == "3 passed, 0 failed"

    def refused(why: str, program: Path = top / gate.BUILT) -> None:
        with pytest.raises(Trouble, match=why):
            gate.verdict_of(log, top, program, LOGIC)

    refused("is not byte for byte", other)
    for last in ("3 passed, 1 failed", "0 passed, 0 failed", "3 passed, 0 failed (low and the crates below alone: not the gate)", ""):
        log_of(tmp_path, last=last)
        refused("the gate did not pass")
    log_of(tmp_path, logic="0123456789abcdef")
    refused("it is of the logic 0123456789abcdef")
    log.write_text(log_of(tmp_path).read_text().replace("rt: low proved", "rt: high proved"))
    os.utime(log, (time.time() + 60,) * 2)
    refused("tells nothing of the crate low")
    os.utime(log_of(tmp_path), (1e9, 1e9))
    refused("was written after it ended")
    log_of(tmp_path)
    (top / "crates/low/src/lib.rt").write_text("// something\n")
    refused("wants a clean checkout, and crates/low/src/lib.rt")
    log.unlink()
    refused("there is no log")


def test_packages_of_a_program_that_the_gate_passed(tmp_path: Path) -> None:
    top, logic = checkout(tmp_path / "top", whole=True), told("rt", "version", env=dict(os.environ)).split()[2]
    log = log_of(tmp_path, logic=logic)
    words = [top / "python/packaging/packages", "--gate", log, top / gate.BUILT, tmp_path / "made"]
    ran = subprocess.run(list(map(str, words)), capture_output=True, text=True)
    assert ran.returncode == 0 and ran.stdout.endswith(", proofs: 3 passed, 0 failed\n"), ran.stderr
    package = next((tmp_path / "made").glob("*.deb"))
    fields = told("dpkg-deb", "--field", package)
    assert "\nProofs: 3 passed, 0 failed\n" in fields and "A proved program" in fields
    root = tmp_path / "root"
    told("dpkg-deb", "--extract", package, root)
    env = {**PLAIN, "PYTHONPATH": str(root / "usr/lib/python3/dist-packages")}
    version = told(root / "usr/bin/wundjeska", "--version", env=env)
    assert f"\nproofs: 3 passed, 0 failed\nlog {hash_of(log)}\n" in version
    unwraps([root / "usr/bin/wundjeska"], tmp_path, env)
    assert verdict_in(tmp_path) == "accepted; proofs: 3 passed, 0 failed"
    log_of(tmp_path, logic=logic, last="2 passed, 1 failed")
    ran = subprocess.run(list(map(str, words)), capture_output=True, text=True)
    assert (ran.returncode, ran.stdout, ran.stderr.count("\n")) == (5, "", 1), ran.stderr


def test_the_man_page_has_each_option_and_no_fault(tmp_path: Path) -> None:
    page = tmp_path / "wundjeska.1"
    page.write_text(man_page("2026-11-29"))
    ran = subprocess.run(
        ["man", "--warnings", "-l", page], capture_output=True, text=True, env={**PLAIN, "MANWIDTH": "120"}
    )
    assert (ran.returncode, ran.stderr) == (0, "")
    for verb in VERBS:
        for action in parser_of(verb)._actions if verb != "scenes" else []:
            for option in action.option_strings:
                assert re.search(rf"(?<![\w-]){option}(?![\w-])", ran.stdout), (verb, option)


def completed(folder: Path, *words: str) -> List[str]:
    """What the completion offers for the last of these words."""
    script = folder / "completion"
    script.write_text(completion())
    quoted = " ".join(f"'{word}'" for word in words)
    lines = (
        f". {script}",
        f"COMP_WORDS=({quoted})",
        f"COMP_CWORD={len(words) - 1}",
        "_wundjeska",
        'printf "%s\\n" "${COMPREPLY[@]}"',
    )
    return told("bash", "-c", "\n".join(lines), cwd=str(folder)).split()


def test_the_completion(tmp_path: Path) -> None:
    (tmp_path / "phase.tif").write_text("")
    assert completed(tmp_path, "wundjeska", "fra") == ["frames"]
    assert completed(tmp_path, "wundjeska", "ph") == ["phase.tif"]
    assert "--coherence" in completed(tmp_path, "wundjeska", "phase.tif", "--co")
    assert completed(tmp_path, "wundjeska", "frames", "--agr") == ["--agree"]
    assert completed(tmp_path, "wundjeska", "unwrap", "--rule", "m") == ["mean"]
    assert completed(tmp_path, "wundjeska", "frames", "--no-ch") == []
    assert completed(tmp_path, "wundjeska", "scenes", "--un") == ["--unlock"]
