"""What a package was built from, and what the gate said of the program inside. Python alone; a clone has nothing to tell."""
import hashlib
import json
from functools import lru_cache
from pathlib import Path
from typing import Dict, List, Optional

from .program import program

INFO = Path(__file__).resolve().parent / "build.json"
NOT_RUN = "not run"  # what is told of the proofs of a program that no gate passed


def info() -> Dict[str, str]:
    """The commit, kit, logic and SHA-256 of the program inside, and what the gate said of it; nothing in a clone."""
    found: Dict[str, str] = json.loads(INFO.read_text()) if INFO.exists() else {}
    return found


def lines() -> List[str]:
    """The same as `--version` tells it."""
    told = info()
    return [f"proofs: {value}" if name == "proofs" else f"{name} {value}" for name, value in told.items()]


@lru_cache(maxsize=8)
def proofs_of(path: str) -> Optional[str]:
    """What the gate said of exactly this program. None if it is not the one inside, of which nothing is known here."""
    told = info()
    if not told or hashlib.sha256(Path(path).read_bytes()).hexdigest() != told["sha256"]:
        return None
    return told.get("proofs", NOT_RUN)


def with_proofs(verdict: str) -> str:
    """A verdict of the checker, with what the gate said of the program that was the checker, if that is known."""
    said = proofs_of(program())
    return verdict if said is None else f"{verdict}; proofs: {said}"
