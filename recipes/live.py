#!/usr/bin/python3
"""`wundjeska live` from a clone: the package is in python/."""
import sys
from pathlib import Path

sys.path.insert(0, str(Path(__file__).resolve().parent.parent / "python"))
from wundjeska.command import main

main("live")
