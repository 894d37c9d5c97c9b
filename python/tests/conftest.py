"""Tests run on the package beside them, or on the one that is installed if WUNDJESKA_INSTALLED is set."""
import os
import sys
from pathlib import Path

HERE = Path(__file__).resolve().parent
sys.path.insert(0, str(HERE))
if not os.environ.get("WUNDJESKA_INSTALLED"):
    sys.path.insert(0, str(HERE.parent))
