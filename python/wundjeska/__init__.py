"""Wundjeska unwraps the phase of radar interferograms, with certificates that a proved checker reads.

    import wundjeska
    phase, components = wundjeska.unwrap(igram, coherence)

NumPy is its one need; GDAL (Debian's `python3-gdal`) is wanted for rasters in files alone.
"""
from typing import TYPE_CHECKING, Any

if TYPE_CHECKING:
    from .concerns import Concern as Concern
    from .trouble import Caution as Caution
    from .trouble import Trouble as Trouble
    from .unwrapping import Unwrapped as Unwrapped
    from .unwrapping import unwrap as unwrap

__version__ = "0.1.0"
__all__ = ["Caution", "Concern", "Trouble", "Unwrapped", "unwrap"]
WHERE = {"Caution": ".trouble", "Trouble": ".trouble", "Concern": ".concerns"}


def __getattr__(name: str) -> Any:
    """What is exported, imported when it is first asked for, so that a command starts without NumPy."""
    from importlib import import_module

    if name in __all__:
        return getattr(import_module(WHERE.get(name, ".unwrapping"), __name__), name)
    raise AttributeError(f"module {__name__!r} has no attribute {name!r}")
