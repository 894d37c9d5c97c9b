"""Arrays as callers hand them over: plain or masked ones, labelled ones, and what is missing in them. NumPy alone.

A masked array is one of `numpy.ma`, as rasterio reads it with `masked=True`. A labelled one has its numbers in `.values` or `.data`,
as xarray's DataArray and rioxarray have them, where NaN stands for no value, or what the attribute `_FillValue` says.
"""
from typing import Any, Mapping, Optional, Tuple

import numpy as np

from .outputs import PRODUCT
from .planes import as_stored, check_told
from .trouble import Trouble

PHASES, REALS = "fciu", "fiub"  # kinds of numbers, as NumPy names them


def held_in(given: Any, name: str) -> np.ndarray:
    """The array that is given or that a labelled array holds; one that is masked stays so."""
    found = [held for held in (given, getattr(given, "data", None), getattr(given, "values", None)) if is_array(held)]
    masked = [held for held in found if isinstance(held, np.ma.MaskedArray)]
    if masked or found:
        array: np.ndarray = (masked or found)[0]
        return array
    try:
        return np.asanyarray(given)
    except (TypeError, ValueError) as error:
        raise Trouble(f"{name} is no array that NumPy takes ({type(given).__name__})") from error


def is_array(held: object) -> bool:
    return isinstance(held, np.ndarray)


def attributes_of(given: Any) -> Mapping[str, Any]:
    """What a labelled array tells of itself."""
    found = getattr(given, "attrs", None)
    return found if isinstance(found, Mapping) else {}


def check_attributes(given: Any, name: str, wrap: bool) -> None:
    """Trouble if a labelled array tells that it is no wrapped phase: by its unit, or as a product of this program."""
    told = attributes_of(given)
    own = str(told.get(f"{PRODUCT}UNIT", "")) if any(str(key).startswith(PRODUCT) for key in told) else None
    check_told(name, str(told.get("units", "")), own, wrap)


def missing_in(values: np.ndarray, number: Any) -> np.ndarray:
    """True where values are a number that stands for no value, False everywhere if there is none."""
    if number is None:
        return np.zeros(values.shape, dtype=bool)
    try:
        with np.errstate(invalid="ignore"):
            return np.asarray(values == as_stored(number, values.dtype), dtype=bool)
    except (TypeError, ValueError) as error:
        raise Trouble(f"{number!r} stands for no value, and is no number") from error


def taken(given: Any, name: str, kinds: str, nodata: Optional[float] = None) -> Tuple[np.ndarray, np.ndarray]:
    """The numbers of an array, 0 where one is missing, and where they are there: neither masked nor the number that stands for no
    value, nor NaN. Trouble if its numbers are of none of these kinds."""
    array = held_in(given, name)
    if array.dtype.kind not in kinds:
        raise Trouble(f"{name} has values of {array.dtype}, wanted {'numbers' if 'c' in kinds else 'real numbers'}")
    values, masked = (array.data, array.mask) if isinstance(array, np.ma.MaskedArray) else (array, np.False_)
    filled = missing_in(values, nodata) | missing_in(values, attributes_of(given).get("_FillValue"))
    there = ~(masked | filled | np.isnan(values))
    return np.where(there, values, np.zeros(1, values.dtype)), there
