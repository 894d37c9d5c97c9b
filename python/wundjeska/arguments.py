"""Arguments of Python: what each has to be. A wrong one is a Trouble that names it."""
import math
import operator
import os
from typing import Any, Optional, TypeVar

import numpy as np

from .trouble import REFUSED_WORDS, Trouble

Found = TypeVar("Found")


def refused(name: str, wanted: str, given: Any) -> Trouble:
    told = " ".join(repr(given).split())
    return Trouble(f"{name} is {wanted}, not {told if len(told) <= 60 else type(given).__name__}", REFUSED_WORDS)


def whole_number(name: str, given: Any, low: int, high: float = math.inf) -> int:
    """A whole number from low to high. True and False are none."""
    span = f"a whole number from {low} to {high:g}" if high < math.inf else f"a whole number of {low} or more"
    try:
        found = operator.index(given)
    except TypeError as error:
        raise refused(name, span, given) from error
    if isinstance(given, (bool, np.bool_)) or not low <= found <= high:
        raise refused(name, span, given)
    return found


def number(name: str, given: Any, wanted: str) -> float:
    """A number that is neither text nor True or False."""
    is_number = isinstance(given, (int, float, np.integer, np.floating)) and not isinstance(given, bool)
    if not is_number:
        raise refused(name, wanted, given)
    return float(given)


def yes_or_no(name: str, given: Any) -> bool:
    if not isinstance(given, (bool, np.bool_)):
        raise refused(name, "True or False", given)
    return bool(given)


def name_of_file(name: str, given: Any) -> str:
    try:
        return os.fsdecode(given)
    except TypeError as error:
        raise refused(name, "the name of a file", given) from error


def one_of(name: str, given: Optional[Found], other_name: str, other: Optional[Found]) -> Optional[Found]:
    """The one of two arguments that is given. Trouble if both are."""
    if given is not None and other is not None:
        raise Trouble(f"{other_name} is another name of {name}; both are given", REFUSED_WORDS)
    return other if given is None else given
