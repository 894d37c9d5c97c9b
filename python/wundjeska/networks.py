"""The loops of a network of interferograms, by the names of its scenes. It needs Python alone."""
from typing import Dict, Iterable, Optional, Tuple

Triplet = Tuple[str, str, str]  # the scenes of the pairs 1 to 2, 2 to 3 and 1 to 3
NO_LOOP = "no three scenes whose names are the pairs of three acquisitions, as 1_2, 2_3 and 1_3"


def pair_of(name: str) -> Optional[Tuple[str, str]]:
    """The two acquisitions in the name of a scene, as 20230101_20230113, 2023-01-01_2023-01-13 or a-b; None if it tells none."""
    for sign in "_-":
        first, _, second = name.partition(sign)
        if name.count(sign) == 1 and first and second and first != second:
            return first, second
    return None


def triplets_of(names: Iterable[str]) -> Dict[str, Triplet]:
    """The loops of three, by the names of their acquisitions."""
    pairs = {pair: name for name in names if (pair := pair_of(name))}
    return {
        f"{first}_{second}_{third}": (pairs[first, second], pairs[second, third], pairs[first, third])
        for first, second in pairs
        for same, third in pairs
        if same == second and (first, third) in pairs
    }
