"""What `scenes` is asked for: its keys, judged by the functions that judge the words of `unwrap`, and the scenes that names find.

All are judged before Snakemake starts, so what is refused is refused before anything is done.
"""
import difflib
import glob
import os
import re
from argparse import Action, BooleanOptionalAction, Namespace
from dataclasses import dataclass
from pathlib import Path
from typing import Dict, Iterable, List, Mapping, Optional

from .command import parser_of, with_auto
from .commands.unwrap import chain_of, settings_of
from .displacements import LENGTHS
from .parts import bounds_for
from .product import check_unit_words
from .rasters import check_scene_words
from .screening import check_screen_words
from .trouble import REFUSED_WORDS, Trouble

PAIR = "{pair}"  # what stands for a scene's name in the names of its files
IGRAM, COHERENCE = PAIR + "/phase.tif", PAIR + "/coherence.tif"
YES_OR_NO = "yes|no"
OWN = {
    "igram": ("NAME", f"the phases of all scenes, as {PAIR}/filt_fine.int (default: {IGRAM})"),
    "coherence": ("NAME", f"their coherence, as {PAIR}/filt_fine.cor (default: {COHERENCE}); a number is least_coherence"),
    "mask": ("NAME", f"0 at pixels to leave out: one file for all scenes, or a name with {PAIR}"),
    "page": (YES_OR_NO, "a page of each scene, which the page of all of them leads to (default: yes)"),
    "closure": (YES_OR_NO, "scenes are pairs of acquisitions, and loops of three get their closures (default: no)"),
    "without_coherence": (YES_OR_NO, "scenes that have none are unwrapped with equal weights, unscreened (default: no)"),
}
# Of the words of unwrap those that each scene has its own of, or that the workflow sets.
NOT_KEYS = {"help", "coherence", "mask", "components", "page", "session", "report", "unscreened", "no_check", "workers"}
NOT_KEYS |= {"quiet", "undecided", "unfiltered", "parts", "mask_components"}
WANT_COHERENCE = ("least_coherence", "coherence_band", "coherence_max", "coherence_form", "looks", "screen")


def options() -> Dict[str, Action]:
    """The options of unwrap that are keys, by their names here."""
    named = (action for action in parser_of("unwrap")._actions if action.option_strings)
    found = {action.dest: action for action in named if action.option_strings != ["--no-filter"]}
    return {key: action for key, action in found.items() if key not in NOT_KEYS and key != "reference_auto"}


def says_yes(key: str, value: str) -> bool:
    """Whether a yes-or-no key says yes. Trouble if it says something else than yes or no."""
    if value not in ("yes", "no"):
        raise Trouble(f"{key}={value}: {key} is yes or no", REFUSED_WORDS)
    return value == "yes"


def words_of(key: str, value: str, action: Action) -> List[str]:
    """The words of unwrap that a key stands for."""
    name = action.option_strings[0]
    if isinstance(action, BooleanOptionalAction):
        return [name if says_yes(key, value) else name.replace("--", "--no-", 1)]
    if action.nargs == 0:
        return [name] if says_yes(key, value) else []
    if isinstance(action.nargs, int) and value != "auto":
        return [name, *value.split(",")]
    return [f"{name}={value}"]


@dataclass(frozen=True)
class Wanted:
    """What is asked for: the names of files, whether a filter comes first, and the words of unwrap for scenes with and without
    coherence."""

    igram: str
    coherence: str
    mask: Optional[str]
    page: bool
    closure: bool
    without_coherence: bool
    filtered: bool
    words: List[str]
    plain_words: List[str]


def is_number(text: str) -> bool:
    try:
        float(text)
    except ValueError:
        return False
    return True


def with_least_coherence(config: Mapping[str, object]) -> Dict[str, str]:
    """The keys as text; a coherence that is a number is the least one."""
    found = {key: str(value) for key, value in config.items()}
    if is_number(found.get("coherence", "")):
        if "least_coherence" in found:
            raise Trouble("coherence=C and least_coherence=C are the same key", REFUSED_WORDS)
        found["least_coherence"] = found.pop("coherence")
    return found


def check_name(key: str, name: str, many: bool) -> None:
    """Trouble if this names no files of scenes. `many` says that each scene has its own."""
    bare = name.replace(PAIR, "")
    if set(bare) & set("{}*?[]\n") or not bare.strip("./"):
        raise Trouble(f"{key}={name}: a name is plain but for {PAIR}, which stands for the scene", REFUSED_WORDS)
    if many and PAIR not in name:
        raise Trouble(f"{key}={name}: a name has {PAIR} where that of the scene stands", REFUSED_WORDS)


def check_together(asked: Namespace, closure: bool) -> None:
    """Trouble if words of unwrap do not fit each other, as unwrap says it."""
    check_unit_words(asked)
    bounds_for(asked, settings_of(asked, asked.whole).is_whole)
    chain_of(asked)
    check_scene_words(asked)
    check_screen_words(asked.screen, None, asked.coherence)
    if closure and asked.unit in LENGTHS:
        raise Trouble(f"closure=yes wants surfaces in cycles or radians, not in {asked.unit}", REFUSED_WORDS)
    if closure and asked.reference_auto:
        raise Trouble("closure=yes wants one reference for all scenes, and reference=auto finds one for each", REFUSED_WORDS)


def as_keys(line: object) -> str:
    """A line on words of unwrap, with its options as the keys that they are here."""
    text = str(line).replace("; --help tells more", "").replace("argument ", "")
    return re.sub("--([a-z][a-z-]*)", lambda found: found[1].replace("-", "_"), text)


def parsed(key: str, value: str, words: List[str]) -> None:
    """Trouble if unwrap does not take the words of a key."""
    try:
        parser_of("unwrap").parse_args(["phase", *with_auto(words), "surface.tif"])
    except Trouble as trouble:
        raise Trouble(f"{key}={value}: {as_keys(trouble).replace(f'{key}: ', '', 1)}", REFUSED_WORDS) from trouble


def unknown(key: str, value: str, known: Iterable[str]) -> Trouble:
    """What is told of a key that there is not."""
    near = difflib.get_close_matches(key, list(known), 1)
    more = f"; did you mean {near[0]}?" if near else ";"
    return Trouble(f"{key}={value}: there is no key {key}{more} --help lists them", REFUSED_WORDS)


def wanted(config: Mapping[str, object]) -> Wanted:
    """What keys and values ask for. Trouble if one is unknown, out of its range, or does not fit another."""
    given, known = with_least_coherence(config), options()
    flags = {key: says_yes(key, given[key]) for key, (kind, _) in OWN.items() if kind == YES_OR_NO and key in given}
    words: Dict[str, List[str]] = {}
    for key, value in given.items():
        if key in known:
            words[key] = words_of(key, value, known[key])
            parsed(key, value, words[key])
        elif key not in OWN:
            raise unknown(key, value, [*OWN, *known])
    names = {"igram": IGRAM, "coherence": COHERENCE, **given}
    for key in ("igram", "coherence", "mask"):
        if key in names:
            check_name(key, names[key], many=key != "mask")
    found = [word for key in words for word in words[key]]
    page = ["--page", "page.html"] if flags.get("page", True) else []
    asked = parser_of("unwrap").parse_args(with_auto(["phase", "--coherence", "coherence", *page, *found, "surface.tif"]))
    try:
        check_together(asked, flags.get("closure", False))
    except Trouble as trouble:
        raise Trouble(as_keys(trouble), trouble.status) from trouble
    plain = [word for key in words if key not in WANT_COHERENCE for word in words[key]]
    chosen = (flags.get("page", True), flags.get("closure", False), flags.get("without_coherence", False))
    is_filtered = asked.filter is not None
    return Wanted(names["igram"], names["coherence"], given.get("mask"), *chosen, is_filtered, found, plain)


# Scenes


def scenes_in(folder: Path, pattern: str) -> List[str]:
    """The names of the scenes whose phase is there."""
    whole = os.path.join(folder, pattern)
    before, *after = whole.split(PAIR)
    form = re.escape(before) + "([^/]+)" + "".join(re.escape(part) + r"\1" for part in after[:-1]) + re.escape(after[-1])
    paths = glob.glob("*".join(map(glob.escape, whole.split(PAIR))))
    found = (re.fullmatch(form, path) for path in paths)
    return sorted(match.group(1) for match in found if match)


def is_odd(name: str) -> bool:
    """Whether a workflow cannot have a scene of this name."""
    return bool(set(name) & set("{}*?[]\n")) or name.startswith("-")


# What is told of keys


def metavar_of(action: Action) -> str:
    """What stands for the value of a key."""
    if action.nargs == 0:
        return YES_OR_NO
    if action.choices:
        return "|".join(map(str, action.choices))
    names = action.metavar if action.metavar is not None else action.dest.upper()
    return names if isinstance(names, str) else ",".join(names)


def key_help() -> List[List[str]]:
    """Each key with its value, and what it is."""
    own = [[f"{key}={value}", what] for key, (value, what) in OWN.items()]
    return own + [[f"{key}={metavar_of(action)}", (action.help or "").replace("--", "")] for key, action in options().items()]
