"""A network of interferograms as a picture: acquisitions along a line of time, pairs as arcs over it. It needs Python alone."""
from datetime import datetime
from html import escape
from typing import Dict, List, Optional, Sequence, Tuple

from .networks import pair_of

WIDE, HIGH, RIM, LOWEST, MOST_NAMES = 1000, 260, 40, 20, 24
COLOURS = {"accepted": "#2a7f3f", "amber": "#d08a00", "refused": "#b3261e"}  # by the class of a scene's verdict
FORMS = ("%Y%m%d", "%Y-%m-%d", "%Y%m%dT%H%M%S")


def day_of(name: str) -> Optional[float]:
    """The day of an acquisition by its name, None if it names none."""
    for form in FORMS:
        try:
            return datetime.strptime(name, form).timestamp() / 86400
        except ValueError:
            continue
    return None


def places_of(names: Sequence[str]) -> Dict[str, float]:
    """Where acquisitions stand from 0 to 1: by their days, or one after another if one of them names none."""
    days = [day_of(name) for name in names]
    known = [day for day in days if day is not None]
    if len(known) < len(names) or max(known) == min(known):
        return {name: at / max(len(names) - 1, 1) for at, name in enumerate(names)}
    return {name: (day - min(known)) / (max(known) - min(known)) for name, day in zip(names, known)}


def arc(first: float, second: float, longest: float, title: str, colour: str) -> str:
    """A pair: half an ellipse over the line of time, higher the longer it is, and of the whole height if none is longer."""
    left, right = (RIM + (WIDE - 2 * RIM) * place for place in sorted((first, second)))
    tall = LOWEST + (HIGH - 70 - LOWEST) * abs(second - first) / longest
    base = HIGH - 40
    curve = f"M{left:.1f} {base} C{left:.1f} {base - 1.33 * tall:.1f} {right:.1f} {base - 1.33 * tall:.1f} {right:.1f} {base}"
    return f'<path d="{curve}" fill="none" stroke="{colour}" stroke-width="1.5"><title>{escape(title)}</title></path>'


def mark(place: float, name: str, is_named: bool) -> str:
    """An acquisition on the line of time."""
    x, base = RIM + (WIDE - 2 * RIM) * place, HIGH - 40
    label = f'<text x="{x:.1f}" y="{base + 14}" transform="rotate(30 {x:.1f} {base + 14})">{escape(name)}</text>' if is_named else ""
    return f'<circle cx="{x:.1f}" cy="{base}" r="3" fill="#333"><title>{escape(name)}</title></circle>{label}'


def network_of(scenes: Sequence[Tuple[str, str, str]]) -> str:
    """The picture of scenes, each with its class and its judgement; empty if no name is that of a pair. What is worst is drawn last."""
    pairs = [(pair, scene) for scene in scenes if (pair := pair_of(scene[0]))]
    if not pairs:
        return ""
    names = sorted({name for pair, _ in pairs for name in pair})
    places = places_of(names)
    longest = max(abs(places[pair[1]] - places[pair[0]]) for pair, _ in pairs)
    step = -(-len(names) // MOST_NAMES)
    order = list(COLOURS)
    arcs: List[str] = [
        arc(places[pair[0]], places[pair[1]], longest, f"{name}: {told}", COLOURS[kind])
        for pair, (name, kind, told) in sorted(pairs, key=lambda one: order.index(one[1][1]))
    ]
    marks = [mark(places[name], name, at % step == 0) for at, name in enumerate(names)]
    body = "".join([*arcs, *marks])
    return f'<h2>The network</h2><svg class="network" viewBox="0 0 {WIDE} {HIGH + 20}" role="img" aria-label="pairs of acquisitions">{body}</svg>'
