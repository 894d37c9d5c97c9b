"""Unwraps a raster of whatever size: in frames that overlap, each unwrapped and checked, joined by whole cycles.

`unwrap` solves a raster at once, without joints, up to 65,535 pixels a side and 268,435,456 in all. One that has more, or wants more
memory than is free, is cut into frames of at most --side pixels a side, which overlap by at least --overlap pixels. Each frame is
unwrapped, after a filter if nothing else is said, and the checker has to accept its report or whole text, which is then its guide's. In
an overlap both surfaces differ from the same phases by whole cycles, so they differ from each other by whole cycles; the median of the
differences is what joins them. If open pixels fall into pieces that do not touch, each piece of each frame is joined for itself. The
overlaps at which most pixels agree are taken first; the others are compared with what these say. Each frame fills the raster up to the
middle of the overlaps.

Each frame's surface, or its guide, is certified; with a model, for the phase less it. The joint is not: no certificate says that
other whole cycles at the overlaps would not cost less. So each overlap is told, with how many pixels agree. An overlap agrees if the
part --agree of all its pixels does; pieces in it that do not are told too. If an overlap does not agree, the raster is written all the
same, and the status is 1.

Rasters are read and written by windows. --folder keeps the session, the report and the surface of each frame, and their SHA-256.
What is there is not done again, so a run that was cut off goes on where it stopped; what was changed there since is.

--undecided writes what is undecided in each frame, up to the middle of the overlaps; a part that runs over several has a number in each.
--page writes a page of the raster, its maps reduced to 1,024 pixels a side.

If overlaps do not agree, as where a fault cuts them, frames are done once more with a model: the raster is multilooked to at most
4,194,304 blocks, which are solved at once, and what that surface says of each pixel is taken off the phase, and added again at the end.
If all overlaps agree then, that is what is written. --model N has a model of blocks of N by N pixels from the start, --model 0 none.
"""
import hashlib
import io
import sys
import threading
from argparse import ArgumentParser, Namespace, RawDescriptionHelpFormatter
from concurrent.futures import ThreadPoolExecutor
from dataclasses import dataclass, replace
from fractions import Fraction
from pathlib import Path
from typing import Any, Dict, Iterator, List, Optional, Sequence, Tuple

import numpy as np

from .. import program
from ..build_info import with_proofs
from ..coarse import Model, block_for, blocks_in, fits, model_of, multilooked
from ..components import pieces_of
from ..frames_page import Shown, page_of
from ..guiding import Chain, add_filter_words, add_narrow_word, by_guide, filtered_session
from ..joining import Link, Offsets, links_of, offsets_of
from ..needs import needs_of, tell_needs
from ..outputs import Outputs, add_force_word, beside, keep, raster_beside
from ..pictures import pixel_axes
from ..planes import CYCLE, Ramp, ramp_in, session_of
from ..product import add_unit_words, check_unit_words, create_numbers, in_unit, kind_of, nodata_of, undecided_notes, unit_notes
from ..progress import add_quiet_word, advance, say, shown
from ..ramps import AUTO, RampWord, Spectrum, add_ramp_words, found_in, told
from ..rasters import (
    Scene,
    Window,
    add_scene_words,
    axes_of,
    close,
    create_like,
    limit_cache,
    name_of,
    put_array,
    put_values,
    scene_of,
    size_of,
)
from ..reduced import Flags, Reduced
from ..references import add_reference_words, check_box, mean_of, reference_of
from ..report_reader import NODATA
from ..trouble import DISAGREES, REFUSED_WORDS, Trouble
from ..undecided import count_of, count_told
from ..unwrapping import FILTER, Settings, Solved, last_surface, solve, solved_by, solvers_of
from ..weights import highest_of
from .unwrap import add_solver_words, add_undecided_word, add_whole_word, chain_of, ramp_note, settings_of, steep_note

NOT_PROVED = (
    "Each frame is certified: the checker accepted its {}{}. The joint of the frames is not covered by any certificate or "
    "proof. The whole cycles between frames rest on the medians above."
)
LESS_MODEL = ", of the phase less the model"
BLOCK, BLOCKS = 256, 16  # pixels along a block that tells of the ramp, and how many there are at most along a side
KEPT = ("session", "report", "pieces.npy", "values.npy")  # of a frame
OF_GUIDES = ("undecided.npy", "f.npy")  # besides, of one with a filter: the numbers of undecided parts, and f of each
NARROW_SUMS = b"# narrow\n"  # with the sums of a frame in which narrow features were looked for
CHUNK = 1 << 20  # bytes of a file that are read at once
MAX_SIDE = 2048  # pixels along a side of a frame
MAX_LINES, MAX_COUNTS, MAX_JOBS = 20, 4, 64  # on pieces that do not agree, and of differences in such a line


@dataclass
class Frame:
    """A frame: its window, the part of the raster that it fills, both (column, row, width, height), and its files."""

    name: str
    window: Window
    core: Window
    folder: Path

    def file(self, kind: str) -> Path:
        return self.folder / f"{self.name}.{kind}"

    def load(self, kind: str, window: Window) -> np.ndarray:
        """Of the kept 'values' (int64), 'pieces' (int32) or 'undecided' (uint32) those of a window of the raster, (rows, columns)."""
        x, y, width, height = window
        x, y = x - self.window[0], y - self.window[1]
        kept: np.ndarray = np.load(self.file(f"{kind}.npy"), mmap_mode="r")
        return kept[y : y + height, x : x + width]


# Frames


def spans_of(length: int, side: int, overlap: int) -> List[Tuple[int, int]]:
    """The first pixel and the length of each frame along a side; at most `side` long, they overlap by `overlap` or more."""
    count = max(1, -(-(length - overlap) // (side - overlap)))
    size = -(-(length + (count - 1) * overlap) // count)
    return [(number * (length - size) // max(1, count - 1), size) for number in range(count)]


def cores_of(spans: List[Tuple[int, int]]) -> List[Tuple[int, int]]:
    """The first pixel and the length of what each frame fills: up to the middle of the overlaps."""
    ends = [start + size for start, size in spans]
    cuts = [(end + start) // 2 for end, (start, _) in zip(ends, spans[1:])]
    return [(first, last - first) for first, last in zip([0, *cuts], [*cuts, ends[-1]])]


def frames_of(size: Tuple[int, int], side: int, overlap: int, folder: Path) -> List[Frame]:
    """The frames of a raster of (width, height) pixels, row by row."""
    columns, rows = (spans_of(length, side, overlap) for length in size)
    across, down = list(zip(columns, cores_of(columns))), list(zip(rows, cores_of(rows)))
    return [
        Frame(f"frame-{row}-{column}", (x, y, w, h), (left, upper, wide, high), folder)
        for row, ((y, h), (upper, high)) in enumerate(down)
        for column, ((x, w), (left, wide)) in enumerate(across)
    ]


def overlap_of(one: Window, other: Window) -> Window:
    """The window that both have; its width or height is 0 or less if there is none."""
    x, y = max(one[0], other[0]), max(one[1], other[1])
    right, lower = min(one[0] + one[2], other[0] + other[2]), min(one[1] + one[3], other[1] + other[3])
    return x, y, right - x, lower - y


# Each frame


def text_of(array: np.ndarray) -> bytes:
    """An array as the bytes of a .npy file."""
    file = io.BytesIO()
    np.save(file, array)
    return file.getvalue()


def head_of(frame: Frame, settings: Settings, ramp: Optional[Ramp]) -> bytes:
    """What a report or a whole text on the frame begins with."""
    _, _, width, height = frame.window
    across, down = ramp or (0, 0)
    if settings.is_whole:
        terms = f"ramp {across} {down}\nsteep {settings.steep}\n"
        return f"insar-whole 1\nsize {width} {height}\nrule {settings.rule}\n{terms}".encode()
    is_plain = (across, down, settings.steep) == (0, 0, 1)
    version, terms = (1, "") if is_plain else (2, f"ramp {across} {down}\nsteep {settings.steep}\n")
    return (
        f"insar-report {version}\nsize {width} {height}\ntile {settings.side}\nrule {settings.rule}\n{terms}".encode()
    )


def sum_of(path: Path) -> str:
    """The SHA-256 of a file."""
    found = hashlib.sha256()
    with open(path, "rb") as file:
        while chunk := file.read(CHUNK):
            found.update(chunk)
    return found.hexdigest()


def kinds_of(chain: Chain) -> Sequence[str]:
    """What is kept of a frame."""
    return KEPT + OF_GUIDES if chain.filter else KEPT


def sums_of(frame: Frame, chain: Chain) -> bytes:
    """The sums of what is kept of a frame, a line for each file, as sha256sum has them."""
    lines = [f"{sum_of(frame.file(kind))}  {frame.file(kind).name}\n" for kind in kinds_of(chain)]
    return "".join(lines).encode() + (NARROW_SUMS if chain.narrow else b"")


def is_kept(frame: Frame, session: bytes, head: bytes, chain: Chain) -> bool:
    """Whether an earlier run ended with this frame, of the same session by the same options, and nothing was changed since."""
    if not all(frame.file(kind).exists() for kind in (*kinds_of(chain), "sums")):
        return False
    if frame.file("session").read_bytes() != session:
        return False
    with open(frame.file("report"), "rb") as report:
        is_like = report.read(len(head)) == head
    return is_like and frame.file("sums").read_bytes() == sums_of(frame, chain)


def keep_solved(frame: Frame, session: bytes, solved: Solved, chain: Chain) -> None:
    """Keeps what was found of a frame, in place of what stands under its names, which may be cut."""
    frame.file("sums").unlink(missing_ok=True)  # where it is, all else is whole
    keep(frame.file("session"), session, force=True)
    keep(frame.file("report"), solved.report, force=True)
    keep(frame.file("pieces.npy"), text_of(pieces_of(solved.surface.opened())), force=True)
    keep(frame.file("values.npy"), text_of(solved.surface.values), force=True)
    if solved.undecided:
        keep(frame.file("undecided.npy"), text_of(solved.undecided.labels), force=True)
        keep(frame.file("f.npy"), text_of(solved.undecided.f), force=True)
    keep(frame.file("sums"), sums_of(frame, chain), force=True)


@dataclass
class Job:
    """What all frames have in common."""

    scene: Scene
    settings: Settings
    reading: threading.Lock  # GDAL reads a raster for one thread at a time
    ramp: Optional[Ramp] = None
    chain: Chain = Chain()
    model: Optional[Model] = None  # which has the ramp, if there is one

    def read(self, window: Window) -> Tuple[np.ndarray, np.ndarray, np.ndarray]:
        """The planes of a window, the phase less the model."""
        with self.reading:
            phase, weights, opened = self.scene.read(window)
        if self.model:
            phase = ((phase - self.model.at(window)) % CYCLE * opened).astype(np.uint16)
        return phase, weights, opened

    def session(self, window: Window) -> bytes:
        ramp = None if self.model else self.ramp
        return session_of(*self.read(window), highest=highest_of(self.scene.looks), ramp=ramp)


def ramp_of(scene: Scene, word: RampWord) -> Optional[Ramp]:
    """The ramp of all frames. `auto` looks at up to BLOCKS a side of the raster's blocks, at equal steps."""
    if word != AUTO:
        assert not isinstance(word, str)
        return word
    width, height = size_of(scene.phase.raster)
    spectrum = Spectrum()
    for y in starts_of(height):
        for x in starts_of(width):
            spectrum.add(*scene.read((x, y, min(BLOCK, width - x), min(BLOCK, height - y))))
    return found_in(spectrum, name_of(scene.phase.raster))


def starts_of(length: int) -> List[int]:
    """The first pixels of the blocks along a side."""
    count = -(-length // BLOCK)
    return [number * BLOCK for number in range(0, count, -(-count // BLOCKS))]


def do_frame(frame: Frame, job: Job) -> str:
    """Sees that a frame's surface is kept; a line on it."""
    x, y, width, height = frame.window
    words = see_frame(frame, job, job.session(frame.window))
    return f"{frame.name}: columns {x} to {x + width - 1}, rows {y} to {y + height - 1}: {words}"


def see_frame(frame: Frame, job: Job, session: bytes) -> str:
    """Sees that the surface of a frame's session is kept; how it came about, in words."""
    text = filtered_session(session, job.scene.coherence is not None) if job.chain.filter else session
    if is_kept(frame, text, head_of(frame, job.settings, ramp_in(session)), job.chain):
        return "accepted in an earlier run"
    solved = solved_frame(frame, job, session, text)
    keep_solved(frame, text, solved, job.chain)
    return f"{solved.verdict}, {cost_words(solved, job.settings)}"


def solved_frame(frame: Frame, job: Job, session: bytes, text: bytes) -> Solved:
    """The surface of a frame's session, whose text is filtered if there is a filter."""
    solved = solve(text, job.settings, name=frame.name)
    if job.chain.filter is None:
        return solved
    return solved_by(by_guide(session, text, solved, job.chain.narrow, solvers_of(job.settings, True, frame.name)))


def cost_words(solved: Solved, settings: Settings) -> str:
    """What a frame's surface costs, in words."""
    surface = solved.surface
    found = f"costs {surface.tile_cost}"
    if not settings.is_whole:
        found = f"tiles cost {surface.tile_cost}, seams {surface.seam_cost}"
    return f"{found}, of its guide, {count_of(solved.undecided)}" if solved.undecided else found


def do_frames(frames: List[Frame], job: Job, jobs: int, quiet: bool) -> None:
    """Does all frames, some at once, and tells each when it is done."""
    pool = ThreadPoolExecutor(jobs)
    try:
        with shown(len(frames), quiet, has_stages=False):
            for line in pool.map(lambda frame: do_frame(frame, job), frames):
                advance()
                say(line, sys.stdout)
    except KeyboardInterrupt:
        program.stop()
        raise
    finally:
        pool.shutdown(cancel_futures=True)  # after a frame that failed none is begun


# The model


def model_for(size: Tuple[int, int], block: int, job: Job, folder: Path) -> Model:
    """The model of the raster by blocks of so many pixels a side: the guide if there is a filter, else the surface. It is kept as a
    frame is."""
    width, height = blocks_in(size, block)
    frame = Frame("model", (0, 0, width, height), (0, 0, width, height), folder)
    highest = highest_of(job.scene.looks)
    session = session_of(*multilooked(job.scene, size, block, job.ramp, highest), highest=highest)
    words = see_frame(frame, replace(job, settings=replace(job.settings, side=None)), session)
    print(f"model: {width} by {height} blocks of {block} by {block} pixels: {words}", flush=True)
    smooth = last_surface(frame.file("report").read_bytes(), "the model").values
    return model_of(smooth, frame.load("pieces", frame.window), block, size, job.ramp)


def with_model(job: Job, size: Tuple[int, int], block: int, frames: List[Frame]) -> Tuple[List[Frame], Job]:
    """The frames of the phase less a model, and what they have in common."""
    if not fits(blocks_in(size, block)):
        raise Trouble(f"--model {block}: blocks are at least {block_for(size)} pixels a side here", REFUSED_WORDS)
    model = model_for(size, block, job, frames[0].folder)
    return [replace(frame, name=f"less-model-{frame.name}") for frame in frames], replace(job, model=model)


# Their joint


def links_between(one: int, other: int, frames: List[Frame]) -> List[Link]:
    """The links of two frames, by their numbers."""
    window = overlap_of(frames[one].window, frames[other].window)
    if min(window[2:]) <= 0:
        return []
    values = [frames[number].load("values", window) for number in (one, other)]
    pieces = [frames[number].load("pieces", window) for number in (one, other)]
    return list(links_of((one, other), values, pieces, window[:2]))


def all_links(frames: List[Frame]) -> Iterator[List[Link]]:
    """The links of each two frames that overlap in open pixels."""
    for one in range(len(frames)):
        found = (links_between(one, other, frames) for other in range(one + 1, len(frames)))
        yield from filter(None, found)


def pieces_in(frames: List[Frame]) -> List[Tuple[int, int]]:
    """All pieces of all frames."""
    counts = [int(frame.load("pieces", frame.window).max(initial=-1)) + 1 for frame in frames]
    return [(number, piece) for number, count in enumerate(counts) for piece in range(count)]


def line_on(links: List[Link], frames: List[Frame], offsets: Offsets) -> str:
    """A line on the overlap of two frames."""
    pixels = sum(link.pixels() for link in links)
    agreeing = sum(link.counts.get(offsets.cycles(link), 0) for link in links)
    cycles = sorted({offsets.cycles(link) for link in links})
    span = f"{cycles[0]}" if len(cycles) == 1 else f"{cycles[0]} to {cycles[-1]}"
    names = f"{frames[links[0].first[0]].name} and {frames[links[0].second[0]].name}"
    where = f" in {len(links)} pieces" if len(links) > 1 else ""
    return (
        f"{names}: {agreeing} of {pixels} pixels{where} agree ({100 * agreeing / pixels:.2f} %), apart by {span} cycles"
    )


def line_on_disagreement(link: Link, frames: List[Frame], offsets: Offsets) -> str:
    """A line on two pieces that do not agree."""
    names = (
        f"{frames[link.first[0]].name} piece {link.first[1]} and {frames[link.second[0]].name} piece {link.second[1]}"
    )
    most = sorted(link.counts.items(), key=lambda item: -item[1])
    found = ", ".join(f"{cycles} at {pixels}" for cycles, pixels in most[:MAX_COUNTS])
    found += f", {len(most) - MAX_COUNTS} more at others" if len(most) > MAX_COUNTS else ""
    taken = offsets.cycles(link)
    if taken != link.cycles:
        return f"  {names}: apart by {taken} cycles as other overlaps say, and here by {found} pixels"
    x0, y0, x1, y1 = link.box
    return f"  {names}: apart by {found} pixels; those that are off lie in columns {x0} to {x1}, rows {y0} to {y1}"


def share_of(links: List[Link], offsets: Offsets) -> float:
    """The part of all pixels of an overlap at which both frames say the same."""
    return sum(link.counts.get(offsets.cycles(link), 0) for link in links) / sum(link.pixels() for link in links)


def not_proved(job: Job) -> str:
    return NOT_PROVED.format("guide" if job.chain.filter else "surface", LESS_MODEL if job.model else "")


def told_of(overlaps: List[List[Link]], frames: List[Frame], offsets: Offsets, agree: float) -> Tuple[List[str], bool]:
    """Lines on how the overlaps agree, and whether all do. What is judged are the pixels of an overlap, not each of its pieces."""
    apart = [links for links in overlaps if share_of(links, offsets) < agree]
    off = [link for links in overlaps for link in links if link.share(offsets.cycles(link)) < agree]
    off.sort(key=lambda link: -link.pixels())
    lines = [line_on(links, frames, offsets) for links in overlaps]
    if apart:
        lines.append(f"{len(apart)} overlaps do not agree at {100 * agree:g} % of their pixels")
    if off:
        lines.append(f"{len(off)} pieces of overlaps do not agree at {100 * agree:g} % of their pixels:")
    lines += [line_on_disagreement(link, frames, offsets) for link in off[:MAX_LINES]]
    if len(off) > MAX_LINES:
        lines.append(f"  and {len(off) - MAX_LINES} more")
    if offsets.sets() > 1:
        lines.append(f"{offsets.sets()} parts of the raster do not touch; whole cycles between them are arbitrary")
    return lines, not apart


def solved_note(settings: Settings) -> Dict[str, Any]:
    """What is told of how each frame was solved."""
    return {"SOLVED": "each frame at once"} if settings.is_whole else {"TILE_SIDE": settings.side}


def model_note(model: Optional[Model]) -> Dict[str, Any]:
    """What is told of the model, if there is one."""
    if not model:
        return {}
    return {"MODEL": f"blocks of {model.block} by {model.block} pixels, solved at once; each frame is of the phase less it"}


def notes_of(asked: Namespace, job: Job, frames: List[Frame], agreed: bool) -> Dict[str, Any]:
    """What the product tells of how it came about."""
    chain, settings = job.chain, job.settings
    return {
        **unit_notes(asked),
        "VERDICT": with_proofs("each frame accepted, their joint not proved"),
        "FILTER": chain.told(settings.is_whole),
        **({"UNDECIDED": undecided_told(frames)} if chain.filter else {}),
        "JOINT": not_proved(job),
        **model_note(job.model),
        "OVERLAPS": f"all agree at {100 * asked.agree:g} %" if agreed else f"not all agree at {100 * asked.agree:g} %",
        "FRAMES": len(frames),
        **solved_note(settings),
        "RULE": settings.rule,
        "REFERENCE": reference_of(asked).note,
        **steep_note(settings.steep),
    }


def parts_of(frames: List[Frame], offsets: Offsets, model: Optional[Model]) -> Iterator[Tuple[Window, np.ndarray]]:
    """The joint surface in 1/65536 cycle, part by part, each with its window; the model is added again."""
    for number, frame in enumerate(frames):
        pieces = frame.load("pieces", frame.core)
        added = np.array([offsets.of((number, piece)) for piece in range(pieces.max(initial=-1) + 1)] or [0])
        values = frame.load("values", frame.core) + (model.at(frame.core) if model else 0)
        yield frame.core, np.where(pieces >= 0, values + CYCLE * added[np.maximum(pieces, 0)], NODATA)


def level_in(
    frames: List[Frame], offsets: Offsets, model: Optional[Model], box: Optional[Sequence[int]]
) -> Fraction:
    """The mean of the reference, 0 if there is none."""
    if box is None:
        return Fraction(0)
    window = (box[0], box[1], box[2] - box[0] + 1, box[3] - box[1] + 1)
    found = []
    for core, values in parts_of(frames, offsets, model):
        x, y, width, height = overlap_of(core, window)
        if min(width, height) > 0:
            inside = values[y - core[1] : y - core[1] + height, x - core[0] : x - core[0] + width]
            found.append(inside[inside != NODATA])
    return mean_of(found, box)


def write(
    path: Path, frames: List[Frame], offsets: Offsets, job: Job, asked: Namespace, notes: Dict[str, Any]
) -> Reduced:
    """Writes the raster, frame by frame; what a page shows of it."""
    model, scene = job.model, job.scene
    shown_of_it = Reduced(size_of(scene.phase.raster))
    level = level_in(frames, offsets, model, reference_of(asked).box)
    made = create_like(path, scene.phase.raster, kind_of(asked), nodata_of(asked), asked.unit, notes)
    for core, values in parts_of(frames, offsets, model):
        found = in_unit(values, level, asked)
        put_values(made, found, *core[:2])
        shown_of_it.add(core, found)
    close(made, path)
    return shown_of_it


Doubted = Tuple[Window, np.ndarray, List[float]]  # the core of a frame, the numbers of its undecided parts, and f of each


def undecided_in(frames: List[Frame]) -> Iterator[Doubted]:
    """What is undecided, part by part, numbered from 1 frame by frame."""
    count = 0
    for frame in frames:
        labels, f = frame.load("undecided", frame.core), np.load(frame.file("f.npy"))
        inside = np.unique(labels[labels > 0])
        numbers = np.zeros(len(f) + 1, dtype=np.uint32)
        numbers[inside] = np.arange(count + 1, count + 1 + len(inside))
        count += len(inside)
        yield frame.core, numbers[labels], f[inside - 1].tolist()


def undecided_told(frames: List[Frame]) -> str:
    """How many undecided parts the raster has, and of how many pixels, in words."""
    found = [(len(f), np.count_nonzero(numbers)) for _, numbers, f in undecided_in(frames)]
    return count_told(sum(parts for parts, _ in found), sum(pixels for _, pixels in found))


def write_undecided(path: Path, frames: List[Frame], scene: Scene) -> None:
    """Writes the undecided parts as whole numbers, 0 as NODATA, frame by frame."""
    f = [share for _, _, found in undecided_in(frames) for share in found]
    made = create_numbers(path, scene.phase.raster, undecided_notes("parts, frame by frame,", f))
    for core, numbers, _ in undecided_in(frames):
        put_array(made, numbers, *core[:2])
    close(made, path)


def words() -> ArgumentParser:
    found = ArgumentParser(
        description=__doc__,
        formatter_class=RawDescriptionHelpFormatter,
        epilog="example: frames phase.tif --coherence coherence.tif --folder frames cycles.tif\n"
        "The status is 0 if the raster was written and all overlaps agree, 1 if one does not or the checker refused a frame, 2 "
        "for words that are refused, else that of the program or of `session`.",
    )
    add_scene_words(found)
    found.add_argument(
        "--folder", metavar="FOLDER", type=Path, required=True, help="what is kept of frames; about 30 bytes a pixel"
    )
    found.add_argument(
        "--side", type=int, default=MAX_SIDE, metavar="N", help=f"pixels along a side of a frame, at most {MAX_SIDE}"
    )
    found.add_argument(
        "--overlap", type=int, default=128, metavar="N", help="pixels that frames overlap by (default: 128)"
    )
    found.add_argument(
        "--model",
        type=int,
        metavar="N",
        help="take a model of blocks of N by N pixels off first, 0: none (default: where overlaps do not agree without)",
    )
    found.add_argument(
        "--agree", type=float, default=0.95, metavar="PART", help="of an overlap's pixels (default: 0.95)"
    )
    found.add_argument(
        "--jobs", type=int, default=2, metavar="N", help="frames at once, less than 1 GB each (default: 2)"
    )
    add_ramp_words(found)
    add_filter_words(found, "unwrap each frame after a windowed Fourier filter", FILTER)
    add_narrow_word(found)
    add_undecided_word(found, "frame by frame")
    add_solver_words(found)
    add_whole_word(found, "each frame")
    add_reference_words(found, auto=False)
    add_unit_words(found, blocks=False)
    found.add_argument("--page", metavar="FILE", help="write a page to look at, an HTML file; its maps are reduced")
    add_force_word(found)
    add_quiet_word(found)
    found.add_argument("geotiff", help="the file to write")
    return found


def check_words(asked: Namespace) -> None:
    """Trouble if arguments do not fit each other."""
    check_unit_words(asked)
    if not 0 < asked.overlap < asked.side <= MAX_SIDE:
        raise Trouble(f"wanted 0 < OVERLAP < SIDE <= {MAX_SIDE}", REFUSED_WORDS)
    if not 1 <= asked.jobs <= MAX_JOBS:
        raise Trouble(f"--jobs is from 1 to {MAX_JOBS}", REFUSED_WORDS)
    if asked.model is not None and asked.model < 0:
        raise Trouble("--model is 0 or the side of blocks in pixels", REFUSED_WORDS)
    if not 0 <= asked.agree <= 1:
        raise Trouble("--agree is from 0 to 1", REFUSED_WORDS)


@dataclass(frozen=True)
class Places:
    """Where what comes of it is written; None where it is not asked for."""

    surface: Path
    undecided: Optional[Path]
    page: Optional[Path]


@dataclass
class Joint:
    """Frames that were joined, whether all overlaps agree, and lines on how they do."""

    frames: List[Frame]
    job: Job
    offsets: Offsets
    agreed: bool
    lines: List[str]


def joint_of(frames: List[Frame], job: Job, asked: Namespace) -> Joint:
    """Does all frames, joins them, and tells how they agree."""
    do_frames(frames, job, asked.jobs, asked.quiet)
    pieces = pieces_in(frames)
    if not pieces:
        raise Trouble(f"{name_of(job.scene.phase.raster)} has no pixel that is open")
    overlaps = list(all_links(frames))
    offsets = offsets_of(pieces, [link for links in overlaps for link in links])
    lines, agreed = told_of(overlaps, frames, offsets, asked.agree)
    print("\n".join([*lines, not_proved(job)]), flush=True)
    return Joint(frames, job, offsets, agreed, lines)


def best_joint(frames: List[Frame], job: Job, size: Tuple[int, int], asked: Namespace) -> Joint:
    """The frames joined, with a model from the start if one is asked for, and else if they agree with one alone."""
    if asked.model:
        return joint_of(*with_model(job, size, asked.model, frames), asked)
    found = joint_of(frames, job, asked)
    if found.agreed or asked.model == 0:
        return found
    print("once more with a model, since not all overlaps agree", flush=True)
    other = joint_of(*with_model(job, size, block_for(size), frames), asked)
    if not other.agreed:
        print("not all agree with a model either: what is written has none", flush=True)
    return other if other.agreed else found


def page_text(joint: Joint, asked: Namespace, surface: Reduced, notes: Dict[str, Any]) -> str:
    """The page of what was joined."""
    job, reference, flags = joint.job, reference_of(asked), None
    if job.chain.filter:
        flags = Flags(surface)
        for core, numbers, _ in undecided_in(joint.frames):
            flags.add(core, numbers > 0)
    rows, columns = surface.shape
    found = Shown(
        title=Path(asked.geotiff).name,
        head=f"{columns} by {rows} pixels, joined of {len(joint.frames)} frames. Filter: {notes['FILTER']}",
        verdict=f"{notes['VERDICT']}; overlaps: {notes['OVERLAPS']}",
        agreed=joint.agreed,
        not_proved=notes["JOINT"],
        surface=surface,
        unit=asked.unit,
        axes=replace(axes_of(job.scene.phase.raster) or pixel_axes(surface.shape), shape=surface.shape),
        reference=reference.note,
        box=reference.box,
        undecided=flags,
        undecided_told=notes.get("UNDECIDED", ""),
        lines=joint.lines,
        files=[("phase", asked.phase), ("coherence", asked.coherence or ""), ("mask", asked.mask or "")],
    )
    return page_of(found)


def write_all(joint: Joint, asked: Namespace, outputs: Outputs, places: Places) -> None:
    """Writes what was joined, what is undecided, and a page."""
    job = joint.job
    notes = {**notes_of(asked, job, joint.frames, joint.agreed), **ramp_note(job.ramp)}
    surface = write(places.surface, joint.frames, joint.offsets, job, asked, notes)
    if places.undecided:
        write_undecided(places.undecided, joint.frames, job.scene)
    if places.page:
        outputs.fill(places.page, page_text(joint, asked, surface, notes).encode())


def tell_what_it_needs(asked: Namespace, frames: List[Frame], chain: Chain) -> None:
    """Says what the frames need, of which --jobs are done at once."""
    sizes = sorted((frame.window[2] * frame.window[3] for frame in frames), reverse=True)
    needs = needs_of(sum(sizes), sum(sizes[: asked.jobs]), chain.filter is not None)
    remedy = "--jobs 1 or a lower --side takes less"
    tell_needs(asked.phase, sum(sizes), needs, asked.quiet, remedy)


def main(asked: Namespace) -> int:
    check_words(asked)
    settings, chain = settings_of(asked, asked.whole), chain_of(asked, undecided=asked.undecided)
    limit_cache()
    scene = scene_of(asked)
    size = size_of(scene.phase.raster)
    check_box(reference_of(asked).box, *size)
    frames = frames_of(size, asked.side, asked.overlap, asked.folder)
    with Outputs(scene.files(), asked.force) as outputs:
        places = Places(outputs.raster(asked.geotiff), raster_beside(outputs, asked.undecided), beside(outputs, asked.page))
        tell_what_it_needs(asked, frames, chain)
        asked.folder.mkdir(parents=True, exist_ok=True)
        ramp = ramp_of(scene, asked.ramp)
        if ramp is not None:
            print(told(ramp), flush=True)
        joint = best_joint(frames, Job(scene, settings, threading.Lock(), ramp, chain), size, asked)
        write_all(joint, asked, outputs, places)
    return 0 if joint.agreed else DISAGREES
