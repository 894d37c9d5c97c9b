"""What a run has to answer to its input, told without the program, and what is wrong with what it answered."""
import importlib
import re

import changed
import reading
from mutation import JUDGED
from reading import stress
from running import run

DIGITS = re.compile(rb"(?<!input fault )(?<![0-9])-?[0-9]+")
LARGE = 5000


class Wrong(Exception):
    """What is wrong with an answer."""


def demand(holds, why):
    if not holds:
        raise Wrong(why)


def option(words, name, default):
    """The value of an option among the words."""
    return words[words.index(name) + 1] if name in words else default


def ramp_of(words):
    """The expected slopes of the words."""
    numbers = (int(option(words, name, "0")) for name in ("--ramp-x", "--ramp-y"))
    return tuple(number if number < 32768 else number - 65536 for number in numbers)


def wanted(case):
    """The session and the report of an input, and the line that refuses it, which is empty if nothing does."""
    side, rule = int(option(case.words, "--tile", "64")), option(case.words, "--rule", "least")
    alone = case.words[0] != "check"
    try:
        session, rest = reading.read_session(case.data, side, rule, alone, ramp_of(case.words), int(option(case.words, "--steep", "1")))
    except reading.Refused as refused:
        return None, b"", str(refused).encode() + b"\n"
    broken = None if alone else reading.broken_line(rest)
    return session, rest, b"" if broken is None else b"report fault line %d\n" % broken


def last_mask(session):
    """The mask of the last publication of a session with one analyst: 1 for an open pixel, in row order."""
    history = stress.History(session)
    script = session.scripts[0]
    last = max(place for place, command in enumerate(script) if command == "settle")
    for command in script[:last]:
        if isinstance(command, tuple):
            history.revised(1, command)
        else:
            history.cursors[0] += 1
    return history.opened


def judge_value(value, phase, opened):
    """A value of a grid is congruent, or NODATA; which of both if the mask is known."""
    demand(value == stress.NODATA or (value - phase) % stress.CYCLE == 0, f"{value} is not congruent with {phase}")
    demand(opened is None or (value == stress.NODATA) != opened, "the mask is another")


def judge_grid(session, text):
    """A text is a grid of the session, congruent with its phase and, if the mask is known, anchored."""
    if not any("settle" in script for script in session.scripts):
        demand(text == b"", "a grid of nothing published")
        return
    lines = stress.Lines(text)
    for line in (b"ncols %d" % session.width, b"nrows %d" % session.height, b"xllcorner 0", b"yllcorner 0", b"cellsize 1"):
        lines.expect(line)
    lines.expect(b"NODATA_value %d" % stress.NODATA)
    values = [value for _ in range(session.height) for value in lines.numbers(lines.next(), session.width)]
    demand(lines.place == len(lines.lines), "a line after the grid")
    mask = last_mask(session) if len(session.scripts) == 1 else [None] * len(values)
    for value, phase, opened in zip(values, session.phase, mask):
        judge_value(value, phase, opened)
    if 1 in mask:
        demand(values[mask.index(1)] == session.phase[mask.index(1)], "the anchor is missed")


def judge_report(session, text):
    """A text is a certified report of the session, of the version that is written."""
    demand(text.startswith(b"insar-report 1\n") == session.is_plain(), "another version")
    broken = reading.broken_line(text)
    demand(broken is None, f"line {broken} is none of a report")
    stress.judge(session, text)


def judge_verdict(session, report, done):
    """`check` accepts what the judge accepts, and else tells a verdict."""
    changed.judge_answer(session, report, (done.status, done.out))


def judge_done(case, session, report, done):
    """Standard output is what the command writes for the session. Large reports are judged by their ends alone."""
    if case.words[0] == "check":
        judge_verdict(session, report, done)
        return
    demand(done.status == 0, "it is a session")
    if case.words[0] == "whole":
        told = importlib.import_module("whole").line_on(session, done.out)
        demand(told == "accepted", f"a whole text on which the judge says {told}")
    elif case.words[0] == "grid":
        judge_grid(session, done.out)
    elif len(session.phase) > LARGE:
        demand(done.out.startswith(b"insar-report %d\n" % (1 if session.is_plain() else 2)) and done.out.endswith(b"\nend\n"), "no report")
    else:
        judge_report(session, done.out)


def judge(case, done):
    """Raises Wrong or Refused if an answer is not the one of its input."""
    demand(done.status is not None, "no end within its time")
    demand(done.status >= 0, f"signal {-done.status}")
    demand(done.err.count(b"\n") <= 1, "more than one line on standard error")
    if case.words[0] in JUDGED:
        end = importlib.import_module(JUDGED[case.words[0]]).wanted(case.words, case.data)
        demand(done == end, f"{done.err[:80]!r} and {len(done.out)} bytes in place of {end.err!r} and {len(end.out)} bytes")
        return
    session, report, line = wanted(case)
    demand(done.err == line, f"{done.err[:80]!r} in place of {line!r}")
    if line:
        demand(done.status == 3 and not done.out, f"status {done.status} at a refused input, {len(done.out)} bytes written")
    else:
        judge_done(case, session, report, done)


def label(done):
    """The kind of an answer: its status and its first line, without the numbers but that of an input fault."""
    line = (done.err or done.out).split(b"\n")[0][:60]
    return f"status {done.status}: " + DIGITS.sub(b"N", line).decode("latin-1")


def answer(program, case):
    """The kind of what a program answers to an input, and what is wrong with it, or None."""
    done = run(program, case.words, case.data)
    try:
        judge(case, done)
    except (Wrong, stress.Refused) as why:
        return label(done), f"status {done.status}, {why}"
    return label(done), None


def refusal(program, case):
    """What is wrong with the answer to an input, or None."""
    return answer(program, case)[1]
