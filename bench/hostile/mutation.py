"""Makes inputs by changing texts: by the tokens of the formats, by lines, and by bytes."""
import functools
import importlib
import random
import re
from typing import NamedTuple, Sequence

import changed
from reading import stress
from running import run

TOKEN = re.compile(rb"-?[0-9]+|[A-Za-z_-]+|[ \t\n\v\f\r]|.", re.S)
NUMBER = re.compile(rb"-?[0-9]+")
BOUNDS = (0, 1, 2, 3, 7, 8, 9, 64, 127, 128, 129, 255, 256, 257, 1024, 4095, 4096, 4097, 32767, 32768, 65534, 65535, 65536)
BOUNDS += tuple(2**power + step for power in (22, 26, 31, 32, 48, 63, 64, 127, 128) for step in (-1, 0, 1))
NUMBERS = [b"%d" % bound for bound in BOUNDS] + [b"-%d" % bound for bound in BOUNDS]
NUMBERS += [b"00", b"007", b"+1", b"1.5", b"0x10", b"1e3", b"", b"-", b"1" * 60, b"9" * 5000, b"0" * 300 + b"1"]
WORDS = b"P5 P2 P P1 P6 analyst mask unmask settle show end insar-report size tile rule least mean product".split()
WORDS += b"ramp steep revised kept published settled shown none costs ncols nrows xllcorner yllcorner cellsize NODATA_value".split()
WORDS += [b"faces", b"flows", b"insar-whole", b"cost", b"#", b"#\n", b"x", b"", b"\xff", b"\0", b"end\n", b"analyst\n"]
WORDS += [b"P5 1 1 1 \1", b"P2 1 1 1 1\n"]
SPACES = (b" ", b"\t", b"\n", b"\v", b"\f", b"\r", b"\r\n", b"  ", b"#\n", b" # by hand\n", b"\n#\r#\n", b"")
LONGEST = 65_536
# The commands that have a judge of their own in bench/, which makes their inputs, and its name.
JUDGED = {name: name for name in ("screen", "closure", "displacement", "nearest", "parts")} | {"check-whole": "whole"}


class Case(NamedTuple):
    """The words of a run and the bytes on its standard input."""

    words: Sequence[str]
    data: bytes


def part(dice, data, longest=40):
    """The start and end of a random piece of some bytes."""
    start = dice.randint(0, len(data))
    return start, min(len(data), start + dice.randint(0, longest))


def with_token(dice, data, pattern, choices):
    """The bytes with another text in the place of a random match of a pattern."""
    start = dice.randint(0, len(data))
    match = pattern.search(data, start) or pattern.search(data)
    return data[: match.start()] + dice.choice(choices) + data[match.end() :] if match else data


def number(dice, data):
    return with_token(dice, data, NUMBER, NUMBERS)


def number_near(dice, data):
    start = dice.randint(0, len(data))
    match = NUMBER.search(data, start)
    if not match or len(match.group()) > 40:
        return data
    near = b"%d" % (int(match.group()) + dice.choice((-65536, -2, -1, 0, 1, 2, 65536)))
    return data[: match.start()] + near + data[match.end() :]


def word(dice, data):
    return with_token(dice, data, re.compile(rb"[A-Za-z_-]+"), WORDS)


def space(dice, data):
    return with_token(dice, data, re.compile(rb"[ \t\n\v\f\r]"), SPACES)


def token(dice, data):
    """A token of the formats at any place."""
    start = dice.randint(0, len(data))
    return data[:start] + dice.choice(dice.choice((WORDS, NUMBERS, SPACES))) + data[start:]


def tokens_exchanged(dice, data):
    tokens = TOKEN.findall(data)
    if tokens:
        one, other = dice.randrange(len(tokens)), dice.randrange(len(tokens))
        tokens[one], tokens[other] = tokens[other], tokens[one]
    return b"".join(tokens)


def line(dice, data):
    """A line left out, doubled, moved, or repeated many times."""
    lines = data.splitlines(True)
    if not lines:
        return data
    taken = lines.pop(dice.randrange(len(lines)))
    times = dice.choice((0, 1, 2, 3, 9, 70, 4097))
    place = dice.randint(0, len(lines))
    return b"".join(lines[:place] + [taken] * min(times, LONGEST // len(taken)) + lines[place:])


def lines_repeated(dice, data):
    lines = data.splitlines(True)
    start = dice.randint(0, len(lines))
    block = lines[start : start + dice.randint(1, 4)]
    return b"".join(lines[:start] + block * dice.randint(1, 60) + lines[start:])


def cut(dice, data):
    return data[: dice.randint(0, len(data))]


def bit(dice, data):
    if not data:
        return data
    place = dice.randrange(len(data))
    return data[:place] + bytes([data[place] ^ 1 << dice.randrange(8)]) + data[place + 1 :]


def byte(dice, data):
    start, end = part(dice, data, 2)
    return data[:start] + bytes([dice.randrange(256)]) + data[end:]


def left_out(dice, data):
    start, end = part(dice, data)
    return data[:start] + data[end:]


def copied(dice, data):
    start, end = part(dice, data)
    place = dice.randint(0, len(data))
    return data[:place] + data[start:end] + data[place:]


CHANGES = (number, number_near, word, space, token, tokens_exchanged, line, lines_repeated)
CHANGES += (cut, bit, byte, left_out, copied)
HARSH = (6, 4, 4, 3, 4, 2, 4, 2, 1, 2, 2, 2, 2)
MILD = (0, 6, 0, 3, 0, 0, 4, 3, 0, 3, 0, 0, 0)


def altered(dice: random.Random, data: bytes, others: Sequence[bytes]) -> bytes:
    """Some bytes after none to eight changes; now and then with the end of another text after a part of them."""
    if others and dice.random() < 0.05:
        other = dice.choice(others)
        data = data[: dice.randint(0, len(data))] + other[dice.randint(0, len(other)) :]
    weights = dice.choice((HARSH, MILD))
    for change in dice.choices(CHANGES, weights, k=dice.choice((0, 1, 1, 1, 1, 2, 2, 3, 8))):
        data = change(dice, data)[:LONGEST]
    return data


def options(dice, side, rule, workers, ramp=(0, 0), steep=1):
    """Words of the options, of which those of defaults may be left out. A side of 0 is that of no tiles."""
    pairs = [("--tile", str(side))] * (side > 0) + [("--rule", rule), ("--steep", str(steep))]
    pairs += [("--workers", str(workers))] * (workers > 0)
    pairs += [(name, str(slope % stress.CYCLE)) for name, slope in zip(("--ramp-x", "--ramp-y"), ramp)]
    defaults = {("--tile", "64"), ("--rule", "least"), ("--workers", "2"), ("--ramp-x", "0"), ("--ramp-y", "0"), ("--steep", "1")}
    dice.shuffle(pairs)
    return [part for pair in pairs if pair not in defaults or dice.random() < 0.5 for part in pair]


def solving(dice, texts, command):
    """An input of `unwrap`, `grid` or `whole`."""
    side, rule = dice.choice((2, 3, 5, 64, 128)), dice.choice(("least", "mean", "product"))
    data, ramp, steep = dice.choice(texts.sessions), stress.random_ramp(dice), dice.choice((1, 1, 2, 16))
    if dice.random() < 0.75:
        session = stress.random_session(dice)
        side, rule, data, ramp, steep = session.side, session.rule, session.bytes_of(dice), session.ramp, session.steep
    words = options(dice, 0 if command == "whole" else side, rule, dice.choice((1, 1, 2, 2, 3, 8)), ramp, steep)
    return Case((command, *words), altered(dice, data, texts.sessions))


@functools.lru_cache(4)
def reported(program, seed, place):
    """A random session, its bytes, and the report that the program writes of it."""
    dice = random.Random(f"{seed} report {place}")
    session = stress.random_session(dice)
    data = session.bytes_of(dice)
    words = ("unwrap", *session.options(), "--workers", str(dice.choice((1, 2))))
    return session, data, run(program, words, data).out


def report_altered(dice, report):
    """A report changed in one place as changed.py does, in one to three of its numbers, or as any text is."""
    kind = dice.random()
    if kind < 0.35 and report:
        return dice.choice(changed.CHANGES + changed.HEAD_CHANGES)(dice, report)
    if kind > 0.75:
        return altered(dice, report, ())
    for _ in range(dice.randint(1, 3)):
        report = number_near(dice, report)
    return report


def checking(dice, texts, program, seed, place):
    """An input of `check`: a session and a report, one of which is changed; now and then a changed session alone."""
    if dice.random() < 0.1:
        side, rule = dice.choice((2, 64, 128)), dice.choice(("least", "mean", "product"))
        return Case(("check", *options(dice, side, rule, 0)), altered(dice, dice.choice(texts.sessions), texts.sessions))
    if dice.random() < 0.2:
        words, data = dice.choice(texts.checks)
        return Case(tuple(words), altered(dice, data, ()))
    session, data, report = reported(program, seed, place // 20)
    if dice.random() < 0.1:
        data = altered(dice, data, ())
    else:
        report = report_altered(dice, report)
    return Case(("check", *options(dice, session.side, session.rule, 0, session.ramp, session.steep)), data + report)


def of_judge(dice, command):
    """An input of a command that has a judge of its own (bench/screen.py and so on), mostly changed."""
    made = importlib.import_module(JUDGED[command]).random_case(dice)
    return made._replace(data=altered(dice, made.data, ())) if dice.random() < 0.7 else made


def case(program, texts, command, seed, place):
    """The input of a command with a number."""
    dice = random.Random(f"{seed} {command} {place}")
    if command in JUDGED:
        return of_judge(dice, command)
    if command == "check":
        return checking(dice, texts, program, seed, place)
    return solving(dice, texts, command)
