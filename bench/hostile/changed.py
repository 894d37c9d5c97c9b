#!/usr/bin/env python3
"""Changes reports in one place each and compares `check` with a judge of its own: changed.py [COUNT [SEED]].

Each report is that of a random session (bench/stress.py), two of three of which have an expected ramp and so a report of
version 2. `check` has to accept it as it was written. Then it is changed in one place, 100 times: a digit, a number by one, a
sign, a space or a zero too many, a byte that is no text, a line left out, doubled or cut, two lines exchanged, or a surface with
its `published` line moved to another place. A third of the changes are of the first six lines: another ramp or steepness,
numbers beyond their range or spelled otherwise, the same report in the other version, and the number of a version alone.

`check` has to accept just those reports that the judge of stress.py accepts. A report that breaks its form has to be refused by
the number of its first broken line (reading.py), and one whose first lines are not the session's by the number of the first of
them. All others have to be refused by one line of the table of verdicts.

COUNT is 20,000 and SEED 7 if they are not given. UNWRAP names another program than the built one. The last lines say how many
changes of each kind were accepted, and 'N passed, M failed'; the status is 1 if one failed.
"""
import collections
import pathlib
import random
import re
import subprocess
import sys

sys.path.insert(0, str(pathlib.Path(__file__).resolve().parent.parent))
import reading  # noqa: E402
import stress  # noqa: E402
from running import tried_program  # noqa: E402

# The lines that refuse a report whose first lines are the session's.
VERDICT = re.compile(
    rb"refused (history [1-9][0-9]*|surface [0-9]+ (value [0-9]+ [0-9]+|tile [0-9]+ (shape|face (right|down)"
    rb" [0-9]+ [0-9]+|cost [0-9]+ bound -?[0-9]+)|seams (shape|anchor -?[0-9]+|flow (right|down) [0-9]+ [0-9]+|unbalanced"
    rb" [0-9]+|cost [0-9]+ bound -?[0-9]+)|tilecost [0-9]+ [0-9]+|seamcost [0-9]+ [0-9]+))\n"
)
SLOPES = [b"%d" % slope for slope in (-65536, -32769, -32768, -1, 0, 1, 30000, 32767, 32768, 65535, 65536, 2**31, 2**64)]
SLOPES += [b"-0", b"00", b"+1", b"1.0", b"", b" 1", b"none", b"-", b"9" * 5000]
STEEPNESSES = (b"0", b"1", b"2", b"3", b"15", b"16", b"17", b"255", b"-1", b"01", b"", b"4294967297", b"least", b"9" * 5000)


def unchanged(dice, text):
    return text


def place_of(dice, text, pattern):
    """A random match of a pattern."""
    return dice.choice(list(re.finditer(pattern, text)))


def with_part(text, match, part):
    return text[: match.start()] + part + text[match.end() :]


def digit(dice, text):
    return with_part(text, place_of(dice, text, rb"[0-9]"), b"%d" % dice.randrange(10))


def number_by_one(dice, text):
    match = place_of(dice, text, rb"(?<![0-9-])-?[0-9]+")
    return with_part(text, match, b"%d" % (int(match.group()) + dice.choice((-1, 1))))


def sign(dice, text):
    match = place_of(dice, text, rb"(?<![0-9-])-?[0-9]+")
    number = match.group()
    return with_part(text, match, number[1:] if number.startswith(b"-") else b"-" + number)


def spelling(dice, text):
    """A space, a zero or a sign too many, another end of a line, or a byte that is no text."""
    if dice.random() < 0.5:
        match = place_of(dice, text, rb"(?<![0-9-])-?[0-9]+")
        return with_part(text, match, dice.choice((b"0", b"+", b" ", b"00")) + match.group())
    match = place_of(dice, text, rb"\n")
    return with_part(text, match, dice.choice((b"\r\n", b" \n", b"\0\n", b"\n\n", b"\xff\n", b"")))


def left_out(dice, text):
    lines = text.splitlines(True)
    del lines[dice.randrange(len(lines))]
    return b"".join(lines)


def doubled(dice, text):
    lines = text.splitlines(True)
    place = dice.randrange(len(lines))
    lines.insert(place, lines[place])
    return b"".join(lines)


def cut(dice, text):
    return text[: dice.randrange(len(text))]


def exchanged(dice, text):
    lines = text.splitlines(True)
    one, other = dice.randrange(len(lines)), dice.randrange(len(lines))
    lines[one], lines[other] = lines[other], lines[one]
    return b"".join(lines)


def moved(dice, text):
    """An entry, with its surface if it has one, moved to another place among the entries."""
    length = head_length(text)
    head = text.splitlines(True)[:length]
    entries = []
    for line in text.splitlines(True)[length:-1]:
        if line.split(b" ")[0] in (b"revised", b"kept", b"published", b"settled", b"shown"):
            entries.append([])
        entries[-1].append(line)
    if entries:
        entry = entries.pop(dice.randrange(len(entries)))
        entries.insert(dice.randint(0, len(entries)), entry)
    return b"".join(head + sum(entries, []) + [b"end\n"])


def head_length(text):
    """How many lines stand before the entries of a report that was not changed."""
    return 4 if text.startswith(b"insar-report 1\n") else 6


def is_second(text):
    return head_length(text) == 6


def in_first_version(text):
    """The report without its lines on ramp and steepness."""
    lines = text.splitlines(True)
    return b"".join([b"insar-report 1\n", *lines[1:4], *lines[6 if is_second(text) else 4 :]])


def in_second_version(text, terms):
    """The report with these lines on ramp and steepness."""
    lines = in_first_version(text).splitlines(True)
    return b"".join([b"insar-report 2\n", *lines[1:4], *terms, *lines[4:]])


def other_version(dice, text):
    """The report in the other version; of plain terms, as one of version 2 is that replaces one of version 1, it is right."""
    return in_first_version(text) if is_second(text) else in_second_version(text, (b"ramp 0 0\n", b"steep 1\n"))


def version_alone(dice, text):
    """Another number of the version, with no other line changed."""
    version = dice.choice((b"0", b"1", b"2", b"3", b"01", b"-1", b"", b"12", b"4294967297", b"1 ", b"2 1"))
    return b"insar-report " + version + text[len(b"insar-report 1") :]


def ramp(dice, text):
    """A report of version 2 with one slope of its ramp, or both, replaced or exchanged."""
    found = text.splitlines()[4].split(b" ")[1:] if is_second(text) else [b"0", b"0"]
    slopes = [slope if dice.random() < 0.4 else dice.choice((*SLOPES, *found)) for slope in found]
    kind = dice.random()
    if kind < 0.1:
        slopes.reverse()
    elif kind < 0.2:
        slopes = [b"%d" % (int(slope) + dice.choice((-65536, -1, 1, 65536))) for slope in found]
    elif kind < 0.25:
        slopes = dice.choice((slopes[:1], [*slopes, b"0"], []))
    steep = text.splitlines(True)[5] if is_second(text) else b"steep 1\n"
    return in_second_version(text, (b" ".join([b"ramp", *slopes]) + b"\n", steep))


def steepness(dice, text):
    """A report of version 2 with another steepness."""
    first = text.splitlines(True)[4] if is_second(text) else b"ramp 0 0\n"
    return in_second_version(text, (first, b"steep %b\n" % dice.choice(STEEPNESSES)))


def terms_moved(dice, text):
    """A report of version 2 whose lines on ramp and steepness are exchanged, doubled, left out or stand elsewhere."""
    terms = text.splitlines(True)[4:6] if is_second(text) else [b"ramp 0 0\n", b"steep 1\n"]
    orders = ((1, 0), (0,), (1,), (0, 0), (1, 1), (0, 1, 0), (0, 1, 1))
    changed = in_second_version(text, [terms[place] for place in dice.choice(orders)])
    return exchanged_in_head(dice, changed) if dice.random() < 0.3 else changed


def exchanged_in_head(dice, text):
    lines = text.splitlines(True)
    one, other = dice.sample(range(min(7, len(lines))), 2)
    lines[one], lines[other] = lines[other], lines[one]
    return b"".join(lines)


CHANGES = (digit, number_by_one, sign, spelling, left_out, doubled, cut, exchanged, moved)
HEAD_CHANGES = (other_version, version_alone, ramp, ramp, steepness, terms_moved, exchanged_in_head)


def answer(program, session, text, report):
    """The line that check answers, on whichever stream, and its status."""
    done = subprocess.run([program, "check", *session.options()], input=text + report, capture_output=True, timeout=60)
    if done.stdout and done.stderr:
        raise stress.Refused(f"status {done.returncode}: {done.stdout[:80]!r} {done.stderr[:80]!r}")
    if done.returncode not in (0, 1, 3) or (done.returncode == 3) != bool(done.stderr):
        raise stress.Refused(f"status {done.returncode}: {done.stdout[:80]!r} {done.stderr[:80]!r}")
    return done.returncode, done.stdout or done.stderr


def other_line(session, report):
    """The number of the first line, from 2, of a report that is not the session's; None if none is."""
    lines = report.split(b"\n")
    wanted = stress.head_of(session, 2)
    found = lines[:6] if lines[0] == b"insar-report 2" else [*lines[:4], b"ramp 0 0", b"steep 1"]
    return next((number for number in range(2, 7) if found[number - 1] != wanted[number - 1]), None)


def is_accepted(session, report):
    """What the judge of bench/stress.py says of a report."""
    try:
        stress.judge(session, report)
    except stress.Refused:
        return False
    return True


def wanted(session, report):
    """The status that `check` has to end with, and a pattern of its line."""
    broken, line = reading.broken_line(report), None
    if broken is not None:
        return 3, re.compile(rb"report fault line %d\n" % broken)
    if (line := other_line(session, report)) is not None:
        return 1, re.compile(rb"refused header %d\n" % line)
    return (0, re.compile(rb"accepted\n")) if is_accepted(session, report) else (1, VERDICT)


def judge_answer(session, report, found):
    """Raises Refused where an answer of `check`, its status and its line, is not the one of a report."""
    status, line = wanted(session, report)
    if found[0] != status or not line.fullmatch(found[1]):
        raise stress.Refused(f"status {found[0]}, {found[1][:80]!r}, and not {status}, {line.pattern[:60]!r}")


def try_wanted():
    """What is wanted of the rows that are counted by hand."""
    second, steep = stress.second_version(stress.LINE_REPORT), stress.STEEP_REPORT
    rows = [
        (stress.LINE, second, 0, b"accepted\n"),
        (stress.STEEP, steep, 0, b"accepted\n"),
        (stress.STEEP, in_first_version(steep), 1, b"refused header 5\n"),
        (stress.LINE, second.replace(b"steep 1", b"steep 17"), 3, b"report fault line 6\n"),
        (stress.LINE, second.replace(b"steep 1", b"steep 0"), 3, b"report fault line 6\n"),
        (stress.LINE, second.replace(b"steep 1", b"steep 16"), 1, b"refused header 6\n"),
        (stress.LINE, second.replace(b"ramp 0 0", b"ramp 0 32767"), 1, b"refused header 5\n"),
        (stress.LINE, second.replace(b"ramp 0 0", b"ramp 0 32768"), 3, b"report fault line 5\n"),
        (stress.LINE, second.replace(b"ramp 0 0", b"ramp -32769 0"), 3, b"report fault line 5\n"),
        (stress.LINE, second.replace(b"ramp 0 0", b"ramp -0 0"), 3, b"report fault line 5\n"),
        (stress.LINE, second.replace(b"report 2", b"report 1"), 3, b"report fault line 5\n"),
        (stress.LINE, second.replace(b"report 2", b"report 3"), 3, b"report fault line 1\n"),
        (stress.LINE, stress.LINE_REPORT.replace(b"report 1", b"report 2"), 3, b"report fault line 5\n"),
    ]
    for session, report, status, line in rows:
        judge_answer(session, report, (status, line))


def main():
    stress.try_the_judge()
    try_wanted()
    program = tried_program()
    if len(sys.argv) > 3 or not all(word.isdigit() for word in sys.argv[1:]):
        print("changed.py: the words are [COUNT [SEED]], as in changed.py 20000 7", file=sys.stderr)
        return 2
    count, seed = (int(number) for number in sys.argv[1:] + ["20000", "7"][len(sys.argv) - 1 :])
    done, failed, accepted, tried = 0, 0, collections.Counter(), collections.Counter()
    number = 0
    while done < count:
        dice = random.Random(f"changed {seed} {number}")
        session = stress.random_session(dice)
        text = session.bytes_of(dice)
        report = stress.run(program, session, text, 2)
        for place in range(min(100, count - done)):
            done += 1
            change = dice.choice(dice.choice((CHANGES, CHANGES, HEAD_CHANGES))) if place else unchanged
            other = change(dice, report)
            tried[change.__name__] += 1
            try:
                found = answer(program, session, text, other)
                judge_answer(session, other, found)
            except stress.Refused as why:
                failed += 1
                print(f"session {number} of the seed {seed}, change {place}, {change.__name__}: {why}", flush=True)
            else:
                accepted[change.__name__] += found[0] == 0 and other != report
        number += 1
    for name in dict.fromkeys(change.__name__ for change in (unchanged, *CHANGES, *HEAD_CHANGES)):
        print(f"{name}: {tried[name]} tried, {accepted[name]} accepted that differ")
    print(f"{done - failed} passed, {failed} failed")
    return int(failed > 0)


if __name__ == "__main__":
    sys.exit(main())
