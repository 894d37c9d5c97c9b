#!/usr/bin/env python3
"""Judges `watch` on random sessions: watch.py PROGRAM [COUNT [SEED]].

How threads take turns decides which surfaces are published and which of them a reader sees, so what is written is judged by itself.
Its first lines have to be the publications of a legal and complete history of the session (`find_history` looks for one), and then
there is a line for each reader, whose numbers rise, are published ones, and end with the last. The judge is written from
docs/FORMATS.md and shares no code with the program.

Each session is run by 1, 2 and 8 workers, with some number of readers and of reads. First the judge is tried on texts by hand;
without PROGRAM nothing else is done. COUNT is 1000 and SEED 7 if they are not given. The last lines say how many surfaces readers
saw besides the last, and 'N passed, M failed'; the status is 1 if one failed.
"""
import random
import re
import sys
from typing import Sequence

import stress
from stress import WORKERS, Refused, Session, demand

NUMBERS = re.compile(rb"(?: (?:0|[1-9][0-9]*))*")
State = tuple[tuple[int, ...], int]


class Scripts:
    """The scripts of a session beside the revisions that are said to be published."""

    def __init__(self, session: Session, published: Sequence[int]) -> None:
        self.scripts, self.published = session.scripts, list(published)

    def revision(self, state: State) -> int:
        """How many edits were done."""
        return sum(isinstance(command, tuple) for script, done in zip(self.scripts, state[0]) for command in script[:done])

    def shown(self, cursors: tuple[int, ...]) -> tuple[int, ...]:
        """After all that analysts look at: that changes nothing, and no other command waits for it to be still to be done."""

        def after(script: list, done: int) -> int:
            while done < len(script) and script[done] == "show":
                done += 1
            return done

        return tuple(map(after, self.scripts, cursors))

    def next_states(self, state: State) -> list[State]:
        """The states after one command more: a settle command that finds its surface published, an edit, or a publication."""
        cursors, count = state
        revision, newest = self.revision(state), self.published[count - 1] if count else None
        awaited = self.published[count] if count < len(self.published) else None
        settled, edited, published = [], [], []
        for analyst, (script, done) in enumerate(zip(self.scripts, cursors)):
            if done == len(script):
                continue
            after = self.shown(cursors[:analyst] + (done + 1,) + cursors[analyst + 1 :])
            if script[done] != "settle":
                edited.append((after, count))
            elif newest == revision:
                settled.append((after, count))
            elif awaited == revision:
                published.append((after, count + 1))
        # A revision that was published is not left before, and none is passed over.
        return settled + published if awaited == revision and newest != revision else settled + edited

    def is_over(self, state: State) -> bool:
        return state == (tuple(map(len, self.scripts)), len(self.published))


def find_history(session: Session, published: Sequence[int]) -> bool:
    """Whether some order of the session's commands publishes these revisions. Of what can be done next, an edit is tried before a
    settle command that finds its surface published, since that one may be wanted for a later publication."""
    scripts = Scripts(session, published)
    todo = [(scripts.shown(tuple(0 for _ in session.scripts)), 0)]
    seen = set(todo)
    while todo:
        state = todo.pop()
        if scripts.is_over(state):
            return True
        for after in scripts.next_states(state):
            if after not in seen:
                seen.add(after)
                todo.append(after)
    return False


def numbers(line: bytes, label: bytes) -> list[int]:
    """The numbers behind a label, each in its one spelling after one space."""
    demand(line.startswith(label) and NUMBERS.fullmatch(line[len(label) :]) is not None, f"{line[:60]!r} is no line {label!r}")
    return [int(number) for number in line[len(label) :].split()]


def judge(session: Session, readers: int, text: bytes) -> list[list[int]]:
    """What each reader kept; Refused if a text is not what so many readers of a session can have seen."""
    demand(text.endswith(b"\n"), "the last line is cut")
    lines = text.split(b"\n")[:-1]
    count = len(lines) - readers
    demand(count >= 0, "a line is missing")
    told = [numbers(line, b"published") for line in lines[:count]]
    demand(all(len(one) == 1 for one in told), "a publication has one revision")
    published = [one[0] for one in told]
    demand(find_history(session, published), f"no history publishes {published}")
    kept = [numbers(line, b"reader %d" % (number + 1)) for number, line in enumerate(lines[count:])]
    for number, seen in enumerate(kept):
        demand(seen == sorted(set(seen)), f"what reader {number + 1} saw does not rise")
        demand(set(seen) <= set(published), f"reader {number + 1} saw what was not published")
        demand(seen[-1:] == published[-1:], f"reader {number + 1} does not end with the last publication")
    return kept


def run(program: str, session: Session, text: bytes, workers: int, readers: int, reads: int) -> bytes:
    """What `watch` writes."""
    words = [*session.options(), "--workers", str(workers), "--readers", str(readers), "--reads", str(reads)]
    return stress.answer(program, ["watch", *words], text)


def scripted(*scripts: list) -> Session:
    """A session of one pixel with these scripts."""
    return Session(1, 1, [0], [1], 1, [1], 64, "least", list(scripts))


EDIT = ("mask", 0, 0, 0, 0)
ONE = scripted(["settle", EDIT, "settle", "show"])
TWO = scripted([EDIT, "settle"], [EDIT, "settle"])
# A session, how many readers, a text, and the judge's word for it; nothing if the text is right.
ROWS = (
    (ONE, 1, b"published 0\npublished 1\nreader 1 0 1\n", ""),
    (ONE, 2, b"published 0\npublished 1\nreader 1 1\nreader 2 0 1\n", ""),
    (ONE, 1, b"published 0\npublished 1\nreader 1 0\n", "end with"),
    (ONE, 1, b"published 0\npublished 1\nreader 1\n", "end with"),
    (ONE, 1, b"published 0\npublished 1\nreader 1 1 0\n", "rise"),
    (ONE, 1, b"published 0\npublished 1\nreader 1 0 0 1\n", "rise"),
    (ONE, 1, b"published 0\npublished 1\nreader 2 1\n", "no line"),
    (ONE, 1, b"published 0\npublished 1\nreader 1 01\n", "no line"),
    (ONE, 1, b"published 0\npublished 1\nreader 1 1", "cut"),
    (ONE, 1, b"published 0\nreader 1 0\n", "no history"),
    (ONE, 1, b"published 1\nreader 1 1\n", "no history"),
    (ONE, 1, b"published 0\npublished 1\npublished 2\nreader 1 2\n", "no history"),
    (ONE, 1, b"published 0\npublished 1\nreader 1 0 1 2\n", "not published"),
    (TWO, 1, b"published 1\npublished 2\nreader 1 2\n", ""),
    (TWO, 1, b"published 2\nreader 1 2\n", ""),
    (TWO, 1, b"published 1\nreader 1 1\n", "no history"),
    (scripted(["show"]), 1, b"reader 1\n", ""),
    (scripted(["show"]), 1, b"published 0\nreader 1 0\n", "no history"),
    (scripted([]), 3, b"reader 1\nreader 2\n", "missing"),
)


def try_the_judge() -> None:
    for session, readers, text, word in ROWS:
        try:
            judge(session, readers, text)
        except Refused as why:
            assert word and word in str(why), f"{text!r} is refused by {why}"
        else:
            assert not word, f"{text!r} is accepted"


def main() -> int:
    try_the_judge()
    if len(sys.argv) < 2:
        return 0
    if (asked := stress.asked_of(sys.argv[1:], 1000, 7)) is None:
        print("watch.py: the words are PROGRAM [COUNT [SEED]], as in watch.py PROGRAM 1000 7", file=sys.stderr)
        return 2
    program, count, seed = asked
    failed = early = 0
    for number in range(count):
        dice = random.Random(f"{seed} {number}")
        session = stress.random_session(dice)
        text = session.bytes_of(dice)
        readers, reads = dice.choice((1, 2, 3, 8)), dice.choice((1, 2, 16, 500, 4096))
        try:
            for workers in WORKERS:
                kept = judge(session, readers, run(program, session, text, workers, readers, reads))
                early += sum(max(len(seen) - 1, 0) for seen in kept)
        except Refused as why:
            failed += 1
            print(f"session {number} of the seed {seed}, workers {workers}, readers {readers}, reads {reads}: {why}", flush=True)
    print(f"{early} surfaces were seen before the last")
    print(f"{count - failed} passed, {failed} failed")
    return int(failed > 0)


if __name__ == "__main__":
    sys.exit(main())
