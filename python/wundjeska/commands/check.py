"""Has the proved checker judge a report or a whole text, by its own side, rule, ramp and steepness. It solves nothing.

What it says is written: `accepted`, or the first thing that is wrong. Of a filtered session it judges the guide.
"""
from argparse import ArgumentParser, Namespace, RawDescriptionHelpFormatter
from pathlib import Path

from ..guiding import GUIDE, is_filtered
from ..program import check_report
from ..trouble import DISAGREES, warn
from ..unwrapping import problem_of, read_report


def words() -> ArgumentParser:
    found = ArgumentParser(
        description=__doc__,
        formatter_class=RawDescriptionHelpFormatter,
        epilog="example: wundjeska check session report\n"
        "The status is 0 if the report is accepted, 1 if it is refused, 3 if the session or the report breaks its form, 5 if a "
        "file cannot be read.",
    )
    found.add_argument("session", help="the session that the report is of")
    found.add_argument("report", help="what was written of it")
    return found


def main(asked: Namespace) -> int:
    session, text = Path(asked.session).read_bytes(), Path(asked.report).read_bytes()
    report = read_report(text, asked.report)
    accepted, verdict = check_report(session, text, problem_of(report))
    print(verdict)
    if is_filtered(session):
        warn(f"{asked.report}: {GUIDE}")
    return 0 if accepted else DISAGREES
