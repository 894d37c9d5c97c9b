"""Tells what is in a report."""
from argparse import ArgumentParser, Namespace
from pathlib import Path

from .. import report_reader
from ..outputs import Outputs, add_force_word, beside
from ..unwrapping import read_report


def words() -> ArgumentParser:
    found = report_reader.words()
    add_force_word(found)
    return found


def main(asked: Namespace) -> int:
    with Outputs([asked.report], asked.force) as outputs:
        save = beside(outputs, asked.save)
        report = read_report(Path(asked.report).read_bytes(), asked.report)
        print("\n".join(report_reader.summary_of(report)))
        if save is not None:
            outputs.fill(save, report_reader.npz_of(report))
    return 0
