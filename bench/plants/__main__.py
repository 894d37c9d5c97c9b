#!/usr/bin/env python3
"""Tries wrong bodies that the gate does not try: those of bench/plants/CRATE/NAME.edit, each of which the prover has to refuse.

  python3 bench/plants [--in FOLDER] [CRATE..]       of all crates without a name; FOLDER is a clone to work in, which stays

The edits are put into crates/CRATE/must-fail/ of a clone, `rt must-fail` tries them, and they are taken away again. Each that is not
refused is named; the last line counts. The status is 1 if one was not refused.
"""
import argparse
import os
import shutil
import subprocess
import sys
import tempfile

HERE = os.path.dirname(os.path.abspath(__file__))
TOP = os.path.dirname(os.path.dirname(HERE))


def planted():
    """The edits by crate, in the order of their names."""
    crates = sorted(it for it in os.listdir(HERE) if os.path.isdir(f"{HERE}/{it}") and it != "__pycache__")
    return {it: sorted(os.listdir(f"{HERE}/{it}")) for it in crates}


def clone(folder):
    """Brings the clone to what is committed here, or makes it."""
    if os.path.isdir(f"{folder}/.git"):
        subprocess.run(["git", "pull", "-q", "--ff-only", TOP, "HEAD"], cwd=folder, check=True)
    else:
        subprocess.run(["git", "clone", "-q", TOP, folder], check=True)


def tried(folder, edits):
    """What `rt must-fail` says of these edits, with those of the gate set aside."""
    places = [f"{folder}/crates/{crate}/must-fail" for crate in edits]
    try:
        for place, (crate, names) in zip(places, edits.items()):
            shutil.rmtree(place, ignore_errors=True)
            os.makedirs(place)
            for name in names:
                shutil.copy(f"{HERE}/{crate}/{name}", place)
        return subprocess.run(["rt", "must-fail", *edits], cwd=folder, stdout=subprocess.PIPE, stderr=subprocess.STDOUT, text=True).stdout
    finally:
        for place in places:
            shutil.rmtree(place, ignore_errors=True)
        subprocess.run(["git", "checkout", "-q", "--", "crates"], cwd=folder, check=True)


def main():
    parser = argparse.ArgumentParser(prog="bench/plants", description="Tries the wrong bodies of bench/plants.")
    parser.add_argument("--in", dest="folder", help="a clone to work in, which stays")
    parser.add_argument("crates", nargs="*", metavar="CRATE")
    words = parser.parse_args()
    edits = planted()
    unknown = [it for it in words.crates if it not in edits]
    if unknown:
        parser.error(f"no edits of {unknown[0]} stand in bench/plants")
    edits = {it: edits[it] for it in words.crates or edits}
    folder = words.folder or f"{tempfile.mkdtemp(prefix='plants-')}/clone"
    clone(folder)
    said = tried(folder, edits)
    wanted = [f"must-fail {crate}/{name}:" for crate, names in edits.items() for name in names]
    refused = [it for it in wanted if f"{it} refused, as it must be" in said]
    for line in said.splitlines():
        if "must-fail " in line and "refused, as it must be:" not in line:
            print(line)
    for it in wanted:
        if it not in said:
            print(f"{it} NOT TRIED")
    print(f"{len(refused)} of {len(wanted)} edits in {len(edits)} crates are refused")
    if not words.folder:
        shutil.rmtree(os.path.dirname(folder))
    return len(refused) != len(wanted)


if __name__ == "__main__":
    sys.exit(main())
