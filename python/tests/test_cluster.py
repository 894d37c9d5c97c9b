"""Tests what a job asks a cluster for, which attempts are made again, and how the profile for Slurm reads a job's state. Slurm itself
is tried by `recipes/kit/slurm`."""
import os
import subprocess
import unittest
from pathlib import Path

from helpers import InFolder

import wundjeska
from wundjeska.cluster import has_refused, memory_mb, minutes
from wundjeska.commands.scenes import SLURM, with_profile

# What scontrol tells of a job, what sacct does, and how the job stands.
STATES = (
    ("JobId=7 JobState=PENDING Reason=BeginTime", "", "running"),
    ("JobId=7 JobState=RUNNING Reason=None", "", "running"),
    ("JobId=7 JobState=COMPLETING Reason=None", "", "running"),
    ("JobId=7 JobState=COMPLETED Reason=None", "", "success"),
    ("JobId=7 JobState=OUT_OF_MEMORY Reason=OutOfMemory", "", "failed"),
    ("JobId=7 JobState=CANCELLED Reason=None", "", "failed"),
    ("JobId=7 JobState=TIMEOUT Reason=TimeLimit", "", "failed"),
    ("JobId=7 JobState=PREEMPTED Reason=None", "", "failed"),
    ("slurm_load_jobs error: Unable to contact slurm controller (connect failure)", "", "running"),
    ("slurm_load_jobs error: Invalid job id specified", "COMPLETED", "success"),
    ("slurm_load_jobs error: Invalid job id specified", "CANCELLED by 0", "failed"),
    ("slurm_load_jobs error: Invalid job id specified", "", "failed"),
)
# The log of an attempt, and whether it was refused for good.
LOGS = [("", False), ("phase.tif has no georeference\nstatus 3\n", True), ("no memory\nstatus 4\n", False)]
LOGS += [(f"status {status}\n", False) for status in (137, 143, 247)]


class Cluster(InFolder):
    def fake(self, name: str, told: str) -> None:
        """A command of Slurm that tells this."""
        path = self.folder / name
        path.write_text(f"#!/bin/sh\nprintf '%s\\n' '{told}'\n")
        path.chmod(0o755)

    def test_states_of_jobs(self) -> None:
        environment = {**os.environ, "PATH": f"{self.folder}:{os.environ['PATH']}"}
        for told, later, wanted in STATES:
            with self.subTest(told, later=later):
                self.fake("scontrol", told)
                self.fake("sacct", later)
                found = subprocess.run([SLURM / "status", "7"], env=environment, capture_output=True, text=True, check=True)
                self.assertEqual(found.stdout, f"{wanted}\n")

    def test_a_refusal_is_not_tried_again(self) -> None:
        log = self.folder / "log"
        self.assertFalse(has_refused(log))
        for text, wanted in LOGS:
            log.write_text(text)
            self.assertEqual(has_refused(log), wanted, text)

    def test_what_a_job_asks_for(self) -> None:
        self.assertEqual([memory_mb(1_000_000, attempt) for attempt in (1, 2, 3)], [570, 1140, 2280])
        self.assertEqual([minutes(4_000_000, attempt) for attempt in (1, 2)], [18, 36])

    def test_the_profile_is_of_the_package(self) -> None:
        own = Path(wundjeska.__file__).parent / "slurm"
        self.assertTrue((own / "config.yaml").exists())
        self.assertEqual(with_profile(["--profile", "slurm", "--jobs", "5"]), ["--profile", str(own), "--jobs", "5"])
        self.assertEqual(with_profile(["--profile", "lsf", "slurm"]), ["--profile", "lsf", "slurm"])


if __name__ == "__main__":
    unittest.main()
