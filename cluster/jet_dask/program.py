"""The program jet, which judges jobs, and lines where that is asked for."""

from __future__ import annotations

import os
import subprocess
from pathlib import Path

from jet_dask.faults import OUTSIDE, Stopped


def program() -> str:
    """The program: what the variable JET_PROGRAM names, else the script `jet` of this repository, which builds it where it must."""
    return os.environ.get("JET_PROGRAM") or str(Path(__file__).resolve().parents[2] / "jet")


def judge(command: str, job: str) -> None:
    """Runs `jet plan` or `jet check` on a job file; where its status is not 0 the run stops with that and with what it told."""
    # behind `--` a name that begins with a minus is a name
    try:
        done = subprocess.run([program(), command, "--", job], stdin=subprocess.DEVNULL, capture_output=True, check=False)
    except OSError as error:
        raise Stopped(1, f"jet-dask: the program jet can't be run: {error}") from None
    if done.returncode != 0:
        raise Stopped(done.returncode, done.stderr.decode("utf-8", "replace").rstrip("\n"))


def job_text(job: str) -> bytes:
    """The text of a job file."""
    try:
        return Path(job).read_bytes()
    except OSError:
        raise Stopped(OUTSIDE, "jet: fault: read job") from None
