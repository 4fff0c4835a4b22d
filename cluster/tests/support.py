"""What the tests share: a run of a job whose texts are kept, and the program jet."""

from __future__ import annotations

import json
import os
import subprocess
from dataclasses import dataclass, field
from pathlib import Path
from typing import Any, Callable, Optional, Sequence

from distributed import Client, Future

from jet_dask.faults import Stopped
from jet_dask.run import Outlet, Sizes, run_job

TOP = Path(__file__).resolve().parents[2]
PROGRAM = os.environ["JET_PROGRAM"]
JET_SECONDS = 60


@dataclass
class Written:
    """What a run wrote, and how it ended: its status and status line."""

    late: bytearray = field(default_factory=bytearray)
    rows: bytearray = field(default_factory=bytearray)
    status: int = 0
    line: str = ""

    def late_lines(self) -> list[str]:
        """The late lines in the order of their bytes."""
        return sorted(self.late.decode().splitlines(keepends=True))


def quiet(name: str, futures: Sequence[Future]) -> None:
    """Watches nothing."""


def run(
    client: Client,
    job: Path,
    here: Path,
    sizes: Sizes = Sizes(),
    folder: Optional[Path] = None,
    watch: Callable[[str, Sequence[Future]], None] = quiet,
) -> Written:
    """A run of a job file, with its files named from the folder `here`."""
    written = Written()
    where = os.fsencode(folder) if folder else None
    outlet = Outlet(written.late.extend, written.rows.extend, where, watch)
    try:
        run_job(client, job.read_bytes(), os.fsencode(here), sizes, outlet)
    except Stopped as stopped:
        written.status, written.line = stopped.status, stopped.line
    return written


def put(room: Path, job: dict[str, Any], files: dict[str, bytes]) -> Path:
    """Writes a job and its files into an empty folder, and answers the job's path."""
    room.mkdir()
    for name, content in files.items():
        (room / name).write_bytes(content)
    path = room / "job.json"
    path.write_text(json.dumps(job))
    return path


def jet(*words: object, here: Path) -> subprocess.CompletedProcess[bytes]:
    """A call of the program jet, which ends in this time."""
    call = [PROGRAM, *map(str, words)]
    return subprocess.run(call, cwd=here, stdin=subprocess.DEVNULL, capture_output=True, check=False, timeout=JET_SECONDS)


def has_run() -> bool:
    """Whether the program knows `run`; an empty job is refused then, and else the words are none."""
    return jet("run", os.devnull, here=TOP).returncode != 2


def window_job(name: str, size: int, slide: int, lag: int) -> dict[str, Any]:
    """The job of `window`: one window over one file, named w."""
    return {
        "vertices": [
            {"name": "s", "kind": "source", "files": [name], "lag": lag},
            {"name": "a", "kind": "accumulate", "size": size, "slide": slide},
            {"name": "w", "kind": "combine"},
            {"name": "z", "kind": "sink"},
        ],
        "edges": [
            {"from": "s", "to": "a", "route": "unicast"},
            {"from": "a", "to": "w", "route": "partitioned", "distributed": True},
            {"from": "w", "to": "z", "route": "unicast", "distributed": True},
        ],
    }
