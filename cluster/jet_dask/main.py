"""The command `jet-dask`: its words, its streams, and its exit status."""

from __future__ import annotations

import argparse
import contextlib
import logging
import os
import sys
from typing import BinaryIO, Callable, Iterator, NoReturn, Optional, Sequence

from distributed import Client, Future, KilledWorker, progress

from jet_dask import faults, program
from jet_dask.faults import Stopped
from jet_dask.run import Outlet, Sizes, run_job
from jet_dask.workers import local_workers

USAGE = "jet-dask run JOB [--scheduler HOST:PORT] [--processes N] [--blocks BYTES] [--out FOLDER] [--check]"
USAGE_STATUS = 2
CLUSTER_STATUS = 1
LATE_FILE = "late.csv"


class _Words(argparse.ArgumentParser):
    """Words that are none of the usage end with its line and the status 2."""

    def error(self, message: str) -> NoReturn:
        raise Stopped(USAGE_STATUS, f"jet-dask: usage: {USAGE}")


def read_words(words: Sequence[str]) -> argparse.Namespace:
    """The words of a call."""
    parser = _Words(prog="jet-dask", usage=USAGE, add_help=False, allow_abbrev=False)
    parser.add_argument("command", choices=["run"])
    parser.add_argument("job")
    parser.add_argument("--scheduler")
    parser.add_argument("--processes", type=_positive)
    parser.add_argument("--blocks", type=_positive, default=Sizes().block)
    parser.add_argument("--out")
    parser.add_argument("--check", action="store_true")
    return parser.parse_args(words)


def _positive(word: str) -> int:
    """A whole number from 1 on."""
    if not (word.isascii() and word.isdigit() and int(word) > 0):
        raise ValueError(word)
    return int(word)


def main(words: Sequence[str]) -> int:
    """Runs the words and answers the exit status."""
    try:
        asked = read_words(words)
        program.judge("plan", asked.job)
        if asked.check:
            program.judge("check", asked.job)
        text = program.job_text(asked.job)
        with notes_alone() as notes, outlet(asked.out, notes) as out, client(asked.scheduler, asked.processes, notes) as workers:
            run_job(workers, text, os.getcwdb(), Sizes(block=asked.blocks), out)
    except Stopped as stopped:
        return told(stopped.line, stopped.status)
    except MemoryError:
        return told(faults.NO_MEMORY_LINE, faults.NO_MEMORY)
    except KilledWorker as lost:
        return told(f"jet-dask: workers were lost again and again, most likely for want of memory: {lost}", CLUSTER_STATUS)
    except OSError as error:
        return told(f"jet-dask: {error}", CLUSTER_STATUS)
    return 0


def told(line: str, status: int) -> int:
    """Tells the line on standard error, and answers the status."""
    with contextlib.suppress(OSError):
        print(line, file=sys.stderr, flush=True)
    return status


@contextlib.contextmanager
def notes_alone() -> Iterator[BinaryIO]:
    """Standard error, for late lines and progress alone: what Dask and its processes would tell there goes nowhere meanwhile."""
    sys.stderr.flush()
    kept = os.dup(sys.stderr.fileno())
    nowhere = os.open(os.devnull, os.O_WRONLY)
    os.dup2(nowhere, sys.stderr.fileno())
    os.close(nowhere)
    try:
        with os.fdopen(os.dup(kept), "wb", buffering=0) as notes:
            yield notes
    finally:
        os.dup2(kept, sys.stderr.fileno())
        os.close(kept)


@contextlib.contextmanager
def client(scheduler: Optional[str], processes: Optional[int], notes: BinaryIO) -> Iterator[Client]:
    """A client of a scheduler, or of processes of this machine that end with the run."""
    logging.getLogger("distributed").setLevel(logging.CRITICAL)
    with contextlib.ExitStack() as stack:
        address: object = scheduler
        if scheduler is None:
            address = stack.enter_context(local_workers(processes or os.cpu_count() or 1, "127.0.0.1:0"))
        found = stack.enter_context(Client(address, timeout="30s"))
        if notes.isatty():
            notes.write(f"jet-dask: the dashboard, where bokeh is there: {found.dashboard_link}\n".encode())
        yield found


@contextlib.contextmanager
def outlet(folder: Optional[str], notes: BinaryIO) -> Iterator[Outlet]:
    """Standard output and standard error; or a folder, made at the first late line or at the rows, with a file for late lines and one
    for each range of ends."""
    watch = bar(notes)
    if folder is None:
        yield Outlet(writer(notes, "notes"), writer(sys.stdout.buffer, "rows"), None, watch)
        return
    path = os.fsencode(os.path.abspath(folder))
    if os.path.exists(path) and (not os.path.isdir(path) or os.listdir(path)):
        raise Stopped(faults.OUTSIDE, "jet: fault: write rows")
    with contextlib.ExitStack() as stack:
        yield Outlet(FolderLate(path, stack).write, lambda rows: None, path, watch)


class FolderLate:
    """Late lines into a file of a folder, which is opened at the first."""

    def __init__(self, folder: bytes, stack: contextlib.ExitStack) -> None:
        self.folder, self.stack = folder, stack
        self.file: Optional[BinaryIO] = None

    def write(self, text: bytes) -> None:
        """Appends late lines."""
        try:
            if self.file is None:
                os.makedirs(self.folder, exist_ok=True)
                self.file = self.stack.enter_context(open(os.path.join(self.folder, os.fsencode(LATE_FILE)), "wb"))
            self.file.write(text)
            self.file.flush()
        except OSError:
            raise faults.outside("write", "notes") from None


def writer(stream: BinaryIO, name: str) -> Callable[[bytes], None]:
    """Writes texts to a stream, whole."""

    def write(text: bytes) -> None:
        left = memoryview(text)
        try:
            while left:
                left = left[stream.write(left) :]
            stream.flush()
        except OSError:
            raise faults.outside("write", name) from None

    return write


def bar(notes: BinaryIO) -> Callable[[str, Sequence[Future]], None]:
    """Dask's own bar for each step, where standard error is a terminal."""

    def watch(name: str, futures: Sequence[Future]) -> None:
        if futures and notes.isatty():
            notes.write(f"jet-dask: {name}, {len(futures)} tasks\n".encode())
            with open(os.dup(notes.fileno()), "w", encoding="ascii") as terminal, contextlib.redirect_stdout(terminal):
                progress(list(futures), notebook=False)
            notes.write(b"\n")

    return watch
