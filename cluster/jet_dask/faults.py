"""How a run ends that does not end well, each with its line and exit status as docs/FORMATS.md, "Status lines", has them."""

from __future__ import annotations

from dataclasses import dataclass

from jet_dask.columns import LineFault

BAD_LINE, OUTSIDE, NO_MEMORY = 4, 5, 6
NO_MEMORY_LINE = "jet: no memory"


@dataclass(eq=False)
class Stopped(Exception):
    """The run has ended with this exit status; `line` is what is to be told, without its LF."""

    status: int
    line: str

    def __reduce__(self) -> tuple[type, tuple[int, str]]:
        return Stopped, (self.status, self.line)


def bad_line(part: int, fault: LineFault) -> Stopped:
    """The file of this number has a bad line."""
    return Stopped(BAD_LINE, f"jet: bad line: part {part} line {fault.line}: fault {fault.number}")


def outside(call: str, file: str) -> Stopped:
    """A call on the outside failed: `call` is open, read or write, `file` is `part P`, `rows` or `notes`."""
    return Stopped(OUTSIDE, f"jet: fault: {call} {file}")
