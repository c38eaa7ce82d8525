"""The texts of source files."""
from __future__ import annotations

import functools
import pathlib

from ..image import LONGEST
from ..printable import printable
from .lines import SourceLine


@functools.lru_cache(maxsize=64)
def lines_of(path: str) -> tuple[str, ...]:
    """The lines of a source file; none if it can't be read."""
    try:
        # The path is what an object file says: it may be that of a device that never ends.
        if not pathlib.Path(path).is_file():
            return ()
        with pathlib.Path(path).open(errors="replace") as file:
            return tuple(printable(line, "\t") for line in file.read(LONGEST).splitlines())
    except (OSError, ValueError):
        return ()


def text_at(at: SourceLine) -> str:
    """The text of a line without the blanks around it, empty if it can't be read."""
    lines = lines_of(at.path)
    return lines[at.line - 1].strip() if 1 <= at.line <= len(lines) else ""
