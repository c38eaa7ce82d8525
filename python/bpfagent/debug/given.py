"""What an editor gives: the arguments of a request, and how it counts lines and writes paths."""
from __future__ import annotations

import os
import pathlib
import urllib.parse
from typing import Any, Iterator, Optional

from .engine import Impossible
from .lines import SourceLine

Body = dict[str, Any]
# No number of the protocol has more bits, but those of words.
GREATEST = 2**31 - 1


class Given:
    """The arguments of a request, or of a part of it. `Impossible` says in words which is missing or wrong."""

    def __init__(self, content: object, name: str = "the arguments") -> None:
        if not isinstance(content, dict):
            raise Impossible(f"{name} is an object" if name != "the arguments" else "the arguments of a request are an object")
        self._content: Body = content

    def has(self, name: str) -> bool:
        """Whether an argument is given."""
        return self._content.get(name) is not None

    def _found(self, name: str) -> Any:
        if not self.has(name):
            raise Impossible(f"{name} is required")
        return self._content[name]

    def number(self, name: str, otherwise: Optional[int] = None, least: int = 0, most: int = GREATEST) -> int:
        """An argument that is a number in this range. Without another value it is required."""
        found = self._found(name) if otherwise is None or self.has(name) else otherwise
        if not isinstance(found, int) or isinstance(found, bool) or not least <= found <= most:
            raise Impossible(f"{name} is a number from {least} to {most}")
        return found

    def text(self, name: str, otherwise: Optional[str] = None) -> str:
        """An argument that is a string."""
        found = self._found(name) if otherwise is None or self.has(name) else otherwise
        if not isinstance(found, str):
            raise Impossible(f"{name} is a string")
        return found

    def optional(self, name: str) -> Optional[str]:
        """An argument that is a string, if it is given."""
        return self.text(name) if self.has(name) else None

    def flag(self, name: str, otherwise: bool = False) -> bool:
        """An argument that is true or false."""
        found = self._content[name] if self.has(name) else otherwise
        if not isinstance(found, bool):
            raise Impossible(f"{name} is true or false")
        return found

    def texts(self, name: str) -> list[str]:
        """An argument that is a list of strings, empty if it isn't given."""
        found = self._content.get(name) or []
        if not isinstance(found, list) or not all(isinstance(word, (str, int)) for word in found):
            raise Impossible(f"{name} is a list of strings")
        return [str(word) for word in found]

    def part(self, name: str) -> Given:
        """An argument that is an object."""
        return Given(self._found(name), name)

    def parts(self, name: str) -> Iterator[Given]:
        """An argument that is a list of objects, empty if it isn't given."""
        found = self._content.get(name) or []
        if not isinstance(found, list) or not all(isinstance(each, dict) for each in found):
            raise Impossible(f"{name} is a list of objects")
        return (Given(each, name) for each in found)


class Client:
    """How an editor counts lines and columns, and writes paths."""

    def __init__(self, given: Given) -> None:
        self._first_line = int(given.flag("linesStartAt1", True))
        self._first_column = int(given.flag("columnsStartAt1", True))
        form = given.text("pathFormat", "path")
        if form not in ("path", "uri"):
            raise Impossible(f"pathFormat is path or uri, and not {form}")
        self._is_uri = form == "uri"

    def line(self, line: int) -> int:
        """A line for the editor."""
        return line - 1 + self._first_line

    def line_from(self, given: Given) -> int:
        """The line that the editor means."""
        return given.number("line") + 1 - self._first_line

    @property
    def column(self) -> int:
        """The first column."""
        return self._first_column

    def source(self, at: SourceLine) -> Body:
        """A source file for the editor."""
        path = pathlib.Path(at.path).absolute().as_uri() if self._is_uri else at.path
        return {"name": os.path.basename(at.path), "path": path}

    def path_from(self, source: Given) -> str:
        """The path of a source file that the editor means."""
        path = source.text("path") if source.has("path") else source.text("name", "")
        if not path:
            raise Impossible("source.path is required")
        found = urllib.parse.urlsplit(path)
        return urllib.parse.unquote(found.path) if found.scheme == "file" else path
