"""What a `with` block closes at its end."""
from __future__ import annotations

from types import TracebackType
from typing import Optional, TypeVar

C = TypeVar("C", bound="Closing")


class Closing:
    """A context manager whose block ends with `close`, whether the block fails or not."""

    def close(self) -> None:
        """Ends what the block uses."""
        raise NotImplementedError

    def __enter__(self: C) -> C:
        return self

    def __exit__(self, kind: Optional[type[BaseException]], error: Optional[BaseException], trace: Optional[TracebackType]) -> None:
        self.close()
