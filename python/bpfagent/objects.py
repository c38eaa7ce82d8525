"""What an agent does with objects by several commands, over a conversation or in this process."""
from __future__ import annotations

from typing import Iterable

from .arguments import Bytes, of_bytes, size_of
from .replies import Move, Refused


class Objects:
    """The methods that are several commands on objects. The commands are those of a subclass."""

    def make(self, length: int) -> int:
        raise NotImplementedError

    def write(self, number: int, content: Bytes, offset: int = 0) -> None:
        raise NotImplementedError

    def leave(self, number: int) -> Move:
        raise NotImplementedError

    def left(self, number: int) -> Move:
        raise NotImplementedError

    def return_(self, number: int) -> Move:
        raise NotImplementedError

    def returned(self, number: int) -> Move:
        raise NotImplementedError

    def make_of(self, content: Bytes) -> int:
        """Makes an object of these bytes, and gives its number."""
        number = self.make(size_of(of_bytes(content)))
        self.write(number, content)
        return number

    def send_away(self, number: int) -> None:
        """Takes an object to the far store. A service's mover does so by itself."""
        self.leave(number)
        self.left(number)

    def bring_home(self, number: int, others: Iterable[int] = ()) -> None:
        """Brings an object back from the far store. A service's mover does so by itself.

        Where there is no room, others are sent away, one after the other. Those that can't go now are passed over.
        """
        rest = iter(others)
        while True:
            try:
                self.return_(number)
                break
            except Refused as refusal:
                if refusal.word != "noroom" or not any(self._goes(other) for other in rest):
                    raise
        self.returned(number)

    def _goes(self, number: int) -> bool:
        """Sends an object away if it can go; whether it did."""
        try:
            self.send_away(number)
            return True
        except Refused:
            return False
