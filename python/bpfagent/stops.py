"""The stops of a machine other than its exit: all that the package says of each."""
from __future__ import annotations

from dataclasses import dataclass
from typing import Mapping


@dataclass(frozen=True)
class StopKind:
    """What has happened; what to do about it, where that can be said; and whether it is an access to memory that went wrong."""

    text: str
    hint: str = ""
    is_access: bool = False


STOPS: Mapping[str, StopKind] = {
    "spent": StopKind("it has no fuel left", "it has no fuel left: --fuel N gives more"),
    "misaligned": StopKind(
        "an atomic operation at no multiple of its size", "an atomic operation takes a place at a multiple of its size", is_access=True
    ),
    "notgranted": StopKind("an access to an object without the grant that it needs", is_access=True),
    "outside": StopKind("an access to bytes that aren't all there", is_access=True),
    "depth": StopKind("a ninth nested call", "at most eight calls may be open"),
    "worn": StopKind("an access whose stamp would be too great"),
}
OTHER = StopKind("a stop")


def stop_kind(name: str) -> StopKind:
    """What is said of the stop of this name, also of one that a later agent may have."""
    return STOPS.get(name, OTHER)
