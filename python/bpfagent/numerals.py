"""Values as a person reads them: words of 64 bits in decimal, and bytes as text."""
from __future__ import annotations

from .limits import WORD

SIGN = 1 << 63


def signed(value: int) -> int:
    """A word of 64 bits with its sign."""
    return value - (WORD + 1) if value & SIGN else value


def decimal(value: int) -> str:
    """A word in decimal: without a sign and, if it differs, with one."""
    return f"= {value}" + (f" = {signed(value)}" if value & SIGN else "")


def as_text(content: bytes) -> str:
    """In quotes, if the bytes are ASCII that can be shown; without zero bytes at the end."""
    content = content.rstrip(b"\0")
    return f' "{content.decode()}"' if content and all(32 <= byte < 127 for byte in content) else ""
