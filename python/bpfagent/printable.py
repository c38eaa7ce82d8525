"""Texts of others, as a terminal may show them."""
from __future__ import annotations


def printable(text: str, kept: str = "") -> str:
    """The text with its control characters escaped, and whatever else isn't printable, but for those that are kept. An escape sequence
    could move the cursor, or rewrite what stands on the screen."""
    if text.isprintable():
        return text
    return "".join(letter if letter.isprintable() or letter in kept else letter.encode("unicode_escape").decode("ascii") for letter in text)
