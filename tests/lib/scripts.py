"""Scripts of commands, each with its one reply after `> `; `---` begins a fresh agent, with the arguments of `run` behind it, and `#` a comment.
At the end of a conversation with a service stand, after `= `, the lines of what it leaves when it has closed.
"""
from __future__ import annotations

from typing import List, Tuple

# Commands, each with its one reply.
Talk = List[Tuple[str, str]]


def talks_of(text: str) -> list[tuple[list[str], Talk]]:
    """The words behind each `---`, which may be none before the first, and the commands with their replies."""
    talks, command = [([], [])], None
    for number, line in enumerate(text.splitlines(), 1):
        if line.startswith("= "):
            continue
        is_reply = line.startswith("> ")
        if line and not line.startswith("#") and is_reply != (command is not None):
            raise ValueError(f"line {number}: {'a reply to no command' if is_reply else f'no reply to {command[:60]}'}")
        if line.startswith("---"):
            talks.append((line.split()[1:], []))
        elif is_reply:
            talks[-1][1].append((command, line[2:]))
            command = None
        elif line and not line.startswith("#"):
            command = line
    if command is not None:
        raise ValueError(f"no reply to {command[:60]} at the end")
    return talks


def conversations(text: str) -> list[tuple[list[str], Talk]]:
    """For each agent that a script talks to the arguments of `run`, and the commands with their replies."""
    return [(arguments, talk) for arguments, talk in talks_of(text) if talk]
