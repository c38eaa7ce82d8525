"""A client of a far store, by the frames of docs/FAR-MEMORY.md.

`python3 -m bpfagent.far PORT TEXT..` sends texts away to the store on 127.0.0.1 and fetches them home. For each text it prints
its id, its length and its SHA-256. The store is `bpfagent store`, `bpfagent-redis`, or another that speaks these frames.
"""
from __future__ import annotations

# Before the imports: an interrupt during them ends the program quietly.
if __name__ == "__main__":
    import bpfagent.programs

    bpfagent.programs.run("far")

import argparse
import hashlib
import os
import struct
from typing import Optional

from .closing import Closing
from .commands import add_version, fault_text, guarded, port_of
from .replies import Broken
from .streams import connected

HEAD = struct.Struct(">BQI")
PUT, GET, FORGET = 1, 2, 3
DONE, REFUSED_ID, NO_ROOM = 0, 1, 2
# The most bytes of a parcel.
LIMIT = 65_536
# How long the command waits for the store, in seconds.
SECONDS = 60.0


class Store(Closing):
    """A store at the other end of a connection, which is a context manager.

    The store isn't trusted: bytes that come home are taken only if their digest is right. A method raises `Broken` if the
    store ends the conversation or sends an impossible answer, and an `OSError` if the stream fails or times out. After either,
    and after `close`, every later call raises `Broken`.
    """

    def __init__(self, port: int, host: str = "127.0.0.1", timeout: Optional[float] = None) -> None:
        """Connects. `timeout`, in seconds, bounds the connecting, each write and each read."""
        # The connection is closed when the file is.
        with connected(host, port, timeout) as connection:
            self.stream = connection.makefile("rwb")
        self.puts = 0
        self._is_over = False

    def close(self) -> None:
        """Ends the conversation. The store forgets all that this client has sent."""
        self._is_over = True
        self.stream.close()

    def ask(self, kind: int, number: int, payload: bytes = b"") -> tuple[int, bytes]:
        """Status and bytes of the answer to a request of this kind for an id. Only a put has a payload."""
        if self._is_over:
            raise Broken("the conversation is over")
        # It goes on only if the whole answer has come; an interrupt ends it too.
        self._is_over = True
        answer = self._answer(kind, number, payload)
        self._is_over = False
        return answer

    def _answer(self, kind: int, number: int, payload: bytes) -> tuple[int, bytes]:
        """Sends a request, and reads its answer."""
        self.stream.write(HEAD.pack(kind, number, len(payload)) + payload)
        self.stream.flush()
        head = self.stream.read(HEAD.size)
        if len(head) < HEAD.size:
            raise Broken("the stream has ended")
        status, answered, length = HEAD.unpack(head)
        if answered != number or status > NO_ROOM or length > (LIMIT if (kind, status) == (GET, DONE) else 0):
            raise Broken(f"status {status}, id {answered}, length {length} to a request of id {number}")
        payload = self.stream.read(length)
        if len(payload) < length:
            raise Broken("the stream has ended")
        return status, payload

    def put(self, text: bytes) -> tuple[Optional[int], bytes]:
        """Sends 1 to 65,536 bytes away. Gives their id, or None if the store refused them, and their SHA-256."""
        if not 1 <= len(text) <= LIMIT:
            raise ValueError(f"a parcel has 1 to {LIMIT} bytes, and not {len(text)}")
        self.puts += 1
        status, _ = self.ask(PUT, self.puts, text)
        return (self.puts if status == DONE else None), hashlib.sha256(text).digest()

    def get(self, number: int, digest: bytes) -> Optional[bytes]:
        """The bytes of this id, or None if the store doesn't have them or gave bytes of another digest."""
        status, text = self.ask(GET, number)
        return text if status == DONE and hashlib.sha256(text).digest() == digest else None

    def forget(self, number: int) -> None:
        """The store need not keep the bytes of this id."""
        self.ask(FORGET, number)


def text_of(word: str) -> bytes:
    """The bytes of an argument, as many as a parcel may have."""
    text = os.fsencode(word)
    if not 1 <= len(text) <= LIMIT:
        raise argparse.ArgumentTypeError(f"a text has 1 to {LIMIT} bytes")
    return text


def send_and_fetch(port: int, texts: list[bytes]) -> None:
    """Sends the texts away, fetches them home and prints what they are."""
    try:
        connected = Store(port, timeout=SECONDS)
    except OSError as why:
        raise Broken(f"no store can be reached on port {port}: {fault_text(why)}") from None
    with connected as store:
        parcels = [store.put(text) for text in texts]
        for number, digest in parcels:
            text = store.get(number, digest) if number else None
            if number is None or text is None:
                raise Broken(f"the store didn't keep the text with the digest {digest.hex()}")
            print(number, len(text), digest.hex())
            store.forget(number)


def main() -> None:
    """The command line."""
    options = argparse.ArgumentParser(prog="bpfagent.far", description="Sends texts to a far store and fetches them home.")
    add_version(options)
    options.add_argument("port", type=port_of, help="the store's port on 127.0.0.1")
    options.add_argument("texts", type=text_of, nargs="*", default=[], metavar="TEXT", help=f"1 to {LIMIT} bytes")
    given = options.parse_args()
    guarded("bpfagent.far", lambda: send_and_fetch(given.port, given.texts), Broken)
