"""Runs a script as the program mmdb does: the replies are the same, byte for byte.

A line ends at a line feed or at the end of the input. One carriage return at its end is dropped. A line of more than
4,096 bytes is refused as a whole. Comments and empty lines have no reply. Each reply is written before the next line is
read.
"""

from __future__ import annotations

from collections.abc import Iterator
from typing import BinaryIO

from mmdb._library import COUNT, DONE, NOTHING, Database, Refused

MOST_INPUT_BYTES = 1 << 30
# More than the longest line has, with its carriage return and line feed. So one piece of a longer line is too long.
PIECE_BYTES = 8192


class InputTooLong(Exception):
    """The input has more bytes than a script may have."""


def lines_of(source: BinaryIO, most_bytes: int = MOST_INPUT_BYTES) -> Iterator[bytes]:
    """The lines of an input, without their ends. Of a line that is much too long, only the first piece.

    Raises InputTooLong where the input has more than `most_bytes`, behind the lines that end within so many bytes.
    """
    read = 0
    while line := source.readline(PIECE_BYTES):
        read += len(line)
        piece = line
        while len(piece) == PIECE_BYTES and not piece.endswith(b"\n") and read <= most_bytes:
            piece = source.readline(PIECE_BYTES)
            read += len(piece)
        if read > most_bytes:
            raise InputTooLong
        yield line.removesuffix(b"\n").removesuffix(b"\r")


def reply_to(database: Database, line: bytes) -> bytes:
    """The reply to a line, as the program writes it; empty where there is none."""
    status = database.execute(line)
    if status == NOTHING:
        return b""
    if status == DONE:
        return b"ok\n"
    if status == COUNT:
        return b"ok %d\n" % database.count()
    try:
        return database.text()
    except Refused as refused:
        return f"{refused}\n".encode()


def run_script(database: Database, source: BinaryIO, out: BinaryIO, most_bytes: int = MOST_INPUT_BYTES) -> None:
    """Answers the lines of an input. Raises InputTooLong, or OSError where reading or writing failed."""
    for line in lines_of(source, most_bytes):
        if reply := reply_to(database, line):
            out.write(reply)
            out.flush()
