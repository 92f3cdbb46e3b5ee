"""The shell for commands of the language. SHELL.md describes it.

    python -m mmdb [FILE ..]

At a terminal it prompts for lines and shows rows in tables. With files, or without a terminal, it runs scripts as the
program mmdb does, and writes only their replies.
"""

from __future__ import annotations

import argparse
import errno
import os
import sys
from collections.abc import Callable, Sequence
from typing import TextIO

from mmdb._library import Database, Refused
from mmdb.shell_script import InputTooLong, run_script
from mmdb.shell_terminal import run_at_terminal

ENDED, DEVICE_FAILED, INPUT_TOO_LONG, INTERRUPTED = 0, 2, 3, 130


def opened(stream: TextIO | None) -> TextIO:
    """Returns a standard stream. Raises OSError if it is closed."""
    if stream is None:
        raise OSError(errno.EBADF, os.strerror(errno.EBADF))
    return stream


def run_scripts(paths: Sequence[str]) -> None:
    """Runs scripts on one database, one after another, or standard input if there are none."""
    database = Database()
    with open(opened(sys.stdout).fileno(), "wb", closefd=False) as out:
        for path in paths:
            with open(path, "rb") as file:
                run_script(database, file, out)
        if not paths:
            run_script(database, opened(sys.stdin).buffer, out)
    database.close()


def status_of(run: Callable[[], None]) -> int:
    """Runs the shell, and returns the exit status, which is that of the program mmdb."""
    try:
        run()
    except InputTooLong:
        return INPUT_TOO_LONG
    except BrokenPipeError:
        return DEVICE_FAILED
    except OSError as error:
        print(f"mmdb-shell: {error.filename or 'a device'}: {error.strerror or error}", file=sys.stderr)
        return DEVICE_FAILED
    except Refused as refused:
        print(f"mmdb-shell: {refused}", file=sys.stderr)
        return DEVICE_FAILED
    except KeyboardInterrupt:
        return INTERRUPTED
    return ENDED


def is_terminal(stream: TextIO | None) -> bool:
    """Returns whether a standard stream is open and a terminal."""
    return stream is not None and stream.isatty()


def main(arguments: Sequence[str] | None = None) -> int:
    """Runs the shell, and returns its exit status."""
    parser = argparse.ArgumentParser(
        prog="mmdb-shell",
        description="Interactive at a terminal. Otherwise runs scripts as the program mmdb does.",
    )
    parser.add_argument("files", nargs="*", metavar="FILE", help="scripts to run on one database, one after another")
    paths = parser.parse_args(arguments).files
    if paths or not (is_terminal(sys.stdin) and is_terminal(sys.stdout)):
        return status_of(lambda: run_scripts(paths))
    return status_of(run_at_terminal)
