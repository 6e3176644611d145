"""Input and output of the command: traces from files, pipes or standard input, and standard output that is not lost."""

from __future__ import annotations

import os
import sys
from errno import EBADF
from typing import Union

STANDARD_INPUT = "-"


class OutputFailed(Exception):
    """Standard output did not take what was written: what has been printed is no answer."""


def read(name: str) -> bytes:
    """All of a file or pipe, of standard input where the name is -; OSError where it cannot be read."""
    if name != STANDARD_INPUT:
        with open(name, "rb") as file:
            return file.read()
    if sys.stdin is None:
        raise OSError(EBADF, "is closed", "standard input")
    try:
        return sys.stdin.buffer.read()
    except OSError as error:
        raise OSError(error.errno, error.strerror, "standard input") from error


def emit(data: Union[str, bytes]) -> None:
    """Writes to standard output and waits until it is taken; OutputFailed where it is not."""
    if sys.stdout is None:
        raise OutputFailed("standard output is closed")
    try:
        sys.stdout.buffer.write(data.encode(errors="surrogateescape") if isinstance(data, str) else data)
        sys.stdout.flush()
    except OSError as error:
        _forget_output()
        raise OutputFailed(f"standard output: {error.strerror}") from error


def _forget_output() -> None:
    """Turns standard output away, so that what it did not take is not tried again at the end."""
    nowhere = os.open(os.devnull, os.O_WRONLY)
    os.dup2(nowhere, sys.stdout.fileno())
    os.close(nowhere)


def say(sentence: str) -> None:
    """A sentence on standard error, where there is one."""
    if sys.stderr is None:
        return
    try:
        print(f"nyo: {sentence}", file=sys.stderr, flush=True)
    except OSError:
        pass
