"""The command sg over the library: `python3 -m sg WORDS < INPUT`. The status is that of the command."""

from __future__ import annotations

import os
import sys
from typing import Optional, Sequence

from ._library import MAX_INPUT, answer
from .errors import Error, Status

_READING_FAILED = 3
_WRITING_FAILED = 4


class _ReadingFailed(Exception):
    pass


def _read() -> bytes:
    try:
        # A standard stream that is closed is None here, and is empty.
        return sys.stdin.buffer.read(MAX_INPUT + 1) if sys.stdin else b""
    except OSError:
        raise _ReadingFailed from None


def _answer(words: Sequence[str]) -> str:
    """What the command prints. Words that are no command, and `sample`, leave the input unread: the line that is no triplet, which
    is asked first, tells the others from them."""
    try:
        return answer(words, "no triplet")
    except Error as fault:
        if fault.status != Status.UNREADABLE:
            raise
    return answer(words, _read())


def _fault(status: int, text: str) -> int:
    try:
        if sys.stderr:
            print(text, file=sys.stderr)
    except OSError:
        pass
    return status


def main(words: Optional[Sequence[str]] = None) -> int:
    try:
        text = _answer(sys.argv[1:] if words is None else words)
    except _ReadingFailed:
        return _fault(_READING_FAILED, "sg: reading failed")
    except Error as fault:
        return _fault(int(fault.status), fault.text)
    try:
        if sys.stdout:
            sys.stdout.buffer.write(text.encode())
            sys.stdout.buffer.flush()
    except OSError:
        # What is left in the buffer is not written again when Python ends.
        os.dup2(os.open(os.devnull, os.O_WRONLY), sys.stdout.fileno())
        return _fault(_WRITING_FAILED, "sg: writing failed")
    return 0


if __name__ == "__main__":
    sys.exit(main())
