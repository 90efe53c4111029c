"""How a call ends that can't do what it is for."""
from __future__ import annotations

NO = 1
"""Status of a script whose answer is no."""
WRONG_USE = 2
"""Status of a script that was called with words which it doesn't take."""
FAILED = 3
"""Status of a script whose file or program failed."""


class Failure(Exception):
    """What went wrong, in words for who called. `status` is that with which a script ends, 3 where nothing else is
    said."""

    def __init__(self, message: str, status: int = FAILED) -> None:
        super().__init__(message)
        self.status = status


def named(error: OSError, path: object = None) -> Failure:
    """A failed call on a file, in words: its name and why."""
    name = error.filename if path is None else path
    return Failure(f"{name if name is not None else 'a file'}: {error.strerror or error}")
