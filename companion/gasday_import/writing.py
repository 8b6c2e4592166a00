"""Files that are complete or as they were before; and what is no regular file, which is written in place."""

import errno
import os
import shutil
from collections.abc import Iterator
from contextlib import contextmanager
from pathlib import Path
from typing import IO


def is_replaced(path: str | Path, place: str) -> bool:
    """Whether another file may take the place of what a path leads to: of nothing, or of a regular file in a folder that can be
    written. A device, a pipe or a socket has to stay what it is; /dev/stdout may lead to a pipe, which has no place."""
    return not os.path.exists(path) or (os.path.isfile(path) and os.access(os.path.dirname(place), os.W_OK))


@contextmanager
def whole(path: str | Path, mode: int | None = None) -> Iterator[IO[bytes]]:
    """A file to write, which takes the place of the one at a path once it is complete. What is no regular file is written in
    place, and a folder is refused. A link stays, and so does the mode of a file that was there, unless one is given."""
    place = os.path.realpath(path)
    if os.path.isdir(place):
        raise IsADirectoryError(errno.EISDIR, os.strerror(errno.EISDIR), str(path))
    if not is_replaced(path, place):
        with open(path, "wb") as file:
            yield file
        return
    part = f"{place}.part"
    try:
        with open(os.open(part, os.O_RDWR | os.O_CREAT | os.O_TRUNC, 0o666 if mode is None else mode), "w+b") as file:
            yield file
            file.flush()
            os.fsync(file.fileno())
        if mode is None and os.path.exists(place):
            shutil.copymode(place, part)
        os.replace(part, place)
    except OSError as error:
        error.filename = str(path)  # and not the file that is there until then
        raise
    finally:
        Path(part).unlink(missing_ok=True)
