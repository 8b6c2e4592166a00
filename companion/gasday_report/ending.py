"""How each command of the companion ends: what stops it is told in one sentence, with status 2, since 1 is an answer."""

import contextlib
import errno
import functools
import os
import sys
import traceback
from collections.abc import Callable
from typing import ParamSpec, TextIO

STOPPED = 2
# What can go wrong in writing alone.
WRITING = (errno.ENOSPC, errno.EDQUOT, errno.EFBIG, errno.EPIPE)

Words = ParamSpec("Words")


def drop(stream: TextIO | None) -> None:
    """What a stream still holds can't be written: it goes nowhere, so that the interpreter's end doesn't fail by it."""
    with contextlib.suppress(OSError, ValueError):
        if stream is not None:
            os.dup2(os.open(os.devnull, os.O_WRONLY), stream.fileno())


def tell(command: str, words: str) -> None:
    """Tells one sentence, where standard error can be written."""
    try:
        print(f"{command}: {words}", file=sys.stderr, flush=True)
    except (OSError, ValueError):
        drop(sys.stderr)


def words_of(error: OSError) -> str:
    what = "can't be written" if error.errno in WRITING else "can't be read or written"
    return f"{error.filename or 'the output'} {what}: {error.strerror or error}"


def flush() -> None:
    """Writes what standard output still holds. One that was closed before the start can hold nothing."""
    if sys.stdout is None:
        raise OSError(errno.EBADF, "it is closed", "standard output")
    sys.stdout.flush()


def settle() -> None:
    """After a failed write: standard output is left without anything that still waits."""
    try:
        flush()
    except (OSError, ValueError):
        drop(sys.stdout)


def ends_in_order(command: str) -> Callable[[Callable[Words, int]], Callable[Words, int]]:
    """For the main function of a command: whatever it answers stands only once its output is written."""
    def around(main: Callable[Words, int]) -> Callable[Words, int]:
        @functools.wraps(main)
        def ended(*args: Words.args, **kwargs: Words.kwargs) -> int:
            try:
                try:
                    return main(*args, **kwargs)
                finally:
                    flush()
            except KeyboardInterrupt:
                tell(command, "stopped before the end")
            except OSError as error:
                settle()
                tell(command, words_of(error))
            except UnicodeEncodeError as error:
                tell(command, f"the output can't be written: {error}")
            except MemoryError:
                tell(command, "there is not enough memory")
            except Exception:  # which nobody has foreseen
                with contextlib.suppress(OSError, ValueError):
                    traceback.print_exc()
            return STOPPED
        return ended
    return around
