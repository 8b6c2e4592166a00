"""The program that serves an open gas day (`gasday day --book FILE`), driven through two pipes.

Behind each call goes an empty line, which the program tells back: so the replies up to it are that call's, and calls that were
sent together are paired with their answers by their order alone.
"""

import contextlib
import subprocess
import threading
from collections.abc import Iterator, Sequence
from pathlib import Path
from typing import IO

from .faults import told_words
from .program import Busy, Failed
from .rows import Row, lines_of

# A pipe that is empty takes so much without waiting; more goes in from a thread of its own, since the program may wait for
# its replies to be read meanwhile.
PIPE = 60_000
END_SECONDS = 60.0


class Ended(Exception):
    """The program ended before it told all; only the file says which of the calls are kept."""


class Coprocess:
    """One process that has the file from its beginning to its end."""

    def __init__(self, program: str, file: Path) -> None:
        try:
            self.process = subprocess.Popen([program, "day", "--book", str(file)], stdin=subprocess.PIPE, stdout=subprocess.PIPE,
                                            stderr=subprocess.DEVNULL, start_new_session=True)
        except OSError as error:
            raise Failed(f"{program} can't be run: {error.strerror}") from None
        self.file = file
        try:
            opened = self.row()
        except Ended:
            self.close()
            raise
        if opened[0] != "opened":
            self.close()
            if opened[:3] == ("fault", "0", "Busy"):
                raise Busy(f"another process has the file {file.name}: end that one, or wait until it has ended")
            raise Failed(f"{file.name} can't be opened: {told_words(opened)}")
        self.calls = int(opened[2])

    def pipe_in(self) -> IO[bytes]:
        assert self.process.stdin is not None
        return self.process.stdin

    def pipe_out(self) -> IO[bytes]:
        assert self.process.stdout is not None
        return self.process.stdout

    def row(self) -> Row:
        """The next row that is told; of an empty line one of an empty field."""
        line = self.pipe_out().readline()
        if not line.endswith(b"\n"):
            raise Ended
        return tuple(line.decode("utf-8", "replace").rstrip("\n").split(","))

    def write(self, data: bytes) -> None:
        try:
            self.pipe_in().write(data)
            self.pipe_in().flush()
        except OSError:
            raise Ended from None

    def ask(self, calls: Sequence[Sequence[Row]]) -> Iterator[list[Row]]:
        """Sends calls, each with the rows that wait for it, and tells what each was told, in their order. All are to be taken,
        since what isn't read would be taken for the answer to the next call."""
        data = b"".join(lines_of(rows) + b"\n" for rows in calls)
        if len(data) <= PIPE:
            self.write(data)
        else:
            threading.Thread(target=self.write_apart, args=(data,), daemon=True).start()
        for _ in calls:
            told = []
            while (row := self.row()) != ("",):
                told.append(row)
            yield told

    def write_apart(self, data: bytes) -> None:
        with contextlib.suppress(Ended):  # the reader finds the end too
            self.write(data)

    def close(self) -> None:
        """Ends the turn: the input ends, and the program with it. What hangs is killed, which loses nothing told."""
        with contextlib.suppress(OSError):
            self.pipe_in().close()
        try:
            self.process.wait(END_SECONDS)
        except subprocess.TimeoutExpired:
            self.process.kill()
            self.process.wait()
        self.pipe_out().close()
