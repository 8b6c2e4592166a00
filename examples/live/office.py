#!/usr/bin/env python3
"""office.py PROGRAM BOOK: a front end of a live gas day. It makes a few calls on the book that the file BOOK keeps, and prints what each is told.

    gasday day --book 0308.book < opening.csv
    python3 office.py gasday 0308.book
"""

import subprocess
import sys


class Book:
    """The book that a file keeps. Each call is told once it is kept; after a break open it again, and go on behind `calls`."""

    def __init__(self, program, file):
        self.run = subprocess.Popen([program, "day", "--book", file], stdin=subprocess.PIPE, stdout=subprocess.PIPE)
        opened = self.row()
        if opened[0] != "opened":
            raise RuntimeError(opened)
        self.calls = int(opened[2])

    def row(self):
        line = self.run.stdout.readline()
        if not line.endswith(b"\n"):
            raise RuntimeError("the office ended: open again, and go on behind its calls")
        return line.decode().rstrip("\n").split(",")

    def call(self, *rows):
        """What the rows of a group and the call behind them are told. An empty line is told back, and shows the end of it."""
        for row in rows:
            self.run.stdin.write((",".join(map(str, (*row, *[""] * (8 - len(row))))) + "\n").encode())
        self.run.stdin.write(b"\n")
        self.run.stdin.flush()
        told = []
        while (row := self.row()) != [""]:
            told.append(row)
        return told


if __name__ == "__main__":
    book = Book(*sys.argv[1:])
    print("calls so far:", book.calls)
    for call in (
        ("nominate", 1772910900, "SHIP", "INT", "P", "R1", "D1", 70),
        ("respond", 1772910902, "OPR", 1, "origin", 70),
        ("respond", 1772910903, "OPD", 1, "dest", 70),
        ("freeze", 1772922600),
        ("settle", 1772922600),
    ):
        for row in book.call(call):
            print(",".join(row))
