"""gasday-fleet days: gas days that are run once more, and compared with what was told and kept."""

import sqlite3
import unittest

from fleet_helpers import FleetTest, cells_of, rows_of

TEXT = "segment,S1,A,B,100,,,\nday,2026-01-15,CST6,N-0115,,,,\n" + "settle,1,,,,,,\n" * 3
TOLD = "".join(f"published,{at},{at},{at},,,,\n" for at in (1, 2, 3))


class Days(FleetTest):
    def folder_of(self, name: str, **days: tuple[str, str]) -> str:
        """A folder with gas days, each a text and what was told."""
        for day, (text, told) in days.items():
            self.put(f"{name}/texts/{day}.csv", text)
            self.put(f"{name}/told/{day}.csv", told)
        return name

    def archive(self, folder: str, *rows: tuple[object, ...]) -> None:
        archive = sqlite3.connect(self.folder / folder / "archive.db")
        archive.execute("create table posting2 (book, cycle, round, body, rule)")
        archive.executemany("insert into posting2 values (?, ?, ?, ?, 2)", rows)
        archive.commit()
        archive.close()

    def test_days_of_folders(self) -> None:
        same = self.folder_of("NORTH", a=(TEXT, TOLD), b=(TEXT, TOLD + "refused,keep,1,Kept,,,,\n"))
        other = self.folder_of("SOUTH", a=(TEXT, TOLD.replace("published,2", "published,4")), b=(TEXT, TOLD[:40]))
        out, error, status = self.serial("days", same, other)
        self.assertEqual((cells_of(out, "verdict"), status), (["same", "same", "differs", "differs"], 1))
        self.assertEqual(cells_of(out, "folder"), ["NORTH", "NORTH", "SOUTH", "SOUTH"])
        self.assertEqual(cells_of(out, "day"), ["a", "b"] * 2)
        self.assertEqual(set(cells_of(out, "postings") + cells_of(out, "kept_sha256")), {""})
        self.assertIn("SOUTH/a: differs: row 2 that was told is published,4,2,2, and gasday day tells published,2,2,2\n", error)
        self.assertIn("SOUTH/b: differs: row 3 that was told is nothing, and gasday day tells published,3,3,3\n", error)
        self.assertIn("4 gas days: 2 same, 2 differs\n", error)

    def test_what_cannot_be_run(self) -> None:
        folder = self.folder_of("NORTH", a=(TEXT, TOLD), b=("nonsense\n", ""))
        self.put("NORTH/texts/c.csv", TEXT)
        self.put("NORTH/told/d.csv", TOLD)
        out, error, status = self.serial("days", folder, "nowhere")
        self.assertEqual((cells_of(out, "verdict"), status), (["same", "failed", "failed", "failed", "failed"], 2))
        for words in ("NORTH/b: failed: fault,1,UnknownKind,1", "NORTH/d: failed: texts/d.csv can't be read",
                      "NORTH/c: failed: told/c.csv can't be read: No such file or directory",
                      "nowhere/*: failed: texts/*.csv can't be read"):
            self.assertIn(words, error)

    def test_postings(self) -> None:
        day = {"a": (TEXT, TOLD)}
        kept = [("N-0115", at, at, b"head\nbody %d" % at) for at in (1, 2, 3)]
        for name, rows in (("same", kept), ("fewer", kept[1:]), ("more", [*kept, ("N-0115", 4, 4, b"")]),
                           ("other", [*kept[:2], ("N-0115", 3, 3, b"head\nbody 4")]),
                           ("late", [*kept[:2], ("N-0115", 3, 4, b"")]),
                           ("all", [("N-0115", 1, 1, b"head"), kept[2], ("N-0115", 4, 4, b"")]), ("told", kept[:2])):
            self.archive(self.folder_of(name, **day), *rows)
        self.folder_of("none", **day)
        self.put("told/told/a.csv", TOLD[:20])
        out, error, status = self.serial("days", "same", "fewer", "more", "other", "late", "all", "told", "none", "--archive")
        self.assertEqual((cells_of(out, "verdict"), status), (["same", *["differs"] * 6, "failed"], 2))
        self.assertEqual(cells_of(out, "postings"), ["3", "2", "4", "3", "3", "3", "2", ""])
        other = "differs: the posting of cycle {} that is kept is not the one that is published: {}"
        for words in ("fewer/a: differs: cycle 1 is published, and not kept",
                      "more/a: differs: cycle 4 is kept, and not published",
                      "other/a: " + other.format(3, "row 2 of its body is body 4, and not body 3"),
                      "late/a: " + other.format(3, "its round is 4, and not 3"),
                      "all/a: " + other.format(1, "row 2 of its body is nothing, and not body 1; cycle 2 is published, and not "
                                                  "kept; cycle 4 is kept, and not published"),
                      "told/a: differs: row 2 that was told is nothing, and gasday day tells published,2,2,2; cycle 3 is "
                      "published, and not kept",
                      "none/a: failed: archive.db can't be read: unable to open database file"):
            self.assertIn(words + "\n", error)

    def test_a_book_without_a_text(self) -> None:
        folder = self.folder_of("NORTH", a=(TEXT, TOLD))
        kept = [("N-0115", at, at, b"head\nbody %d" % at) for at in (1, 2, 3)]
        self.archive(folder, *kept, ("N-0116", 1, 1, b"x"), ("N-0116", 2, 2, b"y"))
        words = ("days", folder, "--archive", "--output", "table.csv")
        error, status = self.serial(*words)[1:]
        self.assertIn("NORTH/book N-0116: differs: it is kept, and no text that can be read is of this book\n", error)
        rows = rows_of(self.read("table.csv"))
        self.assertEqual([(row["day"], row["verdict"], row["postings"]) for row in rows],
                         [("a", "same", "3"), ("book N-0116", "differs", "2")])
        self.assertEqual(status, 1)
        self.assertEqual((self.serial(*words, "--resume")[2], rows_of(self.read("table.csv"))), (1, rows))
        self.put("NORTH/texts/b.csv", TEXT.replace("N-0115", "N-0116"))
        self.put("NORTH/told/b.csv", TOLD)
        self.assertEqual(self.serial(*words, "--resume")[2], 1)
        self.assertEqual(cells_of(self.read("table.csv"), "day"), ["a", "b"])

    def test_texts_and_an_archive_alone(self) -> None:
        self.put("NORTH/texts/a.csv", TEXT)
        self.archive("NORTH", *[("N-0115", at, at, b"head\nbody %d" % at) for at in (1, 2)])
        out, error, status = self.serial("days", "NORTH", "--archive")
        self.assertEqual((cells_of(out, "verdict"), cells_of(out, "told_sha256"), status), (["differs"], [""], 1))
        self.assertIn("gasday-fleet: NORTH has no folder told, so that its postings alone are compared\n", error)
        self.assertIn("NORTH/a: differs: cycle 3 is published, and not kept\n", error)
        self.assertEqual(cells_of(self.serial("days", "NORTH")[0], "verdict"), ["failed"])

    def test_nothing_is_written_beside_an_archive(self) -> None:
        """One in SQLite's other journal mode, which asks for a file beside it, with and without changes in its log."""
        folder = self.folder_of("NORTH", a=(TEXT, TOLD))
        self.archive(folder, *[("N-0115", at, at, b"head\nbody %d" % at) for at in (1, 2)])
        archive = sqlite3.connect(self.folder / folder / "archive.db")
        archive.execute("pragma journal_mode = wal")
        archive.close()
        before = self.files(folder)
        self.assertIn("cycle 3 is published, and not kept\n", self.serial("days", folder, "--archive")[1])
        self.assertEqual(self.files(folder), before)
        archive = sqlite3.connect(self.folder / folder / "archive.db")
        archive.execute("insert into posting2 values ('N-0115', 3, 3, ?, 2)", (b"head\nbody 3",))
        archive.commit()
        before = self.files(folder)
        self.assertIn("archive.db-wal", before)
        self.assertEqual(self.serial("days", folder, "--archive")[2], 0)
        self.assertEqual(self.files(folder), before)
        archive.close()

    def files(self, folder: str) -> dict[str, bytes]:
        """What stands in the files of a folder, but for those by which SQLite's processes share one."""
        found = (path for path in (self.folder / folder).iterdir() if path.is_file())
        return {path.name: b"" if path.name.endswith("-shm") else path.read_bytes() for path in found}

    def test_days_that_are_sent(self) -> None:
        self.archive(self.folder_of("NORTH", a=(TEXT, TOLD)), *[("N-0115", at, at, b"head\nbody %d" % at) for at in (1, 2, 3)])
        words = ("days", "NORTH", "nowhere", "--archive", "--untimed")
        seen, sent = self.serial(*words), self.serial(*words, "--send")
        self.assertEqual(sent, seen)
        self.assertEqual(cells_of(sent[0], "verdict"), ["same", "failed"])

    def test_going_on(self) -> None:
        folder = self.folder_of("NORTH", a=(TEXT, TOLD), b=(TEXT, TOLD), c=(TEXT, TOLD))
        self.archive(folder, *[("N-0115", at, at, b"head\nbody %d" % at) for at in (1, 2, 3)])
        words = ("days", folder, "--archive", "--output", "table.csv")
        self.assertEqual(self.serial(*words)[2], 0)
        before = {row["day"]: row["seconds"] for row in rows_of(self.read("table.csv"))}
        self.put("NORTH/told/b.csv", TOLD[:20])
        self.assertEqual(self.serial(*words, "--resume")[2], 1)
        rows = {row["day"]: row for row in rows_of(self.read("table.csv"))}
        self.assertEqual([rows[day]["verdict"] for day in "abc"], ["same", "differs", "same"])
        self.assertEqual((rows["a"]["seconds"], rows["c"]["seconds"]), (before["a"], before["c"]))


if __name__ == "__main__":
    unittest.main()
