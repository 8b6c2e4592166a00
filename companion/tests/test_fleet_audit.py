"""gasday-fleet audit, one archive after the other: verdicts, statuses, the table, and going on with one."""

import fcntl
import hashlib
import os
import signal
import subprocess
import unittest

from fleet_helpers import FleetTest, cells_of, rows_of, wait_until

COLUMNS = "file,postings,verdict,told,seconds,sha256,program_sha256,row_sha256\n"


class Verdicts(FleetTest):
    def test_all_sound(self) -> None:
        out, error, status = self.serial("audit", *self.archives("sound", "sound"))
        self.assertEqual(status, 0)
        self.assertEqual(error, "gasday-fleet: 2 archives: 2 sound\n")
        self.assertTrue(out.startswith(COLUMNS))
        first = rows_of(out)[0]
        self.assertEqual((first["file"], first["postings"], first["verdict"], first["told"]),
                         ("000.db", "5", "sound", "audited,5"))
        self.assertEqual(first["sha256"], hashlib.sha256(b"sound").hexdigest())
        self.assertRegex(first["seconds"], r"^\d+\.\d{3}$")

    def test_one_unsound(self) -> None:
        out, error, status = self.serial("audit", *self.archives("sound", "unsound", "sound"))
        self.assertEqual((cells_of(out, "verdict"), status), (["sound", "unsound", "sound"], 1))
        self.assertIn("gasday-fleet: 001.db: unsound: unsound,DEMO,3,Underfilled\n", error)
        self.assertIn("3 archives: 2 sound, 1 unsound\n", error)

    def test_more_than_one_unsound_posting(self) -> None:
        out, _, status = self.serial("audit", *self.archives("unsound twice"))
        self.assertEqual((cells_of(out, "told"), status), (["unsound,DEMO,3,Underfilled and 2 more"], 1))

    def test_what_cannot_be_run_stops_nothing(self) -> None:
        names = [*self.archives("broken", "unsound", "die", "odd", "hang 9", "sound"), "nothing.db"]
        out, error, status = self.serial("audit", *names, "--timeout", "1")
        self.assertEqual(cells_of(out, "verdict"), ["failed", "unsound", "failed", "failed", "failed", "sound", "failed"])
        self.assertEqual(status, 2)
        for words in ("000.db: failed: fault,0,Store", "002.db: failed: gasday audit was ended by signal 9",
                      "003.db: failed: gasday audit ended with status 3 and no answer that is known: something else",
                      "004.db: failed: gasday audit was not ready after 1 seconds",
                      "nothing.db: failed: it can't be read: No such file or directory"):
            self.assertIn(words + "\n", error)

    def test_only_the_first_are_named(self) -> None:
        error = self.serial("audit", *self.archives(*["unsound"] * 23))[1]
        self.assertEqual(error.count(": unsound: "), 20)
        self.assertIn("gasday-fleet: and 3 more, which the table tells\n", error)

    def test_files_that_are_sent(self) -> None:
        """What is audited has another name, beside its log, and is told of by its own."""
        name, = self.archives("sound")
        self.put("000.db-wal", "a log" * 20)
        out, _, status = self.serial("audit", name, "nothing.db", "--send")
        self.assertEqual(cells_of(out, "file"), [name, "nothing.db"])
        self.assertEqual((cells_of(out, "verdict"), status), (["sound", "failed"], 2))
        self.assertEqual(rows_of(out)[0]["sha256"], hashlib.sha256(b"sound").hexdigest())

    def test_names_of_all_kinds(self) -> None:
        names = ["./-a.db", 'with "quotes", and a comma.db', "two\nlines.db", os.fsdecode(b"not-utf8-\xff.db")]
        for name in names:
            self.put(name, "sound")
        out, _, status = self.serial("audit", *names)
        self.assertEqual((cells_of(out, "file"), status), (names, 0))

    def test_a_file_named_twice_is_audited_once(self) -> None:
        name, = self.archives("sound")
        self.assertEqual(cells_of(self.serial("audit", name, name)[0], "file"), [name])


class Usage(FleetTest):
    def test_no_program(self) -> None:
        self.program.unlink()
        out, error, status = self.serial("audit", *self.archives("sound"))
        self.assertEqual((out, status), ("", 2))
        self.assertIn("there is no program", error)

    def test_what_is_no_gasday(self) -> None:
        self.program.write_text("#!/bin/sh\necho something\n")
        self.assertIn("is no gasday: it tells of no version", self.serial("audit", *self.archives("sound"))[1])

    def test_a_program_that_changes(self) -> None:
        """The second archive is audited after the program was replaced."""
        names = self.archives("sound", "sound")
        text = self.program.read_text()
        self.program.write_text(text.replace('note("audit"', 'open(__file__, "a").write("#")\n    note("audit"'))
        out, error, status = self.serial("audit", *names)
        self.assertEqual((cells_of(out, "verdict"), status), (["sound", "failed"], 2))
        self.assertIn("is another program than the one that the run began with", error)

    def test_help_says_what_is_proved(self) -> None:
        out, _, status = self.fleet("--help")
        self.assertEqual(status, 0)
        self.assertIn("Nothing of this is proved.", out)
        self.assertIn("has passed `gasday audit`", out)
        for command in ("audit", "days", "study"):
            out, _, status = self.fleet(command, "--help")
            self.assertEqual(status, 0)
            self.assertIn("Nothing of this is proved; each answer that it counts has passed what is", out)

    def test_faults_of_usage(self) -> None:
        for words in (("audit",), ("audit", "x", "--serial", "--workers", "2"), ("audit", "x", "--resume"),
                      ("audit", "x", "--workers", "0"), ("nonsense",), ()):
            out, error, status = self.fleet(*words)
            self.assertEqual((out, status), ("", 2), words)
            self.assertIn("usage: gasday-fleet", error)


class Tables(FleetTest):
    def test_the_output_is_not_written_over(self) -> None:
        self.put("table.csv", "something")
        _, error, status = self.serial("audit", *self.archives("sound"), "--output", "table.csv")
        self.assertEqual(status, 2)
        self.assertIn("table.csv is there already; --resume goes on with it", error)
        self.assertEqual(self.read("table.csv"), b"something")

    def test_an_output_that_cannot_be_written(self) -> None:
        _, error, status = self.serial("audit", *self.archives("sound"), "--output", "nowhere/table.csv")
        self.assertEqual(error, "gasday-fleet: nowhere/table.csv can't be read or written: No such file or directory\n")
        self.assertEqual(status, 2)

    def test_only_what_is_not_there_is_run(self) -> None:
        names = self.archives("sound 0", "sound 1", "broken 2", "unsound 3")
        whole = self.serial("audit", *names, "--output", "table.csv", "--untimed")
        self.put("002.db", "sound 2")
        before = len(self.log())
        again = self.serial("audit", *names, "--output", "table.csv", "--untimed", "--resume")
        self.assertEqual((whole[2], again[2]), (2, 1))
        self.assertEqual(self.log()[before:], ["audit sound 2"])
        self.assertEqual(self.read("table.csv").decode(), self.serial("audit", *names, "--untimed")[0])

    def test_what_has_changed_is_run_again(self) -> None:
        names = self.archives("sound 0", "sound 1", "sound 2")
        self.serial("audit", *names, "--output", "table.csv")
        self.put("001.db", "unsound 1")
        self.put("000.db-wal", "x" * 41)  # as gasday leaves it
        self.put("002.db-wal", "what is not in the file yet" * 5)
        before = len(self.log())
        self.assertEqual(self.serial("audit", *names, "--output", "table.csv", "--resume")[2], 1)
        self.assertEqual(self.log()[before:], ["audit unsound 1", "audit sound 2"])

    def test_a_run_that_broke_off(self) -> None:
        """Rows in another order, a row of an archive that isn't asked for, and a last row that isn't whole."""
        names = self.archives("sound 0", "sound 1", "sound 2")
        whole = self.serial("audit", *names, "--untimed")[0]
        head, first, second, third = whole.splitlines(keepends=True)
        other = first.replace("000.db", "other.db")
        for torn in (third[:-1], third[:20], '"a name that goes\non'):
            self.put("table.csv", head + second + other + first + torn)
            before = len(self.log())
            self.assertEqual(self.serial("audit", *names, "--output", "table.csv", "--untimed", "--resume")[2], 0)
            self.assertEqual(self.log()[before:], ["audit sound 2"])
            self.assertEqual(self.read("table.csv").decode(), whole)

    def test_a_table_of_something_else(self) -> None:
        self.put("table.csv", "scenario,verdict\n")
        _, error, status = self.serial("audit", *self.archives("sound"), "--output", "table.csv", "--resume")
        self.assertEqual(status, 2)
        self.assertIn("table.csv is no table of such a run", error)
        self.assertEqual(self.read("table.csv"), b"scenario,verdict\n")

    def test_a_table_that_another_run_writes(self) -> None:
        self.put("table.csv", COLUMNS)
        with open(self.folder / "table.csv", "rb") as file:
            fcntl.flock(file, fcntl.LOCK_EX)
            _, error, status = self.serial("audit", *self.archives("sound"), "--output", "table.csv", "--resume")
        self.assertEqual((error, status), ("gasday-fleet: table.csv is being written by another run\n", 2))

    def test_it_is_stopped_and_goes_on(self) -> None:
        contents = ["sound 0", "sound 1", *[f"slow 0.1{at:02}" for at in range(10)]]
        names = self.archives(*contents)
        for number in (signal.SIGINT, signal.SIGTERM):
            words = ("audit", *names, "--serial", "--output", f"{number}.csv", "--untimed")
            child = subprocess.Popen(self.words(*words), cwd=self.folder, stderr=subprocess.PIPE)
            path = self.folder / f"{number}.csv"
            wait_until(lambda path=path: path.exists() and path.read_bytes().count(b"\n") > 3)  # type: ignore[misc]
            child.send_signal(number)
            error = child.communicate(timeout=60)[1].decode()
            self.assertEqual(child.returncode, 2)
            self.assertRegex(error, r"^gasday-fleet: 12 archives: \d+ sound, \d+ not run\n"
                                    r"gasday-fleet: stopped; --resume goes on with what stands in the table\n$")
            done = rows_of(path.read_bytes())
            self.assertEqual([row["file"] for row in done], names[:len(done)])
            before = len(self.log())
            self.assertEqual(self.fleet(*words, "--resume")[2], 0)
            self.assertEqual(set(self.log()[before:]), {f"audit {content}" for content in contents[len(done):]})


if __name__ == "__main__":
    unittest.main()
