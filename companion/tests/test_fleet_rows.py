"""What each row of a table says of its program, and what --resume does with it; cuts beside losses; and paths that are no files.
What is wanted is worked out by hand from docs/FLEET.md."""

import csv
import hashlib
import io
import json
import os
import stat
import sys
import threading
import unittest
from pathlib import Path

from fleet_helpers import QUESTION, FleetTest, cells_of, rows_of
from helpers import TOP

sys.path.insert(0, str(TOP / "companion"))

from gasday_fleet.progress import Progress  # noqa: E402 (the path comes first)
from gasday_import.writing import whole  # noqa: E402

SCENARIOS = "scenario,element,capacity,line,floor,ceiling\nless,S1,70,,,\nnone,S1,0,,,\nwarm,,,1,,30\n"


def null_in(folder: Path) -> Path | None:
    """A device of one's own that is like /dev/null; none where nobody may make one."""
    path = folder / "null"
    try:
        os.mknod(path, 0o666 | stat.S_IFCHR, os.makedev(1, 3))
        path.write_bytes(b"x")
    except OSError:
        return None
    return path


class Rows(FleetTest):
    def test_each_row_has_its_program_and_its_sum(self) -> None:
        out = self.serial("audit", *self.archives("sound", "unsound"))[0]
        self.assertEqual(set(cells_of(out, "program_sha256")), {hashlib.sha256(self.program.read_bytes()).hexdigest()})
        for row in list(csv.reader(io.StringIO(out)))[1:]:
            data = "".join(f"{len(cell)}:{cell}," for cell in row[:-1])
            self.assertEqual(row[-1], hashlib.sha256(data.encode()).hexdigest())

    def test_what_another_program_made_is_made_again(self) -> None:
        words = ("audit", *self.archives("sound", "sound 2"), "--output", "table.csv")
        self.serial(*words)
        self.assertEqual(len(self.log()), 2)
        self.serial(*words, "--resume")
        self.assertEqual(len(self.log()), 2)
        self.program = self.fake("other", "2.0 of a test")
        self.assertEqual(self.serial(*words, "--resume")[2], 0)
        self.assertEqual(len(self.log("other")), 2)
        programs = set(cells_of(self.read("table.csv"), "program_sha256"))
        self.assertEqual(programs, {hashlib.sha256(self.program.read_bytes()).hexdigest()})

    def test_what_was_edited_is_made_again(self) -> None:
        words = ("audit", *self.archives("sound", "unsound"), "--output", "table.csv", "--untimed")
        self.serial(*words)
        before = self.read("table.csv")
        self.put("table.csv", before.replace(b",unsound,", b",sound,"))
        self.assertEqual(self.serial(*words, "--resume")[2], 1)
        self.assertEqual((self.read("table.csv"), self.log()[2:]), (before, ["audit unsound"]))


class Cuts(FleetTest):
    def test_a_lower_ceiling_is_a_loss_and_no_cut(self) -> None:
        """Line 1 asks for 80 and line 2 for 50. At 70 line 1 gets all; a ceiling of 30 of line 1 leaves 50 for line 2."""
        names = self.put("base.csv", QUESTION), self.put("scenarios.csv", SCENARIOS)
        out = self.serial("study", *names, "--json", "study.json", "--html", "study.html")[0]
        less, none, warm = rows_of(out)
        told = ("loss_1", "loss_4", "cut_1", "cut_2", "cut_4", "cut_5")
        self.assertEqual([less[name] for name in told], ["10", "20", "10", "0", "50", ""])
        self.assertEqual([warm[name] for name in told], ["50", "-30", "0", "0", "0", ""])
        self.assertEqual([none[name] for name in told], [""] * 6)
        study = json.loads(self.read("study.json"))
        classes = [(one["class"], one["cuts"]["100"], one["impossible"]) for one in study["classes"]]
        self.assertEqual(classes, [(1, 10, 1), (4, 50, 1)])
        self.assertEqual([one["class_cuts"] for one in study["scenarios"]], [[10, 0, 0, 50], [], [0, 0, 0, 0]])
        program = hashlib.sha256(self.program.read_bytes()).hexdigest()
        self.assertEqual(study["programs"], [{"sha256": program, "scenarios": 3}])
        page = self.read("study.html").decode()
        self.assertIn("<th>impossible scenarios</th>", page)
        self.assertIn(f"3 scenarios by gasday 1.0 of a test, SHA-256 <code>{program}</code>", page)


class NoFiles(FleetTest):
    def study(self, *words: str) -> tuple[str, str, int]:
        names = self.put("base.csv", QUESTION), self.put("scenarios.csv", "scenario,element,capacity\na,S1,70\n")
        return self.serial("study", *names, "--output", "table.csv", *words)

    def test_a_device_stays_one(self) -> None:
        null = null_in(self.folder)
        if null is None:
            self.skipTest("nobody may make a device here")
        self.assertEqual(self.study("--json", "null", "--html", "null")[2], 0)
        self.assertTrue(stat.S_ISCHR(null.lstat().st_mode))
        error = self.serial("audit", *self.archives("sound"), "--output", "null", "--resume")
        self.assertEqual((error[2], stat.S_ISCHR(null.lstat().st_mode)), (2, True))
        self.assertIn("null is no regular file, and a table is kept in one", error[1])

    def test_a_pipe_gets_what_a_file_gets(self) -> None:
        os.mkfifo(self.folder / "pipe")
        got: list[bytes] = []
        reader = threading.Thread(target=lambda: got.append((self.folder / "pipe").read_bytes()), daemon=True)
        reader.start()
        self.assertEqual(self.study("--json", "pipe")[2], 0)
        reader.join(60)
        self.assertEqual(json.loads(got[0])["study"], "gasday-fleet")
        self.assertTrue(stat.S_ISFIFO((self.folder / "pipe").lstat().st_mode))

    def test_a_folder_is_refused_and_a_link_stays(self) -> None:
        (self.folder / "folder").mkdir()
        out, error, status = self.study("--json", "folder")
        self.assertEqual((status, list((self.folder / "folder").iterdir())), (2, []))
        self.assertIn("folder can't be read or written: Is a directory", error)
        self.put("study.json", "before")
        (self.folder / "link.json").symlink_to("study.json")
        self.assertEqual(self.study("--json", "link.json", "--resume")[2], 0)
        self.assertTrue((self.folder / "link.json").is_symlink())
        self.assertEqual(json.loads(self.read("study.json"))["study"], "gasday-fleet")

    def test_a_file_is_complete_or_as_it_was(self) -> None:
        path = self.folder / "file"
        path.write_bytes(b"before")
        path.chmod(0o640)
        with self.assertRaises(OSError), whole(path) as file:
            file.write(b"half")
            raise OSError("full")
        self.assertEqual((path.read_bytes(), sorted(at.name for at in self.folder.iterdir())), (b"before", ["bin", "file"]))
        with whole(path) as file:
            file.write(b"new")
        self.assertEqual((path.read_bytes(), path.stat().st_mode & 0o777), (b"new", 0o640))


class NoTerminal(unittest.TestCase):
    def test_a_line_each_minute(self) -> None:
        out, now = io.StringIO(), [0.0]
        progress = Progress(10, 0, lambda: now[0], out)
        for second in (0, 30, 59, 61, 90, 119, 122):
            now[0] = second
            progress.count(False)
        progress.end()
        self.assertEqual(out.getvalue(), "gasday-fleet: 4 of 10, 0 failed, 0.1 a second, 92 s left\n"
                                         "gasday-fleet: 7 of 10, 0 failed, 0.1 a second, 52 s left\n")


if __name__ == "__main__":
    unittest.main()
