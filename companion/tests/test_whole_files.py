"""What gasday-desk writes where no regular file is: an export to a device or a pipe, and a file of settings."""

import io
import os
import stat
import sys
import tarfile
import tempfile
import threading
import unittest
from pathlib import Path
from unittest import mock

from helpers import TOP

sys.path.insert(0, str(TOP / "companion"))

from gasday_desk import export  # noqa: E402 (the path comes first)
from gasday_desk.settings import write_whole  # noqa: E402

BOOK = "DEMO-20261209"


def filled(_program: object, _journal: object, _book: str, _source: Path, folder: Path, _zone: str) -> None:
    (folder / "told.csv").write_text("opened,DEMO,0,0,,,,\n")


class Desk(unittest.TestCase):
    def setUp(self) -> None:
        folder = tempfile.TemporaryDirectory()
        self.addCleanup(folder.cleanup)
        self.folder = Path(folder.name)
        (self.folder / "books").mkdir()
        (self.folder / "books" / f"{BOOK}.book").write_text("")

    def exported(self, output: Path) -> None:
        """An export of a day of which nothing but one file is made."""
        place = mock.Mock(book_file=lambda book: self.folder / "books" / f"{book}.book")
        with mock.patch.multiple(export, Folder=mock.Mock(return_value=place), settings_of=mock.Mock(), Journal=mock.Mock(),
                                 program_at=mock.Mock(), write_day=filled, close_files=mock.Mock()):
            export.export_day(self.folder, BOOK, None, output)

    def read_in_background(self, path: Path) -> tuple[threading.Thread, list[bytes]]:
        got: list[bytes] = []
        reader = threading.Thread(target=lambda: got.append(path.read_bytes()), daemon=True)
        reader.start()
        return reader, got

    def test_an_export_into_a_pipe_and_into_a_file(self) -> None:
        pipe, file = self.folder / "pipe", self.folder / "day.tar.gz"
        os.mkfifo(pipe)
        reader, got = self.read_in_background(pipe)
        self.exported(pipe)
        reader.join(60)
        self.exported(file)
        self.assertTrue(stat.S_ISFIFO(pipe.lstat().st_mode))
        for data in (got[0], file.read_bytes()):
            with tarfile.open(fileobj=io.BytesIO(data)) as archive:
                self.assertEqual(sorted(archive.getnames()), [BOOK, f"{BOOK}/SHA256SUMS", f"{BOOK}/told.csv"])

    def test_a_folder_is_refused(self) -> None:
        (self.folder / "folder").mkdir()
        with self.assertRaises(IsADirectoryError):
            self.exported(self.folder / "folder")
        self.assertEqual(list((self.folder / "folder").iterdir()), [])

    def test_settings(self) -> None:
        pipe, file = self.folder / "pipe", self.folder / "users.toml"
        os.mkfifo(pipe)
        reader, got = self.read_in_background(pipe)
        write_whole(pipe, b"users")
        reader.join(60)
        self.assertEqual((got, stat.S_ISFIFO(pipe.lstat().st_mode)), ([b"users"], True))
        write_whole(file, b"users", 0o600)
        self.assertEqual((file.read_bytes(), file.stat().st_mode & 0o777), (b"users", 0o600))


if __name__ == "__main__":
    unittest.main()
