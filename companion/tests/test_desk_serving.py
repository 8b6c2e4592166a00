"""The desk as a server: ended in order, killed, and asked for too much."""

import contextlib
import http.client
import json
import signal
import socket
import subprocess
import threading
import time
import unittest
from pathlib import Path

from desk_helpers import COMPANION, NO_SERVER, DeskTest, serving_python
from desk_live import LiveDesk


@unittest.skipUnless(serving_python(), NO_SERVER)
class Serving(DeskTest):
    def setUp(self) -> None:
        super().setUp()
        self.desk = LiveDesk(self.folder / "desk", self.program, 4, "2026-03-08")
        self.desk.make_book()
        self.desk.start()
        self.addCleanup(self.stop)

    def stop(self) -> None:
        self.desk.hang_up()
        process = self.desk.process
        if process and process.poll() is None:
            self.desk.end(signal.SIGKILL)

    def test_it_ends_after_the_call_at_hand(self) -> None:
        """Whatever was answered by then is kept."""
        told: list[int] = []

        def call() -> None:
            with contextlib.suppress(OSError, http.client.HTTPException):
                for at in range(10_000):
                    told.append(self.desk.nominate(0, f"P{at}", f"order-{at:04}")[0])

        caller = threading.Thread(target=call)
        caller.start()
        while len(told) < 20:
            time.sleep(0.01)
        self.assertEqual(self.desk.end(), 0)
        caller.join()
        answered = told.count(200)
        self.assertGreaterEqual(answered, 20)
        self.assertIn(len(self.desk.kept()[0]), (answered, answered + 1))

    def test_a_server_that_is_killed(self) -> None:
        """A call whose answer never came is told by the next server, once."""
        self.desk.nominate(0, "P0", "order-0000")
        self.desk.end(signal.SIGKILL)
        self.desk.start()
        self.assertEqual(self.desk.nominate(0, "P0", "order-0000")[1]["call"], 1)
        self.assertEqual(self.desk.nominate(0, "P1", "order-0001")[1]["call"], 2)
        self.assertEqual(self.desk.end(), 0)
        self.assertEqual(len(self.desk.kept()[0]), 2)

    def test_one_server_has_a_folder(self) -> None:
        command: list[str | Path] = [serving_python() or "", COMPANION / "gasday-desk", "run", self.desk.folder]
        done = subprocess.run([*command, "--gasday", self.program], capture_output=True, timeout=60)
        self.assertEqual(done.returncode, 2)
        self.assertIn(b"another gasday-desk runs", done.stderr)

    def test_large_bodies(self) -> None:
        """They are refused by their length, before they come; in parts they are cut off."""
        for headers in ({"Content-Length": "100000000"}, {"Transfer-Encoding": "chunked"}):
            connection = http.client.HTTPConnection("127.0.0.1", self.desk.port, timeout=30)
            connection.putrequest("POST", f"/days/{self.desk.book}/upload")
            for name, value in headers.items():
                connection.putheader(name, value)
            connection.endheaders()
            try:
                for _ in range(100):
                    part = b"x" * 1_000_000
                    connection.send(b"f4240\r\n" + part + b"\r\n" if "Transfer-Encoding" in headers else part)
            except OSError:
                pass  # it has hung up
            else:
                self.assertEqual(connection.getresponse().status, 413)
            connection.close()
        self.assertEqual(self.desk.nominate(0, "P", "order-0001")[0], 200)

    def test_slow_connections(self) -> None:
        """Two hundred that send a byte each hold nobody up."""
        slow = []
        for _ in range(200):
            one = socket.create_connection(("127.0.0.1", self.desk.port), 10)
            one.send(b"G")
            slow.append(one)
        began = time.monotonic()
        self.assertEqual(self.desk.nominate(0, "P", "order-0001")[0], 200)
        self.assertLess(time.monotonic() - began, 5)
        for one in slow:
            one.close()

    def test_one_user_that_takes_all_it_can(self) -> None:
        """Forty files that take long, and a hundred streams: calls of the scheduler and of others are answered meanwhile."""
        over, files = threading.Event(), b"a," * 950_000

        def upload(at: int) -> None:
            body = (f'--x\r\nContent-Disposition: form-data; name="form"\r\n\r\nform-{at:06}\r\n--x\r\nContent-Disposition: '
                    'form-data; name="file"; filename="x.csv"\r\n\r\n').encode() + files + b"\r\n--x--\r\n"
            while not over.is_set():
                with contextlib.suppress(OSError, http.client.HTTPException):
                    self.desk.ask("user0", "POST", f"/days/{self.desk.book}/upload", body,
                                  Content_Type="multipart/form-data; boundary=x")

        streams = []
        for _ in range(100):
            one = http.client.HTTPConnection("127.0.0.1", self.desk.port, timeout=30)
            one.request("GET", f"/days/{self.desk.book}/events", headers={"Authorization": f"Bearer {self.desk.tokens['user0']}"})
            streams.append(one)
        threads = [threading.Thread(target=upload, args=(at,), daemon=True) for at in range(40)]
        for thread in threads:
            thread.start()
        time.sleep(2)
        try:
            began = time.monotonic()
            self.assertEqual(self.desk.call("sam", "post-0001", kind="post", element="S1", capacity=7)[0], 200)
            self.assertEqual(self.desk.nominate(1, "P", "order-0001")[0], 200)
            self.assertLess(time.monotonic() - began, 10)
        finally:
            over.set()
            for one in streams:
                one.close()

    def test_events(self) -> None:
        """A page is told of a call at once."""
        connection = http.client.HTTPConnection("127.0.0.1", self.desk.port, timeout=30)
        token = self.desk.tokens["sam"]
        connection.request("GET", f"/days/{self.desk.book}/events", headers={"Authorization": f"Bearer {token}"})
        answer = connection.getresponse()
        self.assertEqual(answer.headers["Content-Type"].split(";")[0], "text/event-stream")
        self.assertIn(b"retry", answer.readline())
        while not answer.readline().startswith(b"data: "):
            pass
        self.assertEqual(self.desk.nominate(0, "P", "order-0001")[0], 200)
        while not (line := answer.readline()).startswith(b"data: "):
            pass
        self.assertGreater(json.loads(line[6:]), 0)
        connection.close()


if __name__ == "__main__":
    unittest.main()
