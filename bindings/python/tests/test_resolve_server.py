"""The example that resolves over HTTP, with many clients at once, and what strangers send."""

import http.client
import json
import os
import socket
import subprocess
import sys
import tempfile
import time
import unittest
from pathlib import Path

from support import TOP, Case
from test_resolver import CODE, MAP, write

import oxc_sourcemap

TRACE = b"Error: \xff\n    at f (http://h/app.js:1:14)\n    at g (http://h/no.js:1:1)\n"
RESOLVED = b"Error: \xff\n    at f (src/a.ts:2:3)\n    at g (http://h/no.js:1:1)\n"


class Server(Case):
    @classmethod
    def setUpClass(cls) -> None:
        room = tempfile.TemporaryDirectory()
        cls.addClassCleanup(room.cleanup)
        write(room.name, {"app.js": CODE, "app.js.map": MAP})
        # (a client has 3 seconds)
        example = TOP / "bindings/python/examples/resolve_server.py"
        code = f"import runpy, sys; sys.argv[1:] = sys.argv[2:]; it = runpy.run_path({str(example)!r}); it['Server'].__init__.__defaults__ = (3.0,); it['main']()"
        env = {**os.environ, "PYTHONPATH": str(Path(oxc_sourcemap.__file__).parents[1])}
        cls.server = subprocess.Popen([sys.executable, "-c", code, "-", room.name, "http://h/"], stdout=subprocess.PIPE, env=env)
        cls.addClassCleanup(cls.server.stdout.close)
        cls.addClassCleanup(cls.server.wait)
        cls.addClassCleanup(cls.server.kill)
        cls.port = int(cls.server.stdout.readline().split(b":")[2].strip(b"/\n"))

    def asked(self, method: str, path: str, body: bytes | None = None, headers: dict[str, str] = {}) -> tuple[int, bytes]:
        connection = http.client.HTTPConnection("127.0.0.1", self.port, timeout=60)
        try:
            connection.request(method, path, body, headers)
            answer = connection.getresponse()
            return answer.status, answer.read()
        finally:
            connection.close()

    def sent(self, data: bytes) -> bytes:
        """What comes back to these bytes, until the connection is closed."""
        with socket.create_connection(("127.0.0.1", self.port), timeout=60) as connection:
            connection.sendall(data)
            said = b""
            try:
                while more := connection.recv(65536):
                    said += more
            except ConnectionResetError:
                pass
            return said

    def test_what_is_answered(self):
        self.assertEqual(self.asked("POST", "/", TRACE), (200, RESOLVED))
        status, frames = self.asked("POST", "/frames", TRACE)
        found = {"url": "http://h/app.js", "line": 1, "column": 14, "source": "src/a.ts", "sourceLine": 1, "sourceColumn": 2, "name": "run"}
        lost = {"url": "http://h/no.js", "line": 1, "column": 1, "reason": "not there"}
        self.assertEqual((status, json.loads(frames)), (200, [found, lost]))
        status, stats = self.asked("GET", "/stats")
        family = r'# TYPE (resolver_[a-z_]+) (counter|gauge)\n(\2({reason="[a-z ]+"})? \d+\n)+'
        self.assertRegex(stats.decode(), rf"\A({family})+\Z")
        for it in (b"hits_total counter", b"not_resolved_total counter", b"held gauge"):
            self.assertEqual(stats.count(b"# TYPE resolver_%s\nresolver_%s" % (it, it.split()[0])), 1)
        self.assertRegex(stats, rb'\nresolver_not_resolved_total{reason="not there"} [1-9]')
        self.assertEqual([self.asked(*it)[0] for it in (("GET", "/"), ("GET", "/../stats"), ("POST", "/stats", b""))], [404, 404, 404])

    def test_many_clients_at_once(self):
        def client() -> None:
            for _ in range(3):
                self.assertEqual(self.asked("POST", "/", TRACE), (200, RESOLVED))

        self.together(*[client] * 100)

    def test_hostile_bodies(self):
        head = b"POST / HTTP/1.0\r\nContent-Length: "
        self.assertEqual(self.asked("POST", "/", b" " * (1 << 20))[0], 200)
        self.assertIn(b" 413 ", self.sent(head + b"1048577\r\n\r\n"))
        self.assertIn(b" 413 ", self.sent(head + b"9" * 5000 + b"\r\n\r\n"))
        for length in (b"-1", b"1e3", b"", "\u0661".encode()):
            self.assertIn(b" 411 ", self.sent(head + length + b"\r\n\r\n"), length)
        self.assertIn(b" 411 ", self.sent(b"POST / HTTP/1.1\r\nTransfer-Encoding: chunked\r\n\r\n0\r\n\r\n"))
        self.assertIn(b" 414 ", self.sent(b"POST /" + b"a" * 70_000))
        for body in (b"(" * 500_000 + b":1:1", b"f@http://h/app.js:1:1\n" * 40_000, b"    at " + b"x" * 900_000 + b":1:1", bytes(range(256)) * 4000):
            self.assertEqual(self.asked("POST", "/", body)[0], 200)
        self.test_what_is_answered()

    def test_slow_clients_are_hung_up_on(self):
        start = time.monotonic()

        def slow(data: bytes) -> None:
            self.assertNotIn(b" 200 ", self.sent(data))

        self.together(lambda: slow(b"POST / HTTP/1.0\r\nContent-"), lambda: slow(b"POST / HTTP/1.0\r\nContent-Length: 9\r\n\r\nabc"), lambda: slow(b""))
        self.assertLess(time.monotonic() - start, 30)
        self.assertEqual(self.asked("POST", "/", TRACE), (200, RESOLVED))


if __name__ == "__main__":
    unittest.main()
