"""Resolves stack traces over HTTP.

    resolve_server.py FOLDER BASE [PORT]

FOLDER has codes and maps, which traces name below the URL BASE. `POST /` of a trace answers with the trace resolved, as `POST /frames`
with its frames as JSON, and `GET /stats` with counts, as Prometheus scrapes them. It listens on 127.0.0.1, and prints the URL.

A client has SECONDS for all of its request, and as many to read the answer. A trace without a length is answered by 411, one that is too
long by 413, and a client above CLIENTS at once by 503.
"""

from __future__ import annotations

import json
import socket
import sys
from contextlib import suppress
from http.server import BaseHTTPRequestHandler, ThreadingHTTPServer
from pathlib import Path
from threading import BoundedSemaphore, Timer
from typing import Any

sys.path.append(str(Path(__file__).resolve().parents[1] / "src"))

from oxc_sourcemap.resolver import BESIDE, Limits, Resolved, Resolver, TooLargeError

SECONDS = 10.0
CLIENTS = 200
BUSY = b"HTTP/1.0 503 Service Unavailable\r\nContent-Length: 0\r\nConnection: close\r\n\r\n"


def frame_json(found: Resolved) -> dict[str, object]:
    """A frame as JSON. Its own line and column count from 1, the others from 0."""
    said = {"url": found.frame.url, "line": found.frame.line, "column": found.frame.column}
    if found.reason is not None:
        return said | {"reason": found.reason.value}
    return said | {"source": found.source, "sourceLine": found.line, "sourceColumn": found.column, "name": found.name}


def metrics(counts: dict[str, int]) -> str:
    """Counts as Prometheus scrapes them. Those of what is held may sink, all others only grow; reasons are labels."""
    said: dict[str, None] = {}
    for name, count in counts.items():
        family, _, reason = name.partition("not_resolved_")
        family = "not_resolved" if reason else family
        family, kind = (family, "gauge") if name.endswith("held") else (f"{family}_total", "counter")
        label = '{reason="%s"}' % reason.replace("_", " ") if reason else ""
        said |= {f"# TYPE resolver_{family} {kind}\n": None, f"resolver_{family}{label} {count}\n": None}
    return "".join(said)


class Handler(BaseHTTPRequestHandler):
    server: Server

    def setup(self) -> None:
        super().setup()
        self.watch = self.watched()

    def watched(self) -> Timer:
        """What hangs up on a client that takes too long."""
        timer = Timer(self.server.seconds, self.hang_up)
        timer.daemon = True
        timer.start()
        return timer

    def hang_up(self) -> None:
        with suppress(OSError):
            self.connection.shutdown(socket.SHUT_RDWR)

    def finish(self) -> None:
        self.watch.cancel()
        with suppress(OSError):
            super().finish()

    def say(self, status: int, body: bytes = b"", kind: str = "text/plain; charset=utf-8") -> None:
        self.watch.cancel()
        self.watch = self.watched()
        self.send_response(status)
        self.send_header("Content-Type", kind)
        self.send_header("Content-Length", str(len(body)))
        self.send_header("X-Content-Type-Options", "nosniff")
        self.end_headers()
        self.wfile.write(body)

    def do_GET(self) -> None:
        if self.path != "/stats":
            return self.say(404)
        self.say(200, metrics(self.server.resolver.stats()).encode())

    def do_POST(self) -> None:
        length = self.headers.get("Content-Length", "")
        if self.path not in ("/", "/frames"):
            return self.say(404)
        if not (length.isascii() and length.isdigit()):
            return self.say(411)
        if len(length) > 9 or int(length) > self.server.resolver.limits.trace_bytes:
            return self.say(413)
        trace = self.rfile.read(int(length))
        if len(trace) < int(length):
            return self.say(400)
        self.watch.cancel()
        try:
            if self.path == "/":
                return self.say(200, self.server.resolver.resolve_text(trace))
            frames = [frame_json(it) for it in self.server.resolver.resolve(trace)]
            self.say(200, json.dumps(frames).encode(), "application/json")
        except TooLargeError as error:
            self.say(413, str(error).encode())

    def log_message(self, format: str, *words: object) -> None:
        pass


class Server(ThreadingHTTPServer):
    daemon_threads = True
    request_queue_size = CLIENTS

    def __init__(self, port: int, resolver: Resolver, seconds: float = SECONDS) -> None:
        self.resolver, self.seconds, self.free = resolver, seconds, BoundedSemaphore(CLIENTS)
        super().__init__(("127.0.0.1", port), Handler)

    def process_request(self, request: Any, client_address: Any) -> None:
        if self.free.acquire(blocking=False):
            super().process_request(request, client_address)
            return
        with suppress(OSError):
            request.send(BUSY, socket.MSG_DONTWAIT)
        self.shutdown_request(request)

    def process_request_thread(self, request: Any, client_address: Any) -> None:
        try:
            super().process_request_thread(request, client_address)
        finally:
            self.free.release()

    def handle_error(self, request: Any, client_address: Any) -> None:
        if not isinstance(sys.exc_info()[1], OSError):
            super().handle_error(request, client_address)


def main() -> None:
    folder, base, *port = sys.argv[1:]
    limits = Limits(trace_bytes=1 << 20, frames=1000, seconds=SECONDS / 2)
    server = Server(int(port[0]) if port else 0, Resolver(folder, base, cache=BESIDE, limits=limits))
    print(f"http://127.0.0.1:{server.server_port}/", flush=True)
    server.serve_forever()


if __name__ == "__main__":
    main()
