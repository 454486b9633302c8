#!/usr/bin/env python3
"""An example of a live source for the receiver in a browser: this reads what a demodulator gives from standard input,
as `lritstation SHELF receive` does, and sends it to each page that listens, by a WebSocket. It serves the page too,
live.html, with the modules of receiver.html. What comes while no page listens is lost, and so is what a page is too
slow for."""

from __future__ import annotations

import argparse
import base64
import hashlib
import json
import os
import re
import struct
import sys
import threading
import time
from http.server import BaseHTTPRequestHandler, ThreadingHTTPServer
from pathlib import Path
from queue import Full, Queue

HERE = Path(__file__).resolve().parent
TYPES = {".html": "text/html", ".css": "text/css", ".mjs": "text/javascript", ".wasm": "application/wasm"}
POLICY = (
    "default-src 'none'; script-src 'self' 'wasm-unsafe-eval'; style-src 'self'; connect-src 'self'; "
    "img-src blob:; worker-src 'self'; base-uri 'none'; form-action 'none'"
)
LENT = re.compile(r'<script type="application/json" id="lent">(.*?)</script>', re.DOTALL)
MAGIC = b"258EAFA5-E914-47DA-95CA-C5AB0DC85B11"  # RFC 6455, section 1.3
BINARY, CLOSE = 0x82, 0x88  # whole messages
SHORT, MIDDLE = 126, 127  # lengths that say that the length follows
PIECE_BYTES = 65536
MOST_PIECES = 1000  # that wait for a page
PATIENCE_SECONDS = 20

File = tuple[str, bytes]  # its type and its bytes


def served_files(page: Path) -> dict[str, File]:
    """What is served, by its path: nothing else is looked for."""
    found = LENT.search(page.read_text(encoding="utf-8"))
    if not found:
        raise ValueError(f"{page} has no modules: packaging/web.sh makes receiver.html")
    modules = json.loads(found[1])["modules"]
    files = {f"/{name}.wasm": (TYPES[".wasm"], base64.b64decode(text)) for name, text in modules.items()}
    for folder in (HERE, HERE.parent / "page"):
        for it in folder.iterdir():
            if it.suffix in TYPES:
                files[f"/{folder.name}/{it.name}"] = (TYPES[it.suffix], it.read_bytes())
    files["/"] = files["/live/live.html"]
    return files


def message(kind: int, content: bytes) -> bytes:
    """A whole message of a WebSocket, from its server."""
    length = len(content)
    if length < SHORT:
        return bytes([kind, length]) + content
    if length < 1 << 16:
        return struct.pack(">BBH", kind, SHORT, length) + content
    return struct.pack(">BBQ", kind, MIDDLE, length) + content


class Server(ThreadingHTTPServer):
    """The files, and those that listen: each has a queue, which ends with None."""

    daemon_threads = True

    def __init__(self, address: tuple[str, int], files: dict[str, File]):
        super().__init__(address, Handler)
        self.files = files
        self.lock = threading.Lock()
        self.queues: set[Queue[bytes | None]] = set()

    def send(self, piece: bytes | None) -> None:
        """To each that listens. One for which too much waits is left."""
        with self.lock:
            for it in list(self.queues):
                try:
                    it.put_nowait(piece)
                except Full:
                    self.queues.discard(it)

    def finish(self) -> None:
        """Sends the end, and waits for those that still have something to read."""
        self.send(None)
        end = time.monotonic() + PATIENCE_SECONDS
        while self.queues and time.monotonic() < end:
            time.sleep(0.05)


class Handler(BaseHTTPRequestHandler):
    """One request: a file, or the symbols."""

    server: Server
    timeout = PATIENCE_SECONDS
    protocol_version = "HTTP/1.1"

    def do_GET(self) -> None:
        self.close_connection = True
        if self.path == "/symbols":
            self.listen()
            return
        kind, content = self.server.files.get(self.path, ("text/plain", b""))
        self.send_response(200 if self.path in self.server.files else 404)
        headers = {"Content-Type": kind, "Content-Length": str(len(content)), "Content-Security-Policy": POLICY}
        for name, value in {**headers, "X-Content-Type-Options": "nosniff", "Connection": "close"}.items():
            self.send_header(name, value)
        self.end_headers()
        self.wfile.write(content)

    def listen(self) -> None:
        """Sends what comes from here on. Another site's page gets nothing."""
        key, origin = self.headers.get("Sec-WebSocket-Key"), self.headers.get("Origin")
        if not key or origin != f"http://{self.headers.get('Host')}":
            self.send_error(403)
            return
        accept = base64.b64encode(hashlib.sha1(key.encode("latin-1") + MAGIC).digest()).decode("ascii")
        self.send_response(101)
        for name, value in {"Upgrade": "websocket", "Connection": "Upgrade", "Sec-WebSocket-Accept": accept}.items():
            self.send_header(name, value)
        self.end_headers()
        queue: Queue[bytes | None] = Queue(MOST_PIECES)
        with self.server.lock:
            self.server.queues.add(queue)
        try:
            while queue in self.server.queues and (piece := queue.get()) is not None:
                self.wfile.write(message(BINARY, piece))
            self.wfile.write(message(CLOSE, struct.pack(">H", 1000)))
        except OSError:
            pass  # (the page was closed, or is too slow)
        finally:
            with self.server.lock:
                self.server.queues.discard(queue)

    def log_message(self, *_: object) -> None:
        pass


def main() -> int:
    parser = argparse.ArgumentParser(description=__doc__)
    parser.add_argument("page", type=Path, help="the receiver.html that packaging/web.sh made")
    parser.add_argument("--host", default="127.0.0.1", help="which address is listened at (default: %(default)s)")
    parser.add_argument("--port", type=int, default=8080, help="which port, 0 for any (default: %(default)s)")
    words = parser.parse_args()
    try:
        server = Server((words.host, words.port), served_files(words.page))
    except (OSError, ValueError) as fault:
        print(f"bridge.py: {fault}", file=sys.stderr)
        return 1
    threading.Thread(target=server.serve_forever, daemon=True).start()
    print(f"http://{words.host}:{server.server_address[1]}/", flush=True)
    try:
        while piece := os.read(sys.stdin.fileno(), PIECE_BYTES):
            server.send(piece)
        server.finish()
    except KeyboardInterrupt:
        pass
    return 0


if __name__ == "__main__":
    sys.exit(main())
