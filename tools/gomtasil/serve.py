"""Serves the page that `page` writes, with its pictures and nothing else, until a signal comes. Prints the addresses
that a browser can open.
"""

import http.server
import os
import re
import socket
import threading
from collections.abc import Callable

from . import program

LOOPBACK, PORT = "127.0.0.1", 8000
EVERY = ("0.0.0.0", "::")
WAIT_SECONDS = 3600
SERVED = re.compile(r"/|/index\.html|/pictures/[A-Za-z0-9_][A-Za-z0-9._~-]*\.(png|jpg|gif)")
HEADERS = {
    "X-Content-Type-Options": "nosniff",
    "Cross-Origin-Resource-Policy": "same-origin",
    "Cache-Control": "no-cache",
}


def address_of(text: str) -> tuple[str, int]:
    """Parses ADDRESS:PORT, either of which may be missing. ValueError if it is something else."""
    found = re.fullmatch(r"(?:(\[[0-9a-fA-F:.]+\]|[A-Za-z0-9.-]*):)?([0-9]{1,5})?", text)
    if not found or int(found[2] or 0) > 65535:
        raise ValueError("an address is ADDRESS:PORT")
    return (found[1] or LOOPBACK).strip("[]"), int(found[2] if found[2] is not None else PORT)


class Handler(http.server.SimpleHTTPRequestHandler):
    """Answers requests for the page and its pictures. Folders aren't listed, and links aren't followed."""

    directory: str

    server_version, sys_version = "gomtasil", ""
    timeout = 30  # seconds that a request may take

    def send_head(self):  # type: ignore[no-untyped-def]
        path = self.path.split("?", 1)[0]
        real = os.path.realpath(self.translate_path(path))
        inside = os.path.join(os.path.realpath(self.directory), "")
        if (
            not SERVED.fullmatch(path)
            or not (real + "/").startswith(inside)
            or os.path.islink(self.translate_path(path))
        ):
            self.send_error(404)
            return None
        return super().send_head()

    def list_directory(self, path):  # type: ignore[no-untyped-def]
        self.send_error(404)

    def end_headers(self) -> None:
        for name, value in HEADERS.items():
            self.send_header(name, value)
        super().end_headers()

    def log_message(self, form: str, *arguments: object) -> None:
        """(Requests aren't logged.)"""


class Server(http.server.ThreadingHTTPServer):
    def __init__(self, address: tuple[str, int], folder: str):
        self.address_family = socket.AF_INET6 if ":" in address[0] else socket.AF_INET
        self.folder = folder
        super().__init__(address, Handler)

    def finish_request(self, request, client_address):  # type: ignore[no-untyped-def]
        Handler(request, client_address, self, directory=self.folder)


def addresses_of(host: str, port: int) -> list[str]:
    """Returns the addresses that a browser can open."""
    if host not in EVERY:
        return [f"http://[{host}]:{port}/" if ":" in host else f"http://{host}:{port}/"]
    family, other = (socket.AF_INET6, "2001:db8::1") if ":" in host else (socket.AF_INET, "192.0.2.1")
    with socket.socket(family, socket.SOCK_DGRAM) as it:
        try:
            it.connect((other, 9))  # (which sends nothing)
            own = str(it.getsockname()[0])
        except OSError:
            own = ""
    found = [own] if own and own not in (LOOPBACK, "::1") else []
    return [address for it in (*found, "::1" if ":" in host else LOOPBACK) for address in addresses_of(it, port)]


def serve(address: tuple[str, int], folder: str, write: Callable[[], None] | None, seconds: int) -> int:
    """Serves the page until a signal comes, and writes it again every `seconds`."""
    server = Server(address, folder)
    name, port = server.server_address[:2]
    for it in addresses_of(str(name), int(port)):
        print(it, flush=True)
    threading.Thread(target=server.serve_forever, daemon=True).start()
    while not program.wait(seconds if write else WAIT_SECONDS):
        try:
            if write:
                write()
        except Exception as fault:  # (the page that stands there is served on)
            program.tell(program.reason(fault))
    server.shutdown()
    return 0
