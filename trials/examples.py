"""What `examples.sh` needs beside the shell. It shares no code with the crates or the examples.

examples.py cadu < FRAMES
    writes each frame with the marker before it and 128 bytes after it
examples.py publish PORT SIZE < FILE
    serves FILE on a TCP port as a publisher of nanomsg, in messages of SIZE bytes, to one subscriber
examples.py signal NAME FOLDER WORDS
    runs a program, sends it this signal once something stands in FOLDER, and again until it ends, and prints its status
    as the shell would
"""

import os
import signal
import socket
import subprocess
import sys
import time
from collections.abc import Callable


def big(count: int, number: int) -> bytes:
    return number.to_bytes(count, "big")


def cadu() -> None:
    while frame := sys.stdin.buffer.read(892):
        sys.stdout.buffer.write(bytes([0x1A, 0xCF, 0xFC, 0x1D]) + frame + bytes(128))


def listener(port: str) -> socket.socket:
    server = socket.socket()
    server.setsockopt(socket.SOL_SOCKET, socket.SO_REUSEADDR, 1)
    server.bind(("127.0.0.1", int(port)))
    server.listen()
    return server


def publish(port: str, size: str) -> None:
    """The publisher of nanomsg's PUB and SUB over TCP: each side says what it is, and a message has its length in 8
    bytes before it."""
    client, _ = listener(port).accept()
    client.sendall(b"\0SP\0" + big(2, 0x20) + bytes(2))
    assert client.recv(8, socket.MSG_WAITALL) == b"\0SP\0" + big(2, 0x21) + bytes(2)
    while message := sys.stdin.buffer.read(int(size)):
        client.sendall(big(8, len(message)) + message)
    client.close()


def is_ready(folder: str) -> bool:
    return any(os.scandir(folder))


def send_signal(name: str, folder: str, *words: str) -> None:
    number = signal.Signals["SIG" + name]
    signal.signal(number, signal.SIG_DFL)  # (a shell lets what it starts beside itself ignore INT)
    started = subprocess.Popen(words, stdin=subprocess.DEVNULL, stdout=subprocess.DEVNULL)
    until = time.time() + 10
    while not is_ready(folder) and time.time() < until:
        time.sleep(0.01)
    time.sleep(0.2)
    until = time.time() + 20
    while started.poll() is None and time.time() < until:
        started.send_signal(number)
        time.sleep(0.01)
    if started.poll() is None:
        started.kill()
        print("still at work after 20 seconds")
        return
    status = started.returncode
    print(128 - status if status < 0 else status)


commands: dict[str, Callable[..., None]] = {
    "cadu": cadu,
    "publish": publish,
    "signal": send_signal,
}
commands[sys.argv[1]](*sys.argv[2:])
