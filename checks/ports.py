"""Ports for servers on 127.0.0.1. Checks that run at once on one machine have different ones, which the system gives to no client."""
import fcntl
import socket
import sys
import tempfile
import threading
import time
from pathlib import Path

HOST = "127.0.0.1"
FIRST, BLOCK, BLOCKS = 21_800, 1_000, 10
LISTENS = "0A"


def block():
    """The lock of a block of ports that no other program has while this one runs, and the first of them."""
    for number in range(BLOCKS):
        try:
            lock = open(Path(tempfile.gettempdir()) / f"hermes-ports-{number}", "a")
            fcntl.flock(lock, fcntl.LOCK_EX | fcntl.LOCK_NB)
        except OSError:
            continue
        return lock, FIRST + number * BLOCK
    sys.exit("ports: other checks have them all")


def is_free(port):
    """Whether a server can have the port. Nothing is connected to what listens there."""
    with socket.socket() as probe:
        probe.setsockopt(socket.SOL_SOCKET, socket.SO_REUSEADDR, 1)
        try:
            probe.bind((HOST, port))
        except OSError:
            return False
        return True


class Ports:
    """Gives the ports of a block in turn, those that are free."""

    def __init__(self):
        self.turn = threading.Lock()
        self.block, self.first = block()
        self.next = self.first

    def take(self, count=1):
        """The first of so many ports that follow each other; nobody else is given one of them soon."""
        with self.turn:
            for _ in range(BLOCK):
                first = self.next
                if first + count > self.first + BLOCK:
                    first = self.first
                self.next = first + count
                if all(is_free(first + number) for number in range(count)):
                    return first
        sys.exit("ports: none is free")


def listens(port):
    """Whether a socket listens on the port; to connect would be a connection more."""
    for line in Path("/proc/net/tcp").read_text().splitlines()[1:]:
        _, local, _, state, *_ = line.split()
        if state == LISTENS and int(local.split(":")[1], 16) == port:
            return True
    return False


def wait_for(server, port, seconds):
    """Whether the server listens on the port, once it does or has ended, or the time is over."""
    ends = time.monotonic() + seconds
    while not listens(port):
        if server.poll() is not None or time.monotonic() > ends:
            return False
        time.sleep(0.02)
    return True
