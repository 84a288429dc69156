#!/usr/bin/env python3
"""Runs a command while holding a lock.

usage: lock.py HOST:PORT[,HOST:PORT ..] NAME SECONDS COMMAND ..

The lock is a key. Its value is a name that no one else has while somebody holds it, and empty while it is free; it is changed by cas alone and never deleted, so its tag
rises with each holder. Who waits, and has seen the same tag for so many seconds by its own clock, takes the lock over: then its holder is taken for lost. A holder that was
only slow does not know that; so it hands its tag, TOKEN in the command's environment, to whatever it changes, and that refuses a tag below the greatest that it saw.
"""
import os
import subprocess
import sys
import time
import uuid

from store import Store

FREE = b""


def take(store, key, me, seconds):
    """Waits for the lock, and gives its tag."""
    seen, since = None, 0.0
    while True:
        holder, tag = store.ask("gets", key)
        if holder == me:
            return tag
        if tag != seen:
            seen, since = tag, time.monotonic()
        if holder is None:
            store.change("add", key, me)
        elif holder == FREE or time.monotonic() - since > seconds:
            store.change("cas", key, me, tag)
        else:
            time.sleep(0.02)


def give_back(store, key, tag):
    """Frees the lock, where it is still held under this tag."""
    while store.ask("gets", key)[1] == tag:
        store.change("cas", key, FREE, tag)


def main():
    nodes, name, seconds, *command = sys.argv[1:]
    store, key, me = Store(nodes), f"lock:{name}", uuid.uuid4().hex.encode()
    tag = take(store, key, me, float(seconds))
    try:
        return subprocess.run(command, env={**os.environ, "TOKEN": tag.decode()}).returncode
    finally:
        give_back(store, key, tag)


if __name__ == "__main__":
    if len(sys.argv) < 5:
        sys.exit(__doc__)
    sys.exit(main())
