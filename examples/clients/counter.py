#!/usr/bin/env python3
"""Counts what several writers count.

usage: counter.py HOST:PORT[,HOST:PORT ..] NAME               prints the sum
       counter.py HOST:PORT[,HOST:PORT ..] NAME WRITER ADDS   counts to so many, one by one, as this writer, and prints its own part

Each writer has a key of its own, and sets it to its own total: a set may be made again until it is answered, whatever became of the first. The sum is read over the writers' keys.
One key that all of them `incr` does not count right when a reply is `aborted` or `outcome unknown`, or gets lost: reading tells what the key has, and not whose adds are in it.
The writers are listed in a key of their own, which each enters once.
"""
import sys

from store import Store


def enter(store, name, writer):
    """Adds the writer to the list of writers."""
    key = f"writers:{name}"
    while True:
        writers, tag = store.ask("gets", key)
        names = (writers or b"").split()
        if writer in names:
            return
        entered = b" ".join([*names, writer])
        if writers is None:
            store.change("add", key, entered)
        else:
            store.change("cas", key, entered, tag)


def count(store, name, writer, adds):
    """Counts on from where this writer was. One process at a time is this writer."""
    enter(store, name, writer)
    key = f"count:{name}:{writer.decode()}"
    total = int(store.ask("get", key) or 0)
    for total in range(total + 1, total + adds + 1):
        while store.ask("get", key) != b"%d" % total:
            store.change("set", key, b"%d" % total)
    return total


def sum_of(store, name):
    writers = (store.ask("get", f"writers:{name}") or b"").split()
    return sum(int(store.ask("get", f"count:{name}:{writer.decode()}") or 0) for writer in writers)


def main():
    nodes, name, *rest = sys.argv[1:]
    store = Store(nodes)
    print(count(store, name, rest[0].encode(), int(rest[1])) if rest else sum_of(store, name))


if __name__ == "__main__":
    if len(sys.argv) not in (3, 5):
        sys.exit(__doc__)
    main()
