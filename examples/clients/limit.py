#!/usr/bin/env python3
"""Allows so many requests of a user in each window of time.

usage: limit.py HOST:PORT[,HOST:PORT ..] USER LIMIT SECONDS TRIES      tries so often, and prints how often it was allowed

One key a user holds the window's number and its count, and is changed by cas: no request is allowed that was not counted. One whose outcome is not known counts as used, and is refused:
a limit may be kept too well, and is never passed. A key a user and window would leak, since a key that was deleted keeps a small row.
"""
import sys
import time

from store import Store, Unclear


def is_allowed(store, user, limit, seconds):
    key, window = f"limit:{user}", int(time.time() / seconds)
    while True:
        held, tag = store.ask("gets", key)
        then, used = map(int, held.split()) if held else (window, 0)
        if then > window:
            # another process' clock is ahead: its window counts
            window = then
        if then < window:
            used = 0
        if used >= limit:
            return False
        counted = b"%d %d" % (window, used + 1)
        try:
            if store.ask("add", key, counted) if held is None else store.ask("cas", key, counted, tag):
                return True
        except Unclear:
            return False


def main():
    nodes, user, limit, seconds, tries = sys.argv[1:]
    store = Store(nodes)
    print(sum(is_allowed(store, user, int(limit), float(seconds)) for _ in range(int(tries))))


if __name__ == "__main__":
    if len(sys.argv) != 6:
        sys.exit(__doc__)
    main()
