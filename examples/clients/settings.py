#!/usr/bin/env python3
"""Settings that many processes read and few change.

usage: settings.py HOST:PORT[,HOST:PORT ..] NAME                 prints them
       settings.py HOST:PORT[,HOST:PORT ..] NAME FIELD VALUE     changes one field, and prints them

All fields stand in one key, so that a reader sees them as one change left them. A reader asks the node beside it, which answers from its own memory, and never a value that was
replaced before the read began: nothing is cached in the process. A change is made by cas, so that two changes at once both stand.
"""
import json
import sys

from store import Store


def settings(store, name):
    return json.loads(store.ask("get", f"settings:{name}") or b"{}")


def change(store, name, field, value):
    key = f"settings:{name}"
    while True:
        held, tag = store.ask("gets", key)
        fields = json.loads(held or b"{}")
        if fields.get(field) == value:
            return
        text = json.dumps({**fields, field: value}, sort_keys=True).encode()
        if held is None:
            store.change("add", key, text)
        else:
            store.change("cas", key, text, tag)


def main():
    nodes, name, *rest = sys.argv[1:]
    store = Store(nodes)
    if rest:
        change(store, name, *rest)
    print(json.dumps(settings(store, name), sort_keys=True))


if __name__ == "__main__":
    if len(sys.argv) not in (3, 5):
        sys.exit(__doc__)
    main()
