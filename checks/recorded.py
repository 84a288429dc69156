"""Clients at all hosts of a group, for as long as they are let, each with one call on its way, and of each call when it was sent, when it was answered, and
what it was told. Keys by what is done to them: registers `r` (get, set), counters `c` (incr, get), locks `l` (add, gets, cas), mixed keys `m` (all), keys
at rest `q`, which are read alone, and keys `w` of each host, which are watched there and set at the others alone: so no update of that host's own holds them up, and
one that the others complete without the host is seen where they are still read there. The keys of locks and mixed ones are others after a while, so that the history of each is short."""
import random
import socket
import threading
import time
from collections import namedtuple
from multiprocessing import get_context, parent_process

from hosts import CLIENTS as PORT
from linearizable import Call, GaveUp, decide, decide_counter, decide_register
from servers import Fault

# A call as a client notes it; `after` is None where it was never answered.
Noted = namedtuple("Noted", "place key client number before after op told")

STORED, BUSY, ABORTED, UNKNOWN = "STORED", "SERVER_ERROR busy", "SERVER_ERROR aborted", "SERVER_ERROR outcome unknown"
NOT_A_NUMBER = "CLIENT_ERROR not a number"
# What is told where the connection broke, or nothing came in time.
BROKEN = "broken"
UPDATES = ("set", "add", "replace", "cas", "incr", "decr", "delete")
REGISTERS, COUNTERS, LOCKS, MIXED, AT_REST, WATCHED = 4, 2, 1, 2, 4, 2
ROLES = ("register", "register", "register", "counter", "counter", "lock", "mixed", "rest", "watcher", "watcher", "writer")
# Seconds: for so long the keys of locks, and mixed ones, are the same.
LOCK_KEYS, MIXED_KEYS = 3.0, 1.0
# So long a client waits between two calls, at most; half of the time until such a time begins anew, as others do, so that all their calls are on their way at
# once. So long it waits for an answer, and until it connects again.
PAUSE, ANSWER, AGAIN = 0.03, 20.0, 0.1
# Of the clients that watch; and how long at most one that writes what is watched rests behind a call, twice as long as that took: so most of the time nothing is
# on its way to such a key.
WATCHES, WRITES = 0.01, 0.2
FREE = (0, b"free")
# How processes begin that are no programs. They are no copies of the check: what its other threads have open at that moment, as a pipe, would stay open in them.
PROCESSES = get_context("forkserver")


def is_update(call):
    return call.op[0] in UPDATES


class Conn:
    """A connection to the node of a host, made anew where it broke."""

    def __init__(self, address):
        self.address, self.conn, self.read = address, None, None

    def open(self):
        if self.conn is None:
            self.conn = socket.create_connection((self.address, PORT), timeout=ANSWER)
            self.conn.setsockopt(socket.IPPROTO_TCP, socket.TCP_NODELAY, 1)
            self.read = self.conn.makefile("rb")

    def close(self):
        if self.conn is not None:
            self.read.close()
            self.conn.close()
        self.conn = None

    def line(self):
        line = self.read.readline()
        if not line.endswith(b"\r\n"):
            raise ConnectionError("the node ended the connection")
        return line[:-2].decode()

    def ask(self, key, op):
        """What the call is told: a line, or what a read found."""
        self.conn.sendall(bytes_of(key, op))
        line = self.line()
        if line == "END":
            return ("missing",)
        if not line.startswith("VALUE "):
            return line
        words = line.split()
        content = (int(words[2]), self.read.read(int(words[3]) + 2)[:-2])
        if self.line() != "END" or words[1] != key:
            raise ConnectionError(f"{line} is no reply to {op[0]} {key}")
        return ("found", content, *map(int, words[4:]))


def bytes_of(key, op):
    verb = op[0]
    if verb in ("get", "gets", "delete"):
        return f"{verb} {key}\r\n".encode()
    if verb in ("incr", "decr"):
        return f"{verb} {key} {op[1]}\r\n".encode()
    (flags, data), tag = op[1:]
    return f"{verb} {key} {flags} 0 {len(data)}{f' {tag}' if verb == 'cas' else ''}\r\n".encode() + data + b"\r\n"


class Client:
    """One call after the other at one host of so many, as long as it is let."""

    def __init__(self, place, address, number, role, seed, is_over, pause=PAUSE, hosts=1):
        self.place, self.number, self.role, self.is_over, self.pause, self.hosts = place, number, role, is_over, pause, hosts
        self.draw = random.Random(f"{seed} {number}")
        self.conn = Conn(address)
        self.noted, self.count, self.tags = [], 0, {}

    def run(self):
        calls = getattr(self, f"at_{self.role}")
        while not self.is_over.is_set() and parent_process().is_alive():
            try:
                self.conn.open()
                calls()
            except OSError:
                self.conn.close()
                self.is_over.wait(AGAIN)
        self.conn.close()

    def call(self, key, *op):
        """Makes a call and notes it. Gives what it is told."""
        self.count += 1
        before = time.monotonic_ns()
        try:
            told, after = self.conn.ask(key, op), time.monotonic_ns()
        except OSError:
            self.noted.append(Noted(self.place, key, self.number, self.count, before, None, op, BROKEN))
            raise
        self.noted.append(Noted(self.place, key, self.number, self.count, before, after, op, told))
        self.rest()
        return told

    def rest(self):
        if self.pause:
            time.sleep(self.draw.random() * self.pause if self.draw.randrange(2) else self.pause - time.monotonic() % self.pause)

    def data(self):
        """What no other call stores: a number, which leaves room for others to be added."""
        return b"%d" % ((self.number + 1) * 10**13 + self.count * 10**4)

    def at_register(self):
        key = f"r{self.draw.randrange(REGISTERS)}"
        if self.draw.randrange(2):
            self.call(key, "get")
        else:
            self.call(key, "set", (0, self.data()), None)

    def at_counter(self):
        key = f"c{self.draw.randrange(COUNTERS)}"
        if self.draw.randrange(3):
            self.call(key, "incr", 1)
        else:
            self.call(key, "get")

    def at_rest(self):
        self.call(f"q{self.draw.randrange(AT_REST)}", "get")

    def at_watcher(self):
        self.call(f"w{self.place}-{self.number % WATCHED}", "get")

    def at_writer(self):
        place = self.draw.choice([place for place in range(self.hosts) if place != self.place])
        begun = time.monotonic()
        self.call(f"w{place}-{self.draw.randrange(WATCHED)}", "set", (0, self.data()), None)
        time.sleep(min(2 * (time.monotonic() - begun), WRITES))

    def at_lock(self):
        """Takes the lock by `add`, or by `cas` where it is free, and gives it back by `cas`. A token is its holder's for one turn; what became of a call that was
        not told is seen by a read."""
        key, token = f"l{int(time.monotonic() / LOCK_KEYS)}-{self.draw.randrange(LOCKS)}", (0, b"t" + self.data())
        told = self.call(key, "add", token, None)
        held = self.call(key, "gets")
        if told != "STORED" and held[0] == "found" and held[1] == FREE:
            self.call(key, "cas", token, held[2])
            held = self.call(key, "gets")
        if held[0] == "found" and held[1] == token:
            self.call(key, "cas", FREE, held[2])

    def at_mixed(self):
        key = f"m{int(time.monotonic() / MIXED_KEYS)}-{self.draw.randrange(MIXED)}"
        verb = self.draw.choices(("get", "gets", "set", "add", "replace", "cas", "incr", "decr", "delete"), (20, 18, 18, 4, 4, 14, 12, 4, 6))[0]
        if verb in ("incr", "decr"):
            self.call(key, verb, self.draw.randrange(1, 999))
        elif verb in ("get", "gets", "delete"):
            told = self.call(key, verb)
            if verb == "gets" and told[0] == "found":
                self.tags[key] = told[2]
        else:
            self.call(key, verb, (self.draw.randrange(4), self.data()), self.tags.get(key, 1) if verb == "cas" else None)


# ---- all of them


def run_host(pipe, clients, is_over):
    """The clients of one host, in a process of their own. It tells when they begin, and in the end what they noted."""
    pipe.send("they begin")
    threads = [threading.Thread(target=client.run) for client in clients]
    for thread in threads:
        thread.start()
    for thread in threads:
        thread.join()
    pipe.send([noted for client in clients for noted in client.noted])


class Clients:
    """The clients of all hosts, running."""

    def __init__(self, addresses, seed):
        self.is_over, self.processes = PROCESSES.Event(), []
        for place, address in enumerate(addresses):
            clients = [self.client(place, address, at, role, seed, len(addresses)) for at, role in enumerate(ROLES)]
            ours, theirs = PROCESSES.Pipe()
            process = PROCESSES.Process(target=run_host, args=(theirs, clients, self.is_over), daemon=True)
            process.start()
            theirs.close()
            self.processes.append((process, ours))
        for _process, pipe in self.processes:
            pipe.recv()

    def client(self, place, address, at, role, seed, hosts):
        pause = WATCHES if role == "watcher" else PAUSE
        return Client(place, address, place * len(ROLES) + at, role, seed, self.is_over, pause, hosts)

    def end(self):
        """All that they noted, once each has been told what became of its last call."""
        self.is_over.set()
        noted = [one for _process, pipe in self.processes for one in pipe.recv()]
        for process, _pipe in self.processes:
            process.join()
        return noted


def set_up(address, number):
    """What counters and keys at rest hold to begin with. Gives the calls of the latter."""
    client = Client(0, address, number, None, 0, None)
    client.conn.open()
    for counter in range(COUNTERS):
        client.call(f"c{counter}", "set", (0, b"0"), None)
    client.noted.clear()
    ends = time.monotonic() + ANSWER
    for key in range(AT_REST):
        while client.call(f"q{key}", "set", (0, b"at rest %d" % key), None) == BUSY and time.monotonic() < ends:
            pass
    client.conn.close()
    if [one.told for one in client.noted if one.told != BUSY] != [STORED] * AT_REST:
        raise Fault(f"a new group stores nothing: {client.noted}")
    return client.noted


# ---- what they noted


def told_of(noted):
    """What a call was told, as the checker has it: None of an update that may have taken effect."""
    if noted.told in (ABORTED, UNKNOWN, BROKEN):
        return None
    return "not a number" if noted.told == NOT_A_NUMBER else noted.told


def is_refused(noted):
    """Whether the server told what no client of these may be told."""
    told = told_of(noted)
    return isinstance(told, str) and told.startswith(("SERVER_ERROR", "CLIENT_ERROR", "ERROR")) and told != BUSY


def histories(noted):
    """The calls of each key that may have taken effect, as the checker takes them: without those that were busy, and reads that were told nothing."""
    keys = {}
    for one in noted:
        told = told_of(one)
        if one.told == BUSY or told is None and not is_update(one):
            continue
        keys.setdefault(one.key, []).append(Call(one.client, one.number, one.before, one.after if told is not None else None, one.op, told))
    return keys


DECIDES = {"r": decide_register, "q": decide_register, "w": decide_register, "c": decide_counter, "l": decide, "m": decide}


def judged(given):
    """A failing call of a key, None, or that the search gave up."""
    key, calls = given
    try:
        return DECIDES[key[0]](calls)
    except GaveUp:
        return "gave up"
