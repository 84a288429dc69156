"""What a server stays up through: cases for `checks/hostile`. Each starts a server of its own with the nodes, workers and managers that are asked for, and gives a line of
figures. Those of a full memory are tried at the process of a group over one host too."""
import os
import random
import resource
import socket
import tempfile
import threading
import time
from concurrent.futures import ThreadPoolExecutor
from dataclasses import dataclass

import ports
import servers
from hosts import one_host
from servers import BUSY, MEBIBYTE, NO_MEMORY, STORED, UNKNOWN, Client, Fault, expect, expect_at_most, is_served, until

GOOD_CLIENTS = 10
COMINGS = 1_000
GIBIBYTE = 1 << 30
ULIMIT_V = 4_000_000 << 10
# MiB that an idle connection holds at most.
HELD_EACH = 0.4
# How often a full memory is freed and filled again, and the share of what was freed that is stored again at least.
TURNS, SHARE_AGAIN = 3, 0.5
# The share of a processor that a server may use which has nothing to do but to wait for what it lacks.
IDLE_SHARE = 0.25
# For so long a memory stays full: three leases of a group over hosts.
STAYS_FULL = 3


@dataclass
class Room:
    """What all cases are given."""

    program: list
    free: ports.Ports
    nodes: int
    workers: int
    managers: int

    def serve(self, conns, **words):
        words = {"nodes": self.nodes, "workers": self.workers, "managers": self.managers, **words}
        return servers.serve(self.program, self.free.take(), conns, **words)


class HostRoom(Room):
    """Each case has the process of a group over one host. Its threads share one pool of memory, so that all of them lack it at once."""

    def serve(self, _conns):
        shared = {**os.environ, "MALLOC_ARENA_MAX": "1"}
        return one_host(self.program, self.free.take(), "--workers", self.workers, env=shared)


def at_one_host(case):
    """A case, tried at the process of a group over one host."""

    def tried(room):
        return case(HostRoom(room.program, room.free, 1, room.workers, 0))

    tried.__name__ = f"{case.__name__}_at_one_host"
    return tried


def try_good(client, number):
    """Sets a key and reads it again."""
    key, value = b"good:%d" % number, b"value %d" % number
    client.set_till(key, value)
    expect(client.get(key)[0], value, f"a good client's {key!r}")


def try_answered(client, number):
    """Sets a key and reads one that stood before: the set is answered, whether there was memory for it or not."""
    told = client.set(b"short:%d" % number, b"x")
    if told not in (STORED, BUSY, UNKNOWN, NO_MEMORY):
        raise Fault(f"a set with hardly any memory is told {told!r}")
    expect(client.get(b"good:0")[0], b"value 0", "a key that stood before")


def come(port, count):
    """So many connections, each with a request on its way, till one is not taken: a full backlog takes none."""
    conns = []
    try:
        while len(conns) < count:
            conn = socket.create_connection((servers.HOST, port), timeout=5)
            conns.append(conn)
            conn.sendall(b"version\r\n")
    except OSError:
        pass
    return conns


def answered(conns, seconds):
    """How many of the connections were answered within so many seconds, and how many were ended."""
    served = ended = 0
    ends = time.monotonic() + seconds
    for conn in conns:
        conn.settimeout(max(0.001, ends - time.monotonic()))
        try:
            told = conn.recv(4096)
            served, ended = served + bool(told), ended + (not told)
        except TimeoutError:
            pass
        except OSError:
            ended += 1
    return served, ended


def close_all(conns):
    for conn in conns:
        conn.close()


def expect_served_again(server, what, seconds=15):
    """New clients are served once the cause is over. Gives how many seconds that took."""
    took = until(seconds, lambda: is_served(server.port) or not server.is_up())
    server.expect_up(what)
    if took is None:
        raise Fault(f"{what}: no new client is served {seconds} s after")
    with Client(server.port) as client:
        try_good(client, 99)
    return took


# ---- what the system refuses


def held_up(server, good, what, count, seconds=2, try_one=try_good):
    """So many connections come while something is short, and a good client is served meanwhile. Gives how many were served and ended, and the share of a processor."""
    spent, begun = server.processor_seconds(), time.monotonic()
    conns = come(server.port, count)
    try:
        try_one(good, 1)
        served, ended = answered(conns, seconds)
        try_one(good, 2)
        server.expect_up(what)
        share = (server.processor_seconds() - spent) / (time.monotonic() - begun)
    except OSError as error:
        server.expect_up(what)
        raise Fault(f"{what}: a good client met {error!r}") from error
    finally:
        close_all(conns)
    return served, ended, share


def descriptors_exhausted(room):
    with room.serve(1_000_000) as server, Client(server.port) as good:
        try_good(good, 0)
        before = server.limit(resource.RLIMIT_NOFILE, server.descriptors() + 20)
        served, _, share = held_up(server, good, "where descriptors are short", 60)
        expect_at_most(share, IDLE_SHARE, "the share of a processor while no connection can be taken")
        took = expect_served_again(server, "once the connections were closed")
        server.limit(resource.RLIMIT_NOFILE, before)
        return f"of 60 connections {served} were served, a good one all the while with {share:.2f} of a processor, new ones again {took:.1f} s after"


def threads_refused(room):
    with tempfile.TemporaryDirectory() as folder:
        program = servers.copy_for_all(room.program, folder)
        port = room.free.take()
        with servers.serve(program, port, 1_000_000, room.nodes, room.workers, room.managers, **servers.owner()) as server, Client(port) as good:
            try_good(good, 0)
            server.limit_threads(1)
            served, ended, share = held_up(server, good, "where threads are refused", 20, 10)
            if served:
                raise Fault(f"{served} connections got a thread, though none is to be had")
            expect(ended, 20, "connections that were closed for want of a thread")
            server.limit_threads(4_000)
            took = expect_served_again(server, "once threads were to be had")
            return f"of 20 connections {ended} were closed, a good one was served all the while with {share:.2f} of a processor, new ones again {took:.1f} s after"


def address_space(room):
    """As many connections as `ulimit -v 4000000` is to serve at once; then a server that has hardly any room left."""
    with room.serve(1_000_000) as server, Client(server.port) as good:
        try_good(good, 0)
        server.limit(resource.RLIMIT_AS, ULIMIT_V)
        served, ended, _ = held_up(server, good, "where `ulimit -v` is 4000000", COMINGS, 20)
        expect(served, COMINGS, f"connections served at once where `ulimit -v` is 4000000; {ended} were ended")
        space = server.status_of("VmPeak")
    with room.serve(1_000_000) as server, Client(server.port) as good:
        try_good(good, 0)
        before = server.limit(resource.RLIMIT_AS, server.status_of("VmSize") + 24 * MEBIBYTE)
        few, ended, share = held_up(server, good, "where address space is short", 300, 5, try_answered)
        server.limit(resource.RLIMIT_AS, before)
        took = expect_served_again(server, "once there was address space")
    return f"{served} connections at once in {space / GIBIBYTE:.2f} GiB; with 24 MiB left {few} of 300 were served and {ended} closed, a good one all the while ({share:.2f} of a processor), new ones again {took:.1f} s after"


def memory_exhausted(room):
    """Sets of 100 KB until there is no memory. Each request is answered; what was stored stands; behind deletes there is room again."""
    value = 100_000 * b"v"
    with room.serve(1_000_000) as server, Client(server.port) as good, Client(server.port) as other:
        try_good(good, 0)
        other.set_till(b"stands", value)
        server.limit(resource.RLIMIT_AS, server.status_of("VmSize") + room.nodes * 200 * MEBIBYTE)
        stored, refused = fill(server, good, value, room.nodes * 4_000, 20 if room.nodes == 1 else 4)
        expect_reads(server, [good, other], stored, value)
        behind = free_some(server, good, stored[::2], value)
        late = newcomer(server)
        server.expect_up("with a full memory")
        return f"{len(stored)} sets of 100 KB, then {refused} told out of memory; {min(len(stored), 200)} of the keys were read as stored; behind deletes of half a set was stored at ask {behind}, and a new client was {late}"


def memory_of_large_values(room):
    """Sets of 1 MiB until there is no memory. Each request is answered; what was stored stands; what deletes free takes as many values again, over and over."""
    value = MEBIBYTE * b"v"
    with room.serve(1_000_000) as server, Client(server.port) as good, Client(server.port) as other:
        try_good(good, 0)
        other.set_till(b"stands", value)
        server.limit(resource.RLIMIT_AS, server.status_of("VmSize") + room.nodes * 150 * MEBIBYTE)
        stored, refused = fill(server, good, value, room.nodes * 1_000, 20 if room.nodes == 1 else 4)
        expect_reads(server, [good, other], stored, value)
        again = [stored[::2]]
        for _turn in range(TURNS):
            free_some(server, good, again[-1], value)
            again.append(store_again(server, good, again[-1], value))
        expect_reads(server, [good, other], [*stored[1::2], *again[-1], b"stands"], value)
        server.expect_up("with a full memory of large values")
        counts = ", ".join(str(len(keys)) for keys in again)
        return f"{len(stored)} sets of 1 MiB, then {refused} told out of memory; of these were deleted and stored again, turn by turn: {counts}"


def memory_stays_full(room):
    """Sets of 100 KB until there is no memory, then smaller ones, over and over for three seconds, while clients come. Who is there is answered; behind deletes new clients
    are served, and what was stored stands."""
    value = 100_000 * b"v"
    with room.serve(1_000_000) as server, Client(server.port) as good, Client(server.port) as other:
        try_good(good, 0)
        server.limit(resource.RLIMIT_AS, server.status_of("VmSize") + 100 * MEBIBYTE)
        stored, refused = fill(server, good, value, 4_000, 4)
        number, come_in_all, served_in_all = len(stored) + refused, 0, 0
        ends = time.monotonic() + STAYS_FULL
        while time.monotonic() < ends:
            for size in (1_000, 10):
                more, none = fill(server, other, value[:size], 40_000, 4, number)
                number, refused = number + len(more) + none, refused + none
            served, _ended, _share = held_up(server, good, "with a full memory", 10, 1, try_answered)
            come_in_all, served_in_all = come_in_all + 10, served_in_all + served
        free_some(server, good, stored[::2], value)
        took = expect_served_again(server, "behind deletes")
        expect_reads(server, [good, other], stored[1::2], value)
        return f"{number - refused} sets, of which {len(stored)} were of 100 KB, and {refused} told out of memory in {STAYS_FULL} s; of {come_in_all} connections that came {served_in_all} were served; behind deletes new ones again {took:.1f} s after"


def newcomer(server):
    """Whether a new client is served behind a full memory. What was given back lies in the memory of other threads, so there may be no room for its own: then it is closed."""
    try:
        with Client(server.port) as late:
            try_good(late, 98)
        return "served"
    except (Fault, OSError):
        return "closed"


def answer(server, client, sent, what):
    """The reply of one line; where the connection ends there is none, which is a fault."""
    try:
        told = client.ask(sent)
    except OSError as error:
        told = repr(error).encode()
    if not told.endswith(b"\r\n"):
        server.expect_up(what)
        raise Fault(f"{what}: the connection was ended without a reply: {told!r}")
    return told


def fill(server, client, value, most, enough, first=0):
    """Sets keys of the numbers from the first one on until enough are not stored. Gives the keys that are, and how many are not."""
    stored, refused = [], 0
    for number in range(first, first + most):
        key = b"fill:%d" % number
        told = answer(server, client, b"set %s 0 0 %d\r\n%s\r\n" % (key, len(value), value), f"set number {number} of {len(value)} bytes")
        if told == STORED:
            stored.append(key)
        elif told in (NO_MEMORY, BUSY, UNKNOWN):
            refused += 1
        else:
            raise Fault(f"a set of {len(value)} bytes is told {told!r}")
        if refused == enough:
            return stored, refused
    raise Fault(f"{most} sets of {len(value)} bytes were stored in the memory that was left")


def expect_reads(server, clients, stored, value):
    for number, key in enumerate(random.Random(1).sample(stored, min(len(stored), 200))):
        try:
            told, _ = clients[number % len(clients)].get(key)
        except OSError as error:
            server.expect_up("at a get with a full memory")
            raise Fault(f"a get with a full memory met {error!r}") from error
        if told != value:
            raise Fault(f"{key!r} is {told!r:.60}, where what was stored is due")


def free_some(server, client, keys, value):
    """Deletes keys. Gives at which ask a set is stored again."""
    for key in keys:
        for _ in range(50):
            told = answer(server, client, b"delete %s\r\n" % key, "a delete with a full memory")
            if told == b"DELETED\r\n":
                break
            time.sleep(0.02 if told == BUSY else 0)
        else:
            raise Fault(f"a delete with a full memory is told {told!r}")
    for number in range(1, 51):
        if answer(server, client, b"set again 0 0 %d\r\n%s\r\n" % (len(value), value), "a set behind deletes") == STORED:
            return number
    raise Fault(f"no set is stored behind deletes of {len(keys)} keys")


def store_again(server, client, keys, value):
    """Sets keys that were deleted, each once. Gives those that are stored, of which enough are due."""
    told = {key: answer(server, client, b"set %s 0 0 %d\r\n%s\r\n" % (key, len(value), value), "a set behind deletes") for key in keys}
    others = set(told.values()) - {STORED, NO_MEMORY, BUSY, UNKNOWN}
    expect(others, set(), "what else a set behind deletes is told")
    stored = [key for key in keys if told[key] == STORED]
    if len(stored) < SHARE_AGAIN * len(keys):
        raise Fault(f"behind deletes of {len(keys)} values of {len(value)} bytes {len(stored)} are stored again")
    return stored


# ---- who comes and goes


class Counting(threading.Thread):
    """A good client that adds to a counter of its own till it is told to end. No reply may be another than the next number."""

    def __init__(self, port, number, done):
        super().__init__()
        self.client, self.key, self.done = Client(port), b"count:%d" % number, done
        self.client.set_till(self.key, b"0")
        self.count, self.fault = 0, None

    def run(self):
        try:
            while not self.done.is_set():
                told = self.client.ask(b"incr %s 1\r\n" % self.key)
                if told == BUSY:
                    continue
                expect(told, b"%d\r\n" % (self.count + 1), f"incr of {self.key!r}")
                self.count += 1
        except (Fault, OSError) as fault:
            self.fault = fault
        finally:
            self.client.close()


def connections_come_and_go(room):
    """Connections come and go, each in its own way, while good clients count."""
    done = threading.Event()
    with room.serve(1_000_000) as server:
        good = [Counting(server.port, number, done) for number in range(GOOD_CLIENTS)]
        for one in good:
            one.start()
        try:
            with ThreadPoolExecutor(8) as pool:
                served = sum(pool.map(lambda number: visit(server.port, number), range(COMINGS)))
        finally:
            done.set()
            for one in good:
                one.join()
        server.expect_up("while connections came and went")
        faults = [one.fault for one in good if one.fault]
        if faults:
            raise Fault(f"a good client met {faults[0]!r}")
        expect(served, COMINGS - COMINGS // 4, "answered among those that came and went and asked")
        left = until(10, lambda: server.status_of("Threads") < 40)
        if left is None:
            raise Fault(f"{server.status_of('Threads')} threads are left behind {COMINGS} connections")
        return f"{COMINGS} came and went, {served} were answered; {GOOD_CLIENTS} good ones counted to {sum(one.count for one in good)} with none lost; {server.status_of('Threads')} threads are left"


def visit(port, number):
    """One connection: a quarter ends by a reset, a quarter says nothing, a quarter quits, a quarter just closes. Whether it was answered."""
    with Client(port) as client:
        if number % 4 == 0:
            return False
        told = client.ask(b"set visit:%d 0 0 1\r\nx\r\n" % number)
        while told == BUSY:
            told = client.ask(b"set visit:%d 0 0 1\r\nx\r\n" % number)
        if number % 4 == 1:
            client.reset()
        elif number % 4 == 2:
            client.send(b"quit\r\n")
            client.read.read()
        return told == STORED


def clients_beyond_the_last(room):
    """Of a server for two connections: a third one is refused or ended at once, and the two are served on."""
    with room.serve(2) as server:
        with Client(server.port) as first, Client(server.port) as second:
            for number, client in enumerate((first, second)):
                try_good(client, number)
            took, how = turned_away(server.port)
            for number, client in enumerate((first, second)):
                try_good(client, number)
        expect(server.status(), 0, "the status behind the last connection")
        return f"a third one was {how} within {took * 1000:.0f} ms, the two were served on, status 0"


def turned_away(port, seconds=5):
    """Within how many seconds a client is told that it is not served, and how."""
    begun = time.monotonic()
    try:
        with Client(port, seconds) as client:
            told = client.ask(b"version\r\n")
    except ConnectionError as error:
        return time.monotonic() - begun, "refused" if isinstance(error, ConnectionRefusedError) else "reset"
    except TimeoutError:
        raise Fault(f"a client beyond the last hears nothing for {seconds} s, where it is due to be turned away at once") from None
    expect(told, b"", "what a client beyond the last is told")
    return time.monotonic() - begun, "closed"


# ---- memory of who is idle


def idle_behind_a_great_reply(room):
    """One get of 60 MiB, and then nothing."""
    with room.serve(1_000_000) as server, Client(server.port) as client:
        client.set_till(b"great", MEBIBYTE * b"g")
        before = server.memory()
        client.send(b"get" + 60 * b" great" + b"\r\n")
        due = 60 * (MEBIBYTE + len(b"VALUE great 0 1048576\r\n\r\n")) + len(b"END\r\n")
        got = 0
        while got < due:
            got += len(client.read.read(min(due - got, 1 << 20)))
        return expect_small(server, before, 16 * MEBIBYTE, "behind a reply of 60 MiB")


def idle_behind_large_sets(room):
    """Forty clients that each stored 1 MiB in one key, and then nothing. What they hold shows once they are gone: journals, and what the allocator keeps, stay then."""
    count = 40
    with room.serve(1_000_000) as server:
        clients = [Client(server.port) for _ in range(count)]
        try:
            for client in clients:
                client.set_till(b"large", MEBIBYTE * b"l")
            time.sleep(1)
            idle = server.memory()
        finally:
            for client in clients:
                client.close()
        until(10, lambda: server.status_of("Threads") < count)
        time.sleep(1)
        server.expect_up("behind large sets")
        held = (idle - server.memory()) / count / MEBIBYTE
        told = f"behind {count} sets of 1 MiB each idle connection holds {held:.2f} MiB, and the server {idle / MEBIBYTE:.1f} in all"
        if held > HELD_EACH:
            raise Fault(f"{told}, where at most {HELD_EACH} for each are due")
        return told


def expect_small(server, before, bound, what):
    until(3, lambda: server.memory() - before <= bound)
    grown, most = server.memory() - before, server.status_of("VmHWM")
    if grown > bound:
        raise Fault(f"{what} the server is idle and holds {grown / MEBIBYTE:.1f} MiB more than before, where at most {bound >> 20} is due")
    return f"{grown / MEBIBYTE:.1f} MiB more than before (bound {bound >> 20}), {most / MEBIBYTE:.1f} at most"


# ---- leases


def outages(port, seconds, pause):
    """Reads a key for so many seconds: how many reads, how many busy, and the longest time without an answer."""
    reads = busy = 0
    with Client(port) as client:
        client.set_till(b"k", b"v")
        longest, last = 0.0, time.monotonic()
        ends = last + seconds
        while last < ends:
            told = client.ask(b"get k\r\n")
            now, reads = time.monotonic(), reads + 1
            longest = max(longest, now - last)
            if told == BUSY:
                busy += 1
            else:
                last = now
                client.line(), client.line()
            if now > ends:
                break
            time.sleep(pause)
    return reads, busy, longest


def a_skew_near_the_lease(room):
    """A lease of 20 s serves for 5 where clocks may differ by 15; it is to be renewed before that is over."""
    with room.serve(1_000_000, managers=1, lease=20_000, skew=15_000) as server:
        reads, busy, longest = outages(server.port, 12, 0.02)
        server.expect_up("with a skew near the lease")
        told = f"lease 20000, skew 15000: of {reads} reads in 12 s {busy} were busy, and {longest:.1f} s went by without an answer"
        if longest > 2:
            raise Fault(f"{told}, where at most 2 are due")
        return told


def a_lease_of_one_millisecond(room):
    with room.serve(1_000_000, managers=1, lease=1, skew=0) as server, Client(server.port, 20) as client:
        begun = time.monotonic()
        asks = [ask_till_served(client, begun) for _ in range(50)]
        return f"50 gets were answered, at ask {max(asks)} at the latest"


def ask_till_served(client, begun):
    for number in range(1, 1_001):
        told = client.ask(b"get k\r\n")
        if told != BUSY:
            expect(told, b"END\r\n", "a get under a lease of 1 ms")
            return number
        if time.monotonic() - begun > 20:
            break
    raise Fault(f"lease 1, skew 0: a get is busy at {number} asks in turn")


def a_lease_no_longer_than_the_skew(room):
    """Nothing can be served: that is said at the start."""
    with room.serve(1_000_000, managers=1, lease=1000, skew=1000) as server:
        if not until(2, lambda: "lease" in server.told() and "skew" in server.told()):
            raise Fault(f"lease 1000, skew 1000: nothing is said of lease and skew, but {server.told()!r}")
        return f"it says {warning_of(server.told())!r}"


def warning_of(told):
    return next((line for line in told.splitlines() if "skew" in line), told)


# ---- what is said of errors


WORDS = {
    "nodes": "serve --nodes 0 --workers 1 --managers 0 --lease 1000 --skew 0 --port 21999 --conns 1",
    "workers": "serve --nodes 1 --workers 9 --managers 0 --lease 1000 --skew 0 --port 21999 --conns 1",
    "port": "serve --nodes 1 --workers 1 --managers 0 --lease 1000 --skew 0 --port 70000 --conns 1",
    "conns": "serve --nodes 1 --workers 1 --managers 0 --lease 1000 --skew 0 --port 21999 --conns none",
    "lease": "serve --nodes 1 --workers 1 --managers 0 --laese 1000 --skew 0 --port 21999 --conns 1",
    "id": "peer --id 3 --nodes 3 --workers 1 --port 21999 --conns 1",
    "skew": "serve --nodes 1 --workers 1 --managers 0 --lease 1000",
}


def wrong_words(room):
    for name, words in WORDS.items():
        with servers.Server(room.program, words.split(), 21_999) as server:
            expect(server.status(), 2, f"the status of `{words}`")
            told = server.told()
        if name not in told or "has ended" in told:
            raise Fault(f"`{words}` is told {told!r}, where `{name}` is due to be named, and no server that has ended")
    return f"{len(WORDS)} commands with one wrong word each, which was named; status 2"


def a_taken_port(room):
    with room.serve(1_000_000) as server:
        port = server.port
        words = f"serve --nodes 1 --workers 1 --managers 0 --lease 1000 --skew 0 --port {port} --conns 1"
        with servers.Server(room.program, words.split(), port) as second:
            expect(second.status(), 8, "the status of a server whose port is taken")
            told = second.told()
        if str(port) not in told or "ddress" not in told or "in use" not in told:
            raise Fault(f"a server whose port {port} is taken tells {told!r}, where the port and the system's words are due")
        server.expect_up("beside one that wanted its port")
        return f"status 8, {told.splitlines()[0]!r}"


# Those that spend most of their time waiting go on beside the others.
WAITING = [a_skew_near_the_lease]
CASES = [
    descriptors_exhausted, threads_refused, address_space, memory_exhausted, memory_of_large_values, connections_come_and_go, clients_beyond_the_last,
    idle_behind_a_great_reply, idle_behind_large_sets, a_lease_of_one_millisecond, a_lease_no_longer_than_the_skew,
]  # fmt: skip
# Those that need no group.
OF_ONE_NODE = [wrong_words, a_taken_port]
# Those of a full memory, at the process of a group over one host.
OF_ONE_HOST = [at_one_host(case) for case in (address_space, memory_exhausted, memory_of_large_values, memory_stays_full)]
