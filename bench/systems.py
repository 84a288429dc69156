"""What benches measure: servers of ours, and those beside them, each as a System that is started, asked by clients (load.rs) and looked at; then medians of rounds, lines that compare, and tables.

memcached, redis and etcd are Debian's packages memcached, redis-server and etcd-server. None is installed here: what is missing is left out, with a word on standard error."""
import contextlib
import http.client
import json
import math
import re
import shutil
import socket
import statistics
import subprocess
import sys
import tempfile
import time
from base64 import b64encode
from dataclasses import astuple, dataclass
from pathlib import Path

sys.dont_write_bytecode = True
TOP = Path(__file__).resolve().parent.parent
sys.path.append(str(TOP / "checks"))
import ports
import servers
from hosts import CLIENTS, Hosts, one_host
from servers import Fault, Server, until

NAME = Path(sys.argv[0]).name
HOST, MANY, MEMORY = "127.0.0.1", 1_000_000, "/dev/shm"
# More requests than any system answers.
ENDLESS = 1_000_000_000_000
# Rounds of each measure, the seconds that one of them may take, those in which a system has to answer first, and those for which one is looked at that rests.
ROUNDS, LIMIT, SOON, REST = 5, 3, 60, 10
VALUE = b"v" * 100
# Kinds that are asked in words of their own, which load.rs is told first.
SPOKEN = ("redis", "etcd")
PROMISES = {
    "memcached": "one copy, nothing on disk",
    "redis": "a set is answered once two replicas have it (WAIT 2); reads at the first alone, what a failover loses is lost; nothing on disk",
    "etcd": "reads and sets are linearizable; a set is in the synced logs of a majority, here in memory, and goes on where one of three is lost; asked by its JSON gateway",
    "serve": "linearizable at each node; a set is answered once all nodes have it; nothing on disk",
    "peers": "linearizable at each process; a set is answered once all three have it, and none is where one is lost; nothing on disk",
    "hosts": "linearizable at each process, under leases; a set is answered once all three have it; managers' views and bindings in synced logs, no key and no set",
}


# ---- systems


class System:
    """Processes that serve together: of what kind they are, the addresses at which clients ask them, and the name of what is measured where it is not that of the kind."""

    def __init__(self, kind, processes, addresses, name=None):
        self.kind, self.name, self.servers, self.addresses = kind, name or kind, processes, [str(address) for address in addresses]

    def pids(self):
        return [server.process.pid for server in self.servers]

    def processor_seconds(self):
        return sum(server.processor_seconds() for server in self.servers)

    def memory(self, name="VmRSS"):
        """Bytes of resident memory of all processes, or, by VmHWM, the most there were."""
        return sum(server.status_of(name) for server in self.servers)

    def packets(self):
        """The packets that its processes have sent over the connections that they have: to each other, where no client asks. None where `ss` is not there to tell."""
        if not shutil.which("ss"):
            return None
        lines = subprocess.run(["ss", "-tinpHO"], check=True, stdout=subprocess.PIPE, text=True).stdout.splitlines()
        ours = [line for line in lines if any(f"pid={pid}," in line for pid in self.pids())]
        return sum(int(sent) for line in ours for sent in re.findall(r"\bsegs_out:(\d+)", line))

    def wait_for_set(self, seconds=SOON, place=0):
        """Waits until a set is answered as later ones are."""
        if until(seconds, lambda: is_set(self, place), 0.01) is None:
            raise Fault(f"{self.name} answers no set in {seconds} s")
        return self

    def kill(self):
        for server in self.servers:
            server.kill()

    def kill_at(self, place):
        self.servers[place].kill()

    def start_again(self, place, seconds=SOON):
        """Starts a process that was killed, and waits until a set is answered there."""
        killed = self.servers[place]
        self.servers[place] = Server(killed.process.args[:1], killed.process.args[1:], killed.port)
        self.wait_for_set(seconds, place)

    def __enter__(self):
        return self

    def __exit__(self, *_cause):
        self.kill()


def address_of(address):
    host, _, port = address.rpartition(":")
    return host or HOST, int(port)


def told_by_etcd(address, path, **fields):
    """What a member of etcd answers to a request of its JSON gateway, if it does what is asked."""
    conn = http.client.HTTPConnection(*address_of(address), timeout=2)
    conn.request("POST", path, json.dumps(fields))
    answer = conn.getresponse()
    told = answer.read()
    return json.loads(told) if answer.status == 200 else None


def leader_of(etcd):
    """The place of the member that leads, if one says so."""
    for place, address in enumerate(etcd.addresses):
        with contextlib.suppress(OSError, http.client.HTTPException):
            told = told_by_etcd(address, "/v3/maintenance/status")
            if told and told["header"]["member_id"] == told["leader"]:
                return place
    return None


def is_set(system, place=0):
    """Whether a set of a key of no load is answered at a place, at redis by two replicas."""
    with contextlib.suppress(OSError, http.client.HTTPException):
        if system.kind == "etcd":
            return told_by_etcd(system.addresses[place], "/v3/kv/put", key=b64encode(b"first").decode(), value=b64encode(VALUE).decode()) is not None
        is_redis = system.kind == "redis"
        asked = (b"SET first %s\r\nWAIT 2 1000\r\n" if is_redis else b"set first 0 0 100\r\n%s\r\n") % VALUE
        with socket.create_connection(address_of(system.addresses[place]), timeout=10) as conn, conn.makefile("rb") as read:
            conn.sendall(asked)
            told = [read.readline() for _line in range(2 if is_redis else 1)]
        return told == ([b"+OK\r\n", b":2\r\n"] if is_redis else [b"STORED\r\n"])
    return False


def serve(bench, nodes=1, workers=1, managers=0, name=None):
    """Nodes, workers and managers in one process."""
    server = servers.serve(bench.program, bench.free.take(), MANY, nodes, workers, managers)
    return System("serve", [server], [server.port], name)


def peers(bench, nodes=3):
    """Nodes, each a process of its own."""
    group = servers.Group(bench.program, bench.free, nodes, MANY)
    return System("peers", list(group.servers.values()), [group.port(node) for node in range(nodes)])


class HostsSystem(System):
    """A group over three hosts: addresses 127.0.N.1 to .3 of this machine. It is founded once it is started, which takes ten seconds."""

    def __init__(self, bench, lease):
        self.hosts = Hosts(bench.program, lease=lease)
        self.hosts.start_all()
        addresses = [f"{host}:{CLIENTS}" for host in self.hosts.addresses]
        super().__init__("hosts", list(self.hosts.servers.values()), addresses, f"hosts-{lease}")

    def found(self):
        self.hosts.found()
        return self

    def kill_at(self, place):
        self.hosts.kill(place)

    def start_again(self, place, seconds=SOON):
        self.hosts.start(place)
        self.hosts.wait_ready(place, seconds)

    def __exit__(self, *cause):
        self.hosts.__exit__(*cause)


class OneHostSystem(System):
    """The process of a group over one host, with two event loops."""

    def __init__(self, bench):
        self.group = one_host(bench.program, bench.free.take(), "--workers", 2)
        server = self.group.__enter__()
        super().__init__("node", [server], [server.port])

    def __exit__(self, *cause):
        self.group.__exit__(*cause)


def is_there(program, package):
    """Whether the program of another system is installed."""
    if shutil.which(program):
        return True
    print(f"{NAME}: {program} is not installed (Debian's package {package}), so it is left out", file=sys.stderr, flush=True)
    return False


def memcached(bench, connections=1_024):
    port = bench.free.take()
    words = ["-u", "nobody", "-l", HOST, "-p", port, "-t", 2, "-m", 4_096, "-c", connections]
    return System("memcached", [Server(["memcached"], words, port).wait_for()], [port])


def redis(bench):
    """One that takes sets, and two replicas."""
    first = bench.free.take(3)
    words = [["--port", first + at, "--bind", HOST, "--save", "", "--appendonly", "no", "--dir", bench.room] for at in range(3)]
    for of_replica in words[1:]:
        of_replica += ["--replicaof", f"{HOST} {first}"]
    return System("redis", [Server(["redis-server"], of_one, first + at) for at, of_one in enumerate(words)], [first])


def etcd(bench):
    """Three members, whose logs are in memory."""
    first = bench.free.take(6)
    url = f"http://{HOST}:"
    cluster = ",".join(f"m{at}={url}{first + 3 + at}" for at in range(3))
    members = []
    for at in range(3):
        client, inside = f"{url}{first + at}", f"{url}{first + 3 + at}"
        words = ["--name", f"m{at}", "--data-dir", f"{bench.room_in_memory}/etcd-{first}-{at}", "--listen-client-urls", client, "--advertise-client-urls", client]
        words += ["--listen-peer-urls", inside, "--initial-advertise-peer-urls", inside, "--initial-cluster", cluster, "--log-level", "fatal"]
        members.append(Server(["etcd"], words, first + at))
    return System("etcd", members, range(first, first + 3))


def others(bench):
    """What is measured beside ours, of what is installed: memcached, redis and etcd, started, and serving."""
    if is_there("memcached", "memcached"):
        yield memcached(bench).wait_for_set()
    if is_there("redis-server", "redis-server"):
        yield redis(bench).wait_for_set()
    if is_there("etcd", "etcd-server"):
        yield etcd(bench).wait_for_set()


def promises(of):
    """Prints what systems promise, and what they keep on disk."""
    for system in of:
        print(f"{system.name}: {PROMISES[system.kind]}", flush=True)


# ---- measures


@dataclass
class Figures:
    """Of requests of a kind: how many were answered a second; of each the processor time of all processes together, and the median and the 99th percentile of the time to its answer, in microseconds; how many were refused."""

    rate: float
    spent: float
    half: float
    most: float
    refused: float

    def __str__(self):
        refused = f" ({self.refused:.0f} were refused)" if self.refused else ""
        return f"{self.rate:.0f} requests/s, {self.spent:.2f} us of processor each, p50 {self.half:.0f} us, p99 {self.most:.0f} us{refused}"


def median_of(runs):
    return Figures(*(statistics.median(column) for column in zip(*map(astuple, runs))))


class Load:
    """The clients, built in a room of their own."""

    def __init__(self, room):
        self.program = f"{room}/load"
        subprocess.run(["rustc", "-O", "-o", self.program, TOP / "bench/load.rs"], check=True)

    def run(self, system, *words):
        words = [self.program, *([system.kind] if system.kind in SPOKEN else []), *words]
        ran = subprocess.run([str(word) for word in words], stdin=subprocess.DEVNULL, stdout=subprocess.PIPE, stderr=subprocess.PIPE, text=True)
        if ran.returncode != 0:
            raise Fault(f"{system.name}: a client fails: {ran.stderr:.300}")
        return ran.stdout

    def fill(self, system, keys, data=len(VALUE)):
        """Sets so many keys to values of so many bytes."""
        self.run(system, system.addresses[0], keys, data)

    def ask(self, system, connections, depth, requests, sets, limit=LIMIT):
        """Asks so many requests, or for the seconds of the limit, over so many connections with so many on their way; sets in a hundred are sets."""
        asked = [",".join(system.addresses), ",".join(map(str, system.pids())), connections, depth, requests, sets, limit]
        return Figures(*map(float, self.run(system, *asked).split()))

    def ask_during(self, system, connections, depth, sets, act):
        """Asks for as long as something takes that is done meanwhile. Gives the figures, and what was given."""
        words = [self.program, ",".join(system.addresses), ",".join(map(str, system.pids())), connections, depth, ENDLESS, sets, "-"]
        asking = subprocess.Popen([str(word) for word in words], stdin=subprocess.PIPE, stdout=subprocess.PIPE, stderr=subprocess.PIPE, text=True)
        try:
            given = act()
        finally:
            told, errors = asking.communicate()
        if asking.returncode != 0:
            raise Fault(f"{system.name}: a client fails: {errors:.300}")
        return Figures(*map(float, told.split())), given

    def medians(self, systems, connections, depth, requests, sets, rounds=ROUNDS):
        """By system, in turn, the medians of some rounds. A system has its share of the requests. Etcd has one request on its way, and is left out of others."""
        asked = {system: [] for system in systems if depth == 1 or system.kind != "etcd"}
        for _round in range(rounds):
            for system, runs in asked.items():
                runs.append(self.ask(system, connections, depth, requests[system.name] if isinstance(requests, dict) else requests, sets))
        return {system.name: median_of(runs) for system, runs in asked.items()}


def workload(connections, depth, sets):
    """The name of a workload, as bench/plot reads it."""
    return f"{connections} connections, depth {depth}, {sets}% sets"


def compare(what, figures, ours, theirs):
    """Prints the figures of one of ours beside another system's, with their ratios."""
    mine, other = figures[ours], figures[theirs]
    ratios = [first / second if second else math.nan for first, second in zip(astuple(mine), astuple(other))][:4]
    words = ", of ".join(f"{name} {ratio:.2f}" for name, ratio in zip(("rates", "processor time", "p50", "p99"), ratios))
    print(f"{what}, {ours}: {mine}; {theirs}: {other}; ratio of {words}", flush=True)


def rest(systems, seconds=REST):
    """By system what it takes where nobody asks: hundredths of a second of processor time in ten seconds, and packets a second, all processes together."""
    begun = [(system.processor_seconds(), system.packets()) for system in systems]
    time.sleep(seconds)
    taken = {}
    for system, (spent, sent) in zip(systems, begun):
        packets = system.packets()
        taken[system.name] = ((system.processor_seconds() - spent) * 1_000 / seconds, None if packets is None else (packets - sent) / seconds)
    return taken


# ---- what is printed


def table(title, heads, rows):
    """Prints a table, row by row as they come: rows are names with their cells."""
    print(f"| {title} |", *(f"{head} |" for head in heads))
    print("|---|" + "---|" * len(heads), flush=True)
    for name, cells in rows:
        print(f"| {name} |", *(f"{cell} |" for cell in cells), flush=True)


def mb(taken):
    """Bytes as megabytes of a million."""
    return f"{taken / 1e6:,.0f} MB" if taken > 1e7 else f"{taken / 1e6:.1f} MB"


# ---- a bench


@dataclass
class Bench:
    """What a bench is given: its words, the program, free ports, folders on disk and in memory, and the clients."""

    words: list
    program: list
    free: ports.Ports
    room: str
    room_in_memory: str
    load: Load


@contextlib.contextmanager
def measuring(seconds):
    """A Bench. It ends behind so many seconds, whatever is done, and its servers with it."""
    words, program = servers.split_words(sys.argv[1:])
    servers.watch_time(seconds)
    with tempfile.TemporaryDirectory(prefix="hermes-bench-") as room, tempfile.TemporaryDirectory(prefix="hermes-bench-", dir=MEMORY) as room_in_memory:
        try:
            yield Bench(words, program, ports.Ports(), room, room_in_memory, Load(room))
        except Fault as fault:
            sys.exit(f"{NAME}: {fault}")
        finally:
            servers.end_all()
