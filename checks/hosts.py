"""Groups over hosts: the processes of one on this machine, at addresses of their own, and the questions that a stranger or an operator asks them."""
import contextlib
import fcntl
import hashlib
import hmac
import re
import shutil
import socket
import subprocess
import tempfile
import threading
from pathlib import Path

from servers import Client, Fault, Server, expect, until

SECRET = b"a secret of the check, 16 bytes and more"
GROUP = b"hermes"
# The usual lease and skew, and the lease that most cases take.
USUAL_LEASE, SKEW, LEASE = 1_000, 10, 400
INSIDE, CLIENTS = 11_400, 11_211
NETWORKS = range(1, 200)
# How long something is waited for that takes a moment, or the ten seconds of a founding, on a machine that is full.
SOON, FOUNDING = 30, 60
FIRST_VIEW = "view shards=0-7 epoch=1 members=0,1,2 next=3"
FOUNDED = re.compile(r"founded ([0-9a-f]{16})\n")
OUT, LOG, REFUSED, UNREACHABLE = 10, 11, 12, 13
REQUESTS, MANAGER, NEITHER = 1, 1, 2
CLAIM, STATUS = 3, 7
YES, STATUS_TOLD = 0x80, 0x87


# ---- networks


class Network:
    """Addresses 127.0.N.1 and on, which no other group has as long as this one does."""

    turn = threading.Lock()

    def __init__(self):
        with Network.turn:
            for self.number in NETWORKS:
                self.lock = open(Path(tempfile.gettempdir()) / f"hermes-network-{self.number}", "a")
                try:
                    fcntl.flock(self.lock, fcntl.LOCK_EX | fcntl.LOCK_NB)
                    return
                except OSError:
                    self.lock.close()
        raise Fault("other groups have all networks")

    def address(self, place):
        return f"127.0.{self.number}.{place + 1}"

    def leave(self):
        self.lock.close()


def can_connect(host, port):
    with contextlib.closing(socket.socket()) as probe:
        probe.settimeout(1)
        return probe.connect_ex((host, port)) == 0


# ---- who dials


class HostClient(Client):
    """A client of a node."""

    def __init__(self, host, seconds=SOON):
        self.conn = socket.create_connection((host, CLIENTS), timeout=seconds)
        self.conn.setsockopt(socket.IPPROTO_TCP, socket.TCP_NODELAY, 1)
        self.read = self.conn.makefile("rb")


def hello_of(challenge, place, hosts, secret=SECRET, group=GROUP):
    """What a command says to the manager of a place."""
    parties = bytes([NEITHER, 0, 0, MANAGER, 0, place])
    home = hashlib.sha256(",".join(f"{host}:{INSIDE}" for host in hosts).encode()).digest()[:8]
    said = bytes([REQUESTS]) + parties + bytes(8) + bytes(16) + home + bytes(8) + bytes([len(group)]) + group
    said = (len(said) + 32).to_bytes(2, "big") + said
    return said + hmac.new(secret, challenge + said, hashlib.sha256).digest()


class Inside:
    """A connection to a manager, made as commands make theirs."""

    def __init__(self, host, seconds=SOON):
        self.conn = socket.create_connection((host, INSIDE), timeout=seconds)
        self.read = self.conn.makefile("rb")

    def __enter__(self):
        return self

    def __exit__(self, *_cause):
        self.read.close()
        self.conn.close()

    def greet(self, place, hosts, **others):
        """The code of the answer: 0 where it is taken, with a proof behind it."""
        header = self.bytes(20)
        expect(header[:4], b"hk01", "how a greeting begins")
        self.conn.sendall(hello_of(header[4:], place, hosts, **others))
        code = self.bytes(1)[0]
        if code == 0:
            self.bytes(32)
        return code

    def bytes(self, count):
        told = self.read.read(count)
        if len(told) < count:
            raise ConnectionError("a manager ended the connection")
        return told

    def ask(self, kind, body=b""):
        """The kind of a manager's answer, and what stands behind it."""
        self.conn.sendall((1 + len(body)).to_bytes(4, "big") + bytes([kind]) + body)
        told = self.bytes(int.from_bytes(self.bytes(4), "big"))
        return told[0], told[1:]

    def status(self):
        kind, told = self.ask(STATUS)
        expect(kind, STATUS_TOLD, "the kind of an answer to STATUS")
        return told.decode().splitlines()

    def claim(self, node, ticket):
        """The process of this ticket claims a node's number."""
        expect(self.ask(CLAIM, node.to_bytes(2, "big") + ticket)[0], YES, f"the kind of an answer to a claim of node {node}")


# ---- a group


class Hosts:
    """Three hosts on this machine: a folder each, with the secret in `hermes-data`, and the processes that run there."""

    def __init__(self, program, lease=LEASE, count=3, network=None):
        self.program, self.count, self.lease = program, count, lease or USUAL_LEASE
        self.terms = ["--lease", lease] if lease else []
        self.network = network or Network()
        self.room = Path(tempfile.mkdtemp(prefix="hermes-hosts-"))
        self.addresses = [self.network.address(place) for place in range(count)]
        self.list = ",".join(self.addresses)
        self.servers = {}
        for place in range(count):
            self.make_folder(place)

    def __enter__(self):
        return self

    def __exit__(self, *_cause):
        for server in self.servers.values():
            server.kill()
        shutil.rmtree(self.room, ignore_errors=True)
        self.network.leave()

    def make_folder(self, place):
        self.data(place).mkdir(parents=True)
        (self.data(place) / "secret").write_bytes(SECRET + b"\n")

    def folder(self, place):
        """The folder in which the host's process is started."""
        return self.room / f"host-{place}"

    def data(self, place):
        return self.folder(place) / "hermes-data"

    def log(self, place):
        return self.data(place) / "log"

    # its processes

    def program_at(self, place):
        """What starts the program on a host."""
        return self.program

    def start(self, place, *more, **options):
        """Starts the process of a host, by the line of OPERATIONS.md, with these words more."""
        words = ["node", "--hosts", self.list, "--at", place, *self.terms, *more]
        self.servers[place] = Server(self.program_at(place), words, CLIENTS, **{"cwd": self.folder(place), **options})
        return self.servers[place]

    def start_joiner(self, *more, place=None, **options):
        """Starts the process of one host more, which has no manager, by the line of OPERATIONS.md, or anew at the place of such a one. Gives its place."""
        if place is None:
            place = len(self.addresses)
            self.addresses.append(self.network.address(place))
            self.make_folder(place)
        words = ["node", "--hosts", self.list, "--inside", self.addresses[place], *self.terms, *more]
        self.servers[place] = Server(self.program, words, CLIENTS, **{"cwd": self.folder(place), **options})
        return place

    def start_all(self):
        for place in range(self.count):
            self.start(place)
        for place in range(self.count):
            self.wait_inside(place)

    def kill(self, place):
        self.servers[place].kill()

    def wait_inside(self, place):
        """Waits until other processes can reach it."""
        self.wait_for(lambda: can_connect(self.addresses[place], INSIDE), SOON, f"host {place} takes no connection", place)

    def wait_ready(self, place, seconds=SOON):
        """Waits until it serves clients. Where it does not, what `status` tells is told."""
        try:
            self.wait_for(lambda: can_connect(self.addresses[place], CLIENTS), seconds, f"node {place} is not ready", place)
        except Fault as fault:
            raise Fault(f"{fault}; {self.how_it_stands()}") from None

    def wait_for(self, holds, seconds, what, place=None):
        def is_over():
            if place is not None and not self.servers[place].is_up():
                server = self.servers[place]
                raise Fault(f"{what}: it ended with status {server.process.returncode}, {server.told()!r:.300}")
            return holds()

        if until(seconds, is_over, 0.02) is None:
            raise Fault(f"{what} in {seconds} s")

    def client(self, place):
        """A client of the node of a host. Where it takes none, what `status` tells is told."""
        try:
            return HostClient(self.addresses[place])
        except ConnectionRefusedError:
            raise Fault(f"node {place} takes no client; {self.how_it_stands()}") from None

    # its commands

    def command(self, name, *more, **options):
        """The status of a command, and what it writes on standard output and on standard error."""
        return self.end(self.begin(name, *more, **options))

    def begin(self, name, *more, **options):
        words = [str(word) for word in (name, "--hosts", self.list, *more)]
        pipes = {"stdin": subprocess.DEVNULL, "stdout": subprocess.PIPE, "stderr": subprocess.PIPE}
        return subprocess.Popen([*self.program, *words], text=True, **{"cwd": self.folder(0), **pipes, **options})

    def end(self, command):
        try:
            told, error = command.communicate(timeout=FOUNDING)
        except subprocess.TimeoutExpired:
            command.kill()
            raise Fault(f"{command.args[1]} does not end in {FOUNDING} s") from None
        return command.returncode, told, error

    def found(self, places=None):
        """Founds the group, and waits until each node, or each of these places, serves clients. Gives the founding."""
        status, told, error = self.command("init")
        expect((status, error), (0, ""), "init")
        founding = FOUNDED.fullmatch(told)
        if not founding:
            raise Fault(f"init tells {told!r}")
        for place in range(self.count) if places is None else places:
            self.wait_ready(place)
        return founding[1]

    def status(self):
        """The lines of `status`."""
        status, told, error = self.command("status")
        expect((status, error), (0, ""), "status")
        return told.splitlines()

    def how_it_stands(self):
        """What `status` tells, and which processes have ended, in words for a Fault."""
        ended = {place: (server.process.returncode, server.told()[-300:]) for place, server in self.servers.items() if not server.is_up()}
        return f"status tells {self.command('status')[1].splitlines()}; processes that have ended, with their statuses and what they told: {ended}"

    def is_open(self, place):
        """Whether the manager of this host tells that it is open."""
        with contextlib.suppress(OSError):
            return "stage=open" in self.told_by(place)[0]
        return False

    def told_by(self, place):
        """The lines that the manager of this very host tells."""
        with Inside(self.addresses[place]) as inside:
            expect(inside.greet(place, self.addresses[: self.count]), 0, f"the answer of host {place} to a hello")
            return inside.status()

    def node_lines(self):
        """What `status` tells of nodes: the words of each line, by their numbers."""
        return {int(line.split()[1]): line.split() for line in self.status() if line.startswith("node ")}

    def wait_state(self, node, state, seconds=SOON):
        """Waits until `status` tells this state of a node."""
        self.wait_for(lambda: self.node_lines().get(node, [""] * 4)[3] == state, seconds, f"node {node} is not {state}")

    def foundings(self):
        """The foundings that managers tell to be open."""
        found = set()
        for place in range(self.count):
            with contextlib.suppress(OSError):
                first = self.told_by(place)[0]
                found |= set(re.findall(r"founding=([0-9a-f]{16}) stage=open", first))
        return found

    def wait_agreed(self, founding, view=None):
        """Waits until all managers are open with this founding, and tell one view of all shards, which is this one if it is given."""
        first = f"group {GROUP.decode()} founding={founding} stage=open lease={self.lease} skew={SKEW}"
        told = {}

        def is_agreed():
            for place in range(self.count):
                try:
                    told[place] = self.told_by(place)
                except ConnectionRefusedError:
                    raise Fault(f"manager {place} takes no connection; {self.how_it_stands()}") from None
            agreed = [view] if view else views_told(told[0])[:1]
            return all(lines[0] == first and views_told(lines) == agreed for lines in told.values())

        if until(SOON, is_agreed, 0.1) is None:
            raise Fault(f"managers do not agree in {SOON} s on {first!r} and {view or 'one view'!r}: {told}")


def views_told(lines):
    """The lines of views among these."""
    return [line for line in lines if line.startswith("view ")]


def records_told(lines, place):
    """How many records of the log of a place these lines tell, or none."""
    found = [re.match(rf"manager {place} .* records=(\d+)$", line) for line in lines]
    return next((int(one[1]) for one in found if one), None)


def leases_left(lines):
    """The milliseconds that these lines tell to be left of the leases of nodes that are ready in all shards of the first view."""
    found = [re.match(r"node \d+ \S+ ready .* shards=8 epoch=1 lease=(\d+) ", line) for line in lines]
    return [int(one[1]) for one in found if one]


def counts_told(lines, node):
    """What these lines tell a node to hold and to have told, by name, or nothing."""
    found = [line for line in lines if line.startswith(f"node {node} ")]
    names = ("keys", "bytes", "gets", "sets", "busy", "aborted", "unknown")
    return {name: int(count) for line in found for name, count in re.findall(r"(\w+)=(\d+)", line) if name in names}


def is_up(lines, place):
    """Whether these lines tell the manager of a place to be up."""
    return any(re.match(rf"manager {place} \S+ up=", line) for line in lines)


@contextlib.contextmanager
def one_host(program, port, *more, **options):
    """The process of a group of one host, whose node serves clients at this port of 127.0.0.1."""
    with Hosts(program, count=1) as hosts:
        hosts.start(0, "--listen", f"127.0.0.1:{port}", *more, **options)
        hosts.wait_inside(0)
        hosts.found(places=[])
        server = hosts.servers[0]
        server.port = port
        yield server.wait_for()
