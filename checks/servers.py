"""Servers that a check starts, waits for, looks at and ends, their clients, and cases that are tried side by side.

A server is the proved program, unless a check names another one behind `--`. Whatever ends a check, but for KILL, ends its servers first."""
import atexit
import importlib.machinery
import importlib.util
import os
import resource
import select
import shutil
import signal
import socket
import struct
import subprocess
import sys
import tempfile
import time
from concurrent.futures import ThreadPoolExecutor
from pathlib import Path

import built
import ports
from ports import HOST

TOP = Path(__file__).resolve().parent.parent
SECONDS = 60
# For how long something is asked again that is busy.
PATIENCE = 20
TICK = 1 / os.sysconf("SC_CLK_TCK")
MEBIBYTE = 1 << 20
BUSY = b"SERVER_ERROR busy\r\n"
UNKNOWN = b"SERVER_ERROR outcome unknown\r\n"
NO_MEMORY = b"SERVER_ERROR out of memory\r\n"
STORED = b"STORED\r\n"
running = set()


class Fault(Exception):
    """A server did not do what is due: the text has both."""


def expect(told, wanted, what):
    if told != wanted:
        raise Fault(f"{what}: {told!r:.300} where {wanted!r:.300} is due")


def expect_at_most(figure, bound, what):
    if figure > bound:
        raise Fault(f"{what}: {figure} where at most {bound} is due")


def split_words(words):
    """The words of a check, and the program that it is to run: what stands behind `--`, else the proved one, built where it is missing or old."""
    if "--" in words:
        at = words.index("--")
        return words[:at], words[at + 1 :]
    return words, [built.hermes()]


def check_named(name):
    """Another check as a module."""
    loader = importlib.machinery.SourceFileLoader(name, str(TOP / "checks" / name))
    module = importlib.util.module_from_spec(importlib.util.spec_from_loader(name, loader))
    sys.modules[name] = module
    loader.exec_module(module)
    return module


def end_all(*_signal):
    for server in list(running):
        server.kill()
    if _signal:
        sys.exit(f"{Path(sys.argv[0]).name}: stopped by signal {_signal[0]}")


def watch_time(seconds):
    """Ends the check, and its servers, behind so many seconds, or where it is told to end."""
    atexit.register(end_all)
    for number in (signal.SIGTERM, signal.SIGINT, signal.SIGHUP, signal.SIGALRM):
        signal.signal(number, end_all)
    signal.alarm(seconds)
    # a thousand connections at once, where the system lets us
    soft, hard = resource.getrlimit(resource.RLIMIT_NOFILE)
    resource.setrlimit(resource.RLIMIT_NOFILE, (max(soft, min(hard, 8_192)), hard))


# ---- servers


def states(process):
    """How each thread of a process stands: `T` where it is stopped."""
    return {path.read_text().rsplit(") ", 1)[1][0] for path in Path(f"/proc/{process.pid}/task").glob("*/stat")}


def pause(process):
    """Stops a process, and returns once none of its threads runs: until then it may still answer."""
    process.send_signal(signal.SIGSTOP)
    until = time.monotonic() + SECONDS
    while states(process) != {"T"}:
        if process.poll() is not None:
            raise Fault(f"a process that is to be stopped has ended with status {process.returncode}")
        if time.monotonic() > until:
            raise Fault("a process does not stop")
        time.sleep(0.001)


class Server:
    """A process of the program on a port, and what it tells on standard error."""

    def __init__(self, program, words, port, **options):
        self.port = port
        self.errors = tempfile.TemporaryFile()
        words = [str(word) for word in words]
        self.process = subprocess.Popen(
            [*program, *words], stdin=subprocess.DEVNULL, stdout=subprocess.DEVNULL, stderr=self.errors, **options
        )
        running.add(self)

    def __enter__(self):
        return self

    def __exit__(self, *_cause):
        self.kill()
        self.errors.close()

    def kill(self):
        # a stopped process is killed too
        self.process.kill()
        self.process.wait()
        running.discard(self)

    def wait_for(self, seconds=SECONDS):
        """Waits until it listens."""
        if not ports.wait_for(self.process, self.port, seconds):
            raise Fault(f"it does not listen on port {self.port}: status {self.process.poll()}, {self.told()!r:.300}")
        return self

    def told(self):
        return os.pread(self.errors.fileno(), 1 << 16, 0).decode(errors="replace")

    def expect_no_doubt(self, what):
        """No node was told by letters that another has forgotten, or is none of its group."""
        doubts = [line for line in self.told().splitlines() if "has forgotten" in line or "is no member" in line]
        expect(doubts, [], f"{what}: doubts on standard error")

    def is_up(self):
        return self.process.poll() is None

    def expect_up(self, what):
        if not self.is_up():
            raise Fault(f"{what}: the server ended with status {self.process.returncode}, {self.told()!r:.300}")

    def status(self, seconds=SECONDS):
        """The status with which it ends, None where it does not."""
        try:
            return self.process.wait(seconds)
        except subprocess.TimeoutExpired:
            return None

    def limit(self, kind, soft):
        """Sets a limit of the process, None for what it had. Gives the one before."""
        before = resource.prlimit(self.process.pid, kind)
        resource.prlimit(self.process.pid, kind, (soft, before[1]))
        return before[0]

    def limit_threads(self, soft):
        """Sets how many threads its user may have, as that user: the first one may not limit others' processes everywhere."""
        words = ["prlimit", f"--pid={self.process.pid}", f"--nproc={soft}:"]
        subprocess.run(words, check=True, stderr=subprocess.PIPE, **owner())

    def pause(self):
        pause(self.process)

    def go_on(self):
        self.process.send_signal(signal.SIGCONT)

    # what the kernel tells of it

    def status_of(self, name):
        """A line of its status: memory in bytes, threads by number. 0 where it has ended."""
        try:
            for line in Path(f"/proc/{self.process.pid}/status").read_text().splitlines():
                if line.startswith(name + ":"):
                    words = line.split()
                    return int(words[1]) << (10 if words[-1] == "kB" else 0)
        except FileNotFoundError:
            pass
        return 0

    def memory(self):
        return self.status_of("VmRSS")

    def processor_seconds(self):
        words = Path(f"/proc/{self.process.pid}/stat").read_text().rpartition(") ")[2].split()
        return (int(words[11]) + int(words[12])) * TICK

    def descriptors(self):
        return len(os.listdir(f"/proc/{self.process.pid}/fd"))


def serve(program, port, conns, nodes=1, workers=1, managers=0, lease=1000, skew=0, **options):
    """A server that listens."""
    words = f"serve --nodes {nodes} --workers {workers} --managers {managers} --lease {lease} --skew {skew} --port {port} --conns {conns}".split()
    return started(program, words, port, options)


def peer(program, first, node, nodes, conns, **options):
    """The process of one node of a group, which listens."""
    words = f"peer --id {node} --nodes {nodes} --workers 1 --port {first} --conns {conns}".split()
    return started(program, words, first + node, options)


def started(program, words, port, options):
    server = Server(program, words, port, **options)
    try:
        return server.wait_for()
    except BaseException:
        server.kill()
        raise


class Group:
    """Processes whose ports follow each other, from a free one on; those of some nodes may be left out at first."""

    def __init__(self, program, free, nodes, conns, begin=None):
        self.program, self.nodes, self.conns = program, nodes, conns
        self.first = free.take(nodes)
        self.servers = {}
        try:
            for node in range(nodes) if begin is None else begin:
                self.begin(node)
        except BaseException:
            self.kill()
            raise

    def begin(self, node, **options):
        self.servers[node] = peer(self.program, self.first, node, self.nodes, self.conns, **options)
        return self.servers[node]

    def __enter__(self):
        return self

    def __exit__(self, *_cause):
        self.kill()

    def kill(self):
        for server in self.servers.values():
            server.kill()

    def port(self, node):
        return self.first + node

    def client(self, node, seconds=1.5 * PATIENCE):
        return Client(self.port(node), seconds)

    def expect_up(self, what):
        for node, server in self.servers.items():
            server.expect_up(f"{what}, node {node}")


def owner():
    """Options that start a server as a user of its own, whose threads the system counts: it counts none of the first user's."""
    return {"user": 65_534, "group": 65_534, "extra_groups": []} if os.geteuid() == 0 else {}


def copy_for_all(program, room):
    """The program where each user may run it."""
    copy = Path(room) / "hermes"
    shutil.copyfile(program[0], copy)
    copy.chmod(0o755)
    Path(room).chmod(0o755)
    return [str(copy), *program[1:]]


# ---- clients


def asks_within(seconds, what):
    """Numbers of asks, one after the other till the time is over: that is a Fault."""
    ends, number = time.monotonic() + seconds, 0
    while number == 0 or time.monotonic() < ends:
        number += 1
        yield number
        time.sleep(0.001)
    raise Fault(f"{what} at each of {number} asks in {seconds} s")


class Client:
    """A connection to a server. Each reply is read as it is."""

    def __init__(self, port, seconds=SECONDS):
        self.conn = socket.create_connection((HOST, port), timeout=seconds)
        self.conn.setsockopt(socket.IPPROTO_TCP, socket.TCP_NODELAY, 1)
        self.read = self.conn.makefile("rb")

    def __enter__(self):
        return self

    def __exit__(self, *_cause):
        self.close()

    def close(self):
        self.read.close()
        self.conn.close()

    def send(self, sent):
        self.conn.sendall(sent)

    def line(self):
        return self.read.readline()

    def hears(self, seconds):
        """Whether something comes within so many seconds, be it the end."""
        return bool(select.select([self.conn], [], [], seconds)[0])

    def ask(self, sent):
        """The reply of one line."""
        self.send(sent)
        return self.line()

    def begin(self, key, value):
        self.send(b"set %s 0 0 %d\r\n%s\r\n" % (key, len(value), value))

    def set(self, key, value):
        self.begin(key, value)
        return self.line()

    def got(self):
        """The value of a get, None where there is none; the line of an error as a Fault."""
        line = self.line()
        if line == b"END\r\n":
            return None
        if not line.startswith(b"VALUE "):
            raise Fault(f"a get is told {line!r}")
        value = self.read.read(int(line.split()[3]) + 2)[:-2]
        expect(self.line(), b"END\r\n", "the end of a get")
        return value

    def get(self, key, seconds=PATIENCE):
        """The value, None where there is none, asked again for so long while the key is busy; and at which ask it came."""
        for number in asks_within(seconds, f"get {key!r} is busy"):
            self.send(b"get %s\r\n" % key)
            if not self.read.peek(1).startswith(b"S"):
                return self.got(), number
            expect(self.line(), BUSY, f"get {key!r}")

    def set_till(self, key, value, seconds=PATIENCE):
        """Sets until it is stored, for so long; gives at which ask it was."""
        for number in asks_within(seconds, f"set {key!r} is not stored"):
            told = self.set(key, value)
            if told == STORED:
                return number
            if told not in (BUSY, UNKNOWN):
                raise Fault(f"set {key!r} is told {told!r} at ask {number}")

    def reset(self):
        """Ends the connection by a reset."""
        self.conn.setsockopt(socket.SOL_SOCKET, socket.SO_LINGER, struct.pack("ii", 1, 0))
        self.close()


def until(seconds, holds, pause=0.05):
    """Whether it holds before so many seconds are over; how many it took."""
    begun = time.monotonic()
    while time.monotonic() - begun < seconds:
        if holds():
            return time.monotonic() - begun
        time.sleep(pause)
    return None


def is_served(port, seconds=5):
    """Whether a new client is answered."""
    try:
        with Client(port, seconds) as client:
            return client.ask(b"version\r\n") == b"VERSION hermes-1\r\n"
    except OSError:
        return False


# ---- cases


class Cases:
    """Cases of a check: each gives a line of figures, or raises a Fault. A line is printed for each, and faults are counted."""

    def __init__(self, name, wanted=()):
        self.name, self.wanted, self.faults, self.tried = name, wanted, 0, 0

    def try_all(self, cases, waiting, *given):
        """Tries the cases one after the other, and beside them those that do little but wait."""
        known = {case.__name__ for case in [*cases, *waiting]}
        if not set(self.wanted) <= known:
            sys.exit(f"{self.name}: the cases are {' '.join(sorted(known))}")
        chosen = [[case for case in some if not self.wanted or case.__name__ in self.wanted] for some in (cases, waiting)]
        with ThreadPoolExecutor(len(waiting)) as pool:
            for case in chosen[1]:
                pool.submit(self.try_one, case, *given)
            for case in chosen[0]:
                self.try_one(case, *given)

    def end(self):
        """Prints how many faults there were. Gives the status of the check."""
        print(f"{self.name}: {self.tried} cases, {self.faults} faults", flush=True)
        return 1 if self.faults else 0

    def try_one(self, case, *given):
        begun = time.monotonic()
        self.tried += 1
        try:
            told = case(*given)
        except Exception as fault:
            # whatever it is: what a pool runs would else be missed
            self.faults += 1
            met = "nothing is told for longer than a client waits" if isinstance(fault, TimeoutError) else repr(fault)
            told = f"FAULT: {fault if isinstance(fault, Fault) else met}"
        print(f"{self.name}: {case.__name__.replace('_', ' ')}: {told} ({time.monotonic() - begun:.1f} s)", flush=True)
