"""What processes of one group stay up through: cases for `checks/peers`. Each starts processes of its own, and gives a line of figures."""
import contextlib
import ctypes
import os
import random
import resource
import shutil
import socket
import tempfile
import threading
import time
from concurrent.futures import ThreadPoolExecutor
from dataclasses import dataclass

import ports
import preloaded
import servers
from servers import BUSY, MEBIBYTE, NO_MEMORY, SECONDS, STORED, UNKNOWN, Fault, Group, expect, expect_at_most, is_served, until
from staying import IDLE_SHARE, answered, close_all, come, expect_reads, fill, free_some, try_good

PIDFD_GETFD = 438
ACK = 2
# No ask is given up before so many seconds; also a full machine gives it up before so many.
UNKNOWN_AFTER, UNKNOWN_BEFORE = 2.0, 20.0
FORGOT = "has forgotten what it acknowledged, as a process does that is started again"
# So often at most a key is asked for whose update got lost.
FEW_ASKS = 4
libc = ctypes.CDLL(None, use_errno=True)


@dataclass
class Room:
    """What all cases are given."""

    program: list
    free: ports.Ports
    is_short: bool

    def group(self, nodes, conns=1_000_000, begin=None):
        return Group(self.program, self.free, nodes, conns, begin)


# ---- connections between processes


def dialled(server, group):
    """The process's ends of connections that it dialled to other nodes, as sockets of ours too."""
    pidfd = os.pidfd_open(server.process.pid)
    found = []
    for name in os.listdir(f"/proc/{server.process.pid}/fd"):
        try:
            if not os.readlink(f"/proc/{server.process.pid}/fd/{name}").startswith("socket:"):
                continue
        except OSError:
            continue
        copy = libc.syscall(PIDFD_GETFD, pidfd, int(name), 0)
        if copy < 0:
            if ctypes.get_errno() == 1:
                raise Fault("the system does not let a check take the sockets of its own processes (pidfd_getfd)")
            continue
        one = socket.socket(fileno=copy)
        try:
            is_peer = group.first <= one.getpeername()[1] < group.first + group.nodes
        except OSError:
            is_peer = False
        if is_peer:
            found.append(one)
        else:
            one.close()
    os.close(pidfd)
    return found


def reset(one):
    """Resets a connection. What is under way on it is lost."""
    return libc.connect(one.fileno(), bytes(16), 16) == 0


def reset_all(group):
    """Resets all connections between the processes. Gives how many."""
    count = 0
    for server in group.servers.values():
        for one in dialled(server, group):
            count += reset(one)
            one.close()
    return count


def meet(group):
    """A set at each node, so that all connections between them stand."""
    for node in group.servers:
        with group.client(node) as client:
            try_good(client, node)


# ---- what the system refuses


def a_peer_without_descriptors(room):
    with room.group(3) as group, group.client(0) as good, group.client(1) as other:
        meet(group)
        server = group.servers[0]
        before = server.limit(resource.RLIMIT_NOFILE, server.descriptors() + 20)
        spent, begun = server.processor_seconds(), time.monotonic()
        conns = come(server.port, 60)
        for number in range(20):
            try_good(good, number)
            try_good(other, 20 + number)
        served, _ = answered(conns, 2)
        share = (server.processor_seconds() - spent) / (time.monotonic() - begun)
        close_all(conns)
        group.expect_up("where descriptors are short")
        server.limit(resource.RLIMIT_NOFILE, before)
        took = until(15, lambda: is_served(server.port))
        group.expect_up("once there were descriptors")
        if took is None:
            raise Fault("no new client is served 15 s after the connections were closed")
        return f"of 60 connections {served} were served, good ones at two nodes all the while ({share:.2f} of a processor), new ones again {took:.1f} s after"


def a_peer_without_threads(room):
    """One process gets no threads while all connections between the processes are lost."""
    with tempfile.TemporaryDirectory() as folder:
        room = Room(servers.copy_for_all(room.program, folder), room.free, room.is_short)
        with room.group(3, begin=[]) as group:
            for node in range(3):
                group.begin(node, **servers.owner())
            meet(group)
            with group.client(0) as good, group.client(1) as other:
                group.servers[0].limit_threads(1)
                resets = reset_all(group)
                conns = come(group.port(0), 20)
                served, ended = answered(conns, 10)
                close_all(conns)
                group.expect_up("where threads are refused")
                told = good.ask(b"get good:0\r\n")
                if told != BUSY:
                    expect((told, good.line(), good.line()), (b"VALUE good:0 0 7\r\n", b"value 0\r\n", b"END\r\n"), "a get where threads are refused")
                group.servers[0].limit_threads(4_000)
                asks = [client.set_till(b"again", b"x") for client in (good, other)]
                group.expect_up("once threads were to be had")
        expect((served, ended), (0, 20), "connections that were served and closed where threads are refused")
        return f"{resets} connections between processes were reset, of 20 clients' {ended} were closed; sets were stored at asks {asks} once there were threads"


def a_peer_without_memory(room):
    """One process of three has no more memory for what the others write."""
    value = 100_000 * b"v"
    with room.group(3) as group, group.client(0) as writer, group.client(2) as reader:
        meet(group)
        server = group.servers[2]
        before = server.limit(resource.RLIMIT_AS, server.status_of("VmSize") + 150 * MEBIBYTE)
        stored, refused = fill(group.servers[0], writer, value, 4_000, 3)
        group.expect_up("where one has no memory")
        closed = reads_or_closed(server, stored, value)
        server.limit(resource.RLIMIT_AS, before)
        expect_reads(server, [reader], stored, value)
        behind = free_some(group.servers[0], writer, stored, value)
        group.expect_up("once there was memory")
        return f"{len(stored)} sets of 100 KB, then {refused} not stored; of 50 reads at the process without memory {closed} had their connection closed, none was wrong; once it had some {min(len(stored), 200)} keys were read and a set was stored at ask {behind}"


def reads_or_closed(server, stored, value):
    """Reads of 100 KB, each on a connection of its own, where there may be no memory for the reply. Gives how many ended with no reply; none tells anything else."""
    closed = 0
    for key in random.Random(2).sample(stored, min(len(stored), 50)):
        try:
            with socket.create_connection((servers.HOST, server.port), timeout=SECONDS) as conn:
                conn.sendall(b"get %s\r\nquit\r\n" % key)
                told = b"".join(iter(lambda: conn.recv(1 << 20), b""))
        except OSError:
            told = b""
        if told not in (b"", NO_MEMORY) and not (told.startswith(b"VALUE %s 0 " % key) and told.endswith(b"\r\n" + value + b"\r\nEND\r\n")):
            raise Fault(f"a get of {key!r} with a full memory is told {told!r:.80}")
        closed += not told
    server.expect_up("behind gets with a full memory")
    return closed


# ---- who comes, comes back and does not


def a_peer_comes_back_behind_the_last_client(room):
    """Node 0 has all its clients; the connections between the processes are reset then."""
    with room.group(3, 4) as group:
        for node in (1, 2):
            with group.client(node) as client:
                try_good(client, node)
        clients = [group.client(0)]
        try_good(clients[0], 0)
        try:
            while len(clients) < 5 and is_served_on(client := group.client(0, 2)):
                clients.append(client)
            resets = reset_all(group)
            with group.client(1) as other:
                begun = time.monotonic()
                asks = other.set_till(b"behind", b"x")
                for client in clients:
                    expect(client.get(b"behind")[0], b"x", "what a client of node 0 reads")
                group.expect_up("behind the last client")
                return f"{len(clients)} clients at node 0 of 4, {resets} connections reset: a set at node 1 was stored at ask {asks}, {time.monotonic() - begun:.1f} s after"
        finally:
            for client in clients:
                client.close()


def is_served_on(client):
    try:
        return client.ask(b"version\r\n") == b"VERSION hermes-1\r\n"
    except OSError:
        return False


def a_client_beyond_the_last(room):
    with room.group(2, 4) as group:
        meet(group)
        clients = []
        try:
            while len(clients) < 5:
                client = group.client(0, 5)
                clients.append(client)
                try:
                    told = client.ask(b"version\r\n")
                except ConnectionError:
                    told = b""
                except TimeoutError:
                    raise Fault("a client beyond the last hears nothing for 5 s, where it is due to be turned away at once") from None
                if not told:
                    return f"client {len(clients)} was turned away at once"
        except ConnectionRefusedError:
            return f"client {len(clients) + 1} was refused at once"
        finally:
            for client in clients:
                client.close()
        raise Fault(f"{len(clients)} clients are served of 4")


def a_dial_that_meets_itself(room):
    """Node 0 dials node 1's closed port from that very port, as the system may choose it. Node 1 is started then."""
    if shutil.which("rustc") is None:
        return "rustc is not installed, so none was tried"
    with tempfile.TemporaryDirectory() as folder, room.group(2, begin=[]) as group:
        library = preloaded.build(folder)
        group.begin(0, env=preloaded.environment(library, {"MEETS": group.port(1)}))
        with group.client(0) as client:
            told = client.set(b"k", b"v")
            if told not in (BUSY, UNKNOWN):
                raise Fault(f"a set of a node that is alone is told {told!r}")
            until(3, lambda: meets_itself(group.port(1)))
            met = until(15, lambda: not meets_itself(group.port(1)))
            if met is None:
                raise Fault(f"a connection of port {group.port(1)} to itself stands for 15 s")
            if room.is_short:
                return f"the connection to itself was gone {met:.1f} s after"
            # the system keeps the port of an ended connection for a minute
            took = until(90, lambda: ports.is_free(group.port(1)))
            if took is None:
                raise Fault(f"port {group.port(1)} is not free 90 s after")
            group.begin(1)
            asks = client.set_till(b"k", b"w")
        return f"the connection to itself was gone {met:.1f} s after, its port free {took:.0f} s after; with node 1 a set was stored at ask {asks}"


def meets_itself(port):
    """Whether a connection of the port to itself stands."""
    with open("/proc/net/tcp") as table:
        for line in list(table)[1:]:
            _, local, other, state, *_ = line.split()
            if local == other and int(local.split(":")[1], 16) == port and state == "01":
                return True
    return False


def a_peer_started_again(room):
    """A process is killed while a lock is held that was taken at another one, and started again, which nobody may do. The others find it out where it would take the lock."""
    return a_second_holder(room, 0)


def a_peer_started_again_takes_its_own(room):
    """The same of a lock that was taken at that process: the second holder's update has the very stamp of the first one's."""
    return a_second_holder(room, 2)


def a_second_holder(room, at):
    with room.group(3) as group, group.client(0) as holder:
        meet(group)
        with group.client(at) as first:
            expect(first.ask(b"add lock 0 0 1\r\nx\r\n"), STORED, "the first holder of a lock")
        group.servers[2].kill()
        group.begin(2)
        with group.client(2) as second:
            told = ask_on(second, b"add lock 0 0 1\r\ny\r\n", 10)
        if told == STORED:
            raise Fault("peer 2 is killed and started again: a second holder of one lock is told STORED")
        expect(holder.get(b"lock")[0], b"x", "the lock at node 0")
        for node in (0, 1):
            expect(said(group, node), [f"hermes: node 2 {FORGOT}: node {node} takes nothing from it any more"], f"what node {node} says")
        return f"a second holder is told {told!r}, and both others say that node 2 has forgotten"


def a_peer_started_again_is_told(room):
    """A process that was started again finds it out itself, where another node goes on with what it acknowledged."""
    with room.group(2) as group, group.client(0) as client:
        meet(group)
        for value in (b"x", b"y"):
            expect(client.set(b"kept", value), STORED, "a set")
        group.servers[1].kill()
        group.begin(1)
        told = ask_on(client, b"set kept 0 0 1\r\nz\r\n", 5)
        if told == STORED:
            raise Fault("peer 1 is killed and started again: it acknowledges the next update of what it has forgotten")
        expect(said(group, 1), [f"hermes: node 1 {FORGOT}: it takes nothing from the others any more. End it"], "what node 1 says")
        return f"the next set is told {told!r}, and node 1 says that it has forgotten"


def a_peer_of_another_group(room):
    """Two processes are started as those of a group of two, and one behind them as the third of three: it is no member of theirs."""
    with room.group(3, begin=[2]) as group:
        for node in (0, 1):
            group.servers[node] = servers.peer(group.program, group.first, node, 2, group.conns)
        with group.client(2) as client:
            client.begin(b"key", b"x")
            wanted = [[f"hermes: node 2 is no member of the group that node {node} is of: were all processes started with the same --nodes?"] for node in (0, 1)]
            if until(10, lambda: [said(group, node) for node in (0, 1)] == wanted) is None:
                raise Fault(f"they say {[said(group, node) for node in (0, 1)]} where {wanted} is due")
        group.expect_up("a process of three nodes beside two of two")
        return "both of the group say so"


def said(group, node):
    """What a process says on standard error beside that it serves."""
    return [line for line in group.servers[node].told().splitlines() if "serves on port" not in line]


def ask_on(client, sent, seconds):
    """What is told last, asked again for so long while it is busy or unknown."""
    ends = time.monotonic() + seconds
    while (told := client.ask(sent)) in (BUSY, UNKNOWN) and time.monotonic() < ends:
        time.sleep(0.001)
    return told


# ---- peers that are stopped, or away


def unknown_takes_its_time(room):
    """What a client is told whose node waits for one which is not there, and for one which is stopped."""
    with room.group(2, begin=[0]) as group, group.client(0, 2 * SECONDS) as client:
        alone = time_to_unknown(client, b"a")
        group.begin(1)
        client.set_till(b"b", b"x")
        group.servers[1].pause()
        stopped = time_to_unknown(client, b"c")
        group.servers[1].go_on()
        return f"`outcome unknown` after {alone:.2f} s where node 1 is not there, after {stopped:.2f} s where it is stopped"


def time_to_unknown(client, key):
    begun = time.monotonic()
    expect(client.set(key, b"x"), UNKNOWN, "a set that nobody acknowledges")
    took = time.monotonic() - begun
    if not UNKNOWN_AFTER <= took <= UNKNOWN_BEFORE:
        raise Fault(f"`outcome unknown` comes after {took:.3f} s, where {UNKNOWN_AFTER} to {UNKNOWN_BEFORE} are due")
    return took


def a_stopped_peer_costs_no_processor(room):
    """Processor time of a node at which eight sets wait for a process that is stopped, and then nothing does."""
    with room.group(3) as group, contextlib.ExitStack() as clients:
        meet(group)
        waiting = [clients.enter_context(group.client(0, 2 * SECONDS)) for _ in range(8)]
        group.servers[2].pause()
        shares = []
        for number, client in enumerate(waiting):
            client.begin(b"wait:%d" % number, b"x")
        shares.append(share_of(group.servers[0], 1.5))
        for client in waiting:
            client.line()
        shares.append(share_of(group.servers[0], 2))
        group.servers[2].go_on()
        asks = [client.set_till(b"wait:%d" % number, b"y") for number, client in enumerate(waiting)]
        figures = f"{shares[0]:.2f} of a processor with eight sets waiting, {shares[1]:.2f} behind that; stored at asks {max(asks)} at most once it went on"
        if shares[0] > 2 * IDLE_SHARE or shares[1] > IDLE_SHARE / 2:
            raise Fault(f"{figures}; at most {2 * IDLE_SHARE} and {IDLE_SHARE / 2} are due")
        return figures


def share_of(server, seconds):
    """The share of a processor that the server uses."""
    spent, begun = server.processor_seconds(), time.monotonic()
    time.sleep(seconds)
    return (server.processor_seconds() - spent) / (time.monotonic() - begun)


def listener(port, backlog, room_size=None):
    one = socket.socket()
    one.setsockopt(socket.SOL_SOCKET, socket.SO_REUSEADDR, 1)
    if room_size:
        one.setsockopt(socket.SOL_SOCKET, socket.SO_RCVBUF, room_size)
    one.bind((servers.HOST, port))
    one.listen(backlog)
    return one


def a_peer_that_reads_nothing(room):
    """Node 1 is played by one who takes connections and reads nothing. Node 0 has 8 MiB for it when its last client ends, and parcels still come in."""
    with room.group(2, 9, begin=[]) as group, contextlib.ExitStack() as held:
        held.enter_context(listener(group.port(1), 8, 4_096))
        server = group.begin(0)
        flood = held.enter_context(socket.create_connection((servers.HOST, server.port)))
        flood.sendall(ack_frame(b"\0" + (1).to_bytes(2, "big")))
        clients = [held.enter_context(group.client(0, 3 * SECONDS)) for _ in range(8)]
        for number, client in enumerate(clients):
            client.begin(b"great:%d" % number, MEBIBYTE * b"g")
        for client in clients:
            client.line()
            client.close()
        pour(flood, 4_000)
        nudge(server)
        share = share_of(server, 2)
        expect_at_most(round(share, 2), IDLE_SHARE, "the share of a processor while it waits for a peer that reads nothing")
        took = until(60, lambda: nudge(server) or not server.is_up())
        if took is None:
            raise Fault("a node does not end within 60 s behind its last client, where a peer reads nothing")
        expect(server.status(), 0, "its status")
        return f"{share:.2f} of a processor while it waited, ended {took + 2:.0f} s behind its last client, status 0"


def nudge(server):
    """A connection more, for a node that counts clients alone."""
    try:
        socket.create_connection((servers.HOST, server.port), timeout=0.2).close()
    except OSError:
        pass


def ack_frame(sender):
    """A frame of node 1 for node 0: an ACK of a key that nobody wrote."""
    key, stamp = b"\x01x", (2).to_bytes(8, "big") + (0).to_bytes(2, "big")
    frame = bytes([ACK, 0]) + (1).to_bytes(8, "big") + sender + b"\0" + (0).to_bytes(2, "big") + key + stamp + stamp
    return len(frame).to_bytes(4, "big") + frame


def pour(conn, count):
    """Sends so many frames, as long as they are taken."""
    conn.settimeout(1)
    with contextlib.suppress(OSError):
        conn.sendall(count * ack_frame(b"\0" + (1).to_bytes(2, "big")))


def a_peer_that_does_not_answer(room):
    """Node 1's port takes no more connections and refuses none, as a host that is gone. Node 0 ends behind its last client, and reaches node 1 at once when it is there."""
    with room.group(2, 1, begin=[]) as group:
        with listener(group.port(1), 0) as deaf, contextlib.ExitStack() as held:
            fill_backlog(deaf, held)
            server = group.begin(0)
            with group.client(0, 3 * SECONDS) as client:
                client.set(b"k", b"v")
            took = until(20, lambda: not server.is_up())
        if took is None:
            raise Fault("a node does not end within 20 s behind its last client, where a dial is not answered")
        expect(server.status(), 0, "its status")
        return f"ended {took:.1f} s behind its last client, status 0"


def fill_backlog(deaf, held):
    """Makes connections till none is taken any more."""
    for _ in range(8):
        one = held.enter_context(socket.socket())
        one.setblocking(False)
        with contextlib.suppress(BlockingIOError):
            one.connect(deaf.getsockname())
    time.sleep(0.2)


# ---- what got lost


def what_waits_is_sent_again(room):
    """Node 0 is alone with many sets; then node 1 is there. Each later get is answered within a few asks."""
    count, conns = (1_000, 200) if room.is_short else (20_000, 1_000)
    with room.group(2, begin=[0]) as group:
        begun = time.monotonic()
        with ThreadPoolExecutor(conns) as pool:
            told = sum(pool.map(lambda number: set_some(group, number, count // conns), range(conns)))
        expect(told, count, "sets that were answered, though none is acknowledged")
        alone = time.monotonic() - begun
        group.begin(1)
        drawn = random.Random(1).sample(range(count), 60)
        begun, asks = time.monotonic(), []
        with group.client(0, 120) as client:
            for number in drawn:
                value, at = client.get(b"lost:%d" % number)
                expect(value, b"%d" % number, f"lost:{number}")
                asks.append(at)
            expect_at_most(max(asks), FEW_ASKS, "asks till a get of what got lost is answered")
        group.expect_up("behind what was lost")
        return f"{count} sets in {alone:.1f} s; with node 1 there {len(drawn)} gets were answered at ask {max(asks)} at the latest, in {time.monotonic() - begun:.1f} s"


def set_some(group, first, count):
    with group.client(0, 300) as client:
        numbers = range(first * count, first * count + count)
        client.send(b"".join(b"set lost:%d 0 0 %d\r\n%d\r\n" % (number, len(str(number)), number) for number in numbers))
        return sum(client.line() in (UNKNOWN, BUSY) for _ in numbers)


def a_follower_keeps_what_is_there(room):
    """Sets of 1 MiB at node 0, over few keys: the others hold the values, 16 MiB of journals, and not all that was ever written."""
    keys, sets = 8, 400
    with room.group(3) as group, group.client(0) as client:
        meet(group)
        before = {node: server.memory() for node, server in group.servers.items()}
        for number in range(sets):
            client.set_till(b"great:%d" % (number % keys), b"%d" % (number % 10) * MEBIBYTE, 20)
        grown = [(server.memory() - before[node]) / MEBIBYTE for node, server in group.servers.items()]
        told = f"behind {sets} sets of 1 MiB over {keys} keys the processes hold {', '.join(f'{one:.0f}' for one in grown)} MiB more"
        # the values, 16 MiB of journals, and twice as much for what is on its way and what the allocator keeps
        bound = keys + 48
        if max(grown) > bound:
            raise Fault(f"{told}, where at most {bound} is due")
        return told


def resets_under_sets(room):
    """The connections between the processes are reset a hundred times while clients at all nodes count."""
    done = threading.Event()
    counts, faults = [0, 0, 0], []
    with room.group(3) as group:
        meet(group)
        threads = [threading.Thread(target=count_on, args=(group, node, done, counts, faults)) for node in range(3)]
        for thread in threads:
            thread.start()
        resets = 0
        ends = time.monotonic() + 20
        while resets < 100 and time.monotonic() < ends:
            resets += reset_all(group)
            time.sleep(0.2)
        done.set()
        for thread in threads:
            thread.join()
        group.expect_up("under resets")
        if faults:
            raise Fault(f"{resets} resets: {faults[0]}")
        return f"{resets} resets, {sum(counts)} increments were made, each told its own number or not told"


def count_on(group, node, done, counts, faults):
    """Adds to a counter of its own. Where an increment's outcome is not told, the next may be one more."""
    key, sure, most = b"count:%d" % node, 0, 0
    try:
        with group.client(node) as client:
            client.set_till(key, b"0")
            while not done.is_set():
                told = client.ask(b"incr %s 1\r\n" % key)
                if told == BUSY:
                    continue
                most += 1
                if told.strip().isdigit():
                    if not sure < int(told) <= most:
                        raise Fault(f"node {node}: incr is told {told!r}, where {sure + 1} to {most} is due")
                    sure = most = int(told)
                    counts[node] += 1
    except (Fault, OSError) as fault:
        faults.append(repr(fault))


CASES = [
    a_peer_without_descriptors, a_peer_without_threads, a_peer_without_memory, a_client_beyond_the_last, a_stopped_peer_costs_no_processor,
    a_follower_keeps_what_is_there, resets_under_sets,
]  # fmt: skip
# Those that spend most of their time waiting go on beside the others.
WAITING = [
    a_peer_that_reads_nothing, a_peer_that_does_not_answer, a_peer_comes_back_behind_the_last_client, a_dial_that_meets_itself,
    unknown_takes_its_time, what_waits_is_sent_again, a_peer_started_again, a_peer_started_again_takes_its_own, a_peer_started_again_is_told, a_peer_of_another_group,
]  # fmt: skip

