"""A network that a check makes for itself and can hurt: hosts in network namespaces of their own, around one that is the switch, in which the check runs. It
needs no root where users may make namespaces. The switch passes on what one host sends another by the kernel, which drops what rules of nft name; while a
relay is wanted (relay.rs), it goes by that. What the check itself sends to a host, and is answered, neither touches."""
import os
import shutil
import subprocess
import sys
from dataclasses import dataclass
from pathlib import Path

from servers import Fault, until

ENTERED = "HERMES_NAMESPACES"
TOOLS = {"unshare": "util-linux", "nsenter": "util-linux", "ip": "iproute2", "nft": "nftables"}
# So many packets wait for the relay, where the machine is full, before one is lost.
RELAYED, RELAY, RELAY_QUEUE = 100, "relay", 20_000
# How long a command of the system may take, on a machine that is full.
SECONDS = 60


def run(*words, told=None):
    """Runs a command of the system, which must do what it is told."""
    words = [str(word) for word in words]
    try:
        ended = subprocess.run(words, input=told or "", capture_output=True, text=True, timeout=SECONDS)
    except subprocess.TimeoutExpired:
        raise Fault(f"{' '.join(words)} does not end in {SECONDS} s") from None
    if ended.returncode != 0:
        raise Fault(f"{' '.join(words)} ends with status {ended.returncode}: {ended.stderr.strip()} {told or ''}")


def works(*words):
    return subprocess.run(words, stdin=subprocess.DEVNULL, stdout=subprocess.DEVNULL, stderr=subprocess.DEVNULL).returncode == 0


def skip(name, why):
    print(f"{name}: skipped: {why}")
    sys.exit(0)


def enter(name, words):
    """Starts this check anew with these words in namespaces of its own, and returns once it runs there. Where there can be none the check is skipped."""
    os.environ["PATH"] += ":/usr/sbin:/sbin"
    if os.environ.get(ENTERED):
        return
    missing = [f"{tool} ({package})" for tool, package in TOOLS.items() if shutil.which(tool) is None]
    if missing:
        skip(name, f"not installed: {', '.join(missing)}")
    os.environ[ENTERED] = "1"
    for flags in (["--user", "--map-root-user", "--net"], ["--net"]):
        if works("unshare", *flags, "true"):
            os.execvp("unshare", ["unshare", *flags, sys.executable, sys.argv[0], *words])
    skip(name, "no network namespace can be made here, neither as a user nor as root")


class Namespace:
    """A host: a network namespace with one address, and a way to the switch. A process that waits for its standard input keeps it, and ends with the check: to
    make a namespace and to take one away takes long on a full machine."""

    def __init__(self, network, place):
        self.address, self.gate, self.link = f"10.{network}.{place}.2", f"10.{network}.{place}.1", f"n{network}h{place}"
        self.keeper = subprocess.Popen(["unshare", "--net", "cat"], stdin=subprocess.PIPE, stdout=subprocess.DEVNULL)
        ours = os.readlink("/proc/self/ns/net")
        if until(SECONDS, lambda: os.readlink(f"/proc/{self.keeper.pid}/ns/net") != ours, 0.005) is None:
            raise Fault("a namespace is not made")
        run("ip", "link", "add", self.link, "type", "veth", "peer", "name", "switch", "netns", self.keeper.pid)
        run("ip", "addr", "add", f"{self.gate}/24", "dev", self.link)
        run("ip", "link", "set", self.link, "up")
        for line in (f"addr add {self.address}/24 dev switch", "link set lo up", "link set switch up", f"route add default via {self.gate}"):
            run(*self.inside(), "ip", *line.split())

    def inside(self):
        """Words that stand before a command which is to run on this host."""
        return ["nsenter", f"--net=/proc/{self.keeper.pid}/ns/net", "--"]


@dataclass(frozen=True)
class Terms:
    """How a relay passes packets on, as relay.rs takes it: microseconds, numbers in a thousand, bytes a second."""

    delay: int = 0
    jitter: int = 0
    is_ordered: bool = True
    twice: int = 0
    rate: int = 0
    queue: int = 0

    def line(self):
        return f"{self.delay} {self.jitter} {int(self.is_ordered)} {self.twice} {self.rate} {self.queue}\n"


def built_relay(room):
    """The program of the relay, built into this folder. None without rustc."""
    if shutil.which("rustc") is None:
        return None
    subprocess.run(["rustc", "--edition", "2021", "-O", "-o", f"{room}/relay", Path(__file__).with_name("relay.rs")], check=True)
    return f"{room}/relay"


class Switch:
    """The namespace in which the check runs: what it drops of what hosts send each other, by names, and the relay."""

    def __init__(self):
        self.rules = {}
        for line in ("net.ipv4.ip_forward=1", "net.ipv4.conf.all.rp_filter=0", "net.ipv4.conf.default.rp_filter=0"):
            name, _, value = line.partition("=")
            Path("/proc/sys", *name.split(".")).write_text(value)
        run("ip", "link", "set", "lo", "up")
        run("nft", "-f", "-", told="add table inet nemesis\nadd chain inet nemesis forward { type filter hook forward priority 0; policy accept; }\n")
        self.relay, self.links = None, []

    def start_relay(self, program, seed):
        """Starts the relay, which ends with the check. Gives whether a tun device can be had for it."""
        relay = subprocess.Popen([program, RELAY, str(seed)], stdin=subprocess.PIPE, stdout=subprocess.PIPE, stderr=subprocess.DEVNULL, text=True, bufsize=1)
        if relay.stdout.readline() != "open\n":
            relay.wait()
            return False
        self.relay = relay
        run("ip", "link", "set", RELAY, "txqueuelen", RELAY_QUEUE, "up")
        run("ip", "route", "add", "default", "dev", RELAY, "table", RELAYED)
        return True

    # what is dropped

    def drop(self, name, pairs, share=1000):
        """From now on so many in a thousand of the packets from the first of each pair of hosts to the second are dropped."""
        chance = f"numgen random mod 1000 < {share} " if share < 1000 else ""
        self.rules[name] = [f'ip saddr {one.address} ip daddr {other.address} oifname != "{RELAY}" {chance}drop' for one, other in pairs]
        self.write_rules()

    def pass_on(self, name):
        """What was dropped by this name is passed on again."""
        if self.rules.pop(name, None):
            self.write_rules()

    def write_rules(self):
        lines = [f"add rule inet nemesis forward {rule}" for rules in self.rules.values() for rule in rules]
        run("nft", "-f", "-", told="\n".join(["flush chain inet nemesis forward", *lines, ""]))

    # what is late

    def delay(self, hosts, terms):
        """From now on the relay passes on what these hosts send each other, by these terms."""
        self.relay.stdin.write(terms.line())
        for host in hosts:
            run("ip", "rule", "add", "iif", host.link, "lookup", RELAYED)
            self.links.append(host.link)

    def undelay(self):
        """What the relay still has it passes on when that is due."""
        while self.links:
            run("ip", "rule", "del", "iif", self.links.pop(), "lookup", RELAYED)
