"""Faults of a group over hosts that are drawn: what begins each of them, and what heals it; and the group that they befall, each host a namespace (switch.py),
each process with a clock and a disk that are steered (outside.rs)."""
import contextlib
import random
import signal
import threading
from concurrent.futures import ThreadPoolExecutor
from dataclasses import dataclass

import switch
from hosts import CLIENTS, LOG, OUT, Hosts, Inside, can_connect, views_told
from preloaded import RATE, Steered
from servers import Fault, expect, until
from switch import Terms

HOSTS = 3
# For how many seconds faults last.
LASTS, ROLLS, HOLDS = (1, 1.5, 2, 3, 6), (3, 6, 12), (3, 6)
# For so many leases a thread that is held now and then goes on in between.
GOES_ON = 3
# By how many millionths of a second a clock goes on in a second, within the bound and beyond it.
RATES, BEYOND = (957_000, 1_043_000), 400_000
# Seconds: between two looks at the views that a host tells, and how long its answer may take; how long a host may take to be back that left.
LOOKS, LOOK, BACK = 0.1, 1, 60


# ---- a group on the switch


class Namespaces:
    """The hosts of one group, and later of another one: a network of its own at the switch."""

    def __init__(self, number):
        with ThreadPoolExecutor(HOSTS) as pool:
            self.hosts = list(pool.map(lambda place: switch.Namespace(number, place), range(HOSTS)))

    def address(self, place):
        return self.hosts[place].address

    def leave(self):
        """They stay, for another group."""


class Views:
    """The views that hosts tell, looked at over and over: of a shard there is one view with a number, whoever tells it, and whenever."""

    def __init__(self, group):
        self.group, self.told, self.turn, self.is_over = group, {}, threading.Lock(), threading.Event()
        self.threads = [threading.Thread(target=self.watch, args=(place,), daemon=True) for place in range(HOSTS)]

    def begin(self):
        for thread in self.threads:
            thread.start()

    def end(self):
        self.is_over.set()
        for thread in self.threads:
            if thread.ident:
                thread.join()

    def watch(self, place):
        while not self.is_over.wait(LOOKS):
            with contextlib.suppress(OSError, Fault):
                self.look(place)

    def look(self, place):
        with Inside(self.group.addresses[place], LOOK) as inside:
            expect(inside.greet(place, self.group.addresses), 0, f"the answer of host {place} to a hello")
            lines = views_told(inside.status())
        for line in lines:
            self.take(place, line)

    def take(self, place, line):
        _, shards, epoch, view = line.split(" ", 3)
        with self.turn:
            for shard in shards_of(shards.partition("=")[2]):
                first, other = self.told.setdefault((shard, epoch), (view, place))
                if first != view:
                    note_once(self.group.wrong, f"two views with one number: of shard {shard} host {other} told {epoch} {first}, and host {place} tells {view}")


def shards_of(ranges):
    """The shards that stand in a line of a view, as `0-2,5`."""
    for one in ranges.split(","):
        first, _, last = one.partition("-")
        yield from range(int(first), int(last or first) + 1)


def note_once(wrong, what):
    """Keeps what is wrong, unless something of the kind was: of two views with one number there would be many."""
    if not any(one.startswith(what.split(":")[0]) for one in wrong):
        wrong.append(what)


class Group(Hosts):
    """A group whose hosts are namespaces, and its supervisor: a process that ends is started again, and its node joins anew."""

    def __init__(self, program, network, library, seed, lease):
        super().__init__(program, lease, HOSTS, network)
        self.library, self.hosts = library, self.network.hosts
        self.steered = [Steered(self.room / f"outside-{place}") for place in range(HOSTS)]
        # the disk that may be full: of one host alone, whose manager may be gone behind it
        self.draw = random.Random(f"{seed} group")
        self.full_place = self.draw.randrange(HOSTS)
        self.wrong, self.left, self.is_ending = [], set(), threading.Event()
        self.supervisor, self.views = threading.Thread(target=self.supervise, daemon=True), Views(self)

    def __exit__(self, *cause):
        self.is_ending.set()
        self.views.end()
        if self.supervisor.is_alive():
            self.supervisor.join()
        super().__exit__(*cause)

    def program_at(self, place):
        return [*self.hosts[place].inside(), *self.program]

    def start(self, place, *more, **options):
        steered = {"env": self.steered[place].environment(self.library)} if self.library else {}
        return super().start(place, *more, **steered, **options)

    def begin_all(self):
        """Starts and founds it, on disks that are drawn to be slow meanwhile, and from then on starts again what ends."""
        for steered in self.steered:
            steered.set("sync", self.draw.choice((0, 0, 100, 300)))
        self.start_all()
        self.found()
        for steered in self.steered:
            steered.set("sync", 0)
        self.supervisor.start()
        self.views.begin()
        return self

    def supervise(self):
        while not self.is_ending.wait(0.2):
            for place, server in list(self.servers.items()):
                if not server.is_up() and not self.is_ending.is_set():
                    self.note_end(place, server)
                    self.start(place)

    def note_end(self, place, server):
        """A signal may end a process, that its node is out or has left, and at its start a disk that is full."""
        status = server.process.returncode
        is_full = status == LOG and place == self.full_place and "can't be written" in server.told()
        is_due = status in (-signal.SIGKILL, OUT) or status == 0 and server in self.left or is_full
        if not is_due:
            self.wrong.append(f"the process of host {place} ends with status {status}: {server.told()!r:.300}")

    def pairs(self, froms, tos):
        return [(self.hosts[one], self.hosts[other]) for one in froms for other in tos if one != other]

    def signal(self, place, number):
        self.servers[place].process.send_signal(number)

    def restart(self, place):
        """A planned restart, as OPERATIONS.md has it: the node leaves, its process ends and is started again, and joins."""
        server, told = self.servers[place], []
        self.left.add(server)

        def leaves():
            told[:] = self.command("leave", "--at", place)
            return told[0] == 0

        if until(BACK, leaves, 0.2) is None:
            raise Fault(f"host {place} does not leave in {BACK} s: {told}")
        if until(BACK, lambda: self.servers[place] is not server and can_connect(self.addresses[place], CLIENTS), 0.05) is None:
            raise Fault(f"host {place} is not ready {BACK} s behind its leave: {told}; {self.how_it_stands()}")


# ---- faults


@dataclass
class DrawnFault:
    """A fault: what it is, how many seconds it lasts, which hosts it hits, and what begins and heals it."""

    kind: str
    text: str
    lasts: float
    hit: set
    begin: callable
    heal: callable
    # readings of the clock, in nanoseconds: when it began and was healed, and when the group served again
    begun: int = 0
    healed: int = 0
    served: int = 0


@dataclass
class Scene:
    """What a fault is drawn for."""

    group: Group
    switch: switch.Switch
    draw: random.Random

    def place(self):
        return self.draw.randrange(HOSTS)

    def lasts(self):
        return self.draw.choice(LASTS)

    def leases(self, count):
        """Seconds, that are so many leases."""
        return count * self.group.lease / 1000


class Background:
    """What goes on in a thread of its own, until it is ended."""

    def __init__(self):
        self.is_over, self.thread = threading.Event(), threading.Thread(target=self.run, daemon=True)

    def begin(self):
        self.thread.start()

    def end(self):
        self.is_over.set()
        self.thread.join()


class Repeated(Background):
    """Something that is turned on and off by a drawn list of seconds, until it is ended."""

    def __init__(self, on, off, seconds):
        super().__init__()
        self.on, self.off, self.seconds = on, off, seconds

    def run(self):
        for turned_on, turned_off in self.seconds:
            self.on()
            self.is_over.wait(turned_on)
            self.off()
            if self.is_over.wait(turned_off):
                return

    def end(self):
        super().end()
        self.off()


CUTS = ("one-way", "two-way", "cut-off", "apart")


def cut(scene, kind):
    """A cut, and what it is in words: the pairs of hosts, and the hosts that it hits."""
    one, other = scene.draw.sample(range(HOSTS), 2)
    if kind == "one-way":
        return scene.group.pairs([one], [other]), {one, other}, f"nothing gets from host {one} to host {other}"
    if kind == "two-way":
        return scene.group.pairs([one, other], [one, other]), {one, other}, f"hosts {one} and {other} hear nothing of each other"
    everybody = set(range(HOSTS))
    if kind == "apart":
        return scene.group.pairs(everybody, everybody), everybody, "no host hears anything of another one"
    others = everybody - {one}
    return scene.group.pairs([one], others) + scene.group.pairs(others, [one]), {one}, f"host {one} is cut off"


def cuts(kind):
    def drawn(scene):
        pairs, hit, text = cut(scene, kind)
        return DrawnFault(kind, text, scene.lasts(), hit, lambda: scene.switch.drop("cut", pairs), lambda: scene.switch.pass_on("cut"))

    return drawn


def flap(scene):
    pairs, hit, text = cut(scene, scene.draw.choice(CUTS))
    seconds = [(scene.draw.uniform(0.05, 0.8), scene.draw.uniform(0.02, 0.5)) for _ in range(40)]
    repeated = Repeated(lambda: scene.switch.drop("cut", pairs), lambda: scene.switch.pass_on("cut"), seconds)
    return DrawnFault("flap", f"on and off: {text}", scene.lasts(), hit, repeated.begin, repeated.end)


def loss(scene):
    share = scene.draw.choice((10, 50, 100, 200))
    everybody = set(range(HOSTS))
    pairs = scene.group.pairs(everybody, everybody)
    text = f"{share / 10:.0f} % of all packets are lost"
    return DrawnFault("loss", text, scene.lasts(), everybody, lambda: scene.switch.drop("loss", pairs, share), lambda: scene.switch.pass_on("loss"))


def relayed(kind, text_of, terms_of):
    def drawn(scene):
        terms = terms_of(scene.draw)
        everybody = set(range(HOSTS))
        return DrawnFault(kind, text_of(terms), scene.lasts(), everybody, lambda: scene.switch.delay(scene.group.hosts, terms), scene.switch.undelay)

    return drawn


def milliseconds(terms):
    return f"{terms.delay / 1000:.0f} to {(terms.delay + terms.jitter) / 1000:.0f} ms"


delay = relayed(
    "delay",
    lambda terms: f"each packet takes {milliseconds(terms)}",
    lambda draw: Terms(delay=draw.choice((3_000, 10_000, 30_000, 60_000)), jitter=draw.choice((0, 4_000, 20_000))),
)
disorder = relayed(
    "disorder",
    lambda terms: f"each packet takes {milliseconds(terms)}, out of order",
    lambda draw: Terms(delay=1_000, jitter=draw.choice((5_000, 20_000, 50_000)), is_ordered=False),
)
twice = relayed(
    "twice",
    lambda terms: f"{terms.twice / 10:.0f} % of all packets come twice, out of order",
    lambda draw: Terms(jitter=5_000, is_ordered=False, twice=draw.choice((100, 500, 1000))),
)
narrow = relayed(
    "narrow",
    lambda terms: f"a line takes {terms.rate // 1000} KB a second",
    lambda draw: Terms(rate=draw.choice((20_000, 50_000, 150_000)), queue=300_000),
)


def bursts(scene):
    place = scene.place()
    seconds = [(scene.draw.uniform(0.01, 0.4), scene.draw.uniform(0.01, 0.3)) for _ in range(60)]
    repeated = Repeated(lambda: scene.group.signal(place, signal.SIGSTOP), lambda: scene.group.signal(place, signal.SIGCONT), seconds)
    return DrawnFault("bursts", f"the process of host {place} is stopped for moments", scene.lasts(), {place}, repeated.begin, repeated.end)


def stop(scene):
    place, group = scene.place(), scene.group
    text = f"the process of host {place} is stopped"
    return DrawnFault("stop", text, scene.leases(3), {place}, lambda: group.signal(place, signal.SIGSTOP), lambda: group.signal(place, signal.SIGCONT))


def set_rates(group, rates):
    for steered, rate in zip(group.steered, rates):
        steered.set("rate", rate)


def clocks(scene):
    group, place, jump = scene.group, scene.place(), scene.draw.randrange(5)
    rates = [scene.draw.randrange(*RATES) for _ in range(HOSTS)]

    def begin():
        set_rates(group, rates)
        group.steered[place].set("jump", group.steered[place].read("jump") + jump)

    text = f"clocks go at {', '.join(f'{rate / 10_000:.1f}' for rate in rates)} %, and that of host {place} {jump} ms forward"
    return DrawnFault("clocks", text, scene.lasts(), set(range(HOSTS)), begin, lambda: set_rates(group, [RATE] * HOSTS))


def cut_by_clock(kind, rate, of_others, leases):
    """A host is cut off for so many leases while its clock goes slower than those of the others."""

    def drawn(scene):
        group = scene.group
        pairs, hit, text = cut(scene, "cut-off")
        rates = [rate if place in hit else of_others for place in range(HOSTS)]

        def begin():
            set_rates(group, rates)
            scene.switch.drop("cut", pairs)

        def heal():
            scene.switch.pass_on("cut")
            set_rates(group, [RATE] * HOSTS)

        text = f"{text}, and its clock goes at {rate / 10_000:.1f} %, the others' at {of_others / 10_000:.1f} %"
        return DrawnFault(kind, text, scene.leases(scene.draw.choice(leases)), hit, begin, heal)

    return drawn


clock_cut = cut_by_clock("clock-cut", *RATES, (2, 3))
clock_beyond = cut_by_clock("clock-beyond", BEYOND, RATE, (4,))


def slow_disk(scene):
    sync, place = scene.draw.choice((50, 200, 500)), scene.place()
    steered, text = scene.group.steered[place], f"each sync of host {place} takes {sync} ms longer"
    return DrawnFault("slow-disk", text, scene.lasts(), {place}, lambda: steered.set("sync", sync), lambda: steered.set("sync", 0))


def full_disk(scene):
    place = scene.group.full_place
    steered, text = scene.group.steered[place], f"the disk of host {place} is full"
    return DrawnFault("full-disk", text, scene.lasts(), {place}, lambda: steered.set("full", 1), lambda: steered.set("full", 0))


def held(scene):
    """Each thread of a process is held for some leases, right behind a reading of its clock, and goes on for some in between."""
    place, leases = scene.place(), scene.draw.choice((1, 2, 3))
    steered = scene.group.steered[place]

    def begin():
        steered.set("every", GOES_ON * scene.group.lease)
        steered.set("hold", leases * scene.group.lease)

    text = f"each thread of host {place} stands still for {leases} leases now and then"
    return DrawnFault("held", text, scene.draw.choice(HOLDS), {place}, begin, lambda: steered.set("hold", 0))


def kill(scene):
    """The supervisor heals it, unless the host's disk is full meanwhile."""
    place, group = scene.place(), scene.group
    return DrawnFault("kill", f"the process of host {place} is killed", scene.lasts(), {place}, lambda: group.signal(place, signal.SIGKILL), lambda: None)


def kill_most(scene):
    """The same of two hosts of three: with a majority of the managers gone the third one waits until they are back."""
    places, group = scene.draw.sample(range(HOSTS), 2), scene.group

    def begin():
        for place in places:
            group.signal(place, signal.SIGKILL)

    text = f"the processes of hosts {places[0]} and {places[1]} are killed"
    return DrawnFault("kill-most", text, scene.lasts(), set(places), begin, lambda: None)


class Rolling(Background):
    """Hosts that are restarted in turn, until it is ended: then the one is waited for that is under way."""

    def __init__(self, group, places):
        super().__init__()
        self.group, self.places = group, places

    def run(self):
        for place in self.places:
            if self.is_over.is_set():
                return
            try:
                self.group.restart(place)
            except (Fault, OSError) as fault:
                self.group.wrong.append(f"rolling restart: {fault}")
                return


def rolling(scene):
    places = scene.draw.sample(range(HOSTS), HOSTS)
    turns = Rolling(scene.group, places)
    text = f"hosts {', '.join(map(str, places))} leave and come back in turn"
    return DrawnFault("rolling", text, scene.draw.choice(ROLLS), set(range(HOSTS)), turns.begin, turns.end)


NETWORK = {"loss": loss, **{kind: cuts(kind) for kind in CUTS}, "flap": flap}
RELAYED = {"delay": delay, "disorder": disorder, "twice": twice, "narrow": narrow}
PROCESS = {"bursts": bursts, "stop": stop, "kill": kill, "kill-most": kill_most}
OUTSIDE = {"clocks": clocks, "slow-disk": slow_disk, "full-disk": full_disk, "held": held}
SORTS = (NETWORK, RELAYED, PROCESS, OUTSIDE)
# Those that are none of two: they are of two sorts themselves, or an operator's, who restarts nothing while something else is wrong.
ALONE = {"clock-cut": clock_cut, "rolling": rolling}
STEERED = {*OUTSIDE, "clock-cut", "clock-beyond"}
ASKED = {"clock-beyond": clock_beyond}
KINDS = {kind: drawn for sort in (*SORTS, ALONE) for kind, drawn in sort.items()}


def two(kinds):
    """Two faults at once, of different sorts, as many as there are."""
    sorts = [{kind: drawn for kind, drawn in sort.items() if kind in kinds} for sort in SORTS]
    sorts = [sort for sort in sorts if sort]

    def drawn(scene):
        one, other = (scene.draw.choice(list(sort.values()))(scene) for sort in scene.draw.sample(sorts, 2))

        def both(first, second):
            first()
            second()

        lasts, hit = max(one.lasts, other.lasts), one.hit | other.hit
        return DrawnFault("two", f"{one.text}; {other.text}", lasts, hit, lambda: both(one.begin, other.begin), lambda: both(other.heal, one.heal))

    return drawn if len(sorts) > 1 else None
