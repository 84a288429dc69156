"""Decides whether the calls on one key are linearizable: whether they can be put in one order in which each has an effect between its two readings of the clock, and is told
what a single copy would tell. An update that was told as aborted or unknown may stand in the order once, behind its sending, or never. Tags have to rise.

`decide` takes calls of all kinds. The search is exact but for tags: that of an update is known from the first `gets` on that tells it. It is bounded, and gives up at its bound. `decide_register` takes
reads and sets alone, each set with data of its own, in any number: it is exact and quick. There calls of one client that have one reading before them were sent together, and
take effect in their order. `decide_counter` takes reads and `incr` by one alone, of a key that held 0 before all of them, in any number: it is exact and quick too."""
import heapq
import sys
from collections import defaultdict, namedtuple

STEPS = 300_000
LIMIT = 1 << 64

# A call of one key: its client and number there, the readings of the clock before and after it (None: it may yet take effect, for ever), what it does, and what it was told.
Call = namedtuple("Call", "client number before after op told")

# What a key holds: its content, flags and data, or None; its tag, or None where it is not known; and a tag below it.
State = namedtuple("State", "content tag low")
NOTHING = State(None, None, 0)


# ---- a single copy


def updated(state, content):
    return State(content, None, state.tag or state.low)


def has_tag(state, tag):
    return state.tag == tag if state.tag is not None else tag > state.low


def number_of(content):
    flags, data = content
    return int(data) if data.isdigit() and len(data) <= 20 and int(data) < LIMIT else None


def read(state, told):
    if told[0] == "missing":
        return state if state.content is None else None
    if state.content != told[1]:
        return None
    if len(told) == 2:
        return state
    return state._replace(tag=told[2]) if has_tag(state, told[2]) else None


def store(state, verb, content, tag, told):
    """The state behind a store, where it may be told so. One of which nothing was told stores."""
    there = state.content is not None
    fits = {"set": True, "add": not there, "replace": there, "cas": there and tag is not None and has_tag(state, tag)}[verb]
    if told in ("STORED", None):
        return updated(state, content) if fits else None
    if told == "NOT_STORED":
        return state if not fits and verb in ("add", "replace") else None
    if told == "NOT_FOUND":
        return state if verb == "cas" and not there else None
    return state if told == "EXISTS" and verb == "cas" and there and state.tag != tag else None


def change(state, verb, by, told):
    if told == "NOT_FOUND":
        return state if state.content is None else None
    if state.content is None:
        return None
    before = number_of(state.content)
    if told == "not a number":
        return state if before is None else None
    if before is None:
        return None
    behind = (before + by) % LIMIT if verb == "incr" else max(0, before - by)
    if told is not None and told != str(behind):
        return None
    return updated(state, (state.content[0], str(behind).encode()))


def delete(state, told):
    if told == "NOT_FOUND":
        return state if state.content is None else None
    return updated(state, None) if state.content is not None else None


def after_call(state, call):
    """What the key holds behind the call, or None where a single copy would tell something else."""
    verb = call.op[0]
    if verb in ("get", "gets"):
        return read(state, call.told)
    if verb in ("incr", "decr"):
        return change(state, verb, call.op[1], call.told)
    if verb == "delete":
        return delete(state, call.told)
    return store(state, verb, call.op[1], call.op[2], call.told)


# ---- the search


class GaveUp(Exception):
    pass


class Search:
    """Goes through the readings of the clock and keeps each way in which the calls so far can have taken effect: what the key holds then, which calls that
    have not ended have taken effect, and which of those that nothing was told of. A quick search leaves out ways that are hardly ever needed: an update that
    nothing was told of takes effect only where a call can't be explained without it, and a tag that is told is that of the content from its first sight on."""

    def __init__(self, calls, is_quick):
        self.calls, self.is_quick = calls, is_quick
        self.steps = 0
        self.ways = {(NOTHING, frozenset(), frozenset())}
        self.open = set()

    def failing(self):
        """The first call that no way explains, or None."""
        starts = [(call.before, 0, place) for place, call in enumerate(self.calls)]
        ends = [(call.after, 1, place) for place, call in enumerate(self.calls) if call.after is not None]
        for _reading, is_end, place in sorted(starts + ends):
            if not is_end:
                self.open.add(place)
                continue
            self.ways = self.behind(place)
            self.open.discard(place)
            if not self.ways:
                return self.calls[place]
        return None

    def behind(self, place):
        """The ways once the call at this place has ended."""
        untold = sum(self.calls[other].after is None for other in self.open)
        for most in range(untold + 1) if self.is_quick else (untold,):
            ways = self.fewest({behind for way in self.ways for behind in self.ends(way, place, most)})
            if ways:
                return ways
        return set()

    def settled(self, way):
        """Calls that are told what they were told now, and leave the content as it is, may as well take effect now."""
        state, done, late = way
        for place in sorted(self.open - done):
            call = self.calls[place]
            after = after_call(state, call) if call.after is not None else None
            if after == state or self.is_quick and after is not None and after.content == state.content and call.op[0] == "gets":
                state, done = after, done | {place}
        return (state, done, late)

    def ends(self, way, place, most):
        """The ways in which the call at this place has taken effect, without it, and so many more at most that nothing was told of."""
        first = len(way[2])
        seen, todo = set(), [way]
        while todo:
            way = self.settled(todo.pop())
            if way in seen:
                continue
            seen.add(way)
            self.steps += 1
            if self.steps > STEPS:
                raise GaveUp
            state, done, late = way
            if place in done:
                yield (state, done - {place}, late)
                continue
            for other in self.open - done - late:
                is_told = self.calls[other].after is not None
                behind = after_call(state, self.calls[other]) if is_told or len(late) < first + most else None
                if behind is not None:
                    todo.append((behind, done | {other}, late) if is_told else (behind, done, late | {other}))

    @staticmethod
    def fewest(ways):
        """Without the ways that another one is as good as: one in which fewer calls that nothing was told of have taken effect."""
        lates = {}
        for state, done, late in ways:
            lates.setdefault((state, done), []).append(late)
        return {(*way, late) for way, all_late in lates.items() for late in all_late if not any(other < late for other in all_late)}


def decide(calls):
    """None where the calls of a key are linearizable, else the first call that is not explained. What a quick search does not explain, a whole one decides."""
    try:
        if Search(calls, True).failing() is None:
            return None
    except GaveUp:
        pass
    return Search(calls, False).failing()


# ---- registers


class Cluster:
    """A set and the reads that found its data, which stand together in each order: the least reading behind one of them, the greatest before one, and who has to stand before them."""

    def __init__(self):
        self.write, self.reads, self.before, self.waits = None, [], set(), 0

    def close(self):
        calls = [*self.reads, *([self.write] if self.write else [])]
        self.ends = min((call.after for call in calls if call.after is not None), default=float("inf"))
        self.starts = max((call.before for call in calls), default=float("-inf"))


def clusters_of(calls):
    """The clusters by their data, and the first read that found what nobody has set by then. None is the data that nobody set. A set whose outcome is not known, and that nobody saw, has none."""
    clusters, failing = defaultdict(Cluster), None
    for call in calls:
        if call.op[0] == "set":
            clusters[call.op[1]].write = call
        else:
            clusters[None if call.told[0] == "missing" else call.told[1]].reads.append(call)
    for data, cluster in list(clusters.items()):
        if cluster.write and cluster.write.after is None and not cluster.reads:
            del clusters[data]
        for read in cluster.reads:
            if data is not None and (cluster.write is None or read.after < cluster.write.before or sent_before(read, cluster.write)):
                failing = failing or read
        cluster.close()
    if None in clusters:
        clusters[None].ends = float("-inf")
    return clusters, failing


def sent_before(one, other):
    """Whether a client sent one call together with another one, and before it."""
    return one.client == other.client and one.before == other.before and one.number < other.number


def data_of(call):
    if call.op[0] == "set":
        return call.op[1]
    return None if call.told[0] == "missing" else call.told[1]


def note_order(calls, clusters):
    """Notes of each cluster which others have to stand before it, since a client sent a call of theirs earlier, together with one of its own. One whose outcome is not known may take effect late."""
    sent = defaultdict(list)
    for call in calls:
        if call.after is not None:
            sent[call.client, call.before].append(call)
    for together in sent.values():
        together.sort(key=lambda call: call.number)
        for one, other in zip(together, together[1:]):
            first, then = clusters[data_of(one)], clusters[data_of(other)]
            if first is not then and then not in first.before:
                first.before.add(then)
                then.waits += 1


def decide_register(calls):
    """None where the reads and sets of a key are linearizable, else a call that is not explained."""
    clusters, failing = clusters_of(calls)
    if failing:
        return failing
    note_order(calls, clusters)
    # One whose calls all began before any other's has ended may stand next.
    left = sorted(clusters.values(), key=lambda cluster: cluster.ends)
    ready = [(cluster.starts, place) for place, cluster in enumerate(left) if cluster.waits == 0]
    places = {id(cluster): place for place, cluster in enumerate(left)}
    heapq.heapify(ready)
    placed = [False] * len(left)
    first = 0
    for _ in left:
        while first < len(left) and placed[first]:
            first += 1
        place = next_cluster(left, placed, ready, first)
        if place is None:
            return (left[first].reads or [left[first].write])[0]
        placed[place] = True
        for then in left[place].before:
            then.waits -= 1
            if then.waits == 0:
                heapq.heappush(ready, (then.starts, places[id(then)]))
    return None


def next_cluster(left, placed, ready, first):
    """The place of a cluster that may stand next: the one that has ended first, or that with the earliest last start."""
    second = next((place for place in range(first + 1, len(left)) if not placed[place]), None)
    if left[first].waits == 0 and (second is None or left[first].starts <= left[second].ends):
        return first
    passed_over = []
    while ready and (placed[ready[0][1]] or ready[0][1] == first):
        passed_over.append(heapq.heappop(ready))
    place = ready[0][1] if ready and ready[0][0] <= left[first].ends else None
    for entry in passed_over:
        if not placed[entry[1]]:
            heapq.heappush(ready, entry)
    return place


# ---- counters


def value_of(call):
    """What a call showed that the counter holds, None where it told nothing of a number."""
    told = call.told if call.op[0] == "incr" else call.told[1][1].decode() if call.told[0] == "found" else ""
    return int(told) if told.isdigit() else None


def shown_by(calls):
    """By each value the call that was told to have made it, and the reads that found it; and the first call that is told what no counter tells, or what another one was told."""
    made, reads, failing = {}, defaultdict(list), None
    for call in calls:
        if call.after is None:
            continue
        value = value_of(call)
        if value is None or call.op[0] == "incr" and (value == 0 or value in made):
            failing = failing or call
        elif call.op[0] == "incr":
            made[value] = call
        else:
            reads[value].append(call)
    return made, reads, failing


def fill_gaps(made, reads, late):
    """Puts calls that nothing was told of where a value was seen, or one above it, that no other call made: the earliest for the least. Gives the call that can't be explained, or None."""
    late = sorted(late, key=lambda call: call.before)
    greatest = max([0, *made, *reads])
    gaps = [value for value in range(1, greatest + 1) if value not in made]
    if len(gaps) > len(late):
        return next(call for value in range(gaps[len(late)], greatest + 1) for call in [*reads[value], *([made[value]] if value in made else [])])
    made.update(zip(gaps, late))
    return None


def decide_counter(calls):
    """None where the calls of a counter are linearizable, else a call that is not explained. Their values are their order: none may have ended before one of a lesser value began."""
    made, reads, failing = shown_by(calls)
    failing = failing or fill_gaps(made, reads, [call for call in calls if call.after is None])
    if failing:
        return failing
    latest = float("-inf")
    for value in range(max([0, *made, *reads]) + 1):
        if value:
            latest = max(latest, made[value].before)
        ended = [call for call in (*reads[value], *([made[value]] if value else [])) if call.after is not None and call.after < latest]
        if ended:
            return ended[0]
        latest = max([latest, *(call.before for call in reads[value])])
    return None


# ---- the search itself is tried


def made(*calls):
    """Calls of one key as (client, before, after, op, told)."""
    return [Call(client, number, before, after, op, told) for number, (client, before, after, op, told) in enumerate(calls)]


def put(data, verb="set", tag=None):
    return (verb, (0, data), tag)


def found(data, *tag):
    return ("found", (0, data), *tag)


GET, GETS, ONE = ("get",), ("gets",), ("incr", 1)
SOUND = {
    "a read beside a write finds either": made((0, 0, 9, put(b"1"), "STORED"), (1, 1, 2, GET, ("missing",)), (2, 3, 4, GET, found(b"1"))),
    "an aborted write that is seen late": made((0, 0, 1, put(b"1"), "STORED"), (1, 2, None, put(b"2"), None), (0, 5, 6, GET, found(b"1")), (0, 7, 8, GET, found(b"2"))),
    "an aborted write that is seen never": made((0, 0, None, put(b"1"), None), (0, 5, 6, GET, ("missing",))),
    "an aborted delete": made((0, 0, 1, put(b"1"), "STORED"), (1, 2, None, ("delete",), None), (0, 5, 6, GET, ("missing",))),
    "numbers that go up": made((0, 0, 1, put(b"1"), "STORED"), (1, 2, 9, ONE, "3"), (2, 2, 9, ONE, "2")),
    "a tag of its own": made((0, 0, 1, put(b"1"), "STORED"), (0, 2, 3, GETS, found(b"1", 7)), (0, 4, 5, put(b"2", "cas", 7), "STORED"), (0, 6, 7, GETS, found(b"2", 9))),
    "a store that nobody saw": made((0, 0, None, put(b"1"), None), (0, 2, 3, ("delete",), "DELETED")),
}
UNSOUND = {
    "a stale read": made((0, 0, 1, put(b"1"), "STORED"), (0, 2, 3, put(b"2"), "STORED"), (1, 4, 5, GET, found(b"1"))),
    "new and then old": made((0, 0, 1, put(b"1"), "STORED"), (0, 2, 9, put(b"2"), "STORED"), (1, 3, 4, GET, found(b"2")), (2, 5, 6, GET, found(b"1"))),
    "a lost write": made((0, 0, 1, put(b"1"), "STORED"), (1, 2, 3, GET, ("missing",))),
    "a value that nobody wrote": made((0, 0, 1, GET, found(b"1"))),
    "one number twice": made((0, 0, 1, put(b"1"), "STORED"), (1, 2, 9, ONE, "2"), (2, 2, 9, ONE, "2")),
    "one tag serves twice": made((0, 0, 1, put(b"1"), "STORED"), (0, 2, 3, GETS, found(b"1", 7)), (1, 4, 9, put(b"2", "cas", 7), "STORED"), (2, 4, 9, put(b"3", "cas", 7), "STORED")),
    "a tag that falls": made((0, 0, 1, put(b"1"), "STORED"), (0, 2, 3, GETS, found(b"1", 7)), (0, 4, 5, put(b"2"), "STORED"), (0, 6, 7, GETS, found(b"2", 5))),
    "an aborted write that is seen twice": made((0, 0, None, put(b"1"), None), (1, 1, 2, GET, found(b"1")), (1, 3, 4, put(b"2"), "STORED"), (1, 5, 6, GET, found(b"1"))),
    "an add over a value": made((0, 0, 1, put(b"1"), "STORED"), (1, 2, 3, put(b"2", "add"), "STORED")),
}


SOUND_REGISTERS = {
    "a read beside a set finds either": SOUND["a read beside a write finds either"],
    "an aborted set that is seen late": SOUND["an aborted write that is seen late"],
    "an aborted set that is seen never": SOUND["an aborted write that is seen never"],
    "sent together": made((0, 0, 5, put(b"1"), "STORED"), (0, 0, 6, GET, found(b"1")), (0, 0, 7, put(b"2"), "STORED"), (1, 1, 9, GET, found(b"1")), (1, 1, 9, GET, found(b"2"))),
    "sets that cross": made((0, 0, 9, put(b"1"), "STORED"), (1, 0, 9, put(b"2"), "STORED"), (2, 10, 11, GET, found(b"1")), (3, 10, 11, GET, found(b"1"))),
}
UNSOUND_REGISTERS = {
    "a stale read": UNSOUND["a stale read"],
    "new and then old": UNSOUND["new and then old"],
    "a lost set": UNSOUND["a lost write"],
    "a value that nobody set": UNSOUND["a value that nobody wrote"],
    "a read before its set": made((0, 5, 9, put(b"1"), "STORED"), (1, 1, 2, GET, found(b"1"))),
    "sent together, out of order": made((0, 0, 5, put(b"1"), "STORED"), (0, 0, 6, GET, ("missing",))),
    "read together, out of order": made((0, 0, 9, put(b"1"), "STORED"), (2, 10, 19, put(b"2"), "STORED"), (1, 1, 19, GET, found(b"2")), (1, 1, 19, GET, found(b"1"))),
    "an aborted set that comes and goes": made((0, 0, 1, put(b"1"), "STORED"), (1, 2, None, put(b"2"), None), (0, 5, 6, GET, found(b"2")), (0, 7, 8, GET, found(b"1"))),
    "two readers see two orders": made((0, 0, 9, put(b"1"), "STORED"), (1, 0, 9, put(b"2"), "STORED"), (2, 10, 11, GET, found(b"1")), (3, 12, 13, GET, found(b"2"))),
}


COUNT, READ = ("incr", 1), ("get",)
SOUND_COUNTERS = {
    "two at once": made((0, 0, 9, COUNT, "2"), (1, 0, 9, COUNT, "1"), (2, 10, 11, READ, found(b"2"))),
    "a read beside one": made((0, 0, 9, COUNT, "1"), (1, 1, 2, READ, found(b"0")), (1, 3, 4, READ, found(b"1"))),
    "one that was not told, seen late": made((0, 0, None, COUNT, None), (1, 1, 2, COUNT, "1"), (1, 3, 4, READ, found(b"1")), (1, 5, 6, READ, found(b"2"))),
    "one that was not told, seen never": made((0, 0, None, COUNT, None), (1, 1, 2, COUNT, "1"), (1, 3, 4, READ, found(b"1"))),
    "two that were not told, between others": made((0, 0, None, COUNT, None), (1, 3, None, COUNT, None), (2, 1, 2, COUNT, "2"), (2, 4, 5, COUNT, "4")),
}
UNSOUND_COUNTERS = {
    "a value twice": UNSOUND["one number twice"][1:],
    "one that was lost": made((0, 0, 1, COUNT, "1"), (1, 2, 3, READ, found(b"0"))),
    "one too many": made((0, 0, 1, COUNT, "2")),
    "one that was not told, seen twice": made((0, 0, None, COUNT, None), (1, 1, 2, COUNT, "3")),
    "one that was not told, seen before it was sent": made((0, 5, None, COUNT, None), (1, 1, 2, READ, found(b"1"))),
    "later and less": made((0, 0, 9, COUNT, "1"), (1, 1, 2, READ, found(b"1")), (1, 3, 4, READ, found(b"0"))),
    "a counter that is gone": made((0, 0, 1, COUNT, "1"), (1, 2, 3, READ, ("missing",))),
    "an incr of a counter that is gone": made((0, 0, 1, COUNT, "NOT_FOUND")),
}


def try_search():
    for name, calls in SOUND_COUNTERS.items():
        if decide_counter(calls) is not None:
            sys.exit(f"linearizable: of counters {name} is refused")
    for name, calls in UNSOUND_COUNTERS.items():
        if decide_counter(calls) is None:
            sys.exit(f"linearizable: of counters {name} is passed")
    for name, calls in SOUND_REGISTERS.items():
        if decide_register(calls) is not None:
            sys.exit(f"linearizable: of registers {name} is refused")
    for name, calls in UNSOUND_REGISTERS.items():
        if decide_register(calls) is None:
            sys.exit(f"linearizable: of registers {name} is passed")
    for name, calls in SOUND.items():
        if decide(calls) is not None:
            sys.exit(f"linearizable: the search refuses {name}")
    for name, calls in UNSOUND.items():
        if decide(calls) is None:
            sys.exit(f"linearizable: the search passes {name}")
