"""The results of random scripts of BSPlib's calls, by the rules of the manual.

It says each byte of each rank's memory, each answer, and h and m of each superstep, by docs/manual/machine.md and docs/manual/c.md. It
knows nothing of the library.
"""

from __future__ import annotations

from typing import Callable, List, NamedTuple, Optional, Sequence, Tuple

MEMORY = 160  # bytes of a rank that calls name
NULL, NOWHERE = -1, -2  # where nothing is named, and no memory is

# The place and the size of an area.
Area = Tuple[int, int]
Operator = Callable[[bytes, bytes], bytes]


def plus(left: bytes, right: bytes) -> bytes:
    """Sums of bytes."""
    return bytes((a + b) % 256 for a, b in zip(left, right))


def product(left: bytes, right: bytes) -> bytes:
    """Products of matrices of two by two bytes."""
    found = bytearray()
    for i in range(0, len(left), 4):
        a, b = left[i : i + 4], right[i : i + 4]
        found += bytes((a[2 * row] * b[column] + a[2 * row + 1] * b[2 + column]) % 256 for row in range(2) for column in range(2))
    return bytes(found)


def last(_left: bytes, right: bytes) -> bytes:
    """What comes from the right."""
    return right


OPERATORS: List[Operator] = [plus, product, last]


class Put(NamedTuple):
    """Bytes that go to a place of a rank's memory."""

    caller: int
    target: int
    place: int
    content: bytes


class Get(NamedTuple):
    """Bytes of another rank's memory that come to a place."""

    caller: int
    target: int
    source: int
    place: int
    size: int


class Message(NamedTuple):
    """A message with its tag."""

    tag: bytes
    payload: bytes


class Rank:
    """A rank's memory, registrations, messages, and what it has told in this superstep."""

    def __init__(self) -> None:
        self.memory = bytearray(MEMORY)
        self.areas: List[Area] = []
        self.next_areas: List[Area] = []
        self.queue: List[Message] = []
        self.received: List[Message] = []
        self.kept: List[Message] = []
        self.told: List[str] = []

    def bytes_at(self, place: int, count: int) -> bytes:
        """Some bytes of the memory."""
        assert count == 0 or 0 <= place <= MEMORY - count, (place, count)
        return bytes(self.memory[place : place + count]) if count else b""

    def write(self, place: int, content: bytes) -> None:
        """Overwrites some bytes of the memory."""
        assert not content or 0 <= place <= MEMORY - len(content), (place, content)
        if content:
            self.memory[place : place + len(content)] = content

    def position(self, place: int) -> int:
        """Where the area stands that is named by this address: the last of them counts."""
        return max(i for i, (start, _) in enumerate(self.areas) if start == place)


class Model:
    """Ranks that meet in supersteps."""

    def __init__(self, count: int) -> None:
        self.ranks = [Rank() for _ in range(count)]
        self.tag = self.next_tag = 0
        self.puts: List[Put] = []
        self.gets: List[Get] = []
        self.sent: List[Tuple[int, int, Message]] = []
        self.output: List[str] = []  # of the supersteps that are over
        self.costs: List[Tuple[int, int]] = []

    def area(self, caller: int, target: int, place: int) -> Area:
        """The area of the target that the caller's address names."""
        return self.ranks[target].areas[self.ranks[caller].position(place)]

    # What a rank does in a superstep.

    def write(self, rank: int, place: int, count: int, first: int, step: int) -> None:
        """The program itself writes bytes."""
        self.ranks[rank].write(place, bytes((first + i * step) % 256 for i in range(count)))

    def push(self, rank: int, place: int, size: int) -> None:
        """Registers an area, from the next superstep on."""
        self.ranks[rank].next_areas.append((place, size))

    def pop(self, rank: int, place: int) -> None:
        """Ends the last registration of an address, from the next superstep on."""
        areas = self.ranks[rank].next_areas
        del areas[max(i for i, (start, _) in enumerate(areas) if start == place)]

    def put(self, rank: int, target: int, source: int, area: int, offset: int, count: int) -> None:
        """The bytes are those of the time of the call."""
        start, size = self.area(rank, target, area)
        assert offset + count <= size
        self.puts.append(Put(rank, target, start + offset, self.ranks[rank].bytes_at(source, count)))

    def get(self, rank: int, target: int, area: int, offset: int, place: int, count: int) -> None:
        """The bytes are those of the end of the superstep."""
        start, size = self.area(rank, target, area)
        assert offset + count <= size
        self.gets.append(Get(rank, target, start + offset, place, count))

    def send(self, rank: int, target: int, tag: int, payload: int, count: int) -> None:
        """The tag has the size in effect."""
        it = self.ranks[rank]
        self.sent.append((rank, target, Message(it.bytes_at(tag, self.tag), it.bytes_at(payload, count))))

    def set_tagsize(self, rank: int, size: int) -> None:
        """The size in effect comes back; the last call decides of the next superstep."""
        self.ranks[rank].told.append(f"tag size {self.tag}")
        self.next_tag = size

    def qsize(self, rank: int, counts: bool, sums: bool) -> None:
        """What is left in the queue; a pointer may be NULL."""
        queue = self.ranks[rank].queue
        self.ranks[rank].told.append(f"queue {len(queue) if counts else 77} {sum(len(it.payload) for it in queue) if sums else 77}")

    def get_tag(self, rank: int, place: int) -> None:
        """The tag of the first message, and the length of its payload."""
        it = self.ranks[rank]
        if it.queue:
            it.write(place, it.queue[0].tag)
        it.told.append(f"status {len(it.queue[0].payload) if it.queue else -1}")

    def move(self, rank: int, place: int, most: int) -> None:
        """Takes a message out, as far as there is room."""
        it = self.ranks[rank]
        if it.queue:
            it.write(place, it.queue.pop(0).payload[:most])

    def hpmove(self, rank: int) -> None:
        """Takes a message out, which stays until the superstep ends."""
        it = self.ranks[rank]
        it.told.append(f"moved {len(it.queue[0].payload) if it.queue else -1}")
        if it.queue:
            message = it.queue.pop(0)
            it.kept.append(message)
            it.told += [message.tag.hex(), message.payload.hex()]

    # The end of a superstep.

    def tell_kept(self) -> None:
        """What was taken by hpmove is there until the end."""
        for it in self.ranks:
            total = 0
            for byte in b"".join(message.tag + message.payload for message in it.kept):
                total = (total * 31 + byte) % 1000003
            if it.kept:
                it.told.append(f"kept {total}")

    def sync(self) -> None:
        """Gets read; then gets land, and then puts, each by rank and then in the order of the calls."""
        moved = [(it.target, it.caller, it.size) for it in self.gets] + [(it.caller, it.target, len(it.content)) for it in self.puts]
        moved += [(caller, target, len(it.tag) + len(it.payload)) for caller, target, it in self.sent]
        self.cost(moved, [(caller, target) for caller, target, _ in self.sent])
        read = [(it, self.ranks[it.target].bytes_at(it.source, it.size)) for it in self.gets]
        for get, content in sorted(read, key=lambda pair: pair[0].caller):
            self.ranks[get.caller].write(get.place, content)
        for put in sorted(self.puts, key=lambda one: one.caller):
            self.ranks[put.target].write(put.place, put.content)
        for number, it in enumerate(self.ranks):
            it.queue = [message for _, target, message in sorted(self.sent, key=lambda one: one[0]) if target == number]
            it.areas = list(it.next_areas)
            it.kept = []
        self.puts, self.gets, self.sent = [], [], []
        self.tag = self.next_tag
        self.end()

    def cost(self, moved: Sequence[Tuple[int, int, int]], messages: Sequence[Tuple[int, int]]) -> None:
        """h and m of a superstep in which these bytes go from one rank to another one."""
        ranks = range(len(self.ranks))
        others = [it for it in moved if it[0] != it[1]]
        sums = [sum(count for it in others if it[side] == rank for count in it[2:]) for side in (0, 1) for rank in ranks]
        counts = [sum(target == rank and caller != rank for caller, target in messages) for rank in ranks]
        self.costs.append((max(sums), max(counts)))

    def end(self) -> None:
        """What was told in the superstep comes rank by rank."""
        for it in self.ranks:
            self.output += it.told
            it.told = []

    def tell_memory(self) -> None:
        """Each rank tells all of its memory."""
        for it in self.ranks:
            it.told.append(it.memory.hex())

    # Collective functions, each of which ends two supersteps. What was asked for before comes about in the first.

    def begin_collective(self) -> None:
        """The first superstep, after which what is given has its bytes."""
        self.tell_kept()
        self.sync()

    def end_collective(self, results: Sequence[Optional[Tuple[int, bytes]]], moved: Sequence[Tuple[int, int, int]]) -> None:
        """The second one: each rank has its result at a place. Nobody took the messages."""
        self.cost(moved, [])
        for it, result in zip(self.ranks, results):
            it.queue = []
            if result is not None:
                it.write(*result)
        self.end()

    def given(self, sources: Sequence[int], count: int) -> List[bytes]:
        """What the ranks give."""
        return [it.bytes_at(source, count) for it, source in zip(self.ranks, sources)]

    def bcast(self, root: int, sources: Sequence[int], places: Sequence[int], count: int) -> None:
        """Bytes of the root come to all."""
        self.begin_collective()
        content = self.ranks[root].bytes_at(sources[root], count)
        self.end_collective([(place, content) for place in places], [(root, rank, count) for rank in range(len(places))])

    def scatter(self, root: int, sources: Sequence[int], places: Sequence[int], count: int) -> None:
        """Block r of the root comes to rank r."""
        self.begin_collective()
        whole = self.ranks[root].bytes_at(sources[root], count * len(places))
        results = [(place, whole[i * count : (i + 1) * count]) for i, place in enumerate(places)]
        self.end_collective(results, [(root, rank, count) for rank in range(len(places))])

    def gather(self, root: int, sources: Sequence[int], places: Sequence[int], count: int) -> None:
        """Bytes of rank r come to block r of the root."""
        self.begin_collective()
        whole = b"".join(self.given(sources, count))
        results = [(place, whole) if rank == root else None for rank, place in enumerate(places)]
        self.end_collective(results, [(rank, root, count) for rank in range(len(places))])

    def total_exchange(self, sources: Sequence[int], places: Sequence[int], count: int) -> None:
        """Block t of rank s comes to block s of rank t."""
        ranks = range(len(places))
        self.begin_collective()
        blocks = self.given(sources, count * len(places))
        results = [(places[t], b"".join(blocks[s][t * count : (t + 1) * count] for s in ranks)) for t in ranks]
        self.end_collective(results, [(s, t, count) for s in ranks for t in ranks])

    def fold(self, operator: int, sources: Sequence[int], places: Sequence[int], count: int) -> None:
        """Each rank has what the operator makes of all, in the order of the ranks."""
        ranks = range(len(places))
        self.begin_collective()
        result = self.partial(operator, self.given(sources, count))[-1]
        self.end_collective([(place, result) for place in places], [(s, t, count) for s in ranks for t in ranks])

    def scan(self, operator: int, sources: Sequence[int], places: Sequence[int], count: int) -> None:
        """Rank r has what the operator makes of ranks 0 to r."""
        ranks = range(len(places))
        self.begin_collective()
        results = self.partial(operator, self.given(sources, count))
        self.end_collective(list(zip(places, results)), [(s, t, count) for s in ranks for t in ranks if s < t])

    @staticmethod
    def partial(operator: int, given: Sequence[bytes]) -> List[bytes]:
        """What comes of the first operand, of the first two, and so on."""
        found = [given[0]]
        for it in given[1:]:
            found.append(OPERATORS[operator](found[-1], it))
        return found
