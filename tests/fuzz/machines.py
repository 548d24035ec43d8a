"""A model of the whole machine, written from the rules, independently of the program: its calls, exchanges and report."""

from __future__ import annotations

import dataclasses
from typing import Callable, Dict, List, Optional, Tuple

from fuzz.contested import Landing
from fuzz.exposed import Bytes, Transfer
from fuzz.harts import WORD, Hart
from fuzz.images import Segment
from fuzz.reports import Machine

Area = Tuple[int, int]
# The most steps of all nodes that the model makes; of a longer run it says nothing.
STEPS = 30_000


@dataclasses.dataclass
class Request:
    """A put, a get or a message, with the bytes that it moves. `called` is the name of the call, of which puts and gets have two, and `pc` where
    in the code it is made. A put and a message read at `place`, and its tag at `tag_place`."""

    kind: str
    target: int
    length: int
    area: int = 0
    offset: int = 0
    place: int = 0
    content: bytes = b""
    tag: bytes = b""
    called: str = ""
    pc: int = 0
    tag_place: int = 0


class Node(Hart):
    """A node: a hart with registrations, requests, output, a queue and a place in the input."""

    def __init__(self, entry: int, memory: bytearray, rank: int, machine: Machine, text: bytes) -> None:
        super().__init__(entry, memory, machine.floats, machine.atomics)
        self.rank, self.nodes, self.limit, self.text = rank, machine.nodes, machine.limit, text
        self.machine = machine
        self.state, self.ticks, self.cursor = "running", 0, 0
        self.areas: List[Area] = []
        self.coming: List[Area] = []
        self.sequence: List[int] = []
        self.tag = self.next_tag = self.bytes = 0
        self.requests: List[Request] = []
        self.queue: List[Tuple[bytes, bytes]] = []
        self.output = b""
        # What the supersteps have cost that are over, and the ticks at which this one began.
        self.closed = self.since = 0
        self.calls: Dict[int, Callable[..., str]] = {
            1: self.end, 2: self.nprocs, 3: self.pid, 4: self.sync, 5: self.push, 6: self.pop, 7: self.put, 8: self.get, 9: self.put,
            10: self.get, 11: self.set_tagsize, 12: self.send, 13: self.qsize, 14: self.get_tag, 15: self.move, 16: self.abort,
            17: self.write, 18: self.read,
        }
        if machine.clock:
            self.calls[19] = self.tell_time

    def tick(self) -> None:
        """Makes a step of a running node."""
        fault = self.step()
        self.ticks += 1
        if fault:
            self.state = f"fault {fault}"
        elif self.state == "running" and self.ticks == self.limit:
            self.state = "exhausted"

    def call(self) -> str:
        """Makes the call of a7, unless it has a fault. The node goes on with nothing reserved."""
        made = self.calls.get(self.x[17])
        fault = made(*self.x[10:15]) if made else "UnknownCall"
        if not fault:
            self.pc = self.pc + 4 & WORD
            self.reserved = None
        return fault

    def stop(self, state: str) -> str:
        """The node does not run on by itself."""
        self.state = state
        return ""

    def answer(self, value: int) -> str:
        """a0 has what was asked for."""
        self.x[10] = value
        return ""

    def end(self, *_: int) -> str:
        """end()"""
        return self.stop("ended")

    def nprocs(self, *_: int) -> str:
        """nprocs()"""
        return self.answer(self.nodes)

    def pid(self, *_: int) -> str:
        """pid()"""
        return self.answer(self.rank)

    def sync(self, *_: int) -> str:
        """sync()"""
        return self.stop("synced")

    def push(self, address: int, size: int, *_: int) -> str:
        """push_reg(addr, size)"""
        if not self.fits(address, size):
            return "RangeOutside"
        if len(self.coming) == self.machine.most_areas or self.sequence.count(-1) == self.machine.most_requests:
            return "TooMuch"
        self.coming.append((address, size))
        self.sequence.append(-1)
        return ""

    def pop(self, address: int, *_: int) -> str:
        """pop_reg(addr)"""
        found = [at for at, area in enumerate(self.coming) if area[0] == address]
        if not found:
            return "NotRegistered"
        del self.coming[found[-1]]
        self.sequence.append(found[-1])
        return ""

    def ask(self, request: Request, size: int) -> str:
        """Adds a request of so many bytes."""
        if len(self.requests) == self.machine.most_requests or self.bytes + size > self.machine.most_bytes:
            return "TooMuch"
        self.requests.append(request)
        self.bytes += size
        return ""

    def transfer(self, kind: str, target: int, name: int, offset: int, place: int, length: int) -> str:
        """A put from a place, or a get to one."""
        if target >= self.nodes:
            return "BadRank"
        if not self.fits(place, length):
            return "RangeOutside"
        found = [at for at, area in enumerate(self.areas) if area[0] == name]
        if not found:
            return "NotRegistered"
        content = bytes(self.memory[place:place + length]) if kind == "put" else b""
        called = f"hp{kind}" if self.x[17] in (9, 10) else kind
        return self.ask(Request(kind, target, length, found[-1], offset, place, content, b"", called, self.pc), length)

    def put(self, target: int, source: int, name: int, offset: int, length: int) -> str:
        """put(pid, src, dst, offset, n)"""
        return self.transfer("put", target, name, offset, source, length)

    def get(self, target: int, name: int, offset: int, place: int, length: int) -> str:
        """get(pid, src, offset, dst, n)"""
        return self.transfer("get", target, name, offset, place, length)

    def set_tagsize(self, address: int, *_: int) -> str:
        """set_tagsize(addr)"""
        if not self.fits(address, 4):
            return "RangeOutside"
        if self.word_at(address) > 4096:
            return "BadSize"
        self.next_tag = self.word_at(address)
        self.store_word(address, self.tag)
        return ""

    def send(self, target: int, tag: int, payload: int, length: int, *_: int) -> str:
        """send(pid, tag, payload, n)"""
        if target >= self.nodes:
            return "BadRank"
        if not self.fits(tag, self.tag) or not self.fits(payload, length):
            return "RangeOutside"
        made = bytes(self.memory[payload:payload + length]), bytes(self.memory[tag:tag + self.tag])
        asked = Request("send", target, self.tag + length, 0, 0, payload, *made, "send", self.pc, tag)
        return self.ask(asked, self.tag + length)

    def qsize(self, packets: int, size: int, *_: int) -> str:
        """qsize(packets, bytes)"""
        if not self.fits(packets, 4) or not self.fits(size, 4):
            return "RangeOutside"
        self.store_word(packets, len(self.queue))
        self.store_word(size, min(WORD, sum(len(payload) for _, payload in self.queue)))
        return ""

    def get_tag(self, status: int, place: int, *_: int) -> str:
        """get_tag(status, tag)"""
        tag, payload = self.queue[0] if self.queue else (b"", b"")
        if not self.fits(status, 4) or (self.queue and not self.fits(place, len(tag))):
            return "RangeOutside"
        self.store_word(status, len(payload) if self.queue else WORD)
        self.memory[place:place + len(tag)] = tag
        return ""

    def move(self, address: int, length: int, *_: int) -> str:
        """move(addr, n)"""
        if not self.queue:
            return ""
        content = self.queue[0][1][:length]
        if not self.fits(address, len(content)):
            return "RangeOutside"
        self.memory[address:address + len(content)] = content
        del self.queue[0]
        return ""

    def write(self, address: int, length: int, *_: int) -> str:
        """write(addr, n)"""
        if not self.fits(address, length):
            return "RangeOutside"
        if self.bytes + length > self.machine.most_bytes:
            return "TooMuch"
        self.bytes += length
        self.output += self.memory[address:address + length]
        return ""

    def abort(self, address: int, length: int, *_: int) -> str:
        """abort(addr, n)"""
        return self.write(address, length) or self.stop("aborted")

    def read(self, address: int, length: int, *_: int) -> str:
        """read(addr, n)"""
        content = self.text[self.cursor:self.cursor + length]
        if not self.fits(address, len(content)):
            return "RangeOutside"
        self.memory[address:address + len(content)] = content
        self.cursor += len(content)
        return self.answer(len(content))

    def tell_time(self, *_: int) -> str:
        """The clock's call."""
        time = min(self.closed + self.ticks - self.since, (1 << 64) - 1)
        self.x[11] = time >> 32
        return self.answer(time & WORD)


@dataclasses.dataclass
class End:
    """What a run writes, its report, its nodes at the end, what landed in each exchange, and what its calls had read and written."""

    output: bytes
    report: bytes
    nodes: List[Node]
    landings: List[List[Landing]]
    transfers: List[List[Transfer]]


def registers_of(node: Node) -> bytes:
    """What the debugger shows of a node."""
    lines = [f"rank {node.rank} pc {node.pc:08x} ticks {node.ticks} state {node.state}"]
    lines += [" ".join(f"x{at}={node.x[at]:08x}" for at in range(first, first + 4)) for first in range(0, 32, 4)]
    return "".join(line + "\n" for line in lines).encode()


def bytes_of(node: Node, address: int, count: int) -> bytes:
    """What the debugger shows of a node's memory."""
    rows = [node.memory[first:min(first + 16, address + count)] for first in range(address, address + count, 16)]
    return b"".join(row.hex(" ").encode() + b"\n" for row in rows)


def laid(segments: List[Segment], size: int) -> bytearray:
    """The memory of an image that fits."""
    memory = bytearray(size)
    for part in segments:
        if part.size:
            memory[part.address:part.address + part.size] = part.content + bytes(part.size - len(part.content))
    return memory


def fault_of_exchange(nodes: List[Node]) -> str:
    """The first fault of an exchange."""
    differing = {
        "TagMismatch": [node.rank for node in nodes if node.next_tag != nodes[0].next_tag],
        "SlotMismatch": [node.rank for node in nodes if node.sequence != nodes[0].sequence],
    }
    for name, ranks in differing.items():
        if ranks:
            return f"{name} rank {ranks[0]}"
    for node in nodes:
        for issue, asked in enumerate(node.requests):
            if asked.kind != "send" and asked.offset + asked.length > nodes[asked.target].areas[asked.area][1]:
                return f"OutsideArea rank {node.rank} request {issue}"
    return ""


def landings_of(nodes: List[Node]) -> List[Landing]:
    """What the gets of an exchange without a fault bring, and then what its puts bring."""
    gets: List[Landing] = []
    puts: List[Landing] = []
    for node in nodes:
        for number, asked in enumerate(node.requests):
            if asked.kind == "send":
                continue
            other = nodes[asked.target]
            place = other.areas[asked.area][0] + asked.offset
            if asked.kind == "get":
                content = bytes(other.memory[place:place + asked.length])
                gets.append(Landing(node.rank, asked.place, content, "get", node.rank, number))
            else:
                puts.append(Landing(other.rank, place, asked.content, "put", node.rank, number))
    return gets + puts


def transfers_of(nodes: List[Node]) -> List[Transfer]:
    """What the calls of an exchange without a fault read and write. A message reads its tag and its payload."""
    found: List[Transfer] = []
    for node in nodes:
        for number, asked in enumerate(node.requests):
            writes: Optional[Bytes] = None
            if asked.kind == "send":
                reads: List[Bytes] = [(node.rank, at, at + len(it)) for at, it in ((asked.tag_place, asked.tag), (asked.place, asked.content))]
            else:
                here = node.rank, asked.place, asked.place + asked.length
                start = nodes[asked.target].areas[asked.area][0] + asked.offset
                there = asked.target, start, start + asked.length
                reads, writes = ([here], there) if asked.kind == "put" else ([there], here)
            found += [Transfer(node.rank, number, asked.called, asked.pc, it, writes) for it in reads]
    return found


def exchange(nodes: List[Node]) -> Tuple[int, int]:
    """Makes an exchange without a fault, and answers h and the most messages."""
    sent, received, messages = [0] * len(nodes), [0] * len(nodes), [0] * len(nodes)
    queues: List[List[Tuple[bytes, bytes]]] = [[] for _ in nodes]
    for node in nodes:
        for asked in node.requests:
            other = nodes[asked.target]
            giver, taker = (other, node) if asked.kind == "get" else (node, other)
            if giver is not taker:
                sent[giver.rank] += asked.length
                received[taker.rank] += asked.length
                messages[taker.rank] += asked.kind == "send"
            if asked.kind == "send":
                queues[other.rank].append((asked.tag, asked.content))
    for it in landings_of(nodes):
        nodes[it.rank].memory[it.place:it.place + len(it.content)] = it.content
    for node, queue in zip(nodes, queues):
        begin(node, queue)
    return max(max(pair) for pair in zip(sent, received)), max(messages)


def begin(node: Node, queue: List[Tuple[bytes, bytes]]) -> None:
    """Begins a node's next superstep."""
    node.queue, node.areas, node.sequence = queue, list(node.coming), []
    node.tag, node.requests, node.bytes = node.next_tag, [], 0
    node.state = "exhausted" if node.ticks == node.limit else "running"


def outcome_of(nodes: List[Node]) -> Optional[str]:
    """The outcome that the states of nodes lead to, or the fault of their exchange; none if it can be made."""
    stopped = [node for node in nodes if node.state not in ("ended", "synced")]
    if stopped:
        return f"rank {stopped[0].rank} stopped: {stopped[0].state}"
    ended, synced = ([node.rank for node in nodes if node.state == state] for state in ("ended", "synced"))
    if ended and synced:
        return f"desync: rank {ended[0]} ended, rank {synced[0]} synced"
    if ended:
        return "ended"
    fault = fault_of_exchange(nodes)
    return f"refused: {fault}" if fault else None


def end_of(entry: int, segments: List[Segment], machine: Machine, text: bytes) -> Optional[End]:
    """The end of a run of an image that fits; none if that is too far away."""
    memory = laid(segments, machine.memory)
    nodes = [Node(entry, bytearray(memory), rank, machine, text) for rank in range(machine.nodes)]
    output, lines, total, steps = b"", b"", 0, 0
    landings: List[List[Landing]] = []
    transfers: List[List[Transfer]] = []
    while True:
        work = 0
        for node in nodes:
            before = node.ticks
            while node.state == "running" and steps + node.ticks - before < STEPS:
                node.tick()
            steps += node.ticks - before
            work = max(work, node.ticks - before)
        if any(node.state == "running" for node in nodes):
            return None
        output += b"".join(node.output for node in nodes)
        for node in nodes:
            node.output = b""
        outcome = outcome_of(nodes)
        landings += [landings_of(nodes)] if outcome is None else []
        transfers += [transfers_of(nodes)] if outcome is None else []
        moved, messages = exchange(nodes) if outcome is None else (0, 0)
        total += work + machine.g * moved + machine.l
        for node in nodes:
            node.closed, node.since = total, node.ticks
        row = (lines.count(b"\n"), work, moved, messages, b"last" if outcome else b"turned")
        lines += b"superstep %d: w %d h %d m %d %s\n" % row
        if outcome:
            return End(output, lines + f"total {total}\n{outcome}\n".encode(), nodes, landings, transfers)
