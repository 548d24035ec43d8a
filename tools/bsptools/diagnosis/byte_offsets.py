"""Offsets and sizes that are given in elements, but BSPlib counts bytes: found by the types of the variables.

The run is made again, in the debugger, beside which nothing is looked at but areas and requests. It is given as long as the run took.
"""

from __future__ import annotations

import contextlib
import re
import time
from collections.abc import Iterator
from typing import NamedTuple

from ..children import patience
from ..framed.backtrace import place, unwound
from ..framed.environment_calls import CHANGES, GETS, PUSH, PUTS, REQUESTS, Call, Tracer
from ..framed.replays import Replays
from ..framed.session import Node, Session
from ..outputs.report import Report
from ..prepare.job import Job
from ..prepare.source_texts import texts
from ..program import elf
from ..program.code import Code
from ..program.variables import Element, Found, Variables, element_of, kind_of, pointed_at
from ..refusals import counted

AREA = re.compile(r"area (\d+) at ([0-9a-f]{8}) size (\d+)")
REQUEST = re.compile(r"request (\d+) (put to|get from) rank (\d+) area (\d+) offset (-?\d+) bytes (\d+)(?: into ([0-9a-f]{8}))?")
# For how many seconds suspects may be looked for behind the run, and then their calls, which few programs have; and how many instructions
# and requests are looked at. Of calls that a number of four bytes may have fewer are looked at than of others.
MORE_SECONDS, CALL_SECONDS, MOST_STEPS, MOST_REQUESTS, MOST_CALLS, MOST_OF_LARGE = 0.5, 10.0, 100_000_000, 20_000, 12, 3
# The most work of a superstep in which a call is looked for.
MOST_WORK = 10_000_000
# The bytes of the numbers that C has most, and of larger ones: an offset that no number can have, and one that the larger cannot have.
LEAST, LARGE = 4, 8
LARGE_NAMES = r"\b(?:double|long\s+long|int64_t|uint64_t|complex)\b"
# How many offsets of an area are kept, and how many ranks are looked at for them.
MOST_OFFSETS, MOST_MAKERS = 64, 4
# In front of a block of malloc stands how many bytes it has, and behind these a word: bsplib/src/heap.c.
HEAD, WORD_BEHIND, HEAP, UNIT = 8, 0xB1E7C9D3, "__heap_start", 16


class Suspect(NamedTuple):
    """An area, or a request, that may be counted in elements: its superstep, its rank, and which of the rank's calls it is of those of its
    kind in that superstep; where the area begins, and its size or the request's offset and size."""

    superstep: int
    rank: int
    which: int
    is_area: bool
    area: int
    offset: int
    size: int

    @property
    def kind(self) -> tuple[bool, int, int, int]:
        """What suspects have in common of which one is looked at."""
        return self.is_area, self.area, self.offset % LARGE, self.size % LARGE


class Used:
    """What requests use of an area: its size, their offsets, the end of the last byte if offsets are in elements, and the ranks and
    supersteps that have made them."""

    def __init__(self, area: int) -> None:
        self.area, self.whole, self.end = area, 0, 0
        self.offsets: set[int] = set()
        self.makers: dict[tuple[int, int], None] = {}

    def add(self, superstep: int, rank: int, whole: int, offset: int, size: int) -> None:
        """Takes a request into account."""
        self.whole, self.end = max(self.whole, whole), max(self.end, LEAST * offset + size)
        if offset > 0 and len(self.offsets) < MOST_OFFSETS:
            self.offsets.add(offset)
            self.makers.setdefault((superstep, rank))

    @property
    def is_suspect(self) -> bool:
        """Whether offsets may be in elements: all that is asked for would be inside of the area too."""
        return len(self.offsets) > 1 and self.end <= self.whole


class Looked(NamedTuple):
    """A request with the variables that it names: that of the area, and that of the bytes here."""

    place: str
    call: Call
    area: Found | None
    own: Found | None


class Requests:
    """Areas and requests of a run, superstep by superstep, as the debugger shows them."""

    def __init__(self, replays: Replays, nodes: int, last: int, latest: float) -> None:
        self.replays, self.nodes, self.last, self.latest = replays, nodes, last, latest
        self.suspects: dict[tuple[bool, int, int, int], list[Suspect]] = {}
        self.blocks: list[tuple[Suspect, int]] = []
        self.used: dict[int, Used] = {}
        # The first registration that a rank has made in another place than rank 0, with what that has there.
        self.order: tuple[Suspect, int] | None = None
        self.count = 0

    def look(self, heap: int, is_large: bool) -> None:
        """Looks for suspects, up to the end of the time or of the run. Of numbers that are not large others are none."""
        known: set[tuple[int, int, int]] = set()
        with self.replays.session() as session:
            for superstep in range(self.last + 1):
                session.send("phase")
                if not session.is_answered(max(self.latest - time.monotonic(), 0.0)) or not session.reply().is_done:
                    return
                lines = [f"{what} {rank}" for rank in range(self.nodes) for what in ("areas", "requests")]
                replies = session.ask_all(lines)
                self._take_order(superstep, [areas_of(it.lines) for it in replies[::2]])
                for rank, (areas, asked) in enumerate(zip(replies[::2], replies[1::2])):
                    found = areas_of(areas.lines)
                    self._take_areas(session, superstep, rank, [it for it in found if (rank, *it) not in known], heap)
                    known.update((rank, *it) for it in found)
                    self._take_requests(superstep, rank, found, asked.lines, is_large)
                if self.count > MOST_REQUESTS or session.ask("turn").lines != ["turned"]:
                    return

    def _take_order(self, superstep: int, areas: list[list[tuple[int, int]]]) -> None:
        first = [start for start, _ in areas[0]]
        for rank, here in enumerate(areas):
            starts = [start for start, _ in here]
            if self.order is None and starts != first and sorted(starts) == sorted(first):
                at = next(i for i, (one, other) in enumerate(zip(starts, first)) if one != other)
                self.order = Suspect(superstep - 1, rank, 0, True, *here[at][:1], 0, here[at][1]), first[at]

    def _take_areas(self, session: Session, superstep: int, rank: int, areas: list[tuple[int, int]], heap: int) -> None:
        for start, size in areas:
            if heap and start >= heap and start % UNIT == 0:
                asked = block_size(session, rank, start)
                if asked is not None and asked < size:
                    self.blocks.append((Suspect(superstep - 1, rank, 0, True, start, 0, size), asked))
            elif size % LEAST:
                self._add(Suspect(superstep - 1, rank, 0, True, start, 0, size))

    def _take_requests(self, superstep: int, rank: int, areas: list[tuple[int, int]], lines: list[str], is_large: bool) -> None:
        unit = LARGE if is_large else LEAST
        for line in lines:
            self.count += 1
            found = REQUEST.fullmatch(line)
            if found is None or int(found[4]) >= len(areas):
                continue
            (area, whole), offset, size = areas[int(found[4])], int(found[5]), int(found[6])
            self.used.setdefault(area, Used(area)).add(superstep, rank, whole, offset, size)
            if size and (offset % unit or size % unit):
                self._add(Suspect(superstep, rank, int(found[1]), False, area, offset, size))

    def _add(self, suspect: Suspect) -> None:
        self.suspects.setdefault(suspect.kind, []).append(suspect)


def areas_of(lines: list[str]) -> list[tuple[int, int]]:
    """Address and size of each area that the debugger shows."""
    return [(int(it[2], 16), int(it[3])) for it in map(AREA.fullmatch, lines) if it]


def block_size(session: Session, rank: int, start: int) -> int | None:
    """How many bytes a block of malloc has that begins here, if one does."""
    head = session.ask(f"bytes {rank} {start - HEAD} {HEAD}")
    if not head.is_done:
        return None
    size, asked = (int.from_bytes(bytes.fromhex(head.lines[0])[at : at + 4], "little") for at in (0, 4))
    behind = session.ask(f"bytes {rank} {start + asked} 4")
    is_block = asked <= size and behind.is_done and int.from_bytes(bytes.fromhex(behind.lines[0]), "little") == WORD_BEHIND
    return asked if is_block else None


class Looker:
    """Finds the variables that calls name."""

    def __init__(self, code: Code, replays: Replays, variables: Variables) -> None:
        self.code, self.replays, self.variables = code, replays, variables
        self.trace = Tracer(code, replays)
        self._made: dict[tuple[bool, int, int], list[Call]] = {}

    def call_of(self, suspect: Suspect) -> Call | None:
        """The call of a suspect."""
        key = (suspect.is_area, suspect.rank, suspect.superstep)
        if key not in self._made:
            self._made[key] = self.trace.calls_in(suspect.rank, CHANGES if suspect.is_area else REQUESTS, suspect.superstep)
        made = self._made[key]
        if suspect.is_area:
            return next((it for it in made if it.number == PUSH and it.area == suspect.area and it.operand("size") == suspect.size), None)
        return made[suspect.which] if suspect.which < len(made) else None

    def look(self, suspect: Suspect) -> Looked | None:
        """What a suspect names."""
        call = self.call_of(suspect)
        return None if call is None else self.look_at(call, suspect.area)

    def look_at(self, call: Call, area: int) -> Looked | None:
        """What a call of a superstep names, with an area at this address."""
        with self.replays.after(call.superstep or 0, call.node.rank, call.node.ticks) as session:
            at = session.node(call.node.rank)
            node = at and self.replays.with_stack(session, at)
            if node is None:
                return None
            own = None if call.number == PUSH else call.operand("src" if call.number in PUTS else "dst")
            found = (self.found(session, node, it) if it is not None else None for it in (area, own))
            return Looked(place(self.code, node, is_call_told=True), call, *found)
        return None

    def name(self, suspect: Suspect, address: int) -> str:
        """What stands at an address where a rank makes the call of a suspect."""
        call = self.call_of(suspect)
        found = None
        if call is not None:
            with self.replays.after(suspect.superstep, suspect.rank, call.node.ticks) as session:
                node = session.node(suspect.rank)
                found = node and self.found(session, self.replays.with_stack(session, node), address)
        if not found:
            return self.code.variable(address) or "memory"
        return found.told(address) if found.start <= address < found.start + found.size else f"what {found.name} points to"

    def found(self, session: Session, node: Node, address: int) -> Found | None:
        """The variable at an address, or the pointer that has it, in a rank's functions there."""
        frames = unwound(self.code, node)[1]

        def word(at: int) -> int | None:
            reply = session.ask(f"bytes {node.rank} {at} 4")
            return int.from_bytes(bytes.fromhex(reply.lines[0]), "little") if reply.is_done else None

        return self.variables.at(address, frames) or self.variables.pointing_to(address, frames, word)


def element(found: Found | None, address: int) -> Element | None:
    """What a variable has many of, or what a pointer points to, if that is a number."""
    if found is None:
        return None
    is_it = found.value is None and found.start <= address < found.start + found.size
    known = element_of(found.kind if is_it else pointed_at(found.kind))
    return known if known is not None and known.is_number and known.size > 1 else None


def wrong(suspect: Suspect, looked: Looked) -> tuple[str, int, Element, Found] | None:
    """What is counted in elements, if something is: its name, its number, the element, and the variable that has it."""
    call = looked.call
    area = element(looked.area, suspect.area)
    if suspect.is_area:
        is_wrong = area is not None and suspect.size % area.size
        return ("size", suspect.size, area, looked.area) if is_wrong and area and looked.area else None
    own = element(looked.own, call.operand("src" if call.number in PUTS else "dst")) if looked.own is not None else None
    known, variable = (area, looked.area) if area is not None else (own, looked.own)
    if known is None or variable is None or (area is not None and own is not None and area.size != own.size):
        return None
    if suspect.offset % known.size and suspect.size % known.size == 0 and area is not None:
        return "offset", suspect.offset, known, variable
    # A part of an element is moved: so say both sides.
    is_both = area is not None and own is not None
    return ("nbytes", suspect.size, known, variable) if is_both and suspect.size % known.size else None


def has_large(variables: Variables) -> bool:
    """Whether the program has variables of numbers of eight bytes, or pointers to such."""
    for unit in variables.units:
        with contextlib.suppress(Exception):
            for it in unit.iter_DIEs():
                if it.tag in ("DW_TAG_variable", "DW_TAG_formal_parameter"):
                    kind = kind_of(it)
                    known = element_of(pointed_at(kind) or kind)
                    if known is not None and known.is_number and known.size >= LARGE:
                        return True
    return False


def findings(job: Job, report: Report, seconds: float) -> list[str]:
    """A line for each offset and size that is counted in elements, once for each place, for the first area that is larger than its block,
    and for the first one that is registered in another order. The program's variables are read if there are suspects, since that takes
    as long as many a run."""
    nodes, last = int(job.options.nodes), report.supersteps[-1].number
    if last == 0 or nodes * sum(it.costs["w"] for it in report.supersteps) > MOST_STEPS:
        return []
    latest = time.monotonic() + seconds + patience(MORE_SECONDS)
    requests = Requests(job.replays(is_named=False), nodes, last, latest)
    requests.look(elf.symbols(job.content).get(HEAP, 0), may_be_large(job.options.sources))
    scaled_ones = [it for it in requests.used.values() if it.is_suspect]
    is_suspect = requests.suspects or requests.blocks or requests.order or scaled_ones
    variables = job.code.know_names().described() if is_suspect else None
    if variables is None:
        return []
    looker = Looker(job.code, job.replays(), variables)
    work = {it.number: it.costs["w"] for it in report.supersteps}
    lines = [too_large(looker, *requests.blocks[0])] if requests.blocks else []
    lines += [other_order(looker, *requests.order)] if requests.order is not None else []
    lines += [line for it in scaled_ones[:MOST_OF_LARGE] if (line := scaled(looker, it, work))]
    left = [it for it in requests.suspects.values() if not is_right(variables, it[0])]
    odd = [it for it in left if it[0].offset % LEAST or it[0].size % LEAST]
    others = [it for it in left if it not in odd] if len(odd) < len(left) and has_large(variables) else []
    return [*lines, *told(looker, shortest([*odd[:MOST_CALLS], *others[:MOST_OF_LARGE]], work), time.monotonic() + seconds + CALL_SECONDS)]


def scaled(looker: Looker, used: Used, work: dict[int, int]) -> str:
    """The line of offsets in an area that are those of the bytes here in the same variable, but in its elements; nothing if that is not
    so of all of them, and of more than one."""
    found: dict[int, tuple[Call, int]] = {}
    for superstep, rank in sorted(used.makers, key=lambda it: work.get(it[0], 0))[:MOST_MAKERS]:
        if work.get(superstep, 0) > MOST_WORK:
            continue
        for call in looker.trace.calls_in(rank, (*PUTS, *GETS), superstep):
            inside = call.operand("src" if call.number in PUTS else "dst") - used.area
            if call.area == used.area and call.operand("offset") > 0 and 0 < inside < used.whole:
                found.setdefault(call.operand("offset"), (call, inside))
    ratios = {inside / offset for offset, (_, inside) in found.items()}
    if len(found) < 2 or len(ratios) > 1 or not ratios <= {2, 4, 8, 16}:
        return ""
    offset, (call, inside) = next(iter(found.items()))
    size, name = inside // offset, called(call)
    if all(it.operand("nbytes") == size and at % size == 0 for at, (it, _) in found.items()):
        # Single elements from every size-th place, packed one behind another, as by `bsp_put(0, &x[4 * s], x, s * sizeof *x, sizeof *x)`.
        return ""
    looked = looker.look_at(call, used.area)
    known = element(looked.area, used.area) if looked is not None else None
    if looked is None or looked.area is None or (known is not None and known.size != size):
        return ""
    begin = f"rank {call.node.rank}, superstep {call.superstep}: offset {offset} of {name} at {looked.place}"
    what = f"{looked.area.name}[{offset}], which is {inside} bytes after the beginning of {looked.area.name}"
    advice = "offsets count bytes, so if you mean that, multiply by"
    return f"{begin} looks like the index of {what}: {advice} sizeof({known.name or 'it' if known is not None else 'it'})"


def called(call: Call) -> str:
    """The name of a call."""
    return "bsp_push_reg" if call.number == PUSH else "bsp_get" if call.number in GETS else "bsp_put"


def shortest(suspects: list[list[Suspect]], work: dict[int, int]) -> list[list[Suspect]]:
    """Suspects of each kind, of which the first is in a superstep of least work: a call is found by points, which make it slow."""
    found = [sorted(alike, key=lambda it: work.get(it.superstep, 0)) for alike in suspects]
    return [alike for alike in found if work.get(alike[0].superstep, 0) <= MOST_WORK]


def too_large(looker: Looker, suspect: Suspect, asked: int) -> str:
    """The line of an area that is larger than its block of malloc."""
    looked = looker.look(suspect)
    where = f" by bsp_push_reg at {looked.place}" if looked is not None else ""
    begin = f"rank {suspect.rank}, superstep {suspect.superstep}: {suspect.size} bytes are registered{where}"
    return f"{begin}, but the malloc block has {asked}: a put past its end overwrites other blocks"


def other_order(looker: Looker, suspect: Suspect, first: int) -> str:
    """The line of areas that are registered in another order than by rank 0."""
    looked = looker.look(suspect)
    where = f", by bsp_push_reg at {looked.place}" if looked is not None else ""
    here, there = (f"{it:#x} ({looker.name(suspect, it)})" for it in (suspect.area, first))
    begin = f"rank {suspect.rank}, superstep {suspect.superstep}: areas are registered in a different order than on rank 0{where}"
    return f"{begin}: {here} instead of {there}, so a put into one goes into the other"


def may_be_large(sources: list[str]) -> bool:
    """Whether a program of these sources may have numbers of eight bytes, by its words; also if no source is given."""
    return not sources or any(re.search(LARGE_NAMES, it) for it in texts(sources, []))


def is_right(variables: Variables, suspect: Suspect) -> bool:
    """Whether a suspect is of a variable of the program whose elements fit."""
    found = variables.at(suspect.area, [])
    known = element_of(found.kind) if found is not None else None
    return known is not None and suspect.offset % known.size == 0 and suspect.size % known.size == 0


def told(looker: Looker, suspects: list[list[Suspect]], latest: float) -> Iterator[str]:
    """The lines of those suspects that are counted in elements, as long as there is time."""
    places: dict[str, tuple[str, set[int]]] = {}
    for alike in suspects:
        if time.monotonic() >= latest:
            break
        looked = looker.look(alike[0])
        found = wrong(alike[0], looked) if looked is not None else None
        if looked is None or found is None:
            continue
        what, number, known, variable = found
        name = called(looked.call)
        kind = known.name or "it"
        line = f"rank {alike[0].rank}, superstep {alike[0].superstep}: {what} {number} of {name} at {looked.place} is not a multiple of"
        line += f" {known.size}, the size of an element of {variable.name}: it counts bytes, so multiply by sizeof({kind})"
        places.setdefault(f"{what} {looked.place}", (line, set()))[1].update(it.rank for it in alike)
    for line, ranks in places.values():
        more = len(ranks) - 1
        yield line + (f"; the same on {counted(more, 'more rank')}" if more > 0 else "")
