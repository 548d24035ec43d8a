"""Exposed bytes of supersteps by the model, and whether the emulator lists exactly these.

What BSPlib says of each call is taken as times here: the parts of a superstep in which it reads at the latest, and writes at the earliest.
"""

from __future__ import annotations

import re
from typing import Dict, Iterator, List, NamedTuple, Optional, Set, Tuple

HEAD = b"superstep,rank,address,bytes,reader_kind,reader_rank,reader_request,reader_pc,writer_kind,writer_rank,writer_request,writer_pc"
NUMBER = "(0|[1-9][0-9]*)"
CALL = f"(put|hpput|get|hpget|send),{NUMBER},{NUMBER},([0-9a-f]{{8}})"
LINE = re.compile(f"{NUMBER},{NUMBER},([0-9a-f]{{8}}),([1-9][0-9]*),{CALL},{CALL}".encode())
# The parts of a superstep: ranks work, and call; gets read; what is buffered is written.
WORKING, GETTING, WRITING = range(3)
UNBUFFERED = ("hpput", "hpget")
LATEST_READ = {"put": WORKING, "send": WORKING, "get": GETTING, "hpput": WRITING, "hpget": WRITING}
# A rank's memory from an address up to before another one.
Bytes = Tuple[int, int, int]
# The places in the code of a reader and of a writer.
Pair = Tuple[int, int]


class Transfer(NamedTuple):
    """What a call of a superstep reads and writes: the rank that makes it, its number, what it is, where in the code, and the bytes. A message
    is two, which write nothing."""

    caller: int
    number: int
    kind: str
    pc: int
    read: Bytes
    written: Optional[Bytes]


def common(reader: Transfer, writer: Transfer) -> Optional[Bytes]:
    """What one reads and the other writes. What an unbuffered call brings to where it is changes nothing."""
    if writer.written is None or (writer.kind in UNBUFFERED and writer.read == writer.written):
        return None
    start, end = max(reader.read[1], writer.written[1]), min(reader.read[2], writer.written[2])
    return (reader.read[0], start, end) if reader.read[0] == writer.written[0] and start < end else None


def may_write_first(reader: Transfer, writer: Transfer) -> bool:
    """Whether one may write a byte before the other reads it. To read first is allowed always: whatever reads may do so before the end of the
    superstep, when all may write."""
    first, last = WORKING if writer.kind in UNBUFFERED else WRITING, LATEST_READ[reader.kind]
    if first == last == WORKING:
        return reader.caller != writer.caller or writer.number < reader.number
    return first <= last


def exposed(made: List[Transfer]) -> Iterator[Tuple[Transfer, Transfer, Bytes]]:
    """Each two calls that expose bytes, and these."""
    readers: Dict[int, List[Transfer]] = {}
    for it in made:
        readers.setdefault(it.read[0], []).append(it)
    for writer in made:
        for reader in readers.get(writer.written[0], []) if writer.written is not None else ():
            where = common(reader, writer)
            if where is not None and may_write_first(reader, writer):
                yield reader, writer, where


def is_named(it: Transfer, words: Tuple[bytes, ...]) -> bool:
    """Whether these words of a line name a call."""
    return (it.kind, it.caller, it.number, it.pc) == (words[0].decode(), int(words[1]), int(words[2]), int(words[3], 16))


def fault_of(text: bytes, supersteps: List[List[Transfer]]) -> str:
    """What is wrong with the lines that tell of a run in which these were the calls whose exchanges were made; empty if nothing is."""
    head, *lines = text.split(b"\n")
    found = [LINE.fullmatch(line) for line in lines[:-1]]
    if head != HEAD or lines[-1:] != [b""] or None in found:
        return "what is exposed has other lines than its rules have"
    words = [it.groups() for it in found if it]
    numbers = [int(it[0]) for it in words]
    if numbers != sorted(numbers) or any(it >= len(supersteps) for it in numbers):
        return f"lines are of the supersteps {numbers[:8]}"
    for superstep, made in enumerate(supersteps):
        fault = fault_of_superstep([it[1:] for it, number in zip(words, numbers) if number == superstep], made)
        if fault:
            return f"superstep {superstep}: {fault}"
    return ""


def fault_of_superstep(told: List[Tuple[bytes, ...]], made: List[Transfer]) -> str:
    """What is wrong with the lines of a superstep: each is all that its two calls expose, and there is one for each two places in the code."""
    due: Set[Pair] = set()
    left = {it: False for it in told}
    for reader, writer, (rank, start, end) in exposed(made):
        due.add((reader.pc, writer.pc))
        for it in told:
            where = int(it[0]), int(it[1], 16), int(it[1], 16) + int(it[2])
            left[it] |= where == (rank, start, end) and is_named(reader, it[3:7]) and is_named(writer, it[7:])
    pairs = [(int(it[6], 16), int(it[10], 16)) for it in told]
    if not all(left.values()):
        return f"{[it for it, is_right in left.items() if not is_right][:2]} are not exposed"
    if len(pairs) != len(set(pairs)) or set(pairs) != due:
        return f"of the places {pairs[:6]} lines tell, and {sorted(due)[:6]} expose bytes"
    return ""
