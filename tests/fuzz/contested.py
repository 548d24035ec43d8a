"""Contested bytes of exchanges by the model, and whether the emulator lists exactly these."""

from __future__ import annotations

import re
from typing import Dict, List, NamedTuple, Tuple

HEAD = b"superstep,rank,address,bytes,first_kind,first_rank,first_request,first_byte,second_kind,second_rank,second_request,second_byte"
NUMBER = "(0|[1-9][0-9]*)"
REQUEST = f"(get|put),{NUMBER},{NUMBER},([0-9a-f]{{2}})"
LINE = re.compile(f"{NUMBER},{NUMBER},([0-9a-f]{{8}}),([1-9][0-9]*),{REQUEST},{REQUEST}".encode())
# Contested bytes that lie behind one another: rank, address, how many.
Range = Tuple[int, int, int]


class Landing(NamedTuple):
    """Bytes that come to lie in the memory of a rank, from a place on, and which request of whom brings them."""

    rank: int
    place: int
    content: bytes
    kind: str
    caller: int
    number: int


def contested(made: List[Landing]) -> List[Range]:
    """The bytes to which two landings of an exchange bring different values."""
    known: Dict[Tuple[int, int], int] = {}
    differ = set()
    for it in made:
        for address, byte in enumerate(it.content, it.place):
            if known.setdefault((it.rank, address), byte) != byte:
                differ.add((it.rank, address))
    found: List[Range] = []
    for rank, address in sorted(differ):
        if found and found[-1][0] == rank and sum(found[-1][1:]) == address:
            found[-1] = (rank, found[-1][1], found[-1][2] + 1)
        else:
            found.append((rank, address, 1))
    return found


def brings(made: List[Landing], rank: int, address: int, words: Tuple[bytes, ...]) -> bool:
    """Whether the request that a line names by these words brings this byte to an address."""
    key = (words[0].decode(), int(words[1]), int(words[2]))
    there = [it for it in made if (it.kind, it.caller, it.number) == key and it.rank == rank and 0 <= address - it.place < len(it.content)]
    return len(there) == 1 and there[0].content[address - there[0].place] == int(words[3], 16)


def fault_of(text: bytes, exchanges: List[List[Landing]]) -> str:
    """What is wrong with the lines that tell of a run in which these were the exchanges; empty if nothing is."""
    head, *lines = text.split(b"\n")
    found = [LINE.fullmatch(line) for line in lines[:-1]]
    if head != HEAD or lines[-1:] != [b""] or None in found:
        return "what is contested has other lines than its rules have"
    told = [(int(it[1]), (int(it[2]), int(it[3], 16), int(it[4]))) for it in found if it]
    due = [(superstep, it) for superstep, made in enumerate(exchanges) for it in contested(made)]
    if told != due:
        return f"{told[:4]} are told as contested, and {due[:4]} are"
    for (superstep, (rank, address, _)), it in zip(told, found):
        words = it.groups()[4:] if it else ()
        one, other = words[:4], words[4:]
        if one[3] == other[3] or not all(brings(exchanges[superstep], rank, address, named) for named in (one, other)):
            return f"superstep {superstep}, rank {rank}, {address:#x}: {words} do not contest it"
    return ""
