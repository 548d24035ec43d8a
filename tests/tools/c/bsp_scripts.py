"""Random scripts for scripts.c, each a few supersteps of allowed calls, with their results by bsp_model.py."""

from __future__ import annotations

import random
from typing import Callable, List, Optional, Tuple

from bsp_model import MEMORY, NOWHERE, NULL, OPERATORS, Model

MOST_RANKS = 9
# How many areas stay registered, and how large an area, a tag and what is moved are at most.
MOST_AREAS, MOST_SIZE, MOST_TAG, MOST_BYTES = 8, 60, 12, 24


class Scripts:
    """Scripts for one run of so many ranks, and the model that has made them."""

    def __init__(self, ranks: int, seed: int) -> None:
        self.chance = random.Random(seed * 100 + ranks)
        self.model = Model(ranks)
        self.ranks = range(ranks)
        self.lines: List[str] = []

    def say(self, operation: str, rank: int, *numbers: int) -> None:
        """A line of the input: of one rank, or of all where the rank is below 0."""
        self.lines.append(" ".join([operation, *map(str, (rank, *numbers))]))

    def room(self, count: int) -> int:
        """A place with room for so many bytes, which may be NULL for none."""
        return NULL if count == 0 and self.chance.random() < 0.3 else self.chance.randrange(MEMORY - count + 1)

    def count(self, most: int = MOST_BYTES) -> int:
        """A number of bytes."""
        return self.chance.randrange(min(most, MOST_BYTES) + 1)

    def rank(self) -> int:
        """Some rank."""
        return self.chance.choice(self.ranks)

    # What one rank does.

    def write(self, rank: int) -> None:
        """Other bytes in the memory."""
        count, first, step = self.count(), self.chance.randrange(256), self.chance.randrange(8)
        place = self.chance.randrange(MEMORY - count + 1)
        self.say("w", rank, place, count, first, step)
        self.model.write(rank, place, count, first, step)

    def target(self, rank: int) -> Optional[Tuple[int, int, int, int]]:
        """A rank, the address that names an area of it, and an offset and a number of bytes in that."""
        areas = self.model.ranks[rank].areas
        if not areas:
            return None
        other, (place, _) = self.rank(), self.chance.choice(areas)
        size = self.model.area(rank, other, place)[1]
        count = self.count(size)
        return other, place, self.chance.randrange(size - count + 1), count

    def put(self, rank: int) -> None:
        """A put, of either kind."""
        found = self.target(rank)
        if found:
            other, place, offset, count = found
            source = self.room(count)
            self.say(self.chance.choice("pP"), rank, other, source, place, offset, count)
            self.model.put(rank, other, source, place, offset, count)

    def get(self, rank: int) -> None:
        """A get, of either kind."""
        found = self.target(rank)
        if found:
            other, area, offset, count = found
            place = self.room(count)
            self.say(self.chance.choice("gG"), rank, other, area, offset, place, count)
            self.model.get(rank, other, area, offset, place, count)

    def send(self, rank: int) -> None:
        """A message, by either name."""
        other, count = self.rank(), self.count()
        tag, payload = self.room(self.model.tag), self.room(count)
        self.say(self.chance.choice("sS"), rank, other, tag, payload, count)
        self.model.send(rank, other, tag, payload, count)

    def ask(self, rank: int) -> None:
        """How much there is in the queue."""
        counts, sums = self.chance.choice([(True, True), (True, False), (False, True)])
        if counts and sums:
            self.say("q", rank)
        else:
            self.say("Q", rank, int(counts))
        self.model.qsize(rank, counts, sums)

    def take(self, rank: int) -> None:
        """Looks at a message, and mostly takes it, in either way."""
        if self.chance.random() < 0.4:
            self.say("h", rank)
            self.model.hpmove(rank)
            return
        queue = self.model.ranks[rank].queue
        place, most = self.room(MOST_TAG), self.count()
        self.say("a", rank, max(place, 0))
        self.model.get_tag(rank, max(place, 0))
        if self.chance.random() < 0.8:
            place = self.room(min(most, len(queue[0].payload)) if queue else 0)
            self.say("m", rank, place, most)
            self.model.move(rank, place, most)

    # What all ranks do.

    def register(self) -> None:
        """An area of each rank, by either name; some have none."""
        if len(self.model.ranks[0].next_areas) >= MOST_AREAS:
            return
        name, is_first = self.chance.choice("rR"), not self.model.ranks[0].next_areas
        for rank in self.ranks:
            size = self.chance.randrange(MOST_SIZE)
            place = self.chance.randrange(MEMORY - size + 1)
            if self.chance.random() < 0.1:
                place, size = NULL, 0
            elif not is_first and self.chance.random() < 0.2:
                place = max(self.chance.choice(self.model.ranks[rank].next_areas)[0], 0)
                size = min(size, MEMORY - place)
            self.say(name, rank, place, size)
            self.model.push(rank, place, size)

    def deregister(self) -> None:
        """An area of each rank, at the same place of all: if it is the last one of its address."""
        lists = [it.next_areas for it in self.model.ranks]
        addresses = [[place for place, _ in areas] for areas in lists]
        able = [i for i in range(len(lists[0])) if all(it[i] not in it[i + 1 :] for it in addresses)]
        if able:
            position, name = self.chance.choice(able), self.chance.choice("dD")
            for rank in self.ranks:
                self.say(name, rank, addresses[rank][position])
                self.model.pop(rank, addresses[rank][position])

    def tags(self) -> None:
        """Another size of tags."""
        size = self.chance.choice([0, 1, 4, 7, 8, MOST_TAG])
        self.say("t", -1, size)
        for rank in self.ranks:
            self.model.set_tagsize(rank, size)

    def sync(self) -> None:
        """The end of a superstep."""
        self.say("y", -1)
        self.model.tell_kept()
        self.model.sync()
        self.model.tell_memory()

    def collective(self) -> None:
        """One of the functions of level 1, with places of each rank."""
        p = len(self.ranks)
        name = self.chance.choice("BCEXFS")
        count = self.chance.choice([0, 4, 8, 16]) if name in "FS" else self.count(MEMORY // p)
        given, taken = count * (p if name in "CX" else 1), count * (p if name in "EX" else 1)
        first = self.chance.randrange(len(OPERATORS)) if name in "FS" else self.rank()
        sources = [self.room(given) for _ in self.ranks]
        places = [self.room(taken) for _ in self.ranks]
        if self.chance.random() < 0.3:  # one over the other
            places = [max(0, min(MEMORY - taken, source + self.chance.randrange(-8, 9))) for source in sources]
        if name == "E":
            places = [place if rank == first else NOWHERE for rank, place in zip(self.ranks, places)]
        if name == "S":
            name = "N"
        for rank in self.ranks:
            self.say(name, rank, *([] if name == "X" else [first]), sources[rank], places[rank], count)
        model = self.model
        if name == "X":
            model.total_exchange(sources, places, count)
        else:
            made = {"B": model.bcast, "C": model.scatter, "E": model.gather, "F": model.fold, "N": model.scan}[name]
            made(first, sources, places, count)
        model.tell_memory()

    def superstep(self) -> None:
        """Calls of each rank, and those that all make, in some order of each rank; then its end."""
        common: List[Callable[[], None]] = [self.register, self.deregister, self.tags]
        weights = self.chance.choice([(3, 3, 3, 1, 2), (4, 4, 0, 0, 1), (1, 0, 5, 2, 5), (1, 1, 1, 1, 1)])
        kinds: List[Callable[[int], None]] = [self.put, self.get, self.send, self.ask, self.take]
        for _ in range(self.chance.randrange(1, 4)):
            for rank in self.ranks:
                for kind in self.chance.choices([*kinds, self.write], [*weights, 2], k=self.chance.randrange(4)):
                    kind(rank)
            if self.chance.random() < 0.6:
                self.chance.choice(common)()
        if self.chance.random() < 0.3:
            self.collective()
        else:
            self.sync()

    def script(self, number: int) -> None:
        """A few supersteps."""
        self.say("n", -1, number)
        for rank in self.ranks:
            self.model.ranks[rank].told.append(f"script {number}, {rank} of {len(self.ranks)}")
        for _ in range(self.chance.randrange(3, 8)):
            self.superstep()
        self.sync()
