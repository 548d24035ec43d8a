"""Programs of several nodes, whose calls have operands at edges; many of them reach an exchange."""

from __future__ import annotations

import dataclasses
import random
from typing import List, Tuple

from fuzz import instructions

END, NPROCS, PID, SYNC, PUSH, POP, PUT, GET, HPPUT, HPGET, TAGSIZE, SEND, QSIZE, GET_TAG, MOVE, ABORT, WRITE, READ, CLOCK = range(1, 20)
WORDS = (1 << 32) - 1
NODES = ((6, 1), (8, 2), (6, 3), (4, 4), (3, 5), (3, 8), (1, 17), (1, 64))
MEMORIES = ((8, 4096), (8, 8192), (4, 12_288), (4, 65_536), (4, 1 << 20))
TAGS = (0, 1, 3, 4, 4, 8, 100, 4095, 4096)


@dataclasses.dataclass
class Shape:
    """What all ranks of a program have in common: the machine, where data may lie, how many of a thousand operands are bad."""

    nodes: int
    memory: int
    base: int
    rate: int
    clock: bool
    floats: bool
    atomics: bool


class Program:
    """A text that grows by calls, with the registrations and the tag size that hold where all of its calls go well."""

    def __init__(self, chance: random.Random, shape: Shape) -> None:
        self.chance, self.shape = chance, shape
        self.lines: List[str] = ["li a7,3", "ecall", "mv s0,a0"]
        self.areas: List[Tuple[int, int]] = []
        self.coming: List[Tuple[int, int]] = []
        self.tag = self.next_tag = self.greatest_tag = 0
        self.labels = 0

    def is_full(self) -> bool:
        """Whether more of it might pass the place where data begin. A line has two instructions at most."""
        return 8 * len(self.lines) + 600 > self.shape.base

    def is_bad(self) -> bool:
        """Whether an operand is to be at an edge, wherever that leads."""
        return self.chance.randrange(1000) < self.shape.rate

    def room(self) -> int:
        """How many bytes data may have."""
        return self.shape.memory - self.shape.base

    def place(self, length: int) -> int:
        """An address from which so many bytes lie in the memory, often at the edge of a page or of the memory."""
        chance, memory, base = self.chance, self.shape.memory, self.shape.base
        if self.is_bad():
            return chance.choice([0, memory - length + 1, memory, memory + 1, WORDS, WORDS - 3, base - 2, chance.randrange(WORDS)]) & WORDS
        last = max(base, memory - length)
        edge = 4096 * chance.randint(1, max(1, memory // 4096))
        near = [last, last - 1, edge - 1, edge - 2, edge - length, edge, base, chance.randint(base, last)]
        return min(max(chance.choice(near), base), last)

    def length(self, most: int) -> int:
        """A length, of small ones most often."""
        if self.is_bad():
            return self.chance.choice([most + 1, self.shape.memory, self.shape.memory + 1, 1 << 24, (1 << 24) + 1, WORDS, WORDS - 3])
        most = min(most, self.room())
        return min(most, self.chance.choice([0, 1, 2, 4, 4, 8, 30, most, self.chance.randint(0, most)]))

    def rank(self) -> str:
        """The lines that leave a rank in a0."""
        chance, nodes = self.chance, self.shape.nodes
        if self.is_bad():
            return f"li a0,{chance.choice([nodes, nodes + 1, WORDS, 65_536, 1024])}"
        if chance.randrange(2):
            return f"li a0,{chance.choice([0, nodes - 1, chance.randrange(nodes)])}"
        self.lines.append(f"li t0,{nodes}")
        self.lines.append(f"addi a0,s0,{chance.randrange(nodes)}")
        return "remu a0,a0,t0"

    def call(self, number: int, *operands: int, first: str = "") -> None:
        """A call, whose operands begin at a0, or at a1 where `first` has the lines for a0."""
        if first:
            self.lines.append(first)
        self.lines += [f"li a{at},{operand & WORDS}" for at, operand in enumerate(operands, 1 if first else 0)]
        self.lines += [f"li a7,{number}", "ecall"]

    def word(self, address: int, value: int) -> None:
        """A store of a word."""
        self.lines += [f"li t0,{value}", f"li t1,{address & WORDS}", "sw t0,0(t1)"]

    def register(self) -> None:
        """A registration or the end of one, or a tag size, which all ranks make alike."""
        act = self.chance.randrange(6)
        if act < 3:
            size = self.length(64 if self.chance.randrange(3) else 5000)
            address = self.place(size)
            self.coming.append((address, size))
            self.call(PUSH, address, size)
        elif act == 3 and (self.coming or self.is_bad()):
            address = self.chance.choice(self.coming)[0] if self.coming and not self.is_bad() else self.place(4)
            last = [at for at, area in enumerate(self.coming) if area[0] == address][-1:]
            self.coming = [area for at, area in enumerate(self.coming) if at not in last]
            self.call(POP, address)
        elif act > 3:
            self.next_tag = self.chance.choice([4097, WORDS]) if self.is_bad() else min(self.chance.choice(TAGS), self.room())
            self.greatest_tag = max(self.greatest_tag, min(self.next_tag, self.room()))
            address = self.place(4)
            self.word(min(address, self.shape.memory - 4), self.next_tag)
            self.call(TAGSIZE, address)

    def transfer(self) -> None:
        """A put or a get of a registered area, or of what is none."""
        if not self.areas and not self.is_bad():
            return self.message()
        area = self.chance.choice(self.areas) if self.areas and not self.is_bad() else (self.place(4), 0)
        length = self.length(area[1])
        offset = area[1] - length if self.chance.randrange(2) else self.chance.randint(0, max(0, area[1] - length))
        if self.is_bad():
            offset = self.chance.choice([area[1], area[1] + 1, WORDS, WORDS - length + 1]) & WORDS
        number = self.chance.choice([PUT, PUT, HPPUT, GET, HPGET])
        place = self.place(length)
        operands = (place, area[0], offset, length) if number in (PUT, HPPUT) else (area[0], offset, place, length)
        return self.call(number, *operands, first=self.rank())

    def message(self) -> None:
        """A message is sent, or something is asked of the queue or taken from it."""
        number = self.chance.choice([SEND, SEND, SEND, QSIZE, GET_TAG, MOVE, MOVE])
        length = self.length(200)
        if number == SEND:
            self.call(SEND, self.place(self.tag), self.place(length), length, first=self.rank())
        elif number == MOVE:
            self.call(MOVE, self.place(max(200, length)), length)
        else:
            self.call(number, self.place(4), self.place(4 if number == QSIZE else self.greatest_tag))

    def text(self) -> None:
        """Something is written, or read from the input."""
        if self.shape.clock and self.chance.randrange(2):
            self.time()
            return
        length = self.length(40)
        number = ABORT if self.is_bad() else self.chance.choice([WRITE, READ])
        self.call(number, self.place(length), length)

    def time(self) -> None:
        """The clock is read, and what it shows is written."""
        place = self.place(8)
        self.call(CLOCK)
        self.lines += [f"li t1,{place}", "sw a0,0(t1)", "sw a1,4(t1)"]
        self.call(WRITE, place, 8)

    def work(self) -> None:
        """Instructions between the calls, among them stores over the edges of pages."""
        store = self.chance.choice(["sb", "sh", "sw", "lw", "lhu", "lb"])
        self.lines += [f"li t1,{self.place(4)}", f"{store} t2,0(t1)"]
        self.lines.append(self.chance.choice(["addi t2,t2,77", "mul t2,t2,s0", "div t2,t2,s0", "add t2,t2,s0", "nop", "fence"]))
        if self.is_bad():
            self.lines.append(self.chance.choice(["ebreak", ".word 0xFFFFFFFF", "jr t1", "li a7,20", "li a7,0"]))

    def compute(self) -> None:
        """Registers of floating point get values, some instructions compute with them, and the result is written with the flags."""
        chance, place = self.chance, self.place(16)
        for register in chance.sample(range(8), chance.randint(1, 3)):
            pattern = instructions.pattern(chance)
            self.word(place, pattern & WORDS)
            self.word(place + 4, pattern >> 32)
            self.lines += [f"li t1,{place}", f".word {3 << 12 | 6 << 15 | register << 7 | 0x07}"]
        self.lines += [f".word {instructions.float_word(chance, self.is_bad())}" for _ in range(chance.randint(1, 8))]
        stored = chance.randrange(8)
        self.lines += [f"li t1,{place}", f".word {3 << 12 | 6 << 15 | stored << 20 | 0x27}"]
        # What x0 to x7 have is written too, of which conversions and comparisons change some.
        self.lines += [f".word {3 << 20 | 2 << 12 | 5 << 7 | 0x73}", "sw t0,8(t1)", f"sw {chance.choice(['t2', 'tp', 'gp', 'ra'])},12(t1)"]
        self.call(WRITE, place, 16)

    def contend(self) -> None:
        """Words are changed by instructions of A, and then written, with what these have loaded."""
        chance, place = self.chance, self.place(16) // 4 * 4
        self.lines.append(f"li t1,{place + chance.choice([1, 2, 3]) * self.is_bad()}")
        for _ in range(chance.randint(1, 8)):
            self.lines.append(f".word {instructions.atomic_word(chance, self.is_bad())}")
            if chance.randrange(3) == 0:
                self.lines.append(chance.choice(["addi t1,t1,4", "addi t1,t1,-4", "addi t2,t2,-77", "sw t0,0(t1)", "xori t0,t0,-1"]))
        self.lines += [f"li t1,{place}", "sw t0,8(t1)", "sw t2,12(t1)"]
        self.call(WRITE, place, 16)

    def act(self) -> None:
        """One thing that ranks may do by themselves, or the same one several times."""
        begin = len(self.lines)
        acts = [self.transfer, self.transfer, self.transfer, self.message, self.message, self.text, self.work]
        self.chance.choice(acts + [self.compute] * 5 * self.shape.floats + [self.contend] * 5 * self.shape.atomics)()
        if self.chance.randrange(8) == 0 and self.lines[-1] == "ecall" and len(self.lines) > begin + 1:
            self.labels += 1
            self.lines[-1:] = [f"li s1,{self.chance.choice([2, 3, 20])}", f"again{self.labels}: ecall", "addi s1,s1,-1",
                               f"bnez s1,again{self.labels}"]

    def acts_of(self, rank: int, count: int) -> None:
        """Things that one rank does, and the others do not."""
        self.labels += 1
        label = f"other{self.labels}"
        self.lines += [f"li t0,{rank}", f"bne s0,t0,{label}"]
        for _ in range(count):
            self.act()
        self.lines.append(f"{label}:")

    def superstep(self) -> None:
        """What all ranks do alike, what some do by themselves, and the sync."""
        chance, nodes = self.chance, self.shape.nodes
        for _ in range(chance.randrange(4)):
            self.register()
        for _ in range(chance.randrange(3)):
            self.act()
        for rank in chance.sample(range(nodes), min(nodes, chance.randrange(4))):
            self.acts_of(rank, chance.randint(1, 3))
        if self.shape.rate and chance.randrange(10) == 0:
            self.acts_of(chance.randrange(nodes), 0)
            last = self.lines.pop()
            chance.choice([self.register, lambda: self.call(chance.choice([END, ABORT, 0, 20])), self.work])()
            self.lines.append(last)
        self.call(SYNC)
        self.areas, self.tag = list(self.coming), self.next_tag


@dataclasses.dataclass(frozen=True)
class Made:
    """A text, with the machine that it was made for."""

    text: bytes
    nodes: int
    memory: int


def program(chance: random.Random, clock: bool = False, floats: bool = False, atomics: bool = False) -> Made:
    """A program of some supersteps, which reads a clock if there is one, computes if there are units of floating point, and changes
    words by instructions of A if there are these."""
    nodes, memory = (chance.choices([size for _, size in sizes], [weight for weight, _ in sizes])[0] for sizes in (NODES, MEMORIES))
    base = 0xC00 if memory == 4096 else chance.choice([0x1000, 0x1800, 0x1000])
    made = Program(chance, Shape(nodes, memory, base, chance.choice([0, 0, 0, 2, 5, 20, 200]), clock, floats, atomics))
    for _ in range(chance.choice([1, 2, 3, 4, 8])):
        if not made.is_full():
            made.superstep()
    if not made.is_full():
        made.act()
    if not made.is_bad():
        made.call(END)
    return Made("\n".join(made.lines).encode() + b"\n", nodes, memory)
