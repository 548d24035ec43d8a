"""Cases of going back from the middle of a superstep, for tests/tools/gdb/run.

What gdb shows is compared with a plain run, of which each instruction was looked at.
"""

from __future__ import annotations

import random
import re
from typing import Callable, Dict, List, NamedTuple, Optional, Sequence, Set, Tuple

from back import NO_MORE
from bsptools.framed.session import Node, Reply, Session, node_of
from bsptools.reverse.run_places import Place
from checks import units
from sessions import SHOW_REGISTERS, Bench, Wrong, expect, in_order, registers_in

PROGRAM = "tests/tools/gdb/rounds.c"
RANKS = 3
# Of which scripts are made by chance: among them are such as stop at the beginning of a superstep, and go on there with another rank.
SEEDS = (2, 5, 9, 12)

CASES: List[Callable[[Bench], None]] = []


def case(function: Callable[[Bench], None]) -> Callable[[Bench], None]:
    """A function that is tried."""
    CASES.append(function)
    return function


class When(NamedTuple):
    """Something in the order of history: in a superstep, of a rank before so many instructions; `BEGIN` is the rank of a superstep's
    beginning, and an exchange is behind all ranks."""

    superstep: int
    is_landing: bool
    rank: int
    ticks: int


BEGIN = -1
Watched = Tuple[int, int]


class Plain:
    """A plain run: the nodes before each of their instructions, where supersteps begin, and when watched words change."""

    def __init__(self, command: List[str], watched: Sequence[Watched]) -> None:
        self._session = Session(command)
        self.nodes: List[List[Node]] = [[] for _ in range(RANKS)]
        self.begins: List[Tuple[int, ...]] = []
        self.changes: List[Tuple[When, Watched]] = []
        self._watched = watched
        # The bytes in which all of these words are: one line for each look, since a session has no more than so many.
        self._first = min(addr for _, addr in watched)
        self._size = max(addr for _, addr in watched) + 4 - self._first
        self._words = self._read()
        line = "turned"
        while line == "turned":
            superstep = len(self.begins)
            self.begins.append(tuple(self._node(rank).ticks for rank in range(RANKS)))
            for rank in range(RANKS):
                self._follow(superstep, rank)
            line = self._session.ask("turn").accepted()[0]
            self._note(When(superstep, True, BEGIN, 0))
        expect(line == "ended", line)
        self.begins.append(tuple(len(nodes) - 1 for nodes in self.nodes))
        self._session.close()

    def _node(self, rank: int) -> Node:
        node = self._session.node(rank)
        assert node is not None
        return node

    def _read(self) -> Dict[Watched, bytes]:
        found: Dict[Watched, bytes] = {}
        for rank in range(RANKS):
            found.update(self._words_of(rank, self._session.ask(self._look(rank))))
        return found

    def _look(self, rank: int) -> str:
        return f"bytes {rank} {self._first} {self._size}"

    def _words_of(self, rank: int, reply: Reply) -> Dict[Watched, bytes]:
        data = bytes.fromhex(" ".join(reply.accepted()))
        return {it: data[it[1] - self._first :][:4] for it in self._watched if it[0] == rank}

    def _follow(self, superstep: int, rank: int) -> None:
        """A rank makes its instructions, one by one."""
        del self.nodes[rank][self._node(rank).ticks :]
        while True:
            replies = self._session.ask_all([f"regs {rank}", self._look(rank), f"step {rank} 1"] * 20)
            for shown, looked in zip(replies[::3], replies[1::3]):
                node = node_of(shown.lines)
                assert node is not None
                for word, content in self._words_of(rank, looked).items():
                    if content != self._words[word]:
                        self._words[word] = content
                        self.changes.append((When(superstep, False, rank, node.ticks - 1), word))
                self.nodes[rank].append(node)
                if not node.runs:
                    return

    def _note(self, when: When) -> None:
        words = self._read()
        self.changes += [(when._replace(rank=it[0]), it) for it in self._watched if words[it] != self._words[it]]
        self._words = words

    def ends(self, superstep: int) -> Tuple[int, ...]:
        """How many instructions each rank has made at the end of a superstep."""
        return self.begins[superstep + 1]

    def registers(self, place: Place) -> List[List[int]]:
        """The registers of all ranks at a place, and the pc of each behind them."""
        nodes = [self.nodes[rank][ticks] for rank, ticks in enumerate(place.ticks)]
        return [[*node.x[1:], node.pc] for node in nodes]


class Goal(NamedTuple):
    """What gdb is to stop at: addresses, of any rank or of one; words; beginnings of supersteps."""

    breakpoints: Set[Tuple[int, Optional[int]]]
    watched: Set[Watched]
    supersteps: Set[int]


def last(plain: Plain, goal: Goal, place: Place, alone: Optional[int]) -> Optional[When]:
    """The last stop before a place, of all ranks or of one alone."""
    found = [
        When(superstep, False, rank, ticks)
        for superstep in range(place.superstep + 1)
        for rank in range(RANKS)
        for ticks in range(plain.begins[superstep][rank], plain.ends(superstep)[rank])
        if {(plain.nodes[rank][ticks].pc, None), (plain.nodes[rank][ticks].pc, rank)} & goal.breakpoints
    ]
    found += [when for when, word in plain.changes if word in goal.watched]
    found = [it for it in found if alone in (None, it.rank)]
    found += [When(it, False, BEGIN, 0) for it in goal.supersteps]
    return max((it for it in found if _is_before(plain, it, place)), default=None)


def _is_before(plain: Plain, when: When, place: Place) -> bool:
    if when.superstep != place.superstep:
        return when.superstep < place.superstep
    if when.rank == BEGIN:
        return place.ticks != plain.begins[place.superstep]
    return not when.is_landing and when.ticks < place.ticks[when.rank]


def back_at(plain: Plain, when: Optional[When], place: Place, alone: Optional[int]) -> Place:
    """Where all stand that have gone back to there, or to the start."""
    if when is None:
        return Place(0, plain.begins[0], False)
    begin = plain.begins[when.superstep]
    if when.rank == BEGIN:
        return Place(when.superstep, begin, False)
    ends = place.ticks if when.superstep == place.superstep else plain.ends(when.superstep)
    ticks = ends[when.rank] - 1 if when.is_landing else when.ticks
    above = ends if when.is_landing or alone is not None else begin
    return Place(when.superstep, (*ends[: when.rank], ticks, *above[when.rank + 1 :]), False)


class Script:
    """Commands for gdb, which are chosen by chance, and where the ranks should stand behind each."""

    def __init__(self, seed: int, plain: Plain, addresses: Sequence[int], watched: Sequence[Watched]) -> None:
        self.chance, self._plain = random.Random(seed), plain
        self.commands: List[str] = []
        self.places: List[Tuple[int, Place]] = []
        superstep = self.chance.randrange(1, 5)
        self._place = Place(superstep, plain.begins[superstep], False)
        self._rank = 0
        self.commands += [f"monitor superstep {superstep}", "continue", "monitor delete"]
        for _ in range(self.chance.randrange(1, 5)):
            self._step_far(self.chance.randrange(RANKS))
        self._goal = self._set(addresses, watched)
        for _ in range(12):
            self._choose(self.chance.randrange(RANKS) if self.chance.random() < 0.5 else self._rank)
            self.chance.choice([self._step, self._step_back, self._go_back, self._go_back, self._go_back])()
            self.places.append((len(self.commands), self._place))
            self.commands += ["monitor superstep", SHOW_REGISTERS]

    def _choose(self, rank: int) -> None:
        self._rank = rank
        self.commands.append(f"thread {rank + 1}")

    def _step_far(self, rank: int) -> None:
        """A rank goes on in this superstep, or to its end."""
        left = self._plain.ends(self._place.superstep)[rank] - self._place.ticks[rank]
        count = self.chance.choice([left, self.chance.randrange(left + 1), min(left, self.chance.randrange(200))])
        if count:
            self._choose(rank)
            self.commands.append(f"stepi {count}")
            self._place = self._moved(rank, count)

    def _moved(self, rank: int, count: int) -> Place:
        ticks = self._place.ticks
        return self._place._replace(ticks=(*ticks[:rank], ticks[rank] + count, *ticks[rank + 1 :]))

    def _set(self, addresses: Sequence[int], watched: Sequence[Watched]) -> Goal:
        goal = Goal(set(), set(), set())
        for addr in self.chance.sample(list(addresses), self.chance.randrange(3)):
            rank = self.chance.choice([None, None, self.chance.randrange(RANKS)])
            goal.breakpoints.add((addr, rank))
            self.commands.append(f"break *{addr}" + ("" if rank is None else f" thread {rank + 1}"))
        for rank, addr in self.chance.sample(list(watched), self.chance.randrange(3)):
            if addr not in [it for _, it in goal.watched]:
                goal.watched.add((rank, addr))
                self._choose(rank)
                self.commands.append(f"watch *(int *){addr}")
        for superstep in self.chance.sample(range(5), self.chance.randrange(2)):
            goal.supersteps.add(superstep)
            self.commands.append(f"monitor superstep {superstep}")
        return goal

    def _step(self) -> None:
        """This rank makes an instruction."""
        if self._plain.ends(self._place.superstep)[self._rank] > self._place.ticks[self._rank]:
            self.commands.append("stepi")
            self._place = self._moved(self._rank, 1)

    def _step_back(self) -> None:
        """This rank goes an instruction back."""
        begin = self._plain.begins[self._place.superstep]
        self.commands.append("reverse-stepi")
        if self._place.ticks[self._rank] > begin[self._rank]:
            self._place = self._moved(self._rank, -1)
        elif self._place.superstep > 0:
            self._place = Place(self._place.superstep - 1, begin, False)
            self._place = self._moved(self._rank, -1)

    def _go_back(self) -> None:
        """All go back, or this rank alone."""
        alone = self._rank if self.chance.random() < 0.3 else None
        self.commands += [f"set scheduler-locking {'step' if alone is None else 'on'}", "reverse-continue", "set scheduler-locking step"]
        when = last(self._plain, self._goal, self._place, alone)
        self._place = back_at(self._plain, when, self._place, alone)
        if when is not None and when.rank != BEGIN:
            self._rank = when.rank


@case
def back_inside(bench: Bench) -> None:
    """From wherever the ranks stand in a superstep, back to the last breakpoint, change or beginning before."""
    program = bench.build(PROGRAM)
    names = ["note", "twice", "*bsp_sync", "44", "*bsp_sync+146"]
    addresses = bench.addresses(program, names)
    words = bench.pointers(program, ["seen", "received.numbers[1]", "mine.numbers[2]", "received.from"])
    watched = [(rank, addr) for rank in range(RANKS) for addr in words]
    plain = Plain([bench.bspemu, "debug", program, *units(program), "--nodes", str(RANKS), "--memory", str(1 << 24)], watched)
    for seed in SEEDS:
        check(bench, program, plain, Script(seed, plain, addresses, watched))


@case
def back_past_others(bench: Bench) -> None:
    """Breakpoints of other ranks, over which gdb steps by itself, pass nothing of this superstep: where another rank stands at one at the
    beginning of its superstep, and where one that is not for its rank stands there."""
    program = bench.build(PROGRAM)
    begin = f"*{bench.address(program, '*bsp_sync+146')}"
    commands = ["monitor superstep 4", "continue", "monitor delete", "thread 2", "stepi 561", "thread 3", "stepi", f"break {begin}"]
    text = bench.gdb(program, [*commands, "reverse-continue", "thread 2", "reverse-continue", "info threads"], "-n", "3")
    in_order(text, 'Thread 3 "rank 2, superstep 4" hit Breakpoint 1', 'Thread 2 "rank 1, superstep 4" hit Breakpoint 1', 'rank 2, superstep 4" (running)')
    commands = ["break note thread 3", "continue", "delete", f"break {begin} thread 1", "break twice thread 1", *["reverse-continue"] * 3]
    text = bench.gdb(program, [*commands, "info threads"], "-n", "3")
    in_order(text, 'Thread 1 "rank 0, superstep 1" hit Breakpoint 3', 'Thread 1 "rank 0, superstep 1" hit Breakpoint 2', NO_MORE)


@case
def back_alone(bench: Bench) -> None:
    """A rank that goes back alone stops for its own bytes, and the others stay where they are; also if gdb looks for the beginning of a
    function by that."""
    program = bench.build(PROGRAM)
    commands = ["break 41 thread 2", "continue", "delete", "thread 3", "watch mine.numbers[0]", "tbreak 40 thread 3", "continue", "next"]
    commands += ["thread 2", "set scheduler-locking on", "reverse-continue", "info threads"]
    text = bench.gdb(program, commands, "-n", "3")
    in_order(text, 'Thread 3 "rank 2, superstep 1" hit Hardware watchpoint 2', NO_MORE)
    commands = ["break 41 thread 2", "continue", "delete", "thread 3", "watch mine.numbers[0]", "continue", "delete 2", "thread 3"]
    commands += ["watch mine.numbers[0]", "thread 2", *["reverse-next"] * 2, "info threads"]
    text = bench.gdb(program, commands, "-n", "3")
    in_order(text, "New value = 40", "watchpoint 3", "43\t", "42\t", '* 2    Thread 2 "rank 1, superstep 1" (running) main () at ', "rounds.c:42")
    in_order(text, "rounds.c:42", '3    Thread 3 "rank 2, superstep 1" (running) main () at tests/tools/gdb/rounds.c:40')


@case
def back_over_changes(bench: Bench) -> None:
    """A step back over a change goes one instruction, and the change is met again however often the run goes there."""
    program = bench.build(PROGRAM)
    commands = ["break 44 if s == 1 && round == 1", "continue", "watch mine.numbers[1]", "reverse-continue", "x/i $pc", "continue", "x/i $pc"]
    text = bench.gdb(program, [*commands, "reverse-stepi", "x/i $pc", "continue", "reverse-continue", "x/i $pc"], "-n", "3")
    store, behind = re.findall(r"=> (0x[0-9a-f]+)", text)[:2]
    expect(re.findall(r"=> (0x[0-9a-f]+)", text) == [store, behind, store, store] and "sw" in text, text)
    expect(re.findall(r"New value = (\d+)", text) == ["0", "22", "0", "22", "0"], text)
    commands = ["monitor superstep 3", "continue", "monitor delete", "thread 2", "watch received.numbers[1]", "reverse-continue", "continue"]
    text = bench.gdb(program, [*commands, "reverse-stepi", "reverse-continue", "reverse-continue"], "-n", "3")
    hits = re.findall(r'"rank 1, superstep (\d)" hit Hardware watchpoint 1', text)
    expect(hits == ["2", "3", "2"] and NO_MORE in text, (hits, text))


@case
def back_over_exchanges(bench: Bench) -> None:
    """An exchange that writes what stood there is passed with all ranks; and ranks are shown where they are that have not been stepped."""
    program = bench.build(PROGRAM)
    commands = ["monitor superstep 4", "continue", "monitor delete", "thread 1", "watch received.from", "info threads", "reverse-continue"]
    text = bench.gdb(program, [*commands, "info threads"], "-n", "3")
    in_order(text, 'Thread 1 "rank 0, superstep 1" hit Hardware watchpoint 1: received.from', "Old value = 2", "New value = 0")
    in_order(text, '"rank 0, superstep 1" (running)', '"rank 1, superstep 1" (synced)', '"rank 2, superstep 1" (synced)')
    commands = ["monitor superstep 2", "continue", "monitor delete", "thread 1", "stepi 50", "thread 3", "reverse-stepi", SHOW_REGISTERS]
    text = bench.gdb(program, commands, "-n", "3")
    there = ["break superstep 1", "go", "step 0 100000", "step 1 100000"]
    expect(registers_in(text, 3)[:2] == bench.registers_told(program, there, 3)[:2], text)


def check(bench: Bench, program: str, plain: Plain, script: Script) -> None:
    """Has gdb make the commands of a script, and compares."""
    marked: List[str] = []
    for number, command in enumerate(script.commands):
        marked += [f"echo \\n=== {number}\\n", command]
    parts = re.split(r"=== (\d+)\n", bench.gdb(program, marked, "-n", str(RANKS)))
    shown = dict(zip(map(int, parts[1::2]), parts[2::2]))
    for at, place in script.places:
        found = (re.findall(r"superstep (\d+)", shown.get(at, "")), registers_in(shown.get(at + 1, ""), RANKS))
        if found != ([str(place.superstep)], plain.registers(place)):
            made = [(number, command) for number, command in enumerate(script.commands[:at]) if command != SHOW_REGISTERS]
            commands = "\n".join(f"{number}: {command}\n{shown.get(number, '')}" for number, command in made)
            raise Wrong(f"{place}\n{commands}\nis {_differing(plain, found[1])}, superstep {found[0]}")


def _differing(plain: Plain, shown: List[List[int]]) -> List[List[int]]:
    """After how many instructions each rank has these registers."""
    return [
        [ticks for ticks, node in enumerate(nodes) if [*node.x[1:], node.pc] == registers]
        for nodes, registers in zip(plain.nodes, shown)
    ]
