"""Cases of going back in time, for tests/tools/gdb/run."""

from __future__ import annotations

import contextlib
import pathlib
import random
import re
import tempfile
from typing import Callable, Iterable, Iterator, List, NamedTuple, Optional, Sequence, Set, Tuple

from bsptools.debug import monitor, runner, stop_replies
from bsptools.reverse import checkpoints, history, reversible_machine, run_places
from checks import units
from sessions import SHOW_REGISTERS, Bench, expect, in_order, registers_in

NO_MORE = "No more reverse-execution history."
# Commands for gdb: Ctrl-C half a second after the next command lets the program go.
SOON_INTERRUPTED = """\
python
import os, signal, threading

def interrupt_soon(event):
    gdb.events.cont.disconnect(interrupt_soon)
    threading.Timer(0.5, os.kill, (os.getpid(), signal.SIGINT)).start()

gdb.events.cont.connect(interrupt_soon)
end""".splitlines()
# An emulator that the host has no memory for, if there is a file beside it.
SCARCE = """\
#!/bin/sh
[ ! -e "$(dirname "$0")/full" ] || exit 5
exec "$BSPEMU" "$@"
"""

CASES: List[Callable[[Bench], None]] = []


def case(function: Callable[[Bench], None]) -> Callable[[Bench], None]:
    """A function that is tried."""
    CASES.append(function)
    return function


@case
def back_by_instructions(bench: Bench) -> None:
    """Each step back shows the registers before the step: within a superstep, and over a turn, with the other ranks where that leaves
    them."""
    program = bench.build("tests/tools/gdb/rounds.c")
    show = ["output/x (int)$pc", "output/x (int)$sp", "output/x *(int *)$sp"]
    commands = ["break rounds.c:39 thread 2", "continue", "thread 2", *show, *["stepi", *show] * 40, *["reverse-stepi", *show] * 40]
    text = bench.gdb(program, commands, "--nodes", "2")
    shown = re.findall(r"(?<=\(gdb\) )(0x[0-9a-f]+)(?=\(gdb\))", text)
    places = [tuple(shown[place : place + 3]) for place in range(0, len(shown), 3)]
    expect(len(places) == 81 and places[41:] == places[39::-1], text)

    ticks = [_ticks(bench, program, ["break superstep 2", "go"], rank) for rank in range(3)]
    begun = [_ticks(bench, program, ["break superstep 1", "go"], rank) for rank in range(3)]
    for count in (1, 30):
        commands = ["monitor superstep 2", "continue", "thread 2", *["reverse-stepi"] * count, "info threads", SHOW_REGISTERS]
        text = bench.gdb(program, commands, "--nodes", "3")
        in_order(text, '1    Thread 1 "rank 0, superstep 1" (synced)', '* 2    Thread 2 "rank 1, superstep 1" (running)')
        lines = ["break superstep 1", "go", "step 0 100000", "step 2 100000", f"step 1 {ticks[1] - count - begun[1]}"]
        expect(registers_in(text, 3) == bench.registers_told(program, lines, 3), text)


def _ticks(bench: Bench, program: str, lines: Sequence[str], rank: int) -> int:
    """How many instructions a rank has made behind these lines."""
    return int(bench.debug(program, [*lines, f"regs {rank}"], "--nodes", "3")[len(lines)].split()[5])


@case
def back_by_lines(bench: Bench) -> None:
    """To the line before, into a function and out of it, and over bsp_sync, where gdb does not stop in the library."""
    program = bench.build("tests/tools/gdb/rounds.c")
    commands = ["break 44 if round == 1", "continue", *["reverse-next"] * 5, "reverse-step", "reverse-finish", "reverse-step", "reverse-next"]
    text = bench.gdb(program, commands, "--nodes", "3")
    in_order(text, "hit Breakpoint 1, main ()", "43\t        bsp_sync();", "42\t        printf", "41\t        note(round);", "40\t")
    in_order(text, "39\t        mine.numbers[round] = twice", "(gdb) 38\t", "44\t")
    text = bench.gdb(program, ["break 40", "continue", "reverse-step", "bt", "reverse-finish", "info threads"], "--nodes", "2")
    in_order(text, "twice (number=0) at", "19\t}", "#1 ", "39\t", '* 1    Thread 1 "rank 0, superstep 1" (running)')


@case
def back_to_breakpoints(bench: Bench) -> None:
    """The stops of continue in the other order, then the start, and the same stops again; nothing is shown twice."""
    program = bench.build("tests/tools/gdb/rounds.c")
    commands = ["break note if round != 2", *["continue"] * 8, "monitor superstep", *["reverse-continue"] * 8, "monitor superstep"]
    text = bench.gdb(program, [*commands, *["continue"] * 8, "delete", "continue"], "--nodes", "3")
    stops = re.findall(r'"rank (\d), superstep \d" hit Breakpoint 1, note \(round=(\d)\)', text)
    forth = [(str(rank), str(round)) for round in (0, 1, 3) for rank in range(3)][:8]
    expect(stops == [*forth, *forth[-2::-1], *forth], text)
    in_order(text, "superstep 4\n", NO_MORE, "_start ()", "superstep 0\n", "exited normally")
    expect(text.count("rank 1 has made round 0\n") == 1 and text.count("rank 1 has made round 3\n") == 1, text)
    commands = ["break note thread 2", *["continue"] * 2, "reverse-continue", "set scheduler-locking on", "delete", "break twice"]
    text = bench.gdb(program, [*commands, "reverse-continue", "info threads"], "--nodes", "3")
    in_order(text, *['Thread 2 "rank 1, superstep 1" hit Breakpoint 1, note (round=0)'] * 2, 'Thread 2 "rank 1, superstep 1" hit Breakpoint 2, twice (number=10)')
    in_order(text, '1    Thread 1 "rank 0, superstep 1" (synced)', '* 2    Thread 2 "rank 1, superstep 1" (running)')


@case
def back_to_supersteps(bench: Bench) -> None:
    """Where a superstep began, also from the end of the run, where `monitor end` has gdb stop."""
    program = bench.build("tests/tools/gdb/rounds.c")
    commands = ["monitor end", "continue", "info threads", "monitor superstep 2", "reverse-continue", "info threads", SHOW_REGISTERS]
    text = bench.gdb(program, [*commands, "reverse-continue", "continue", "continue", "continue"], "--nodes", "2")
    in_order(text, "ended\n", "stopped.", 'superstep 5" (ended)', "superstep 2 has begun already", "superstep 2 begins", 'superstep 2" (running)')
    expect(registers_in(text, 2) == bench.registers_told(program, ["break superstep 2", "go"], 2), text)
    in_order(text, NO_MORE, "superstep 2 begins", "ended\n", "stopped.", "exited normally")


@case
def back_from_a_fault(bench: Bench) -> None:
    """A rank that has failed, and the run that is over by that, stand before that again, and fail again."""
    for options, signal in ((["-DEND=8"], "SIGSEGV"), (["-DEND=12"], "stopped.")):
        program = bench.build("examples/c/ends.c", *options)
        text = bench.gdb(program, ["continue", "reverse-stepi", "info threads", "reverse-step", "continue", "continue"], "--nodes", "2")
        in_order(text, signal, '* 1    Thread 1 "rank 0, superstep ', '" (running)', "main () at examples/c/ends.c", signal, "exited with code 0")
        expect(text.count("begun\n") == 2, text)


@case
def watch_back(bench: Bench) -> None:
    """The instruction that changed a variable of this rank, whichever rank was looked at before."""
    program = bench.build("tests/tools/gdb/rounds.c")
    commands = ["break 44 if s == 1 && round == 1", "continue", "delete", "watch mine.numbers[1]", "info threads", "reverse-continue"]
    text = bench.gdb(program, [*commands, "reverse-step"], "--nodes", "3")
    in_order(text, 'Thread 2 "rank 1, superstep 2" hit Hardware watchpoint 2', "Old value = 22", "New value = 0", "39\t", "twice (number=11)")


@case
def back_interrupted(bench: Bench) -> None:
    """Ctrl-C as a run goes back, and as a watch does: the machine stands at what it shows, and goes on from there."""
    program = bench.build("tests/tools/gdb/rounds.c", "-DLOOP=4000")
    commands = ["monitor superstep 3500", "continue", "watch mine.from", *SOON_INTERRUPTED, "reverse-continue"]
    text = bench.gdb(program, [*commands, "info threads", "delete", "reverse-continue", "info threads"], "--nodes", "2")
    in_order(text, "received signal SIGINT", 'superstep 3500" (running)', NO_MORE, 'superstep 0" (running)')


@case
def back_refused(bench: Bench) -> None:
    """If there is no room for another process, a line says so, and the machine stands where it stood."""
    folder = pathlib.Path(tempfile.mkdtemp(dir=bench.folder))
    (folder / "bspemu").write_text(SCARCE)
    (folder / "bspemu").chmod(0o755)
    scarce = Bench(str(folder / "bspemu"), bench.folder, bench.library)
    full, room = f"shell touch {folder}/full", f"shell rm {folder}/full"
    commands = ["break note", "continue", full, "reverse-stepi", "reverse-continue", "bt", room, *["reverse-stepi"] * 2, full, "stepi", room]
    # A run that takes long has a second process beside it already.
    none = "bsptools.debug.runner.LONG=1000000"
    text = scarce.gdb(scarce.build("tests/tools/gdb/rounds.c"), [*commands, "stepi", "reverse-continue", "continue"], "-n", "2", numbers=none)
    refused = "bspgdb: it does not move: the debugger has ended"
    # Forwards from there it goes by what the process itself has kept.
    in_order(text, refused, refused, "#0  note (round=0)", *["22\t{"] * 3, "23\t", NO_MORE, "hit Breakpoint 1, note")
    expect(text.count(refused) == 2, text)


class Hit(NamedTuple):
    """A rank at an address, in the order of a run."""

    superstep: int
    rank: int
    ticks: int
    pc: int


class Past:
    """All of a run, forwards: where its supersteps begin, and where ranks come to addresses."""

    def __init__(self, command: List[str], addresses: Sequence[int]) -> None:
        self.hits: List[Hit] = []
        self.begins: List[Tuple[int, ...]] = []
        run = reversible_machine.Machine(command)
        while run.outcome is None:
            self.begins.append(tuple(node.ticks for node in run.nodes()))
            if run.node(0).pc in addresses:
                self._note(run, 0)
            points = [(rank, addr) for rank in range(run.ranks) for addr in addresses]
            arrival = run.advance([*points, run.superstep + 1])
            while isinstance(arrival, run_places.AtRank):
                self._note(run, arrival.rank)
                arrival = run.advance([*points, run.superstep + 1])
        run.close()

    def _note(self, run: reversible_machine.Machine, rank: int) -> None:
        node = run.node(rank)
        self.hits.append(Hit(run.superstep, rank, node.ticks, node.pc))

    def before(self, place: run_places.Place, addresses: Set[int], rank: Optional[int]) -> Optional[Hit]:
        """The last time before a place at which a rank, or this one, was at one of these addresses."""
        hits = [it for it in self.hits if it.pc in addresses and rank in (None, it.rank)]
        behind = [it for it in hits if it.superstep < place.superstep or it[0] == place.superstep and it.ticks < place.ticks[it.rank]]
        return behind[-1] if behind else None

    def back_at(self, hit: Optional[Hit], place: run_places.Place, is_alone: bool) -> run_places.Place:
        """Where a machine stands that has gone back to a hit, or to the start."""
        if hit is None:
            return run_places.Place(0, self.begins[0], False)
        begin = self.begins[hit.superstep]
        end = place.ticks if hit.superstep == place.superstep else self.begins[hit.superstep + 1]
        ticks = end[: hit.rank] + (hit.ticks,) + (end if is_alone else begin)[hit.rank + 1 :]
        return run_places.Place(hit.superstep, ticks, False)

    def step_back(self, place: run_places.Place, rank: int) -> run_places.Place:
        """Where a machine stands of which a rank has gone an instruction back."""
        begin = self.begins[place.superstep]
        if place.ticks[rank] > begin[rank]:
            return run_places.Place(place.superstep, _one_less(place.ticks, rank), False)
        return run_places.Place(place.superstep - 1, _one_less(begin, rank), False) if place.superstep else place


def _one_less(ticks: Tuple[int, ...], rank: int) -> Tuple[int, ...]:
    return ticks[:rank] + (ticks[rank] - 1,) + ticks[rank + 1 :]


@case
def back_in_any_order(bench: Bench) -> None:
    """However a run goes on and back, it stands where it says, and there it is as a new one is: registers and memory."""
    program = bench.build("tests/tools/gdb/rounds.c")
    command = [bench.bspemu, "debug", program, *units(program), "--nodes", "3", "--memory", "262144"]
    addresses = bench.addresses(program, ["note", "bsp_sync", "rounds.c:44", "*bsp_sync+146"])
    past = Past(command, addresses)
    # So that few stops are many.
    with bench.machines:
        before = history.MOST_STOPS, history.WINDOW, history.WIDER
        history.MOST_STOPS, history.WINDOW, history.WIDER = 2, 50, 3
        try:
            for seed in range(2):
                Walk(seed, command, past, addresses).make(40)
            # States are kept wherever it goes, and most of them forgotten.
            with _keeping(0.0, 6, 2):
                for seed in range(2, 4):
                    Walk(seed, command, past, addresses).make(40)
        finally:
            history.MOST_STOPS, history.WINDOW, history.WIDER = before


@contextlib.contextmanager
def _keeping(every: float, most: int, latest: int) -> Iterator[None]:
    """While this lasts, states are kept so often, and so many of them."""
    before = checkpoints.EVERY, checkpoints.MOST_KEPT, checkpoints.LATEST
    checkpoints.EVERY, checkpoints.MOST_KEPT, checkpoints.LATEST = every, most, latest
    try:
        yield
    finally:
        checkpoints.EVERY, checkpoints.MOST_KEPT, checkpoints.LATEST = before


# A rank that makes 100 million instructions in a superstep.
LONG_LOOP = """\
        li s0, 50000000
loop:   addi s0, s0, -1
        bnez s0, loop
        li a7, 1
        ecall
"""


class Counting(reversible_machine.Machine):
    """A machine that counts, with all that come from it, the instructions that are made by steps."""

    made = 0

    def step(self, rank: int, count: int, must_break_off: run_places.Asked = run_places.never) -> int:
        moved = super().step(rank, count, must_break_off)
        Counting.made += moved
        return moved

    def run_to(self, points: Iterable[run_places.Point], rank: int, count: int, must_break_off: run_places.Asked = run_places.never) -> int:
        moved = super().run_to(points, rank, count, must_break_off)
        Counting.made += moved
        return moved

    def started(self) -> reversible_machine.Machine:
        other = super().started()
        other.__class__ = Counting
        return other


@case
def back_after_long(bench: Bench) -> None:
    """A step back after a long superstep makes little of it again, and so does a second one, and one forwards."""
    source = bench.folder / "long.s"
    source.write_text(LONG_LOOP)
    with bench.machines, _keeping(0.02, 32, 8):
        run = Counting([bench.bspemu, "debug", str(source), "--format", "asm", "--nodes", "2", "--limit", "1000000000"])
        there = runner.Runner(run, lambda text: None, lambda: False)
        there.breakpoints = {16}
        try:
            there.go(0)
            place = run.place()
            back, on = there.step_back, there.step
            ways: List[Tuple[Callable[[int], stop_replies.Halt], int]] = [(back, 1), (back, 2), (on, 1), (back, 2)]
            for way, left in ways:
                Counting.made = 0
                way(0)
                expect(Counting.made < place.ticks[0] // 2, f"{Counting.made} instructions are made again")
                expect(run.place() == place._replace(ticks=(place.ticks[0] - left, 0)), (run.place(), place))
            expect([run.node(0).pc, run.node(0).x[8]] == [8, 1], run.node(0))
        finally:
            run.close()


# Ranks that make a million instructions in each superstep, and store at its end.
MANY_SUPERSTEPS = """\
        li s0, 40
again:  li t0, 500000
count:  addi t0, t0, -1
        bnez t0, count
        la t1, mark
        sw s0, 0(t1)
        li a7, 4
        ecall
        addi s0, s0, -1
        bnez s0, again
        li a7, 1
        ecall
mark:   .word 0
"""


class Noting(reversible_machine.Machine):
    """A machine that notes how many others are begun at the start of the run."""

    begun = 0

    def started(self) -> reversible_machine.Machine:
        other = super().started()
        other.__class__ = Noting
        Noting.begun += 1
        return other


@case
def back_in_a_superstep_that_has_just_begun(bench: Bench) -> None:
    """What is looked for there is found from states that were kept, without the run to there once more: also if a rank has not come to the
    superstep's end, which might never come."""
    source = bench.folder / "many.s"
    source.write_text(MANY_SUPERSTEPS)
    with bench.machines, _keeping(0.02, 32, 8):
        run = Noting([bench.bspemu, "debug", str(source), "--format", "asm", "--nodes", "2", "--limit", "1000000000"])
        there = runner.Runner(run, lambda text: None, lambda: False)
        there.supersteps = {30}
        try:
            there.go(0)
            for rank, count in ((1, 5), (0, 9)):
                run.step(rank, count)
            there.supersteps = set()
            there.breakpoints = {8}
            begun = Noting.begun
            told = [monitor.Monitor(there, None).answer(it, 0).decode() for it in ("sent", "wrote 1 mark")]
            expect(told[0] == "superstep 30: 0 requests so far\n" and "a store by rank 1 in superstep 29: count, many.s:6" in told[1], told)
            stops = [(there.go_back(None, 0), run.superstep) for _ in range(4)]
            found = [(superstep, it.rank) for it, superstep in stops if isinstance(it, stop_replies.Stop) and it.is_breakpoint]
            expect(found == [(30, 1), (30, 0), (29, 1), (29, 0)], stops)
            expect(Noting.begun == begun, Noting.begun)
        finally:
            run.close()


# Ranks that come to `early` three times, and then count for ever, past `late` each 200,000 instructions.
FAR_BACK = """\
        li a7, 4
        ecall
        li s0, 3
early:  addi s0, s0, -1
        bnez s0, early
outer:  li s1, 100000
        add s1, s1, s0
inner:  addi s1, s1, -1
        bnez s1, inner
late:   addi s0, s0, 1
        j outer
"""
EARLY, INNER, LATE = 12, 32, 40
# In the second superstep, how many instructions a rank has made there the last times before 2,000,000.
LAST_LATE, LAST_INNER, THIRD_EARLY = 1800122, 1800120, 5


@case
def back_far_in_a_rank_that_runs(bench: Bench) -> None:
    """A breakpoint is found however far it lies back in a rank that would go on for ever: as gdb shows it, and by the number of
    instructions; also in a rank below which another one would go on for ever."""
    source, program = bench.folder / "far_back.s", bench.folder / "far_back.elf"
    source.write_text(FAR_BACK)
    bench.run("asm", str(source), str(program))
    commands = ["monitor superstep 1", "continue", "monitor delete", "thread 2", "set scheduler-locking on", "break late", *["continue"] * 2]
    commands += ["delete", "break early", "reverse-continue", SHOW_REGISTERS, *["reverse-continue", "print (int)$fp"] * 2]
    text = bench.gdb(str(source), commands, "--nodes", "2", "--memory", "1M")
    in_order(text, *['Thread 2 "rank 1, superstep 1" hit Breakpoint 1, '] * 2, 'Thread 2 "rank 1, superstep 1" hit Breakpoint 2, ')
    in_order(text, *["hit Breakpoint 2, "] * 2, "$1 = 2", "hit Breakpoint 2, ", "$2 = 3")
    lines = ["break superstep 1", "go", f"step 1 {THIRD_EARLY}"]
    expect(registers_in(text, 2) == bench.registers_told(str(program), lines, 2), text)

    with bench.machines:
        run = reversible_machine.Machine([bench.bspemu, "debug", str(program), "--format", "elf", "--nodes", "2", "--limit", "1000000000"])
        there = runner.Runner(run, lambda text: None, lambda: False)
        there.supersteps = {1}
        try:
            there.go(0)
            there.supersteps = set()
            begin = run.place().ticks
            for rank, count in enumerate((2000000, 1000000)):
                run.step(rank, count)
            ways: List[Tuple[Set[int], int, int]] = [({EARLY}, 1, THIRD_EARLY), ({EARLY, LATE}, 1, THIRD_EARLY - 2), ({EARLY, LATE}, 1, THIRD_EARLY - 4)]
            ways += [({EARLY, LATE}, 0, LAST_LATE), ({INNER}, 0, LAST_INNER), ({INNER}, 0, LAST_INNER - 2), ({EARLY}, 0, THIRD_EARLY)]
            for breakpoints, rank, count in ways:
                there.breakpoints = breakpoints
                halt, node = there.go_back(None, 1), run.node(rank)
                expect(halt == stop_replies.Stop(rank, 5, is_breakpoint=True) and node.pc in breakpoints, (halt, node))
                expect(node.ticks == begin[rank] + count, (count, node, begin))
        finally:
            run.close()


class Walk:
    """Steps forth and back, which are chosen by chance."""

    def __init__(self, seed: int, command: List[str], past: Past, addresses: List[int]) -> None:
        self.chance, self.past, self.addresses = random.Random(seed), past, addresses
        self.machine = reversible_machine.Machine(command)
        self.machine.spare.is_wanted = seed % 2 == 0
        self.shown = bytearray()
        self.runner = runner.Runner(self.machine, self.shown.extend, lambda: False)

    def make(self, count: int) -> None:
        """Makes so many steps, and goes on to the end."""
        for _ in range(count):
            self.runner.breakpoints = set(self.chance.sample(self.addresses, self.chance.randrange(4)))
            rank = self.chance.randrange(self.machine.ranks)
            self.chance.choice([self._forth, self._step_back, self._step_back, self._go_back])(rank)
            self._compare()
        self.runner.breakpoints = set()
        while not isinstance(self.runner.go(0), stop_replies.Exit):
            pass
        wanted = "".join(f"rank {rank} has made round {round}\n" for round in range(4) for rank in range(3)).encode()
        expect(bytes(self.shown).replace(runner.ENDS, b"").replace(b"ended\n", b"") == wanted, self.shown)
        self.machine.close()

    def _forth(self, rank: int) -> None:
        pc = self.machine.node(rank).pc
        ways: List[Callable[[int], stop_replies.Halt]] = [self.runner.go, self.runner.go_alone]
        ways.append(lambda rank: self.runner.step_range(rank, pc - 64, pc + 64))
        if self.machine.outcome is None:
            self.chance.choice(ways)(rank)

    def _step_back(self, rank: int) -> None:
        for _ in range(self.chance.randrange(1, 50)):
            place = self.machine.place()
            wanted = self.past.step_back(place, rank)
            halt = self.runner.step_back(rank)
            found = self.machine.place()
            expect(found == wanted and halt == stop_replies.Stop(rank, 5, is_begin=wanted == place), (rank, place, wanted, found, halt))

    def _go_back(self, rank: int) -> None:
        alone = self.chance.choice([None, rank])
        place = self.machine.place()
        hit = self.past.before(place, self.runner.breakpoints, alone)
        halt = self.runner.go_back(alone, rank)
        wanted, found = self.past.back_at(hit, place, alone is not None), self.machine.place()
        right = stop_replies.Stop(rank, 5, is_begin=True) if hit is None else stop_replies.Stop(hit.rank, 5, is_breakpoint=True)
        expect(found == wanted and halt == right, (alone, place, wanted, found, halt))

    def _compare(self) -> None:
        """With a machine that has come to this place from the start."""
        fresh = reversible_machine.Machine(self.machine.command)
        fresh.restart_at(self.machine.place())
        expect(fresh.nodes() == self.machine.nodes() and fresh.superstep == self.machine.superstep, self.machine.place())
        for node in fresh.nodes():
            for addr in (max(0, node.x[2] - 256), max(0, node.x[3] - 2048)):
                expect(fresh.memory(node.rank, addr, 4096) == self.machine.memory(node.rank, addr, 4096), self.machine.place())
        fresh.close()
