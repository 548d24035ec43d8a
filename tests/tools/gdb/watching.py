"""Cases of watched variables, for tests/tools/gdb/run: each watches its own rank, whatever the others do."""

from __future__ import annotations

from typing import Callable, List, Tuple

from back import SOON_INTERRUPTED
from bsptools.debug import runner, stop_replies, watchpoints
from bsptools.reverse import reversible_machine
from bsptools.reverse.reversible_machine import MOST_BREAKPOINTS
from checks import units
from sessions import Bench, expect, in_order

PROGRAM = "tests/tools/gdb/rounds.c"

CASES: List[Callable[[Bench], None]] = []


def case(function: Callable[[Bench], None]) -> Callable[[Bench], None]:
    """A function that is tried."""
    CASES.append(function)
    return function


@case
def watch_by_ranks(bench: Bench) -> None:
    """A variable that an exchange changes, and one that its rank changes, each of another rank, with a breakpoint in a third one between:
    the values are those of the rank that it was said for."""
    commands = ["thread 2", "watch received.numbers[1]", "thread 1", "watch seen", "break note thread 3", *["continue"] * 7, "delete", "continue"]
    text = bench.gdb(bench.build(PROGRAM), commands, "-n", "3")
    in_order(text, 'Thread 3 "rank 2, superstep 1" hit Breakpoint 3, note (round=0)')
    in_order(text, 'Thread 1 "rank 0, superstep 2" hit Hardware watchpoint 2: seen', "Old value = 0", "New value = 40")
    in_order(text, "New value = 40", 'Thread 3 "rank 2, superstep 2" hit Breakpoint 3', 'Thread 2 "rank 1, superstep 3" hit Hardware watchpoint 1: ')
    in_order(text, "hit Hardware watchpoint 1: received.numbers[1]", "Old value = 0", "New value = 2", "bsp_sync ()")
    in_order(text, "New value = 2", 'Thread 1 "rank 0, superstep 3" hit Hardware watchpoint 2: seen', "Old value = 40", "New value = 82")
    in_order(text, "New value = 82", 'Thread 3 "rank 2, superstep 3" hit Breakpoint 3', "exited normally")
    expect(text.count("Old value") == 4, text)


@case
def watch_back_by_ranks(bench: Bench) -> None:
    """Two variables, each of another rank: gdb takes both away where one is met on the way back, and each stays its rank's. One that is
    deleted there, and watched again, is of the rank that is looked at then."""
    commands = ["monitor end", "continue", "thread 1", "watch mine.numbers[1]", "thread 3", "watch received.from", *["reverse-continue"] * 2]
    commands += ["delete 2", "thread 2", "watch received.from", "continue", "continue"]
    text = bench.gdb(bench.build(PROGRAM), commands, "-n", "3")
    in_order(text, 'Thread 1 "rank 0, superstep 2" hit Hardware watchpoint 1: mine.numbers[1]', "Old value = 2", "New value = 0")
    in_order(text, "New value = 0", 'Thread 3 "rank 2, superstep 1" hit Hardware watchpoint 2: received.from', "Old value = 1", "New value = 0")
    in_order(text, "Hardware watchpoint 3: received.from", 'Thread 1 "rank 0, superstep 2" hit Hardware watchpoint 1: mine.numbers[1]', "ended\n")
    commands = ["thread 3", "watch mine.numbers[1]", "continue", "delete", "thread 1", "watch mine.numbers[1]", "reverse-continue"]
    text = bench.gdb(bench.build(PROGRAM), commands, "-n", "3")
    in_order(text, 'Thread 3 "rank 2, superstep 2" hit Hardware watchpoint 1', "New value = 42", 'Thread 1 "rank 0, superstep 2" hit Hardware watchpoint 2')


@case
def watch_beside_breakpoints(bench: Bench) -> None:
    """What is watched is met, and the run goes on from there, also if there are as many breakpoints as there may be."""
    commands = [*[f"break *{addr}" for addr in range(0x40000, 0x40000 + 4 * MOST_BREAKPOINTS, 4)], "thread 2", "watch mine.from"]
    text = bench.gdb(bench.build(PROGRAM), [*commands, *["continue"] * 2], "-n", "2")
    in_order(text, 'Thread 2 "rank 1, superstep 0" hit Hardware watchpoint', "New value = 1", "exited normally")


@case
def watch_two_ranks(bench: Bench) -> None:
    """What gdb takes for one watch, or for one of another rank, is told; by awatch two ranks are watched."""
    commands = ["watch mine.from", "thread 3", "watch mine.from", "watch seen thread 2", "delete 2 3", "awatch mine.from", *["continue"] * 3]
    text = bench.gdb(bench.build(PROGRAM), ["thread 2", *commands], "-n", "3")
    in_order(text, "Hardware watchpoint 2: mine.from", "watched already, and stays of the rank for which it was typed first: for a second rank type awatch")
    in_order(text, "Hardware watchpoint 3: seen", "watched in rank 2, and never stops rank 1: type `thread 2` first", "watchpoint 4: mine.from")
    in_order(text, "watchpoint 4: mine.from", 'Thread 2 "rank 1, superstep 0" hit ', "New value = 1", 'Thread 3 "rank 2, superstep 0" hit ', "New value = 2")
    expect(text.count("watched already") == 1, text)


@case
def watch_enabled(bench: Bench) -> None:
    """What is enabled at another rank is of that rank, and a line says so."""
    commands = ["thread 2", "watch mine.from", "disable 1", "enable 1", "disable 1", "thread 3", "enable 1", "continue"]
    text = bench.gdb(bench.build(PROGRAM), commands, "-n", "3")
    in_order(text, "watchpoint 1 was of rank 1, and is of rank 2 from now on; to have it back type `disable 1`, `thread 2`, `enable 1`", "New value = 2")
    expect(text.count("from now on") == 1, text)


@case
def watch_loads(bench: Bench) -> None:
    """Where a variable is read, and where it is read or written: over the ends of supersteps, and only in its rank."""
    commands = ["thread 2", "rwatch seen", *["continue"] * 2, "delete", "awatch seen", *["continue"] * 2, "delete", "continue"]
    text = bench.gdb(bench.build(PROGRAM), commands, "-n", "3")
    in_order(text, 'Thread 2 "rank 1, superstep 2" hit Hardware read watchpoint 1: seen', "Value = 0", "rounds.c:44")
    in_order(text, 'Thread 2 "rank 1, superstep 3" hit Hardware read watchpoint 1: seen', "Value = 0", "rounds.c:44")
    in_order(text, "Hardware access (read/write) watchpoint 2: seen", "Old value = 0", "New value = 2", "Value = 2", "exited normally")


@case
def watch_loads_back(bench: Bench) -> None:
    """Reads are not looked for on the way back, and a line says so."""
    text = bench.gdb(bench.build(PROGRAM), ["monitor end", "continue", "rwatch seen", *["reverse-continue"] * 2, "delete", "continue"], "-n", "3")
    in_order(text, "rwatch stops nowhere on the way back; awatch stops at the last write", "No more reverse-execution history.", "ended\n")
    expect(text.count("rwatch stops nowhere") == 1, text)


@case
def watch_steps(bench: Bench) -> None:
    """A line that changes what is watched is left in its midst, forwards and backwards; also a variable of a function, up to its end."""
    program = bench.build(PROGRAM)
    commands = ["break 39 if s == 1 && round == 1", "continue", "watch mine.numbers[1]", *["next"] * 3, *["reverse-next"] * 3, "info threads"]
    text = bench.gdb(program, commands, "-n", "3")
    in_order(text, "hit Hardware watchpoint 2: mine.numbers[1]", "Old value = 0", "New value = 22", "40\t", "41\t", "40\t")
    in_order(text, "41\t", "hit Hardware watchpoint 2: mine.numbers[1]", "Old value = 22", "New value = 0", '* 2    Thread 2 "rank 1, superstep 2"')
    text = bench.gdb(program, ["break twice if number == 11", "continue", "watch result", "continue", "continue", "info watchpoints"], "-n", "3")
    in_order(text, "twice (number=11)", "Hardware watchpoint 2: result", "New value = 22", "Watchpoint 2 deleted because the program has left the block")


@case
def watch_far_back(bench: Bench) -> None:
    """To a store behind more supersteps than are looked at in one go, of which there are fewer here: there it stops, and goes on from there."""
    program = bench.build(PROGRAM, "-DLOOP=450")
    commands = ["monitor superstep 450", "continue", "watch seen", *["reverse-continue"] * 2]
    text = bench.gdb(program, commands, "-n", "2", numbers="bsptools.reverse.last_writers.MOST_SUPERSTEPS=400")
    in_order(text, "superstep 450 begins", "what is watched was not written from here on; reverse-continue looks further back", "stopped.")
    in_order(text, "stopped.", "hit Hardware watchpoint 1: seen", "44\t")


@case
def watch_interrupted(bench: Bench) -> None:
    """Ctrl-C as a rank goes on for ever that is watched."""
    program = bench.build(PROGRAM, "-DLOOP=10")
    text = bench.gdb(program, ["watch received.from", "continue", *SOON_INTERRUPTED, "continue", "info threads"], "-n", "2")
    in_order(text, "New value = 1", "received signal SIGINT", '* 1    Thread 1 "rank 0, superstep ')


@case
def watch_by_changes(bench: Bench) -> None:
    """As gdb goes from one stop to the next, it sees all changes of some bytes, and no other, forwards and backwards: those that a look after
    each instruction and each turn tells."""
    program = bench.build(PROGRAM)
    command = [bench.bspemu, "debug", program, *units(program), "--format", "elf", "--nodes", "3"]
    for place, rank in (("received.numbers[1]", 1), ("mine.numbers[2]", 2), ("seen", 0)):
        addr = bench.pointers(program, [place])[0]
        wanted = looked_at(command, rank, addr)
        run = reversible_machine.Machine(command)
        goes = runner.Runner(run, lambda _: None, lambda: False)
        goes.stops_at_end = True
        watch = watchpoints.Watch("watch", rank, addr, 4)
        forth = stops(goes, watch, goes.go, goes.step)
        expect(forth == wanted and len(wanted) > 0, (place, wanted, forth))
        back = stops(goes, watch, lambda at: goes.go_back(None, at), goes.step_back)
        values = [b"\0" * 4, *(value for _, value in wanted)]
        expect(back == list(zip([superstep for superstep, _ in wanted], values))[::-1], (place, wanted, back))
        run.close()


def stops(
    goes: runner.Runner, watch: watchpoints.Watch, go: Callable[[int], stop_replies.Halt], step: Callable[[int], stop_replies.Halt]
) -> List[Tuple[int, bytes]]:
    """The supersteps of the stops at which gdb sees a change, and the bytes behind it: it makes a step from each stop, and then looks."""
    found: List[Tuple[int, bytes]] = []
    old = goes.machine.memory(watch.rank, watch.addr, watch.length)
    while True:
        goes.watches.all = [watch]
        halt = go(watch.rank)
        if not isinstance(halt, stop_replies.Stop) or halt.watch is None:
            return found
        goes.watches.all = []
        superstep = goes.machine.superstep
        step(watch.rank)
        new = goes.machine.memory(watch.rank, watch.addr, watch.length)
        if new != old:
            found.append((superstep, new))
        old = new


def looked_at(command: List[str], rank: int, addr: int) -> List[Tuple[int, bytes]]:
    """The supersteps in which a word of a rank changes, or before which, and what it is then."""
    run = reversible_machine.Machine(command)
    found: List[Tuple[int, bytes]] = []
    old = run.memory(rank, addr, 4)
    while run.outcome is None:
        if run.node(rank).runs:
            run.step(rank, 1)
        else:
            run.finish()
        new = run.memory(rank, addr, 4)
        if new != old:
            found.append((run.superstep, new))
        old = new
    run.close()
    return found
