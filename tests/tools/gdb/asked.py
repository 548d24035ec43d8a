"""Cases of questions about the past of a run: who wrote bytes, and which requests were made."""

from __future__ import annotations

import math
import re
from typing import Callable, Dict, List, Tuple

from bsptools.dialogue import line_answers
from bsptools.reverse import last_writers, reversible_machine, run_places, symbol_names, wrote_sent
from checks import REPO, units
from sessions import Bench, expect, in_order
from terminals import Terminal

SOURCE = "tests/tools/gdb/writers.c"
# Bytes of its variables.
SIZE = 120
# How often a search is begun for Ctrl-C to come before its end, and for how many seconds it is waited for that one comes after that.
TRIES, LATE = 6, 5.0
# Where rank 0 is asked for its variables: what is told of each, by the marks of the source.
TOLD = {
    "first": "a store by rank 0 in superstep 0: main, writers.c:<first>, pc 0x",
    "again": "a store by rank 0 in superstep 1: main, writers.c:<again>, pc 0x",
    "meeting": "bsp_hpput by rank 2, at the end of superstep 1: main, writers.c:<meeting>",
    "got": "bsp_hpget from rank 1 by rank 0, at the end of superstep 1: main, writers.c:<got>",
    "here": "bsp_put by rank 2, at the end of superstep 1: main, writers.c:<elsewhere>",
    "elsewhere": "never written: 0 from the start",
    "messages": "bsp_qsize by rank 0 in superstep 2: main, writers.c:<qsize>, pc 0x",
    "replaced": "bsp_set_tagsize by rank 0 in superstep 0: main, writers.c:<tagsize>, pc 0x",
    "rest": "a store by rank 0 in superstep 2: main, writers.c:<rest>, pc 0x",
    "told": "a store by rank 0 in superstep 42: main, writers.c:<told>, pc 0x",
    "fresh": "never written: 0 from the start",
    "constant": "never written: as the image has it",
}
# The same where a message has brought it.
SENT = "of what rank 1 sent in superstep 1 (main, writers.c:<sent>): main, writers.c:"
TOLD["moved"] = f"bsp_move by rank 0 in superstep 2, {SENT}<moved>, pc 0x"
TOLD["tag"] = TOLD["status"] = f"bsp_get_tag by rank 0 in superstep 2, {SENT}<tag>, pc 0x"

# A rank that reads its input, and stops itself.
READS = """\
        la a0, place
        li a1, 4
        li a7, 18
read:   ecall
        sb a0, 5(a0)
        la a0, place + 1
        sb a7, 0(a0)
        ebreak
place:  .word 0
"""

CASES: List[Callable[[Bench], None]] = []


def case(function: Callable[[Bench], None]) -> Callable[[Bench], None]:
    """A function that is tried."""
    CASES.append(function)
    return function


def marked(text: str) -> str:
    """A text with the lines of the source for its marks."""
    lines = (REPO / SOURCE).read_text().splitlines()
    marks: Dict[str, int] = {}
    for number, line in enumerate(lines, 1):
        found = re.search(r"/\* (\w+) \*/$", line)
        if found:
            marks[found[1]] = number
    return re.sub(r"<(\w+)>", lambda it: str(marks[it[1]]), text)


@case
def who_wrote(bench: Bench) -> None:
    """Each way in which a byte is written, and a byte that nobody writes, from the end of the run."""
    text = bench.gdb(bench.build(SOURCE, "-DREST=50"), ["monitor end", "continue", *[f"monitor wrote 0 {name}" for name in TOLD]], "-n", "3")
    for name, wanted in TOLD.items():
        told = re.findall(rf"<{name}(?:\.0)?> to 0x[0-9a-f]+: (.*)", text)
        expect(len(told) == 1 and told[0].startswith(marked(wanted)), (name, told, text))


@case
def who_wrote_bytes(bench: Bench) -> None:
    """Bytes of several writers, a line for each; of another rank; of a function that was called; from where the run stands."""
    commands = ["break copy", "continue", "monitor wrote both", "monitor wrote both+2 1", "monitor wrote copied 8", "finish"]
    commands += ["monitor wrote 0 copied 8", "monitor wrote 1 both", "reverse-stepi", "monitor wrote copied+7 1", "wrote both", "up"]
    text = bench.gdb(bench.build(SOURCE, "-DREST=50"), commands, "-n", "3")
    address = int(re.findall(r"(0x[0-9a-f]+) <copied> to", text)[0], 16) + 7
    put = "bsp_put by rank 2, at the end of superstep 1: put, writers.c:<put>"
    byte = "a store by rank 0 in superstep 2: main, writers.c:<byte>, pc 0x"
    both = ["<both>, 0x", marked(put), "<both+1>: " + marked(byte)]
    in_order(text, "hit Breakpoint 1", *both, "<both+2>: " + marked(put), "<copied> to 0x", "never written: 0 from the start")
    copied = marked("a store by rank 0 in superstep 2: copy, writers.c:<copied>, pc 0x")
    in_order(text, "Run till exit", f"<copied> to 0x{address:x}: {copied}", "> and others")
    in_order(text, "> and others", "a store by rank 1 in superstep 1: main, writers.c:", f"<copied+7>: {copied}", *both)


@case
def of_this_rank(bench: Bench) -> None:
    """What takes the rank that gdb looks at takes that one, whichever gdb has read something of since."""
    looks = ["info threads", 'interpreter-exec mi "-thread-info"', 'interpreter-exec mi "-stack-list-frames --thread 3"', "thread apply 2 print both"]
    looks += ["thread 2", "thread 1"]
    commands = ["break copy", "continue", *[it for look in looks for it in (look, "monitor wrote both+2 1", "wrote tag")]]
    # So in whatever language the program is.
    commands += ["set language rust", "info threads", "monitor wrote both+2 1", "monitor superstep 3", "info threads", "continue"]
    text = bench.gdb(bench.build(SOURCE, "-DREST=50"), commands, "-n", "3")
    first, second = ["bsp_put by rank 2", "bsp_get_tag by rank 0"], ["a store by rank 1", "a store by rank 1"]
    told = re.findall(r"<(?:both\+2|tag)>.*: (.* by rank \d)[ ,]", text)
    expect(told == [*first * 4, *second, *first, first[0]], (told, text))
    in_order(text, "superstep 3 begins", 'Thread 1 "rank 0, superstep 3" stopped.')


@case
def floats(bench: Bench) -> None:
    """A program for registers of floating point: gdb takes it, and shows what each rank has in these, forwards and back."""
    program = bench.build("tests/tools/gdb/floats.c", "-O2")
    commands = ["watch total", "continue", "continue", "print total", "monitor wrote total", "reverse-continue"]
    text = bench.gdb(program, [*commands, "delete", "continue"])
    wrote = "a store by rank 0 in superstep 0: main, floats.c:14, pc 0x"
    in_order(text, "New value = 0.5", "New value = 1.5", "= 1.5\n", wrote, "New value = 0.5", "total 3\nended\n")
    both = ["print $fa0.double", "print $fa1.double"]
    commands = ["break *plus", "continue", "continue", *both, "stepi", *both, "info registers float", "reverse-stepi", *both]
    # Of a rank that has not begun; and as the rank was at an earlier call, by the run once more.
    commands += ["thread 2", *both, "thread 1", "reverse-continue", *both, "print $fcsr", "set var $fa0.double = 1"]
    text = bench.gdb(program, commands, "-n", "2")
    told = [float(it) for it in re.findall(r"^(?:\(gdb\) )?\$\d+ = (.*)$", text, re.MULTILINE)]
    expect(told == [0.5, 1, 1.5, 1, 0.5, 1, 0, 0, 0, 0.5, 0], (told, text))
    in_order(text, "fa0 ", "double = 1.5}", "(raw 0x3ff8000000000000)", "fa1 ", "double = 1}", "ft11 ", "fflags ", "NX:0", "frm ", "fcsr ")
    expect("Writing to registers is not allowed" in text, text)
    # What the debugger says of the same state: `plus` is called for the second time, and has made its sum.
    addr = bench.pointers(program, ["plus"])[0]
    told_there = bench.debug(program, [f"break 0 {addr}", "go", "go", "step 0 1", "fregs 0"], "--nodes", "2", "--clock")
    in_order("\n".join(told_there), "rank 0 fcsr 00000000 frm 0 flags -", "f10=3ff8000000000000 f11=3ff0000000000000")


@case
def doubles(bench: Bench) -> None:
    """Variables that are doubles have their numbers, in memory and in registers of both kinds, as operands and as what a function returns."""
    commands = ["break plus", "continue", "continue", "info args", "print a * b", "finish", "print total", "next", "print total + 0.25", "ptype total"]
    for options in ["-O0"], ["-O2"], ["-O2", "-march=rv32imc"]:
        text = bench.gdb(bench.build("tests/tools/gdb/floats.c", *options), commands, "-n", "2")
        in_order(text, "plus (a=0.5, b=", "a = 0.5\nb = 1\n", "$1 = 0.5", "Value returned is $2 = 1.5", "$3 = 0.5", "$4 = 1.75", "type = volatile double")


@case
def who_wrote_in_assembly(bench: Bench) -> None:
    """What was read, in a text, whose labels and lines are told; and a rank that has failed."""
    source, given = bench.folder / "reads.s", bench.folder / "given"
    source.write_text(READS)
    given.write_text("abc")
    text = bench.gdb(str(source), ["continue", "monitor wrote place", "monitor wrote 8 2"], "--input", str(given))
    in_order(text, "<place>, 0x", "<place+2>: read by rank 0 in superstep 0: read, reads.s:4, pc 0x", "<read>")
    in_order(text, "<place+1>: a store by rank 0 in superstep 0: read, reads.s:7", "<place+3>: never written: as the image has it")
    in_order(text, "0x8: a store by rank 0 in superstep 0: read, reads.s:5", "0x9: never written: as the image has it")


@case
def who_wrote_by_pieces(bench: Bench) -> None:
    """In pieces of any size the same is found, wherever the run stands."""
    program = bench.build(SOURCE, "-DREST=50")
    command = [bench.bspemu, "debug", program, *units(program), "--format", "elf", "--nodes", "3"]
    addr = bench.pointers(program, ["first"])[0]
    with bench.machines:
        kept = last_writers.PIECE, last_writers.MOST_PIECE
        run = reversible_machine.Machine(command)
        try:
            for superstep in (1, 2, 3, 20):
                run.go([superstep])
                run.step(0, 300)
                found = []
                for last_writers.PIECE, last_writers.MOST_PIECE in ((1 << 16, 1 << 16), (40, 160), (1000, 2000)):
                    search = last_writers.Search(run, symbol_names.Names(command), run.place(), 0, run_places.never)
                    found.append({at: (it.superstep, it.node.rank, it.node.ticks) for at, it in search.find(addr, 80).writers.items()})
                expect(found[0] == found[1] == found[2] and len(found[0]) > 8, (superstep, found))
        finally:
            last_writers.PIECE, last_writers.MOST_PIECE = kept
            run.close()


@case
def who_wrote_by_changes(bench: Bench) -> None:
    """No byte was written last before it changed last, as a look at the memory after each instruction and each turn tells."""
    program = bench.build(SOURCE, "-DREST=50")
    command = [bench.bspemu, "debug", program, *units(program), "--format", "elf", "--nodes", "3"]
    addr = bench.pointers(program, ["first"])[0] - 32
    changed: Dict[int, Tuple[int, float]] = {}
    run = reversible_machine.Machine(command)
    before = run.memory(0, addr, SIZE)
    while run.superstep < 4:
        superstep = run.superstep
        run.step(1, 1 << 30)
        run.step(2, 1 << 30)
        while run.node(0).runs:
            ticks = run.node(0).ticks
            run.step(0, 1)
            before = note_changes(changed, addr, before, run.memory(0, addr, SIZE), (superstep, ticks))
        run.turn()
        before = note_changes(changed, addr, before, run.memory(0, addr, SIZE), (superstep, math.inf))
    found = last_writers.Search(run, symbol_names.Names(command), run.place(), 0, run_places.never).find(addr, SIZE)
    run.close()
    for place, when in changed.items():
        writer = found.writers.get(place)
        expect(writer is not None, (hex(place), when))
        assert writer is not None
        last = (writer.superstep, writer.node.ticks if isinstance(writer, last_writers.Own) else math.inf)
        expect(last >= when, (hex(place), when, writer))
    expect(found.is_whole or len(found.writers) == SIZE, found)
    expect(len(changed) > 15, changed)


def note_changes(changed: Dict[int, Tuple[int, float]], addr: int, before: bytes, after: bytes, when: Tuple[int, float]) -> bytes:
    """Notes when bytes have changed. Answers what they are now."""
    changed.update((addr + at, when) for at in range(len(after)) if after[at] != before[at])
    return after


@case
def who_wrote_is_bounded(bench: Bench) -> None:
    """Behind more instructions than are made once more, a line says how far it was looked, and from there it goes on."""
    program = bench.build(SOURCE, "-DREST=100000")
    commands = ["monitor end", "continue", "monitor wrote 0 first", "monitor superstep 2", "reverse-continue", "monitor wrote 0 first"]
    text = bench.gdb(program, commands, "-n", "3")
    in_order(text, f"not written in the last {last_writers.MOST} instructions of rank 0, back into superstep 2; ", "watch it, and reverse-continue looks on from there")
    in_order(text, "superstep 2 begins", marked("a store by rank 0 in superstep 0: main, writers.c:<first>"))


@case
def who_wrote_goes_on(bench: Bench) -> None:
    """The lines that lead to where a search was given up, as the dialogue has them: behind many supersteps, and in the midst of one."""
    program = bench.build(SOURCE, "-DREST=50")
    command = [bench.bspemu, "debug", program, *units(program), "--format", "elf", "--nodes", "3"]
    known = symbol_names.Names(command)
    addr = known.address("first") or 0
    with bench.machines:
        kept, run = (last_writers.MOST_SUPERSTEPS, last_writers.MOST, last_writers.PIECE), reversible_machine.Machine(command)
        asked = ((3, (50, 100, 40), r"break superstep 2, go, step 0 \d\d+,"), (30, (20, *kept[1:]), "break superstep 10, go,"))
        try:
            for superstep, (last_writers.MOST_SUPERSTEPS, last_writers.MOST, last_writers.PIECE), lines in asked:
                run.go([superstep])
                told = wrote_sent.PastTeller(run, known, run.place(), run_places.never, line_answers.further, "sent", "").wrote(0, addr, 1)
                expect(len(told) == 1 and re.search(f"; what was before is not checked: ask again there: {lines} in a new", told[0]) is not None, told)
        finally:
            last_writers.MOST_SUPERSTEPS, last_writers.MOST, last_writers.PIECE = kept
            run.close()


@case
def who_wrote_is_broken_off(bench: Bench) -> None:
    """A line says that it takes long, and Ctrl-C ends it, which gdb tells nobody of. What is asked next has its own answer."""
    program = bench.build(SOURCE, "-DREST=100000")
    words = [str(REPO / "bspgdb"), "--bspemu", bench.bspemu, "-n", "2", program, "--", "-nx", "-ex", "set confirm off"]
    terminal = Terminal([*words, "-ex", "monitor end", "-ex", "continue"])
    said = terminal.wait(r"stopped\.\n(?:.*\n)*.*\(gdb\) ")
    for _ in range(TRIES):
        terminal.type("monitor wrote 0 first\r")
        said += terminal.wait(r"bspgdb: the earlier state is computed again, .*; Ctrl-C breaks it off\n")
        terminal.type("\x03")
        answer = terminal.wait(r"(?:bspgdb: interrupted|<first> to .*)\n(?:.*\n)*?.*\(gdb\) ")
        said += answer
        if "interrupted" in answer:
            break
        # It had come to its end just before.
        terminal.wait(r"Quit\n.*\(gdb\) ", LATE)
    expect("bspgdb: interrupted" in said, said)
    terminal.type("print again\rmonitor superstep\rmonitor wrote 0 rest 1\rquit\r")
    said += terminal.wait(r"\$1 = 5\n(?:.*\n)*superstep 42\n(?:.*\n)*.*by rank 0 in superstep 2: main, writers.c:")
    expect(re.search(r"(?m)^(?:no '|the end, )", said) is None and terminal.status() == 0, said)


@case
def what_was_sent(bench: Bench) -> None:
    """The requests of a superstep that is over, and of one that is not, up to where each rank stands; none that failed."""
    program = bench.build(SOURCE, "-DREST=50")
    commands = ["monitor sent", "break bsp_sync thread 2", "continue", "continue", "monitor sent", "monitor sent 0"]
    commands += ["monitor sent 0 from 2", "monitor sent 0 from 3", "monitor sent 0 2"]
    text = bench.gdb(program, commands, "-n", "3")
    in_order(text, "superstep 0: 0 requests so far", "superstep 1: 8 requests so far")
    now = text.partition("superstep 1: ")[2]
    in_order(now, "rank 0: bsp_hpput(pid 0, src 0x", marked("at main, writers.c:<meeting>"), "rank 0: bsp_get(pid 1, src 0x")
    in_order(now, "rank 1: bsp_send(pid 0, tag 0x", marked("at main, writers.c:<sent>"), "superstep 0: 12 requests\n")
    in_order(now, "rank 2: bsp_push_reg(ident 0x", "(elsewhere), size 4), at main, writers.c:")
    in_order(now, "superstep 0: 4 requests of rank 2\nrank 2: ", "there is no rank 3", "monitor sent 0 2: the line is\nmonitor sent K ")
    expect("rank 2: bsp_hpput" not in now, now)
    failed = bench.gdb(bench.build("examples/c/ends.c", "-DEND=10"), ["continue", "monitor sent"], "-n", "2")
    in_order(failed, "received signal SIGSYS", ": 0 requests")


@case
def calls_awaited(bench: Bench) -> None:
    """A call by its name, to a rank and from one, forwards and backwards, for a rank that goes alone, beside a breakpoint, and no more once
    it is deleted."""
    program = bench.build("tests/tools/gdb/rounds.c")
    put = "rank 1 is about to call bsp_put(pid 2, src 0x"
    commands = ["monitor call bsp_put to 2", *["continue"] * 2, "bt", "reverse-continue", "info threads", "break 41", "continue", "monitor points"]
    commands += ["monitor end", "monitor points", "monitor delete", "monitor points", "delete", "continue"]
    text = bench.gdb(program, commands, "-n", "3")
    in_order(text, "continue stops before each bsp_put to 2", put, 'Thread 2 "rank 1, superstep 1" stopped.', "in bsp_put ()", put)
    in_order(text, 'Thread 2 "rank 1, superstep 2" stopped.', "#1 ", "in main () at tests/tools/gdb/rounds.c:40", put, "rounds.c:40")
    in_order(text, '1    Thread 1 "rank 0, superstep 1" (synced)', '* 2    Thread 2 "rank 1, superstep 1" (running)')
    in_order(text, "call bsp_put to 2\n", "call bsp_put to 2\nend\n", "continue stops at no superstep, at no call, and not at the end", "none\n", "exited normally")
    expect(text.count("is about to call") == 3, text)
    commands = ["break 40 if s == 2", "continue", "monitor call bsp_put to 2", "monitor call bsp_send from 2", "set scheduler-locking on"]
    text = bench.gdb(program, [*commands, "continue", "info threads", "reverse-continue"], "-n", "3")
    in_order(text, 'Thread 3 "rank 2, superstep 1" hit Breakpoint 1', "rank 2 is about to call bsp_send(pid 0, tag 0x", "at note, rounds.c:24")
    in_order(text, '* 3    Thread 3 "rank 2, superstep 1" (running)', 'Thread 3 "rank 2, superstep 1" hit Breakpoint 1')
    commands = ["monitor call bsp_send", "break 40", "continue", *["next"] * 2, "continue", "monitor call bsp_put from 0", "continue"]
    text = bench.gdb(program, commands, "-n", "2")
    in_order(text, "hit Breakpoint 1", "41\t", "rank 0 is about to call bsp_send(pid 0, tag 0x", "in bsp_send ()", 'Thread 2 "rank 1, superstep 1" hit')


@case
def calls_awaited_of_many(bench: Bench) -> None:
    """More places of calls over all ranks than the debugger has points."""
    commands = [f"break *{addr}" for addr in range(256, 284, 4)] + ["monitor call bsp_put to 250", "continue", "monitor call bsp_send from 9"]
    text = bench.gdb(bench.build("tests/tools/gdb/rounds.c"), [*commands, "reverse-continue"], "--nodes", "256", "--memory", "262144")
    in_order(text, "rank 249 is about to call bsp_put(pid 250, ", "before each bsp_send from 9", "rank 9 is about to call bsp_send(pid 0, ")


@case
def asked_wrongly(bench: Bench) -> None:
    """What cannot be told is refused with a line that says what can."""
    program = bench.build(SOURCE, "-DREST=50")
    commands = ["monitor wrote", "monitor wrote nothing", "monitor wrote 3 first", "monitor wrote first 0", "monitor wrote first 5000"]
    commands += ["monitor wrote 0xfffffc", "monitor wrote 0xffffff", "monitor wrote 0 first 4 4", "monitor sent 3", "monitor sent x"]
    commands += ["monitor call", "monitor call put", "monitor call bsp_sync to 2", "monitor call bsp_put to 9", "monitor call bsp_put 2"]
    commands += ["monitor call bsp_put to", "monitor superstep x", "monitor queue 3", "monitor queue x", "monitor queue", "monitor call bsp_put to 2 to 1", "monitor points", "wrote first + 1", "wrote", "wrote first"]
    text = bench.gdb(program, commands, "-n", "3")
    in_order(text, "bspgdb: monitor wrote: the line is\n", "nothing is neither an address nor a name of the program", "there is no rank 3: the ranks are 0 to 2")
    in_order(text, *["give a number of bytes from 1 to 4096"] * 2, "0xfffffc to 0xffffff: never written: 0 from the start")
    in_order(text, "there are no 4 bytes at 0xffffff: a rank's memory ends at 0x1000000", "0 first 4 4: give a rank, an address and a number", "as in `monitor wrote 0 sum+4 8`")
    in_order(text, "superstep 3 has not begun: the latest is superstep 0", "bspgdb: x is not a number: give the number of a superstep, as in `monitor sent 1`")
    in_order(text, "bspgdb: monitor call: the line is\n", "put is not a call: the calls are bsp_abort, bsp_get, ", "bsp_sync has no target rank: leave out `to 2`")
    in_order(text, "there is no rank 9", *["only `to RANK` and `from RANK` can follow the name"] * 2)
    in_order(text, "x is not a number: give the number of a superstep, as in `monitor superstep 1`", "there is no rank 3: the ranks are 0 to 2", "x is not a rank: the ranks")
    in_order(text, "monitor queue: the line is\nmonitor queue R ", "`to` is given twice", "none\n")
    in_order(text, "none\n", *["bspgdb: wrote takes one expression, without blanks"] * 2, "never written")
