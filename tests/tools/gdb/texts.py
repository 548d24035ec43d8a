"""Cases of assembly texts, for tests/tools/gdb/run: their labels and lines in gdb, which reads them from a file of bspgdb."""

from __future__ import annotations

import re
from typing import Callable, List

from checks import REPO
from sessions import Bench, expect, in_order
from terminals import job_control

CASES: List[Callable[[Bench], None]] = []
# Labels of all kinds, and what looks like one: data before code, between code and behind it, and a last line without a line feed.
TEXT = """\
table: .word 1, 2, twice
# none: this is a comment
says: .ascii "none: # neither"
        .align 2
        .entry begin
begin: first: li a0, 100000
.Lagain:
        call twice
        bnez a0, past\r
        j .Lagain
twice: slli a0, a0, 1
        ret
between: .byte 7
        .align 2
a.b_2 :

past:   lw a1, 0(sp)
        li a7, 1
        ecall
count: .half 3
end:"""
# A rank that counts for ever.
LOOP = """\
loop:   addi t0, t0, 1
        j loop
"""


def case(function: Callable[[Bench], None]) -> Callable[[Bench], None]:
    """A function that is tried."""
    CASES.append(function)
    return function


@case
def labels(bench: Bench) -> None:
    """Breakpoints at labels, frames and addresses by labels and lines, steps by lines, and data as it is."""
    commands = ["break odd", "info breakpoints", "continue", "list", "info symbol $pc", "info symbol 0x24d", "x/2i odd", "print (int)number_tag"]
    commands += ["break send_number thread 2", "continue", "bt", "next", "reverse-next", "delete", "finish", "next", "info line"]
    text = bench.gdb("examples/messages.s", commands, "-n", "4")
    in_order(text, "_start () at examples/messages.s:9\n9\t", "Breakpoint 1 at 0x48: file examples/messages.s, line 31.")
    in_order(text, 'Thread 2 "rank 1, superstep 1" hit Breakpoint 1, _start () at examples/messages.s:31', "\n30\todd:\n31\t", "\n35\t")
    in_order(text, "odd in section .text", "tag + 1 in section .data", "=> 0x48 <odd>:\tjal\t0x194 <send_number>", "0x4c <_start+76>:", "$1 = 1\n")
    in_order(text, "hit Breakpoint 2, send_number () at examples/messages.s:108", "#0  send_number ()", "#1  0x0000004c in _start () at examples/messages.s:31\n(gdb) 109\t")
    in_order(text, "108\t", "Run till exit", "_start () at examples/messages.s:32", "\n(gdb) 34\t", 'Line 34 of "examples/messages.s" starts at address 0x50 <sent>')
    expect("Backtrace stopped" not in text, text)


@case
def labels_of_all_kinds(bench: Bench) -> None:
    """Just the labels of a text, and its lines of code; and the bytes are those that the nodes have."""
    source = bench.folder / "all kinds.s"
    source.write_bytes(TEXT.encode())
    commands = ["compare-sections", "info files", "info line 6", "info line 13", "info line 17", "maint print msymbols", "print/x (short)count"]
    text = bench.gdb(str(source), [*commands, "break twice", "continue", "continue"])
    matched = re.findall(r"Section (\.\w+), range (\w+) -- (\w+): matched\.", text)
    ends = ["0x0", "0x1c", "0x38", "0x3c", "0x48", "0x4a"]
    expect(matched == list(zip([".data", ".text", ".data", ".text", ".data"], ends, ends[1:])), text)
    in_order(text, "Entry point: 0x1c", f'Line 6 of "{source}" starts at address 0x1c <begin> and ends at 0x24')
    in_order(text, 'Line 13 of "', "is at address", "but contains no code", 'Line 17 of "', "starts at address 0x3c <past>")
    found = re.findall(r"(?m)^\[ ?\d+\] (\w) (0x\w+) (\S+) section (\.\w+)", text)
    wanted = "d 0x0 table, d 0xc says, t 0x1c begin, t 0x1c first, t 0x30 twice, d 0x38 between, t 0x3c a.b_2, t 0x3c past, d 0x48 count, d 0x4a end"
    expect(sorted(f"{kind} {addr} {name}" for kind, addr, name, _ in found) == sorted(wanted.split(", ")), text)
    in_order(text, "$1 = 0x3", f"Breakpoint 1, twice () at {source}:11", "SIGSEGV", f"past () at {source}:17")


@case
def texts_without_labels(bench: Bench) -> None:
    """One without a byte, and one with a fault, whose line is told."""
    for content, said in [("# nothing\n", "0x00000000 in ?? ()"), ("nop\nnope\n", "bspemu: line 2: UnknownMnemonic")]:
        source = bench.folder / "without.s"
        source.write_text(content)
        text = bench.gdb(str(source), [])
        expect(said in text and "symbols.elf" not in text, text)


@case
def stopped_by_a_shell(bench: Bench) -> None:
    """Ctrl-Z stops gdb, the bridge and both emulators, which go on with fg; and kill leaves nothing."""
    source = bench.folder / "stopped.s"
    source.write_text(LOOP)
    words = [str(REPO / "bspgdb"), "--bspemu", bench.bspemu]
    wrong = job_control(words, str(source), r"\(gdb\) $", "continue\r")
    expect(not wrong, wrong)
