"""The texts and numbers of gdb's protocol: signals, threads, the description of registers."""

from __future__ import annotations

from typing import Iterable

from ..program.register_names import FLOATS, REGISTERS

# gdb's numbers of signals.
NONE, INTERRUPTED, ILLEGAL, TRAP, ABORTED, BUS, SEGMENT, SYSTEM_CALL, LIMIT = 0, 2, 4, 5, 6, 10, 11, 12, 24

# Which signal a state is to gdb. A range that does not lie in the memory is a bad address; the other faults of calls are bad calls.
SIGNALS = {
    "aborted": ABORTED,
    "exhausted": LIMIT,
    "fault Misaligned": BUS,
    "fault FetchOutside": SEGMENT,
    "fault LoadOutside": SEGMENT,
    "fault StoreOutside": SEGMENT,
    "fault RangeOutside": SEGMENT,
    "fault IllegalInstruction": ILLEGAL,
    "fault Break": TRAP,
}

# The exit status of a run with this outcome: that of `bspemu run`.
ENDED, STOPPED, EXHAUSTED, REFUSED = 0, 2, 3, 4

PC = 32
# gdb's numbers for the registers of floating point begin behind pc, and go on with those for the parts of fcsr and for fcsr.
FIRST_FLOAT = PC + 1
CONTROL = ["fflags", "frm", "fcsr"]
# The registers that a stop tells by itself, since gdb asks for them at each one: ra, sp, fp and pc.
TOLD = [1, 2, 8, PC]

_TYPES = {"ra": "code_ptr", "sp": "data_ptr", "gp": "data_ptr", "tp": "data_ptr", "s0": "data_ptr", "pc": "code_ptr"}


def signal_of(state: str) -> int:
    """The signal that gdb is told where a node is in this state. Faults that are not in the table are those of calls."""
    if state in SIGNALS:
        return SIGNALS[state]
    return SYSTEM_CALL if state.startswith("fault ") else TRAP


def status_of(outcome: str) -> int:
    """The exit status of a run with this outcome."""
    if outcome == "ended":
        return ENDED
    if outcome.startswith("rank "):
        return EXHAUSTED if outcome.endswith(" exhausted") else STOPPED
    return REFUSED


def target_description(has_floats: bool) -> str:
    """What gdb is told of the registers. Without an operating system, gdb has the target make its single steps. It takes no program for
    doubles in registers of floating point where the target has none."""
    rows = "".join(
        f'<reg name="{name}" bitsize="32" type="{_TYPES.get(name, "int")}" regnum="{number}"/>'
        for number, name in enumerate(REGISTERS + ["pc"])
    )
    features = f'<feature name="org.gnu.gdb.riscv.cpu">{rows}</feature>'
    if has_floats:
        first = FIRST_FLOAT + len(FLOATS)
        rows = "".join(f'<reg name="f{it}" bitsize="64" type="ieee_double" regnum="{FIRST_FLOAT + it}"/>' for it in range(len(FLOATS)))
        rows += "".join(f'<reg name="{name}" bitsize="32" type="int" regnum="{first + it}"/>' for it, name in enumerate(CONTROL))
        features += f'<feature name="org.gnu.gdb.riscv.fpu">{rows}</feature>'
    return (
        '<?xml version="1.0"?><!DOCTYPE target SYSTEM "gdb-target.dtd"><target version="1.0">'
        f"<architecture>riscv:rv32</architecture><osabi>none</osabi>{features}</target>"
    )


def thread_list(superstep: int, states: Iterable[str]) -> str:
    """What gdb is told of the ranks in these states: thread R + 1 is rank R, whose name says the superstep, too, as gdb shows it at each
    stop."""
    rows = "".join(
        f'<thread id="{rank + 1:x}" name="rank {rank}, superstep {superstep}">{state}</thread>'
        for rank, state in enumerate(states)
    )
    return f'<?xml version="1.0"?><threads>{rows}</threads>'
