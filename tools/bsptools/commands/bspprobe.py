"""The command line of `bspprobe`."""

from __future__ import annotations

import argparse
import os
import shlex

from .. import children, files, limits, own_folders, python_packages
from ..options import Joined, P, Parser, listed
from ..probe import machine_lines, probing, samples
from ..probe.estimates import Estimate, Fit
from ..probe.probing import Setting
from ..probe.samples import Samples
from ..refusals import Refused, counted, put, show, tell

MOST_WORD, MOST_H, MOST_ROUNDS, MOST_MILLISECONDS = 1 << 20, 1 << 16, 1000, 1000
# How a program with MPI is started, and the options of a measurement.
MPIRUN, MEASURING = "mpirun -n {p}", ("word", "most", "rounds", "milliseconds")
MILLION, NANO, MICRO = 1e6, 1e-9, 1e-6
# The load for each processor from which others take a part of what is measured, and what to do then.
BUSY = 0.3
QUIET = "measure again when the host is idle, or with more --rounds and --lowest"


def parser() -> Parser:
    """The reader of bspprobe's command line."""
    found = Parser(
        "bspprobe",
        usage="bspprobe [options]",
        description="Measures r, g and l of this computer for the BSP model.\n\n"
        "  bspprobe --instructions -o machines.txt\n"
        "  BSP_MACHINES=machines.txt bsprun --machine NAME-4 FILE.c\n\n"
        "r is the number of operations per second, g the price of a word in an h-relation, and l the price of the barrier at the end of a"
        " superstep. (bsprun --g is the price of a byte. bsprun --machine divides g by the bytes of a word, --word.) For each number of processes,"
        " bspprobe times h-relations and fits a line to the times, as the program bspbench of BSPedupack does. It prints one line for each number of"
        " processes. Add these lines to your machines' file, which BSP_MACHINES in the environment names: bsprun --machine takes its prices from"
        " there. docs/manual/native.md is the manual.",
    )
    add = found.add_argument
    found.section("processes")
    add("-n", "--nodes", type=listed(P), action=Joined, metavar="LIST", help="numbers of processes, as 1,2,4 or 1:4; default: 1, 2, 4 and so on up to the processors")
    add("--mpi", action="store_true", help="use MPI, with the hosts that mpirun has, instead of processes of this host")
    add("--mpirun", metavar="COMMAND", help="how to start a program with MPI; default 'mpirun -n {p}', where {p} is the number of processes")
    add("--program", metavar="COMMAND", help="run this program, which you built from bsplib/native/probe.c with any BSPlib; {p} is the number of processes")
    add("--samples", action="append", default=[], metavar="FILE", help="measure nothing, and use what such a program has printed; can be repeated")
    found.section("measurements")
    found.add_number("--word", what="the bytes of a word", least=1, most=MOST_WORD, default=8, metavar="COUNT", help="bytes of a word; default 8")
    found.add_number("--most", what="the greatest h", least=4, most=MOST_H, default=256, metavar="H", help="largest h, in words; default 256")
    found.add_number("--rounds", what="the number of rounds", least=2, most=MOST_ROUNDS, default=20, metavar="COUNT", help="how often each time is"
        " measured; default 20")  # fmt: skip
    found.add_number("--milliseconds", what="the time of a measurement", least=1, most=MOST_MILLISECONDS, default=1, metavar="MS", help="a"
        " measurement repeats an h-relation so often that the largest h takes MS milliseconds; default 1")  # fmt: skip
    add("--lowest", action="store_true", help="use the lowest of all rounds instead of their median, for a busy host")
    add("--instructions", action="store_true", help="count in instructions of the emulator's nodes instead of operations, for bsprun --machine")
    found.section("the lines")
    add("--name", type=name, metavar="NAME", help="name of the machine; the lines have NAME-P, with the number of processes; default: the host's name")
    add("-o", "--output", metavar="FILE", help="add the lines to this machines' file instead of printing them")
    return found


def name(text: str) -> str:
    """A name of a machine."""
    if not text or machine_lines.UNFIT.search(text):
        raise argparse.ArgumentTypeError(f"{text!r} is not the name of a machine, which has only letters, digits and _ . + -")
    return text


def main(words: list[str]) -> int:
    """Measures, and tells what was found."""
    options = parsed(words)
    files.expect_apart([options.output], options.samples)
    files.expect_writable([options.output])
    machine_lines.expect_table(options.output)
    python_packages.expect(python_packages.NUMPY)
    from ..probe.fit import fit

    factor = probing.instructions_of_operation() if options.instructions else 1.0
    found, how = taken(options) if options.samples else measured(options)
    fits = [in_unit(fit(it, options.lowest), factor) for it in found]
    unit = "instructions" if options.instructions else "operations"
    tell(explained(it, unit) for it in fits)
    tell(f"bspprobe: p = {it.p}: these times do not determine g, whose interval begins below 0: {QUIET}" for it in fits if it.g.low <= 0)
    lines = [machine_lines.of(options.name or machine_lines.host(), it, f"{how}, {'lowest times, ' * options.lowest}{unit}") for it in fits]
    if options.output:
        machine_lines.add(options.output, lines)
    else:
        put("".join(f"{it}\n" for it in lines))
    return 0


def parsed(words: list[str]) -> argparse.Namespace:
    """What a command line asks for. Options that would change nothing are refused."""
    reader = parser()
    options = reader.parse_args(words)
    if options.samples and (options.program or options.mpi or options.nodes):
        raise Refused("--samples reads earlier measurements: leave out --program, --mpi and -n")
    useless = [f"--{it}" for it in MEASURING if options.samples and getattr(options, it) != reader.get_default(it)]
    if useless:
        raise Refused(f"--samples reads earlier measurements: leave out {' and '.join(useless)}")
    if options.program and options.mpi:
        raise Refused("--program is a complete command: leave out --mpi")
    if options.mpirun is not None and not options.mpi:
        raise Refused("--mpirun is for MPI: add --mpi, or leave it out")
    return options


def in_unit(found: Fit, factor: float) -> Fit:
    """The same, where an operation is so many of the unit."""
    return found._replace(rate=found.rate.times(factor), g=found.g.times(factor), l=found.l.times(factor))


def taken(options: argparse.Namespace) -> tuple[list[Samples], str]:
    """What was measured before."""
    found = []
    for path in options.samples:
        found += samples.read(files.text_content(path, samples.MOST_PRINTED), path)
    expect_different(found)
    return found, "from samples"


def expect_different(found: list[Samples]) -> None:
    """Refuses two runs of one number of processes, of which a file has one line."""
    numbers = [it.p for it in found]
    known: set[int] = set()
    for p in numbers:
        if p in known:
            raise Refused(f"there are several runs on {p} processes: give only one")
        known.add(p)
    over = [it for it in numbers if it > limits.MOST_NODES]
    if over:
        raise Refused(f"a machine of {over[0]} processes has more than the {limits.MOST_NODES} nodes of the emulator")


def measured(options: argparse.Namespace) -> tuple[list[Samples], str]:
    """What is measured here, on each number of processes."""
    setting = Setting(options.word, options.most, options.rounds, options.milliseconds)
    numbers, load = options.nodes or usual_numbers(), os.getloadavg()[0]
    is_busy = load > BUSY * processors() and not options.program
    if is_busy:
        tell([f"bspprobe: other programs use this host: its load is {load:.1f}, on {counted(processors(), 'processor')}; {QUIET}"])
    with children.folder("bspprobe") as folder:
        helping: list[str] = []
        if options.program:
            words, how = probing.command(options.program, probing.PROGRAM), shlex.quote(options.program)
        else:
            start = own_folders.homed(probing.command(options.mpirun or MPIRUN, probing.MPIRUN)) if options.mpi else []
            words, helping = [*start, probing.compiled(folder, options.mpi)], probing.hints(folder, options.mpi)
            how = f"{probing.compiler(options.mpi)} -O2, bsplib/native by {'MPI' if options.mpi else 'processes'}"
            how += f", load {load:.1f}" * is_busy
        found = []
        for p in numbers:
            warn_of_few_processors(p, bool(options.mpi or options.program))
            show(f"measuring on {p} {'process' if p == 1 else 'processes'} ..")
            found.append(probing.measured(words, setting, p, helping))
            show("", end="")
    return found, how


def processors() -> int:
    """How many processors this process may have."""
    return len(os.sched_getaffinity(0))


def usual_numbers() -> list[int]:
    """1, 2, 4 and so on, up to the processors."""
    return [1 << it for it in range(processors().bit_length())]


def warn_of_few_processors(p: int, is_elsewhere: bool) -> None:
    """Says where processes wait for one another's processors."""
    if p > processors() and not is_elsewhere:
        tell([f"bspprobe: {p} processes share {processors()} processors here: g and l include the time that they wait for each other"])


def explained(found: Fit, unit: str) -> str:
    """What was found, in words."""

    def spelled(letter: str, value: Estimate, by: float, what: str) -> str:
        return f"{letter} = {value.value / by:.4g} {what} ({value.low / by:.4g} to {value.high / by:.4g})"

    rate = spelled("r", found.rate, MILLION, f"million {unit} a second")
    g = f"{spelled('g', found.g, 1, f'{unit} a word')}, {found.g_seconds / NANO:.4g} ns"
    l = f"{spelled('l', found.l, 1, unit)}, {found.l_seconds / MICRO:.4g} us"
    return f"p = {found.p}, words of {found.word} bytes: {rate}; {g}; {l}"
