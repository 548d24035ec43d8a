"""The command line of `bsprun`."""

from __future__ import annotations

import argparse
import contextlib
import os
import pathlib
import shlex
import signal
import sys
from typing import TYPE_CHECKING

from .. import children, files, streams
from ..limits import MOST_WORKERS, WORKERS
from ..machines import Take
from ..options import FLAGS, MISTAKES, OUTPUT, Parser
from ..outputs.library_notes import NO_TEXT, STATUS
from ..outputs.report import Report
from ..prepare.given_files import files_read, given_names, outputs_of, with_others
from ..prepare.job import OPEN, Job, prepared
from ..refusals import BY_SIGNAL, REFUSED, UNWRITTEN, Refused, about, counted, put, show, tell
from ..run.cost_formats import form, wants_counts
from ..run.found_files import Wanted
from ..run.long_overflows import Beside
from ..run.repeated_output import Repeated
from ..run.watched_run import Done, Fewer, Interrupted, Stopped, Watch

if TYPE_CHECKING:
    from ..portable.trial_builds import Builds
    from ..run.exit_status import Chosen

# The status of a run that the clock has ended, as that of timeout(1), and the longest that --wall takes.
WALL, MOST_SECONDS = 124, 10_000_000
# That of a program which comes to something else where a library chooses otherwise.
OTHERWISE = 10


def parser() -> Parser:
    """The reader of bsprun's command line."""
    found = Parser(
        "bsprun",
        usage="bsprun [-n P] [options] PROGRAM [ARGS..]",
        description="Runs a BSP program on P nodes.\n\n"
        "  bsprun -n 4 --strict FILE.c          run FILE.c, and report likely mistakes\n"
        "  bsprun -n 4 --summary FILE.c         also print what its supersteps cost\n"
        "  bsprun -n 4 --page run.html FILE.c   write a page in which you watch the run\n\n"
        "PROGRAM is a C program (.c), which bsprun compiles first, an ELF file, an assembly text (.s) or a raw image (.raw). Standard output is"
        " the program's output, superstep by superstep. Standard error is what the program writes there, and bsprun's own lines. If the program"
        " reads standard input, it reads yours. docs/manual/c.md is the manual, and docs/manual/statuses.md lists the exit statuses.",
    )
    add = found.add_argument
    found.add_program()
    found.section(MISTAKES)
    add("--warn", action="store_true", help="search for likely mistakes even in a run that ends well; slow")
    found.add_number("--fill", what="the byte of fresh memory", least=0, most=255, metavar="BYTE",
        help="fill fresh memory of the stack and of malloc with this byte, to expose reads of uninitialised memory; default 0")  # fmt: skip
    add("--no-check", action="store_true", help="do not look for integers that do not fit into the 32-bit long of the nodes, nor for offsets and"
        " sizes that are given in elements; these searches run beside or after the program")  # fmt: skip
    add("--portable", action="store_true", help="run a .c program again under each choice that BSPlib leaves to an implementation")
    found.add_number("--tries", what="the number of orders", least=1, most=10_000, metavar="N",
        help="orders of messages that --portable tries; default 8, or all if no rank gets more than 4 messages in a superstep")  # fmt: skip
    add("--accept", metavar="FILE", help="file with pairs of lines that --portable does not report; each of its lines is FILE:LINE FILE:LINE reason")
    add("--accept-all", metavar="FILE", help="write all pairs that --portable finds to FILE, for --accept")
    add("--order", metavar="CHOICES", help="repeat one run of --portable: CHOICES is what its finding prints after `again`")
    found.add_machine()
    found.add_number("--wall", what="the time of a run in seconds", least=1, most=MOST_SECONDS, metavar="SECONDS",
        help="stop the run after this many seconds, and print where each rank was")  # fmt: skip
    found.add_number("--workers", what="the number of threads", least=1, most=MOST_WORKERS, default=WORKERS, metavar="COUNT",
        help="threads of this computer; default 1")  # fmt: skip
    found.add_prices()
    found.add_rate()
    add("--machine", action=Take, metavar="NAME", help="take nodes, prices and rate of a machine: t3e-2, t3e-4, .., t3e-64 are from the literature,"
        " and bspprobe measures yours; later options override them")  # fmt: skip
    add("--summary", action="store_true", help="print the totals and the most expensive supersteps on standard error")
    add("--lines", action="store_true", help="print which source lines and functions cause w and h, on standard error")
    add("--fold", action="store_true", help="like --lines, but count the work of library functions at the lines that call them")
    add("--lines-as", type=form, action="append", default=[], metavar="KIND=FILE", help="write the costs of lines to FILE. KIND is callgrind,"
        " folded (for flame graphs), trace (for Perfetto) or json (for bspplot --source); can be repeated")  # fmt: skip
    add("--report", metavar="FILE", help="write the costs to FILE, as CSV or JSON if FILE ends in .csv or .json; - is standard error")
    add("--profile", metavar="FILE", help="write what each rank did in each superstep to FILE, as CSV for bspplot")
    add("--apart", choices=["printing"], help="leave the work of output functions out of --summary and --profile; --report keeps it")
    found.section(OUTPUT)
    add("--out", metavar="DIR", help="write the program's files below DIR; default: the current folder")
    add("--no-files", action="store_true", help="let the program write no files, and read only those that you give it")
    add("--page", metavar="FILE", help="write one HTML file in which you watch the run. It contains the emulator, the program, its sources and its input")
    add("--recorded", action="store_true", help="with --page: include a recording of the run, of at most 8 MiB, instead of the emulator")
    return found


def flags(reader: Parser) -> list[str]:
    """The options that BSPRUN_FLAGS has in the environment, as for a class. They stand in front of those of the command line."""
    text = os.environ.get(FLAGS, "")
    if not text:
        return []
    try:
        found = shlex.split(text)
        asked = reader.parse_args([*found, FLAGS])
    except (ValueError, Refused) as fault:
        raise Refused(f"{FLAGS} in the environment is {text!r}: {fault}") from fault
    if asked.program != FLAGS or asked.args:
        raise Refused(f"{FLAGS} in the environment is {text!r}, but can only have options of bsprun")
    return found


def arguments(words: list[str]) -> argparse.Namespace:
    """What the command line asks for."""
    reader = parser()
    words = [*flags(reader), *words]
    asked = reader.parse_args(words)
    asked.check, asked.warn = asked.check or asked.strict, asked.warn or asked.strict
    if asked.order is not None and asked.portable:
        raise Refused("--portable makes its own choices: leave out --portable or --order")
    # Parts of requests that are left out are not of whole elements.
    asked.no_check |= asked.order is not None
    if asked.no_files and asked.out is not None:
        raise Refused("with --no-files there is nothing for --out to write: leave out one of the two")
    if asked.page is not None:
        expect_page_alone(asked)
    elif asked.recorded:
        raise Refused("--recorded is for --page: give that too")
    alone = next((it for it in ("tries", "accept", "accept_all") if getattr(asked, it) is not None and not asked.portable), None)
    if alone is not None:
        raise Refused(f"--{alone.replace('_', '-')} is for --portable: give that too")
    asked.is_here = asked.out is None and not asked.no_files
    asked.out = os.curdir if asked.is_here else asked.out
    # The files that the program looks for and nobody has given, and the digests of those that it gets all the same; and how many nodes it takes,
    # if these are fewer than it is given.
    asked.sought, asked.digests, asked.taken = {}, {}, 0
    if asked.apart and not asked.summary and asked.profile is None:
        raise Refused("--apart printing needs --summary or --profile: give one of them")
    tell([f"bsprun: {it} after PROGRAM is an argument of the program" for it in reader.own(words, asked.args)])
    return asked


# What a page does not do, since the program is not run where it is written.
NOT_OF_PAGES = ("out", "report", "profile", "summary", "apart", "lines", "fold", "lines_as", "warn", "portable", "order", "wall", "fill")


def expect_page_alone(asked: argparse.Namespace) -> None:
    """Refuses options of a run beside --page. A program in a page writes no files."""
    # --strict is also --warn, which the page shows.
    given = next((it for it in NOT_OF_PAGES if getattr(asked, it) and not (it == "warn" and asked.strict)), None)
    if given is not None:
        raise Refused(f"--page shows the run in the page, so --{given.replace('_', '-')} has nothing to do: leave one of the two out")
    asked.no_files = True


def write_page(options: argparse.Namespace, folder: pathlib.Path, words: list[str]) -> int:
    """Writes the page of a program. It is not run here, so nobody sees which files it opens."""
    from ..program import elf
    from ..stage.run_page import write

    job = prepared(options, folder, "bsprun")
    if not given_names(options) and OPEN in elf.names(job.content):
        tell(["bsprun: the program may open files, and the page has none for it: give those that it reads by --file"])
    write(job, options.page, shlex.join(["bsprun", *words]), folder, options.recorded)
    return 0


def deliver(job: Job, done: Done) -> int:
    """Writes all that was asked for beside the output, and says why a run did not end well."""
    # Also where the report is whole: a profile is written after it.
    tell(done.said.decode(errors="replace").splitlines())
    found, options = done.report, job.options
    if done.status < 0:
        why = signal.strsignal(-done.status) or f"signal {-done.status}"
        why += ", perhaps because the host ran out of memory" if -done.status == signal.SIGKILL else ""
        tell([f"bsprun: the emulator was ended after {done.seconds:.1f} s: {why}"])
        return BY_SIGNAL - done.status
    if found is None:
        return done.status
    if done.status == UNWRITTEN and options.profile is not None:
        tell([f"bsprun: {options.profile}: the profile could not be written there; the output is complete"])
    # What has no part in most runs is loaded where it is wanted, so that these begin sooner.
    chosen, told = noted(job, done, found) if done.notes else (None, [])
    told += [(NO_TEXT, "a NULL text was printed, as by puts or %s: the output has the bytes at address 0")] * (done.has_null and bool(job.mark))
    if options.report == "-":
        streams.report(found.text)
    elif options.report is not None:
        from ..outputs.report_formats import spelled_for

        files.write(options.report, spelled_for(options.report, found, list(options.sought), options.digests, options.taken, told))
    if found.outcome != "ended" and job.mark:
        from ..run.held_lines import held_lines

        lines = held_lines(job, found)
        put(b"".join([b"" if done.is_line_whole or not lines else b"\n", *(line + b"\n" for line in lines)]))
    is_whole = True
    if done.files.files or options.out is not None:
        from ..run.record_messages import put_files

        put_files(job, done.files)
        is_whole = done.files.is_put and done.files.is_whole
    tell((line for _, line in told), "bsprun: ")
    is_told = tell_offsets(job, found, done.seconds)
    if options.summary or options.apart or options.warn or wants_counts(options) or (found.outcome != "ended" and chosen is None):
        from ..run.closing_messages import tell_of

        tell_of(job, found, parser(), is_chosen=chosen is not None, are_offsets_told=is_told, digest=done.digest)
    options.is_tried = is_tried(found)
    if options.portable and not options.is_tried:
        tell(["bsprun: not tried: other choices, because the run itself fails"])
    status = done.status if chosen is None else chosen.status
    return status if is_whole else status or REFUSED


def noted(job: Job, done: Done, found: Report) -> tuple[Chosen | None, list[tuple[str, str]]]:
    """The status that the program chose, and what is told of the notes of its library."""
    from ..run.exit_status import chosen_status
    from ..run.record_messages import told

    chosen = chosen_status(job, found, done.notes)
    return chosen, told(job, done.notes, done.files, found, untold=STATUS if chosen is not None and chosen.is_of_all else "")


def is_tried(found: Report) -> bool:
    """Whether other choices are tried behind a run. A program may end with a status of its own."""
    return found.outcome == "ended" or found.outcome.endswith("stopped: aborted")


def work_of(found: Report) -> int:
    """The sum of all w."""
    return sum(it.costs["w"] for it in found.supersteps)


def tell_offsets(job: Job, found: Report, seconds: float) -> bool:
    """Says which offsets and sizes of the program are in elements where bytes are counted, and whether there are any. For that the run is
    made again."""
    if job.kind != "elf" or job.options.no_check or b".debug_info" not in job.content or len(found.supersteps) < 2:
        return False
    from ..diagnosis.byte_offsets import findings

    lines = findings(job, found, seconds)
    tell(lines, "bsprun: ")
    return bool(lines)


def tell_where(job: Job, begin: str, stopped: Stopped, is_awaited: bool) -> None:
    """Keeps the files of a run that was broken off, and says in a line where its ranks were: soon, where a person waits for that."""
    from ..run.rank_positions import MOST_AWAITED, ranks_at

    if job.options.out is not None and stopped.files.files:
        from ..run.record_messages import put_files

        put_files(job, stopped.files)
        tell([f"bsprun: files in {job.options.out} contain what was written before the superstep in which the run was stopped"])
    show("bsprun: looking for where the ranks were: Ctrl-C leaves that out")
    line = f"bsprun: {begin} after {stopped.seconds:.1f} s"
    try:
        with children.within(MOST_AWAITED) if is_awaited else contextlib.nullcontext():
            line += f", in {ranks_at(job, stopped.seconds, stopped.written, is_awaited)}"
    except children.TooLate:
        line += "; where the ranks were takes longer to find: --wall SECONDS waits for it"
    finally:
        show("")
    tell([line])


def run(job: Job, beside: Beside, folder: pathlib.Path, repeated: Repeated, builds: Builds | None = None) -> int:
    """Runs a job, with what goes beside it; the status is that of the emulator, unless the clock or Ctrl-C has ended it. If the program is
    tried with other choices, these runs begin before anything is told of this one."""
    beside.run(job)
    watch = Watch(job, job.options.wall, beside, repeated)
    try:
        done = watch.run()
        if builds is not None and done.report is not None and is_tried(done.report):
            from ..portable.portability import begin_soon

            begin_soon(job, folder, builds, work_of(done.report))
        status = deliver(job, done)
        beside.wait(done.seconds)
        tell(beside.lines())
        return status
    except Fewer as fewer:
        count, nodes = fewer.count, job.options.nodes
        tell([f"bsprun: the program asks for {count} nodes in bsp_begin, so it gets these and not {nodes}"])
        job.give_nodes(count)
        job.options.taken = count
        return run(job, beside, folder, repeated, builds)
    except Wanted as wanted:
        names = [it for name in wanted.names for it in with_others(name)]
        names = [it for it in dict.fromkeys(names) if it not in job.options.found]
        more = f" and {counted(len(names) - 1, 'more file')}" if len(names) > 1 else ""
        tell([f"bsprun: the program reads {names[0]}{more}: it runs again with {'these files' if more else 'that file'}, as with --file"])
        job.give(names, folder)
        repeated.again()
        return run(job, beside, folder, repeated, builds)
    except Interrupted as interrupted:
        children.end_by_signals_again()
        beside.close()
        # The terminal shows Ctrl-C in its line.
        show("", "\n" if sys.stderr.isatty() else "")
        tell_where(job, "ended by Ctrl-C", interrupted, is_awaited=True)
        tell(beside.lines())
        return BY_SIGNAL + signal.SIGINT
    except Stopped as stopped:
        beside.close()
        tell_where(job, "ended by --wall", stopped, is_awaited=False)
        tell(beside.lines())
        return WALL


def portable_builds(options: argparse.Namespace, folder: pathlib.Path) -> contextlib.AbstractContextManager[Builds | None]:
    """What builds the program so that it takes choices, if other choices are tried."""
    if not options.portable:
        return contextlib.nullcontext()
    from ..portable.trial_builds import Builds

    return Builds(options, folder)


def load_verdict() -> None:
    """Loads what the verdict takes. It takes a while, and so goes beside the compiler."""
    from ..portable import portability  # noqa: F401
    from ..program import elf

    # Without the package less is told.
    with contextlib.suppress(Exception):
        elf.load()


def main(words: list[str]) -> int:
    """Runs a program; the status is the emulator's, or says what ended it."""
    options = arguments(words)
    outputs = outputs_of(options)
    files.expect_apart(outputs, files_read(options))
    files.expect_writable(outputs)
    if options.portable:
        from ..portable.accepted_places import Accepted

        options.accepted = Accepted(options.accept, options.accept_all)
    if options.out is not None and not os.path.isdir(options.out):
        if os.path.lexists(options.out):
            raise Refused(f"--out needs a folder, and {options.out} is not one")
        with about(options.out):
            os.mkdir(options.out)
    options.folder = None if options.out is None else files.Folder.of(options.out)
    with children.folder("bsprun") as folder, contextlib.closing(Beside(folder)) as beside, portable_builds(options, folder) as builds:
        if options.page is not None:
            return write_page(options, folder, words)

        def begin(asked: argparse.Namespace, content: bytes) -> None:
            """Begins the builds that go beside the program's own."""
            beside.build(asked, content)
            if builds is not None and not content:
                builds.begin()
                builds.begin_loading(load_verdict)

        job = prepared(options, folder, "bsprun", is_marked=True, beside=begin)
        if options.order is not None:
            from ..portable.orders import with_order

            job = with_order(job, folder)
        if builds is not None and options.sources:
            # A run has one processor, unless --workers is given.
            builds.begin_valued()
            builds.wait_until_loaded()
        status = run(job, beside, folder, Repeated(), builds)
        if builds is not None and (status == 0 or getattr(options, "is_tried", False)):
            from ..portable.portability import is_portable

            return status if is_portable(job, folder, builds, options.accepted) else OTHERWISE
        return status
