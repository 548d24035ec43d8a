"""The command line of `bspsweep`."""

from __future__ import annotations

import argparse
import contextlib
import io
import os
import pathlib
import re
import shlex
import shutil

from .. import children, emulator, files, limits, sealed_results
from ..files import content_of
from ..limits import MOST_PROGRAM, MOST_TABLE
from ..machines import Family, family_named
from ..options import COMPILING, Joined, P, Parser, listed, named, pair
from ..prepare.clock_rate import has_clock
from ..prices import Exact, G, L
from ..prices import listed as prices_listed
from ..refusals import REFUSED, Refused, counted, put, show, tell
from ..sealed_results import digest
from ..sweep import engines, result_folders, result_table, sweep_job, table_record
from ..sweep.result_folders import Unkept, kept_in
from ..sweep.result_store import MAIN, Place, Record, Store
from ..sweep.sweep_points import Run, expect_few, points
from ..sweep.sweep_programs import programs
from ..sweep.sweep_progress import Progress

# The status where all runs were made, and one of them was stopped, at its limit or refused to go on: that of such a run.
NOT_ENDED = 2
# g and l of the clock that programs read: prices have no part in a run.
CLOCK_PRICES = (1, 1)
# A host: how many runs at a time it makes, a user, a name or an address, a port; or this host.
HOST = re.compile(r"(?:\d+/)?(?::|(?:\w[\w.+-]*@)?(?:\w[\w.-]*|\[[\da-fA-F:.]+\])(?::\d+)?)", re.ASCII)


def pairs(text: str) -> list[tuple[Exact, Exact]]:
    """Prices as `1:1000,4:500`, each a g and an l."""
    found = []
    for part in text.split(","):
        g, colon, l = part.partition(":")
        if not colon:
            raise argparse.ArgumentTypeError(f"{part!r}: give prices as G:L")
        found.append((G(g), L(l)))
    return found


def families(text: str) -> list[Family]:
    """The machines whose names are parted by commas."""
    return list(map(family_named, dict.fromkeys(text.split(","))))


def hosts(text: str) -> tuple[str, ...]:
    """Hosts that are parted by commas. GNU parallel has a shell take their names, so that none may have what is a command there."""
    found = tuple(text.split(","))
    for it in found:
        if HOST.fullmatch(it) is None:
            raise argparse.ArgumentTypeError(f"{it!r} is not the name of a host, such as one, user@one.example, or 4/one for 4 runs at a time; : is this host")
    return found


def constant(text: str) -> tuple[str, list[str]]:
    """A constant and its values, as `N=100,1000`."""
    name, values = pair(text, "a constant as NAME=VALUE,VALUE,..")
    if not name.isidentifier():
        raise argparse.ArgumentTypeError(f"{text!r}: {name!r} is not the name of a constant")
    if name in result_table.COLUMNS:
        raise argparse.ArgumentTypeError(f"{text!r}: {name} is a column of the table already: choose another name for the constant")
    return name, values.split(",")


def constants(given: list[tuple[str, list[str]]]) -> list[tuple[str, list[str]]]:
    """The constants, each once, with all values that were given for it."""
    found: dict[str, list[str]] = {}
    for name, values in given:
        found.setdefault(name, []).extend(values)
    return [(name, list(dict.fromkeys(values))) for name, values in found.items()]


def arguments(words: list[str]) -> argparse.Namespace:
    """What the command line asks for."""
    parser = Parser(
        "bspsweep",
        usage="bspsweep [options] PROGRAM..",
        description="Runs programs with all combinations of settings, and writes one CSV table.\n\n"
        "  bspsweep -n 1,2,4,8 --g 1,4 FILE.c -o table.csv\n"
        "  bspsweep --machine t3e --define N=100,1000 FILE.c -o table.csv\n\n"
        "A PROGRAM is anything that bsprun runs. Results are cached, so nothing is run twice. bspplot draws the table; docs/tutorial/costs.md"
        " shows how. The exit status is 0 if all runs ended well, and 2 if all were made and one did not (docs/manual/statuses.md).",
    )
    add = parser.add_argument
    parser.section("settings")
    add("-n", "--nodes", type=listed(P), action=Joined, metavar="LIST", help="numbers of nodes, as 1,2,4,8 or 1:8; default: those of --machine, or 1")
    add("--g", type=prices_listed(G), action=Joined, metavar="LIST", help="prices of a byte of h, as 4, 3.875 or 31/8; default 1")
    add("--l", type=prices_listed(L), action=Joined, metavar="LIST", help="prices of the end of a superstep; default 0")
    add("--prices", type=pairs, action=Joined, metavar="G:L,..", help="pairs of prices, in addition to all combinations of --g and --l")
    add("--machine", type=families, action=Joined, default=[], metavar="LIST", help="prices of machines, in addition to --g and --l: t3e takes the prices for each"
        " number of nodes, and t3e-8 those for 8 nodes. t3e-2, t3e-4, .., t3e-64 are from the literature, and bspprobe measures yours")  # fmt: skip
    add("--interpolate", choices=["linear"], help="interpolate prices of --machine between the numbers of nodes that were measured; the table"
        " says so")  # fmt: skip
    add("--input", action="append", metavar="FILE", help="an input; can be repeated")
    add("--args", type=parted, action="append", metavar="TEXT", help="arguments of main, split as the shell does; can be repeated")
    add("--define", type=constant, action="append", default=[], metavar="N=100,1000", help="values of a compile-time constant of a .c program")
    add("--file", action="append", default=[], metavar="FILE", help="file that the program can open with fopen, in all runs")
    add("--no-files", action="store_true", help="let programs write no files, and read only those that you give them")
    parser.section(COMPILING)
    parser.add_number("--stack", what="the room of the stack in bytes", least=limits.LEAST_STACK, most=limits.MOST_STACK,
        metavar="BYTES", help="stack of a .c program; default 1M, or 128K if --memory is less than 4M")  # fmt: skip
    parser.add_machine()
    parser.section("the table")
    add("-o", "--output", metavar="FILE", help="write the table to FILE; default: standard output. FILE.json gets a record of the command, versions,"
        " and digests of everything the table depends on")  # fmt: skip
    add("--again", metavar="FILE.json", type=named, help="make the table of this record again, and report what has changed; -o says where")
    add("--check", action="store_true", help="make each run again, on each of --hosts if given, and compare the results")
    parser.section("execution")
    add("--engine", choices=engines.NAMES, default=engines.AUTO, help="how to execute the runs: plain is one after another, parallel is GNU parallel,"
        " slurm is sbatch on a cluster; auto, the default, is parallel if it is installed, and plain otherwise")  # fmt: skip
    parser.add_number("--jobs", what="the number of runs at a time", least=1, most=100_000, default=0, metavar="COUNT", help="runs at a"
        " time; default: the number of processors")  # fmt: skip
    add("--hosts", type=hosts, action=Joined, default=(), metavar="H1,H2", help="hosts for GNU parallel, by ssh; they need this folder and the program at the same paths")
    add("--sbatch", type=parted, default="", metavar="OPTIONS", help="more options of sbatch, as '--partition=short --time=10'")
    add("--script", action="store_true", help="write the script for sbatch, print how to start it, and run nothing")
    add("--folder", default=".bspsweep", metavar="FOLDER", help="where to cache results; default .bspsweep")
    add("program", metavar="PROGRAM", nargs="*", help="a program to run")
    options = parser.parse_args(words)
    options.define = constants(options.define)
    if options.again is not None and table_record.without_aside(words):
        parser.error(f"--again takes the sweep from {options.again}, without {shlex.join(table_record.without_aside(words))}")
    if options.again is None and not options.program:
        parser.error("the following arguments are required: PROGRAM")
    return options


def parted(text: str) -> str:
    """Words that the shell can part."""
    try:
        shlex.split(text)
    except ValueError as error:
        raise argparse.ArgumentTypeError(f"{text!r}: {error}") from error
    return text


class Sweep:
    """A sweep: its points, its runs and where they have their places."""

    def __init__(self, options: argparse.Namespace, words: list[str]) -> None:
        expect_few(options)
        self.options, self.words = options, words
        self.folder = kept_in(options.folder)
        self.points = points(options, programs(options, self.folder))
        self.store = Store(self.folder, options)
        # What a table is made of may be something else by the end of the runs.
        self.store.digests.update(text for it in self.points for text in it.run.program.texts)
        for _, path in table_record.machine_tables(options):
            self.store.digest_of(path, MOST_TABLE)
        # The runs that have no place are not made.
        self.places: dict[Run, Place] = {}
        self.unplaced: list[str] = []
        # What came of the runs, as it is looked at once.
        self.found: dict[Run, Record | None] = {}
        for run in dict.fromkeys(it.run for it in self.points):
            self.give_place(run)

    def give_place(self, run: Run) -> None:
        """Gives a run its place, unless there is no program for it, or the place cannot be written."""
        if run.program.why:
            self.unplaced.append(f"{run}: there is no program for it, as said above")
            return
        try:
            self.places[run] = self.store.place(run)
        except (OSError, Unkept) as error:
            why = f"{error.filename}: {error.strerror}" if isinstance(error, OSError) else error
            self.unplaced.append(f"{run}: its result cannot be kept: {why}")

    def commands(self, folder: pathlib.Path, wanted: dict[Run, Place], copy: str) -> pathlib.Path:
        """The list of commands that make these runs, in a new folder that none but this user can write: a shell takes each line."""
        make = [emulator.program("bspsweep"), "--make"]
        text = "".join(engines.line([*make, str(it.folder), copy]) + "\n" for it in wanted.values()).encode(errors="surrogateescape")
        path = folder / "commands"
        files.put(path, text)
        return path

    def make(self, engine: engines.Engine, wanted: dict[Run, Place], copy: str) -> None:
        """Has an engine make runs."""
        for place in wanted.values():
            for kind in ("failed", "json"):
                files.remove(place.file(kind, copy))
            place.give_ticket()
        progress = Progress(wanted, copy)
        if engine.name == engines.SLURM:
            # Its nodes see the results, and may see no other folder. After Ctrl-C they may go on.
            folder = result_folders.new(self.folder, "lists")
            said = progress.follow(engine.words(self.commands(folder, wanted, copy)))
            shutil.rmtree(folder, ignore_errors=True)
        else:
            with children.folder("bspsweep") as folder:
                said = progress.follow(engine.words(self.commands(folder, wanted, copy)))
        self.take_tickets()
        if progress.left:
            tell([f"not run: {counted(len(progress.left), 'run')}; the engine says", *said.strip().splitlines()[-5:]], "bspsweep: ")

    def take_tickets(self) -> None:
        """Takes away what would seal another result of a run that is made: the folder may be given to others."""
        for place in self.places.values():
            if place.found() is not None:
                files.remove(place.ticket)

    def missing(self) -> dict[Run, Place]:
        """The runs that were not made yet."""
        return {run: place for run, place in self.places.items() if place.found() is None}

    def check(self, engine: engines.Engine) -> list[str]:
        """Makes each run once more, on each host, and names those of which something else came."""
        wrong = []
        for host in engine.hosts or ("",):
            copy = "check-" + "".join(it if it.isalnum() else "-" for it in host)
            self.make(engine._replace(hosts=(host,)) if host else engine, self.places, copy)
            for run, place in self.places.items():
                if place.found() is not None and place.figures(copy) != place.figures():
                    wrong.append(f"{run}: another result{' on ' + host if host else ''}: {place.file('json', copy)}")
        return wrong

    def take_results(self) -> None:
        """Takes what came of the runs: a file that one of them rests on may change as the table is written."""
        self.found = {run: place.found() for run, place in self.places.items()}

    def sought(self) -> dict[str, str]:
        """The files that programs looked for and nobody gave, with their digests."""
        return {name: content for it in self.found.values() if it is not None for name, content in it["sought"].items()}

    def notes(self) -> list[str]:
        """What the figures of runs rest on, if that may not be what was meant."""
        return [*self.told_of_clocks(), *result_table.doubts(self.found)]

    def told_of_clocks(self) -> list[str]:
        """A line where programs read the clock, which counts in each run at prices that are not those of its points."""
        programs = dict.fromkeys(it.run.program for it in self.points if (it.g, it.l) != CLOCK_PRICES and it.run in self.places)
        names = list(dict.fromkeys(it.name for it in programs if has_clock(content_of(it.image, MOST_PROGRAM))))
        more = f" and {counted(len(names) - 1, 'more program')}" if names[1:] else ""
        g, l = CLOCK_PRICES
        return [
            f"{names[0]}{more} may read the clock, which counts a byte of h as {g} and a superstep's end as {l} in all runs: if w depends on the"
            " time, it is that of these prices"
        ] if names else []  # fmt: skip

    def write(self) -> table_record.Record:
        """Writes the table, and beside it the record of it, which is answered."""
        text = result_table.table(self.points, self.found, [name for name, _ in self.options.define])
        record = table_record.made(self.options, self.words, self.points, self.store, text, self.sought())
        if self.options.output is None:
            put(text)
            return record
        path = table_record.beside(self.options.output)
        files.write(self.options.output, text)
        if path is not None:
            files.write(path, table_record.spelled(record))
        return record


def script(sweep: Sweep, words: list[str]) -> int:
    """Writes the script for sbatch, and says how to start it and how to collect."""
    missing = sweep.missing()
    if missing:
        if not sealed_results.own_key().is_kept:
            raise Refused(sealed_results.UNKEPT)
        for place in missing.values():
            place.give_ticket()
        folder = result_folders.new(sweep.folder, "lists")
        path = engines.array(sweep.commands(folder, missing, MAIN), sweep.options.jobs)
        again = engines.line([emulator.program("bspsweep"), *(it for it in words if it != "--script")])
        print(f"start it:   {engines.line(['sbatch', *shlex.split(sweep.options.sbatch), str(path)])}\ncollect it: {again}")
    else:
        print("all runs are made: the same command without --script gives the table")
    return 0


def sweep(options: argparse.Namespace, words: list[str], before: table_record.Record | None = None) -> int:
    """Makes what is to be run, and writes the table; and says what is not as it was before."""
    whole = Sweep(options, words)
    whole.take_tickets()
    if options.script:
        return script(whole, words)
    engine = engines.chosen(options.engine, options.jobs, options.hosts, options.sbatch)
    missing = whole.missing()
    of_others = sum(sealed_results.is_of_others(it.file("json")) for it in missing.values())
    unkept = [sealed_results.UNKEPT] * (not sealed_results.own_key().is_kept)
    tell([*unkept, *sealed_results.told_of_others(of_others, options.folder)], "bspsweep: ")
    known = len(whole.places) - len(missing)
    if known:
        tell([f"{known} of {counted(len(whole.places), 'run')} {'was' if known == 1 else 'were'} cached"], "bspsweep: ")
    if missing:
        try:
            whole.make(engine, missing, MAIN)
        except children.Ended:
            tell_broken_off(whole)
            raise
    wrong = whole.check(engine) if options.check else []
    whole.take_results()
    is_whole = not wrong and None not in whole.found.values() and not whole.unplaced
    record = whole.write() if is_whole or not options.check else None
    is_same = record is None or before is None or tell_again(before, record)
    tell([*whole.notes(), *result_table.unasked(whole.found)], "bspsweep: note: ")
    stopped = result_table.stopped(whole.found)
    tell([*whole.unplaced, *result_table.failures(whole.places, whole.found), *stopped, *wrong], "bspsweep: ")
    if options.check:
        tell([f"{counted(len(whole.places), 'run')} gave the same again" if is_whole else "no table was written"], "bspsweep: ")
    return REFUSED if not is_whole or not is_same else NOT_ENDED if stopped else 0


def tell_broken_off(whole: Sweep) -> None:
    """Says what there is of a sweep that was ended by Ctrl-C or another signal, and how it goes on."""
    made, count = len(whole.places) - len(whole.missing()), counted(len(whole.places), "run")
    # The terminal may be gone.
    with contextlib.suppress(OSError):
        show(f"bspsweep: broken off with {made} of {count} made: {whole.options.folder} keeps them, and the same command makes the rest", "\n")


def tell_again(before: table_record.Record, now: table_record.Record) -> bool:
    """Says what is not as in an older record, and whether the table is the same, which is answered."""
    lines = table_record.differences(before, now)
    is_same = bool(before.get(table_record.TABLE) == now[table_record.TABLE])
    tell([*lines, "the table is the same, byte for byte" if is_same else "the table differs"], "bspsweep: ")
    return is_same


def recorded(words: list[str], path: str) -> argparse.Namespace:
    """What the command of a record asks for, which is a table. With a help or a version the parser would end this, with status 0."""
    with contextlib.suppress(SystemExit), contextlib.redirect_stdout(io.StringIO()):
        options = arguments(words)
        if options.again is None:
            return options
    raise table_record.no_record(path)


def again(asked: argparse.Namespace) -> int:
    """Makes the table of a record once more, as the command line asks for it now."""
    before = table_record.read(asked.again)
    files.expect_ordinary(table_record.own_machines(before), asked.again)
    table_record.take_machines(before)
    words = before[table_record.COMMAND]
    options = recorded(words, asked.again)
    given = filter(os.path.isfile, (it for text in options.args or [] for it in shlex.split(text)))
    files.expect_ordinary([*options.program, *(options.input or []), *options.file, *given], asked.again)
    for name in ("output", "folder", "engine", "jobs", "hosts", "sbatch", "check", "script"):
        setattr(options, name, getattr(asked, name))
    expect_outputs(options, [asked.again])
    return sweep(options, words, before)


def expect_used(options: argparse.Namespace) -> None:
    """Refuses options that would change nothing."""
    if options.sbatch and options.engine != engines.SLURM:
        raise Refused("--sbatch is for Slurm: add --engine slurm, or leave it out")
    if options.hosts and options.script:
        raise Refused("--hosts is for GNU parallel, and --script writes a script for Slurm: leave one of them out")
    if options.jobs and options.engine == engines.PLAIN and not options.script:
        raise Refused("--engine plain makes one run after another, whatever --jobs says: leave one of them out")
    if options.interpolate and not options.machine:
        raise Refused("--interpolate is for the prices of --machine: add --machine, or leave it out")


def expect_outputs(options: argparse.Namespace, inputs: list[str]) -> None:
    """Refuses a table, or a record of it, that would be written over something else, or cannot be written."""
    outputs = [options.output, table_record.beside(options.output)]
    files.expect_apart(outputs, [*inputs, *options.program, *(options.input or []), *options.file])
    files.expect_writable(outputs)
    table_record.expect_own(outputs[1])


def main(words: list[str]) -> int:
    """Sweeps; the status is 1 if a run could not be made, a check found a difference or another table was made again, and else 2 where one
    did not end well."""
    if words[:1] == ["--make"] and len(words) == 3:
        return sweep_job.make(words[1], words[2])
    options = arguments(words)
    expect_used(options)
    if not files.is_here():
        raise Refused(f"{files.GONE}, and the descriptions of runs name it: start bspsweep in another folder")
    if options.again is not None:
        return again(options)
    expect_outputs(options, [])
    return sweep(options, words)
