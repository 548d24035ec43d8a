"""The command line of `bspcheck`."""

from __future__ import annotations

import argparse
import re

from .. import children, files, start, streams
from ..marking import mark_table, sheet_reader, wanted_file
from ..marking.marks import EXPENSIVE, IDLE, NOT_PORTABLE, RACE, STOPPED, UNJUDGED, WRONG, Marks
from ..marking.sheet import Sheet, sources
from ..marking.sheet_marking import Marking, hand_ins, tell_known
from ..options import Parser
from ..refusals import Refused, printable, put, tell

# The status where a hand-in does not do all that its sheet asks for.
NOT_ALL_RIGHT = 1
# That of what cannot be marked at all, as a sheet with mistakes: other than that of a wrong hand-in, so that scripts can tell them apart.
NOT_MARKED = 3
# The faults of a run that one looks for in a page of it.
WATCHED = (WRONG, STOPPED, RACE, EXPENSIVE, IDLE, NOT_PORTABLE)
# What a mistake in a sheet begins with, so that editors find the place.
PLACE = re.compile(r".+:\d+:\d+: ")
MOST_JOBS, MOST_SEED = 1000, 1 << 62


def parser() -> Parser:
    """The reader of bspcheck's command line."""
    found = Parser(
        "bspcheck",
        usage="bspcheck [options] SHEET.toml FILE..",
        description="Marks C programs by a sheet of tasks.\n\n"
        "  bspcheck course/01-broadcast/sheet.toml FILE.c\n\n"
        "It checks whether they compile, give the right output for every number of nodes and every input, and stay within the allowed costs. With"
        " one FILE, it prints a full report and explains the first mistake; with several, one row each. docs/manual/marking.md is the manual. The"
        " exit status is 0 if all hand-ins are right, and 1 if one is not (docs/manual/statuses.md).",
    )
    add = found.add_argument
    found.section("results")
    add("-o", "--output", metavar="FILE", help="write the marks as CSV")
    add("--html", metavar="FILE", help="write the marks as one HTML page, which shows the expected and the actual output for each mistake")
    add("--junit", metavar="FILE", help="write the marks as JUnit XML, for GitHub Classroom, GitLab and Moodle's VPL")
    found.section("the sheet")
    add("--freeze", metavar="FILE", help="write the expected output and costs to FILE, which the sheet names as `wanted`. Students can then check without"
        " the solution")  # fmt: skip
    add("--costs", action="store_true", help="print what the solution costs in each run, and the bounds of the sheet for that run")
    found.add_number("--seed", what="a seed", least=0, most=MOST_SEED, metavar="SEED", help="another seed for the sheet's inputs")
    found.section("marking")
    found.add_number("--jobs", what="the number of hand-ins at a time", least=1, most=MOST_JOBS, default=0, metavar="COUNT",
        help="hand-ins marked at a time; default: the number of processors")  # fmt: skip
    add("--folder", default=".bspcheck", metavar="FOLDER", help="where to cache results; default .bspcheck")
    add("--anew", action="store_true", help="ignore cached results, and mark again")
    add("--trusted", action="store_true", help="mark hand-ins even on a kernel that cannot restrict what they read; only for programs that you trust")
    add("sheet", metavar="SHEET.toml", help="the sheet")
    add("files", metavar="FILE", nargs="*", help="hand-ins, one .c file each")
    return found


def main(words: list[str]) -> int:
    """Marks hand-ins; the status is 0 if all are right, and 1 if one is not."""
    try:
        return checked(parser().parse_args(words))
    except Refused as refused:
        tell(refused.args, "" if PLACE.match(str(refused.args[0])) else "bspcheck: ")
    except BrokenPipeError:
        raise
    except (OSError, MemoryError) as error:
        # As where the marks cannot be written: the status of a wrong hand-in would be taken for one.
        tell([f"bspcheck: {start.wanting(error)}"])
        streams.drop_output()
    return NOT_MARKED


def checked(options: argparse.Namespace) -> int:
    """Does what the command line asks for."""
    sheet = sheet_reader.read(options.sheet)
    tables = [it for it in (options.output, options.html, options.junit) if it]
    if not options.files and tables:
        raise Refused(f"no hand-in was given, so there are no marks for {tables[0]}: give the files to mark")
    if not options.files and not options.freeze and not options.costs:
        raise Refused("no hand-in was given: give the files to mark, or --costs or --freeze")
    outputs = [options.output, options.html, options.junit, options.freeze]
    files.expect_apart(outputs, [options.sheet, *options.files, *(it for it in sources(sheet) if it != sheet.file(sheet.wanted or "."))])
    files.expect_writable(outputs)
    hand_ins(options.files)
    with children.folder("bspcheck") as folder:
        marking = Marking(sheet, folder, options.folder, options.jobs, options.seed, options.trusted, options.anew)
        found = marking.marks(options.files)
        if options.freeze:
            wanted_file.write_to(options.freeze, sheet.runs, marking.plan.runs, marking.wanted)
        if options.costs:
            put_lines(mark_table.costs(sheet, marking.wanted))
        if not found:
            return 0
        tell_known(marking, len(found))
        write(options, marking, found)
        put_lines([*mark_table.lines(sheet, found), *advice(marking, found)])
    expect_judged(sheet, found)
    return 0 if all(it.first is None for it in found) else NOT_ALL_RIGHT


def put_lines(lines: list[str]) -> None:
    """Writes lines on standard output. A sheet may have come from somebody else: nothing of its texts is a command to a terminal."""
    put("".join(f"{printable(it)}\n" for it in lines))


def expect_judged(sheet: Sheet, found: list[Marks]) -> None:
    """Refuses to say that all is done where a hand-in was not judged, and says what to do."""
    untried = [it for it in found if it.evidence.untried]
    if untried:
        raise Refused(f"{named_first(untried)} could not be tried, so it was not judged: {untried[0].evidence.untried}", "mark again after fixing that")
    by_checker = [it for it in found if any(check.verdict == UNJUDGED and check.where for check in it.checks)]
    if by_checker:
        raise Refused(f"{sheet.checker} did not judge {named_first(by_checker)}: fix the checker, which has to judge any output, and mark again")
    by_rule = [it for it in found if any(check.verdict == UNJUDGED for check in it.checks)]
    if by_rule:
        rule = next(it.name for it in by_rule[0].checks if it.verdict == UNJUDGED)
        raise Refused(f"{rule} has no value for {named_first(by_rule)}: change this rule so that it has a value in any run, and mark again")


def named_first(found: list[Marks]) -> str:
    """The first of these by its name, with how many more there are."""
    return found[0].name + (f" and {len(found) - 1} more" if found[1:] else "")


def advice(marking: Marking, found: list[Marks]) -> list[str]:
    """How a run of a single hand-in is watched in which something was wrong, and how the usual mistakes are looked for if it is the output."""
    faults = [it for it in found[0].checks if it.verdict in WATCHED and it.run >= 0] if len(found) == 1 else []
    if not faults:
        return []
    is_wrong = any(it.verdict == WRONG for it in faults)
    runs = [it.run for it in faults if it.verdict == WRONG or not is_wrong]
    # On an odd number of nodes blocks are seldom whole words by chance, so that an index in the place of an offset shows.
    nodes = {it: marking.sheet.runs[it].nodes for it in runs}
    number = next((it for it in runs if nodes[it] > 1 and nodes[it] % 2), runs[0])
    name = found[0].name
    mistakes = [f"  to look for the usual mistakes: {printable(marking.again(name, number, '--strict'))}"] if is_wrong else []
    return [*mistakes, f"  to watch the run in a page: {printable(marking.watched(name, number))}"]


def write(options: argparse.Namespace, marking: Marking, found: list[Marks]) -> None:
    """Writes the tables that are asked for."""
    sheet = marking.sheet
    if options.output:
        files.write(options.output, mark_table.as_csv(sheet, found))
    # What has no part in most runs is loaded where it is wanted.
    if options.html:
        from ..marking.mark_page import page

        files.write(options.html, page(sheet, found, marking.wanted, lambda name, number: (marking.again(name, number), marking.watched(name, number))))
    if options.junit:
        from ..marking.mark_report import as_junit

        files.write(options.junit, as_junit(sheet, found))
