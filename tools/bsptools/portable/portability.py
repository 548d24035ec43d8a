"""`--portable`: the program again under the choices that BSPlib and C leave to a library, and the verdict."""

from __future__ import annotations

import concurrent.futures
import contextlib
import functools
import math
import pathlib
import re
from collections.abc import Callable, Sequence
from dataclasses import dataclass, field
from ..files import content_of
from ..framed.environment_calls import POP, PUSH, SEND, Tracer
from ..framed.replays import Replays
from ..limits import MOST_NODES, MOST_PROGRAM
from ..outputs import contested_bytes, exposed_ranges, output_records
from ..prepare.job import Job
from ..prepare.library_choices import EARLY, LATE, MOST_CUTS, NUMBERED, REVERSED, SHUFFLED, WATCHED, Choices, Cut, Point
from ..program.code import Code, read_elf
from ..refusals import Refused, counted, show, tell
from . import exposed_accesses, exposed_pairs, final_variables, orders, sums_of_messages, unbuffered_races
from .accepted_places import Accepted
from .call_log import INPUT, NO_MESSAGE, Logged, Superstep
from .contested_pairs import Pair, pairs
from .portability_findings import CALLS, QUEUE, Finding, Findings, Other, again, described, parted, told_contested, told_exposed, told_variable
from .trial_builds import VALUES, Builds, options_for
from .trial_runs import Ending, NoRoom, Subject, Trials, ending_of, least

TIMES = (Choices(unbuffered=EARLY), Choices(unbuffered=LATE))
PATTERNS = (0x40, 0xC1)
# What messages of bsp_hpmove have once the next bsp_sync is over.
SPOILT = 0x5A
CHANGED = "the source of an unbuffered call is other at bsp_sync: call "
# What a program says where there are more nodes than it takes, and one that ends with a status of its own.
MORE_NODES = b"there are more nodes than the program takes in bsp_begin"
OWN_STATUS = b": the program ended with status "
# In how many orders messages come where --tries does not say it, and of how many messages all orders are tried.
TRIES, MOST_ORDERED = 8, 4
# In how many orders of the first a variable is told of that differs.
MOST_NOTED = 3
# In how many orders more, if sums of numbers with a point are others in them.
MOST_SUMS = 2
# What puts and gets, also where it is not called in the run as it is.
ASKING = ("__wrap_bsp_put", "__wrap_bsp_get", *CALLS)
LOOKING = ("--portable=accesses", "-Og")
ACCESSES = "accesses of ranks to bytes of unbuffered calls"
# Over how many bytes of variables a run tells a sum.
MOST_SUMMED = 1 << 22
# How many pairs of places are told of each kind.
MOST_PAIRS = 16
NOT_CHECKED = (
    "use of memory after free", "addresses of variables on other ranks", "values of main's variables before bsp_begin", "bsp_time",
    "the order of the ranks' output", "other sizes of numbers",
)  # fmt: skip


@dataclass
class Verdict:
    """What was found, what is known exactly, what was tried without a difference, what else is told, and whether something that is looked
    for was left out."""

    found: list[Finding] = field(default_factory=list)
    exact: list[str] = field(default_factory=list)
    tried: list[str] = field(default_factory=list)
    same: list[Finding] = field(default_factory=list)
    notes: list[str] = field(default_factory=list)
    accepted: int = 0
    is_whole: bool = True

    def lines(self) -> list[str]:
        """All lines, those of what was found first."""
        told = [line for it in self.found for line in it.told("not portable")] + [line for it in self.same for line in it.told("contested")]
        told += [f"bsprun: {it}" for it in self.exact]
        told += [f"bsprun: tried: {', '.join(self.tried)}: the same output each time"] if self.tried else []
        told += [f"bsprun: accepted: {counted(self.accepted, 'pair')} of lines"] if self.accepted else []
        told += [f"bsprun: {it}" for it in self.notes]
        is_portable = self.is_whole and not self.found
        return [*told, f"bsprun: {'portable, as far as checked; ' if is_portable else ''}not checked: {', '.join(NOT_CHECKED)}"]


def has_one(code: Code, *names: str) -> bool:
    """Whether a program has one of these functions, as far as its names tell."""
    return not code.names or any(it in code.names for it in names)


class FirstRuns:
    """The first runs of a program, none of which depends on what another one comes to. They are begun side by side."""

    def __init__(self, subject: Subject, trials: Trials) -> None:
        self.subject, self.trials, self.file = subject, trials, subject.folder / "exposed.csv"
        self.code = trials.code.know_names()
        self.cuts = orders.variables_of(self.code)
        if len(self.cuts) < MOST_CUTS and sum(it.end - it.start for it in self.cuts) <= MOST_SUMMED:
            trials.summed = self.cuts
        # All else is found out from the calls of the run as it is.
        trials.begin_all([Choices()], has_one(self.code, *ASKING), logged=[Choices()])
        command = [*subject.command(trials.nodes, subject.limit), "--exposed", str(self.file)]
        self.exposing = subject.runs.begin(command) if has_one(self.code, *CALLS) else None
        nodes = [it for it in (trials.nodes - 1, trials.nodes + 1) if 1 <= it <= MOST_NODES]
        self.on_other_nodes = [(it, subject.runs.begin(subject.command(it, trials.limit))) for it in nodes]


@dataclass
class Looks:
    """A run of a build that looks at accesses to ranges of bytes, if there is such a build."""

    trials: Trials | None
    choices: Choices

    @functools.cached_property
    def found(self) -> list[exposed_accesses.Access]:
        """What it has found, once it is over."""
        return exposed_accesses.accesses(self.trials.log(self.choices)) if self.trials is not None and self.choices.ranges else []

    def has_found(self) -> bool:
        """Whether it is over and has found something."""
        return self.trials is not None and self.trials.is_over(self.choices) and bool(self.found)


class Portable:
    """Looks for what a run rests on."""

    def __init__(self, first: FirstRuns, builds: Builds, ended: Ending, contested: contested_bytes.Found) -> None:
        self.first, self.subject, self.builds, self.trials = first, first.subject, builds, first.trials
        self.ended, self.contested, self.accepted = ended, contested, Accepted(None, None)
        self.code = self.trials.code.know_names()
        self.variables, self.cuts = final_variables.of_program(self.code), first.cuts
        self.known: dict[Choices, dict[int, bytes]] = {}
        self.told_pairs: set[tuple[int, ...]] = set()
        # Builds that look at accesses, and in which variables of functions have values.
        self.looking: concurrent.futures.Future[Trials | None] | None = None
        self.valued: concurrent.futures.Future[list[tuple[Trials, list[str]]]] | None = None
        # Whether something of what seldom counts does, so that each part of it is looked for by itself.
        self.is_rare = True
        self.verdict = Verdict()

    @functools.cached_property
    def trace(self) -> Tracer:
        """Traces of the run as it is."""
        words = [*self.subject.program, "debug", *self.subject.settings]
        return Tracer(self.subject.code.know_names(), Replays(words, self.subject.options.memory))

    def findings(self, choices: Choices = Choices()) -> Findings:
        """What is told of what is found in a run of the build that takes choices."""
        return Findings(self.trials, Tracer(self.code, self.trials.replays(choices)))

    @functools.cached_property
    def log(self) -> list[Superstep]:
        """The calls of the run as it is."""
        return self.trials.log(Choices())

    @functools.cached_property
    def exposures(self) -> exposed_ranges.Found:
        """What the machine's calls expose in the run as it is; nothing if the program has no call that can."""
        if self.first.exposing is None:
            return exposed_ranges.Found([], True)
        return exposed_ranges.of_run(self.first.exposing.result(), self.first.file, self.trials.nodes, self.ended.last)

    def begin(self) -> None:
        """Begins the runs that depend on nothing but whether the program writes something."""
        if self.subject.options.sources:
            self.builds.begin_valued()
            self.valued = self.builds.pool.submit(self.with_values)
            if self.trials.room and self.has(*CALLS) and "bsp_ranges" not in self.code.names:
                self.looking = self.builds.pool.submit(self.with_looks)
        self.trials.begin_all(self.fresh_choices())
        self.begin_likely_orders()

    def begin_likely_orders(self) -> None:
        """Begins runs with messages in other orders where these are likely tried, before the calls of the run as it is are known: m counts the
        messages of a rank."""
        if self.trials.room and self.ended.messages > MOST_ORDERED and self.has(*QUEUE):
            self.begin_orders(shuffled_orders(self.subject.options.tries or TRIES))

    def begin_orders(self, tried: list[Choices]) -> None:
        """Begins runs with messages in these orders, which are the first of those that are tried. Those come last of which sums of variables
        may be wanted: they are not if the first one shows a difference before these begin."""
        if not self.is_silent:
            self.trials.unsummed.update(set(tried) - set(noted(tried)))
        last = noted(tried)[1:] if not self.is_silent else []
        self.trials.begin_all([*(it for it in tried if it not in last), *last], self.has(*ASKING))

    def settle_notes(self, tried: list[Choices]) -> None:
        """Looks whether the first of these orders shows a difference in variables, so that nobody asks for sums of the others."""
        first, *others = noted(tried)
        if others and not self.is_silent and self.trials.run(first) == self.ended and self.difference(first) is not None:
            self.trials.unsummed.update(others)

    def fresh_choices(self) -> list[Choices]:
        """The runs with other bytes in fresh memory. Where a run is told by what it writes alone, one of them has also all else that seldom
        comes to something else, and that is looked for by itself only if it does."""
        plain = [Choices(heap=it, stack=it) for it in PATTERNS]
        return plain if self.is_silent else [*plain[:-1], self.rare]

    @property
    def rare(self) -> Choices:
        """All that seldom comes to something else."""
        byte = PATTERNS[-1]
        return Choices(heap=byte, stack=byte, is_moved=True, is_alone=self.can_be_alone, cuts=self.cuts if self.can_be_alone else ())

    @property
    def can_be_alone(self) -> bool:
        """Whether rank 0 alone could have done what is before bsp_begin. Where bsp_init is called, that is so in each run."""
        can = bool(self.cuts and self.trials.room and self.trials.nodes > 1)
        return can and len(self.cuts) < MOST_CUTS and not ("bsp_init" in self.code.names or not self.code.names)

    def made(self, *numbers: int) -> bool:
        """Whether a rank makes such a call in the run as it is."""
        return any(not step.numbers.isdisjoint(numbers) for step in self.log)

    @property
    def is_silent(self) -> bool:
        """Whether the program writes nothing, so that its variables stand for what it comes to."""
        return not self.ended.output and not self.ended.files

    def has(self, *names: str) -> bool:
        """Whether the program has one of these functions, as far as its names tell."""
        return has_one(self.code, *names)

    def leave_out(self, line: str) -> None:
        """Tells of something that is looked for, and was not this time."""
        self.verdict.notes.append(line)
        self.verdict.is_whole = False

    def find(self, finding: Finding, is_other: bool = True) -> None:
        """Takes down what was found, unless it was accepted; what comes to the same output is told as that."""
        if self.accepted.has(finding.places):
            self.verdict.accepted += 1
            return
        self.accepted.note(finding.places, finding.lines[0])
        (self.verdict.found if is_other else self.verdict.same).append(finding)

    # What runs come to.

    def memories(self, choices: Choices, ranks: Sequence[int]) -> dict[int, bytes]:
        """The program's variables at the end of a run, of some ranks."""
        known = self.known.setdefault(choices, {})
        left = [it for it in ranks if it not in known]
        known.update(final_variables.at_end(self.trials.replays(choices), left, self.variables) if left else {})
        return known

    def difference(self, choices: Choices) -> final_variables.Difference | None:
        """The first variable that has something else at the end."""
        both = (Choices(), choices)
        sums = [dict(self.trials.known[it].sums) if it in self.trials.known else {} for it in both]
        is_told = len(sums[0]) == len(sums[1]) == self.trials.nodes and not self.is_silent
        ranks = [it for it in range(self.trials.nodes) if not is_told or sums[0].get(it) != sums[1].get(it)]
        if not self.variables or not ranks:
            return None
        if is_told:
            for rank in ranks:
                told = [final_variables.told(it[rank], self.variables) for it in sums if rank in it]
                if len(told) < len(sums) or None in told:
                    break
                found = final_variables.difference(self.variables, *({rank: it} for it in told if it is not None))
                if found is not None:
                    return found
            else:
                return None
        return final_variables.difference(self.variables, *(self.memories(it, ranks) for it in both))

    def base(self) -> Ending:
        """What the build that takes choices comes to where none is made. Messages stay in the machine where there is no room for them."""
        try:
            base = self.trials.run(Choices())
        except NoRoom:
            base = None
        if base is None or (base != self.ended and self.trials.memory < self.subject.options.memory):
            self.trials.go_without_room()
            base = self.trials.run(Choices())
        return base

    def ends_otherwise(self, choices: Choices) -> bool:
        """Whether a run has another output or outcome."""
        return self.trials.run(choices) != self.ended

    def changes(self, choices: Choices) -> bool:
        """The same, or whether there is no room for what such a run keeps."""
        try:
            return self.ends_otherwise(choices)
        except NoRoom:
            return True

    def other(self, choices: Choices, counts_variables: bool) -> Other | None:
        """Whether a run under these choices comes to something else, in its output, its outcome, or its variables where these count."""
        if self.ends_otherwise(choices):
            return Other(choices, self.ends_otherwise, parted(self.ended, self.trials.run(choices)))
        found = self.difference(choices) if counts_variables else None
        if found is None:
            return None
        return Other(choices, lambda it: self.difference(it) is not None, f"the output is the same; {told_variable(found)}")

    def note_variables(self, *tried: Choices) -> None:
        """Tells, as no mistake by itself, of the first run whose variables end otherwise: an inbox may be in the order of arrival, and a
        text have any bytes behind its end."""
        for choices in tried:
            if (found := self.difference(choices)) is not None:
                self.verdict.notes.append(f"note: if {described(choices)}, the output is the same; {told_variable(found)}")
                return

    # Each kind of choice.

    def look(self) -> None:
        """Looks for all, and takes down what is found."""
        contested = self.contested
        what = counted(contested.places, "place") if contested.places else "nothing"
        self.verdict.exact.append(f"puts and gets: {what} contested in {counted(self.ended.last + 1, 'superstep')} (exact)")
        base = self.base()
        if base != self.ended:
            difference = parted(self.ended, base)
            lines = ["other output if code and variables lie elsewhere", f"then   {difference}"]
            self.verdict.found.append(Finding([*lines, again(Choices(order=NUMBERED))]))
            if contested.first is not None:
                self.verdict.found.append(Finding(told_contested(self.trace, contested.first, contested.places - 1)))
            self.verdict.found += [told_exposed(self.trace, it) for it in self.exposures.rows[:1]]
            self.ended = base
            self.fresh()
            self.other_nodes()
            return
        self.begin_others()
        if contested.first is not None:
            self.pairs(Choices())
        self.exposed()
        self.from_log()
        self.tried("messages in other orders", self.messages)
        self.tried("unbuffered calls at other times", self.unbuffered)
        if self.fresh():
            self.addresses()
            self.alone()
        self.other_nodes()

    def begin_others(self) -> None:
        """Begins the runs that depend on nothing but the calls of the run as it is."""
        if self.trials.room and self.made(SEND) and self.has(*QUEUE):
            self.begin_orders(self.orders()[0])
        if self.trials.room and any(it.has_unbuffered for it in self.log) and self.has(*CALLS):
            self.trials.begin_all([Choices(unbuffered=WATCHED), *TIMES])

    def tried(self, what: str, look: Callable[[], None]) -> None:
        """Looks for something where there is room for what is kept."""
        try:
            if not self.trials.room:
                raise NoRoom
            look()
        except NoRoom:
            self.leave_out(f"not tried: {what}, since the memory has no room for them above the program's own")

    def pairs(self, choices: Choices) -> None:
        """The pairs of lines that contest bytes in a run, and what the run comes to where the others count."""
        self.trials.run_all([choices], is_contested=True)
        found, findings = self.trials.contested[choices], self.findings(choices)
        if found.places > len(found.rows):
            self.leave_out(f"not tried: contested bytes after the first {len(found.rows)} places")
        all_made = pairs(found.rows, self.log if choices == Choices() else self.trials.log(choices))
        # Their numbers are those of all, as --order has them.
        made = [(number, it) for number, it in enumerate(all_made, 1) if it.places not in self.told_pairs]
        self.told_pairs |= {it.places for _, it in made}
        landed = [choices._replace(cuts=tuple(it.cuts[:MOST_CUTS])) for _, it in made[:MOST_PAIRS]]
        self.trials.run_all(landed)
        for (number, pair), cut in zip(made, landed):
            other = self.other(cut, self.is_silent)
            if len(pair.cuts) > MOST_CUTS and other is None:
                self.leave_out(f"not tried: the other order of more than {MOST_CUTS} requests of a pair of lines")
            # Of more than two requests for a byte only some are known to bring other values.
            if other is not None or pair.first.row is not None:
                self.find(findings.pair(choices, number, pair, other), other is not None)
        if len(made) > MOST_PAIRS:
            self.leave_out(f"not tried: {counted(len(made) - MOST_PAIRS, 'more pair')} of lines that contest bytes")

    def exposed(self) -> None:
        """Bytes that a call reads at a time that is open while another one writes them."""
        found = exposed_pairs.pairs(self.log, self.exposures)
        seen, untold = list(found.places.values()), found.untold(self.exposures.rows)
        findings = self.findings()
        other = self.at_other_times() if seen else None
        for it in seen[:MOST_PAIRS]:
            self.find(findings.exposed(it, other))
        for row in untold:
            self.find(told_exposed(self.trace, row))
        if len(seen) > MOST_PAIRS:
            self.leave_out(f"not reported: {counted(len(seen) - MOST_PAIRS, 'more pair')} of lines that expose bytes")
        if not self.exposures.is_whole:
            self.leave_out(f"not reported: exposed bytes after the first {len(self.exposures.rows)} lines of the emulator")
        if any(step.has_unbuffered for step in self.log) and not seen and not untold:
            supersteps = counted(self.ended.last + 1, "superstep")
            self.verdict.exact.append(f"unbuffered calls: nothing exposed to other calls in {supersteps} (exact)")

    def at_other_times(self) -> Other | None:
        """What comes of unbuffered calls early or late, if that is something else."""
        with contextlib.suppress(NoRoom):
            self.trials.run_all(TIMES)
            return next((other for it in TIMES if (other := self.other(it, self.is_silent)) is not None), None)
        return None

    def from_log(self) -> None:
        """What the calls of the run tell by themselves."""
        findings = self.findings()
        empty: dict[int, tuple[int, Logged]] = {}
        readers = set()
        for superstep, step in enumerate(self.log):
            for it in step.all() if not step.numbers.isdisjoint((NO_MESSAGE, INPUT)) else ():
                if it.number == NO_MESSAGE:
                    empty.setdefault(it.place, (superstep, it))
                elif it.number == INPUT and it.rank > 0:
                    readers.add(it.rank)
        for found in list(empty.values())[:MOST_PAIRS]:
            self.find(findings.no_message(*found))
        if readers:
            who = f"rank {min(readers)} reads" if len(readers) == 1 else f"{len(readers)} ranks above 0 read"
            self.verdict.notes.append(f"note: {who} standard input, which other libraries may give to rank 0 alone")
        self.registered()

    def registered(self) -> None:
        """Ranks that register the same areas in another order than rank 0, which each of the other libraries may take for other areas."""
        for superstep, step in enumerate(self.log):
            if step.numbers.isdisjoint((PUSH, POP)):
                continue
            orders = {rank: [it.src for it in made if it.number in (PUSH, POP)] for rank, made in step.calls.items()}
            first = orders.get(0, [])
            for rank, order in orders.items():
                if order != first and sorted(order) == sorted(first):
                    names = [", ".join(self.code.variable(it) or f"{it:#x}" for it in which) for which in (order, first)]
                    line = f"in superstep {superstep} rank {rank} registers {names[0]}, and rank 0 {names[1]}"
                    self.verdict.notes.append(f"note: {line}: areas belong together by their order")
                    return

    @functools.lru_cache(maxsize=1)
    def orders(self) -> tuple[list[Choices], str]:
        """The orders of messages that are tried, and their name."""
        most, tries = self.most_sent(), self.subject.options.tries or TRIES
        if most <= MOST_ORDERED:
            reversed_ones = [Choices(order=REVERSED)] if most > 1 else []
            numbered = [Choices(order=NUMBERED, seed=it) for it in range(1, math.factorial(most))] if most > 2 else []
            return reversed_ones + numbered, f"messages in all orders of the {most} or fewer of a rank"
        tried = shuffled_orders(tries)
        name = f"messages in {counted(tries, 'order')} (reversed" + (f", shuffled with seeds 1 to {tried[-1].seed})" if tries > 1 else ")")
        sums = sums_of_messages.orders_of_sums(self.log, MOST_SUMS) if tries > 1 else []
        name += f" and {len(sums)} in which the sums of their numbers are others" if sums else ""
        return tried + sums, name

    def most_sent(self) -> int:
        """How many messages come to a rank in a superstep, where most do; of more than MOST_ORDERED, some number above it."""
        most = 0
        for step in self.log:
            most = max(most, step.most_sent())
            if most > MOST_ORDERED:
                break
        return most

    def messages(self) -> None:
        """Messages in other orders."""
        tried, name = self.orders()
        if not self.made(SEND) or not self.has(*QUEUE):
            return
        if not tried:
            self.verdict.exact.append("messages: no two come to one rank in a superstep (exact)")
        asks = self.has(*ASKING)
        if tried:
            self.begin_orders(tried)
            self.settle_notes(tried)
        self.trials.run_all(tried, asks)
        for choices in tried:
            if (other := self.other(choices, self.is_silent)) is not None:
                self.find(self.findings().messages(other, self.tag_size))
                break
        else:
            self.verdict.tried += [name] if tried else []
            self.note_variables(*noted(tried))
            self.note_sums(tried)
        if asks:
            self.contested_in(tried)
        self.queue()

    def note_sums(self, tried: list[Choices]) -> None:
        """Tells, as no mistake by itself, of messages whose numbers have another sum in an order that was tried, if the rank adds them up."""
        found = sums_of_messages.other_sum(self.log, tried)
        if found is None:
            return
        choices, it = found
        if sums_of_messages.is_added(it, self.ended.last, self.trials.replays(Choices()), self.trials.replays(choices)):
            line = f"rank {it.rank} adds up the numbers of {len(it.numbers)} messages of superstep {it.superstep}, in another order to another sum"
            self.verdict.notes.append(f"note: {line}: --order {orders.spelled(choices)}")

    def tag_size(self, superstep: int, rank: int) -> int:
        """How many bytes the tags of a rank have in a superstep of the run as it is."""
        return self.log[superstep].tag_sizes.get(rank, 0) if superstep < len(self.log) else 0

    def contested_in(self, tried: list[Choices]) -> None:
        """Bytes that are contested where messages come in other orders alone."""
        known = self.trials.contested.get(Choices())
        seen = {it[:3] for it in known.rows} if known is not None else set()
        for choices in tried:
            more = {it[:3] for it in self.trials.contested[choices].rows} - seen
            if more:
                seen |= more
                self.pairs(choices)

    def queue(self) -> None:
        """What bsp_hpmove gave out, behind the next bsp_sync."""
        if not self.has("__wrap_bsp_hpmove"):
            return
        other = self.other(Choices(queue=SPOILT), self.is_silent)
        if other is not None:
            self.find(self.findings().queue(other))
        else:
            self.verdict.tried.append("messages of bsp_hpmove spoilt behind the next bsp_sync")

    def unbuffered(self) -> None:
        """bsp_hpput and bsp_hpget at other times."""
        if not self.has(*CALLS) or not any(it.has_unbuffered for it in self.log):
            return
        watched, *_ = self.trials.run_all([Choices(unbuffered=WATCHED), *TIMES])
        looks = self.begin_accesses()
        touched = unbuffered_races.races(self.findings().trace, self.log, lambda: not looks.has_found())
        if self.accesses(looks):
            return
        other = self.at_other_times() if touched else None
        for race in touched[:MOST_PAIRS]:
            self.find(self.findings().touched(race, other))
        if len(touched) > MOST_PAIRS:
            self.leave_out(f"not reported: {counted(len(touched) - MOST_PAIRS, 'more unbuffered call')} whose bytes are written")
        if touched:
            return
        if watched != self.ended and (rank := re.match(r"rank (\d+) stopped: aborted", watched.outcome)) is not None:
            said = re.search(rb"bsp: rank %b: %b(\d+)\n" % (rank[1].encode(), CHANGED.encode()), watched.output)
            if said is not None:
                self.find(self.findings().source(Point(watched.last, int(rank[1]), int(said[1])), self.at_other_times()))
                return
        for choices in TIMES:
            if (other := self.other(choices, True)) is not None:
                self.find(self.findings().call(other))
                return
        self.verdict.tried.append("unbuffered calls early and late")

    def looking_build(self) -> Trials | None:
        """The program as it looks at its own accesses, if there is such a build."""
        if "bsp_ranges" in self.code.names:
            return self.trials
        if not self.subject.options.sources:
            self.leave_out(f"not tried: {ACCESSES}, which takes bspcc --portable=accesses")
            return None
        looking = self.looking.result() if self.looking is not None else None
        if looking is None:
            self.leave_out(f"not tried: {ACCESSES}, for which the program was not compiled")
        return looking

    def with_looks(self) -> Trials | None:
        """The build that looks at accesses, whose run is begun; nothing if the program cannot be built so."""
        with contextlib.suppress(Refused):
            looking, _ = trials_of(self.builds, self.subject, self.trials.ticks, *LOOKING)
            looking.begin_all([Choices()], logged=[Choices()])
            return looking
        return None

    def begin_accesses(self) -> Looks:
        """Begins the run that tells what ranks read and write themselves where an unbuffered call has the same bytes."""
        show("bsprun: looking at accesses to bytes of unbuffered calls")
        trials = self.looking_build()
        if trials is None:
            return Looks(None, Choices())
        ranges, left_out = exposed_accesses.ranges(self.log if trials is self.trials else trials.log(Choices()))
        if left_out is not None:
            self.leave_out(f"not tried: {ACCESSES} from superstep {left_out} on, since these have too many bytes apart")
        choices = Choices(ranges=tuple(ranges))
        if ranges:
            trials.begin_all([choices], logged=[choices])
        return Looks(trials, choices)

    def accesses(self, looks: Looks) -> bool:
        """What ranks read and write themselves where an unbuffered call has the same bytes. Answers whether that was found."""
        found, trials = looks.found, looks.trials
        if trials is None:
            return False
        other = self.at_other_times() if found else None
        findings = Findings(trials, Tracer(trials.code.know_names(), trials.replays(Choices())))
        for it in found[:MOST_PAIRS]:
            self.find(findings.accessed(it, other))
        if len(found) > MOST_PAIRS:
            self.leave_out(f"not reported: {counted(len(found) - MOST_PAIRS, 'more pair')} of lines, a call and an access to its bytes")
        return bool(found)

    def addresses(self) -> None:
        """Stack and heap elsewhere on each rank, so that an address of one is none of another."""
        choices = Choices(is_moved=True)
        if self.is_rare and self.ends_otherwise(choices):
            self.find(self.findings().addresses(choices, parted(self.ended, self.trials.run(choices))))
        else:
            self.verdict.tried.append("stack and heap elsewhere on each rank")

    def alone(self) -> None:
        """What rank 0 alone has done before bsp_begin. Where bsp_init is called, that is so in each run."""
        if not self.can_be_alone or not self.is_rare:
            return
        choices = Choices(is_alone=True, cuts=self.cuts)
        try:
            if not self.ends_otherwise(choices):
                return
            # Some of them change something, and the last of as few as do so.
            count = least(0, len(self.variables), lambda it: self.ends_otherwise(self.alone_with(it)))
        except NoRoom:
            return
        name = self.variables[count - 1].name
        difference = parted(self.ended, self.trials.run(choices))
        self.verdict.notes.append(f"note: ranks above 0 use what {name} is given before bsp_begin, which BSPlib lets rank 0 alone do; "
                                  f"otherwise {difference}: --order {orders.spelled(choices)}")  # fmt: skip

    def alone_with(self, count: int) -> Choices:
        """The same with so many of the variables."""
        return Choices(is_alone=True, cuts=tuple(Cut(0, 0, 0, *it) for it in final_variables.ranges_of(self.variables[:count])[:MOST_CUTS]))

    def fresh(self) -> bool:
        """Fresh memory with other bytes. Answers whether nothing was found."""
        patterns = [Choices(heap=it, stack=it) for it in PATTERNS]
        self.is_rare = self.is_silent or self.changes(self.rare)
        self.trials.run_all(patterns if self.is_rare else patterns[:1])
        for choices in patterns if self.is_rare else patterns[:1]:
            other = self.other(choices, self.is_silent)
            heap = other and self.other(choices._replace(stack=0), self.is_silent)
            if heap is not None:
                self.find(self.findings().heap(heap))
            elif other is not None:
                self.find(self.findings().stack(self.trials, choices, other.difference))
            if other is not None:
                return False
        for value, (trials, said) in zip(VALUES, self.valued.result() if self.valued is not None else []):
            if trials.room and not self.trials.room:
                trials.go_without_room()
            ending = trials.run(Choices())
            if ending != self.ended:
                self.find(self.findings().stack(trials, Choices(), parted(self.ended, ending), said, value))
                return False
        self.verdict.tried.append(f"fresh memory in {len(PATTERNS)} patterns")
        self.note_variables(*(patterns if self.is_rare else patterns[:1]))
        return True

    def with_values(self) -> list[tuple[Trials, list[str]]]:
        """Builds in which GCC gives variables of functions values, with what was said of them, whose runs are begun."""
        made = [trials_of(self.builds, self.subject, self.trials.ticks, *options_for(it)) for it in VALUES]
        for trials, _ in made:
            trials.begin_all([Choices()])
        return made

    def other_nodes(self) -> None:
        """The program on one node less and one more, for information."""
        told = []
        for nodes, run in self.first.on_other_nodes:
            try:
                ending = ending_of(run.result(), self.subject.mark)
            except Refused:
                continue
            if MORE_NODES not in ending.output:
                output = "same output" if ending.output == self.ended.output else "other output"
                told.append(f"with {counted(nodes, 'node')}: {output if ending.outcome == 'ended' else ending.outcome}")
        self.verdict.notes += [f"note: {', '.join(told)}"] if told else []


def shuffled_orders(tries: int) -> list[Choices]:
    """So many orders of messages: the reversed one, and shuffled ones."""
    return [Choices(order=REVERSED), *(Choices(order=SHUFFLED, seed=it) for it in range(1, tries))]


def noted(tried: list[Choices]) -> list[Choices]:
    """The orders of which the variables are looked at, of these."""
    return [*tried[:MOST_NOTED], *(it for it in tried[MOST_NOTED:] if it.order == NUMBERED)]


def trials_of(builds: Builds, subject: Subject, ticks: int, *options: str) -> tuple[Trials, list[str]]:
    """Runs of a build that takes choices, and what was said of it. If there is none of the sources as they are, that is told."""
    content, said = builds.built(*options)
    content = with_records(content, subject.mark)
    return Trials(subject, content, read_elf(content), ticks), said


def with_records(content: bytes, mark: bytes) -> bytes:
    """An image that writes records of its files behind this mark, where there is one."""
    return output_records.settings_in(content, output_records.RECORDS | output_records.WRITES_FILES, 0, mark) if mark else content


def begin(job: Job, folder: pathlib.Path, builds: Builds, work: int = 0) -> None:
    """Begins the first runs of a program, which has made so many instructions in a run if that is known. What comes of these begins others."""
    options, mark = job.options, job.mark if job.options.out is not None else b""
    content = with_records(content_of(folder / "program.elf" if options.sources else options.program, MOST_PROGRAM), mark)
    image = folder / "plain.elf"
    image.write_bytes(content)
    subject = Subject(options, job.program, read_elf(content), [str(image), *job.settings[1:]], folder, mark, builds.runs)
    if options.sources:
        builds.begin()
    file = folder / "contested.csv"
    plain = subject.begin(file)
    work = work or ending_of(plain.result(), mark).ticks
    trials = trials_of(builds, subject, work)[0] if options.sources else Trials(subject, content, subject.code, work)
    first = FirstRuns(subject, trials)

    def go_on() -> Portable | None:
        """Begins the others, of a program that ends well by itself."""
        ended = ending_of(plain.result(), mark)
        if ended.outcome != "ended" and OWN_STATUS not in ended.output:
            return None
        # Of these the first is told at most. Where there is one, the build that takes choices tells all of them.
        contested = contested_bytes.read(file, trials.nodes, ended.last, most=1)
        portable = Portable(first, builds, ended, contested)
        portable.begin()
        return portable

    builds.begun = builds.pool.submit(go_on)


def begin_soon(job: Job, folder: pathlib.Path, builds: Builds, work: int) -> None:
    """The same before anything is told of the run as it is. If it cannot be, nothing is begun, and the verdict tells why."""
    if not job.options.sources or builds.is_built():
        with contextlib.suppress(Refused, OSError):
            begin(job, folder, builds, work)


def verdict(job: Job, folder: pathlib.Path, builds: Builds, accepted: Accepted | None = None) -> Verdict | None:
    """Tries a program whose run as a job has ended well, and answers what was found and what was tried; nothing where it does not end well by
    itself. Pairs of lines that are found are noted among those that are accepted."""
    show("bsprun: looking for contested bytes")
    if builds.begun is None:
        begin(job, folder, builds)
    assert builds.begun is not None
    portable: Portable | None = builds.begun.result()
    if portable is None:
        return None
    portable.accepted = accepted or portable.accepted
    portable.look()
    show("")
    return portable.verdict


def is_portable(job: Job, folder: pathlib.Path, builds: Builds, accepted: Accepted) -> bool:
    """Tells the verdict, and writes the pairs that were found where that is asked for; answers whether nothing was found."""
    found = verdict(job, folder, builds, accepted)
    if found is None:
        tell(["bsprun: not tried: other choices, because the program itself fails"])
        return True
    tell(found.lines())
    accepted.write()
    return not found.found
