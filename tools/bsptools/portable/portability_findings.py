"""What `--portable` says of what it has found: the calls that count, with their lines."""

from __future__ import annotations

import functools
import pathlib
import re
from collections.abc import Callable, Sequence
from typing import NamedTuple

from ..framed.backtrace import Frame, place, written
from ..framed.environment_calls import HPGET, HPPUT, NAMES, REQUESTS, SEND, Call, Tracer, spelled
from ..framed.replays import Replays
from ..framed.session import ALL, Node
from ..limits import MOST_POINTS
from ..outputs import exposed_ranges
from ..outputs.contested_bytes import Contested
from ..outputs.written_files import file_name
from ..prepare.compilation import compiled
from ..prepare.library_choices import EARLY, EVERYWHERE, NUMBERED, REVERSED, Choices, Point, swaps
from ..program.code import Code, source_lines
from ..refusals import Refused, counted
from . import final_variables, orders
from .call_log import Logged
from .contested_pairs import Pair
from .divergence import first_divergence, shown
from .exposed_accesses import Access
from .exposed_bytes import DIRECT_GET, Bytes
from .exposed_pairs import Place
from .trial_runs import Ending, Stop, Trials, least, looked, memory_of, stops
from .unbuffered_races import Race

# What the linker calls in the place of these functions, in a program that has them.
TAKING = ("__wrap_bsp_move", "__wrap_bsp_hpmove")
QUEUE = (*TAKING, "__wrap_bsp_qsize", "__wrap_bsp_get_tag")
CALLS = ("__wrap_bsp_hpput", "__wrap_bsp_hpget")
LINE = re.compile(r"(?<![^\s,])[^\s,]+:\d+")
UNSET = re.compile(r"^(?=.* \[-W(?:maybe-)?uninitialized\]$)(.*?):(\d+):\d+: warning: (.*) \[-W(?:maybe-)?uninitialized\]$")
MOST_TOLD = 3

WHY_PUTS = "BSPlib leaves open in which order the puts and gets of a superstep write"
WHY_MESSAGES = "BSPlib leaves open in which order the messages of a superstep come"
WHY_UNBUFFERED = "BSPlib lets bsp_hpput and bsp_hpget read and write at any time from the call to the end of bsp_sync"
WHY_EMPTY = "BSPlib leaves open what bsp_move does where no message is left"
WHY_QUEUE = "BSPlib keeps what bsp_hpmove gives out up to the end of the superstep alone"
WHY_ADDRESSES = "an address of one rank is none of another: other libraries have each rank's memory elsewhere"
WHY_HEAP = "C leaves open which bytes fresh memory has"
# The functions of bsplib/src/choices.c by which a program has fresh memory, and which register has how many bytes it asks for.
PIECES = {
    "__wrap_malloc": 10, "__wrap_realloc": 11, "__wrap_memalign": 11, "__wrap_aligned_alloc": 11, "__wrap_posix_memalign": 12
}  # fmt: skip
WHY_STACK = "C leaves open what a variable of a function has before it is given a value"


class Other(NamedTuple):
    """Choices with which a run comes to something else, and the question that says so of any choices."""

    choices: Choices
    is_other: Callable[[Choices], bool]
    difference: str


class Finding(NamedTuple):
    """Something that was found: its lines, and the places in the program that make it, as FILE:LINE, where these are known."""

    lines: list[str]
    places: tuple[str, ...] = ()

    def told(self, what: str) -> list[str]:
        """The lines as they are told."""
        return [f"bsprun: {what}: {self.lines[0]}", *(f"  {line}" for line in self.lines[1:])]


class Made(NamedTuple):
    """A call: where it stands, how it is told, and the node that makes it, if it is known."""

    where: str
    text: str
    node: Node | None


class Findings:
    """Tells of a program by runs of its build that takes choices. `trace` has the run of which something is told."""

    def __init__(self, trials: Trials, trace: Tracer) -> None:
        self.trials, self.trace = trials, trace
        self.code = trials.code.know_names()

    def bytes_at(self, superstep: int, where: Bytes, *nodes: Node | None) -> str:
        """Some bytes of a rank, with the variable that they are of. Of these nodes one of the same rank knows variables of functions."""
        node = next((it for it in nodes if it is not None and it.rank == where.rank), None)
        end = f" to {where.end - 1:#x}" if where.end > where.start + 1 else ""
        return f"superstep {superstep}, rank {where.rank}: byte {written(self.code, where.start, node)}{end}"

    @functools.lru_cache(maxsize=64)
    def made(self, rank: int, superstep: int) -> list[Call]:
        """The puts, gets and messages of a rank in a superstep."""
        return self.trace.calls_in(rank, REQUESTS, superstep)

    def call_at(self, superstep: int, it: Logged) -> Made:
        """Where a call stands, and the call with its operands by name."""
        made = self.made(it.rank, superstep) if it.number in REQUESTS else []
        if it.request >= len(made):
            return Made(self.place_behind(it), "" if it.number in REQUESTS else DIRECT_GET, None)
        call = made[it.request]
        node = self.trace.node_of(it.rank, REQUESTS, superstep, call)
        where = place(self.code, node, is_call_told=True) if node else self.place_behind(it)
        return Made(where, spelled(self.code, node or call.node), node)

    def place_behind(self, it: Logged) -> str:
        """Where a call stands, by the place to which it goes back."""
        return place_at(self.code, self.code.call_before(it.place) or it.place - 2)

    def pair(self, choices: Choices, number: int, pair: Pair, other: Other | None) -> Finding:
        """Two places in the code that contest bytes, and what comes of the other order."""
        it = pair.first
        head = "other output" if other is not None else "same output"
        both = sorted((it.last, it.other))
        made = [self.call_at(it.superstep, asked) for asked in both]
        lines = [f"{head} if two requests of a superstep land in the other order"]
        lines[0] += f", and {described(choices)}" if choices != Choices() else ""
        more = f", and {counted(pair.count - 1, 'more place')}" if pair.count > 1 else ""
        lines.append(self.bytes_at(it.superstep, it.where, *(call.node for call in made)) + more)
        for asked, call in zip(both, made):
            known = (it.row.first, it.row.second) if it.row is not None else ()
            byte = next((f"{of.byte:02x}" for of in known if (of.rank, of.number) == (asked.rank, asked.request)), "lands")
            lines.append(f"{byte:6} by rank {asked.rank} at {call.where}: {call.text}")
        places = [line_in(call.where) for call in made]
        lines += [f"then   {other.difference}"] if other is not None else []
        return Finding([*lines, again(choices, number), f"why    {WHY_PUTS}"], tuple(places))

    def exposed(self, exposure: Place, other: Other | None) -> Finding:
        """A call that reads what another one, or itself, writes, where who comes first is open; and what comes of another time."""
        superstep, it, *both = exposure
        is_own = it.reader == it.writer
        made = [self.call_at(superstep, asked) for asked in both[: 1 if is_own else 2]]
        lines = [exposing(it.reader.kind, it.writer.kind, is_own)]
        lines.append(self.bytes_at(superstep, it.where, *(call.node for call in made)))
        lines += [f"{what} by rank {asked.rank} at {call.where}: {call.text}" for what, asked, call in zip(("read  ", "write "), both, made)]
        return Finding([*lines, *of_other(other), f"why    {WHY_UNBUFFERED}"], tuple(line_in(call.where) for call in made))

    def no_message(self, superstep: int, it: Logged) -> Finding:
        """A bsp_move where no message is left."""
        where = self.place_behind(it)
        lines = ["bsp_move takes a message from an empty queue", f"superstep {superstep}, rank {it.rank}: at {where}"]
        return Finding([*lines, f"why    {WHY_EMPTY}"], (line_in(where),))

    def queue(self, other: Other) -> Finding:
        """A message of bsp_hpmove that is used once the next bsp_sync is over."""
        chosen = self.trials.first(other.choices, other.is_other)
        lines = ["other output if messages of bsp_hpmove are other bytes once the next bsp_sync is over"]
        point = Point(chosen.until.superstep, chosen.until.rank, 0)
        taker = self.entries(self.trials.replays(Choices()), point, "__wrap_bsp_hpmove")
        where = place(self.code, taker.node) if taker is not None else ""
        lines += [f"superstep {point.superstep}, rank {point.rank}: given out at {where}"] if where else []
        lines += [f"then   {other.difference}", again(chosen), f"why    {WHY_QUEUE}"]
        return Finding(lines, (line_in(where),) if where else ())

    def messages(self, other: Other, tag_sizes: Callable[[int, int], int]) -> Finding:
        """Two messages of which the order counts: where they were sent, and where they are taken. `tag_sizes` has the size of a tag by
        superstep and rank."""
        lines = [f"other output if {described(other.choices)}"]
        chosen = self.trials.first(other.choices, other.is_other)
        superstep, rank, index = chosen.until
        replays = self.trials.replays(chosen)
        sends = self.messages_to(replays, superstep - 1, rank, tag_sizes)
        order = list(range(len(sends)))
        changes = swaps(chosen, superstep, rank, len(sends))
        for one, two in changes[:index]:
            order[one], order[two] = order[two], order[one]
        lines.append(f"superstep {superstep}, rank {rank}: two messages of its queue change places")
        for at in changes[index] if index < len(changes) else ():
            it = sends[order[at]]
            where = place(self.code, it.node)
            tag = f"tag {it.tag.hex(' ')}, " if it.tag else ""
            lines.append(f"sent   by rank {it.node.rank} in superstep {superstep - 1}, at {where}: {tag}{shown(it.content)}")
        taker = self.entries(replays, chosen.until, *TAKING) or self.entries(replays, Point(superstep, rank, 0), *QUEUE)
        if taker is not None:
            lines.append(f"taken  by rank {rank}, at {place(self.code, taker.node)}")
        return Finding([*lines, f"then   {other.difference}", again(chosen), f"why    {WHY_MESSAGES}"])

    def messages_to(self, replays: Replays, superstep: int, rank: int, tag_sizes: Callable[[int, int], int]) -> list[Stop]:
        """The messages that are sent to a rank in a superstep, in the order in which they come here; none where ranks are too many."""
        sites = Tracer(self.code, replays).sites((SEND,))
        points = [(it, site) for it in range(self.trials.nodes) for site in sites]
        script = [*replays.begin(superstep), f"break superstep {superstep + 1}"]
        if len(points) >= MOST_POINTS - 24:
            return []

        def tag(node: Node) -> tuple[int, int]:
            return node.x[11], tag_sizes(superstep, node.rank)

        found = list(stops(replays, self.code, script, points, lambda node: (node.x[12], node.x[13]), tag))
        return sorted((it for it in found if it.node.x[10] == rank and it.node.x[17] == SEND), key=lambda it: it.node.rank)

    def entries(self, replays: Replays, point: Point, *names: str) -> Stop | None:
        """A rank where it calls one of these functions in a superstep for the n-th time, `point` says for which."""
        points = [(point.rank, self.code.names[it]) for it in names if it in self.code.names]
        script = [*replays.begin(point.superstep), f"break superstep {point.superstep + 1}"]
        calls = stops(replays, self.code, script, points, lambda node: (node.x[11], node.x[14]))
        return next((it for it in calls if it.number == point.which), None) if points else None

    def source(self, point: Point, other: Other | None) -> Finding:
        """A bsp_hpput whose source is another one at bsp_sync."""
        replays = self.trials.replays(Choices())
        lines = ["bsp_hpput has other bytes at its source at bsp_sync than at the call"]
        call = self.entries(replays, point, *CALLS)
        lines += self.entry(point, call)
        if call is not None:
            lines += self.change(replays, point, call)
        return Finding([*lines, *of_other(other), f"why    {WHY_UNBUFFERED}"])

    def entry(self, point: Point, call: Stop | None) -> list[str]:
        """An unbuffered call."""
        lines = [f"superstep {point.superstep}, rank {point.rank}: its unbuffered call {point.which}"]
        if call is not None:
            number = HPPUT if call.node.pc == self.code.names.get("__wrap_bsp_hpput") else HPGET
            node = call.node._replace(x=(*call.node.x[:17], number, *call.node.x[18:]))
            lines += [f"at     {place(self.code, node)}", f"call   {spelled(self.code, node)}"]
        return lines

    def change(self, replays: Replays, point: Point, call: Stop) -> list[str]:
        """Where the source of a call changes, and what it has before and behind that."""
        entries = [self.code.names[it] for it in CALLS if it in self.code.names]
        script = [*replays.begin(point.superstep), *(f"break {point.rank} {it}" for it in entries), *["go"] * (call.number + 1)]
        script += [f"clear {point.rank} {it}" for it in entries]
        where, content = self.changed_at(Tracer(self.code, replays), script, point.rank, call.node.x[11], call.content)
        return [f"other  at {where}: {differing(call.content, content)}"]

    def changed_at(self, trace: Tracer, script: list[str], rank: int, address: int, content: bytes) -> tuple[str, bytes]:
        """Where a rank changes bytes of its memory in the superstep to which a script comes, and what they are at its end."""

        def after(steps: int) -> tuple[Node, bytes]:
            with trace.replays.session() as session:
                session.ask_all([*script, f"step {rank} {steps}"])
                return looked(session, trace.code, rank), memory_of(session, rank, address, len(content))
            raise Refused("the run could not be repeated")

        end, other = after(ALL)
        steps = least(0, end.ticks - after(0)[0].ticks, lambda it: after(it)[1] != content)
        return place(trace.code, after(steps - 1)[0]), other

    def touched(self, it: Race, other: Other | None) -> Finding:
        """An unbuffered call whose bytes are written by the rank in whose memory they lie."""
        owner, rank = it.where.rank, it.call.rank
        lines = [f"rank {owner} writes in a superstep what an unbuffered call of rank {rank} names there"]
        call = self.call_at(it.superstep, it.call)
        lines += [f"superstep {it.superstep}, rank {rank}: {call.text}", f"at     {call.where}"]
        writer, _ = self.changed_at(self.trace, it.script, owner, it.where.start, it.before)
        lines += [f"and    rank {owner} at {writer}: {differing(it.before, it.after)}", *of_other(other)]
        return Finding([*lines, f"why    {WHY_UNBUFFERED}"], (line_in(call.where), line_in(writer)))

    def accessed(self, it: Access, other: Other | None) -> Finding:
        """An access of a rank to bytes of an unbuffered call, and what comes of another time of such calls."""
        owner, rank = it.where.rank, it.call.rank
        name, what = NAMES[it.call.number][0], "writes" if it.is_target else "reads"
        deed = "writes" if it.is_write else "reads"
        lines = [f"rank {owner} {deed} in a superstep what {name} of rank {rank} {what} at any time in it"]
        call, made = self.call_at(it.superstep, it.call), self.place_behind(it.made)
        lines += [self.bytes_at(it.superstep, it.where, call.node), f"call   by rank {rank} at {call.where}: {call.text}"]
        lines += [f"{deed:6} by rank {owner} at {made}", *of_other(other)]
        return Finding([*lines, f"why    {WHY_UNBUFFERED}"], (line_in(call.where), line_in(made)))

    def call(self, other: Other) -> Finding:
        """An unbuffered call of which the time counts."""
        chosen = self.trials.first(other.choices, other.is_other)
        call = self.entries(self.trials.replays(chosen), chosen.until, *CALLS)
        lines = [f"a difference if {described(other.choices)}", *self.entry(chosen.until, call)]
        lines += [f"then   {other.difference}", again(chosen)]
        return Finding([*lines, f"why    {WHY_UNBUFFERED}"])

    def heap(self, other: Other) -> Finding:
        """A piece of malloc's memory of which the bytes count."""
        chosen = self.trials.first(other.choices, other.is_other)
        superstep, rank, index = chosen.until
        lines = [f"a difference if {described(other.choices)}"]
        piece = self.entries(self.trials.replays(chosen), chosen.until, *PIECES)
        if piece is not None:
            register = next(at for name, at in PIECES.items() if self.code.names.get(name) == piece.node.pc)
            size = counted(piece.node.x[register], "byte")
            lines.append(f"superstep {superstep}, rank {rank}: {size} are taken at {place(self.code, piece.node)}")
        lines += [f"then   {other.difference}", again(chosen)]
        return Finding([*lines, f"why    {WHY_HEAP}"])

    def stack(self, trials: Trials, choices: Choices, difference: str, said: list[str] | None = None, value: str = "") -> Finding:
        """A variable of a function that is used before it has a value: what GCC says of such, and where the runs part. `value` is what GCC gives
        such a variable, in a build with another one."""
        lines = ["a difference if an uninitialized variable of a function has other bytes"]
        for found in list(filter(None, map(UNSET.match, said if said is not None else self.warned())))[:MOST_TOLD]:
            lines.append(f"GCC    {pathlib.PurePath(found[1]).name}:{found[2]}: {found[3]}")
        divergence = first_divergence((self.trials, Choices()), (trials, choices))
        if divergence is not None:
            lines.append(f"superstep {divergence.one.superstep}, rank {divergence.rank}: the first call that differs")
            lines.append(f"at     {divergence.where}: {divergence.one.told}")
            lines.append(f"before {divergence.other.told if divergence.other else 'no call'}")
        more = [again(choices)] if choices.stack else [f"again  give -ftrivial-auto-var-init={value} to bsprun or bspgdb"] if value else []
        return Finding([*lines, f"then   {difference}", *more, f"why    {WHY_STACK}"])

    def addresses(self, choices: Choices, difference: str) -> Finding:
        """An address of one rank that another one uses."""
        lines = ["other output if stack and heap lie elsewhere on each rank"]
        divergence = first_divergence((self.trials, Choices()), (self.trials, choices))
        if divergence is not None:
            lines.append(f"superstep {divergence.one.superstep}, rank {divergence.rank}: the first call that differs")
            lines.append(f"at     {divergence.where}: {divergence.one.told}")
            lines.append(f"before {divergence.other.told if divergence.other else 'no call'}")
        places = (line_in(divergence.where),) if divergence is not None else ()
        return Finding([*lines, f"then   {difference}", again(choices), f"why    {WHY_ADDRESSES}"], places)

    def warned(self) -> list[str]:
        """What GCC says of variables that have no value."""
        if not self.trials.subject.options.sources:
            return []
        return compiled(self.trials.subject.options, self.trials.subject.folder / "warned.elf", "-Wuninitialized", "-Wmaybe-uninitialized")


def told_contested(trace: Tracer, it: Contested, others: int) -> list[str]:
    """Two requests that bring different values to one place, and how many more places there are."""
    variable = trace.code.variable(it.address)
    named = f" ({variable})" if variable else ""
    end = f" to {it.address + it.size - 1:#x}" if it.size > 1 else ""
    lines = ["two requests of a superstep write other bytes to one place"]
    lines.append(f"superstep {it.superstep}, rank {it.rank}: byte {it.address:#x}{named}{end}")
    for _, rank, number, byte in sorted((it.first, it.second), key=lambda asked: asked[1:3]):
        made = trace.calls_in(rank, REQUESTS, it.superstep)
        if number < len(made):
            where = trace.place_of(rank, REQUESTS, it.superstep, made[number])
            lines.append(f"{byte:02x}     by rank {rank} at {where}: {spelled(trace.code, made[number].node)}")
    return [*lines, *([f"and    {counted(others, 'more place')}"] if others else []), f"why    {WHY_PUTS}"]


def told_exposed(trace: Tracer, it: exposed_ranges.Exposed) -> Finding:
    """What the emulator tells of two calls, or of one with itself, that expose bytes."""
    is_own, places = it.reader == it.writer, []
    lines = [exposing(f"bsp_{it.reader.kind}", f"bsp_{it.writer.kind}", is_own)]
    end = f" to {it.address + it.size - 1:#x}" if it.size > 1 else ""
    lines.append(f"superstep {it.superstep}, rank {it.rank}: byte {written(trace.code, it.address)}{end}")
    for what, call in [("read  ", it.reader), ("write ", it.writer)][: 1 if is_own else 2]:
        made = trace.calls_in(call.rank, REQUESTS, it.superstep, (it.reader.place, it.writer.place))[call.number : call.number + 1]
        where, text = place_at(trace.code, call.place), f"bsp_{call.kind}"
        if made and made[0].node.pc == call.place:
            where, text = trace.place_of(call.rank, REQUESTS, it.superstep, made[0]), spelled(trace.code, made[0].node)
        lines.append(f"{what} by rank {call.rank} at {where}: {text}")
        places.append(line_in(where))
    return Finding([*lines, f"why    {WHY_UNBUFFERED}"], tuple(places))


def place_at(code: Code, address: int) -> str:
    """Where in the source an address of the code stands, or what else is known of it."""
    known = [Frame(*found, "") for found in source_lines(code, address)]
    return ", called from ".join(map(str, known)) or code.name_at(address) or f"address {address:#x}"


def exposing(reader: str, writer: str, is_own: bool) -> str:
    """What two calls do, or what one does by itself."""
    return f"{reader} from a rank to itself writes bytes that it reads" if is_own else f"{reader} reads what {writer} of the same superstep writes"


def of_other(other: Other | None) -> list[str]:
    """What comes of other choices, and how to make them."""
    return [] if other is None else [f"then   {other.difference}", again(other.choices)]


def again(choices: Choices, pair: int | None = None) -> str:
    """How to make a run once more, up to and with the choice at the point that was found, which the choices themselves leave out."""
    until = choices.until
    choices = choices if until == EVERYWHERE else choices._replace(until=until._replace(which=until.which + 1))
    return f"again  give --order {orders.spelled(choices, pair)} to bsprun or bspgdb"


def line_in(where: str) -> str:
    """The first FILE:LINE of a place, or what else it has."""
    found = LINE.search(where)
    return found[0] if found else where.replace(" ", "_")


def differing(one: bytes, other: bytes) -> str:
    """The first bytes in which two texts of the same length differ."""
    at = next((i for i, (a, b) in enumerate(zip(one, other)) if a != b), 0)
    return f"from byte {at} on {shown(one[at:])}, and then {shown(other[at:])}"


def told_variable(found: final_variables.Difference) -> str:
    """A variable that has something else at the end."""
    offset = f" + {found.offset}" if found.offset else ""
    values = f"{found.one.hex(' ')}, and then {found.other.hex(' ')}"
    return f"at the end rank {found.rank} has in {found.variable.name}{offset} the bytes {values}"


def described(choices: Choices) -> str:
    """What is chosen."""
    if choices.order:
        if choices.order == NUMBERED:
            return f"messages arrive in another order (order {choices.seed})"
        return "messages arrive in reverse order" if choices.order == REVERSED else f"messages arrive shuffled (seed {choices.seed})"
    if choices.unbuffered:
        when = "at the call" if choices.unbuffered == EARLY else "at bsp_sync"
        return f"bsp_hpput and bsp_hpget read and write {when}"
    if choices.is_moved:
        return "stack and heap lie elsewhere on each rank"
    if choices.queue:
        return f"messages of bsp_hpmove have bytes {choices.queue:#04x} once the next bsp_sync is over"
    return f"fresh memory{'' if choices.stack else ' of malloc'} has bytes {choices.heap:#04x}"


def parted(one: Ending, other: Ending) -> str:
    """In what two ends differ."""
    if one.outcome != other.outcome:
        return f"the outcome is {other.outcome!r}, and not {one.outcome!r}"
    if one.output != other.output:
        return parted_text("the output", one.output, other.output)
    files = [{it[:2]: it[2] for it in of.files} for of in (one, other)]
    rank, name = next(it for it in sorted(files[0].keys() | files[1].keys()) if files[0].get(it) != files[1].get(it))
    return parted_text(f"{file_name(name)}, which rank {rank} writes,", *(of.get((rank, name), b"") for of in files))


def parted_text(what: str, one: bytes, other: bytes) -> str:
    """In which line two texts differ."""
    here, there = one.split(b"\n"), other.split(b"\n")
    at = next((i for i, (a, b) in enumerate(zip(here, there)) if a != b), min(len(here), len(there)))
    texts = [repr(it[at][:60].decode(errors="replace")) if at < len(it) else "not there" for it in (here, there)]
    return f"line {at + 1} of {what} is {texts[1]}, and not {texts[0]}"
