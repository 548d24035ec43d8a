"""Lines for the debugger, and the replies that the rules of its language allow."""

from __future__ import annotations

import dataclasses
import functools
import random
import re
from typing import Callable, Dict, List, NamedTuple, Optional, Set, Tuple, Union

from fuzz import reports
from fuzz.answers import FAULTS_OF_STEPS, one_of
from fuzz.reports import Machine

POINTS = 1024
# Lines and patterns of which is kept what was made of them: as many as come back soon.
KEPT = 1 << 11
# A line that asks for nothing. It stands behind each `output`, whose reply has any bytes, so that the end of these shows: in a script,
# and in a dialogue, which tells more.
MARK = b"what-was-written-ends-here"
MARKED = b"\nrefused: BadCommand"
NO_LINE = b": there is no such line; help lists the lines"
STATES = ("running", "synced", "ended", "aborted", "exhausted")
FIRST = re.compile(
    f"rank [0-9]+ pc [0-9a-f]{{8}} ticks [0-9]+ state (?:{'|'.join(STATES)}|fault {one_of(FAULTS_OF_STEPS)})".encode()
)
MESSAGE = re.compile(rb"from (\d+) tag (-|(?:[0-9a-f]{2})+) payload (-|(?:[0-9a-f]{2})+)")
PLACE = f"rank ([0-9]+) pc [0-9a-f]{{8}} superstep [0-9]+ state (?:{'|'.join(STATES)}|fault {one_of(FAULTS_OF_STEPS)})".encode()
AREA = rb"area %d at [0-9a-f]{8} size \d+"
REQUEST = (
    rb"request %d (?:put to rank \d+ area \d+ offset \d+ bytes \d+|get from rank \d+ area \d+ offset \d+ bytes \d+ into [0-9a-f]{8}"
    rb"|send to rank \d+ bytes \d+ tag bytes \d+)"
)
TEXT = rb'"(?:[ !#-\[\]-~]|\\[tnr"\\]|\\x[0-9a-f]{2})*"'
CODE = rb"([0-9a-f]{8}): [0-9a-f]{2,8} +[.a-z].*"
# What stands behind the name of a refusal.
ADVICE = {"NoFloatUnit": b": nodes have one with --float"}
HEXADECIMAL = re.compile(rb"0x[0-9a-fA-F]+")
# The registers by the names that programs have for them, which a dialogue tells, and what it tells them by.
REGISTERS = (
    "zero ra sp gp tp t0 t1 t2 s0 s1 a0 a1 a2 a3 a4 a5 a6 a7 s2 s3 s4 s5 s6 s7 s8 s9 s10 s11 t3 t4 t5 t6".split()
)
NAMED = re.compile(rb"\b([fx][0-9]+)/[a-z0-9]+=")
# The same of floating point; and the flags of fcsr, by the numbers of their bits.
FLOATS = "ft0 ft1 ft2 ft3 ft4 ft5 ft6 ft7 fs0 fs1 fa0 fa1 fa2 fa3 fa4 fa5 fa6 fa7 fs2 fs3 fs4 fs5 fs6 fs7 fs8 fs9 fs10 fs11 ft8 ft9 ft10 ft11".split()
FLAGS = "NX UF OF DZ NV".split()
# Of so many nodes a dialogue tells where they are where a run is over, and that there are more.
PLACES = 16
# The words of each kind of line, with the bits of its numbers; or a name where it has one of a line.
Form = Tuple[Union[bytes, int, str], ...]
FORMS: Dict[bytes, List[Form]] = {
    b"break": [(32, 32), (b"superstep", 64)],
    b"clear": [(32, 32), (b"superstep", 64)],
    b"step": [(32, 64)],
    b"regs": [(32,)],
    b"fregs": [(32,)],
    b"bytes": [(32, 32, 32)],
    b"queue": [(32,)],
    **{word: [()] for word in (b"phase", b"turn", b"go", b"costs", b"output", b"quit")},
}


# The same of dialogues.
SPOKEN: Dict[bytes, List[Form]] = {
    **FORMS,
    b"step": [(32, 64), (32,), ()],
    b"where": [(32,), ()],
    b"help": [("name",), ()],
    **{word: [(32,)] for word in (b"over", b"areas", b"requests")},
    **{word: [(32, 32, 32)] for word in (b"words", b"text", b"list")},
    **{word: [(64,)] for word in (b"back", b"forget")},
    **{word: [()] for word in (b"points", b"keep", b"kept")},
}
# The first words of which a dialogue tells something.
NAMES = {*SPOKEN, b"nodes"}


class Asked(NamedTuple):
    """What a line asks for: its first word, and its numbers. A point has one if it is a superstep, and two at a rank."""

    name: bytes
    numbers: Tuple[int, ...]


def number_of(word: bytes, bits: int) -> Optional[int]:
    """The number that a word spells, if it spells one of so many bits."""
    if word.isdigit():
        digits, base = word.lstrip(b"0"), 10
    elif HEXADECIMAL.fullmatch(word):
        digits, base = word[2:].lstrip(b"0"), 16
    else:
        return None
    if len(digits) > 20:
        return None
    value = int(digits or b"0", base)
    return value if value < 1 << bits else None


@functools.lru_cache(maxsize=KEPT)
def asked(line: bytes, is_dialogue: bool = False) -> Optional[Asked]:
    """What a line asks for; none if it asks for nothing. An empty line has an empty word."""
    forms = SPOKEN if is_dialogue else FORMS
    words = [word for word in line.split(b" ") if word]
    if not words:
        return Asked(b"", ())
    for form in forms.get(words[0], []):
        pairs = list(zip(words[1:], form))
        if len(form) != len(words) - 1 or any(word != wanted for word, wanted in pairs if isinstance(wanted, bytes)):
            continue
        if any(word not in NAMES for word, wanted in pairs if isinstance(wanted, str)):
            continue
        values = [number_of(word, wanted) if isinstance(wanted, int) else 0 for word, wanted in pairs if not isinstance(wanted, bytes)]
        numbers = tuple(it for it in values if it is not None)
        if len(numbers) == len(values):
            return Asked(words[0], numbers)
    return None


@functools.lru_cache(maxsize=KEPT)
def compiled(pattern: bytes) -> re.Pattern[bytes]:
    """What finds a line of this pattern."""
    return re.compile(pattern + b"\n")


@dataclasses.dataclass
class Judge:
    """Reads replies one after another, beside the lines that they answer."""

    machine: Machine
    output: bytes
    rest: bytes
    is_over: bool = False
    points: Set[Tuple[int, ...]] = dataclasses.field(default_factory=set)
    fault: str = ""
    is_dialogue: bool = False
    # Of each state that is kept, whether the run was over in it; none where it was forgotten.
    kept: List[Optional[bool]] = dataclasses.field(default_factory=list)

    def expect(self, is_right: bool, line: bytes) -> None:
        """Notes the first line whose reply is wrong."""
        if not is_right and not self.fault:
            self.fault = f"the line {line[:80]!r} is answered with {self.rest[:80]!r}"

    def take(self, pattern: bytes) -> Optional[re.Match[bytes]]:
        """The next lines, if they are of this pattern."""
        found = compiled(pattern).match(self.rest)
        if found:
            self.rest = self.rest[found.end():]
        return found

    def refusal(self, words: Asked) -> str:
        """The refusal that is due, if any is."""
        name, numbers = words
        is_of_rank = name not in (b"break", b"clear", b"back", b"forget") or (name == b"break" and len(numbers) == 2)
        if is_of_rank and numbers and numbers[0] >= self.machine.nodes:
            return "BadRank"
        if name == b"fregs" and not self.machine.floats:
            return "NoFloatUnit"
        if name in (b"words", b"text", b"list") and numbers[1] >= self.machine.memory:
            return "BadRange"
        if name in (b"back", b"forget") and (numbers[0] >= len(self.kept) or self.kept[numbers[0]] is None):
            return "NoSuchKept"
        if name == b"bytes" and numbers[1] + numbers[2] > self.machine.memory:
            return "BadRange"
        if name == b"break" and numbers not in self.points and len(self.points) == POINTS:
            return "TooMany"
        if name == b"clear" and numbers not in self.points:
            return "NoSuchBreak"
        return "Over" if self.is_over and name in (b"step", b"over", b"phase", b"turn", b"go") else ""

    def outcome(self) -> bool:
        """Whether the outcome comes next, which ends the run."""
        line, _, rest = self.rest.partition(b"\n")
        if reports.outcome_of(line) is None:
            return False
        self.rest, self.is_over = rest, True
        return not self.is_dialogue or line == b"ended" or self.places()

    def places(self) -> bool:
        """Where the nodes of the lowest ranks are, and how many more there are."""
        nodes = self.machine.nodes
        places = [self.take(PLACE) for _ in range(min(nodes, PLACES))]
        more = nodes <= PLACES or self.take(b"and %d more: where shows all" % (nodes - PLACES)) is not None
        return more and [place and int(place[1]) for place in places] == list(range(len(places)))

    def judge(self, line: bytes) -> None:
        """Takes the reply to a line."""
        words = asked(line, self.is_dialogue)
        if words is not None and not words.name:
            return
        if words is None:
            self.expect(self.take(b"refused: BadCommand" + (usage(line) if self.is_dialogue else b"")) is not None, line)
            return
        refusal = self.refusal(words)
        if refusal:
            self.expect(self.take(b"refused: " + refusal.encode() + ADVICE.get(refusal, b"")) is not None, line)
            return
        answer: Callable[..., bool] = getattr(self, "answers_" + words.name.decode())
        self.expect(answer(*words.numbers), line)

    def answers_break(self, *point: int) -> bool:
        """A point is set."""
        self.points.add(point)
        return self.take(b"ok") is not None

    def answers_clear(self, *point: int) -> bool:
        """A point is taken away."""
        self.points.discard(point)
        return self.take(b"ok") is not None

    def answers_step(self, rank: Optional[int] = None, count: int = 1) -> bool:
        """So many instructions of a rank, or fewer; or the next one of all, and where that rank is then."""
        found = self.take(rb"moved (\d+)")
        if found is None or int(found[1]) > min(count, self.machine.limit):
            return False
        return rank is not None or self.take(PLACE) is not None

    def answers_over(self, rank: int) -> bool:
        """An instruction, or all of a function, and where the rank is then."""
        found, place = self.take(rb"moved (\d+)"), self.take(PLACE)
        return found is not None and int(found[1]) <= self.machine.limit and place is not None and int(place[1]) == rank

    def answers_where(self, *ranks: int) -> bool:
        """Where a rank is, or each."""
        places = [self.take(PLACE) for _ in ranks or range(self.machine.nodes)]
        return [place and int(place[1]) for place in places] == list(ranks or range(self.machine.nodes))

    def answers_points(self) -> bool:
        """The points of ranks, by rank and address, and then those of supersteps."""
        told = [b"rank %d pc %08x" % (point[0], point[1]) for point in sorted(self.points) if len(point) == 2]
        told += [b"superstep %d" % point[0] for point in sorted(self.points) if len(point) == 1]
        return all(self.take(re.escape(text)) is not None for text in told)

    def answers_help(self, *names: int) -> bool:
        """A line for each first word, or for one."""
        return all(self.take(rb"[a-z]+\b[^:\n]*: .*") is not None for _ in (names or NAMES))

    def answers_words(self, _: int, addr: int, count: int) -> bool:
        """Four words in a row, up to the end of the memory."""
        count = min(count, (self.machine.memory - addr) // 4)
        rows = [b"%08x: " % (addr + 4 * at) + b" ".join([b"[0-9a-f]{8}"] * min(4, count - at)) for at in range(0, count, 4)]
        return all(self.take(row) is not None for row in rows)

    def answers_text(self, _: int, __: int, ___: int) -> bool:
        """Characters in quotes."""
        return self.take(TEXT) is not None

    def answers_list(self, _: int, addr: int, count: int) -> bool:
        """Lines of a listing, up to the end of the memory."""
        for _ in range(min(count, self.machine.memory)):
            if addr >= self.machine.memory:
                return True
            found = self.take(CODE)
            if found is None or int(found[1], 16) != addr:
                return False
            addr += len(found[0].split()[1]) // 2
        return True

    def numbered(self, pattern: bytes) -> bool:
        """Lines of this pattern, numbered from 0 on, as many as there are: the reply behind may begin with 0 again."""
        number = 0
        while self.take(pattern % number) is not None:
            number += 1
        return True

    def answers_areas(self, _: int) -> bool:
        """The areas by their numbers."""
        return self.numbered(AREA)

    def answers_requests(self, _: int) -> bool:
        """The requests by their numbers."""
        return self.numbered(REQUEST)

    def answers_keep(self) -> bool:
        """A state by its number."""
        self.kept.append(self.is_over)
        return self.take(b"kept %d" % (len(self.kept) - 1)) is not None

    def answers_back(self, number: int) -> bool:
        """A state once more."""
        self.is_over = self.kept[number] is True
        return self.take(b"ok") is not None

    def answers_forget(self, number: int) -> bool:
        """A state is none any more."""
        self.kept[number] = None
        return self.take(b"ok") is not None

    def answers_kept(self) -> bool:
        """The states by their numbers."""
        numbers = [number for number, state in enumerate(self.kept) if state is not None]
        return all(self.take(rb"kept %d superstep \d+, ranks? .*" % number) is not None for number in numbers)

    def answers_phase(self) -> bool:
        """All that is left of the local parts."""
        found = self.take(rb"moved (\d+)")
        return found is not None and int(found[1]) <= self.machine.limit * self.machine.nodes

    def answers_turn(self) -> bool:
        """The end of a superstep, or none, or the outcome."""
        return self.take(b"(?:not )?turned") is not None or self.outcome()

    def answers_go(self) -> bool:
        """A stop at one of the points, or the outcome."""
        found = self.take(rb"stopped at rank (\d+) pc ([0-9a-f]{8})")
        if found:
            return (int(found[1]), int(found[2], 16)) in self.points
        found = self.take(rb"stopped at superstep (\d+)")
        return (int(found[1]),) in self.points if found else self.outcome()

    def answers_regs(self, rank: int) -> bool:
        """A node and its registers, of which x0 is 0."""
        found = self.take(FIRST.pattern)
        names = [f"{f'x{at}/{name}':>7}" if self.is_dialogue else f"x{at}" for at, name in enumerate(REGISTERS)]
        rows = [" ".join(f"{name}=[0-9a-f]{{8}}" for name in names[first : first + 4]) for first in range(0, 32, 4)]
        values = self.take("\n".join(rows).encode())
        zero = re.match(rb"[^=]*=00000000 ", values[0]) if values else None
        return found is not None and found[0].startswith(b"rank %d " % rank) and zero is not None

    def answers_fregs(self, rank: int) -> bool:
        """The fcsr of a node, with what stands in it, and its registers of floating point."""
        found = self.take(rb"rank %d fcsr 000000([0-9a-f]{2}) frm ([0-7]) flags(| -|(?: [A-Z]{2})+)" % rank)
        width = 2 if self.is_dialogue else 4
        names = [f"{f'f{at}/{name}':>8}" if self.is_dialogue else f"f{at}" for at, name in enumerate(FLOATS)]
        rows = [" ".join(f"{name}=[0-9a-f]{{16}}" for name in names[first : first + width]) for first in range(0, 32, width)]
        if found is None or self.take("\n".join(rows).encode()) is None:
            return False
        fcsr = int(found[1], 16)
        flags = [name for bit, name in enumerate(FLAGS) if fcsr >> bit & 1]
        return fcsr >> 5 == int(found[2]) and found[3].decode().split() == (flags[::-1] or ["-"])

    def answers_bytes(self, _: int, __: int, count: int) -> bool:
        """A line for each 16 bytes and for the rest."""
        rows = [b" ".join([b"[0-9a-f]{2}"] * min(16, count - first)) for first in range(0, count, 16)]
        return all(self.take(row) is not None for row in rows)

    def answers_queue(self, _: int) -> bool:
        """The messages, in the order of their senders."""
        found = self.take(rb"count (\d+) bytes (\d+)")
        taken = [self.take(MESSAGE.pattern) for _ in range(int(found[1]))] if found else []
        messages = [it for it in taken if it is not None]
        if found is None or len(messages) < len(taken):
            return False
        senders = [int(message[1]) for message in messages]
        size = sum(len(message[3].replace(b"-", b"")) // 2 for message in messages)
        return size == int(found[2]) and senders == sorted(senders) and all(rank < self.machine.nodes for rank in senders)

    def answers_costs(self) -> bool:
        """The supersteps that are over, the last one among them once the run is."""
        found = self.take(rb"(?:superstep [^\n]*\n)*total \d+")
        costs = reports.costs_of(found[0][:-1].split(b"\n")) if found else None
        if costs is None or reports.fault_of_costs(*costs, self.machine):
            return False
        return self.is_over == any(not turned for _, _, _, turned in costs[0])

    def answers_output(self) -> bool:
        """A first part of what the run writes; all of it once the run is over."""
        end = self.rest.find(MARKED + (NO_LINE if self.is_dialogue else b"") + b"\n")
        end = len(self.rest) - 1 if end < 0 else end
        text, self.rest = self.rest[:end], self.rest[end + 1:]
        return self.output.startswith(text) and (not self.is_over or text == self.output)


def usage(line: bytes) -> bytes:
    """What a dialogue tells of a line that asks for nothing, as a pattern: how it is spelled, or that there is none."""
    word, *others = [it for it in line.split(b" ") if it]
    is_line = word in NAMES and (word != b"help" or len(others) != 1)
    return b": the line is " + re.escape(word) + rb"\b.*" if is_line else re.escape(NO_LINE)


def replies_of(judge: Judge, lines: List[bytes]) -> List[bytes]:
    """The replies to lines, one after another, up to the first that is wrong or to `quit`."""
    replies = []
    for line in lines:
        if judge.fault or asked(line) == Asked(b"quit", ()):
            break
        before = judge.rest
        judge.judge(line)
        replies.append(before[: len(before) - len(judge.rest)])
    return replies


def fault_of(machine: Machine, output: bytes, script: bytes, replies: bytes, is_dialogue: bool = False) -> str:
    """What is wrong with the replies to lines; empty if nothing is. `output` is what the whole run writes."""
    judge = Judge(machine, output, replies, is_dialogue=is_dialogue)
    replies_of(judge, script.split(b"\n"))
    return judge.fault or (f"replies go on with {judge.rest[:80]!r}" if judge.rest else "")


def is_same(words: Optional[Asked], reply: bytes, other: bytes) -> bool:
    """Whether a dialogue gives a reply of a script, where it tells more of some: of what asks for nothing, of registers, of an outcome."""
    if words is None:
        return other.startswith(reply[:-1])
    if words.name in (b"go", b"turn"):
        return other.startswith(reply)
    if words.name in (b"regs", b"fregs"):
        return reply.split() == NAMED.sub(rb"\1=", other).split()
    return reply == other


def parting(machine: Machine, output: bytes, script: bytes, plain: bytes, spoken: bytes) -> str:
    """The first line of a script that a dialogue answers in another way, up to the first that a dialogue alone does; empty if none is."""
    lines = script.split(b"\n")
    pairs = zip(lines, replies_of(Judge(machine, output, plain), lines), replies_of(Judge(machine, output, spoken, is_dialogue=True), lines))
    for line, reply, other in pairs:
        if asked(line) is None and asked(line, True) is not None:
            return ""
        if not is_same(asked(line), reply, other):
            return f"the line {line[:80]!r} is answered with {reply[:80]!r} in a script and with {other[:80]!r} in a dialogue"
    return ""


def edge(chance: random.Random, machine: Machine) -> bytes:
    """A number as a line may have it: a rank, an address or a count at an edge, or what is no number."""
    nodes, memory = machine.nodes, machine.memory
    value = chance.choice([0, 0, 1, 4, 8, 16, nodes - 1, nodes, memory, memory - 1, memory - 16, 40, 4 * chance.randrange(40)])
    if chance.randrange(20) == 0:
        value = chance.choice([(1 << 32) - 1, 1 << 32, (1 << 64) - 1, 1 << 64, 10 ** 30])
    if chance.randrange(60) == 0:
        return chance.choice([b"-1", b"+1", b"0x", b"1e3", b"0X1", b"", b"\t", b"1\r", b"\xff", b"superstep", b"0" * 300 + b"1"])
    return chance.choice([b"%d", b"%d", b"%d", b"0x%x", b"00%d", b"0x%X"]) % value


def line(chance: random.Random, machine: Machine, forms: Dict[bytes, List[Form]] = FORMS) -> bytes:
    """A line, with a mistake in it now and then."""
    if chance.randrange(25) == 0:
        return bytes(chance.choice(b"abcgostepbreak 0123x\t\r#\0\xff") for _ in range(chance.choice([0, 1, 5, 80, 2000])))
    name = chance.choice([name for name in sorted(forms) if name != b"turn"] * 4 + [b"go", b"step", b"phase", b"turn"] * 3 + [b"quit"])
    if name == b"quit" and chance.randrange(4):
        name = b"go"
    form = chance.choice(forms.get(name, [()]))
    words = [name] + [word_of(chance, machine, word) for word in form]
    if name in (b"words", b"list") and machine.memory > 1 << 13:
        # A line for each code of a whole memory would take minutes to judge.
        words[-1] = b"%d" % chance.randrange(1 << 10)
    if len(form) and form[0] == 32 and chance.randrange(8):
        words[1] = b"%d" % chance.randrange(machine.nodes)
    if chance.randrange(30) == 0:
        words.append(edge(chance, machine))
    if chance.randrange(40) == 0:
        words[0] = chance.choice([words[0].upper(), words[0] + b"s", b""])
    return chance.choice([b" ", b" ", b" ", b"  "]).join(words)


def word_of(chance: random.Random, machine: Machine, wanted: Union[bytes, int, str]) -> bytes:
    """A word as a form has it: itself, a name, or a number."""
    if isinstance(wanted, bytes):
        return wanted
    return chance.choice(sorted(NAMES)) if isinstance(wanted, str) else edge(chance, machine)


def script(chance: random.Random, machine: Machine, forms: Dict[bytes, List[Form]] = FORMS) -> bytes:
    """A script of such lines, with points up to the limit in some, and often without a last line feed."""
    lines: List[bytes] = []
    if chance.randrange(25) == 0:
        lines += [b"break 0 %d" % (4 * at) for at in range(chance.choice([1023, 1024, 1025]))]
    for _ in range(chance.choice([0, 1, 5, 20, 60])):
        made = line(chance, machine, forms)
        lines += [made, MARK] if asked(made) == Asked(b"output", ()) else [made]
    return b"\n".join(lines) + chance.choice([b"", b"\n"])
