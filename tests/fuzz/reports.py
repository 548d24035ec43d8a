"""The lines of a report, of a profile and of counts by the rules, and the relations between them."""

from __future__ import annotations

import dataclasses
import re
from typing import Dict, List, Optional, Tuple

from fuzz.answers import FAULTS_OF_STEPS, one_of

NUMBER = "(0|[1-9][0-9]*)"
ROW = re.compile(f"superstep {NUMBER}: w {NUMBER} h {NUMBER} m {NUMBER} (turned|last)".encode())
TOTAL = re.compile(f"total {NUMBER}".encode())
OUTCOMES = {
    "ended": 0,
    f"rank {NUMBER} stopped: aborted": 2,
    f"rank {NUMBER} stopped: fault {one_of(FAULTS_OF_STEPS)}": 2,
    f"rank {NUMBER} stopped: exhausted": 3,
    f"desync: rank {NUMBER} ended, rank {NUMBER} synced": 4,
    f"refused: (?:TagMismatch|SlotMismatch) rank {NUMBER}": 4,
    f"refused: OutsideArea rank {NUMBER} request {NUMBER}": 4,
}
PATTERNS = [(re.compile(pattern.encode()), status) for pattern, status in OUTCOMES.items()]
HEAD = b"superstep,rank,to,ticks,sent,received,kept,messages,requests,state"
COUNT = re.compile(f"{NUMBER},{NUMBER},([0-9a-f]{{8}}),([1-9][0-9]*)".encode())
STATES = ("synced", "ended", "aborted", "exhausted", "faulted")
# Work, h-relation, messages, and whether the exchange was made.
Row = Tuple[int, int, int, bool]


@dataclasses.dataclass(frozen=True)
class Machine:
    """The options of a run that its report depends on."""

    nodes: int = 1
    memory: int = 1 << 20
    limit: int = 2000
    g: int = 1
    l: int = 0
    format: str = "elf"
    input: str = ""
    clock: bool = False
    floats: bool = False
    atomics: bool = False
    large: bool = False

    @property
    def most_requests(self) -> int:
        """Puts, gets and messages of a node in a superstep; and its pushes."""
        return 1 << 24 if self.large else 65_536

    @property
    def most_bytes(self) -> int:
        """Bytes of a node in a superstep."""
        return 1 << 30 if self.large else 1 << 24

    @property
    def most_areas(self) -> int:
        """Areas in the next list of a node."""
        return 65_536 if self.large else 1024

    def words(self) -> List[str]:
        """The words of these options."""
        words = ["--nodes", self.nodes, "--memory", self.memory, "--limit", self.limit, "--g", self.g, "--l", self.l]
        words += ["--format", self.format] + (["--input", self.input] if self.input else []) + ["--clock"] * self.clock
        words += ["--float"] * self.floats + ["--atomic"] * self.atomics + ["--large"] * self.large
        return [str(word) for word in words]


@dataclasses.dataclass(frozen=True)
class Report:
    """Work, h-relation and messages of each superstep, whether its exchange was made, the total and the outcome."""

    rows: List[Row]
    total: int
    outcome: bytes


def outcome_of(line: bytes) -> Optional[Tuple[int, List[int]]]:
    """The status of an outcome, and the numbers in it; none of a line that is not an outcome."""
    for pattern, status in PATTERNS:
        found = pattern.fullmatch(line)
        if found:
            return status, [int(number) for number in found.groups()]
    return None


def costs_of(lines: List[bytes]) -> Optional[Tuple[List[Row], int]]:
    """The rows and the total that these lines tell, if they are just such lines, with supersteps counted from 0."""
    rows = []
    for number, line in enumerate(lines[:-1]):
        found = ROW.fullmatch(line)
        if found is None or int(found[1]) != number:
            return None
        rows.append((int(found[2]), int(found[3]), int(found[4]), found[5] == b"turned"))
    total = TOTAL.fullmatch(lines[-1]) if lines else None
    return (rows, int(total[1])) if total else None


def report_of(text: bytes) -> Optional[Report]:
    """What a report tells, if it has just the lines of one."""
    if not text.endswith(b"\n"):
        return None
    lines = text[:-1].split(b"\n")
    costs = costs_of(lines[:-1])
    if costs is None or outcome_of(lines[-1]) is None:
        return None
    return Report(costs[0], costs[1], lines[-1])


def fault_of_costs(rows: List[Row], total: int, machine: Machine) -> str:
    """What is wrong with costs, of a run that may still go on."""
    if total != sum(work + machine.g * moved + machine.l for work, moved, _, _ in rows):
        return "the total is not the sum of the supersteps"
    if any(not turned for _, _, _, turned in rows[:-1]):
        return "a superstep before the last made no exchange"
    if any(not 1 <= work <= machine.limit for work, _, _, turned in rows if turned):
        return "a superstep that turned has work of no tick, or past the limit"
    if any(moved > 2 * machine.nodes * machine.most_bytes for _, moved, _, _ in rows):
        return "more bytes were moved than nodes can ask for"
    if any(messages > (machine.nodes - 1) * machine.most_requests for _, _, messages, _ in rows):
        return "more messages were sent than nodes can send to another"
    if any(moved + messages and not turned for _, moved, messages, turned in rows):
        return "the last superstep has an h-relation, or messages"
    if any(work > machine.limit for work, _, _, _ in rows):
        return "the last superstep has work past the limit"
    return ""


def fault_of_report(report: Report, machine: Machine, status: int) -> str:
    """What is wrong with a report; empty if nothing is."""
    found = outcome_of(report.outcome)
    if found is None or found[0] != status:
        return f"status {status} comes with the outcome {report.outcome!r}"
    if not report.rows or report.rows[-1][3]:
        return "the last superstep made an exchange"
    ranks = found[1][:1] if report.outcome.startswith(b"refused: O") else found[1]
    if any(rank >= machine.nodes for rank in ranks) or len(set(ranks)) < len(ranks):
        return f"the outcome {report.outcome!r} names a rank that cannot be"
    if len(found[1]) > len(ranks) and found[1][1] >= machine.most_requests:
        return f"the outcome {report.outcome!r} names a request that cannot be"
    if report.outcome.startswith(b"refused: ") and b"Mismatch rank 0" in report.outcome:
        return "rank 0 differs from itself"
    return fault_of_costs(report.rows, report.total, machine)


@dataclasses.dataclass
class Superstep:
    """A superstep of a profile: the figures of its ranks, their states, and the bytes from rank to rank."""

    ranks: List[List[int]] = dataclasses.field(default_factory=list)
    states: List[str] = dataclasses.field(default_factory=list)
    moved: Dict[Tuple[int, int], int] = dataclasses.field(default_factory=dict)


def supersteps_of(text: bytes, nodes: int) -> Optional[List[Superstep]]:
    """What a profile has, if it has just the lines of one."""
    lines = text.split(b"\n")
    if lines[0] != HEAD or lines[-1] != b"":
        return None
    found: List[Superstep] = []
    for line in lines[1:-1]:
        if not is_line_of_profile(line.decode(errors="replace").split(","), found, nodes):
            return None
    return found if all(len(step.ranks) == nodes for step in found) else None


def is_line_of_profile(cells: List[str], found: List[Superstep], nodes: int) -> bool:
    """Whether a line may follow those before it, to which it is added then."""
    if len(cells) != 10 or not cells[0].isdigit() or not cells[1].isdigit():
        return False
    step, rank = int(cells[0]), int(cells[1])
    if cells[2] == "":
        if step == len(found) and rank == 0:
            found.append(Superstep())
        if step != len(found) - 1 or rank != len(found[-1].ranks) or cells[9] not in STATES:
            return False
        found[-1].ranks.append([int(cell) for cell in cells[3:9]])
        found[-1].states.append(cells[9])
        return True
    key = (rank, int(cells[2]))
    if step != len(found) - 1 or max(key) >= nodes or len(found[-1].ranks) != nodes or int(cells[4]) < 1:
        return False
    if found[-1].moved and key <= max(found[-1].moved):
        return False
    found[-1].moved[key] = int(cells[4])
    return cells[3] == "" and cells[5:] == [""] * 5


def fault_of_superstep(step: Superstep, row: Row) -> str:
    """What is wrong between a superstep of a profile and its row of the report."""
    if max(figures[0] for figures in step.ranks) != row[0]:
        return "the greatest ticks of a profile are not the work"
    if max(max(sent, received) for _, sent, received, _, _, _ in step.ranks) != row[1]:
        return "the greatest bytes of a profile are not the h-relation"
    if max(messages for _, _, _, _, messages, _ in step.ranks) != row[2]:
        return "the most messages of a profile are not those of the report"
    for rank, (_, sent, received, kept, _, _) in enumerate(step.ranks):
        given = sum(count for (source, target), count in step.moved.items() if source == rank != target)
        taken = sum(count for (source, target), count in step.moved.items() if target == rank != source)
        if (given, taken, step.moved.get((rank, rank), 0)) != (sent, received, kept):
            return f"the transfers of rank {rank} are not what it sent, received and kept"
    if row[2] and set(step.states) != {"synced"}:
        return "an exchange was made of ranks that do not wait for it"
    return ""


def fault_of_profile(text: bytes, report: Report, machine: Machine) -> str:
    """What is wrong with a profile beside the report of the same run; empty if nothing is."""
    steps = supersteps_of(text, machine.nodes)
    if steps is None or len(steps) != len(report.rows):
        return "the profile has other lines than its rules have"
    for step, row in zip(steps, report.rows):
        fault = fault_of_superstep(step, row)
        if fault:
            return fault
    return fault_of_end(steps[-1].states, report.outcome)


def fault_of_end(states: List[str], outcome: bytes) -> str:
    """What is wrong between the states of the last superstep and the outcome."""
    words = outcome.decode().split()
    stopped = [rank for rank, state in enumerate(states) if state in ("aborted", "exhausted", "faulted")]
    if words[0] == "rank":
        state = "faulted" if words[3] == "fault" else words[3]
        is_right = stopped[:1] == [int(words[1])] and states[stopped[0]] == state
    elif words[0] == "desync:":
        named = [int(words[2]), int(words[5])]
        is_right = set(states) == {"ended", "synced"} and named == [states.index("ended"), states.index("synced")]
    else:
        is_right = set(states) == {"ended" if words[0] == "ended" else "synced"}
    return "" if is_right else f"the states {states[:8]} do not lead to {outcome!r}"


def fault_of_counts(text: bytes, report: Report) -> str:
    """What is wrong with counts beside the report of the same run; empty if nothing is."""
    first, *lines = text.split(b"\n")
    found = [COUNT.fullmatch(line) for line in lines[:-1]]
    if first != b"superstep,rank,address,count" or lines[-1:] != [b""] or None in found:
        return "the counts have other lines than their rules have"
    counts = [(int(it[1]), int(it[2]), int(it[3], 16), int(it[4])) for it in found if it]
    places = [count[:3] for count in counts]
    if places != sorted(set(places)):
        return "the lines of the counts are not in their order"
    steps: Dict[int, Dict[int, int]] = {number: {} for number in range(len(report.rows))}
    for superstep, rank, _, count in counts:
        ranks = steps.setdefault(superstep, {})
        ranks[rank] = ranks.get(rank, 0) + count
    work = [max(steps[number].values(), default=0) for number in sorted(steps)]
    return "" if work == [row[0] for row in report.rows] else f"the counts add up to {work[:8]}"
