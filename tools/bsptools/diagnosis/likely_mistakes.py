"""Likely mistakes of a run, also of one that succeeds."""

from __future__ import annotations

import itertools

from ..framed.backtrace import unwound, written
from ..framed.environment_calls import GETS, MOVE, PUSH, PUTS, QSIZE, REQUESTS, SEND, TAGSIZE, TAKES, Call, Tracer
from ..framed.replays import MOST_STOPS
from ..framed.superstep_calls import TRACED, Finding, Landing, SuperstepCalls, landings_in
from ..outputs.report import Report
from ..program.variables import element_of, is_pointer
from ..refusals import counted
from .early_reads import early_reads

MOST_TOLD = 5
# For how many seconds of the debugger calls are looked for, of all ranks, and of one at the least.
TRACE_SECONDS, LEAST_SECONDS = 0.6, 0.05
# How many calls of messages and puts are looked at for addresses.
MOST_SITES = 16
# The bytes of numbers, and those of a word: a number of more may stand at any word.
SIZES, WORD = (2, 4, 8), 4


def warnings(
    trace: Tracer, nodes: int, report: Report, others: dict[str, list[str]], are_offsets_told: bool = False, is_brief: bool = False,
    is_warned: bool = False
) -> list[str]:  # fmt: skip
    """Lines of what was found, by `others` too, and a last one of what was looked for and not found; in brief, where nothing was found, nor
    the compiler has warned."""
    trace.replays.most_seconds = max(TRACE_SECONDS / nodes, LEAST_SECONDS)
    steps = SuperstepCalls(trace, nodes)
    last = report.supersteps[-1].number
    is_cut = steps.known is not None
    if steps.known is not None:
        last = min(last, steps.known)
    met = meeting(steps, last)
    early_targets, are_all_looked_at = early_reads(steps, last)
    found: dict[str, list[Finding]] = {
        "requests without effect": pending(steps, last) if report.outcome == "ended" and not is_cut else [],
        "areas in different orders": [] if are_offsets_told else other_order(steps, last),
        "puts that meet": met,
        "offsets that are not a multiple of a word": [] if are_offsets_told else crooked(steps, last, met),
        "targets of gets read too early": early_targets,
        "messages read too late": late(steps, last),
        "messages read too early": before_they_come(steps, last),
        "messages counted too early": counted_before_they_come(steps, last),
        "addresses sent to other ranks": addresses(steps, last),
        "tags of a size not yet in effect": early(steps, last),
    }
    texts, left = first_of_each(steps, list(found.values()))
    texts += [it for several in others.values() for it in several]
    more = [f"  and {left} more"] if left else []
    if is_cut:
        more.append(f"  only the first {counted(last, 'superstep')} were checked, because the run is long")
    if not steps.is_whole:
        more.append(f"  only the first {MOST_STOPS} calls of a rank were checked")
    if not are_all_looked_at:
        more.append("  and not all instructions after gets were checked")
    absent = [name for name, several in [*found.items(), *others.items()] if not several]
    absent = [it for it in absent if not are_offsets_told or not it.startswith(("offsets", "areas"))]
    if is_brief:
        is_right = report.outcome == "ended" and not (texts or are_offsets_told or is_warned)
        none = ["bsprun: nothing in this run looks like a mistake"] if is_right else []
        return [f"bsprun: warning: {it}" for it in texts] + more + none
    last_line = [f"bsprun: checked for other likely mistakes, and found none: {', '.join(absent)}"] if absent else []
    return [f"bsprun: warning: {it}" for it in texts] + more + last_line


def first_of_each(steps: SuperstepCalls, kinds: list[list[Finding]]) -> tuple[list[str], int]:
    """The texts of the first findings, of each kind in its turn, so that none hides another, and of ranks that do the same in one place the
    first; and how many are left."""
    parted = [alike(several) for several in kinds]
    turns = [it for several in itertools.zip_longest(*parted) for it in several if it is not None]
    shown = turns[: max(MOST_TOLD, sum(map(bool, kinds)))]
    texts = []
    for same in (it for several in parted for it in several if any(it is one for one in shown)):
        more = len({ranks_of(it) for it in same}) - 1
        texts.append("".join(map(steps.told, same[0])) + (f"; the same on {counted(more, 'more rank')}" if more else ""))
    return texts, len(turns) - len(shown)


def ranks_of(finding: Finding) -> tuple[int, ...]:
    """The ranks that a finding tells of."""
    return tuple(it[0] for it in finding if not isinstance(it, str))


def alike(findings: list[Finding]) -> list[list[Finding]]:
    """Findings of one kind, those together that tell of the same places in the code."""
    found: dict[tuple[tuple[int, int], ...], list[Finding]] = {}
    for finding in findings:
        key = tuple((it[1].node.pc, it[1].node.x[1]) for it in finding if not isinstance(it, str))
        found.setdefault(key, []).append(finding)
    return list(found.values())


def pending(steps: SuperstepCalls, last: int) -> list[Finding]:
    """The requests of the last superstep, which come to nothing, the first of each rank."""
    found: list[Finding] = []
    for rank in range(steps.nodes):
        calls = [it for it in steps.of(rank, last) if it.number in REQUESTS]
        if calls:
            begin = f"the requests of superstep {last} have no effect, because no bsp_sync follows: {len(calls)} of rank {rank}"
            found.append([f"{begin}, the first of ", (rank, calls[0])])
    return found


def other_order(steps: SuperstepCalls, last: int) -> list[Finding]:
    """Registrations that a rank makes of the same addresses as rank 0, but in another order."""
    found: list[Finding] = []
    for superstep in range(last + 1):
        first = [it for it in steps.of(0, superstep) if it.number == PUSH]
        for rank in range(1, steps.nodes):
            calls = [it for it in steps.of(rank, superstep) if it.number == PUSH]
            here, there = [it.area for it in calls], [it.area for it in first]
            if here != there and sorted(here) == sorted(there):
                at = next(i for i, (a, b) in enumerate(zip(here, there)) if a != b)
                one, other = (written(steps.trace.code, it[at].area) for it in (calls, first))
                begin = f"areas are pushed in another order in superstep {superstep}: {one} by "
                found.append([begin, (rank, calls[at]), f", and {other} by ", (0, first[at])])
    return found


def meeting(steps: SuperstepCalls, last: int) -> list[Finding]:
    """Puts of one superstep that write the same byte and are neighbours by their first bytes, each pair of places once."""
    found: list[Finding] = []
    told = set()
    for superstep, landings in landings_in(steps, last, PUTS):
        for (target, one), (other_target, other) in zip(landings, landings[1:]):
            key = (one.call.node.pc, one.call.node.x[1], other.call.node.x[1])
            if target == other_target and other.start < one.end and key not in told:
                told.add(key)
                begin = f"two puts of superstep {superstep} write byte {other.start:#x} of rank {target}: that of "
                found.append([begin, (one.rank, one.call), ", and that of ", (other.rank, other.call), counted_in_bytes(one, other)])
    return found


def counted_in_bytes(one: Landing, other: Landing) -> str:
    """What is likely where two puts of as many bytes meet in a part of them: an index in the place of an offset."""
    size, offsets = one.end - one.start, [it.call.operand("offset") for it in (one, other)]
    if other.end - other.start != size or all(it % size == 0 for it in offsets):
        return ""
    return f"; offset {max(offsets)} is not a multiple of the {size} bytes of a put: offsets count bytes"


def crooked(steps: SuperstepCalls, last: int, met: list[Finding]) -> list[Finding]:
    """Puts and gets of as many bytes as a number has, from or to where one may stand, at an offset where none may; each place once. Of puts
    that meet it is told there."""
    told = {it[1].node.x[1] for finding in met if finding[-1] for it in finding if not isinstance(it, str)}
    found: list[Finding] = []
    for superstep, rank in itertools.product(range(last), range(steps.nodes)):
        for call in (it for it in steps.of(rank, superstep) if it.number in (*PUTS, *GETS)):
            size, offset, back = call.operand("nbytes"), call.operand("offset"), call.node.x[1]
            own = call.operand("src" if call.number in PUTS else "dst")
            is_odd = size in SIZES and own % min(size, WORD) == 0 and offset % min(size, WORD) != 0
            if is_odd and back not in told and not is_of_bytes(steps, call):
                told.add(back)
                begin = f"offset {offset} is not a multiple of the {size} bytes that are moved in superstep {superstep} by "
                found.append([begin, (rank, call), ": offsets count bytes"])
    return found


def is_of_bytes(steps: SuperstepCalls, call: Call) -> bool:
    """Whether a call names an area that is a variable of the program with elements of one byte."""
    known = steps.trace.code.described()
    variable = known.at(call.area, []) if known is not None else None
    element = element_of(variable.kind) if variable is not None else None
    return element is not None and element.size == 1


def late(steps: SuperstepCalls, last: int) -> list[Finding]:
    """Takings of messages if none is left, one superstep after some were left in the queue, the first of each rank."""
    found: list[Finding] = []
    for rank in range(steps.nodes):
        left = 0
        for superstep in range(1, last + 1):
            came = len(steps.sent_to(rank, superstep - 1))
            takes = [it for it in steps.of(rank, superstep) if it.number in TAKES]
            moves = [i for i, it in enumerate(takes) if it.number == MOVE]
            behind = moves[came - 1] + 1 if 0 < came <= len(moves) else 0 if came == 0 else len(takes)
            if left > 0 and behind < len(takes):
                begin = f"a message is read in superstep {superstep} although none is left, by "
                end = f": {left} of superstep {superstep - 1} were not read there and are lost"
                found.append([begin, (rank, takes[behind]), end])
                break
            left = max(came - len(moves), 0)
    return found


def before_they_come(steps: SuperstepCalls, last: int) -> list[Finding]:
    """Takings of messages if none is left, in a superstep in which some are sent to this rank that are not read when they have come; the
    first of each rank."""
    found: list[Finding] = []
    for rank in range(steps.nodes):
        came: list[Call] = []
        for superstep in range(last + 1):
            sent = steps.sent_to(rank, superstep)
            moves = [it for it in steps.of(rank, superstep) if it.number == MOVE]
            later = [it for it in steps.of(rank, superstep + 1) if it.number in TAKES]
            if len(moves) > len(came) and sent and not later:
                begin = f"a message is read in superstep {superstep}, in which it is sent, by "
                end = f": it arrives with the next bsp_sync, but after that none of {len(sent)} is read"
                found.append([begin, (rank, moves[len(came)]), end])
                break
            came = sent
    return found


def counted_before_they_come(steps: SuperstepCalls, last: int) -> list[Finding]:
    """Questions how many messages there are if there are none, in a superstep in which some are sent to this rank, which neither asks
    again nor reads when they have come; the first of each rank."""
    found: list[Finding] = []
    for rank in range(steps.nodes):
        came = 0
        for superstep in range(last):
            asked = next((it for it in steps.of(rank, superstep) if it.number == QSIZE), None)
            sent = len(steps.sent_to(rank, superstep))
            later = [it for it in steps.of(rank, superstep + 1) if it.number in (*TAKES, QSIZE)]
            if asked is not None and came == 0 and sent and not later:
                begin = f"bsp_qsize is called in superstep {superstep}, before the bsp_sync that brings {counted(sent, 'message')}, by "
                found.append([begin, (rank, asked), ", which asks for none after it"])
                break
            came = sent
    return found


def addresses(steps: SuperstepCalls, last: int) -> list[Finding]:
    """Puts and messages to other ranks whose bytes are pointers by the type of their variable, each place once."""
    found: list[Finding] = []
    seen: set[tuple[int, int]] = set()
    known = steps.trace.code.described()
    if known is None:
        return []
    for superstep, rank in itertools.product(range(last), range(steps.nodes)):
        for call in steps.of(rank, superstep):
            key = (call.node.pc, call.node.x[1])
            size = call.operand("payload_nbytes" if call.number == SEND else "nbytes") if call.number in (*PUTS, SEND) else 0
            if size < WORD or size % WORD or call.operand("pid") == rank or key in seen or len(seen) >= MOST_SITES:
                continue
            seen.add(key)
            node = steps.trace.node_of(rank, TRACED, 0, call._replace(superstep=superstep))
            own = call.operand("payload" if call.number == SEND else "src")
            variable = known.at(own, unwound(steps.trace.code, node)[1]) if node is not None else None
            if variable is not None and is_pointer(variable.kind):
                begin = f"an address is sent to another rank in superstep {superstep}, {variable.part(own)} of "
                found.append([begin, (rank, call), ": it is valid only in the memory of this rank, so send the data instead"])
    return found


def early(steps: SuperstepCalls, last: int) -> list[Finding]:
    """Messages behind a call that sets another tag size in the same superstep, the first of each rank."""
    found: list[Finding] = []
    for rank in range(steps.nodes):
        size = 0
        for superstep in range(last + 1):
            calls = steps.of(rank, superstep)
            sets = [i for i, it in enumerate(calls) if it.number == TAGSIZE]
            if not sets:
                continue
            next_size = steps.tag_size(rank, calls[sets[-1]])
            sends = [it for it in calls[sets[-1] :] if it.number == SEND]
            if sends and next_size != size:
                begin = f"a message is sent in superstep {superstep}, which sets the tag size, by "
                found.append([begin, (rank, sends[0]), f": its tag still has {size} bytes, and {next_size} from the next superstep on"])
                break
            size = next_size
    return found
