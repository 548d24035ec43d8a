"""The choices of a run as `--order` spells them, and a job that makes them.

A text has parts with a + between: each is what is chosen, a colon, how, and at the end a point behind an @, up to which it is, where it is
not everywhere.
"""

from __future__ import annotations

import pathlib
import re
from collections.abc import Sequence

from .. import emulator
from ..limits import WORKERS
from ..prepare.job import Job
from ..prepare.library_choices import EARLY, EVERYWHERE, LATE, MOST_CUTS, NUMBERED, REVERSED, SHUFFLED, WORD, Choices, Cut, Point, image_with
from ..program.code import Code, read_elf
from ..refusals import Refused
from . import final_variables
from .contested_pairs import pairs
from .trial_runs import Subject, Trials

FORMS = "messages:reversed, messages:shuffle:SEED, messages:order:N, unbuffered:early, unbuffered:late, malloc:BYTE, memory:BYTE, queue:BYTE," \
    " addresses:apart, begin:alone, puts:reversed or puts:PAIR, with a + between those that go together"  # fmt: skip
ORDERS = {"reversed": REVERSED, "shuffle": SHUFFLED, "order": NUMBERED}
# All pairs of lines that contest bytes.
ALL = -1


def spelled(choices: Choices, pair: int | None = None) -> str:
    """The text of choices, and of a pair of lines whose puts and gets land in the other order."""
    parts = []
    if choices.order:
        name = next(it for it, order in ORDERS.items() if order == choices.order)
        parts.append(f"messages:{name}" + (f":{choices.seed}" if choices.order != REVERSED else ""))
    if choices.unbuffered:
        parts.append(f"unbuffered:{'early' if choices.unbuffered == EARLY else 'late'}")
    if choices.heap:
        parts.append(f"{'memory' if choices.stack else 'malloc'}:{choices.heap:#04x}")
    if choices.queue:
        parts.append(f"queue:{choices.queue:#04x}")
    parts += ["addresses:apart"] if choices.is_moved else []
    parts += ["begin:alone"] if choices.is_alone else []
    parts += [f"puts:{pair}"] if pair is not None else []
    point = "" if choices.until == EVERYWHERE else f"@{'/'.join(map(str, choices.until))}"
    return "+".join(parts) + point


def choices_of(text: str) -> tuple[Choices, list[int]]:
    """The choices of a text, and the pairs of lines whose puts and gets land in the other order, from 1 on."""
    body, at, point = text.partition("@")
    choices, turned = Choices(), []
    for part in body.split("+"):
        what, _, how = part.partition(":")
        name, _, number = how.partition(":")
        if what == "messages" and name in ORDERS and (not number if name == "reversed" else is_number(number)):
            choices = choices._replace(order=ORDERS[name], seed=int(number or 0) & WORD)
        elif part in ("unbuffered:early", "unbuffered:late"):
            choices = choices._replace(unbuffered=EARLY if how == "early" else LATE)
        elif part in ("addresses:apart", "begin:alone"):
            choices = choices._replace(is_moved=choices.is_moved or what == "addresses", is_alone=choices.is_alone or what == "begin")
        elif what in ("malloc", "memory", "queue") and re.fullmatch("0x[0-9a-fA-F]{1,2}|[1-9][0-9]{0,2}", how) and 1 <= int(how, 0) <= 255:
            byte = int(how, 0)
            heap, stack = (byte if what != "queue" else choices.heap), (byte if what == "memory" else choices.stack)
            choices = choices._replace(heap=heap, stack=stack, queue=byte if what == "queue" else choices.queue)
        elif what == "puts" and (how == "reversed" or (is_number(how) and int(how) > 0)):
            turned.append(ALL if how == "reversed" else int(how))
        else:
            raise Refused(f"--order takes {FORMS}; {part!r} is not one of these")
    if at:
        numbers = point.split("/")
        if len(numbers) != 3 or not all(map(is_number, numbers)):
            raise Refused(f"--order takes a superstep, a rank and a number after @, such as @1/0/2, and not {point!r}")
        choices = choices._replace(until=Point(*(int(it) & WORD for it in numbers)))
    return choices, turned


def is_number(text: str) -> bool:
    """Whether a text has the digits of a number, and not too many."""
    return re.fullmatch("[0-9]{1,19}", text) is not None


def with_order(job: Job, folder: pathlib.Path) -> Job:
    """A job of a program that takes choices, with those of --order."""
    with emulator.Runs() as runs:
        return ordered(job, folder, runs)


def ordered(job: Job, folder: pathlib.Path, runs: emulator.Runs) -> Job:
    """The same with what makes runs."""
    choices, turned = choices_of(job.options.order)
    job.options.workers = getattr(job.options, "workers", WORKERS)
    subject = Subject(job.options, job.program, job.code, job.settings, folder, b"", runs)
    trials = Trials(subject, job.content, read_elf(job.content), job.options.limit)
    if turned and choices.is_alone:
        raise Refused("--order takes begin:alone or an order of puts, but not both")
    if turned:
        choices = choices._replace(cuts=tuple(cuts_of(trials, choices, turned)[:MOST_CUTS]))
    if choices.is_alone:
        choices = choices._replace(cuts=variables_of(trials.code))
    whole = job._replace(content=image_with(job.content, trials.with_memory(choices)))
    memory = min(job.options.memory + trials.room, trials.most_memory)
    job.settings[job.settings.index("--memory") + 1] = str(memory)
    if job.mark:
        whole.set(0, getattr(job.options, "fill", None))
        return whole
    image = folder / "ordered.elf"
    image.write_bytes(whole.content)
    whole.settings[0] = str(image)
    return whole._replace(image=image)


def variables_of(code: Code) -> tuple[Cut, ...]:
    """Where the variables of a program lie that ranks above 0 have at bsp_begin as at the start."""
    return tuple(Cut(0, 0, 0, *it) for it in final_variables.ranges_of(final_variables.of_program(code.know_names()))[:MOST_CUTS])


def cuts_of(trials: Trials, choices: Choices, turned: Sequence[int]) -> list[Cut]:
    """What has pairs of lines land in the other order in a run."""
    trials.run_all([choices], is_contested=True)
    made = pairs(trials.contested[choices].rows, trials.log(choices))
    if max(turned) > len(made):
        raise Refused(f"--order names pair {max(turned)} of lines that contest bytes, but there are {len(made)}")
    return [cut for at, pair in enumerate(made, 1) if at in turned or ALL in turned for cut in pair.cuts]
