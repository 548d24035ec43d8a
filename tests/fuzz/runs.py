"""The kinds of runs over programs of several nodes, and over the debugger's commands."""

from __future__ import annotations

import dataclasses
from typing import Tuple

from fuzz import dialogues, images, programs, ways
from fuzz.bench import Trial
from fuzz.reports import Machine

# Bytes of address space at the least. With fewer than some 3 MiB the program itself does not start.
LEAST = 4 << 20
MOST_LINES = 1 << 20


def made(trial: Trial) -> Tuple[str, Machine]:
    """A program as a text, and a machine for it."""
    chance = trial.random
    clock, floats, atomics = chance.randrange(3) == 0, trial.one_apart_in(4), trial.one_apart_in(3, "atomics")
    is_large = trial.one_apart_in(3, "large")
    found = programs.program(chance, clock, floats, atomics)
    limit = chance.choice([3000, 3000, 3000, 3000, 20_000, chance.randint(1, 300)])
    g, l = (chance.choice([0, 1, 3, (1 << 32) - 1]) for _ in range(2))
    given = trial.file("input", bytes(chance.randrange(256) for _ in range(100))) if chance.randrange(2) else ""
    machine = Machine(found.nodes, found.memory, limit, g, l, "asm", given, clock, floats, atomics, is_large)
    return trial.file("text", found.text), machine


def program(trial: Trial) -> None:
    """A program is run in several ways, with a profile, from its saved image, and by a debugger."""
    text, machine = made(trial)
    saved = trial.run("asm", text, "image")
    loaded = images.image_of(trial.read("image") or b"")
    if saved.status != 0 or isinstance(loaded, str):
        return trial.expect("a good text is not saved")
    run = ways.run_in_ways(trial, text, machine, loaded, 2)
    if run is None:
        return None
    more = trial.random.randrange(3)
    if more == 0:
        ways.run_profiled(trial, text, machine, run.report)
        ways.run_counted(trial, text, machine, run.report)
    elif more == 1:
        told, again = (
            trial.run("run", image, *dataclasses.replace(machine, format=form).words(), "--report")
            for image, form in ((text, "asm"), ("image", "elf"))
        )
        trial.expect_that(told.same_as(again), "the saved image has another run")
    else:
        lines = [dialogues.line(trial.random, machine) for _ in range(trial.random.randrange(20))]
        lines = [line for line in lines if dialogues.asked(line) != dialogues.Asked(b"quit", ())]
        ways.debug_to_end(trial, text, machine, run, b"".join(line + b"\n" for line in lines))
    return None


def debugger(trial: Trial) -> None:
    """A script is answered line by line, and the same in a dialogue, which has more lines. Some nodes have units of floating point."""
    text, machine = made(trial)
    machine = dataclasses.replace(machine, floats=machine.floats or trial.one_in(3))
    script = dialogues.script(trial.random, machine, dialogues.SPOKEN if trial.one_in(2) else dialogues.FORMS)
    if trial.one_in(100):
        script = script[: MOST_LINES] + b" " * (MOST_LINES - len(script) + trial.random.choice([0, 1]))
    lines = trial.file("lines", script)
    plain = trial.run("run", text, *machine.words())
    answer = trial.run("debug", text, *machine.words(), stdin=lines)
    said = trial.run("debug", text, *machine.words(), "--interactive", stdin=lines)
    if len(script) > MOST_LINES:
        trial.expect_that(answer.told == "bspemu: too long", "a script that is too long is answered")
        return
    trial.expect_that(answer.status == 0, f"a script ends with status {answer.status}")
    trial.expect_that(said.status == 0, f"a dialogue ends with status {said.status}")
    trial.expect(dialogues.fault_of(machine, plain.stdout, script, answer.stdout))
    trial.expect(dialogues.fault_of(machine, plain.stdout, script, said.stdout, is_dialogue=True))
    trial.expect(dialogues.parting(machine, plain.stdout, script, answer.stdout, said.stdout))


def little_space(trial: Trial) -> int:
    """So many bytes of address space that memory may be refused anywhere."""
    return LEAST + trial.random.choice([0, 0, 1, 2, 4, 16]) * (1 << 20) + trial.random.randrange(1 << 20)


def starved(trial: Trial) -> None:
    """The program has little address space: memory is refused and nothing is written, or it ends as with much."""
    kinds = [starved_run, starved_run, starved_debugger, starved_assembler]
    trial.random.choice(kinds)(trial, little_space(trial))


def starved_run(trial: Trial, space: int) -> None:
    """A run of one thread, since threads come and go by the clock."""
    text, machine = made(trial)
    if trial.one_in(3):
        machine = dataclasses.replace(machine, nodes=trial.random.choice([64, 1024]), memory=1 << 24)
    ample, short = (trial.run("run", text, *machine.words(), "--report", space=limit) for limit in (0, space))
    trial.expect_that(short.status == 5 or short.same_as(ample), "little memory gives another answer")


def starved_debugger(trial: Trial, space: int) -> None:
    """A script whose replies are long: those that come before memory is refused are the same."""
    text, machine = made(trial)
    lines = trial.file("lines", b"phase\nbytes 0 0 4096\nbytes 0 0 %d\nturn\nregs 0\n" % machine.memory)
    ample, short = (trial.run("debug", text, *machine.words(), stdin=lines, space=limit) for limit in (0, space))
    is_begun = short.status == 5 and ample.stdout.startswith(short.stdout)
    trial.expect_that(is_begun or short.same_as(ample), "little memory gives other replies")


def starved_assembler(trial: Trial, space: int) -> None:
    """A text of many bytes is saved: the image's file has all of them or none."""
    count = trial.random.choice([1, 4096, 1 << 20, 3 << 20, 1 << 24])
    text = trial.file("text", b".space %d\nnop\n" % (count - 4 * (count == 1 << 24)))
    ample = trial.run("asm", text, "image")
    short = trial.run("asm", text, "less", space=space)
    trial.expect_that(ample.status == 0, "a good text is not saved")
    wanted = b"" if short.status == 5 else trial.read("image")
    trial.expect_that(trial.read("less") == wanted, "little memory gives another image")
