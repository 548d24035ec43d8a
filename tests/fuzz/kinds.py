"""The kinds of runs over images: ELF files, texts and raw bytes."""

from __future__ import annotations

from fuzz import images, instructions, listings, texts, ways
from fuzz.bench import Trial
from fuzz.images import Segment
from fuzz.reports import Machine

NODES = (1, 1, 2, 3, 5)
SIZES = (4096, 8192, 65_536, 1 << 20)
LIMITS = (1, 2, 20, 300)


def small_machine(trial: Trial, form: str) -> Machine:
    """A machine whose run is short."""
    chance = trial.random
    prices = [chance.choice([0, 1, 7, (1 << 32) - 1]) for _ in range(2)]
    nodes, size, limit = chance.choice(NODES), chance.choice(SIZES), chance.choice(LIMITS)
    floats, is_large, atomics = chance.randrange(2) == 0, trial.one_apart_in(3, "large"), trial.one_apart_in(2, "atomics")
    return Machine(nodes, size, limit, prices[0], prices[1], form, floats=floats, large=is_large, atomics=atomics)


def elf_file(trial: Trial) -> bytes:
    """An ELF file of some segments, which may be spoiled."""
    chance = trial.random
    segments = []
    for _ in range(chance.choice([0, 1, 1, 1, 2, 3])):
        content = instructions.code(chance, chance.choice([0, 1, 10, 30]))
        address = chance.choice([0, 0, 0, 4, 0x100, 0xFFC, 4095, 0x2000, (1 << 32) - 4, chance.randrange(1 << 13)])
        segments.append(Segment(address, content, len(content) + chance.choice([0, 0, 4, 100, 4096])))
    made = images.file_of(chance.choice([0, 0, 0, 4, 2, 1 << 20]), segments, chance.choice([0, 0, 1, 20]))
    return images.spoiled(chance, made, chance.choice([0, 1, 1, 1, 2, 4]))


def elf(trial: Trial) -> None:
    """An ELF file, spoiled or not: it is listed and run, or refused with the fault that the rules find first."""
    content = elf_file(trial)
    image = trial.file("image", content)
    found = images.image_of(content)
    listed = trial.run("list", image)
    if trial.one_in(4):
        trial.expect_that(trial.run("list", "-", stdin=image).same_as(listed), "standard input has another listing")
    machine = small_machine(trial, "elf")
    if isinstance(found, str):
        refusal = found
        trial.expect_that(listed.told == f"bspemu: image refused: {refusal}", f"the fault of the file is {refusal}")
    else:
        refusal = "SegmentOutside" if images.is_outside(found[1], machine.memory) else ""
        trial.expect_that(listed.status == 0, "the file has no fault")
        trial.expect(listings.statements_of(listed.stdout, found[1])[0])
    if refusal or isinstance(found, str):
        answer = trial.run("run", image, *machine.words(), *ways.way(trial))
        trial.expect_that(answer.told == f"bspemu: image refused: {refusal}", f"the refusal has to be {refusal}")
    else:
        go_on(trial, image, machine, found)


def go_on(trial: Trial, image: str, machine: Machine, loaded: ways.Image) -> None:
    """Runs an image that fits, and now and then debugs it."""
    run = ways.run_in_ways(trial, image, machine, loaded)
    if run and trial.one_in(3):
        ways.debug_to_end(trial, image, machine, run, b"")


def raw(trial: Trial) -> None:
    """An image without headers: its listing is assembled again, and it runs."""
    content = instructions.code(trial.random, trial.random.choice([0, 1, 5, 40, 200]))
    image = trial.file("image", content)
    listed = trial.run("list", image, "--format", "raw")
    fault, _ = listings.statements_of(listed.stdout, [Segment(0, content, len(content))])
    trial.expect(fault)
    if not fault:
        text = trial.file("text", listings.text_of(listed.stdout))
        again = trial.run("list", text, "--format", "asm")
        trial.expect_that(again.same_as(listed), "a listing that is assembled has other bytes")
    go_on(trial, image, small_machine(trial, "raw"), (0, [Segment(0, content, len(content))]))


def text(trial: Trial) -> None:
    """A text: it is listed, saved, listed again and run, or refused each time with the same line."""
    make = trial.chosen((4, texts.text_of_lines), (3, texts.text_of_tokens), (2, texts.text_of_listing))
    content = make(trial.random)
    name = trial.file("text", content)
    trial.file("image", b"what stood there before")
    listed = trial.run("list", name, "--format", "asm")
    saved = trial.run("asm", name, "image")
    image = trial.read("image") or b""
    if saved.status != 0:
        trial.expect_that(listed.stderr == saved.stderr, f"the listing is refused with {listed.told!r}")
        trial.expect_that(image == b"" and make is not texts.text_of_listing, "an image was saved, or a good text refused")
        trial.expect(fault_of_line(saved.told, content))
        answer = trial.run("run", name, "--format", "asm", *ways.way(trial))
        trial.expect_that(answer.stderr == saved.stderr, "a run is refused with another line")
        return
    trial.expect_that(trial.run("list", "image").same_as(listed), "the saved image has another listing")
    found = images.image_of(image)
    trial.expect_that(not isinstance(found, str) and image == images.file_of(*found), "the saved image is spelled in another way")
    if not isinstance(found, str):
        fault, statements = listings.statements_of(listed.stdout, found[1])
        trial.expect(fault)
        if make is texts.text_of_listing:
            trial.expect_that(b"\n".join(statements) + b"\n" == content, "the listing is not the text")
        run_both(trial, found)


def run_both(trial: Trial, loaded: ways.Image) -> None:
    """Runs a text and its saved image, which have the same run."""
    machine = small_machine(trial, "asm")
    if images.is_outside(loaded[1], machine.memory):
        return
    ways.run_in_ways(trial, "text", machine, loaded, 0)
    words = machine.words()
    asm = trial.run("run", "text", *words, "--report")
    words[words.index("asm")] = "elf"
    trial.expect_that(trial.run("run", "image", *words, "--report").same_as(asm), "the saved image has another run")


def fault_of_line(told: str, content: bytes) -> str:
    """What is wrong with the line that a refusal names."""
    words = told.split()
    if words[:2] != ["bspemu:", "line"]:
        return f"a text is refused with {told!r}"
    return "" if int(words[2].rstrip(":")) <= content.count(b"\n") + 1 else "the refusal names a line that is not there"
