"""Random command lines, and the result that the rules give for those that they decide."""

from __future__ import annotations

import dataclasses
import random
from typing import Dict, List, Optional, Sequence

from fuzz import images, instructions
from fuzz.bench import Trial, Word
from fuzz.images import Segment

GOOD = {"nodes": ["1", "2", "3", "007", "1024"], "memory": ["4096", "8192", "1048576", "16777216"],
        "limit": ["1", "10", "100", "1099511627776"], "workers": ["1", "2", "64"], "g": ["0", "1", "4294967295"],
        "l": ["0", "2", "4294967295"], "slice": ["1", "65536", "1048576"]}
REFUSED = {"nodes": ["0", "1025", "4294967295"], "memory": ["0", "4095", "4097", "16781312", "4294967295"],
           "limit": ["0", "1099511627777", "18446744073709551615"], "workers": ["0", "65", "4294967295"], "slice": ["0", "1048577"]}
# Of a large machine, what stands in the place of these.
GOOD_LARGE = {"nodes": ["1", "2", "007", "1025"], "memory": ["4096", "8192", "1048576", "16781312"]}
REFUSED_LARGE = {"nodes": ["0", "65537", "4294967295"], "memory": ["0", "4095", "4097", "2147487744", "4294967295"]}
# What no parser takes for a number of these options' types.
NO_NUMBERS: List[Word] = ["", "x", "1.5", "0x1", "1e3", " 1", "1 ", "-1", "18446744073709551616", "9" * 60, "--", "\u0661", b"\xff\xfe"]
ORDER = ("nodes", "memory", "limit", "workers", "slice")
NAMES = {"nodes": "BadNodes", "memory": "BadMemory", "limit": "BadLimit", "workers": "BadWorkers", "slice": "BadSlice"}
OPTIONS: Dict[str, List[str]] = {"run": ["nodes", "memory", "limit", "g", "l", "workers"],
                                 "debug": ["nodes", "memory", "limit", "g", "l"], "list": [], "asm": []}
GARBAGE: List[Word] = ["--nod", "--unknown", "-x", "--report=1", "--format=coff", "-", "--", "", "a b", "--nodes", "--input", b"\xff",
                       "-n3", "--help", "-h", "--version", "-V", "help", "run", "--profile=", "--interactive", "\n", "%s", "--nodes=+1"]
# What stands in the place of an image: what it is, and what its opening or reading gives.
IMAGES = {"image": "", "absent": "cannot open absent", "folder": "read failed", "empty": "image refused: NotElf",
          "folder/absent": "cannot open folder/absent", "image/x": "cannot open image/x", "text": "image refused: NotElf"}


@dataclasses.dataclass
class Line:
    """A command line whose words are all taken, or one that is refused for a word."""

    subcommand: str
    words: List[Word] = dataclasses.field(default_factory=list)
    values: Dict[str, str] = dataclasses.field(default_factory=dict)
    is_refused: bool = False
    is_large: bool = False
    image: str = "image"
    input: Optional[str] = None
    beside: Optional[str] = None  # the file of a profile, of counts, of what is contested or exposed
    tells: str = ""  # which of these


def option(chance: random.Random, name: str, given: Word) -> List[Word]:
    """An option with its value, in one word or in two."""
    if isinstance(given, bytes):
        return [f"--{name}", given]
    return [f"--{name}={given}"] if chance.randrange(3) == 0 else [f"--{name}", given]


def line(chance: random.Random, has_slice: bool, is_large: bool) -> Line:
    """A command line that is right but for some values."""
    made = Line(chance.choice(["run", "run", "run", "debug", "debug", "list"]))
    made.is_large = is_large and made.subcommand != "list"
    parts: List[List[Word]] = [["--large"]] * made.is_large
    good, refused = (dict(GOOD, **GOOD_LARGE), refused_by(True)) if made.is_large else (GOOD, REFUSED)
    rate = chance.choice([0, 3, 3, 12])
    for name in OPTIONS[made.subcommand] + (["slice"] if has_slice and made.subcommand == "run" else []):
        if chance.randrange(2):
            continue
        kind = chance.choice(["refused", "none"]) if rate and chance.randrange(rate) == 0 else "good"
        values: Dict[str, Sequence[Word]] = {"good": good[name], "refused": refused.get(name, good[name]), "none": NO_NUMBERS}
        given = chance.choice(values[kind])
        made.is_refused |= kind == "none"
        made.values[name] = given if isinstance(given, str) else ""
        parts.append(option(chance, name, given))
    files(chance, made, parts)
    if chance.randrange(12) == 0 and parts:
        parts.append(list(chance.choice(parts)))
        made.is_refused = True
    made.image = chance.choice(["image"] * 6 + sorted(IMAGES))
    parts.append([made.image])
    chance.shuffle(parts)
    made.words = [made.subcommand, *(word for part in parts for word in part)]
    return made


def refused_by(is_large: bool) -> Dict[str, List[str]]:
    """The values of options that a machine is refused for."""
    return dict(REFUSED, **REFUSED_LARGE) if is_large else REFUSED


def files(chance: random.Random, made: Line, parts: List[List[Word]]) -> None:
    """Gives a command line the names of files beside that of the image."""
    if made.subcommand == "list":
        return
    if chance.randrange(4) == 0:
        made.input = chance.choice(["image", "empty", "absent", "folder", "-", "text"])
        parts.append(option(chance, "input", made.input))
    if made.subcommand == "run" and chance.randrange(4) == 0:
        made.beside = chance.choice(["profile", "profile", "image", "./image", "folder", "folder/profile", "absent/profile"])
        made.tells = chance.choice(["profile", "counts", "contested", "exposed"])
        parts.append(option(chance, made.tells, made.beside))
    if made.subcommand == "run" and chance.randrange(6) == 0:
        parts.append(["--live"])
        made.is_refused |= made.beside is not None
    if made.subcommand == "run" and chance.randrange(3) == 0:
        parts.append(["--report"])


def refusal_of(made: Line) -> str:
    """The line on standard error that is due, without its first word and colon; empty if nothing is refused."""
    if IMAGES[made.image].startswith("cannot"):
        return IMAGES[made.image]
    if made.input in ("absent", "-"):
        return f"cannot open {made.input}"
    if made.is_large and made.tells == "profile" and int(made.values.get("nodes", "1")) > 1024:
        return "a run with a profile has at most 1024 nodes"
    if made.beside in ("folder", "absent/profile") or is_read(made):
        return f"cannot open {made.beside}"
    for name in ORDER:
        if made.values.get(name) in refused_by(made.is_large)[name]:
            return f"settings refused: {NAMES[name]}"
    if IMAGES[made.image] == "read failed" or made.input == "folder":
        return "read failed"
    return IMAGES[made.image]


def is_read(made: Line) -> bool:
    """Whether the file beside the output is the image or the input."""
    if made.beside is None:
        return False
    name = made.beside[2:] if made.beside.startswith("./") else made.beside
    return name in (made.image, made.input)


def prepare(trial: Trial) -> bytes:
    """Makes the files that command lines name, and gives the bytes of the image."""
    content = b"".join(word.to_bytes(4, "little") for word in instructions.RANKS)
    image = images.file_of(0, [Segment(0, content, len(content))])
    for name, made in (("image", image), ("empty", b""), ("text", b"nop\n")):
        trial.file(name, made)
    trial.folder("folder")
    return image


def command_line(trial: Trial) -> None:
    """A command line is refused for its first fault in the order of the work, or does what it asks for."""
    image = prepare(trial)
    if trial.one_in(3):
        disorder(trial)
        return
    made = line(trial.random, trial.bench.has_slice, trial.one_apart_in(3, "large"))
    answer = trial.run(*made.words)
    if made.is_refused:
        trial.expect_that(answer.status == 1 and answer.stderr.startswith(b"error: "), "the words are not refused")
        return
    due = refusal_of(made)
    if due:
        trial.expect_that(answer.stderr == f"bspemu: {due}\n".encode(), f"{due!r} is due")
    else:
        trial.expect_that(answer.status in (0, 3), "nothing is wrong with the words")
    if made.beside not in ("image", "./image"):
        trial.expect_that(trial.read("image") == image or is_emptied(made), "the image has changed")


def is_emptied(made: Line) -> bool:
    """Whether what stands beside the output may be in the image's file: where neither image nor input is read from it."""
    return made.beside is not None and made.beside.endswith("image")


def disorder(trial: Trial) -> None:
    """A command line of any words."""
    chance = trial.random
    names: List[Word] = [*(f"--{name}" for name in GOOD), "--format", "--report", "--input"]
    pools: List[List[Word]] = [["run", "list", "asm", "debug", "help"], names, ["1", "2", "elf", "raw", "asm", "image", "text"], GARBAGE]
    words: List[Word] = [chance.choice(chance.choice(pools)) for _ in range(chance.randrange(7))]
    if chance.randrange(2):
        words.insert(0, chance.choice(["run", "list", "debug", "asm"]))
    answer = trial.run(*words)
    if answer.status == 0 and is_help(words):
        trial.expect_that(b"Usage: bspemu" in answer.stdout or answer.stdout.startswith(b"bspemu "), "the help has no usage")


def is_help(words: List[Word]) -> bool:
    """Whether words ask for help and for nothing else."""
    return words[:1] == ["help"] or words[-1:] in (["--help"], ["-h"])
