"""The programs of a sweep, compiled once for each choice of their constants."""

from __future__ import annotations

import argparse
import itertools
import os
import pathlib
import re
import subprocess
from collections.abc import Mapping
from typing import NamedTuple

from .. import children, emulator
from ..files import content_of, put
from ..limits import MOST_PROGRAM
from ..program.code import kind_of
from ..refusals import Refused, counted, lines_of, tell
from ..sealed_results import digest
from . import result_folders


# A name in what GCC says of the files that a program is made of, and what is escaped in it.
DEPENDENCY, ESCAPED = re.compile(rb"(?:\\.|[^\s\\])+"), re.compile(rb"\\([ #])|\$(\$)")
# What an image has that follows from where it was compiled, and changes no run. Debugging information has the paths of sources, and so has the
# list of sources that bspcc adds.
STRIP = ["riscv64-unknown-elf-objcopy", "--strip-debug", "--remove-section=.bspcc.sources"]


class Program(NamedTuple):
    """A program as it was named, the constants that it was compiled with, the image that is run, and what kind of file that is; or in lines
    why there is no image. Whether it was compiled here comes last, with the headers that are the user's own, and the digests of all that is
    compiled, by its names."""

    name: str
    defines: tuple[tuple[str, str], ...]
    image: pathlib.Path = pathlib.Path()
    kind: str = ""
    why: tuple[str, ...] = ()
    is_compiled: bool = False
    headers: tuple[str, ...] = ()
    texts: tuple[tuple[str, str], ...] = ()


def programs(options: argparse.Namespace, folder: pathlib.Path) -> list[Program]:
    """The programs that were named, each with each choice of its constants: images of those in C are kept among the results in a folder. If
    none of them is compiled, that is refused."""
    names = [name for name, _ in options.define]
    choices = [tuple(zip(names, values)) for values in itertools.product(*(values for _, values in options.define))]
    found = []
    for name in options.program:
        kind = kind_of(pathlib.Path(name), content_of(name, MOST_PROGRAM))
        if kind != "c" and names:
            raise Refused(f"{name} is compiled already: --define is for programs in C")
        if kind == "c":
            found += [compiled(name, choice, options, folder) for choice in choices]
        else:
            found.append(Program(name, (), pathlib.Path(name).resolve(), kind))
    if options.stack and not any(it.is_compiled for it in found):
        raise Refused(f"--stack is for programs in C, and {found[0].name} is compiled already: give --stack to bspcc")
    expect_same_texts(found)
    lines = told(found)
    if all(it.why for it in found):
        raise Refused(*lines)
    tell([*lines, *unused(found, names)], "bspsweep: ")
    return found


def unused(them: list[Program], names: list[str]) -> list[str]:
    """A line for each program and constant, if all values of the constant make the same program, or no text of the program has its name."""
    lines = []
    for program in dict.fromkeys(it.name for it in them):
        same = [it for it in them if it.name == program and not it.why]
        texts = {text for it in same for text, _ in it.texts}
        for name in names:
            images: dict[tuple[tuple[str, str], ...], set[pathlib.Path]] = {}
            for it in same:
                images.setdefault(tuple(pair for pair in it.defines if pair[0] != name), set()).add(it.image)
            is_one = len(same) > len(images) and all(len(it) == 1 for it in images.values())
            if same and (is_one or not any(has_word(text, name) for text in texts)):
                lines.append(f"note: {program} may not use the constant {name}: is the name right?")
    return lines


def has_word(path: str, name: str) -> bool:
    """Whether a text has a name."""
    return re.search(rf"\b{name}\b".encode(), content_of(path, MOST_PROGRAM)) is not None


def expect_same_texts(them: list[Program]) -> None:
    """Refuses a text that was edited while programs were compiled: there would be runs of both in one table."""
    known: dict[str, str] = {}
    for name, found in [*(text for it in them for text in it.texts), *((name, digest_of(name)) for it in them for name, _ in it.texts)]:
        if known.setdefault(name, found) != found:
            raise Refused(f"{name} has changed while it was compiled: start the sweep again")


def digest_of(name: str) -> str:
    """The digest of a text."""
    return digest(content_of(name, MOST_PROGRAM))


def told(them: list[Program]) -> list[str]:
    """Why some of these have no image. What GCC says in the same words of several choices of constants is said once."""
    alike: dict[tuple[str, tuple[str, ...]], list[Program]] = {}
    for it in filter(lambda it: it.why, them):
        alike.setdefault((it.name, it.why[1:]), []).append(it)
    lines = []
    for same in alike.values():
        others = f", nor with {counted(len(same) - 1, 'other choice')} of its constants" if len(same) > 1 else ""
        lines += [f"{same[0].why[0]}{others}", *same[0].why[1:]]
    return lines


def compiled(name: str, defines: tuple[tuple[str, str], ...], options: argparse.Namespace, folder: pathlib.Path) -> Program:
    """A program in C, whose executable has a name that follows from its bytes, and these do not follow from the folder that it lies in."""
    constants = [f"-D{constant}={value}" for constant, value in defines]
    stack = ["--stack", str(options.stack)] if options.stack else []
    source, text = os.path.abspath(name), digest_of(name)
    with children.folder("bspsweep") as temp:
        target, made_of = temp / "program.elf", temp / "made-of"
        words = [emulator.program("bspcc"), *constants, *stack, f"-ffile-prefix-map={os.path.dirname(source)}=.", "-MMD", "-MF", str(made_of)]
        words += ["-o", str(target), source, "-lm"]
        environment = {**os.environ, "TMPDIR": str(temp)}
        for command in (words, [*STRIP, str(target)]):
            done = children.call(command, stdout=subprocess.PIPE, stderr=subprocess.STDOUT, env=environment)
            if done.returncode != 0:
                break
        if done.returncode != 0:
            why = (f"{' '.join([name, *constants])} was not compiled", *lines_of(done.stdout, source))
            return Program(name, defines, why=why, is_compiled=True, texts=((name, text),))
        content, headers = content_of(target, MOST_PROGRAM), headers_of(name, made_of)
        own = own_values(words[: 1 + len(constants)], source, environment) if constants else {}
    for constant, value in defines:
        if constant in own and own[constant] != value.split():
            why = (f"{name} -D{constant}={value} is not run", f"{name} defines {constant} itself: put #ifndef {constant} before that, and #endif behind it")
            return Program(name, defines, why=why, is_compiled=True, texts=((name, text),))
    image = result_folders.part(folder, "programs") / f"{pathlib.Path(name).stem}-{digest(content)[:16]}.elf"
    put(image, content)
    texts = ((name, text), *((it, digest_of(it)) for it in headers))
    return Program(name, defines, image, "elf", is_compiled=True, headers=headers, texts=texts)


def own_values(words: list[str], source: str, environment: Mapping[str, str]) -> dict[str, list[str]]:
    """The macros of a text at its end, as GCC has them with these options: words by names."""
    done = children.call([*words, "-E", "-dM", source], stdout=subprocess.PIPE, stderr=subprocess.DEVNULL, env=environment)
    return {it[1]: it[2:] for it in (line.split() for line in done.stdout.decode(errors="replace").splitlines()) if len(it) > 1}


def headers_of(name: str, made_of: pathlib.Path) -> tuple[str, ...]:
    """The headers of a program, as GCC has written down what it is made of: by names that begin as the program's own does, and without those
    of bspcc's library."""
    source, library = os.path.abspath(name), os.path.join(os.path.dirname(os.path.realpath(emulator.program("bspcc"))), "bsplib", "")
    written = content_of(made_of, MOST_PROGRAM).replace(b"\\\n", b" ").partition(b": ")[2]
    paths = [os.fsdecode(ESCAPED.sub(rb"\1\2", it)) for it in DEPENDENCY.findall(written)]
    # GCC does not escape a line feed in a name, of which parts stand there then.
    own = [it for it in paths if it != source and not os.path.realpath(it).startswith(library) and os.path.isfile(it)]
    return tuple(os.path.join(os.path.dirname(name), os.path.relpath(it, os.path.dirname(source))) for it in own)
