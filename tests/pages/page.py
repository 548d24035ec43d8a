"""The commands of a page, and their output as the page shows it.

A fenced block is what the first word behind its fence says:

- `console`: what a terminal shows. A line that begins with `$ ` is a command, with the next lines where it ends with a backslash or has
  a here-document. What follows, up to the next command, is what it writes to standard output and standard error; a line `...` stands
  for any lines. More words may follow `console`:
    - `status=N`: the commands of the block end with status N, which is 0 if not said.
    - `any-output`: what the commands write is not shown.
    - `not-run`: the commands are not run: they want a network, rights, other hosts, another end of a connection, or minutes.
    - `dialogue`: lines that begin with `> `, `(gdb) ` or `(bsp) ` are typed while the command runs, and what it answers follows. A block that
      begins with such a line goes on with the last dialogue.
- `asm`: a whole text of assembly, which the emulator takes.
- any other word, as `text` or `csv`: no command.
"""

from __future__ import annotations

import dataclasses
import pathlib
import re
from typing import Dict, Iterator, List, Optional

FENCE = re.compile(r"( *)```(.*)")
HERE_DOCUMENT = re.compile(r"<<'?(\w+)'?")
PROMPTS = ("> ", "(gdb) ", "(bsp) ")
ANY_LINES = "..."
LISTING = "./bspemu list - --format asm"
WORDS = {"any-output", "not-run", "dialogue"}


class Malformed(Exception):
    """A page that is not of this form, with the line that is not."""


@dataclasses.dataclass
class Part:
    """A line that is typed, and which lines of the page have what is written then: from `first` up to before `behind`."""

    typed: str
    first: int
    behind: int


@dataclasses.dataclass
class Command:
    """A command of a page. The first part is the command itself; in a dialogue one for each line that is typed to it follows."""

    line: int
    parts: List[Part]
    indent: int = 0
    status: int = 0
    is_run: bool = True
    is_compared: bool = True
    given: str = ""
    prompt: Optional[str] = None

    @property
    def text(self) -> str:
        """What is typed to the shell."""
        return self.parts[0].typed

    @property
    def name(self) -> str:
        """Its first line, to tell it from others."""
        return self.text.split("\n")[0]


@dataclasses.dataclass
class Block:
    """The lines of a fenced block, from `first` up to before `behind`, and the words behind its fence."""

    words: List[str]
    indent: int
    first: int
    behind: int


class Page:
    """A page of a folder, with its commands in their order."""

    def __init__(self, folder: pathlib.Path, name: str) -> None:
        self.path = folder / name
        self.name = name
        self.lines = self.path.read_text(encoding="utf-8").split("\n")
        self.blocks = list(self._blocks())
        self.commands: List[Command] = []
        for block in self.blocks:
            if block.words[:1] == ["console"]:
                self._read_console(block)
            elif block.words[:1] == ["asm"]:
                nothing = Part(LISTING, block.behind, block.behind)
                text = "".join(self._line(block, at) + "\n" for at in range(block.first, block.behind))
                self.commands.append(Command(block.first, [nothing], is_compared=False, given=text))

    def prose(self) -> Iterator[str]:
        """The lines outside blocks, with an empty one in the place of each other."""
        inside = {at for block in self.blocks for at in range(block.first - 1, block.behind + 1)}
        for at, line in enumerate(self.lines):
            yield "" if at in inside else line

    def wanted(self, command: Command, part: Part) -> List[str]:
        """What stands there of what is written after this part of a command is typed."""
        return [line[command.indent :] for line in self.lines[part.first : part.behind]]

    def update(self, found: Dict[int, List[List[str]]]) -> None:
        """Writes into the page what commands wrote, by their numbers: the lines for each part."""
        changes = [(part, lines, self.commands[at].indent) for at in found for part, lines in zip(self.commands[at].parts, found[at])]
        for part, lines, indent in sorted(changes, key=lambda change: -change[0].first):
            self.lines[part.first : part.behind] = [(" " * indent + line).rstrip("\n") if line else "" for line in lines]
        self.path.write_text("\n".join(self.lines), encoding="utf-8")

    def _blocks(self) -> Iterator[Block]:
        """The fenced blocks. A page has no other ones, so that none is overlooked."""
        at = 0
        while at < len(self.lines):
            fence = FENCE.match(self.lines[at])
            if fence:
                end = next((it for it in range(at + 1, len(self.lines)) if self.lines[it] == fence[1] + "```"), None)
                if end is None:
                    raise Malformed(f"{self.name}:{at + 1}: a block without an end")
                if not fence[2]:
                    raise Malformed(f"{self.name}:{at + 1}: a block that does not say what it is")
                yield Block(fence[2].split(), len(fence[1]), at + 1, end)
                at = end
            elif self.lines[at].startswith("    ") and (at == 0 or not self.lines[at - 1].strip()):
                raise Malformed(f"{self.name}:{at + 1}: an indented block: give it a fence")
            at += 1

    def _line(self, block: Block, at: int) -> str:
        return self.lines[at][block.indent :]

    def _read_console(self, block: Block) -> None:
        """Adds the commands of a block."""
        faulty = [it for it in block.words[1:] if it not in WORDS and not re.fullmatch(r"status=\d+", it)]
        if faulty:
            raise Malformed(f"{self.name}:{block.first}: {faulty[0]} is no word for a block")
        at = block.first
        while at < block.behind:
            line = self._line(block, at)
            if line.startswith("$ "):
                at = self._read_command(block, at)
            elif "dialogue" in block.words and line.startswith(PROMPTS) and any(it.prompt for it in self.commands):
                at = self._read_parts(block, at, [it for it in self.commands if it.prompt][-1])
            else:
                raise Malformed(f"{self.name}:{at + 1}: a line before the first command of its block")

    def _read_command(self, block: Block, at: int) -> int:
        """Adds the command of a line, and answers where the next one begins."""
        typed = [self._line(block, at)[2:]]
        first = at + 1
        while typed[-1].endswith("\\") and first < block.behind:
            typed.append(self._line(block, first))
            first += 1
        document = HERE_DOCUMENT.search(typed[-1])
        while document and typed[-1] != document[1] and first < block.behind:
            typed.append(self._line(block, first))
            first += 1
        statuses = [int(word[7:]) for word in block.words if word.startswith("status=")]
        command = Command(at + 1, [Part("\n".join(typed), first, first)], block.indent, (statuses or [0])[0])
        command.is_run = "not-run" not in block.words
        command.is_compared = "any-output" not in block.words
        self.commands.append(command)
        return self._read_parts(block, first, command)

    def _read_parts(self, block: Block, at: int, command: Command) -> int:
        """Adds to a command what it writes up to the next command, and what is typed to it, and answers where the next one begins."""
        while at < block.behind and not self._line(block, at).startswith("$ "):
            prompt = next((it for it in PROMPTS if self._line(block, at).startswith(it)), None) if "dialogue" in block.words else None
            if prompt:
                command.prompt = prompt
                command.parts.append(Part(self._line(block, at)[len(prompt) :], at + 1, at + 1))
            else:
                command.parts[-1].behind = at + 1
            at += 1
        return at


def is_as_wanted(wanted: List[str], found: List[str]) -> bool:
    """Whether lines are those that stand there, where a line `...` stands for any."""
    pattern = "".join(r"(?:.*\n)*?" if line == ANY_LINES else re.escape(line + "\n") for line in wanted)
    return re.fullmatch(pattern, "".join(line + "\n" for line in found)) is not None
