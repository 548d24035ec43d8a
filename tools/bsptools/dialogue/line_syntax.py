"""The lines of a dialogue: which there are, and what the words of one mean.

They are those of the debugger, which gives a table of them: how each is spelled, and what it does. What is added here is what a dialogue
has besides: names of addresses, operands that can be left out, lines of its own, and the words that other debuggers have.
"""

from __future__ import annotations

import re
from typing import Callable, Dict, Iterator, List, NamedTuple, Sequence

from ..framed.session import LineForm, RefusalCode
from ..refusals import Refused, printable

# Lines of a dialogue alone, with what they do, and behind which of the debugger's they are told.
OWN = {
    "wrote RANK ADDR [N]": "who wrote each of N bytes last",
    "sent [K]": "the requests of superstep K, or of this one so far: the first 256",
    "sent K from RANK": "all requests of a rank in superstep K",
}
BEFORE_OWN = "queue"
# The operands of the debugger's lines that can be left out, and those that a dialogue adds.
LEFT_OUT = {"list": ("ADDR", "N"), "bytes": ("LEN",), "words": ("N",), "text": ("N",)}
ADDED = {"fregs": "[NAME]"}
# How many bytes, words and instructions are looked at, if it is not said.
DEFAULTS = {"bytes": 16, "words": 8, "list": 8, "wrote": 4}
# What is told of some lines besides.
MORE = {
    "list": f"; without ADDR from the pc of the rank on, without N {DEFAULTS['list']}",
    "bytes": f"; without LEN {DEFAULTS['bytes']}",
    "words": f"; without N {DEFAULTS['words']}",
    "wrote": f"; without N {DEFAULTS['wrote']}",
    "fregs": "; or one, as fa0 or f10",
    "quit": "; so do exit, q and Ctrl-D",
}
OPERANDS = (
    "RANK, K, N, LEN, COUNT and FROM are numbers. ADDR is a number, a name of the program, or a register, as $sp or $a0."
    " +N may follow each, as in table+4."
)
# Words that other debuggers have for some of them.
ALSO = {"exit": "quit", "q": "quit", "?": "help"}
# Words that gdb has for what other lines do here.
IN_GDB = {
    "b": "break",
    "backtrace": "where",
    "bt": "where",
    "c": "go",
    "continue": "go",
    "d": "clear",
    "delete": "clear",
    "disassemble": "list",
    "h": "help",
    "info": "where, regs or points",
    "l": "list",
    "n": "over",
    "next": "over",
    "p": "words or text",
    "print": "words or text",
    "r": "go",
    "run": "go",
    "s": "step",
    "si": "step",
    "stepi": "step",
    "thread": "where, and give each line the rank",
    "x": "bytes, words, text or list",
}
MOST = (1 << 64) - 1

_NUMBER = re.compile(r"[0-9]{1,99}|0[xX][0-9a-fA-F]{1,99}")


class Denied(Refused):
    """A line is refused, with the name that the debugger has for that, and what would be accepted."""

    def __init__(self, code: str, why: str) -> None:
        super().__init__(f"{code}: {why}" if why else code)


class Asked(NamedTuple):
    """What a line asks for: its verb, and its operands by their names, and the words in small letters behind the verb."""

    verb: str
    operands: Dict[str, int]
    words: List[str]

    @property
    def how_many(self) -> int:
        """How many of something it asks for."""
        return self.operands.get("N", self.operands.get("LEN", DEFAULTS[self.verb]))


class NoRank(Refused):
    """There is no rank of a number."""


class Mismatch(Refused):
    """Words are not those of a line, and why, if there is more to say than how it is spelled. So many of its words they were."""

    def __init__(self, why: str, count: int) -> None:
        super().__init__(why)
        self.count = count


# An address that a text tells, for a rank. What tells none is refused.
Reader = Callable[[str, int], int]


class Lines:
    """The lines of a dialogue: each as it is spelled, with operands in capitals and in brackets what may be left out, and what it does.
    `forms` are those of the debugger."""

    def __init__(self, forms: Sequence[LineForm]) -> None:
        self.purposes: Dict[str, str] = {}
        for form in forms:
            self.purposes[_spelled_here(form)] = form.purpose + MORE.get(form.verb, "")
            if form.verb == BEFORE_OWN:
                self.purposes.update((usage, purpose + MORE.get(usage.split()[0], "")) for usage, purpose in OWN.items())
        self.verbs = sorted({usage.split()[0] for usage in self.purposes})

    def of(self, verb: str) -> List[str]:
        """How the lines with a verb are spelled."""
        return [usage for usage in self.purposes if usage.split()[0] == verb]

    def parsed(self, text: str, ranks: int, address: Reader) -> Asked:
        """What a line asks for. What is no line is refused, with what would be one."""
        verb, *words = text.split()
        verb = ALSO.get(verb, verb)
        usages = self.of(verb)
        if not usages:
            raise Denied(RefusalCode.BAD_COMMAND, f"there is no line {printable(verb)}{self._meant(verb)}; help lists the lines")
        # Where the word behind the verb is that of a line, it is that line.
        usages = [usage for usage in usages if usage.split()[1:2] == words[:1]] or usages
        refusals: List[Mismatch] = []
        for usage in sorted(usages, key=lambda it: -len(it.split())):
            try:
                return Asked(verb, *_matched(usage.split()[1:], words, ranks, address))
            except NoRank as refused:
                raise Denied(RefusalCode.BAD_RANK, str(refused)) from refused
            except Mismatch as refused:
                refusals.append(refused)
        # The line that was meant is that of which most of the words are there.
        nearest = max(it.count for it in refusals)
        told = [str(it) for it in refusals if it.count == nearest and str(it)]
        accepted = ", or ".join(usages)
        raise Denied(RefusalCode.BAD_COMMAND, f"{told[0] + '; ' if told else ''}the line is {accepted}")

    def _meant(self, verb: str) -> str:
        """What says which line is meant by a word that none begins with, if that is known."""
        if verb in IN_GDB:
            return f"; instead of gdb's command, use {IN_GDB[verb]}"
        # Only what is mistyped wants it.
        import difflib

        near = difflib.get_close_matches(verb.lower(), self.verbs, 1)
        return f"; {near[0]} may be meant" if near else ""

    def following(self, words: Sequence[str]) -> List[str]:
        """What may stand behind the first words of a line: words, and operands in capitals."""
        if not words:
            return self.verbs
        found: List[str] = []
        for usage in self.of(words[0]):
            names = [it.strip("[]") for it in usage.split()[1:]]
            if len(words) <= len(names) and all(map(_may_be, names, words[1:])):
                found.append(names[len(words) - 1])
        return found

    def help_of(self, verb: str) -> Iterator[str]:
        """What is told of all lines, or of those with a verb."""
        usages = self.of(verb) if verb else list(self.purposes)
        if not usages:
            raise Denied(RefusalCode.BAD_COMMAND, f"there is no line {printable(verb)}; help lists the lines")
        width = max(map(len, usages))
        yield from (f"{usage:{width}}  {self.purposes[usage]}" for usage in usages)
        yield from [] if verb else [OPERANDS]


def _spelled_here(form: LineForm) -> str:
    """A line of the debugger as a dialogue takes it."""
    left_out = LEFT_OUT.get(form.verb, ())
    names = [f"[{name}]" if name in left_out else name for name in form.operands.split()]
    return " ".join([form.verb, *names, *([ADDED[form.verb]] if form.verb in ADDED else [])])


def _matched(usage: Sequence[str], words: Sequence[str], ranks: int, address: Reader) -> tuple[Dict[str, int], List[str]]:
    """The operands that words give a line. What they cannot be is refused; with no text if a word of the line is another one."""
    operands: Dict[str, int] = {}
    small: List[str] = []
    rest = list(words)
    for count, name in enumerate(usage):
        is_optional, name = name.startswith("["), name.strip("[]")
        if not rest:
            if is_optional:
                continue
            raise Mismatch(f"{name} is missing" if count and name.isupper() else "", count)
        word = rest.pop(0)
        if name in ("LINE", "NAME"):
            small.append(word)
        elif name.islower():
            if word != name:
                raise Mismatch("", count)
            small.append(word)
        elif word in usage:
            raise Mismatch(f"{name} is missing before {word}", count + 1)
        else:
            try:
                operands[name] = _value(name, word, operands.get("RANK", 0), ranks, address)
            except NoRank:
                raise
            except Refused as refused:
                raise Mismatch(str(refused), count) from refused
    if rest:
        raise Mismatch(f"{printable(rest[0])} is one word too many", len(usage))
    return operands, small


def _value(name: str, word: str, rank: int, ranks: int, address: Reader) -> int:
    if name == "ADDR":
        return address(word, rank)
    if not _NUMBER.fullmatch(word):
        raise Refused(f"{printable(word)} is not a rank: {ranks_of(ranks)}" if name == "RANK" else f"{printable(word)} is not a number")
    value = int(word, 16 if word[1:2] in ("x", "X") else 10)
    if name == "RANK" and value >= ranks:
        raise NoRank(f"there is no rank {value}: {ranks_of(ranks)}")
    if value > MOST:
        raise Refused(f"{word} is too large: the limit is {MOST}")
    return value


def ranks_of(count: int) -> str:
    """What says which ranks there are."""
    return f"the ranks are 0 to {count - 1}" if count > 1 else "the only rank is 0"


def _may_be(name: str, word: str) -> bool:
    """Whether a word may stand where a line has this one, or this operand."""
    if name.islower():
        return name == word
    return name in ("ADDR", "LINE", "NAME") or word[0].isdigit()
