"""The program's answers on random files, to compare with those of the emulator in a browser."""

from __future__ import annotations

import argparse
import base64
import contextlib
import pathlib
import sys
import tempfile
from typing import Any, Dict, Iterator, List, Optional

REPO = pathlib.Path(__file__).resolve().parents[2]
sys.path[:0] = [str(REPO / "tests")]

from fuzz import campaign  # noqa: E402
from fuzz.answers import Answer  # noqa: E402
from fuzz.bench import Bench, Trial, Word  # noqa: E402

Record = Dict[str, Any]
# Options with a number, with the key of the interface where it has one.
NUMBERS = ("nodes", "memory", "limit", "g", "l", "ledger")
FLAGS = ("clock", "float", "atomic", "large")
# What a session's refusal begins with on standard error.
NAME = b"bspemu: "
WIDEST = 2**32 - 1


def encoded(content: bytes) -> str:
    """Bytes as JSON takes them."""
    return base64.b64encode(content).decode()


class _Parser(argparse.ArgumentParser):
    def error(self, message: str) -> Any:
        raise ValueError(message)


def parser() -> argparse.ArgumentParser:
    """The command line of the program, as far as the interface has the same."""
    whole = _Parser(add_help=False, allow_abbrev=False)
    whole.add_argument("command", choices=("run", "debug", "list", "asm"))
    whole.add_argument("files", nargs="+")
    whole.add_argument("--format", choices=("elf", "raw", "asm"), default="elf")
    for name in (*NUMBERS, "workers", "slice"):
        whole.add_argument(f"--{name}", type=int)
    for name in (*FLAGS, "report", "live", "framed", "interactive"):
        whole.add_argument(f"--{name}", action="store_true")
    for name in ("input", "profile", "counts"):
        whole.add_argument(f"--{name}")
    return whole


PARSER = parser()


def content_of(name: Optional[str]) -> bytes:
    """The bytes of a file that was named."""
    return pathlib.Path(name).read_bytes() if name else b""


class Recorder(Bench):
    """A bench that keeps what each start was asked and what it answered."""

    records: List[Record]

    def start(self, words: List[Word], stdin: str, space: int) -> Answer:
        answer = super().start(words, stdin, space)
        if space == 0:
            with contextlib.suppress(ValueError, OSError):
                self.keep(words, stdin, answer)
        return answer

    def keep(self, words: List[Word], stdin: str, answer: Answer) -> None:
        """Keeps a start that the interface can make too."""
        asked = PARSER.parse_args([it.decode() if isinstance(it, bytes) else it for it in words])
        numbers = {name: getattr(asked, name) for name in NUMBERS if getattr(asked, name) is not None}
        is_odd = any(not 0 <= it <= WIDEST for it in numbers.values()) or numbers.get("ledger", 2) not in (1, 2)
        threads = (asked.workers or 1, asked.slice or 1)
        if is_odd or "-" in asked.files or not (1 <= threads[0] <= 64 and 1 <= threads[1] <= 1 << 20):
            return
        if answer.status == 6 or (asked.profile and asked.counts) or (asked.live and (asked.profile or asked.counts)):
            return
        if asked.command == "debug":
            # A browser has framed sessions alone.
            answer = super().start([it for it in words if it not in ("--framed", "--interactive")] + ["--framed"], stdin, 0)
        record = self.record(asked, numbers, answer)
        if asked.command == "debug":
            record["lines"] = content_of(stdin).decode("latin-1").split("\n")
        self.records.append(record)

    def record(self, asked: argparse.Namespace, numbers: Dict[str, int], answer: Answer) -> Record:
        """What was asked and answered, as the check in the browser reads it."""
        settings: Dict[str, Any] = {**numbers, "format": "asm" if asked.command == "asm" else asked.format}
        settings.update({name: getattr(asked, name) for name in FLAGS})
        settings["report"] = asked.report
        settings.update({name: True for name in ("profile", "counts") if getattr(asked, name)})
        out = answer.stdout
        if asked.command == "asm":
            out = content_of(asked.files[1]) if answer.status == 0 else b""
        text = answer.stderr[len(NAME) :].decode(errors="replace").rstrip("\n") if answer.stderr.startswith(NAME) else ""
        is_told = answer.status != 1 and not text
        beside = content_of(asked.profile or asked.counts) if is_told else b""
        return {
            "call": {"asm": "assemble", "list": "list", "debug": "debug"}.get(asked.command, "run"),
            "line": answer.command,
            "settings": settings,
            "image": encoded(content_of(asked.files[0])),
            "input": encoded(content_of(asked.input)),
            "out": encoded(out),
            "beside": beside.decode(),
            "text": text,
            "status": answer.status,
        }


def chosen() -> Iterator[List[Word]]:
    """The words of starts with examples: on few ranks and on many, with a profile and counts, at their limits, and with settings that are
    refused."""
    texts = sorted(map(str, (REPO / "examples").glob("*.s")))
    for text in texts:
        for nodes in ("1", "8"):
            yield ["run", text, "--format", "asm", "--nodes", nodes, "--report", "--g", "3", "--l", "20"]
    for name in ("broadcast.s", "prefix_sum_put.s", "messages.s", "refused.s", "wrong_put.s"):
        yield ["run", str(REPO / "examples" / name), "--format", "asm", "--nodes", "1024", "--report"]
    numbers = ["--input", str(REPO / "examples/c/numbers.txt")]
    for elf in sorted(map(str, (REPO / "examples/c").glob("*.elf"))):
        words: List[Word] = ["run", elf, "--float", "--nodes", "8", *numbers]
        for more in (["--report"], ["--profile", "profile", "--report"], ["--counts", "counts"], ["--limit", "2000"]):
            yield [*words, "--limit", "100000000", *more] if "--limit" not in more else [*words, *more]
        yield ["list", elf, "--float"]
    for setting in ("--nodes=0", "--nodes=1025", "--memory=4095", "--memory=33554432", "--limit=0", "--memory=4096"):
        yield ["run", texts[0], "--format", "asm", setting, "--report"]


def recorded(program: pathlib.Path, seed: int, count: int) -> List[Record]:
    """What was asked and answered in the chosen starts, and in so many random runs."""
    kinds = [it for it in campaign.KINDS if it[0] not in ("words", "starved")]
    with tempfile.TemporaryDirectory(dir=campaign.fast_folder()) as folder:
        Recorder.records = []
        with Recorder(program, pathlib.Path(folder)) as bench:
            for words in chosen():
                bench.start(words, "", 0)
            for number in range(count):
                kinds[number % len(kinds)][1](Trial(bench, seed, number))
                bench.clear()
    return Recorder.records
