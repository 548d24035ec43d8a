"""Makes one change after another in the program's answers, and checks that the fuzzer finds each."""

from __future__ import annotations

import pathlib
import shlex
import tempfile
from typing import List

from fuzz.campaign import Campaign

# Stands in the place of the program: it starts it, and changes what it gave.
SCRIPT = """#!/bin/sh
cd {folder} || exit
here=$OLDPWD
(cd "$here" && exec {program} "$@") >out 2>told
status=$?
{change}
cat out
cat told >&2
exit $status
"""

# What is changed, the kind of runs that shows it, and the line of a shell that does it.
NOTHING = "nothing"
CHANGES = {
    NOTHING: ("", ":"),
    "another status at the limit": ("raw", "[ $status = 3 ] && status=2"),
    "a status that there is not": ("program", "[ $status = 4 ] && status=7"),
    "a crash": ("program", "[ $status = 2 ] && kill -SEGV $$"),
    "no status at a refusal": ("elf", "[ $status = 1 ] && status=0"),
    "a word on standard error": ("program", "[ $status = 0 ] && echo warning >told"),
    "no line on standard error": ("elf", "[ $status = 1 ] && : >told"),
    "output before a refusal": ("elf", "[ $status = 1 ] && echo early >out"),
    "output for want of memory": ("starved", "[ $status = 5 ] && echo early >out"),
    "memory refused without want": ("program", "[ $status = 2 ] && status=5 && : >out && echo 'bspemu: no memory' >told"),
    "a total that is no sum": ("raw", "sed -i 's/^total 1/total 2/' out"),
    "supersteps from 1": ("program", "sed -i '0,/superstep 0: /s//superstep 1: /' out"),
    "an exchange in the last superstep": ("raw", "sed -i 's/ last$/ turned/' out"),
    "another outcome": ("program", "sed -i 's/stopped: fault RangeOutside/stopped: fault BadRange/' out"),
    "work past the limit": ("raw", "sed -i 's/: w \\([0-9]\\)/: w 9\\1/' out"),
    "more bytes by 3 workers": ("program", "case $* in *'--workers 3'*) sed -i 's/ h 4/ h 5/' out ;; esac"),
    "an output by 7 workers": ("program", "case $* in *'--workers 7'*) printf x | cat - out >more && mv more out ;; esac"),
    "the same byte before each output": ("program", "[ \"$1 $status\" = 'run 0' ] && printf x | cat - out >more && mv more out"),
    "a register at the end": ("program", "[ \"$1\" = debug ] && sed -i 's/x5=000/x5=100/' out"),
    "a byte of a listing": ("raw", "[ \"$1\" = list ] && sed -i '0,/addi/s//andi/' out"),
    "a line too many in a listing": ("raw", "[ \"$1\" = list ] && echo >>out"),
    "a byte of a saved image": ("text", "[ \"$1 $status\" = 'asm 0' ] && printf x >>\"$here/$3\""),
    "a byte of a refused image": ("text", "[ \"$1 $status\" = 'asm 1' ] && printf x >\"$here/$3\""),
    "another fault of a file": ("elf", "sed -i 's/: Truncated/: BadHeader/' told"),
    "another fault of a text by a run": ("text", "[ \"$1\" = run ] && sed -i 's/line 1:/line 2:/' told"),
    "a setting before another": ("words", "sed -i 's/BadMemory/BadLimit/' told"),
    "another reply": ("debugger", "[ \"$1\" = debug ] && sed -i 's/BadRank/BadRange/' out"),
    "a reply less": ("debugger", "[ \"$1\" = debug ] && sed -i '0,/^ok$/{/^ok$/d}' out"),
    "another reply in a dialogue": ("debugger", "case $* in *--interactive*) sed -i 's/moved 0/moved 1/' out ;; esac"),
    "other costs of a debugger": ("program", "[ \"$1\" = debug ] && sed -i 's/^total /total 1/' out"),
    "a profile of other bytes": ("program", "case $* in *profile*) sed -i 's/^\\(0,0,,\\)/\\11/' \"$here/profile\" ;; esac"),
    "a contested byte told twice": ("program", "case $* in *contested*) sed -i '$p' \"$here/contested\" ;; esac"),
    "a superstep's contested bytes in the next one": ("program", "case $* in *contested*) sed -i 's/^1,/2,/' \"$here/contested\" ;; esac"),
    "exposed bytes told twice": ("program", "case $* in *exposed*) sed -i '$p' \"$here/exposed\" ;; esac"),
    "no line of exposed bytes": ("program", "case $* in *exposed*) sed -i '2,$d' \"$here/exposed\" ;; esac"),
    "another request that exposes bytes": ("program", "case $* in *exposed*) sed -i '2,$s/,[0-9]*\\(,[0-9a-f]*\\)$/,9999\\1/' \"$here/exposed\" ;; esac"),
    "an image changed by a run": ("words", "[ \"$1\" = run ] && [ -f \"$here/image\" ] && echo >>\"$here/image\""),
}
MOST = 100


def is_found(program: pathlib.Path, kind: str, change: str, folder: pathlib.Path) -> bool:
    """Whether the fuzzer finds a change, in not too many runs of a kind."""
    script = folder / "program"
    script.write_text(SCRIPT.format(folder=shlex.quote(str(folder)), program=shlex.quote(str(program)), change=change))
    script.chmod(0o755)
    campaign = Campaign(script, 1, folder / "kept", lambda _: None, kind)
    campaign.make(0, MOST, lambda made: made.failed > 0)
    return campaign.failed > 0


def unchanged(program: pathlib.Path, folder: pathlib.Path) -> List[str]:
    """What the fuzzer tells of the program itself, made twice: it has to be the same, without a fault."""
    told: List[str] = []
    made = [Campaign(program, 1, folder / "kept", told.append) for _ in range(2)]
    for campaign in made:
        campaign.make(0, 40)
    if made[0].summary() != made[1].summary():
        told.append("the same runs have another summary")
    return told


def run(program: pathlib.Path) -> int:
    """Tries each change, and says which are not found."""
    failed = 0
    with tempfile.TemporaryDirectory() as folder:
        for fault in unchanged(program, pathlib.Path(folder)):
            print(f"without a change: {fault}")
            failed += 1
    for name, (kind, change) in CHANGES.items():
        with tempfile.TemporaryDirectory() as folder:
            if is_found(program, kind, change, pathlib.Path(folder)) == (name == NOTHING):
                print(f"{name}: {'found' if name == NOTHING else 'not found'} in {MOST} runs")
                failed += 1
    print(f"{len(CHANGES) - 1} changes of the program, and the program itself: {failed} faults of the fuzzer")
    return 1 if failed else 0
