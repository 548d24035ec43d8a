"""The engines that start the runs: GNU parallel, Slurm, or the shell.

GNU parallel makes them here and over hosts, Slurm as an array of jobs, the shell one after another. Each is given a file with a command in
each line.
"""

from __future__ import annotations

import pathlib
import shlex
import shutil
import subprocess
from collections.abc import Sequence
from typing import NamedTuple

from .. import files, own_folders
from ..refusals import Refused

PLAIN, PARALLEL, SLURM, AUTO = "plain", "parallel", "slurm", "auto"
NAMES = (AUTO, PLAIN, PARALLEL, SLURM)
MOST_TASKS = 1000


class Engine(NamedTuple):
    """An engine by its name, how many runs it makes at a time (0: as many as there are processors), the hosts on which GNU parallel makes
    them, and further options of sbatch."""

    name: str
    jobs: int = 0
    hosts: tuple[str, ...] = ()
    sbatch: str = ""

    def words(self, commands: pathlib.Path) -> list[str]:
        """The command that makes all runs of a file of commands, and ends when they are made."""
        if self.name == PLAIN:
            return ["sh", str(commands)]
        if self.name == SLURM:
            return ["sbatch", "--wait", *shlex.split(self.sbatch), str(array(commands, self.jobs))]
        # A host that is named more often, or runs that are many for it, are parallel's business; its notice is for papers.
        hosts = ["--sshlogin", ",".join(self.hosts)] if self.hosts else []
        words = ["parallel", "--will-cite", "--jobs", str(self.jobs) if self.jobs else "100%", *hosts, "--arg-file", str(commands)]
        return own_folders.homed(words)


def line(words: Sequence[str]) -> str:
    """A command of the shell in one line: a line feed in a word would end it."""
    text = " ".join(shlex.quote(it) for it in words)
    if "\n" not in text:
        return text
    return "feed=$(printf '\\n.'); feed=${feed%.}; " + text.replace("\n", "'\"$feed\"'")


def is_gnu_parallel() -> bool:
    """Whether there is GNU parallel: another program of this name is in another package."""
    if shutil.which("parallel") is None:
        return False
    done = subprocess.run(own_folders.homed(["parallel", "--version"]), stdin=subprocess.DEVNULL, capture_output=True, check=False)
    return done.stdout.startswith(b"GNU parallel")


def chosen(name: str, jobs: int, hosts: tuple[str, ...], sbatch: str) -> Engine:
    """The engine of a name; it refuses one that is not here, and says which package has it."""
    if hosts and name not in (AUTO, PARALLEL):
        raise Refused("--hosts is for GNU parallel: leave --engine out")
    if name == SLURM and shutil.which("sbatch") is None:
        raise Refused("sbatch is missing: install the package slurm-client, on a machine of a cluster that Slurm runs")
    if name in (AUTO, PARALLEL) and not is_gnu_parallel():
        if name == PARALLEL or hosts:
            raise Refused("GNU parallel is missing: install the package parallel")
        name = PLAIN
    return Engine(PARALLEL if name == AUTO else name, jobs, hosts, sbatch)


def array(commands: pathlib.Path, jobs: int) -> pathlib.Path:
    """A script for sbatch beside a file of commands, in a folder that none but this user may enter: an array of tasks, each of which makes
    every so manieth command."""
    tasks = min(commands.read_bytes().count(b"\n"), MOST_TASKS)
    at_a_time = f"%{jobs}" if jobs else ""
    script = commands.with_suffix(".sbatch")
    said = commands.with_suffix(".said")
    said.mkdir(own_folders.PRIVATE)
    files.put(
        script,
        "#!/bin/sh\n"
        "#SBATCH --job-name=bspsweep\n"
        f"#SBATCH --array=0-{tasks - 1}{at_a_time}\n"
        "#SBATCH --output=/dev/null\n"
        "#SBATCH --ntasks=1\n"
        f"exec >{shlex.quote(str(said))}/\"$SLURM_ARRAY_TASK_ID\" 2>&1\n"
        "# Of N tasks, which --array may make fewer, number K makes the lines K + 1, K + 1 + N, .. of the list.\n"
        f"awk -v task=\"$SLURM_ARRAY_TASK_ID\" -v tasks=\"${{SLURM_ARRAY_TASK_COUNT:-{tasks}}}\" 'NR % tasks == (task + 1) % tasks'"
        f" {shlex.quote(str(commands))} | sh\n",
    )
    return script
