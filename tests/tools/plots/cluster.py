"""A Slurm of two nodes, and an ssh host, both simulated by this host, with their daemons and all of their files in a folder."""

from __future__ import annotations

import os
import pathlib
import shutil
import socket
import subprocess
import time
from typing import Dict, List

from checks import Tool

DAEMONS = ("slurmctld", "slurmd")
NODES = ("one", "two")
# For what takes a second or two where nothing else is going on. It may take longer on a busy host.
SECONDS = 600

SETTINGS = """\
ClusterName=check
SlurmctldHost={host}(127.0.0.1)
SlurmUser={user}
SlurmdUser={user}
AuthType=auth/none
CredType=cred/none
SlurmctldPort={port}
StateSaveLocation={folder}/state
SlurmdSpoolDir={folder}/spool.%n
SlurmctldPidFile={folder}/slurmctld.pid
SlurmdPidFile={folder}/slurmd.%n.pid
ProctrackType=proctrack/linuxproc
TaskPlugin=task/none
SelectType=select/cons_tres
SelectTypeParameters=CR_CPU
ReturnToService=2
MpiDefault=none
{nodes}PartitionName=all Nodes=one,two Default=YES State=UP
"""
NODE = "NodeName={node} NodeHostname={host} NodeAddr=127.0.0.1 Port={port} CPUs=1 State=UNKNOWN\n"
SSHD = """\
Port {port}
ListenAddress 127.0.0.1
HostKey {folder}/key
AuthorizedKeysFile {folder}/key.pub
PidFile {folder}/sshd.pid
StrictModes no
UsePAM no
"""
SSH = """\
Host one two
HostName 127.0.0.1
Port {port}
IdentityFile {folder}/key
IdentitiesOnly yes
StrictHostKeyChecking no
UserKnownHostsFile {folder}/known
LogLevel ERROR
"""


def free_port() -> int:
    """A port that nobody listens at."""
    with socket.socket() as listener:
        listener.bind(("127.0.0.1", 0))
        return int(listener.getsockname()[1])


def may_start() -> bool:
    """Whether the user may start a Slurm."""
    return os.getuid() == 0


def search_path() -> str:
    """Where daemons are too."""
    return os.environ.get("PATH", "") + ":/usr/sbin:/sbin"


SLURM = Tool("Slurm", "slurm-wlm", lambda _: all(shutil.which(it, path=search_path()) for it in (*DAEMONS, "sbatch")))


SSH_SERVER = Tool("sshd", "openssh-server", lambda _: all(shutil.which(it, path=search_path()) for it in ("sshd", "ssh", "ssh-keygen")))


class Daemons:
    """Daemons that are there from the beginning to the end of a `with`."""

    def __init__(self, folder: pathlib.Path) -> None:
        self.folder = folder
        self.children: List[subprocess.Popen[bytes]] = []

    def begin(self, name: str, *words: str) -> None:
        """Starts one of them."""
        command = [shutil.which(name, path=search_path()) or name, *words]
        with open(self.folder / f"{name}.log", "a", encoding="utf-8") as log:
            child = subprocess.Popen(command, stdin=subprocess.DEVNULL, stdout=log, stderr=log, start_new_session=True)
        self.children.append(child)

    def __exit__(self, *_: object) -> None:
        for child in reversed(self.children):
            child.terminate()
        for child in self.children:
            try:
                child.wait(SECONDS)
            except subprocess.TimeoutExpired:
                child.kill()
                child.wait()

    def said(self) -> str:
        """The last lines of their logs."""
        return "\n".join(line for path in sorted(self.folder.glob("*.log")) for line in path.read_text().splitlines()[-5:])


class Cluster(Daemons):
    """A Slurm."""

    @property
    def environment(self) -> Dict[str, str]:
        """What commands of Slurm want to find this one."""
        return {**os.environ, "SLURM_CONF": str(self.folder / "slurm.conf")}

    def __enter__(self) -> "Cluster":
        (self.folder / "state").mkdir(parents=True)
        host = socket.gethostname().split(".")[0]
        nodes = "".join(NODE.format(node=node, host=host, port=free_port()) for node in NODES)
        settings = self.folder / "slurm.conf"
        settings.write_text(SETTINGS.format(host=host, user="root", folder=self.folder, port=free_port(), nodes=nodes))
        self.begin("slurmctld", "-D", "-f", str(settings))
        for node in NODES:
            (self.folder / f"spool.{node}").mkdir()
            self.begin("slurmd", "-D", "-N", node, "-f", str(settings))
        return self

    def asked(self, *words: str) -> List[str]:
        """The words that a command of Slurm answers."""
        done = subprocess.run(words, capture_output=True, text=True, check=False, env=self.environment)
        return done.stdout.split()

    def is_ready(self) -> bool:
        """Whether all nodes take jobs; they are waited for."""
        deadline = time.monotonic() + SECONDS
        while time.monotonic() < deadline:
            if self.asked("sinfo", "--noheader", "--Node", "--format=%t") == ["idle"] * len(NODES):
                return True
            time.sleep(0.3)
        return False


class Remote(Daemons):
    """A server of ssh at a port of this host, which takes a key of its own."""

    @property
    def environment(self) -> Dict[str, str]:
        """What GNU parallel wants to find it."""
        return {**os.environ, "PARALLEL_SSH": f"ssh -F {self.folder}/ssh.conf"}

    def __enter__(self) -> "Remote":
        self.folder.mkdir(parents=True)
        os.makedirs("/run/sshd", exist_ok=True)
        subprocess.run(["ssh-keygen", "-q", "-t", "ed25519", "-N", "", "-f", str(self.folder / "key")], check=True)
        port = free_port()
        for name, text in (("sshd.conf", SSHD), ("ssh.conf", SSH)):
            (self.folder / name).write_text(text.format(port=port, folder=self.folder))
        self.begin("sshd", "-D", "-e", "-f", str(self.folder / "sshd.conf"))
        return self

    def is_ready(self) -> bool:
        """Whether one can come in; it is waited for."""
        deadline = time.monotonic() + SECONDS
        while time.monotonic() < deadline:
            words = ["ssh", "-F", str(self.folder / "ssh.conf"), "one", "true"]
            if subprocess.run(words, capture_output=True, check=False).returncode == 0:
                return True
            time.sleep(0.3)
        return False
