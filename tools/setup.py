"""Builds the wheel: the packages, and the files of the repository that the commands need."""

from __future__ import annotations

import os
import pathlib
import shutil
import subprocess
from typing import Tuple

from setuptools import setup
from setuptools.command.build_py import build_py
from wheel.bdist_wheel import bdist_wheel

TOP = pathlib.Path(__file__).resolve().parent.parent
# Files and folders, by their names at the top of the repository. The starters of the tools find the packages by tools/__main__.py.
COPIED = ["bspemu", "bspcc", "bsprun", "bspgdb", "bspplot", "bspsweep", "bspcheck", "bsplib", "prebuilt/bspemu", "prebuilt/kit", "scripts/toolchain"]
COPIED += ["tools/__main__.py", "LICENSE"]
# What bsprun makes pages of.
COPIED += ["prebuilt/bspemu.wasm", "web/bspemu.js", "web/page/packed.js", "web/stage"]
SHARE = "bspemu/share"
# What tells the commit, which the commands say with --version.
GIT = ["git", "describe", "--always", "--dirty", "--exclude=*"]


class WithShare(build_py):
    """The packages, with what they stand on."""

    def run(self) -> None:
        """Builds them."""
        super().run()
        if not (TOP / "bspcc").exists():
            raise SystemExit("bspemu is built from its repository, whose tools/ this is: pip 21.3 or later builds it there")
        share = pathlib.Path(self.build_lib) / SHARE
        shutil.rmtree(share, ignore_errors=True)
        for name in COPIED:
            target = share / name
            target.parent.mkdir(parents=True, exist_ok=True)
            if (TOP / name).is_dir():
                shutil.copytree(TOP / name, target)
            else:
                shutil.copy2(TOP / name, target)
        # In another repository, that one's settings could have commands; and in a hook of git, the environment names the hook's.
        if (TOP / ".git").exists():
            environment = {name: it for name, it in os.environ.items() if not name.startswith("GIT_")}
            done = subprocess.run(GIT, cwd=TOP, env=environment, stdout=subprocess.PIPE, stderr=subprocess.DEVNULL, text=True, check=False)
            if done.returncode == 0:
                (share / "commit").write_text(done.stdout, encoding="utf-8")


class ForLinux(bdist_wheel):
    """A wheel for any Python 3 on Linux of x86-64, for which the emulator in it is."""

    def finalize_options(self) -> None:
        """Says that there is more than Python in it."""
        super().finalize_options()
        self.root_is_pure = False

    def get_tag(self) -> Tuple[str, str, str]:
        """What the wheel's name says."""
        return "py3", "none", "linux_x86_64"


def commands() -> "dict[str, type]":
    """What is built otherwise than setuptools does."""
    return {"build_py": WithShare, "bdist_wheel": ForLinux}


setup(cmdclass=commands())
