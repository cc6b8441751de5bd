"""Where the repository, its built programs and the kit are."""

import functools
import os
import pathlib
import shutil
import sys

ROOT = pathlib.Path(__file__).resolve().parents[2]


def program(name):
    """The path of a built program, from the root of the repository."""
    return f"crates/{name}/out/{name}"


@functools.cache
def kit():
    """The kit's folder. Its programs find it in this way too."""
    return pathlib.Path(shutil.which("rt")).resolve().parents[1]


def enter(*programs):
    """Goes to the root of the repository, and ends the script where one of these programs isn't built or there."""
    os.chdir(ROOT)
    for path in programs:
        if not os.access(path, os.X_OK):
            name = pathlib.Path(path).name
            sys.exit(f"{path} isn't built: tools/prove.sh {name} proves and builds it" if path == program(name) else f"{path} is no program")


def require(*tools):
    """Ends the script where one of these tools is missing."""
    for tool in tools:
        if not shutil.which(tool):
            sys.exit(f"{tool} is missing; Debian's package {PACKAGES.get(tool, tool)} has it")


PACKAGES = {"perf": "linux-perf", "memccat": "libmemcached-tools"}
