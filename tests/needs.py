"""What a test needs of the machine: programs, modules of Debian's Python, and what was built. Where one is missing, the test is skipped by its name."""

import functools
import os
import pathlib
import shutil
import subprocess

import pytest

TOP = pathlib.Path(__file__).resolve().parent.parent
PYTHON = "/usr/bin/python3"
PATHS = os.pathsep.join([os.environ.get("PATH", os.defpath), "/usr/sbin"])

# The package of Debian that has it, where that has another name.
PACKAGES = {
    "chromium": "chromium fonts-dejavu-core", "tsc": "node-typescript", "node": "nodejs", "promtool": "prometheus", "redis-cli": "redis-tools",
    "setpriv": "util-linux", "prlimit": "util-linux", "taskset": "util-linux", "systemd-analyze": "systemd",
}


@functools.cache
def is_there(name: str) -> bool:
    """Whether a program is in the search path, or `python3:NAME` a module of Debian's Python."""
    if name.startswith("python3:"):
        looks = f"import importlib.util, sys; sys.exit(importlib.util.find_spec({name[8:]!r}) is None)"     # which takes less than an import
        return subprocess.run([PYTHON, "-c", looks], capture_output=True).returncode == 0
    return shutil.which(name, path=PATHS) is not None


def built(crate: str) -> pathlib.Path:
    """The program of another crate than the usual one, which only the toolchain builds."""
    path = TOP / "crates" / crate / "out" / crate
    if not os.access(path, os.X_OK):
        pytest.skip(f"crates/{crate} isn't built (rt ci)")
    return path


def need(*names: str) -> None:
    """Skips the test that calls this where one of them is missing."""
    for name in names:
        if not is_there(name):
            package = PACKAGES.get(name, name.replace(":", "-").replace("_", "-"))
            pytest.skip(f"no {name} on this machine (apt-get install {package})")
