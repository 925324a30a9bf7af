"""Debian's packages, where something that is needed is missing."""
import os
import shutil
import subprocess

from harness.console import Failure

INSTALL_SECONDS = 600
# The tools that every run wants; each has the name of its package.
TOOLS = ("g++", "time")


def need_tools(may_install):
    for tool in TOOLS:
        if shutil.which(tool) is None:
            install(tool, may_install)


def install(package, may_install):
    """Installs a package, where that is allowed."""
    if not may_install:
        raise Failure(f"{package} is not installed, and --no-install was given")
    if shutil.which("apt-get") is None:
        raise Failure(f"{package} is not installed, and there is no apt-get to install it")
    words = ["apt-get", "install", "--yes", "--quiet", "--no-install-recommends", package]
    if os.geteuid() != 0:
        words = ["sudo", "--non-interactive", *words]
    environment = {**os.environ, "DEBIAN_FRONTEND": "noninteractive"}
    try:
        installed = subprocess.run(words, capture_output=True, text=True, env=environment, timeout=INSTALL_SECONDS)
    except (OSError, subprocess.TimeoutExpired) as refusal:
        raise Failure(f"{package} could not be installed: {refusal}") from None
    if installed.returncode != 0:
        said = (installed.stderr or installed.stdout).strip().splitlines()
        raise Failure(f"{package} could not be installed: {said[-1] if said else 'apt-get gave no cause'}")
