"""What the Python scripts of this folder need, by `needs.sh`: what is missing is installed, or the script ends with 3
and says what to install.
"""
import importlib.util
import os
import pathlib
import subprocess
import sys

DEBIANS = "/usr/bin/python3"


def has(*tools):
    """Whether each of these tools is there, or was installed: `TOOL` or `TOOL=PACKAGE`."""
    shell = pathlib.Path(__file__).with_name("needs.sh")
    words = ["bash", "-euc", '. "$1"; shift; needs "$@"', os.path.basename(sys.argv[0]), shell, *tools]
    return subprocess.run(words, check=False).returncode == 0


def needs(*tools):
    """Each of these tools is there."""
    if not has(*tools):
        sys.exit(3)


def needs_modules(*modules):
    """Each of these modules is there: `MODULE=PACKAGE`. The script goes on with Debian's Python, for which the packages
    are, where this one is another and lacks a module."""
    if all(importlib.util.find_spec(each.partition("=")[0]) for each in modules):
        return
    needs(DEBIANS + "=python3", *("python3:" + each for each in modules))
    if "HAS_MODULES" not in os.environ:
        os.execve(DEBIANS, [DEBIANS, *sys.argv], {**os.environ, "HAS_MODULES": "yes"})
    sys.exit(f"{os.path.basename(sys.argv[0])}: Python lacks a module still, of {', '.join(modules)}")
