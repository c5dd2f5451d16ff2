"""Where the repository is, and the programs that the scripts run."""
import os
import pathlib
import subprocess

from shared.comparing import fail

TOP = pathlib.Path(__file__).resolve().parents[2]
POLICY = TOP / "examples/policy.toml"
EXAMPLE_BAG = TOP / "examples/bag-a.bagset"
# The programs: those that are built, unless a variable names others.
DEPOT = pathlib.Path(os.environ.get("DEPOT", TOP / "crates/depot/out/depot-program")).absolute()
TRIAL_OFFICE = pathlib.Path(os.environ.get("TRIAL_OFFICE", TOP / "crates/trial_office/out/trial_office")).absolute()


def depot(arguments=()):
    """The program `depot`: the first of these arguments, or what DEPOT names, or the built one, which `./depot` brings
    up to date."""
    if not arguments and "DEPOT" not in os.environ:
        subprocess.run([TOP / "depot", "check", EXAMPLE_BAG], check=True, stdout=subprocess.DEVNULL)
    program = pathlib.Path(arguments[0]).absolute() if arguments else DEPOT
    if not is_there(program):
        fail(f"{program} isn't a program")
    return program


def is_there(program):
    """Whether a program is there, and can be run."""
    return os.access(program, os.X_OK)


def needs_built(*programs):
    """Ends the script where one of these programs isn't there, and says how it is built."""
    builds = {
        DEPOT: "./depot check examples/bag-a.bagset",
        TRIAL_OFFICE: "in crates/trial_office, rt run -- make /tmp/a-new-file.db",
    }
    for program in programs:
        if not is_there(program):
            fail(f"{program} isn't there; the program is built by this: {builds[program]}")
