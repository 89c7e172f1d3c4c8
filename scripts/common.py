"""What the scripts share: the files of the repository, running a command, and how a script says what passed and what failed: its last line
is 'N passed, M failed'."""

import os
import re
import shutil
import subprocess
import sys

ROOT = os.path.dirname(os.path.dirname(os.path.realpath(__file__)))
# A script imports this file first, and then can import those of each folder.
sys.path[1:1] = [f"{ROOT}/scripts/{folder}" for folder in ("build", "lint", "mutate", "test", "bench")] + [f"{ROOT}/vectors"]


def source(path):
    """The text of a file of the repository."""
    with open(f"{ROOT}/{path}", encoding="utf-8") as file:
        return file.read()


def version(changelog=None):
    """The version of all parts: that of the first release in CHANGELOG.md, or in this text of it."""
    return re.search(r"^## (\d+\.\d+\.\d+)(?: |$)", changelog or source("CHANGELOG.md"), re.M)[1]


def run(*command, folder=ROOT, **more):
    """Runs a command to its end, without input if none is given. `stdout` of the result has what it printed, errors too."""
    given = {"input": "", "stdout": subprocess.PIPE, "stderr": subprocess.STDOUT, "encoding": "utf-8", "errors": "replace"}
    return subprocess.run(command, cwd=folder, **(given | more))


class Failed(Exception):
    """A command failed, with the end of what it printed, or something else did."""


def called(*command, **more):
    """Runs a command that has to end with status 0. Returns what it printed."""
    done = run(*command, **more)
    if done.returncode != 0:
        raise Failed(f"{' '.join(command[:2])}: {done.stdout[-4000:]}")
    return done.stdout


def words(*flags):
    """The arguments of the script. One that begins with `-` and is not among the flags ends it."""
    unknown = [it for it in sys.argv[1:] if it.startswith("-") and it not in flags]
    if unknown:
        sys.exit(f"{os.path.basename(sys.argv[0])}: unknown option {unknown[0]}")
    return sys.argv[1:]


def missing(*tools):
    """The commands that are not on this machine."""
    return [it for it in tools if not shutil.which(it)]


# What leave_out said.
LEFT_OUT = []


def leave_out(part, why):
    LEFT_OUT.append(f"LEFT OUT: {part}, {why}\n")
    print(LEFT_OUT[-1], end="")


def left_out_without(part, *tools, others=()):
    """Says that a whole script is left out, if one of its tools is missing, or it lacks others. Returns whether it is."""
    lacking = [*others, *missing(*tools)]
    if lacking:
        leave_out(part, f"since there is no {' and no '.join(lacking)}")
        ended(0, 0)
    return bool(lacking)


def ended(passed, failed):
    """Prints the last line, and returns the status of the script."""
    print(f"{passed} passed, {failed} failed")
    return 1 if failed else 0


def report(checks):
    """Prints which of the checks failed, and the last line. Returns the status of the script. A check is its name and why it failed, or
    None. A script without a check has failed."""
    passed = failed = 0
    for name, why in checks:
        if why is not None:
            print(f"FAILED: {name}: {why}")
        passed, failed = passed + (why is None), failed + (why is not None)
    return ended(passed, failed if passed or failed else 1)


def reported(part, checks, *tools, others=()):
    """Reports what a function checks, if nothing is missing. Returns the status of the script."""
    return 0 if left_out_without(part, *tools, others=others) else report(checks())
