#!/usr/bin/env python3
"""Runs the index of examples/dask/ as its page says: builds and installs the Python package, starts a scheduler and three workers from the
command line, builds an index and asks it, and compares what the page shows. Then it runs the example's tests, which stop and kill workers and
damage shards. A script `dask.py` would hide the module of this name.

It takes the first Python that has what python.py needs, and `distributed`. It ends only processes that it started.
"""
import os
import re
import shutil
import signal
import socket
import subprocess
import sys
import tempfile

sys.path.insert(1, f"{sys.path[0]}/..")
from common import ROOT, source
import archives
from files import written
import python

MODULES = ["distributed", *(it for it in python.MODULES if it not in ("hypothesis", "build"))]
EXAMPLE = "examples/dask"
# The tests over a cluster, and those without one.
TESTS = ["../examples/dask/test_index.py", "../examples/dask/test_shards.py"]
PORT, MARK, ERRORS = "8786", "-- the next command --", "errors.log"
PATIENCE = 900


def sessions(page):
    """The commands that a page shows, each with what it prints."""
    found = []
    for block in re.findall(r"(?:^    .*\n)+", page, re.M):
        lines = [line[4:] for line in block.splitlines()]
        if lines[0].startswith("$ "):
            found += re.findall(r"^\$ (.*)\n((?:(?!\$ ).*\n)*)", "".join(f"{line}\n" for line in lines), re.M)
    return found


def free_port():
    with socket.socket() as probe:
        probe.bind(("127.0.0.1", 0))
        return str(probe.getsockname()[1])


def printed(folder, commands):
    """What each command of one shell prints. Whatever it leaves running is ended with its group.

    Standard error goes to a file: on a busy machine Dask's client may say there that a wait of its own ended."""
    text = "".join(f"{it}\necho '{MARK}'\n" for it in commands)
    how = {"stdin": subprocess.PIPE, "stdout": subprocess.PIPE, "text": True, "errors": "replace"}
    env = {name: it for name, it in os.environ.items() if name not in ("PYTHONPATH", "BITPACKING")}
    env |= {"LC_ALL": "C.UTF-8", "PIP_DISABLE_PIP_VERSION_CHECK": "1"}
    with (
        open(f"{folder}/{ERRORS}", "w", encoding="utf-8") as errors,
        subprocess.Popen(["bash"], cwd=folder, env=env, stderr=errors, start_new_session=True, **how) as shell,
    ):
        try:
            return shell.communicate(text + "wait\n", timeout=PATIENCE)[0].split(f"{MARK}\n")
        except subprocess.TimeoutExpired:
            os.killpg(shell.pid, signal.SIGKILL)
            return (shell.communicate()[0] or "").split(f"{MARK}\n")


def of_page(folder, interpreter):
    """Runs what the page shows. Each command, and the Python session, as a name and what is wrong, or None."""
    page = source(f"{EXAMPLE}/README.md").replace(PORT, free_port()).replace("/usr/bin/python3", interpreter)
    written(folder, {"page.md": page})
    shown = sessions(page)
    # The last command ends the cluster.
    shown.insert(-1, ("python3 -m doctest page.md", ""))
    found = printed(folder, [command for command, _ in shown])
    with open(f"{folder}/{ERRORS}", encoding="utf-8") as file:
        errors = file.read()[-3000:]
    for number, (command, wanted) in enumerate(shown):
        said = found[number] if number < len(found) - 1 else "nothing: an earlier one did not end"
        yield f"{EXAMPLE}/README.md: {command}", None if said == wanted or number == len(
            shown
        ) - 1 else f"it prints {said[-3000:]}, and all of them {errors}"
    yield "the commands of the page", None if len(shown) > 9 and page.count(">>> ") > 3 else f"there are {len(shown)}"


def checks(interpreter):
    with tempfile.TemporaryDirectory(prefix="cluster-") as folder:
        package = python.Package(folder, interpreter)
        shutil.copytree(f"{ROOT}/examples", f"{folder}/examples", ignore=shutil.ignore_patterns("target", "__pycache__"))
        os.symlink(f"{ROOT}/scripts", f"{folder}/scripts")
        yield from of_page(folder, interpreter)
        if not os.path.exists(f"{package.room}/bin/python"):
            return
        yield package.tested("of the index", *TESTS)


if __name__ == "__main__":
    interpreter, lack = python.chosen(tuple(MODULES))
    sys.exit(archives.reported("the index on many machines", lambda: checks(interpreter), "cc", "bash", others=lack))
