"""The packages of Debian that the tests need, as scripts/packages.txt has them: which lack, and how they are installed."""

import os
import re

from common import missing, run, source

LIST = "scripts/packages.txt"
INSTALL = ["install", "--yes", "--no-install-recommends"]


def needed(script):
    """The packages that a script needs: `quick` those of its part, `check` all."""
    quick, _, check = re.sub("(?m)^#.*", "", source(LIST)).partition("\ncheck\n")
    return re.findall(r"^(\S+) ", quick if script == "quick" else quick + check, re.M)


def lacking(script):
    """The packages that a script needs and that are not installed. None lacks if this is not Debian."""
    said = "" if missing("dpkg-query") else run("dpkg-query", "--show", "--showformat=${Package} ${db:Status-Status}\n").stdout
    installed = re.findall(r"^(\S+) installed$", said, re.M)
    return [it for it in needed(script) if it not in installed] if installed else []


def install(script):
    """Installs what lacks, as root. Says what did not work, and goes on."""
    names = lacking(script)
    if names and os.geteuid() != 0:
        print("--setup: only root installs packages", flush=True)
    elif names:
        print(f"--setup: installs {' '.join(names)}", flush=True)
        env = dict(os.environ, DEBIAN_FRONTEND="noninteractive")
        called = lambda *words: run("apt-get", "--quiet", "-o", "Acquire::http::Timeout=30", "-o", "Acquire::Retries=1", *words, env=env)
        updated, done = called("update"), called(*INSTALL, *names)
        if done.returncode != 0 and updated.returncode == 0:
            # One that this Debian does not have keeps no other away.
            done = [called(*INSTALL, it) for it in names][-1]
        if still := lacking(script):
            print(f"--setup: {' '.join(still)} did not get installed: {(updated.stdout + done.stdout)[-1000:]}", flush=True)


def told(script):
    """The command that installs what lacks, as a line, or nothing."""
    names = lacking(script)
    return f"As root: apt-get update && apt-get {' '.join([*INSTALL, *names])}\n" if names else ""
