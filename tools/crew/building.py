"""Proves and builds the library, and says how far that is."""

import fcntl
import os
import shutil
import subprocess
import time

from inputs import BadInput, tell
from library import ROOT, SHARED, why_not_built
from progress import Progress


def crates_to_prove():
    """The crates that the library is made of, each behind those that it names: what panel needs at one or more removes, and last panel."""
    with open(os.path.join(ROOT, "crates.txt"), encoding="utf-8") as file:
        lines = [line.partition("#")[0].partition(":") for line in file]
    needs = {words.split()[0]: names.split() for words, colon, names in lines if colon}
    found = []

    def visit(name):
        if name in needs and name not in found:  # what has no line is the toolchain's
            for below in needs[name]:
                visit(below)
            found.append(name)

    visit("panel")
    return found


def run_step(words, folder=""):
    """Runs a command in the repository's folder or one below."""
    try:
        done = subprocess.run(words, cwd=os.path.join(ROOT, folder), stdout=subprocess.PIPE, stderr=subprocess.STDOUT, text=True, errors="replace", check=False)
    except OSError as error:
        raise BadInput(f"the library is not built: {words[0]}: {error.strerror}") from error
    if done.returncode != 0:
        where = f" in {folder}" if folder else ""
        raise BadInput(f"the library could not be built; `{' '.join(words)}`{where} said", done.stdout.splitlines()[-12:])


def build(why):
    """Proves and builds the library, crate after crate, and says how far it is."""
    for tool in ("rt", "gcc"):
        if not shutil.which(tool):
            raise BadInput(f"the library {why}, and `{tool}` is not on this machine to build it")
    tell("line", f"the library {why}: proving and building it, which takes some minutes")
    crates = crates_to_prove()
    progress = Progress()
    try:
        for number, name in enumerate(crates, 1):
            run_step(["rt", "lib"], f"crates/{name}")
            last = "; now panel, which is compiled too" if number == len(crates) - 1 else ""
            progress.show(f"line: proved {number} of {len(crates)}, {name}; {time.monotonic() - progress.begun:.0f} s{last}")
        run_step(["panel/shared.sh"])
    finally:
        progress.end()
    tell("line", "the library is built")


def open_lock():
    """The file that one call at a time holds while it builds."""
    folder = os.path.dirname(SHARED)
    try:
        os.makedirs(folder, exist_ok=True)
        return open(os.path.join(folder, "lock"), "w", encoding="utf-8")
    except OSError as error:
        raise BadInput(f"the library {why_not_built()}, and {folder} cannot be written to build it: {error.strerror}") from error


def build_once():
    """Builds the library. Of calls at the same time one builds, and the others wait for it."""
    with open_lock() as lock:
        try:
            fcntl.flock(lock, fcntl.LOCK_EX | fcntl.LOCK_NB)
        except BlockingIOError:
            tell("line", "another call is building the library; waiting for it")
            fcntl.flock(lock, fcntl.LOCK_EX)
        why = why_not_built()
        if why:
            build(why)
