"""Which program a tool runs, and what it is: the built program, the reference, or another one that the variable DFD names."""
import os
import shutil
import subprocess
import sys
from typing import NamedTuple

TOP = os.path.dirname(os.path.dirname(os.path.realpath(__file__)))
BUILT, REFERENCE = f"{TOP}/crates/dfd/out/dfd", f"{TOP}/reference/out/reference"
# A command that the reference has and the program has not, and what each answers to it.
OF_REFERENCE, NO_COMMAND = "span", b"usage: dfd "


class Player(NamedTuple):
    path: str
    # What it is, in words.
    what: str
    is_reference: bool


def has_reference():
    """Builds the reference if there is a compiler for it, and returns whether it is there."""
    if shutil.which("rustc"):
        # The standard output belongs to what is asked.
        subprocess.run([f"{TOP}/reference/build"], stdout=sys.stderr, check=False)
    return os.access(REFERENCE, os.X_OK)


def is_same(path, other):
    return os.path.exists(path) and os.path.exists(other) and os.path.samefile(path, other)


def known(path):
    """The program at a path, with what it is by its place and by what it answers."""
    if is_same(path, BUILT) or is_same(path, f"{TOP}/dfd"):
        return Player(path, "the built program, which is proved", False)
    try:
        ran = subprocess.run([path, OF_REFERENCE], input=b"fn main() { }", capture_output=True, check=False)
    except OSError:
        return Player(path, "a program that could not be started", False)
    if ran.returncode == 0:
        return Player(path, "the reference: the same texts, of which nothing is proved", True)
    if ran.returncode == 1 and ran.stdout.startswith(NO_COMMAND):
        return Player(path, "a program that DFD names; whether it was built from proved sources is not known here", False)
    return Player(path, "a program that DFD names; what it is is not known here", False)


def player():
    """The program that DFD names, or else the built program, or else the reference; None if there is none of them."""
    named = os.environ.get("DFD")
    if named:
        return known(named) if os.access(named, os.X_OK) else None
    if os.access(BUILT, os.X_OK):
        return known(BUILT)
    if has_reference():
        it = known(REFERENCE)
        return it._replace(what=f"{it.what}; the program is not built")
    return None
