"""The program that users get, with the sums of its sources."""
import hashlib
import os
import subprocess
import tempfile

from gate import place
from gate.files import is_same, read, replace
from gate.report import say


def sources_of(crates):
    """The sums of the sources of a program, as sha256sum prints them."""
    files = [os.path.join(place.HERE, "crates.txt"), *(file for it in crates for file in it.files())]
    sums = [(hashlib.sha256(read(it)).hexdigest(), os.path.relpath(it, place.HERE)) for it in files]
    return "".join(f"{sum}  {file}\n" for sum, file in sums).encode()


def release(crates, folder):
    """Puts the built program, without its symbols, beside the sums of its sources into a folder."""
    replace(os.path.join(folder, "sources.sha256"), sources_of(crates))
    if os.path.isfile(os.path.join(folder, "stands_in.sha256")):
        os.remove(os.path.join(folder, "stands_in.sha256"))
    with tempfile.TemporaryDirectory() as room:
        stripped = os.path.join(room, "pli")
        subprocess.run(["strip", "-o", stripped, os.path.join(crates[-1].folder, "out", "pli")], check=True)
        replace(os.path.join(folder, "pli"), read(stripped))
    os.chmod(os.path.join(folder, "pli"), 0o755)


def stand_in(crates):
    """Writes into release/ that its program stands in for one of today's sources; the status."""
    replace(os.path.join(place.HERE, "release", "stands_in.sha256"), sources_of(crates))
    return 0


def is_released(crates):
    """Whether release/, where it is there, holds just what the sources make, or a program of earlier sources that
    says that it stands in for just these."""
    made, held = os.path.join(place.CACHE, "release"), os.path.join(place.HERE, "release")
    release(crates, made)
    if not os.path.isdir(held):
        say("release: none is kept; ./check --release writes it")
        return True
    if is_same(os.path.join(held, "stands_in.sha256"), os.path.join(made, "sources.sha256")):
        say("release: holds a program of earlier sources; ./check --release makes today's")
        return True
    same = all(is_same(os.path.join(held, name), os.path.join(made, name)) for name in ("pli", "sources.sha256"))
    wrong = "FAILED: it isn't what the sources make; ./check --release writes it"
    say(f"release: {'holds what the sources make' if same else wrong}")
    return same
