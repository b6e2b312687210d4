"""What passed in earlier runs, which stands in the cache, and what this run leaves to the next."""
import os
import shutil
import subprocess
import threading

from gate import place
from gate.files import read, replace
from gate.report import seconds

SECONDS_TO_LAST_TRY = 7800
REMEMBERING = threading.Lock()
LEFT = []


def is_too_late():
    """Whether no more tests and edits are begun, so that a run ends in time."""
    return seconds() > SECONDS_TO_LAST_TRY


def passed_before():
    """What passed, as a crate's tests or one of its edits, with the sums of what it passed with."""
    file = os.path.join(place.CACHE, "passed")
    return dict(it.rsplit(" ", 1) for it in read(file).decode().splitlines()) if os.path.isfile(file) else {}


def remember(what, sum):
    """Notes that this passed with what the sum is of."""
    with REMEMBERING:
        lines = {**passed_before(), what: sum}.items()
        replace(os.path.join(place.CACHE, "passed"), "".join(f"{what} {sum}\n" for what, sum in lines).encode())


def begin():
    """Begins with the packed cache where there are no rooms, and without the rooms of another kit."""
    rooms, kit = os.path.join(place.CACHE, "rooms"), os.path.join(place.CACHE, "kit")
    if os.path.isfile(place.PACKED) and not os.path.isdir(rooms):
        subprocess.run(["tar", "--zstd", "-xf", place.PACKED, "-C", place.CACHE])
    if not os.path.isfile(kit) or read(kit) != place.KIT:
        # (what one kit kept is nothing to another)
        shutil.rmtree(rooms, ignore_errors=True)
        replace(kit, place.KIT)
