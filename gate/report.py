"""What the gate says and since when it runs, and the failures that end a task."""
import time

BEGAN = time.monotonic()


class Failed(Exception):
    """Something isn't as it must be; the text says what."""


class Late(Exception):
    """What was run took longer than it may."""


def seconds():
    """The seconds since the start."""
    return time.monotonic() - BEGAN


def say(text):
    """Prints at once, since a run takes hours and somebody may watch it."""
    print(text, flush=True)
