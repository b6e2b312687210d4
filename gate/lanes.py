"""Tasks side by side. A task is what it waits for, what it is about to cost, and a call that gets its share of the
processors and gives what to say of it; its key is a crate's name and what is done with it."""
import dataclasses
import os
import re
import subprocess
import time
from concurrent.futures import FIRST_COMPLETED, ThreadPoolExecutor, wait

from gate.files import read
from gate.report import Failed, say, seconds

GIGABYTES_OF_A_CHECK = 4


@dataclasses.dataclass
class Share:
    """How many processes a task may start, whether it goes before others, and the processor seconds that it used."""

    jobs: int
    first: bool
    used: float = 0


class Lanes:
    """Which tasks are left, run, passed and failed, and what each costs with the longest chain of others behind it."""

    def __init__(self, tasks, count):
        self.tasks, self.count, self.behind = tasks, count, costs_behind(tasks)
        self.left, self.running, self.passed, self.failed = sorted(tasks, key=self.order), {}, set(), {}

    def order(self, key):
        """What others wait for comes first, of that what has the longest chain behind it; and edits come last."""
        return key[1] == "edits", not self.is_awaited(key), -self.behind[key]

    def is_awaited(self, key):
        """Whether others wait for the task."""
        return self.behind[key] != self.tasks[key][1]

    def give_up(self):
        """Drops the tasks that wait for one that failed."""
        for key in [it for it in self.left if self.failed.keys() & self.tasks[it][0]]:
            self.left.remove(key)
            self.failed[key] = "not tried, since what it stands on failed"
            say(f"{' '.join(key)}: {self.failed[key]}")

    def start(self, pool):
        """Starts tasks that have nothing left to wait for, as many as there are lanes."""
        ready = [it for it in self.left if set(self.tasks[it][0]) <= self.passed]
        for at, key in enumerate(ready[:self.count - len(self.running)]):
            share = Share(self.jobs(key, len(ready) - at), self.is_awaited(key))
            self.left.remove(key)
            self.running[pool.submit(self.tasks[key][2], share)] = key, share, time.monotonic()

    def jobs(self, key, others):
        """How many processes a task may start: the two longest chains, which all the rest waits for, have one for
        each processor; what nothing waits for has those that are idle, with as many others, and one at least. Each
        process more loads what the others have: four take a quarter more of the processors than one."""
        ahead = [*self.left, *(it for it, _, _ in self.running.values())]
        if sum(self.behind[it] > self.behind[key] for it in ahead) < 2:
            return self.count
        return max(1, (self.count - len(self.running)) // others)

    def end(self):
        """Waits until one of the tasks that run ends, and says of each that ended what came of it."""
        for it in wait(self.running, return_when=FIRST_COMPLETED).done if self.running else ():
            key, share, began = self.running.pop(it)
            why = it.exception()
            if why and not isinstance(why, (Failed, OSError, subprocess.TimeoutExpired)):
                raise why
            if why:
                self.failed[key] = f"FAILED: {why}"
            else:
                self.passed.add(key)
            took = f"{time.monotonic() - began:.0f} s, {share.used:.0f} of processors, at {seconds():.0f} s"
            say(f"{key[0]}: {self.failed.get(key) or it.result()} ({took})")


def costs_behind(tasks):
    """What each task costs with the longest chain of others that wait for it; each stands behind those that it waits
    for."""
    behind = dict.fromkeys(tasks, 0)
    for key in reversed([*tasks]):
        behind[key] += tasks[key][1]
        for it in tasks[key][0]:
            behind[it] = max(behind[it], behind[key])
    return behind


def run_side_by_side(tasks, lanes):
    """Runs tasks, each once those that it waits for have ended well, first those with the longest chain of others
    behind them; those that passed, and what is to be said of each that failed."""
    state = Lanes(tasks, lanes)
    with ThreadPoolExecutor(lanes) as pool:
        while state.left or state.running:
            state.give_up()
            state.start(pool)
            state.end()
    return state.passed, state.failed


def lanes_here():
    """How many tasks this machine runs side by side: one for each processor, as far as there is memory for their
    checks."""
    memory = int(re.search(r"MemAvailable:\s+(\d+)", read("/proc/meminfo").decode())[1]) >> 20
    return max(1, min(len(os.sched_getaffinity(0)), memory // GIGABYTES_OF_A_CHECK))
