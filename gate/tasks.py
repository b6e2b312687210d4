"""What there is to do for the crates, and the whole of it."""
import functools
import os
import resource

from gate import memory
from gate.cases import run_cases
from gate.crates import OF_A_RUN, below_program
from gate.edits import try_edits
from gate.lanes import run_side_by_side
from gate.proofs import judge, prove
from gate.release import is_released
from gate.report import say, seconds
from gate.speed import tell_speed


def judge_in_time(crate, share, sum):
    """Judges a crate, and remembers by the sum that it passed; or leaves its tests to the next run where it is too
    late."""
    if memory.is_too_late():
        memory.LEFT.append(f"{crate.name}/tests")
        return "tests left"
    said = judge(crate, share)
    memory.remember(f"{crate.name}/tests", sum)
    return said


def tasks_of(crates, alone):
    """What is to be done for the crates: each one's proof and, unless only a program is wanted, what else it must
    pass."""
    tasks, before = {}, memory.passed_before()
    for it in crates:
        tasks[it.name, "proof"] = [(dep.name, "proof") for dep in it.deps], it.left(), functools.partial(prove, it)
    for it in [] if alone else crates:
        proved, sum = [(it.name, "proof")], it.sum_with(OF_A_RUN)
        has_passed = lambda name: before.get(f"{it.name}/{name}") == it.sum_with([os.path.join("must-fail", name)])
        edits = [name for name in it.edits() if not has_passed(name)]
        if before.get(f"{it.name}/tests") != sum:
            tasks[it.name, "tests"] = proved, it.cost, functools.partial(judge_in_time, it, sum=sum)
        if edits:
            tasks[it.name, "edits"] = proved, it.cost, functools.partial(try_edits, it, names=edits)
    return tasks


def check_all(crates, lanes):
    """Everything: says how many crates and cases passed, and how many failed; the status."""
    _, failed = run_side_by_side(tasks_of(crates, False), lanes)
    broken = {name for name, _ in failed}
    well, ill = len(crates) - len(broken), len(broken)
    if not broken & {"pli", "dump_tree", "show_outcome"}:
        passed, lost = run_cases(crates)
        same = is_released(below_program(crates))
        tell_speed(below_program(crates)[-1])
        well, ill = well + passed + same, ill + lost + (not same)
    for key, why in failed.items():
        # (once more at the end, where a reader of a long output looks)
        say(f"{' '.join(key)}: {why}")
    used = resource.getrusage(resource.RUSAGE_CHILDREN)
    if memory.LEFT:
        say(f"left for the next run: {' '.join(memory.LEFT)}")
    say(f"took {seconds():.0f} s and {used.ru_utime + used.ru_stime:.0f} processor seconds on {lanes} lanes")
    say(f"{well} passed, {ill} failed")
    return 1 if ill else 0
