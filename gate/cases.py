"""The scripts of tests/, which run the built programs."""
import os
import re
import subprocess

from gate import place
from gate.report import say


def scripts(made):
    """Each script with its words, by the built programs of crates."""
    pli = ["--pli", made["pli"]]
    yield ["run", *pli, "--dump", made["dump_tree"], "--outcome", made["show_outcome"]]
    for name in ("hostile_images", "command_line", "listing", "examples", "refused_memory"):
        yield [name, *pli]
    yield ["gate"]
    yield ["map"]
    yield ["numbers"]


def run_cases(crates):
    """Runs the cases under tests/ with the built programs; how many passed and failed. A script that doesn't say it
    last has failed."""
    made = {it.name: os.path.join(it.folder, "out", it.name) for it in crates}
    passed = failed = 0
    for name, *words in scripts(made):
        script = os.path.join(place.HERE, "tests", name)
        ran = subprocess.run([script, *words], stdout=subprocess.PIPE, stderr=subprocess.STDOUT)
        said = ran.stdout.decode(errors="replace").rstrip()
        say(f"tests/{name}: {said}")
        found = re.search(r"^(\d+) passed, (\d+) failed\Z", said, re.M)
        passed, failed = passed + int(found[1] if found else 0), failed + int(found[2] if found else 1)
    return passed, failed
