"""How fast the built program is. The figures are told for readers, once for each program; nothing fails by them."""
import os
import subprocess

from gate import memory, place
from gate.report import say, seconds

SCRIPTS = "programs", "services", "compiling"
SECONDS_OF_A_SCRIPT = 240
SECONDS_TO_LAST_SCRIPT = 9000


def measured(script, program):
    """What a script of benches/ says of the program."""
    try:
        ran = subprocess.run(
            [script, "--pli", program], stdout=subprocess.PIPE, stderr=subprocess.STDOUT, timeout=SECONDS_OF_A_SCRIPT
        )
    except subprocess.TimeoutExpired:
        return f"not done in {SECONDS_OF_A_SCRIPT} s"
    return ran.stdout.decode(errors="replace").rstrip()


def tell_speed(crate):
    """Tells how fast the program of the crate is, where that wasn't told yet and there is time."""
    scripts = [os.path.join(place.HERE, "benches", name) for name in SCRIPTS]
    if memory.passed_before().get("speed") == crate.proof_sum() or not all(map(os.path.isfile, scripts)):
        return
    for script in scripts:
        if seconds() < SECONDS_TO_LAST_SCRIPT:
            program = os.path.join(crate.folder, "out", crate.name)
            say(f"benches/{os.path.basename(script)}: {measured(script, program)}")
    memory.remember("speed", crate.proof_sum())
