"""rt, and what its output means."""
import os
import re
import subprocess
import time

from gate import place
from gate.report import Late

STATUS_OF_TIMEOUT = 124
A_PLACE = r"(note: )?\S+:\d+:\d+:"
UNREAD = r"is not in scope|has no field|is no name|operand is missing|expected the end|cannot continue"
NAMELESS = r"is not in scope|has no field|that can be named"
WITHOUT_PROOF = r"note: src/|fn \S+: (not proved|no proof)"
NO_CALL = r"^(warning: no call of `(?![^`]*::fn::)|note: the search for empty contracts did not end)"


def run(share, words, folder, notes, most=None):
    """Runs rt in a folder with its share of the processors, for at most so many seconds; the status, and what it
    said, which stands in the file of notes too, with the seconds at each line: so what is slow can be found."""
    words = ["nice", "-n", "0" if share.first else "10", place.RT, *words]
    words, said, began = ["timeout", str(most), *words] if most else words, "", time.monotonic()
    streams = {"stdin": subprocess.DEVNULL, "stdout": subprocess.PIPE, "stderr": subprocess.STDOUT}
    with open(notes, "a") as file:
        file.write(f"{' '.join(words)}\n")
        with subprocess.Popen(words, cwd=folder, **streams) as ran:
            for line in (it.decode(errors="replace") for it in ran.stdout):
                said += line
                file.write(f"{time.monotonic() - began:6.0f} {line}")
                file.flush()
            _, status, used = os.wait4(ran.pid, 0)
            ran.returncode = os.waitstatus_to_exitcode(status)
    share.used += used.ru_utime + used.ru_stime
    if most and ran.returncode == STATUS_OF_TIMEOUT:
        raise Late
    return ran.returncode, said


def reasons(said, most=20):
    """The lines of what rt said that tell why it failed."""
    lines = said.rstrip().split("\n")
    errors = [it for it in lines if re.match(A_PLACE, it) and ": error" in it]
    without = [it for it in lines if re.match(WITHOUT_PROOF, it)]
    return "".join(f"\n    {it[:300]}" for it in (errors or without or lines[-6:])[:most])


def told(status, said):
    """The lines of what rt said that tell why it refused an edited crate; none where it didn't, or where no contract
    was tried."""
    lines = [it for it in said.split("\n") if re.match(A_PLACE, it) and (": error" in it or it.startswith("note: "))]
    unread = [it for it in lines if re.search(UNREAD, it) and not re.match(r"(note: )?(\./)?proofs/", it)]
    tried = status == 1 and not unread and re.search("^logic=not-proved", said, re.M)
    return (lines or [""]) if tried else []


def functions_not_proved(said):
    """The functions that rt says aren't proved."""
    return {*re.findall(r"^fn (\S+): (?:not proved|no proof: expected answers)", said, re.M)}


def names_refused(said):
    """What rt says it looked at and didn't prove: rows and lemmas as FILE::NAME, by their file of proofs/, and clauses
    as FUNCTION::GOAL, by what rt calls the function in its crate and the goal. What only names something that is gone
    isn't among them."""
    place = r"^(?:\./)?proofs/(\S+?)(?:/Answers)?\.antt:\d+:\d+: error:"
    declared = re.findall(place + rf" `([^`]+)`:(?!.*(?:{NAMELESS}))", said, re.M)
    return {f"{path.replace('/', '::')}::{name}" for path, name in declared} | goals_not_proved(said)


def goals_not_proved(said):
    """The goals that rt's search didn't prove, each noted before what rt says of its function."""
    goals, names = [], set()
    for line in said.split("\n"):
        goals += re.findall(r"^note: src/\S+ it is not proved .*\(`([^`]+)`\)", line)
        function = re.match(r"fn \w+::(\S+): ", line)
        if function:
            names.update(f"{function[1]}::{goal}" for goal in goals)
            goals = []
    return names


def meets_calls(status, said):
    """Whether rt looked for contracts that no call can meet, and found none."""
    return not status and not re.search(NO_CALL, said, re.M)


def has_looked_for_calls(status, said):
    """Whether rt says that it looked for such contracts, and found none."""
    return meets_calls(status, said) and bool(re.search("^empty contracts: ", said, re.M))


def ran_tests(status, said):
    """Whether rt ran the tests, and all passed."""
    return not status and bool(re.search(r"^test result: ok\. .* 0 failed", said, re.M))


def was_run(status, said):
    """Whether rt got as far as to run the program, whose status is then its own; a stamp of an earlier build says
    nothing of one that stopped before."""
    return not status or bool(re.search("^rt: running ", said, re.M))
