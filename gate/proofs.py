"""A crate's proof, and what else it must pass: its layout, contracts that calls can meet, its tests, its program's
output."""
import contextlib
import os
import shutil
import subprocess
import tempfile

from gate import memory, place, prover
from gate.files import PARTS, copy, files_below, is_same, read, replace
from gate.report import Failed

SECONDS_OF_A_PROGRAM = 120


def prove(crate, share):
    """Proves the crate over what earlier runs kept, and builds its library or program. Contracts of a library that no
    call can meet are looked for with its proof: what that takes is read and made then."""
    crate.enter()
    marked = os.path.join(crate.room, "mark")
    if os.path.isfile(marked) and os.path.isfile(crate.stamp()) and read(marked) == crate.mark():
        return "kept"
    if crate.is_program:
        status, said = crate.rt(share, "run", "--jobs", str(share.jobs), "--", *crate.arguments())
        status = 0 if os.path.isfile(crate.stamp()) and prover.was_run(status, said) else status or 1
    else:
        status, said = crate.rt(share, "lib", "--jobs", str(share.jobs), "--empty-contracts")
        if prover.has_looked_for_calls(status, said):
            memory.remember(f"{crate.name}/contracts", crate.proof_sum())
    if status:
        raise Failed(f"not proved{prover.reasons(said)}")
    replace(marked, crate.mark())
    return "proved" if "logic=proved" in said else "kept"


def judge(crate, share):
    """Says what passed beside the proof: the layout, contracts that a call can meet, the tests, and a program's
    output as both of Rattle's compilers make it."""
    check_layout(crate, share)
    check_contracts(crate, share)
    if crate.is_program:
        return run_as_built(crate, share)
    if not any(b"#[test]" in read(it) for it in files_below(os.path.join(crate.source, "src"))):
        return "no tests"
    run_tests(crate, share)
    return "tests passed"


def check_layout(crate, share):
    """Has rt lay out a copy of the crate's files, and fails where one then differs: other rooms hold links to those of
    its room."""
    with tempfile.TemporaryDirectory() as room:
        folder = os.path.join(room, "crates", crate.name)
        replace(os.path.join(room, "crates.txt"), f"{crate.name}:\n".encode())
        for part in PARTS:
            copy(os.path.join(crate.source, part), os.path.join(folder, part))
        crate.rt(share, "fmt", folder=folder)
        laid_out = lambda it: os.path.join(folder, os.path.relpath(it, crate.source))
        moved = [it for it in crate.files() if not is_same(it, laid_out(it))]
    if moved:
        raise Failed(f"not in the layout of rt fmt: {' '.join(os.path.relpath(it, place.HERE) for it in moved)}")


def check_contracts(crate, share):
    """Looks for contracts that no call can meet, unless that was done with the proof."""
    if memory.passed_before().get(f"{crate.name}/contracts") == crate.proof_sum():
        return
    status, said = crate.rt(share, "check", "--jobs", str(share.jobs), "--empty-contracts")
    if not prover.meets_calls(status, said):
        raise Failed(f"a contract that no call can meet\n{said[-2000:]}")


def run_tests(crate, share):
    """Runs a library's tests as they stand, since a proof of them takes longer than that of the crate; and where they
    are too long for that, as they are built."""
    for words in (["try", "--test"], ["test", "--jobs", str(share.jobs)]):
        status, said = crate.rt(share, *words)
        if prover.ran_tests(status, said):
            return
    raise Failed(f"its tests failed{prover.reasons(said)}")


def run_as_built(crate, share):
    """Runs the crate's program as LLVM made it when it was proved, and then as Rattle's own compiler does. Where that
    one refuses it, which the kit lets pass, it is said."""
    status, said = crate.rt(share, "run", "--", *crate.arguments())
    if not prover.was_run(status, said):
        raise Failed(f"LLVM doesn't build it{prover.reasons(said)}")
    run_program(crate)
    with set_aside(os.path.join(crate.folder, "out", crate.name), crate.stamp()):
        status, said = crate.rt(share, "run", "--backend", "rattle", "--", *crate.arguments())
        if not prover.was_run(status, said):
            return f"runs as it must, by LLVM alone{prover.reasons(said)}"
        run_program(crate)
    return "runs as it must"


@contextlib.contextmanager
def set_aside(program, stamp):
    """Leaves room for another build of a program, and has this one stand in its place again afterwards: LLVM takes
    minutes for it. The stamp goes first and comes last, so what is cut off between is built anew."""
    for file in (stamp, program):
        os.replace(file, f"{file}.aside")
    try:
        yield
    finally:
        for file in (program, stamp):
            os.replace(f"{file}.aside", file)


def given(crate, name):
    """A file beside the crate's sources, or nothing where there is none."""
    file = os.path.join(crate.source, name)
    return read(file) if os.path.isfile(file) else b""


def run_program(crate):
    """Runs the crate's program in a folder with its data, and compares what it prints and answers with the crate's
    files."""
    with tempfile.TemporaryDirectory() as room:
        if os.path.isdir(os.path.join(crate.source, "data")):
            shutil.copytree(os.path.join(crate.source, "data"), room, dirs_exist_ok=True)
        words = [os.path.join(crate.folder, "out", crate.name), *crate.arguments()]
        streams = {"input": given(crate, "stdin"), "stdout": subprocess.PIPE, "stderr": subprocess.PIPE}
        ran = subprocess.run(words, cwd=room, timeout=SECONDS_OF_A_PROGRAM, **streams)
    if ran.returncode != int(given(crate, "status") or 0) or ran.stdout != given(crate, "stdout"):
        printed = f"printed {ran.stdout[-300:]!r}, which isn't what its files say"
        raise Failed(f"the program ended with {ran.returncode} and {printed}")
