"""A tiny repository for tests/gate: six crates of a few lines each, the repository's own `check`, and a stub of rt."""

import os
import re
import shlex
import shutil
import subprocess
import sys
from pathlib import Path

TOP = Path(__file__).resolve().parent.parent.parent
OF_THE_GATE = "check", "gate", "pli", ".ci", "tests/run", "tests/tools/short_form.py"
OTHER_SCRIPTS = "hostile_images", "command_line", "listing", "examples", "refused_memory", "gate", "map", "numbers"
PASSED = "#!/bin/sh\necho 1 passed, 0 failed\n"
STRIP = '#!/bin/sh\ncp "$3" "$2"\n'
# (so that the test doesn't wait behind whatever else the machine does)
NICE = '#!/bin/sh\nshift 2\nexec "$@"\n'
# (Python begins some 200 times, and without what a machine adds to it in a fifth of the time)
PYTHON = f'#!/bin/sh\nexec {shlex.quote(sys.executable)} -S "$@"\n'
SECONDS_OF_A_RUN = 300

FUNCTIONS = """#![tactic(auto)]

pub fn one() -> u32
    ensures result == 1
{
    FIRST + SECOND
}

pub fn two() -> u32
    ensures result == 2
{
    THIRD
}
"""
PLI = """#!/bin/sh
case "$1" in
run) echo 3 ;;
compile) ;;
*) echo usage; exit 64 ;;
esac
"""
CASES = """Cases of a program that says 3.

== says_three
T
=> status 0
3
== is_accepted
T
=> accepted
"""
# Loads `check` as a module, as helpers outside the repository do, and sets limits of its parts.
LOADED = """
import importlib.machinery, importlib.util, sys
loader = importlib.machinery.SourceFileLoader("gate", "check")
gate = importlib.util.module_from_spec(importlib.util.spec_from_loader("gate", loader))
loader.exec_module(gate)
gate.KIT = gate.kit()
for word in sys.argv[1:]:
    part, name, value = word.split()
    setattr(sys.modules[f"gate.{part}"], name, int(value))
sys.exit(gate.main([]))
"""


def with_limits(*limits):
    """The words that run the gate with other limits of its parts: each a part, a name and a number."""
    return ["python3", "-B", "-c", LOADED, *limits]


def edit(old, new, file="src/lib.rt", refuser=None):
    """A must-fail edit, with what must refuse it where that is said."""
    return f"file: {file}\nold: {old}\nnew: {new}\n" + (f"refused-by: {refuser}\n" if refuser else "")


FILES = {
    "crates.txt": "# (with what each stands on)\nlow: smallvec\nmiddle: low\nbeside: low\npli: middle low\n"
    "dump_tree: low\nshow_outcome: low\n",
    "costs.txt": "# Seconds.\nlow 3\nmiddle 5\n",
    "crates/low/src/lib.rt": FUNCTIONS,
    "crates/middle/src/lib.rt": FUNCTIONS,
    "crates/beside/src/lib.rt": f"{FUNCTIONS}\n#[test]\nfn holds() {{}}\n",
    "crates/beside/specs/meaning.antt": "MEANING\n",
    "crates/beside/must-fail/first.edit": edit("FIRST", "REFUSED", refuser="one::returns"),
    "crates/beside/must-fail/second.edit": edit("SECOND", "REFUSED"),
    "crates/beside/must-fail/third.edit": edit("THIRD", "REFUSED"),
    "crates/beside/must-fail/meaning.edit": edit("MEANING", "REFUSED", "specs/meaning.antt", "Rows::row"),
    "crates/pli/src/main.rt": PLI,
    "crates/pli/status": "64\n",
    "crates/pli/stdout": "usage\n",
    "crates/dump_tree/src/main.rt": "#!/bin/sh\necho tree\n",
    "crates/dump_tree/stdout": "tree\n",
    "crates/show_outcome/src/main.rt": "#!/bin/sh\ncat\n# rattle: true\n",
    "crates/show_outcome/stdin": "outcome\n",
    "crates/show_outcome/stdout": "outcome\n",
    "tests/cases/tiny.cases": CASES,
}


class Repository:
    """A checkout, a cache, a stub of rt, and the file of what it was called for, in a folder."""

    def __init__(self, folder):
        self.folder, self.top, self.calls = Path(folder), Path(folder, "checkout"), Path(folder, "calls")
        self.kept = Path(folder, "cache", "cervadeg")

    def make(self):
        """Writes all files."""
        for name in OF_THE_GATE:
            copy = shutil.copytree if Path(TOP, name).is_dir() else shutil.copy2
            Path(self.top, name).parent.mkdir(parents=True, exist_ok=True)
            copy(Path(TOP, name), Path(self.top, name))
        for name, content in FILES.items():
            self.write(name, content)
        for name in OTHER_SCRIPTS:
            self.write_program(Path(self.top, "tests", name), PASSED)
        self.write_program(Path(self.folder, "bin", "rt"), Path(TOP, "tests", "tools", "stub_rt").read_text())
        self.write_program(Path(self.folder, "bin", "strip"), STRIP)
        self.write_program(Path(self.folder, "bin", "nice"), NICE)
        self.write_program(Path(self.folder, "bin", "python3"), PYTHON)

    def copied(self, folder):
        """A copy of it, with what its cache keeps."""
        shutil.copytree(self.folder, folder)
        return Repository(folder)

    def write(self, name, content):
        """Writes a file of the checkout."""
        file = Path(self.top, name)
        file.parent.mkdir(parents=True, exist_ok=True)
        file.write_text(content)

    def write_program(self, file, content):
        """Writes a file that can be run."""
        file.parent.mkdir(parents=True, exist_ok=True)
        file.write_text(content)
        file.chmod(0o755)

    def change(self, name, old, new):
        """Changes a text in a file of the checkout, which must be there."""
        text = Path(self.top, name).read_text()
        assert old in text, f"{name} has no {old}"
        self.write(name, text.replace(old, new))

    def flip(self, name):
        """Changes the first byte of a file of the cache, in a file of its own: others may be links to the old one."""
        file = Path(self.kept, name)
        first, *rest = file.read_bytes()
        file.unlink()
        file.write_bytes(bytes([first ^ 1, *rest]))

    def change_kept(self, name, pattern, new):
        """Changes what the expression finds in a file of the cache."""
        file = Path(self.kept, name)
        text, count = re.subn(pattern, new, file.read_text(), flags=re.M)
        assert count == 1, f"{name} has {count} of {pattern}"
        file.write_text(text)

    def run(self, *words, **more):
        """Runs a program in the checkout: its status, what it said, and what rt was called for."""
        self.calls.write_text("")
        path = os.pathsep.join([str(Path(self.folder, "bin")), os.environ["PATH"]])
        own = {"PATH": path, "XDG_CACHE_HOME": str(self.kept.parent), "RT_CALLS": str(self.calls)}
        streams = {"stdin": subprocess.DEVNULL, "stdout": subprocess.PIPE, "stderr": subprocess.STDOUT}
        own = {**os.environ, **own, **more}
        ran = subprocess.run(words, cwd=self.top, env=own, timeout=SECONDS_OF_A_RUN, **streams)
        return ran.returncode, ran.stdout.decode(errors="replace"), self.calls.read_text().splitlines()
