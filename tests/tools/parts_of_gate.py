"""Parts of the gate that tests/gate calls by themselves: its settings, sums of crates, what edits change, what rt's
output means, copies of files, and which task is next."""

import contextlib
import importlib.machinery
import importlib.util
import io
import sys
import tempfile
from pathlib import Path
from types import SimpleNamespace

TOP = Path(__file__).resolve().parent.parent.parent
PARTS = "crates", "edits", "files", "lanes", "place", "prover"
FUNCTIONS = """/// Has a contract.
pub fn plain() -> u32
    ensures result == HEAD
{
    PLAIN + TOO
}

pub fn bare() -> u32
{
    BARE
}

#[cycle(2)]
fn turning() -> u32
    ensures result == 1
{
    TURNING
}

impl Square {
    pub fn area(&self) -> u32
        ensures result == 1
    {
        AREA
    }
}
"""


def load(name="gate", is_listed=False):
    """`check` as a module, as helpers outside the repository load it, among the modules or not; and parts of it by
    their names."""
    loader = importlib.machinery.SourceFileLoader(name, str(TOP / "check"))
    module = importlib.util.module_from_spec(importlib.util.spec_from_loader(name, loader))
    if is_listed:
        sys.modules[name] = module
    loader.exec_module(module)
    return module, SimpleNamespace(**{it: sys.modules[f"gate.{it}"] for it in PARTS})


def settings(folder):
    """HERE, CACHE and KIT are those of the module, whenever they are set, and each load has its own."""
    loads = [load(), load("check"), load("gate", is_listed=True)]
    del sys.modules["gate"]
    for at, (module, _) in enumerate(loads):
        module.HERE, module.CACHE, module.KIT = f"/here{at}", f"/cache{at}", b"kit%d" % at
    for at, (_, parts) in enumerate(loads):
        came = parts.place.HERE, parts.place.CACHE, parts.place.KIT
        yield f"settings of load {at}", came, (f"/here{at}", f"/cache{at}", b"kit%d" % at)


def crates(folder):
    """Crates come behind those that they stand on, and their sums tell of each byte that their proofs are made from."""
    gate, parts = load()
    gate.HERE, gate.CACHE, gate.KIT = str(folder), str(folder / "cache"), b"kit"
    for name, text in {"crates.txt": "b: a kit_library\n\na: # (nothing)\n", "costs.txt": "b 7\n"}.items():
        Path(folder, name).write_text(text)
    names = "a/specs/a.antt", "a/must-fail/a.edit", "b/src/lib.rt", "b/must-fail/b.edit"
    files = [Path(folder, "crates", it) for it in names]
    for file in files:
        file.parent.mkdir(parents=True)
        file.write_text("text\n" * 3)
    a, b = gate.read_crates()
    yield "the order of crates", ([a.name, b.name], a.below(), b.below(), a.cost, b.cost), (["a", "b"], [], [a], 1, 7)

    def sums():
        """The sums of each crate's proof, and of its edit."""
        both = [(it.proof_sum(), it.sum_with([f"must-fail/{it.name}.edit"])) for it in gate.read_crates()]
        return dict(zip(("a", "edit of a", "b", "edit of b"), (it for pair in both for it in pair)))

    before = sums()
    changes = ["a", "edit of a", "b", "edit of b"], ["edit of a"], ["b", "edit of b"], ["edit of b"]
    for file, wanted in zip(files, changes):
        file.write_text("text\n" * 3 + "more")
        yield f"the sums that {file.name} is in", [it for it, sum in sums().items() if sum != before[it]], wanted
        file.write_text("text\n" * 3)
    gate.KIT = b"another"
    yield "the sums that the kit isn't in", [it for it, sum in sums().items() if sum == before[it]], []


def edits(folder):
    """An edit of one body is told by its function, where that has a contract and is in no cycle."""
    _, parts = load()
    crate, edit = SimpleNamespace(name="a", source=str(folder)), folder / "an.edit"
    for file in "src/lib.rt", "src/part.rt", "specs/a.rt":
        Path(folder, file).parent.mkdir(exist_ok=True)
        Path(folder, file).write_text(FUNCTIONS)
    for file, olds, wanted in [
            ("src/lib.rt", "PLAIN", "a::plain"), ("src/part.rt", "PLAIN", "a::part::plain"),
            ("src/part.rt", "AREA", "a::part::Square::area"), ("src/lib.rt", "PLAIN TOO", "a::plain"),
            ("src/lib.rt", "PLAIN AREA", None), ("specs/a.rt", "PLAIN", None), ("src/lib.rt", "HEAD", None),
            ("src/lib.rt", "BARE", None), ("src/lib.rt", "TURNING", None), ("src/lib.rt", "ABSENT", None)]:
        edit.write_text(f"file: {file}\n" + "".join(f"old: {it}\nnew: OTHER\n" for it in olds.split()))
        yield f"what an edit of {olds} in {file} changes", parts.edits.body_edited(crate, str(edit)), wanted
    edit.write_text("file: src/lib.rt\nold: PLAIN\nnew: AREA\nfile: src/part.rt\nold: AREA\nnew:\n")
    texts = parts.edits.edited(str(edit), str(folder), {})
    wanted = {"src/lib.rt": FUNCTIONS.replace("PLAIN", "AREA"), "src/part.rt": FUNCTIONS.replace("AREA", "")}
    yield "an edit of two files", (texts, parts.edits.body_edited(crate, str(edit))), (wanted, None)


def prover(folder):
    """What rt said is read as what it means."""
    _, parts = load()
    said = parts.prover
    error, unread = "src/lib.rt:3:5: error: it isn't so", "src/lib.rt:3:5: error: `x` is not in scope"
    of_proof, no = f"proofs{unread[3:]}", "logic=not-proved"
    functions = "fn a::b: not proved\nfn c: proved\nfn d: no proof: expected answers 1"
    clauses = "\n".join([
        "./proofs/Rows.antt:1:2: error: `row`: it isn't so", "./proofs/b/c/Answers.antt:1:2: error: `returns`: no",
        "./proofs/d/Answers.antt:1:2: error: `returns-else`: module `a` has no `b` that can be named from here",
        "./proofs/Rows.antt:3:1: error: 1 declaration that depends on `row`, which was rejected, was not checked: last",
        *(f"note: src/c.rt:1:2: it is not proved that it holds (`{it}`); `search` gave up" for it in "xy"),
        "fn a::c: no proof: expected answers in ./proofs/c/Answers.antt; `search` did not prove `x`, `y`",
        "fn a::d: no proof: it calls `a::c`, which is not proved"])
    for name, came, wanted in [
            ("a contract that was tried", said.told(1, f"{error}\n{no}"), [error]),
            ("a contract that was tried, with no line", said.told(1, no), [""]),
            ("a source that wasn't read", said.told(1, f"{unread}\n{no}"), []),
            ("a proof that wasn't read", said.told(1, f"{of_proof}\n{no}"), [of_proof]),
            ("a check that was killed", said.told(1, error) + said.told(-9, f"{error}\n{no}"), []),
            ("functions", said.functions_not_proved(functions), {"a::b", "d"}),
            ("clauses", said.names_refused(clauses), {"Rows::row", "b::c::returns", "c::x", "c::y"}),
            ("reasons", said.reasons(f"first\n{error}\nlast\n"), f"\n    {error}"),
            ("reasons with no place", said.reasons("\n".join("abcdefgh")), "".join(f"\n    {it}" for it in "cdefgh")),
            ("contracts that calls can meet", said.meets_calls(0, "warning: no call of `a::fn::b` can"), True),
            ("a contract that no call can meet", said.meets_calls(0, "x\nwarning: no call of `a::b` can"), False),
            ("a search with no end", said.meets_calls(0, "note: the search for empty contracts did not end"), False),
            ("tests", said.ran_tests(0, "test result: ok. 2 passed; 0 failed"), True),
            ("no tests", said.ran_tests(0, "nothing"), False),
            ("a program that ran", said.was_run(64, "logic=proved\nrt: running out/pli; to"), True),
            ("a program that didn't run", said.was_run(2, "rt: stopped"), False)]:
        yield name, came, wanted


def lanes(folder):
    """In one lane tasks come by the chains behind them, edits last; and what stands on one that fails isn't tried."""
    gate, parts = load()
    done = []

    def fail(share):
        raise gate.Failed("so")

    def note(key):
        return lambda share: done.append((key, share.first))

    a, b, c, tests, edits = ("a", "proof"), ("b", "proof"), ("c", "proof"), ("b", "tests"), ("a", "edits")
    tasks = {a: ([], 1), b: ([], 5), c: ([a], 10), tests: ([b], 1), edits: ([a], 100)}
    tasks = {key: (*task, note(key)) for key, task in tasks.items()}
    state = parts.lanes.Lanes(tasks, 4)
    yield "processes of tasks", [state.jobs(it, 4) for it in (a, edits, c, b)], [4, 4, 1, 1]
    yield "processes of tasks that are left", [state.jobs(c, others) for others in (1, 2)], [4, 2]
    with contextlib.redirect_stdout(io.StringIO()):
        passed, failed = gate.run_side_by_side(tasks, 1)
        wanted = [(a, True), (b, True), (c, False), (tests, False), (edits, False)]
        yield "the order of tasks", (done, passed, failed), (wanted, {*tasks}, {})
        passed, failed = gate.run_side_by_side({**tasks, a: ([], 1, fail)}, 1)
    not_tried = "not tried, since what it stands on failed"
    yield "tasks behind one that fails", failed, {a: "FAILED: so", c: not_tried, edits: not_tried}
    yield "tasks beside one that fails", passed, {b, tests}


def files(folder):
    """A copy is made equal, whatever stood in its place, and what is equal is left as it is."""
    _, parts = load()
    source, to = folder / "source", folder / "to"
    source.mkdir()
    Path(source, "a").write_text("a")
    to.write_text("a file in its place")
    parts.files.copy(str(source), str(to))
    same = Path(to, "a").stat().st_ino
    Path(to, "b").write_text("b")
    parts.files.copy(str(source), str(to))
    here = [it.name for it in to.iterdir()]
    yield "the copy of a folder", (here, Path(to, "a").read_text(), Path(to, "a").stat().st_ino), (["a"], "a", same)
    parts.files.copy(str(source / "a"), str(to))
    yield "the copy of a file", to.read_text(), "a"
    parts.files.copy(str(source / "none"), str(to))
    yield "the copy of what isn't there", to.exists(), False


def differences():
    """For each thing that is asked of the parts, what comes that is otherwise."""
    for check in settings, crates, edits, prover, lanes, files:
        with tempfile.TemporaryDirectory() as folder:
            for name, came, wanted in check(Path(folder)):
                yield [] if came == wanted else [f"{name}: wanted {wanted}, got {came}"]
