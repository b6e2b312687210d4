"""Must-fail edits: changes of a crate that its prover must refuse, each by the contract that it breaks."""
import contextlib
import os
import re
import shutil
import tempfile
import time

from gate import memory, place, prover
from gate.files import read, replace
from gate.report import Failed, Late, say

SECONDS_OF_AN_EDIT = 900


def path_of(crate, name):
    """The file of one of the crate's edits."""
    return os.path.join(crate.source, "must-fail", name)


def changes_of(edit):
    """The changes that a must-fail edit makes: of each the file, the text that is there once, and the one that takes
    its place."""
    file, old, changes = None, None, []
    for line in read(edit).decode().split("\n"):
        word, _, text = line.partition(":")
        if word == "file":
            file = text.strip()
        elif word == "old":
            old = text[1:]
        elif word == "new":
            if file is None or old is None:
                raise Failed("BAD EDIT: a new text without a file or an old text before it")
            changes.append((file, old, text[1:]))
    return changes


def refusers_of(edit):
    """The rows and clauses by which a must-fail edit says that it is refused, as names of `prover.names_refused`."""
    lines = [it.partition(":") for it in read(edit).decode().split("\n")]
    return {text.strip() for word, _, text in lines if word == "refused-by"}


def text_of(folder, file):
    """The text of a file that an edit names."""
    path = os.path.join(folder, file)
    if not os.path.isfile(path):
        raise Failed(f"BAD EDIT: there is no file {file}")
    return read(path).decode()


def edited(edit, folder, texts):
    """Makes a must-fail edit in texts of files, which it reads where they aren't there yet."""
    for file, old, new in changes_of(edit):
        text = texts[file] if file in texts else text_of(folder, file)
        if text.count(old) != 1:
            raise Failed(f"BAD EDIT: the old text is there {text.count(old)} times")
        texts[file] = text.replace(old, new)
    return texts


def functions_in(text):
    """The functions of a source, and those in its impls: each with its indent, and where its body begins and ends."""
    for indent in ("", "    "):
        for it in re.finditer(rf"^{indent}(?:pub )?fn (\w+)", text, re.M):
            yield it, indent, text.find(f"\n{indent}{{\n", it.end()), text.find(f"\n{indent}}}\n", it.end())


def body_edited(crate, edit):
    """The function whose body alone a must-fail edit changes, as rt names it; None where the edit changes more. It
    has a contract, so that no other function's proof reads its body, and stands in no cycle of calls."""
    changes = changes_of(edit)
    file, olds = changes[0][0] if changes else "", [old for _, old, _ in changes]
    if {it for it, _, _ in changes} != {file} or not file.startswith("src/"):
        return None
    text = text_of(crate.source, file)
    path = [crate.name, *file[len("src/"):-len(".rt")].split("/")]
    path = path[:-1] if path[-1] == "lib" else path
    for it, indent, begin, end in functions_in(text):
        head, above = text[it.start():begin], text[:it.start()].rpartition("\n\n")[2]
        inside = begin < end and all(begin < text.find(old) and text.find(old) + len(old) <= end for old in olds)
        if inside and "ensures" in head and "cycle(" not in above:
            impls = re.findall(r"^(?:impl(?:<[^{]*?>)? (\w+)[^{]*|\}) ?\{?$", text[:it.start()], re.M)
            return "::".join([*path, *(impls[-1:] if indent else []), it[1]])
    return None


def check_edited(crate, share, folder, texts):
    """What rt says of the crate's copy with other texts in its files, which then are as before."""
    for file, text in texts.items():
        replace(os.path.join(folder, file), text.encode())
    try:
        return crate.rt(share, "check", "--jobs", "1", folder=folder, most=SECONDS_OF_AN_EDIT)
    finally:
        for file in texts:
            replace(os.path.join(folder, file), read(os.path.join(crate.source, file)))


def refused(crate, share, folder, edit):
    """Why the prover refuses the crate with this edit; the folder holds a copy of the crate, and holds it again
    afterwards."""
    status, said = check_edited(crate, share, folder, edited(edit, crate.source, {}))
    if status == 0:
        raise Failed("NOT REFUSED: the crate is proved with this edit")
    why = prover.told(status, said)
    if not why:
        raise Failed(f"BAD EDIT: no contract was tried{prover.reasons(said)}")
    refusers, names = refusers_of(edit), prover.names_refused(said)
    if not refusers <= names:
        raise Failed(f"REFUSED OTHERWISE: by {', '.join(sorted(names))}, not by {', '.join(sorted(refusers - names))}")
    return why[0][:160]


def one_of_each_function(crate, names):
    """The edits that change the body of one function alone, by that function: the first of each."""
    functions = {}
    for name in names:
        # (what is wrong with an edit is told where it is tried by itself)
        with contextlib.suppress(Failed):
            functions.setdefault(body_edited(crate, path_of(crate, name)), name)
    functions.pop(None, None)
    return functions


def refused_together(crate, share, folder, names):
    """Which edits the prover refuses where it reads the crate once for all that change bodies of different functions:
    those whose function isn't proved. A function's proof reads no other's body, so each is refused for what it
    changes itself."""
    functions, texts = one_of_each_function(crate, names), {}
    if len(functions) < 2:
        return []
    try:
        for name in functions.values():
            edited(path_of(crate, name), crate.source, texts)
        status, said = check_edited(crate, share, folder, texts)
    except (Failed, Late):
        return []
    is_told = prover.told(status, said)
    return [name for function, name in functions.items() if is_told and refused_as_said(crate, function, name, said)]


def refused_as_said(crate, function, name, said):
    """Whether rt said that the function isn't proved, with each clause by which the edit of it says so."""
    own = function.removeprefix(f"{crate.name}::") + "::"
    names = {it for it in prover.names_refused(said) if it.startswith(own)}
    return function in prover.functions_not_proved(said) and refusers_of(path_of(crate, name)) <= names


@contextlib.contextmanager
def copy_of_room(crate):
    """The crate's folder in a copy of its room, with what its proof kept."""
    with tempfile.TemporaryDirectory(dir=place.CACHE, prefix="edits-") as room:
        folder, kept = os.path.join(room, "crates", crate.name), os.path.join("out", "incremental")
        without = {"copy_function": os.link, "ignore": lambda at, _: ["out"] if at == crate.folder else []}
        shutil.copytree(crate.room, room, dirs_exist_ok=True, **without)
        shutil.copytree(os.path.join(crate.folder, kept), os.path.join(folder, kept))
        yield folder


def try_edits(crate, share, names):
    """Tries must-fail edits of the crate on a copy of its folder: first together what can be, then in turn what is
    left, as far as there is time."""
    if memory.is_too_late():
        memory.LEFT.extend(f"{crate.name}/{name}" for name in names)
        return f"{len(names)} edits left"
    failed, left = [], 0
    with copy_of_room(crate) as folder:
        sums = {it: crate.sum_with([os.path.join("must-fail", it)]) for it in names}
        together = try_together(crate, share, folder, sums)
        for name in [it for it in names if it not in together]:
            try:
                try_alone(crate, share, folder, name, sums[name])
            except Failed as why:
                failed.append(name)
                say(f"must-fail {crate.name}/{name}: {why}")
            except Late:
                left += 1
                memory.LEFT.append(f"{crate.name}/{name}")
    if failed:
        raise Failed(f"edits that failed: {' '.join(failed)}")
    return f"{len(names) - left} edits refused" + (f", {left} left" if left else "")


def try_together(crate, share, folder, sums):
    """The edits that are refused together; says which, and remembers them by their sums."""
    began = time.monotonic()
    together = refused_together(crate, share, folder, [*sums])
    for name in together:
        memory.remember(f"{crate.name}/{name}", sums[name])
    if together:
        say(f"must-fail {crate.name}: refused together ({time.monotonic() - began:.0f} s): {' '.join(together)}")
    return together


def try_alone(crate, share, folder, name, sum):
    """Tries an edit by itself, says how it was refused, and remembers it by its sum; Late where there is no time."""
    if memory.is_too_late():
        raise Late
    began = time.monotonic()
    try:
        why = refused(crate, share, folder, path_of(crate, name))
    except Late:
        say(f"must-fail {crate.name}/{name}: neither refused nor proved ({time.monotonic() - began:.0f} s)")
        raise
    memory.remember(f"{crate.name}/{name}", sum)
    say(f"must-fail {crate.name}/{name}: refused ({time.monotonic() - began:.0f} s): {why}")
