"""The files of crates that count, and copies of them that leave untouched what is equal."""
import hashlib
import os
import shutil

PARTS = ("src", "specs", "proofs")


def files_below(folder):
    """The plain files below a folder, in order, without what rt makes."""
    for at, folders, names in os.walk(folder):
        folders[:] = sorted(it for it in folders if it != "out")
        yield from (os.path.join(at, it) for it in sorted(names))


def read(path):
    """A file's bytes."""
    with open(path, "rb") as it:
        return it.read()


def is_same(file, other):
    """Whether both files are there and have the same bytes."""
    return os.path.isfile(file) and os.path.isfile(other) and read(file) == read(other)


def named_sum(file, folder):
    """What a sum over a folder takes of each file in it: its name there, and a sum of its bytes."""
    return os.path.relpath(file, folder).encode() + b"\0" + hashlib.sha256(read(file)).digest()


def replace(path, data):
    """Writes a file anew where its bytes differ: other rooms may hold links to the old one."""
    if os.path.isfile(path) and read(path) == data:
        return
    os.makedirs(os.path.dirname(path), exist_ok=True)
    with open(f"{path}.new", "wb") as it:
        it.write(data)
    os.replace(f"{path}.new", path)


def copy(source, to):
    """Makes a file or folder equal to another, and leaves untouched what is equal."""
    if os.path.isfile(source):
        if os.path.isdir(to):
            shutil.rmtree(to)
        return replace(to, read(source))
    if os.path.isfile(to):
        os.remove(to)
    wanted = {os.path.relpath(it, source) for it in files_below(source)}
    for it in [*files_below(to)]:
        if os.path.relpath(it, to) not in wanted:
            os.remove(it)
    for it in wanted:
        replace(os.path.join(to, it), read(os.path.join(source, it)))


def link(crate, to):
    """Links the sources and the built library of a crate into another's room."""
    shutil.rmtree(to, ignore_errors=True)
    for part in (*PARTS, os.path.join("out", "rlib")):
        if os.path.isdir(os.path.join(crate, part)):
            shutil.copytree(os.path.join(crate, part), os.path.join(to, part), copy_function=os.link)
