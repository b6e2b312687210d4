"""The crates: what each stands on, the room that it is proved in, and sums of what its proof is made from."""
import functools
import hashlib
import os
import re

from gate import place, prover
from gate.files import PARTS, copy, files_below, is_same, link, named_sum, read, replace
from gate.report import Failed

OF_A_RUN = ("data", "args", "stdin", "stdout", "status")
STAMP_OF_LIBRARY = os.path.join("out", "rlib", "stamp")
LINES_OF_A_SECOND = 3


class Crate:
    """A crate of the repository: its name, those that it stands on, and the room that it is proved in."""

    def __init__(self, name, line, crates):
        self.name, self.line, self.source = name, line, os.path.join(place.HERE, "crates", name)
        self.room = os.path.join(place.CACHE, "rooms", name)
        self.folder = os.path.join(self.room, "crates", name)
        self.deps = [crates[it] for it in words_behind(line) if it in crates]
        self.is_program = os.path.isfile(os.path.join(self.source, "src", "main.rt"))
        self.made_from = None
        sources = [it for it in files_below(self.source) if it.endswith((".rt", ".antt"))]
        lines = sum(read(it).count(b"\n") for it in sources)
        self.cost = measured_costs().get(name, lines // LINES_OF_A_SECOND)

    @functools.cache
    def below(self):
        """The crates below this one, each after those that it stands on."""
        return list(dict.fromkeys(it for dep in self.deps for it in [*dep.below(), dep]))

    def files(self):
        """The files that its proof is made from."""
        return [file for part in PARTS for file in files_below(os.path.join(self.source, part))]

    def in_room(self, file):
        """Where a file of the crate stands in its room."""
        return os.path.join(self.folder, os.path.relpath(file, self.source))

    def proof_sum(self):
        """A sum of all that the crate's proof is made from."""
        if not self.made_from:
            sum = hashlib.sha256(place.KIT)
            for it in [*self.below(), self]:
                sum.update(it.line.encode())
                for file in it.files():
                    sum.update(named_sum(file, it.source))
            self.made_from = sum.hexdigest()
        return self.made_from

    def sum_with(self, names):
        """A sum of what the crate's proof and these of its files and folders are made from."""
        sum = hashlib.sha256(self.proof_sum().encode())
        for path in [os.path.join(self.source, name) for name in names]:
            for file in [path] if os.path.isfile(path) else files_below(path):
                sum.update(named_sum(file, self.source))
        return sum.hexdigest()

    def edits(self):
        """The crate's must-fail edits, by their names."""
        files = files_below(os.path.join(self.source, "must-fail"))
        return [os.path.basename(it) for it in files if it.endswith(".edit")]

    def stamp(self):
        """Where rt leaves its stamp of what was built."""
        of_program = os.path.join("out", f"{self.name}.stamp")
        return os.path.join(self.folder, of_program if self.is_program else STAMP_OF_LIBRARY)

    def mark(self):
        """What tells a crate that was proved as it is: the sum of all that its proof is made from, and rt's stamp."""
        return hashlib.sha256(self.proof_sum().encode() + read(self.stamp())).hexdigest().encode()

    def left(self):
        """What its proof is about to cost: nothing where its room holds what was built of the same files."""
        as_built = os.path.isfile(self.stamp()) and all(is_same(it, self.in_room(it)) for it in self.files())
        return 0 if as_built else self.cost

    def enter(self):
        """Takes the crate's files over into its room, and links what stands below it."""
        os.makedirs(self.folder, exist_ok=True)
        listed = "".join(f"{it.line}\n" for it in [*self.below(), self]).encode()
        replace(os.path.join(self.room, "crates.txt"), listed)
        for name in (*PARTS, *OF_A_RUN, "must-fail"):
            copy(os.path.join(self.source, name), os.path.join(self.folder, name))
        for it in self.below():
            to = os.path.join(self.room, "crates", it.name)
            linked, stamp = os.path.join(to, STAMP_OF_LIBRARY), os.path.join(it.folder, STAMP_OF_LIBRARY)
            if not os.path.isfile(linked) or read(linked) != read(stamp):
                link(it.folder, to)

    def arguments(self):
        """The words that the crate's program is run with."""
        file = os.path.join(self.source, "args")
        return read(file).decode().splitlines() if os.path.isfile(file) else []

    def rt(self, share, *words, folder=None, most=None):
        """Runs rt in the crate's folder, or another, with its share of the processors, for at most so many seconds;
        the status, and what it said."""
        return prover.run(share, words, folder or self.folder, os.path.join(self.room, "said"), most)


@functools.cache
def measured_costs():
    """The processor seconds that the proofs of crates took once, by their names. They only say which proof goes
    first."""
    lines = read(os.path.join(place.HERE, "costs.txt")).decode().splitlines()
    costs = [it.split() for it in lines if it and not it.startswith("#")]
    return {name: int(seconds) for name, seconds in costs}


def words_behind(line):
    """The names behind the colon of a line of crates.txt: crates, and libraries of the kit."""
    return line.partition(":")[2].split()


def read_crates():
    """The crates of crates.txt, each after those that it stands on."""
    listed = read(os.path.join(place.HERE, "crates.txt")).decode().split("\n")
    lines = [it for it in (re.sub("#.*", "", line).strip() for line in listed) if it]
    lines, crates = {it.partition(":")[0].strip(): it for it in lines}, {}
    while len(crates) < len(lines):
        left = [it for it in lines if it not in crates]
        ready = [it for it in left if not (set(words_behind(lines[it])) & set(lines)) - set(crates)]
        if not ready:
            raise Failed("crates.txt has crates that stand on each other")
        for name in ready:
            crates[name] = Crate(name, lines[name], crates)
    return [*crates.values()]


def below_program(crates):
    """The crates that the program is made from, itself the last."""
    program = next(it for it in crates if it.name == "pli")
    return [*program.below(), program]
