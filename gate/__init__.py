"""The parts of the gate, which `check` puts together.

place    where it works: the checkout, the cache, rt and the kit
report   what it says, and the failures that end a task
files    the files that count, and copies that leave untouched what is equal
crates   the crates, their rooms, and sums of what their proofs are made from
prover   rt, and what its output means
proofs   a crate's proof, and what else it must pass
edits    must-fail edits
memory   what passed in earlier runs, and what this one leaves to the next
tasks    what there is to do
lanes    tasks side by side
cases    the scripts of tests/
release  the program that users get"""
