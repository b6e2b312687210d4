# The start of an image: a stack of 12 MiB above the code, so many rounds of work, and the end of the run (service 2).
        .section .text.start
        .globl  _start
_start: auipc   sp, 0
        lui     t0, 0xc00
        add     sp, sp, t0
        li      a0, ROUNDS
        call    work
        mv      s0, a0
        li      a0, 0
        li      a1, 0
        li      a7, 2
        ecall
