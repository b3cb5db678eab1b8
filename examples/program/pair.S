# Two threads: the first one asks for the second, and waits for its answer, with which the program ends.
    .section .text.start
    .globl _start
_start:
    la   a0, second         # where the new thread begins
    li   a1, 14             # what it finds in its own a0
    li   a7, 1000           # a7 is x17, and 1000 there asks for a thread
    ecall                   # its number comes back in a0
wait:
    lw   t0, answer
    beqz t0, wait
    mv   a0, t0
    li   a7, 93
    ecall

second:
    slli t0, a0, 1
    add  a0, a0, t0
    la   t1, answer
    sw   a0, 0(t1)
    j    .

    .data
answer:
    .word 0
