# The target starts a program at its entry, with all registers 0.
    .section .text.start
    .globl _start
_start:
    li   sp, 65536          # the stack grows down from the end of memory
    jal  main               # the result comes back in a0, which is x10
    li   a7, 93             # a7 is x17, and 93 there asks for the end
    ecall
