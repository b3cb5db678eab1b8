/* What a program must not do, one after the other: a debugger passes each by. */
int main(void) {
    asm volatile(".globl at_break\nat_break: .insn i 0x73, 0, x0, x0, 1");
    asm volatile(".globl at_illegal\nat_illegal: .word 0");
    asm volatile(".globl at_load\nat_load: lw t0, -4(x0)" ::: "t0");
    asm volatile(".globl at_store\nat_store: sw x0, -4(x0)");
    return 7;
}
