/* For programs of any size: all that a program has follows from 4,096 on, and the stack has what is left. */
ENTRY(_start)
SECTIONS
{
    .text 0x1000 : { *(.text.start) *(.text .text.*) }
    .rodata : { *(.rodata .rodata.* .srodata .srodata.*) }
    . = ALIGN(0x1000); /* what is written begins a page of its own, as debuggers and QEMU like it */
    .data : { *(.data .data.* .sdata .sdata.*) }
    .bss : { *(.sbss .sbss.* .bss .bss.* COMMON) }
    end = ALIGN(16);
    .stack end (NOLOAD) : { . += 0x10000 - end; }
}
ASSERT(SIZEOF(.stack) >= 1024, "less than 1,024 bytes are left for the stack")
