/* All lies from address 256 on. The functions and the numbers have places of their own, the same with each compiler. */
ENTRY(_start)
SECTIONS
{
    .start 0x100 : { *(.text.start) }
    .sort 0x140 : { *(.text.sort) }
    .text 0x1c0 : { *(.text .text.*) }
    .data 0x240 : { *(.rodata .rodata.* .srodata .srodata.* .data .data.* .sdata .sdata.*) }
    .bss : { *(.sbss .sbss.* .bss .bss.* COMMON) }
}
