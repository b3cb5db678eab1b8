/* All lies from address 0 on, the start first. */
ENTRY(_start)
SECTIONS
{
    .text 0 : { *(.text.start) *(.text .text.*) }
    .data : { *(.rodata .rodata.* .srodata .srodata.* .data .data.* .sdata .sdata.*) }
    .bss : { *(.sbss .sbss.* .bss .bss.* COMMON) }
}
