/* RAM from 0x80000000 on; its first MiB is enough. */
ENTRY(_start)
MEMORY
{
    ram (rwx) : ORIGIN = 0x80000000, LENGTH = 1M
}
SECTIONS
{
    .text : { *(.text.start) *(.text .text.*) } > ram
    .rodata : { *(.rodata .rodata.* .srodata .srodata.*) } > ram
    .data : ALIGN(8) { *(.data .data.* .sdata .sdata.*) } > ram
    .bss : ALIGN(8) { *(.sbss .sbss.* .bss .bss.* COMMON) } > ram
    /DISCARD/ : { *(.comment .riscv.attributes .note*) }
    __stack_top = ORIGIN(ram) + LENGTH(ram);
}
