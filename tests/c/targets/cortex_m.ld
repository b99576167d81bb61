/* Flash at 0 and memory at 0x20000000, as most Cortex-M have them; their sizes come from the command line: --defsym=flash_size=N --defsym=ram_size=N. */
MEMORY
{
    flash (rx) : ORIGIN = 0, LENGTH = flash_size
    ram (rwx) : ORIGIN = 0x20000000, LENGTH = ram_size
}
ENTRY(reset)
SECTIONS
{
    .text : { KEEP(*(.vectors)) *(.text .text.* .rodata .rodata.*) . = ALIGN(4); } >flash
    .ARM.extab : { *(.ARM.extab* .gnu.linkonce.armextab.*) } >flash
    .ARM.exidx : { __exidx_start = .; *(.ARM.exidx* .gnu.linkonce.armexidx.*) __exidx_end = .; . = ALIGN(4); } >flash
    .data : { data_start = .; *(.data .data.*) . = ALIGN(4); data_end = .; } >ram AT>flash
    data_from = LOADADDR(.data);
    .bss (NOLOAD) : { bss_start = .; *(.bss .bss.* COMMON) . = ALIGN(4); bss_end = .; } >ram
    end = ALIGN(8); /* where newlib's heap starts, which grows towards the stack */
    stack_top = ORIGIN(ram) + LENGTH(ram);
}
