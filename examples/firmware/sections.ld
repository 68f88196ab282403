/* What goes where, in a device with FLASH and RAM: the vectors first, the stack from RAM's end downwards. */
ENTRY(_start)
SECTIONS {
    .text : { KEEP(*(.vectors)) *(.text .text.*) *(.rodata .rodata.* .srodata .srodata.*) . = ALIGN(8); } > FLASH
    .data : { data_start = .; *(.data .data.* .sdata .sdata.*) . = ALIGN(8); data_end = .; } > RAM AT > FLASH
    .bss (NOLOAD) : { bss_start = .; *(.sbss .sbss.* .bss .bss.* COMMON) . = ALIGN(8); bss_end = .; } > RAM
    /DISCARD/ : { *(.ARM.exidx* .ARM.extab* .eh_frame*) }
}
data_in_flash = LOADADDR(.data);
__global_pointer$ = data_start + 0x800;
heap_start = bss_end;
stack_top = ORIGIN(RAM) + LENGTH(RAM);
