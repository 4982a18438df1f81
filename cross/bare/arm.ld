/* The boards mps2-an385 and mps2-an386: code and constants at 0, and 4 MB of memory, of which the upper half is the stack. */
ENTRY(reset)
MEMORY {
    CODE (rx) : ORIGIN = 0x00000000, LENGTH = 4M
    DATA (rwx) : ORIGIN = 0x20000000, LENGTH = 4M
}
SECTIONS {
    .text : { KEEP(*(.vectors)) *(.text*) *(.rodata*) . = ALIGN(4); } > CODE
    .ARM.exidx : { *(.ARM.exidx*) } > CODE
    .data : { data_begin = .; *(.data*) . = ALIGN(4); data_end = .; } > DATA AT > CODE
    data_load = LOADADDR(.data);
    .bss : { . = ALIGN(8); bss_begin = .; *(.bss*) *(COMMON) . = ALIGN(8); bss_end = .; end = .; } > DATA
    stack_bottom = ORIGIN(DATA) + LENGTH(DATA) - 2M;
    stack_top = ORIGIN(DATA) + LENGTH(DATA);
}
