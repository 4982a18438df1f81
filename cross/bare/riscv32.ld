/* The board virt: 8 MB from 0x80000000, of which the last 2 MB are the stack. */
__flash = 0x80000000;
__flash_size = 2M;
__ram = 0x80200000;
__ram_size = 6M;
__stack_size = 2M;
INCLUDE picolibc.ld
stack_bottom = __ram + __ram_size - __stack_size;
