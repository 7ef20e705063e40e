/* Code at 00010000, where the text of a region begins, and data above the largest region, which ends at 04010000.

   nc_base and nc_data, where they are defined (nc-cc: --base and --data), are other addresses. The file's segments are then: code (R+X), which
   is the chunk; constants (R); data (R+W), whose rest beyond the file's bytes is to be zero; the heap may begin at _end. */
ENTRY(start)
SECTIONS {
    /* Not in the chunk: only there for a trial, with the code of a host for Linux, at a bundle start of the region. */
    .host 0x03ff0000 : { *(.host) }

    .text DEFINED(nc_base) ? nc_base : 0x00010000 : {
        *(.text.start) *(.text .text.*)
        INPUT_SECTION_FLAGS(SHF_EXECINSTR) *(*)
        . = ALIGN(32);
        __text_end = .;
    } = 0x90909090
    /* A number, and no label of the code: the first function's name is the only one there. */
    __text_start = ABSOLUTE(ADDR(.text));

    .rodata DEFINED(nc_data) ? nc_data : 0x04010000 : { __rodata_start = .; *(.rodata .rodata.*) *(.gcc_except_table .gcc_except_table.*) }
    .eh_frame : { PROVIDE(__eh_frame_start = .); KEEP(*(.eh_frame)) KEEP(*(.eh_frame_end)) }
    . = ALIGN(0x1000);
    .data : { __data_start = .; *(.data .data.*) *(.got .got.plt) }
    .init_array : {
        __init_array_start = .;
        KEEP(*(SORT_BY_INIT_PRIORITY(.init_array.*)))
        KEEP(*(.init_array))
        __init_array_end = .;
        __fini_array_start = .;
        KEEP(*(SORT_BY_INIT_PRIORITY(.fini_array.*)))
        KEEP(*(.fini_array))
        __fini_array_end = .;
    }
    .bss : { __bss_start = .; *(.bss .bss.* COMMON) }
    . = ALIGN(16);
    _end = .;
    /DISCARD/ : { *(.comment) *(.note .note.*) *(.eh_frame_hdr) }
}
/* The host's trampolines: bundle starts below 00010000. */
PROVIDE(host_exit = 0x00000020);
PROVIDE(host_print = 0x00000040);
/* The calls of nc-run (nc_run.h). */
PROVIDE(nc_exit = 0x00000040);
PROVIDE(nc_read = 0x00000100);
PROVIDE(nc_write = 0x00000120);
PROVIDE(nc_clock = 0x00000140);
PROVIDE(nc_memory = 0x00000160);
PROVIDE(nc_open = 0x00000180);
PROVIDE(nc_close = 0x000001a0);
PROVIDE(nc_lseek = 0x000001c0);
PROVIDE(nc_size = 0x000001e0);
PROVIDE(nc_hole = 0x00000200);
PROVIDE(nc_create = 0x00000220);
PROVIDE(nc_patch = 0x00000240);
PROVIDE(nc_delete = 0x00000260);
PROVIDE(nc_status = 0x00000280);
PROVIDE(nc_list = 0x000002a0);
PROVIDE(nc_link = 0x000002c0);
PROVIDE(nc_enter = 0x000002e0);
PROVIDE(nc_where = 0x00000300);
PROVIDE(nc_make = 0x00000320);
PROVIDE(nc_remove = 0x00000340);
PROVIDE(nc_rename = 0x00000360);
PROVIDE(nc_cut = 0x00000380);
PROVIDE(nc_change = 0x000003a0);
PROVIDE(nc_copy = 0x000003c0);
PROVIDE(nc_terminal = 0x000003e0);
PROVIDE(nc_sleep = 0x00000400);
PROVIDE(nc_random = 0x00000420);
PROVIDE(nc_pipe = 0x00000440);
PROVIDE(nc_flush = 0x00000460);
PROVIDE(nc_poll = 0x00000480);
