/*
 * Places a guest as mcexec wants an image: no two segments share a page, the headers stand in the first, and nothing
 * is dynamic.
 */

ENTRY(_start)

PHDRS
{
    text PT_LOAD FILEHDR PHDRS FLAGS(5);
    constants PT_LOAD FLAGS(4);
    data PT_LOAD FLAGS(6);
}

SECTIONS
{
    . = 0x10000 + SIZEOF_HEADERS;

    .text : {
        *(.text.start)
        *(.text .text.*)
    } :text

    . = ALIGN(0x1000);

    .rodata : {
        *(.rodata .rodata.*)
        *(.srodata .srodata.*)
        *(.data.rel.ro .data.rel.ro.*)
        *(.got .got.*)

        . = ALIGN(8);
        __preinit_array_start = .;
        KEEP(*(.preinit_array))
        __preinit_array_end = .;
        __init_array_start = .;
        KEEP(*(SORT_BY_INIT_PRIORITY(.init_array.*)))
        KEEP(*(.init_array))
        __init_array_end = .;
        __fini_array_start = .;
        KEEP(*(SORT_BY_INIT_PRIORITY(.fini_array.*)))
        KEEP(*(.fini_array))
        __fini_array_end = .;
    } :constants

    /*
     * What each thread's own variables begin with. It is only read: the first thread has a copy in .bss, the others
     * where they ask for it.
     */
    . = ALIGN(64);
    __tls_source = .;
    .tdata : {
        *(.tdata .tdata.*)
    } :constants
    __tls_source_end = .;
    .tbss : {
        *(.tbss .tbss.* .tcommon)
        __tls_source_zeros_end = .;
    } :constants
    __tls_copied = __tls_source_end - __tls_source;
    __tls_size = MAX(__tls_source_zeros_end, __tls_source_end) - __tls_source;

    . = ALIGN(0x1000);

    .data : {
        *(.data .data.*)
        . = ALIGN(8);
        __global_pointer$ = . + 0x800;
        *(.sdata .sdata.*)
    } :data

    .bss : {
        *(.sbss .sbss.* .scommon)
        *(.bss .bss.* COMMON)
        . = ALIGN(64);
        __tls_first = .;
        . += __tls_size;
    } :data
    _end = .;
    end = .;

    .comment 0 : { *(.comment) }
    .debug_info 0 : { *(.debug_info) }
    .debug_abbrev 0 : { *(.debug_abbrev) }
    .debug_line 0 : { *(.debug_line) }
    .debug_line_str 0 : { *(.debug_line_str) }
    .debug_str 0 : { *(.debug_str) }
    .debug_aranges 0 : { *(.debug_aranges) }
    .debug_rnglists 0 : { *(.debug_rnglists) }
    .debug_loclists 0 : { *(.debug_loclists) }
    .debug_frame 0 : { *(.debug_frame) }
    /DISCARD/ : { *(.eh_frame) *(.note .note.*) *(.riscv.attributes) }
}
