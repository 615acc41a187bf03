/* link.ld - where the program lies, for the C preprocessor and then for the linker: its first instruction at its first
   byte, and the note by which QEMU's -kernel finds it */

#include "map.h"

ENTRY(start)

/* no part of the program: memory that it finds */
given = GIVEN;
film = FILM;
kept = KEPT;

PHDRS {
    code PT_LOAD FLAGS(5);
    data PT_LOAD FLAGS(6);
    note PT_NOTE FLAGS(4);
}

SECTIONS {
    . = PROGRAM;
    .text : { *(.text.start) *(.text .text.*) } :code
    .note : { KEEP(*(.note.start)) } :code :note
    .rodata : { *(.rodata .rodata.*) } :code
    .data : { *(.data .data.*) } :data
    .bss : {
        . = ALIGN(16);
        bss_start = .;
        *(.bss .bss.* COMMON)
        . = ALIGN(16);
        bss_end = .;
    }
    ASSERT(. <= LARGE_PAGE, "the program passes what is mapped")
    /DISCARD/ : { *(.comment) *(.eh_frame) *(.note.GNU-stack) *(.note.gnu.property) }
}
