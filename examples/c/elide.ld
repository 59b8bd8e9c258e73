/* All code first, from 0x1000 on, and behind it constants, data and zeros: what `elide` takes. */
ENTRY(_start)

PHDRS
{
  code PT_LOAD FLAGS(5);
  data PT_LOAD FLAGS(6);
}

SECTIONS
{
  . = 0x1000;
  .text : { *(.text.start) *(.text .text.*) } :code
  . = ALIGN(64);
  .rodata : { *(.rodata .rodata.*) } :data
  .data : { *(.data .data.*) } :data
  .bss : { *(.bss .bss.* COMMON) } :data
  /DISCARD/ : { *(.comment) *(.note .note.*) *(.eh_frame) *(.eh_frame_hdr) }
}
