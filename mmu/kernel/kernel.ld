/* Where the firmware of QEMU's machine virt hands over. */
ENTRY(_start)
SECTIONS {
  . = 0x80200000;
  .text : { *(.text.entry) *(.text .text.*) }
  . = ALIGN(4096);
  .rodata : { *(.rodata .rodata.* .srodata .srodata.*) }
  .data : { *(.data .data.* .sdata .sdata.*) }
  . = ALIGN(4096);
  bss_start = .;
  .bss : { *(.sbss .sbss.*) *(.bss .bss.*) *(COMMON) }
  . = ALIGN(4096);
  bss_end = .;
  /DISCARD/ : { *(.comment) *(.riscv.attributes) *(.eh_frame) *(.note*) }
}
