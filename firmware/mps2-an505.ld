/* QEMU's mps2-an505: code in the secure SSRAM1, data and stack in the secure SSRAM2 and 3. QEMU loads both, so nothing is copied at reset. */
MEMORY {
  CODE (rx) : ORIGIN = 0x10000000, LENGTH = 4M
  DATA (rw) : ORIGIN = 0x38000000, LENGTH = 4M
}
ENTRY(reset)
SECTIONS {
  .text : { KEEP(*(.vectors)) *(.text .text.*) *(.rodata .rodata.*) } > CODE
  .ARM.exidx : { __exidx_start = .; *(.ARM.exidx*) __exidx_end = .; } > CODE
  .ARM.extab : { *(.ARM.extab*) } > CODE
  .init_array : {
    __preinit_array_start = .; __preinit_array_end = .;
    __init_array_start = .; KEEP(*(.init_array*)) __init_array_end = .;
    __fini_array_start = .; KEEP(*(.fini_array*)) __fini_array_end = .;
  } > CODE
  .data : { *(.data .data.*) . = ALIGN(8); } > DATA
  .bss (NOLOAD) : { bss_start = .; *(.bss .bss.*) *(COMMON) . = ALIGN(8); bss_end = .; } > DATA
  end = .;
  stack_top = ORIGIN(DATA) + LENGTH(DATA);
}
