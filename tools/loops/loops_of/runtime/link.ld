/* Where things are: variables, heap and stack at the same addresses in all builds of a program, and behind them what
   loops-of adds. @WORDS@ are filled in. */
ENTRY(loops_start)
SECTIONS
{
  . = @START@;
  .text : { *(.text.loops_body) *(.text .text.*) }
  .rodata ALIGN(32) : {
    *(.rodata .rodata.*) *(.srodata .srodata.*)
    . = ALIGN(4);
    __init_array_start = .;
    KEEP(*(.preinit_array)) KEEP(*(SORT_BY_INIT_PRIORITY(.init_array.*) .init_array))
    __init_array_end = .;
    __fini_array_start = .; KEEP(*(.fini_array .fini_array.*)) __fini_array_end = .;
  }
  loops_constants_end = .;
  . = MAX(ALIGN(4096), @DATA@);
  loops_data = .;
  .data : { *(.data .data.*) *(.sdata .sdata.*) }
  .tdata ALIGN(32) : { loops_thread = .; *(.tdata .tdata.*) *(.tbss .tbss.*) }
  .bss ALIGN(32) : { *(.sbss .sbss.*) *(.bss .bss.*) *(COMMON) }
  . = ALIGN(32);
  __global_pointer$ = 0;
  __heap_start = .;
  . += @HEAP@;
  __heap_end = .;
  . = ALIGN(4096);
  loops_guard = .;
  . += 4096 + @STACK@;
  . = ALIGN(32);
  loops_stack_end = .;
  . += 64;
  .loops : { *(.loops) }
  . = ALIGN(32);
  loops_end = .;
  /DISCARD/ : { *(.comment) *(.riscv.attributes) *(.note .note.*) *(.eh_frame) *(.eh_frame_hdr)
                *(.gcc_except_table .gcc_except_table.*) }
}
