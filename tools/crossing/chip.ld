/* A Cortex-M on the board mps2-an386. The stack is at the beginning of memory, so what goes over its end is a fault. */
MEMORY {
    ROM (rx) : ORIGIN = 0x00000000, LENGTH = 4M
    RAM (rwx) : ORIGIN = 0x20000000, LENGTH = 4M
}
CHIP_STACK = 512K;
SECTIONS {
    .text : {
        KEEP(*(.vectors)) *(.text*) *(.rodata*) . = ALIGN(8);
        chip_starts = .; KEEP(*(.init_array*)) chip_starts_end = .;
        . = ALIGN(8);
    } > ROM
    .ARM.exidx : { __exidx_start = .; *(.ARM.exidx* .ARM.extab*) __exidx_end = .; } > ROM
    .stack (NOLOAD) : { chip_stack = .; . = . + CHIP_STACK; chip_stack_top = .; } > RAM
    .data : { . = ALIGN(8); chip_data = .; *(.data*) . = ALIGN(8); chip_data_end = .; } > RAM AT > ROM
    chip_data_kept = LOADADDR(.data);
    .bss (NOLOAD) : { . = ALIGN(8); chip_bss = .; *(.bss*) *(COMMON) . = ALIGN(8); chip_bss_end = .; } > RAM
    end = .; chip_heap = .;
    chip_heap_end = ORIGIN(RAM) + LENGTH(RAM);
}
