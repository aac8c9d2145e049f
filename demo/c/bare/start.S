// The processor's start: a stack, vector registers and an identity map, then start() of bare.c.
.global _start
_start:
    ldr x0, =stack_top
    mov sp, x0
    mov x0, #(3 << 20)          // FPEN: the library's code has vector registers
    msr cpacr_el1, x0
    // The first GiB is device memory, the second normal memory. Without the map all memory counts as device memory, and the
    // unaligned loads of the library's code fault.
    ldr x0, =0xff00             // attribute 0: device; 1: normal, write back
    msr mair_el1, x0
    ldr x0, =0x200803519        // T0SZ 25, write back, inner shareable, granule of 4 KiB, EPD1
    orr x0, x0, #(1 << 23)
    msr tcr_el1, x0
    ldr x0, =table
    mov x1, #0x401              // block, AF, attribute 0
    str x1, [x0]
    ldr x1, =0x40000705         // block, AF, inner shareable, attribute 1
    str x1, [x0, #8]
    msr ttbr0_el1, x0
    dsb sy
    isb
    mrs x0, sctlr_el1
    orr x0, x0, #1              // the map
    orr x0, x0, #4              // the data cache
    msr sctlr_el1, x0
    isb
    bl start
1:  wfi
    b 1b
.bss
.balign 4096
table: .skip 4096
.balign 16
.global stack
stack: .skip 131072
stack_top:
