// Start-up of a bare-metal program on qemu's `virt`, cortex-a53, entered at EL1 with MMU and caches off.
    .section .text.boot, "ax"
    .global _start
_start:
    mrs x1, mpidr_el1
    and x1, x1, #0xff
    cbnz x1, halt                    // one processor only
    mov x1, #(3 << 20)               // CPACR_EL1.FPEN: the library's code holds 128-bit vector stores
    msr cpacr_el1, x1
    isb
    adr x1, vectors
    msr vbar_el1, x1
    ldr x1, =stack_top
    mov sp, x1
    ldr x1, =bss_start               // the file behind RAM keeps what a former run left there
    ldr x2, =bss_end
1:  cmp x1, x2
    b.hs 2f
    stp xzr, xzr, [x1], #16
    b 1b
2:
    // a table of level 1 over 39 bits, 1 GiB a block:
    //   0x00000000  devices, and the flash where commands go out: device-nGnRnE
    //   0x40000000  RAM: normal, write-back
    //   0x80000000  the first again, where the flash is read: normal, not cached
    //   0xc0000000  the second again, where the SRAM is used: normal, not cached
    ldr x1, =table
    mov x2, #0x401                   // block, AF, attribute 0, and never executed
    movk x2, #0x60, lsl #48
    str x2, [x1]
    ldr x3, =(0x40000000 | 0x705)    // block, AF, inner shareable, attribute 1
    str x3, [x1, #8]
    add x2, x2, #8                   // attribute 2
    str x2, [x1, #16]
    mov x3, #0x40000000
    add x2, x2, x3
    str x2, [x1, #24]
    movz x2, #0xff00                 // 0 device-nGnRnE, 1 write-back, 2 non-cacheable
    movk x2, #0x44, lsl #16
    msr mair_el1, x2
    ldr x2, =((2 << 32) | (1 << 23) | (3 << 12) | (1 << 10) | (1 << 8) | 25)
    msr tcr_el1, x2
    msr ttbr0_el1, x1
    dsb sy
    tlbi vmalle1
    dsb sy
    isb
    mrs x2, sctlr_el1
    ldr x3, =0x1005                  // M, C, I
    orr x2, x2, x3
    bic x2, x2, #2
    msr sctlr_el1, x2
    isb
    bl main
    b finish
halt:
    wfi
    b halt

// finish(code): ends qemu by semihosting with this status
    .global finish
finish:
    sub sp, sp, #16
    ldr x1, =0x20026                 // ADP_Stopped_ApplicationExit
    stp x1, x0, [sp]
    mov x1, sp
    mov w0, #0x18
    hlt #0xf000
    b halt

    .balign 2048
vectors:
    .rept 16
    b trapped
    .balign 128
    .endr
trapped:
    mrs x0, esr_el1
    mrs x1, elr_el1
    mrs x2, far_el1
    ldr x3, =stack_top
    mov sp, x3
    b trap

    .section .bss.table, "aw", %nobits
    .balign 4096
table:
    .skip 4096
