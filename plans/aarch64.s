// Prints a line, and ends with the status that a thread-local variable has: 42 (Linux on AArch64). The function that prints stands
// 128 MiB away, so that the call comes to it by a thunk.
    .section .rodata, "a", %progbits
    .globl message
message:
    .ascii "Called by a thunk.\n"
    .set .Llength, . - message

    .section .tdata, "awT", %progbits
    .globl status
    .balign 16
status:
    .word 42

    .globl _start
    .section .text._start, "ax", %progbits
    .balign 4
_start:
    adrp x0, __tdata_start                      // the one thread's block is the data that a thread begins with: its pointer stands
    add x0, x0, :lo12:__tdata_start             // 16 bytes before that (AAPCS64, "Thread Local Storage")
    sub x0, x0, #16
    msr tpidr_el0, x0
    adrp x1, message                            // the page of an address: R_AARCH64_ADR_PREL_PG_HI21
    add x1, x1, :lo12:message                   // and its low bits: R_AARCH64_ADD_ABS_LO12_NC
    mov x2, #.Llength
    bl print                                    // a call: R_AARCH64_CALL26
    mrs x0, tpidr_el0
    add x0, x0, :tprel_hi12:status, lsl #12     // an offset from the thread pointer: R_AARCH64_TLSLE_ADD_TPREL_HI12
    add x0, x0, :tprel_lo12_nc:status           // and R_AARCH64_TLSLE_ADD_TPREL_LO12_NC
    ldr w0, [x0]
    mov x8, #93                                 // exit
    svc #0

    .globl print
    .section .text.far, "ax", %progbits
    .balign 4
print:
    mov x0, #1                                  // standard output
    mov x8, #64                                 // write
    svc #0
    ret
