# Prints a line and ends with status 7 (Linux on x86-64). Each function has a section of its own, so that the plan has
# more than one input section in a part.
    .globl _start
    .section .text._start, "ax", @progbits
    .balign 16
_start:
    leaq message(%rip), %rsi        # a reference to a string: R_X86_64_PC32
    movl $.Llength, %edx
    call print                      # a call: R_X86_64_PLT32 in the object, R_X86_64_PC32 in the plan
    movl $7, %edi
    movl $60, %eax                  # exit
    syscall

    .globl print
    .section .text.print, "ax", @progbits
    .balign 16
print:
    movl $1, %edi                   # standard output
    movl $1, %eax                   # write
    syscall
    ret

    .section .rodata, "a", @progbits
    .globl message
message:
    .ascii "Hello from a plan.\n"
    .set .Llength, . - message
