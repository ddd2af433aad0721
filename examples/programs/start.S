# Where a program begins: the first stack has the number of arguments, their addresses, 0, those of the environment, 0.
    .globl _start
_start:
    # The linker shortens addresses by way of gp once it is set, so this one stands as it is written.
    .option push
    .option norelax
    la gp, __global_pointer$
    .option pop
    ld a0, 0(sp)
    addi a1, sp, 8
    slli a2, a0, 3
    add a2, a2, a1
    addi a2, a2, 8
    call main
    li a7, 93
    ecall
