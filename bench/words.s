# Ends with exit(2), with the number of its arguments divided by 256.
        ld      a0, 0(sp)
        srli    a0, a0, 8
        addi    a7, zero, 93        # exit
        ecall
