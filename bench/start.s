# Writes one byte of its own to descriptor 1, and ends with exit(2) and 0.
        addi    a7, zero, 64        # write
        addi    a0, zero, 1
        lui     a1, 16
        addi    a2, zero, 1
        ecall
        addi    a7, zero, 93        # exit
        addi    a0, zero, 0
        ecall
