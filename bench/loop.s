# Arithmetic on what is loaded from the program's own page, 5,001,216 times, and then exit(2) with the
# low 7 bits of what was counted.
        lui     s0, 16
        lui     t0, 1221            # 5,001,216 rounds
loop:
        ld      t1, 0(s0)
        lw      t2, 24(s0)
        lbu     t3, 18(s0)
        add     s1, s1, t1
        xor     s1, s1, t2
        slli    t4, t3, 3
        sub     s1, s1, t4
        mul     s2, s1, t3
        sltu    t5, s1, s2
        add     s3, s3, t5
        addi    t0, t0, -1
        bne     t0, zero, loop
        andi    a0, s3, 127
        addi    a7, zero, 93
        ecall
