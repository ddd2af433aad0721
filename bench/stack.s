# Stores to the program's stack and loads from it, 5,001,216 times, and then exit(2) with the low 7 bits of
# what came out.
        lui     t0, 1221            # 5,001,216 rounds
loop:
        sd      s1, -8(sp)
        sw      t0, -16(sp)
        sb      t0, -24(sp)
        ld      t1, -8(sp)
        lw      t2, -16(sp)
        lbu     t3, -24(sp)
        add     s1, t1, t1
        add     s1, s1, t2
        add     s1, s1, t3
        addi    t0, t0, -1
        bne     t0, zero, loop
        andi    a0, s1, 127
        addi    a7, zero, 93
        ecall
