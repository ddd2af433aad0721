# Maps PAGES pages, writes one byte into each, and makes FORKS children with fork(2), of which each exits at once and is
# waited for; then exit(2) with 0.
        addi    a7, zero, 222       # mmap
        addi    a0, zero, 0
        lui     a1, PAGES
        addi    a2, zero, 3
        addi    a3, zero, 0x22
        addi    a4, zero, -1
        addi    a5, zero, 0
        ecall
        lui     t0, PAGES
        add     t0, t0, a0
        lui     t1, 1
touch:
        sb      t1, 0(a0)
        add     a0, a0, t1
        bltu    a0, t0, touch
        li      s1, FORKS
        beq     s1, zero, child
fork:
        addi    a7, zero, 220       # clone
        addi    a0, zero, 17
        addi    a1, zero, 0
        addi    a2, zero, 0
        addi    a3, zero, 0
        addi    a4, zero, 0
        ecall
        beq     a0, zero, child
        addi    a7, zero, 260       # wait4
        addi    a0, zero, -1
        addi    a1, zero, 0
        addi    a2, zero, 0
        addi    a3, zero, 0
        ecall
        addi    s1, s1, -1
        bne     s1, zero, fork
child:
        addi    a7, zero, 93        # exit
        addi    a0, zero, 0
        ecall
