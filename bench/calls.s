# Makes COUNT times 4,096 calls of the number CALL on the path at the end, from the working directory, with the third argument THIRD, or
# an address of 4,096 mapped bytes where that is -1; each answer that OPENS a descriptor is closed, and the file removed where it REMOVES it.
# Ends with exit(2) and 0, or with 1 where a call answers an error.
        addi    a7, zero, 222       # mmap
        addi    a0, zero, 0
        lui     a1, 1
        addi    a2, zero, 3
        addi    a3, zero, 0x22
        addi    a4, zero, -1
        addi    a5, zero, 0
        ecall
        addi    s2, zero, THIRD
        addi    t0, zero, -1
        bne     s2, t0, begin
        addi    s2, a0, 0
begin:
        lui     s1, COUNT
        beq     s1, zero, done
again:
        addi    a7, zero, CALL
        addi    a0, zero, -100
        lla     a1, path
        addi    a2, s2, 0
        addi    a3, zero, 0
        ecall
        blt     a0, zero, failed
.if OPENS
        addi    a7, zero, 57        # close
        ecall
.endif
.if REMOVES
        addi    a7, zero, 35        # unlinkat
        addi    a0, zero, -100
        lla     a1, path
        addi    a2, zero, 0
        ecall
        blt     a0, zero, failed
.endif
        addi    s1, s1, -1
        bne     s1, zero, again
done:
        addi    a7, zero, 93        # exit
        addi    a0, zero, 0
        ecall
failed:
        addi    a7, zero, 93
        addi    a0, zero, 1
        ecall
path:
