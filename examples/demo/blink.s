# Turns a lamp on and off 1,000 times. The lamp is a word of attested memory, so each store may have to wait for a lock.
.segment 0x80000100
.entry main
main:   la   s0, lamp
        li   s1, 1000
again:  lw   a0, 0(s0)
        xori a0, a0, 1
        sw   a0, 0(s0)
        addi s1, s1, -1
        bnez s1, again
        li   a7, 93
        ecall

.segment 0x80000200
lamp:   .word 0
