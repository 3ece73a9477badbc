# Counts to 1,000 in memory that isn't attested, and exits with what it has counted.
.segment 0x80000000
.entry main
main:   li   s0, 0x80000800
        li   s1, 1000
again:  lw   a0, 0(s0)
        addi a0, a0, 1
        sw   a0, 0(s0)
        bne  a0, s1, again
        li   a7, 93
        ecall
